"""A stream head: what it does with what comes up, read(2) and getmsg(2) of it, streamio(7I)."""
from .messages import FLUSHBAND, FLUSHR, FLUSHW, M_DATA, M_FLUSH, M_HANGUP, M_IOCACK, M_IOCNAK, M_IOCTL, M_PCPROTO, M_PCSIG, M_PROTO, M_SETOPTS
from .messages import Queue, flushes, size_of
from .modules import asked, message, other, refused

RNORM, RMSGD, RMSGN = range(3)
RPROTNORM, RPROTDAT, RPROTDIS = range(3)


class Refused(Exception):
    """A call that is refused by name."""


class Waits:
    """An ioctl under way: its answer is None, or (whether it was obeyed, what its caller is told)."""

    def __init__(self, number, command):
        self.number, self.command, self.answer = number, command, None


class Head:
    def __init__(self, pair, side):
        self.pair, self.side = pair, side
        self.mode, self.control_mode = RNORM, RPROTNORM
        self.hung_up = self.tostop = False
        self.group, self.signals, self.waits = 0, [], None
        self.r = Queue(5120, 1024)

    def put_up(self, it):
        """What comes up."""
        pool = self.pair.pool
        if it.kind in (M_DATA, M_PROTO, M_PCPROTO):
            if it.kind == M_PCPROTO and any(stands.kind == M_PCPROTO for stands in self.r.messages):
                self.pair.gone(other(self.side), "doubled", it.size)
            else:
                self.r.put(it)
                return []
        elif it.kind == M_IOCTL and it.size >= 16 and asked(it)[1] != 0:
            return [(False, refused(pool, it))]
        else:
            self.takes(it.kind, it.text)
        pool.free(it.chain)
        if it.kind == M_FLUSH and it.text[0] & FLUSHW:
            return [(False, message(pool, M_FLUSH, bytes([it.text[0] & ~FLUSHR]) + it.text[1:]))]
        return []

    def takes(self, kind, text):
        if kind == M_FLUSH and text[0] & FLUSHR:
            self.pair.flush_queue(self.side, "head", "r", flushes(text[1] if text[0] & FLUSHBAND else None))
        elif kind == M_PCSIG and text[0] not in self.signals:
            self.signals.append(text[0])
        elif kind == M_SETOPTS:
            self.mode = text[0]
            self.tostop = bool(text[1])
        elif kind == M_HANGUP:
            self.hung_up = True
        elif kind in (M_IOCACK, M_IOCNAK) and self.waits and not self.waits.answer:
            if int.from_bytes(text[4:8], "big") == self.waits.number:
                self.waits.answer = kind == M_IOCACK, text[16:]

    def at_the_end(self):
        """An empty queue is the end of input behind a hang-up; at a master whose slave was closed, where no M_DATA or M_PROTO stands towards it."""
        if not self.hung_up and (self.side == "s" or not self.pair.slave_went()):
            raise Refused("EAGAIN")

    def gone(self, rule, count):
        self.pair.gone(other(self.side), rule, count)

    def readable(self):
        """The place of the first message that a read may take from; None where there is none."""
        places = (at for at, it in enumerate(self.r.messages) if self.control_mode != RPROTDIS or it.data is not None)
        return next(places, None)

    def read(self, count):
        if count == 0:
            return b""
        at = self.readable()
        if at is None:
            self.at_the_end()
            return b""
        if self.control_mode == RPROTNORM and self.r.messages[at].control is not None:
            raise Refused("EBADMSG")
        before, text = self.r.size, b""
        while True:
            part, is_whole = self.read_one(at, count - len(text))
            text += part
            at = self.readable()
            if self.mode != RNORM or not is_whole or not part or len(text) == count or at is None:
                break
            it = self.r.messages[at]
            bytes_there = size_of(it.data) + (size_of(it.control) if self.control_mode == RPROTDAT else 0)
            if self.control_mode == RPROTNORM and it.control is not None or bytes_there == 0:
                break
        self.gone("read", len(text))
        if self.r.size < before:
            self.pair.back_enable(self.side, "head", "r")
        return text

    def read_one(self, at, count):
        """Takes up to so many bytes of the message at a place: (these, whether none of it is left)."""
        pool = self.pair.pool
        passed = [self.r.take() for _ in range(at)]
        self.gone("control-dropped", sum(it.size for it in passed))
        for it in passed:
            pool.free(it.chain)
        it = self.r.take()
        text = b""
        if self.control_mode == RPROTDIS:
            self.gone("control-dropped", size_of(it.control))
            pool.free(it.control or [])
            it.control = None
        elif it.control is not None:
            text, it.control = self.part(it.control, count)
        if it.data is not None:
            more, it.data = self.part(it.data, count - len(text))
            text += more
        is_whole = it.control is None and it.data is None
        if not is_whole and self.mode == RMSGD:
            self.gone("rest-discarded", it.size)
            pool.free(it.chain)
        elif not is_whole:
            self.keep(it)
        return text, is_whole

    def part(self, chain, count):
        """(up to so many bytes of a part, what stays of it)."""
        size = size_of(chain)
        text = self.pair.pool.take(chain, min(size, count))
        if size <= count:
            self.pair.pool.free(chain)
            return text, None
        return text, chain

    def keep(self, it):
        """Puts back the rest of a message."""
        if it.control is None:
            it.kind, it.band = M_DATA, 0 if it.kind == M_PCPROTO else it.band
        self.r.put_back(it)

    def get(self, what, most_control, most_data):
        """(band or None for high priority, control, data, whether there is more of each)."""
        if not self.r.messages:
            self.at_the_end()
            return 0, None, None, False, False
        first = self.r.messages[0]
        if first.rank < 256 and (what == "hi" or what != "any" and first.band < what):
            raise Refused("EAGAIN")
        it = self.r.take()
        before, kind, band = it.size, it.kind, it.band
        control = data = None
        if it.control is not None:
            control, it.control = self.part(it.control, most_control)
        if it.data is not None:
            data, it.data = self.part(it.data, most_data)
        more = it.control is not None, it.data is not None
        if any(more):
            self.keep(it)
        taken = before - (it.size if any(more) else 0)
        self.gone("read", taken)
        if taken:
            self.pair.back_enable(self.side, "head", "r")
        return None if kind == M_PCPROTO else band, control, data, *more
