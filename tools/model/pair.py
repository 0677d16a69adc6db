"""A pair of streams: its calls and turns, what they are refused for, and what is carried between its queues."""
import collections

from .head import RMSGD, RMSGN, RNORM, RPROTDAT, RPROTDIS, RPROTNORM, Head, Refused, Waits
from .messages import FLUSHBAND, FLUSHR, FLUSHW, M_DATA, M_FLUSH, M_HANGUP, M_IOCACK, M_IOCNAK, M_IOCTL, M_PCPROTO, M_PROTO
from .messages import M_SETOPTS, M_START, M_STOP, Message, Pool, Queue, flushes, size_of
from .modules import NAK_EINVAL, SETS, TIOCGPGRP, TIOCSIGNAL, TIOCSPGRP, TIOCSWINSZ, Ldterm, Pckt, Ptem, asked, header, message, other, refused

RULES = ["read", "igncr", "erase-key", "erased", "killed", "eof-key", "signal-key", "flow-key", "lnext-key", "reprint-key", "line-full", "line-over",
         "flushed", "rest-discarded", "control-dropped", "doubled", "module-popped", "end-closed", "replaced", "onocr", "echo-full"]
MODULES = {"ldterm": Ldterm, "ptem": Ptem, "pckt": Pckt}
MODES = {"norm": RNORM, "msgn": RMSGN, "msgd": RMSGD}
CONTROL_MODES = {"protnorm": RPROTNORM, "protdat": RPROTDAT, "protdis": RPROTDIS}
ENTRIES, ENTRY_BYTES = 8192, 262144
SIGTTIN, SIGTTOU = 26, 27
QUEUED = (M_DATA, M_PROTO, M_PCPROTO, M_STOP, M_START, M_IOCACK, M_IOCNAK)
NEVER, OPEN, CLOSED = range(3)


def all_of(_):
    return True


class Stopped(Exception):
    """A call from the background that is answered by a signal's number: it changes nothing, and has its entry."""


Caller = collections.namedtuple("Caller", "group ignores orphaned", defaults=(0, False, False))


class Pair:
    def __init__(self, blocks, entries=ENTRIES, entry_bytes=ENTRY_BYTES):
        self.limits = entries, entry_bytes
        self.pool, self.sides, self.locked, self.next = Pool(blocks), {"m": NEVER, "s": NEVER}, True, 1
        self.heads = {side: Head(self, side) for side in "ms"}
        self.modules, self.drivers = {"m": [], "s": []}, {"m": Queue(), "s": Queue()}
        self.enabled, self.callers = [], {"m": Caller(), "s": Caller()}
        self.written, self.made = {"m": 0, "s": 0}, {"m": 0, "s": 0}
        self.fates = {side: dict.fromkeys(RULES, 0) for side in "ms"}
        self.entries = self.entry_bytes = 0
        self.is_short = False

    def ldterm(self, side):
        return next((it for it in self.modules[side] if it.ldterm), None)

    def queue(self, side, place, way):
        if place == "drv":
            return self.drivers[side]
        if place == "head":
            return self.heads[side].r
        found = self.ldterm(side)
        return found and getattr(found, way)

    def gone(self, side, rule, count):
        self.fates[side][rule] += count

    def enable(self, *name):
        if name not in self.enabled:
            self.enabled.append(name)

    def put_queue(self, side, place, way, it):
        if self.queue(side, place, way).put(it):
            self.enable(side, place, way)
        return ()

    def earlier(self, side, place, way):
        """The nearest queue with a service procedure before a queue; None for a head's caller."""
        if place == "ldterm" and way == "w":
            return None
        if place == "drv":
            return (side, "ldterm", "w") if self.ldterm(side) else None
        if place == "head" and self.ldterm(side):
            return side, "ldterm", "r"
        return other(side), "drv", "w"

    def later(self, side, place, way):
        """The queue that is asked for room past a place."""
        if way == "w" and place != "drv":
            return (side, "ldterm", "w") if place == "head" and self.ldterm(side) else (side, "drv", "w")
        if place == "drv":
            side = other(side)
            return (side, "ldterm", "r") if self.ldterm(side) else (side, "head", "r")
        return side, "head", "r"

    def has_room(self, band, *place):
        return not self.queue(*self.later(*place)).full(band)

    def back_enable(self, *name):
        """Lets writers go that wait at a queue, and enables the queue before it."""
        before = self.earlier(*name)
        if self.queue(*name).released() and before:
            self.enable(*before)

    def flush_queue(self, side, place, way, wanted, rule="flushed"):
        """Drops messages of a queue; those that went."""
        gone = self.queue(side, place, way).drop(wanted)
        self.gone(side if way == "w" else other(side), rule, sum(it.booked for it in gone))
        for it in gone:
            self.pool.free(it.chain)
        if any(it.size for it in gone):
            self.back_enable(side, place, way)
        return gone

    def carry(self, side, at, is_up, it):
        """Carries a message to a place of a stream, from the head (-1) to its driver, with all that it gives rise to."""
        stack = self.modules[side]
        if at == len(stack):
            return self.put_driver(side, it)
        where = stack[at] if at >= 0 else self.heads[side]
        for goes_up, more in (where.put_up if is_up else where.put_down)(it):
            self.carry(side, at - 1 if goes_up else at + 1, goes_up, more)
        return None

    def up_from_driver(self, side, it):
        self.carry(side, len(self.modules[side]) - 1, True, it)

    def put_driver(self, side, it):
        peer = other(side)
        if it.kind == M_FLUSH:
            return self.flush_drivers(side, peer, it)
        queues = it.kind in QUEUED
        if it.kind == M_IOCTL:
            queues = it.size < 16 or asked(it)[1] == 0 or side == "m" and self.sides["s"] == OPEN
            if not queues:
                return self.up_from_driver(side, refused(self.pool, it))
        if queues and not (side == "s" and self.sides["m"] == CLOSED):
            return self.put_queue(side, "drv", "w", it)
        self.gone(side, "end-closed", it.booked)
        return self.pool.free(it.chain)

    def flush_drivers(self, side, peer, it):
        text = it.text
        self.pool.free(it.chain)
        band = text[1] if text[0] & FLUSHBAND else None
        going = bytes([FLUSHR | text[0] & FLUSHBAND]) + text[1:]
        sent = []
        if text[0] & FLUSHW:
            self.flush_queue(side, "drv", "w", flushes(band))
            sent += [peer] if self.sides[peer] == OPEN else []
        if text[0] & FLUSHR:
            self.flush_queue(peer, "drv", "w", flushes(band))
            sent.append(side)
        for to in sent:
            self.up_from_driver(to, message(self.pool, M_FLUSH, going))

    def slave_went(self):
        queues = [self.drivers["s"], self.heads["m"].r] + [it.r for it in self.modules["m"] if it.ldterm]
        return self.sides["s"] == CLOSED and not any(it.kind in (M_DATA, M_PROTO) for queue in queues for it in queue.messages)

    def turn(self, *name):
        """(what came of it, how many bytes of a message were treated)."""
        if name not in self.enabled:
            raise Refused("EINVAL")
        self.asks(0, 32 if name[1] == "ldterm" else 8)
        self.entries += 1
        self.enabled.remove(name)
        queue = self.queue(*name)
        if not queue.messages:
            queue.want_read = True
            return "idle", 0
        if not self.may_go(name, queue.messages[0]):
            queue.want_read = False
            return "blocked", 0
        it = queue.take()
        size = it.size
        treated = self.treat(name, it)
        if treated < size:
            self.is_short = True
            queue.put_back(it)
        if treated:
            self.back_enable(*name)
        if queue.messages:
            self.enable(*name)
        else:
            queue.want_read = True
        return "ok", treated

    def may_go(self, name, it):
        side, place, way = name
        if place == "drv" and self.sides[other(side)] != OPEN:
            return False
        if place == "ldterm" and way == "w" and it.kind == M_DATA and self.ldterm(side).stopped:
            return False
        if it.kind not in (M_DATA, M_PROTO):
            return True
        band = 0 if place == "ldterm" and way == "r" and it.kind == M_DATA else it.band
        if self.has_room(band, *name):
            return True
        self.queue(*self.later(*name)).want_write.add(band)
        return False

    def treat(self, name, it):
        side, place, way = name
        size = it.size
        if place == "drv":
            self.up_from_driver(other(side), it)
        elif way == "w":
            return self.ldterm(side).output(it)
        elif it.kind != M_DATA:
            self.ldterm(side).send(True, it)
        elif size:
            return self.ldterm(side).input(it)
        else:
            self.pool.free(it.chain)
        return size

    def run(self, most):
        made = 0
        while made < most and self.enabled:
            try:
                self.turn(*self.enabled[0])
            except Refused:
                break
            made += 1
        return made

    def asks(self, entry_bytes, blocks=0):
        """Room in the journal, and free blocks."""
        if self.entries >= self.limits[0] or self.limits[1] - self.entry_bytes < entry_bytes:
            raise Refused("JournalFull")
        if not self.pool.has(blocks):
            self.is_short = True
            raise Refused("ENOSR")

    def opened(self, side, lasts=False):
        """That a side is open, and not hung up unless the call goes on then."""
        if self.sides[side] != OPEN or self.heads[side].hung_up and not lasts:
            raise Refused("ENXIO")
        return self.heads[side]

    def in_background(self, side):
        head, caller = self.heads[side], self.callers[side]
        return side == "s" and caller.group and head.group and caller.group != head.group and not head.hung_up

    def reads(self, side):
        """Job control of a read."""
        if self.in_background(side):
            if self.callers[side].ignores or self.callers[side].orphaned:
                raise Refused("EIO")
            self.entries += 1
            raise Stopped(SIGTTIN)

    def writes(self, side, entry_bytes):
        """Job control of a write."""
        if self.in_background(side) and self.heads[side].tostop and not self.callers[side].ignores:
            if self.callers[side].orphaned:
                raise Refused("EIO")
            self.enters(entry_bytes)
            raise Stopped(SIGTTOU)

    def enters(self, entry_bytes=0, answer=None):
        """Books an entry of the journal, and gives the answer."""
        self.entries += 1
        self.entry_bytes += entry_bytes
        return answer

    def open_master(self):
        self.asks(0)
        if self.sides["m"] != NEVER:
            raise Refused("EINVAL")
        self.sides["m"] = OPEN
        self.enters()

    def unlock(self, side="m"):
        self.opened(side, lasts=True)
        if side == "s":
            raise Refused("EINVAL")
        self.asks(0)
        self.locked = False
        self.enters()

    def open_slave(self):
        if self.sides["m"] != OPEN:
            raise Refused("ENXIO")
        self.asks(0)
        if self.sides["s"] == OPEN:
            raise Refused("EINVAL")
        if self.locked:
            raise Refused("EAGAIN")
        self.sides["s"], self.heads["s"] = OPEN, Head(self, "s")
        if self.drivers["m"].messages:
            self.enable("m", "drv", "w")
        self.enters()

    def close(self, side):
        self.opened(side, lasts=True)
        self.asks(0, 2)
        self.flush_queue(side, "head", "r", all_of, "end-closed")
        if self.ldterm(side):
            self.drop_ldterm(side, "end-closed")
        self.modules[side], self.heads[side], self.sides[side] = [], Head(self, side), CLOSED
        if side == "m":
            self.flush_queue("m", "drv", "w", all_of, "end-closed")
            self.flush_queue("s", "drv", "w", all_of, "end-closed")
            if self.sides["s"] == OPEN:
                self.up_from_driver("s", message(self.pool, M_HANGUP))
        self.enters()

    def drop_ldterm(self, side, rule):
        """Empties its queues and its line; they leave the enabled list."""
        gone = self.flush_queue(side, "ldterm", "r", all_of, rule)
        self.ldterm(side).drop_line(rule)
        gone += self.flush_queue(side, "ldterm", "w", all_of, rule)
        self.enabled = [name for name in self.enabled if name[:2] != (side, "ldterm")]
        return gone

    def push(self, side, name):
        self.opened(side)
        if name not in MODULES:
            raise Refused("EINVAL")
        self.asks(0, 8)
        if any(it.name == name for it in self.modules[side]):
            raise Refused("EINVAL")
        made = MODULES[name](self, side)
        self.modules[side].insert(0, made)
        if made.ldterm:
            self.carry(side, -1, True, message(self.pool, M_SETOPTS, bytes([RMSGN, 0])))
            if self.drivers[other(side)].messages:
                self.enable(other(side), "drv", "w")
        self.enters()

    def pop(self, side):
        head = self.opened(side)
        self.asks(0, 8)
        if not self.modules[side]:
            raise Refused("EINVAL")
        if self.modules[side][0].ldterm:
            gone = self.drop_ldterm(side, "module-popped")
            waits = head.waits
            if waits and not waits.answer and any(it.kind == M_IOCTL and asked(it)[1] == waits.number for it in gone):
                waits.answer = False, b""
            self.carry(side, -1, True, message(self.pool, M_SETOPTS, bytes([RNORM, 0])))
        self.modules[side].pop(0)
        self.enters()

    def look(self, side):
        self.opened(side, lasts=True)
        self.asks(0)
        if not self.modules[side]:
            raise Refused("EINVAL")
        return self.enters(0, self.modules[side][0].name)

    def write(self, side, text):
        self.opened(side)
        chunks = [text[at:at + 256] for at in range(0, max(len(text), 1), 256)]
        self.asks(len(text), 32 + len(chunks))
        self.writes(side, len(text))
        taken = sent = 0
        while sent < len(chunks) and self.has_room(0, side, "head", "w"):
            self.written[side] += len(chunks[sent])
            taken += len(chunks[sent])
            self.carry(side, 0, False, message(self.pool, M_DATA, chunks[sent]))
            sent += 1
        if sent == 0:
            raise Refused("EAGAIN")
        return self.enters(len(text), taken)

    def read(self, side, count):
        head, count = self.opened(side, lasts=True), min(count, 4096)
        self.asks(count)
        self.reads(side)
        text = head.read(count)
        return self.enters(len(text), text)

    @staticmethod
    def banded(what):
        if isinstance(what, int) and what > 255:
            raise Refused("EINVAL")

    def put(self, side, what, control, data):
        self.banded(what)
        self.opened(side)
        if what == "hi" and control is None:
            raise Refused("EINVAL")
        if len(control or b"") > 64 or len(data or b"") > 256:
            raise Refused("ERANGE")
        parts = [it for it in (control, data) if it is not None]
        size = sum(map(len, parts))
        self.asks(size, 32 + len(parts))
        self.writes(side, size)
        band = 0 if what == "hi" else what
        if parts:
            if what != "hi" and not self.has_room(band, side, "head", "w"):
                raise Refused("EAGAIN")
            kind = M_PCPROTO if what == "hi" else M_DATA if control is None else M_PROTO
            self.written[side] += size
            self.carry(side, 0, False, Message(kind, band, *(it if it is None else self.pool.make(it) for it in (control, data))))
        self.enters(size)

    def get(self, side, what="any", most_control=1024, most_data=1024):
        self.banded(what)
        head, most_control, most_data = self.opened(side, lasts=True), min(most_control, 4096), min(most_data, 4096)
        self.asks(most_control + most_data)
        self.reads(side)
        got = head.get(what, most_control, most_data)
        return self.enters(len(got[1] or b"") + len(got[2] or b""), got)

    def stands(self, side):
        """I_NREAD: how many messages stand at a head, and how many bytes of data the first one has."""
        head = self.opened(side, lasts=True)
        self.asks(0)
        messages = head.r.messages
        return self.enters(0, (len(messages), size_of(messages[0].data) if messages else 0))

    def set_mode(self, side, mode):
        head = self.opened(side, lasts=True)
        self.asks(0)
        head.mode, head.control_mode = MODES.get(mode, head.mode), CONTROL_MODES.get(mode, head.control_mode)
        self.enters()

    def flush(self, side, ways, band=None):
        self.banded(band)
        self.opened(side)
        self.asks(0, 8)
        flags = FLUSHR * ("r" in ways) | FLUSHW * ("w" in ways) | FLUSHBAND * (band is not None)
        self.carry(side, 0, False, message(self.pool, M_FLUSH, bytes([flags] if band is None else [flags, band])))
        self.enters()

    def ioctl(self, side, command, body):
        """("ok", None), ("data", bytes), ("nak", None) or ("pending", number)."""
        head = self.opened(side)
        if len(body) > 256:
            raise Refused("ERANGE")
        self.asks(len(body) + 256, 34)
        if head.waits:
            raise Refused("EAGAIN")
        head.waits, self.next = Waits(self.next, command), self.next + 1
        number = head.waits.number
        if side == "s" and command == TIOCGPGRP:
            head.waits.answer = True, head.group.to_bytes(4, "big")
        elif side == "s" and command == TIOCSPGRP:
            head.waits.answer = len(body) == 4, b""
            head.group = int.from_bytes(body, "big") if len(body) == 4 else head.group
        else:
            chain = self.pool.make(header(command, number)) + (self.pool.make(body) if body else [])
            self.carry(side, 0, False, Message(M_IOCTL, 0, None, chain))
        answer = self.told(head) or ("pending", number)
        return self.enters(len(body) + (len(answer[1]) if answer[0] == "data" else 0), answer)

    def told(self, head):
        """Hands out the answer of the ioctl under way, where it is there."""
        if not head.waits.answer:
            return None
        (obeyed, text), command, head.waits = head.waits.answer, head.waits.command, None
        if not obeyed:
            return "nak", NAK_EINVAL
        return ("ok", None) if command in (*SETS, TIOCSWINSZ, TIOCSIGNAL, TIOCSPGRP) else ("data", text[:256])

    def poll(self, side, number):
        head = self.opened(side, lasts=True)
        self.asks(256)
        if not head.waits or head.waits.number != number:
            raise Refused("EINVAL")
        answer = self.told(head)
        if not answer:
            raise Refused("EAGAIN")
        return self.enters(len(answer[1]) if answer[0] == "data" else 0, answer)

    def take_signals(self, side):
        head = self.opened(side, lasts=True)
        self.asks(32)
        taken, head.signals = head.signals, []
        return self.enters(len(taken), taken)

    def cut(self):
        count, self.entries, self.entry_bytes = self.entries, 0, 0
        return count

    def show(self, side):
        """[(a queue's name, its messages, their bytes)] from the head down."""
        found = [("head.r", self.heads[side].r)]
        if self.ldterm(side):
            found += [("ldterm.r", self.ldterm(side).r), ("ldterm.w", self.ldterm(side).w)]
        return [(name, len(queue.messages), queue.size) for name, queue in [*found, ("drv.w", self.drivers[side])]]

    def ledger(self, side):
        """(written, made, queued, inline, the rules' counts) of what a side writes."""
        peer = other(side)
        ours, theirs = self.ldterm(side), self.ldterm(peer)
        queues = [self.drivers[side], self.heads[peer].r] + ([ours.w] if ours else []) + ([theirs.r] if theirs else [])
        queued, inline = sum(it.booked for it in queues), len(theirs.line) if theirs else 0
        if self.written[side] + self.made[side] != queued + inline + sum(self.fates[side].values()):
            raise AssertionError(f"the model's ledger of {side} doesn't balance")
        return self.written[side], self.made[side], queued, inline, self.fates[side]
