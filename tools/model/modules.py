"""The modules and drivers of a stream: ldterm(7M), ptem(7M), pckt(7M), ptm(7D) and pts(7D).

A put answers what it sends, [(is_up, message)], which the pair carries one after the other.
"""
from .messages import BOOKED, FLUSHBAND, FLUSHR, FLUSHW, M_DATA, M_FLUSH, M_IOCACK, M_IOCNAK, M_IOCTL, M_PCPROTO, M_PCSIG, M_PROTO
from .messages import M_SETOPTS, M_START, M_STOP, Message, Queue, flushes
from .termios import ECHO, ECHOE, ECHOK, ECHOKE, ECHONL, EOF, EOL, EOL2, ERASE, FIRST, ICANON, ICRNL, IEXTEN, IGNCR, IMAXBEL, INLCR, INTR, ISIG
from .termios import ISTRIP, IUCLC, IXANY, IXON, KILL, LNEXT, NOFLSH, OPOST, QUIT, REPRINT, START, STOP, SUSP, TOSTOP, WERASE
from .termios import Termios, posted, shown, wiped

TCGETS, TCSETS, TCSETSW, TCSETSF, TIOCGWINSZ, TIOCSWINSZ, TIOCSIGNAL, TIOCGPGRP, TIOCSPGRP = range(1, 10)
SETS = (TCSETS, TCSETSW, TCSETSF)
SIGINT, SIGQUIT, SIGWINCH, SIGTSTP = 2, 3, 20, 24
NAK_EINVAL = 1


def other(side):
    return "s" if side == "m" else "m"


def message(pool, kind, text=b"", band=0):
    return Message(kind, band, None, pool.make(text))


def header(command, number, error=0):
    return b"".join(word.to_bytes(4, "big") for word in (command, number, error, 0))


def asked(ioctl):
    """(command, number, payload) of an ioctl's message."""
    text = ioctl.text
    return int.from_bytes(text[:4], "big"), int.from_bytes(text[4:8], "big"), text[16:]


def acked(pool, ioctl, text=None):
    """An M_IOCACK with a payload or without; the M_IOCTL goes."""
    command, number, _ = asked(ioctl)
    pool.free(ioctl.chain)
    return Message(M_IOCACK, 0, None, pool.make(header(command, number)) + (pool.make(text) if text is not None else []))


def refused(pool, ioctl):
    command, number, _ = asked(ioctl)
    pool.free(ioctl.chain)
    return message(pool, M_IOCNAK, header(command, number, NAK_EINVAL))


class Pckt:
    name, ldterm = "pckt", False
    PACKED = (M_DATA, M_PROTO, M_PCPROTO, M_IOCTL, M_STOP, M_START, M_FLUSH)

    def __init__(self, pair, side):
        self.pair, self.side = pair, side

    def put_down(self, it):
        return [(False, it)]

    def put_up(self, it):
        pool, made = self.pair.pool, 1
        if it.kind not in self.PACKED:
            return [(True, it)]
        band = 0 if it.kind >= 0x80 else it.band
        data, flags = it.chain, it.text if it.kind == M_FLUSH else b""
        if it.kind in (M_STOP, M_START):
            pool.free(data)
            data = None
        elif it.kind not in BOOKED:
            made += it.size
        self.pair.made[other(self.side)] += made
        sent = [(True, Message(M_PROTO, band, pool.make(bytes([it.kind])), data))]
        if flags and flags[0] & FLUSHW:
            sent.append((True, message(pool, M_FLUSH, bytes([flags[0] & ~FLUSHR]) + flags[1:])))
        return sent


class Ptem:
    name, ldterm = "ptem", False

    def __init__(self, pair, side):
        self.pair, self.termios, self.window = pair, FIRST, bytes(8)

    def size(self, window):
        """Keeps a window's size, and gives SIGWINCH where it changed."""
        changed, self.window = window != self.window, window
        return [(True, message(self.pair.pool, M_PCSIG, bytes([SIGWINCH])))] if changed else []

    def put_down(self, it):
        if it.kind != M_IOCTL or it.size < 16:
            return [(False, it)]
        pool = self.pair.pool
        command, number, text = asked(it)
        if command in (TCGETS, TIOCGWINSZ):
            return [(True, acked(pool, it, self.termios if command == TCGETS else self.window))]
        if command not in (*SETS, TIOCSWINSZ):
            return [(False, it)]
        if len(text) != (8 if command == TIOCSWINSZ else 35):
            return [(True, refused(pool, it))]
        told = Message(M_IOCTL, 0, None, pool.make(header(command, 0)) + pool.share(it.data[1:]))
        answer = Message(M_IOCACK, 0, None, pool.make(header(command, number)) + it.data[1:])
        pool.free(it.data[:1])
        sent = [(True, answer), (False, told)]
        if command == TIOCSWINSZ:
            return sent + self.size(text)
        self.termios = text
        return sent

    def put_up(self, it):
        if it.kind != M_IOCTL or it.size < 16:
            return [(True, it)]
        pool = self.pair.pool
        command, _, text = asked(it)
        if command == TIOCSWINSZ and len(text) == 8:
            return self.size(text) + [(False, acked(pool, it))]
        if command == TIOCSIGNAL and len(text) == 1 and 1 <= text[0] <= 31:
            return [(True, message(pool, M_PCSIG, text)), (False, acked(pool, it))]
        if command in (TIOCSWINSZ, TIOCSIGNAL):
            return [(False, refused(pool, it))]
        return [(True, it)]


class Ldterm:
    name, ldterm = "ldterm", True

    def __init__(self, pair, side):
        self.pair, self.side = pair, side
        self.termios, self.line = Termios(), bytearray()
        self.stopped = self.after_lnext = False
        self.column = 0
        self.r, self.w = Queue(), Queue()
        self.echoed, self.gathered = None, []

    def flush(self, text):
        """Obeys an M_FLUSH of these bytes."""
        band = text[1] if text[0] & FLUSHBAND else None
        if text[0] & FLUSHR:
            self.pair.flush_queue(self.side, "ldterm", "r", flushes(band))
            if not band:
                self.drop_line("flushed")
        if text[0] & FLUSHW:
            gone = self.pair.flush_queue(self.side, "ldterm", "w", flushes(band))
            if any(it is self.echoed for it in gone):
                self.echoed = None

    def drop_line(self, rule):
        self.pair.gone(other(self.side), rule, len(self.line))
        self.line.clear()

    def put_up(self, it):
        if it.kind in (M_DATA, M_PROTO):
            return self.pair.put_queue(self.side, "ldterm", "r", it)
        if it.kind == M_FLUSH:
            self.flush(it.text)
        if it.kind == M_IOCACK and it.size == 16 + 35 and asked(it)[0] in SETS:
            return self.take_up(*asked(it)[::2]) + [(True, it)]
        return [(True, it)]

    def put_down(self, it):
        if it.kind in (M_DATA, M_PROTO) or it.kind == M_IOCTL and it.size >= 16 and asked(it)[0] in (TCSETSW, TCSETSF):
            return self.pair.put_queue(self.side, "ldterm", "w", it)
        if it.kind == M_FLUSH:
            self.flush(it.text)
        return [(False, it)]

    def take_up(self, command, text):
        """A termios that was set."""
        pool, sent, was = self.pair.pool, [], self.termios.local & ICANON
        self.termios = Termios(text)
        if command == TCSETSF:
            self.flush(bytes([FLUSHR]))
            sent.append((True, message(pool, M_FLUSH, bytes([FLUSHR]))))
        if was and not self.termios.local & ICANON and self.line:
            sent.append((True, self.whole_line()))
        local = self.termios.local
        return sent + [(True, message(pool, M_SETOPTS, bytes([2 if local & ICANON else 0, bool(local & TOSTOP)])))]

    def whole_line(self):
        text = bytes(self.line)
        self.line.clear()
        return message(self.pair.pool, M_DATA, text)

    def send(self, is_up, it):
        at = self.pair.modules[self.side].index(self)
        self.pair.carry(self.side, at - 1 if is_up else at + 1, is_up, it)

    def input(self, it):
        """Treats a message byte by byte; how many were treated, which are all but where blocks are few."""
        pool, treated = self.pair.pool, 0
        self.echoed, self.gathered = None, []
        while it.data:
            chunk, at = it.data[0].bytes, 0
            while at < len(chunk) and (treated == 0 or pool.has(32)):
                self.key(chunk[at])
                at += 1
                treated += 1
            if at < len(chunk):
                pool.take(it.data, at)
                break
            pool.free([it.data.pop(0)])
        self.send_gathered()
        self.echoed = None
        return treated

    def send_gathered(self):
        if self.gathered:
            gathered, self.gathered = self.gathered, []
            self.send(True, Message(M_DATA, 0, None, gathered))

    def gone(self, rule, count=1):
        self.pair.gone(other(self.side), rule, count)

    def key(self, byte):
        """What a typed byte does."""
        flags, key = self.termios.input, self.termios.is_key
        if flags & ISTRIP:
            byte &= 0x7F
        if flags & IUCLC and ord("A") <= byte <= ord("Z"):
            byte += 32
        if self.after_lnext:
            self.after_lnext = False
            return self.ordinary(byte, shown(self.termios, byte))
        if flags & IXON:
            if key(byte, STOP, START):
                self.gone("flow-key")
                if not key(byte, STOP):
                    self.start()
                elif not self.stopped:
                    self.stopped = True
                    self.send(False, message(self.pair.pool, M_STOP))
                return None
            if flags & IXANY:
                self.start()
        if self.termios.local & ISIG and key(byte, INTR, QUIT, SUSP):
            return self.signal(byte, SIGINT if key(byte, INTR) else SIGQUIT if key(byte, QUIT) else SIGTSTP)
        if byte == 13:
            if flags & IGNCR:
                return self.gone("igncr")
            if flags & ICRNL:
                byte = 10
        elif byte == 10 and flags & INLCR:
            byte = 13
        return self.edited(byte) if self.termios.local & ICANON else self.ordinary(byte, b"\n" if byte == 10 else shown(self.termios, byte))

    def start(self):
        if self.stopped:
            self.stopped = False
            self.send(False, message(self.pair.pool, M_START))
            if self.w.messages:
                self.pair.enable(self.side, "ldterm", "w")

    def signal(self, byte, number):
        pool = self.pair.pool
        self.gone("signal-key")
        self.send_gathered()
        if not self.termios.local & NOFLSH:
            self.drop_line("flushed")
            self.send(True, message(pool, M_FLUSH, bytes([FLUSHR if number == SIGTSTP else FLUSHR | FLUSHW])))
        self.send(True, message(pool, M_PCSIG, bytes([number])))
        self.echo(shown(self.termios, byte))

    def edited(self, byte):
        """A byte under ICANON."""
        termios, key, line = self.termios, self.termios.is_key, self.line
        extended = termios.local & IEXTEN
        if key(byte, EOF):
            self.gone("eof-key")
            return self.send(True, self.whole_line())
        if key(byte, ERASE) or key(byte, KILL):
            return self.erase(byte, min(len(line), 1)) if key(byte, ERASE) else self.kill(byte)
        if extended and key(byte, WERASE):
            left = bytes(line).rstrip(b" \t")
            while left and left[-1] not in b" \t":
                left = left[:-1]
            return self.erase(byte, len(line) - len(left))
        if extended and key(byte, REPRINT):
            self.gone("reprint-key")
            return self.echo(shown(termios, byte) + b"\n" + b"".join(shown(termios, it) for it in line))
        if extended and key(byte, LNEXT):
            self.after_lnext = True
            return self.gone("lnext-key")
        if byte == 10 or key(byte, EOL, EOL2):
            line.append(byte)
            self.send(True, self.whole_line())
            return self.echo(b"\n" if byte == 10 else shown(termios, byte), ECHO | ECHONL if byte == 10 else ECHO)
        return self.ordinary(byte, shown(termios, byte))

    def erase(self, byte, taken):
        line = bytes(self.line)
        self.gone("erase-key")
        self.gone("erased", taken)
        del self.line[len(line) - taken:]
        if self.termios.local & ECHOE:
            self.echo(wiped(self.termios, line, taken))
        elif taken:
            self.echo(shown(self.termios, byte))

    def kill(self, byte):
        line, local = bytes(self.line), self.termios.local
        self.gone("erase-key")
        self.drop_line("killed")
        if local & ECHOKE:
            self.echo(wiped(self.termios, line, len(line)))
        else:
            self.echo(shown(self.termios, byte) + (b"\n" if local & ECHOK else b""))

    def ordinary(self, byte, echo):
        if not self.termios.local & ICANON:
            self.pair.pool.append(self.gathered, bytes([byte]))
            return self.echo(echo)
        if len(self.line) < 255:
            self.line.append(byte)
            return self.echo(echo)
        if self.termios.input & IMAXBEL:
            self.gone("line-full")
            return self.echo(b"\x07", None)
        self.gone("line-over", 1)
        return self.drop_line("line-over")

    def echo(self, text, needs=ECHO):
        """Echoes a key's bytes, where one of these modes is set."""
        if not text or needs is not None and not self.termios.local & needs:
            return
        self.pair.made[self.side] += len(text)
        if self.w.full(0):
            self.pair.gone(self.side, "echo-full", len(text))
        elif self.echoed is None:
            chain = []
            self.pair.pool.append(chain, text)
            self.echoed = Message(M_DATA, 0, None, chain)
            self.pair.put_queue(self.side, "ldterm", "w", self.echoed)
        else:
            self.pair.pool.append(self.echoed.data, text)
            self.w.counts[0] += len(text)

    def output(self, it):
        """Sends down what becomes of a message; how many of its bytes were treated."""
        pool, treated, sent = self.pair.pool, 0, []
        if it.kind != M_DATA or not self.termios.output & OPOST or it.size == 0:
            size = it.size
            self.send(False, it)
            return size
        while it.data:
            chunk, at = it.data[0].bytes, 0
            while at < len(chunk) and (treated == 0 or pool.has(32)):
                self.post(chunk[at], sent)
                at += 1
                treated += 1
            if at < len(chunk):
                pool.take(it.data, at)
                break
            pool.free([it.data.pop(0)])
        if sent:
            self.send(False, Message(M_DATA, it.band, None, sent))
        return treated

    def post(self, byte, sent):
        text, made, rule, self.column = posted(self.termios, self.column, byte)
        self.pair.made[self.side] += made
        if rule:
            self.pair.gone(self.side, rule, 1)
        self.pair.pool.append(sent, text)
