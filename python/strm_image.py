"""Reads the image of a pair (Pair.image) as docs/IMAGES.md spells it: what stands on the queues, in the unfinished lines, and in the books.

    told = read_image(pair.image())
    told.queues["s.head.r"].messages            # [Standing(kind="M_DATA", band=0, control=None, data=b"ls\\n")]
    told.streams[SLAVE].line                    # b"half a l", of the ldterm there

ValueError: the text isn't laid out so. That its values fit one another is what the library looks for (Pair(image=..)).
"""
import struct
from typing import NamedTuple, Optional

from strm_words import MASTER, MODULES, RULES, SLAVE, Books, Termios, Winsize

KINDS = {
    0x00: "M_DATA", 0x01: "M_PROTO", 0x0E: "M_IOCTL", 0x81: "M_IOCACK", 0x82: "M_IOCNAK", 0x83: "M_PCPROTO", 0x87: "M_STOP", 0x88: "M_START",
}  # fmt: skip
STATES = ("not open", "open", "closed")
PLACES = ("head", "ldterm", "drv")
OWN_QUEUED = 128  # modules of a user's own have queues from this number on


class Standing(NamedTuple):
    """A message on a queue; a part that isn't there is None."""

    kind: str
    band: int
    control: Optional[bytes]
    data: Optional[bytes]


class Queue(NamedTuple):
    """A queue: whether it wants to be read, and its messages, the first one first; the high-water marks of bands that have others than a new
    queue, and the bands in which a writer waits. `full` are the bands that have as many bytes as their mark, or more."""

    wants_read: bool
    messages: list
    marks: dict
    waiting: list
    full: list


class Stream(NamedTuple):
    """A side's stream. `modules` from the top, one of a user's own by its number and 16, as the library names it; `line`, `stopped` and `termios`
    are those of its ldterm, `window` is that of its ptem."""

    state: str
    modules: list
    hung_up: bool
    group: int
    signals: list
    line: bytes
    stopped: bool
    termios: Optional[Termios]
    window: Optional[Winsize]


class Image(NamedTuple):
    """A pair between two calls. `queues` are by their names, `enabled` in the order of enabling, `ledgers` by the side that wrote."""

    locked: bool
    next_ioctl: int
    streams: dict
    queues: dict
    enabled: list
    ledgers: dict


class Reader:
    """The fields of a text, one behind the other."""

    def __init__(self, text):
        self.text, self.at = text, 0

    def take(self, count):
        part = self.text[self.at : self.at + count]
        if len(part) < count:
            raise ValueError("the image ends too early")
        self.at += count
        return part

    def number(self, width=1):
        return int.from_bytes(self.take(width), "big")

    def flag(self):
        value = self.number()
        if value > 1:
            raise ValueError("a truth value that is neither 0 nor 1")
        return bool(value)

    def part(self):
        there = self.flag()
        data = self.take(self.number(4))
        return data if there else None

    def flows(self, version):
        """The high-water marks and the waiting writers of the bands that are listed."""
        marks, waiting = {}, []
        for at in range(8 if version == 1 else self.number(2)):
            band = at if version == 1 else self.number()
            marks[band] = self.number(4)
            self.take(4)
            waiting += [band] * self.flag()
        return marks, waiting

    def queue(self, version, is_head=False):
        flags = self.number()
        marks, waiting = self.flows(version)
        messages = []
        for _ in range(self.number(4)):
            kind, band = self.number(), self.number()
            messages.append(Standing(KINDS.get(kind, hex(kind)), band, self.part(), self.part()))
        counts = {}
        for it in messages:
            counts[it.band] = counts.get(it.band, 0) + len(it.control or b"") + len(it.data or b"")
        full = [band for band in sorted(counts) if counts[band] >= marks.get(band, 5120 if is_head else 512)]
        return Queue(bool(flags & 1), messages, marks, waiting, full)

    def slot(self):
        if (kind := self.number()) > 0:
            self.take(8)
        if kind == 2:
            self.take(5)
            self.take(self.number(4))

    def queue_name(self):
        side, place = self.number(), self.number()
        name = str(16 + self.number()) if place == 3 else PLACES[place]
        return f"{'ms'[side]}.{name}.{'rw'[self.number()]}"

    def ledger(self):
        written, made, *gone = struct.unpack(">23Q", self.take(184))
        return written, made, {rule: count for rule, count in zip(RULES, gone) if count}

    def module(self, letter, version, queues, told):
        kind = self.number()
        if kind == 1:
            told["termios"] = Termios.of_wire(self.take(35))
            told["stopped"], _ = self.flag(), self.flag()
            self.take(4)
            told["line"] = self.take(self.number())
        elif kind == 2:
            self.take(35)
            told["window"] = Winsize.of_wire(self.take(8))
        elif kind == 4 and version == 2:
            number = self.number()
            self.take(self.number(2))
        elif kind != 3:
            raise ValueError("a module without a name")
        name = str(16 + number) if kind == 4 else MODULES[kind]
        if kind == 1 or kind == 4 and number >= OWN_QUEUED:
            queues[f"{letter}.{name}.r"], queues[f"{letter}.{name}.w"] = self.queue(version), self.queue(version)
        return name

    def stream(self, letter, state, version, queues):
        told = {"line": b"", "stopped": False, "termios": None, "window": None}
        self.take(2)
        flags = self.number()
        group = self.number(4) if flags & 4 else 0
        signals = list(self.take(self.number()))
        self.slot()
        modules = [self.module(letter, version, queues, told) for _ in range(self.number())]
        queues[f"{letter}.head.r"], queues[f"{letter}.drv.w"] = self.queue(version, is_head=True), self.queue(version)
        return Stream(state, modules, bool(flags & 1), group, signals, **told)


def _books(ledgers, queues, streams):
    """The ledgers, with what stands on queues and in lines now."""
    for side, written, read in ((MASTER, "m", "s"), (SLAVE, "s", "m")):
        names = [name for name in queues if name[0] == written and name[-1] == "w" or name[0] == read and name[-1] == "r"]
        standing = [message for name in names for message in queues[name].messages]
        counted = [message for message in standing if message.kind in ("M_DATA", "M_PROTO", "M_PCPROTO")]
        queued = sum(len(message.control or b"") + len(message.data or b"") for message in counted)
        made, lines = ledgers[side], len(streams[SLAVE if side == MASTER else MASTER].line)
        yield side, Books(made[0], made[1], queued, lines, made[2])


def read_image(text):
    """An image of version 1 or 2."""
    reader = Reader(bytes(text))
    if reader.take(4) != b"STPI" or (version := reader.number()) not in (1, 2):
        raise ValueError("not an image of version 1 or 2")
    states = [reader.number(), reader.number()]
    if max(states) > 2:
        raise ValueError("a side is neither open nor closed")
    locked, next_ioctl, queues = reader.flag(), reader.number(4), {}
    streams = {side: reader.stream("ms"[side], STATES[states[side]], version, queues) for side in (MASTER, SLAVE)}
    enabled = [reader.queue_name() for _ in range(reader.number())]
    ledgers = {side: reader.ledger() for side in (MASTER, SLAVE)}
    if reader.at != len(reader.text):
        raise ValueError("bytes are left over")
    return Image(locked, next_ioctl, streams, queues, enabled, dict(_books(ledgers, queues, streams)))
