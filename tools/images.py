"""Images of pairs, read and written as docs/IMAGES.md says and by nothing else: for tools that compare a program with that page."""
import dataclasses

FIRST_BANDS, BANDS, RULES = 8, 256, 21
DATA, PROTO, IOCTL, IOCACK, IOCNAK, PCPROTO, STOP, START = 0x00, 0x01, 0x0E, 0x81, 0x82, 0x83, 0x87, 0x88
KINDS = {0x00, 0x01, 0x0B, 0x0D, 0x0E, 0x10, 0x81, 0x82, 0x83, 0x84, 0x85, 0x86, 0x87, 0x88, 0x89, 0x8A}
STANDS = {
    "head": {DATA, PROTO, PCPROTO},
    "read": {DATA, PROTO},
    "write": {DATA, PROTO, IOCTL},
    "driver": {DATA, PROTO, PCPROTO, IOCTL, IOCACK, IOCNAK, STOP, START},
}
LDTERM, PTEM, PCKT, OWN = 1, 2, 3, 4
OWN_QUEUED = 128  # modules of a user's own have queues from this number on
HEAD, LINE, DRIVER, OWN_PLACE = 0, 1, 2, 3


class Fault(Exception):
    """What isn't an image, with the reason."""


@dataclasses.dataclass
class Message:
    kind: int = DATA
    band: int = 0
    control: bytes | None = None
    data: bytes | None = b""

    def rank(self):
        return 256 if self.kind >= 0x80 else self.band

    def counted(self):
        return len(self.control or b"") + len(self.data or b"") if self.kind in STANDS["head"] else 0

    def blocks(self):
        def begun(n):
            return (n + 255) // 256
        if self.kind in (IOCTL, IOCACK, IOCNAK):
            return 1 + begun(len(self.data) - 16)
        return sum(max(begun(len(part)), 1) for part in (self.control, self.data) if part is not None)


def new_flow(at):
    return (5120, 1024, 0) if at == "head" else (512, 128, 0)


@dataclasses.dataclass
class Queue:
    at: str
    flags: int = 1
    flows: list = None
    messages: list = dataclasses.field(default_factory=list)

    def __post_init__(self):
        self.flows = self.flows or [new_flow(self.at)] * BANDS

    def counted(self):
        return sum(m.counted() for m in self.messages)


@dataclasses.dataclass
class Module:
    kind: int
    termios: bytes = bytes(35)
    flags: tuple = (0, 0)
    column: int = 0
    line: bytes = b""
    window: bytes = bytes(8)
    own: int = 0  # the number of one of a user's own, and what it is set to
    settings: bytes = b""
    read: Queue = None
    write: Queue = None

    def __post_init__(self):
        self.read = self.read or Queue("read")
        self.write = self.write or Queue("write")

    def queued(self):
        return self.kind == LDTERM or self.kind == OWN and self.own >= OWN_QUEUED

    def place(self):
        """How an enabled queue of it is named, between side and way."""
        return (OWN_PLACE, self.own) if self.kind == OWN else (LINE,)


@dataclasses.dataclass
class Stream:
    modes: tuple = (0, 0)
    flags: int = 0
    group: int = 0
    signals: bytes = b""
    slot: tuple = (0,)  # (0,), (1, number, command) or (2, number, command, acked, error, bytes)
    modules: list = dataclasses.field(default_factory=list)
    head: Queue = None
    driver: Queue = None

    def __post_init__(self):
        self.head = self.head or Queue("head")
        self.driver = self.driver or Queue("driver")

    def queued(self):
        return [m for m in self.modules if m.queued()]

    def queues(self):
        return [self.head, *(q for m in self.queued() for q in (m.read, m.write)), self.driver]


@dataclasses.dataclass
class Ledger:
    written: int = 0
    made: int = 0
    gone: list = dataclasses.field(default_factory=lambda: [0] * RULES)


@dataclasses.dataclass
class Image:
    opened: tuple = (0, 0)
    locked: int = 1
    next_ioctl: int = 1
    streams: list = dataclasses.field(default_factory=lambda: [Stream(), Stream()])
    enabled: list = dataclasses.field(default_factory=list)
    ledgers: list = dataclasses.field(default_factory=lambda: [Ledger(), Ledger()])

    def blocks(self):
        return sum(m.blocks() for s in self.streams for q in s.queues() for m in q.messages)

    def standing(self, writer):
        """How many bytes stand on the queues and in the lines of what a side writes."""
        from_, to = self.streams[writer], self.streams[1 - writer]
        down = from_.driver.counted() + sum(m.write.counted() for m in from_.queued())
        return down + to.head.counted() + sum(m.read.counted() + len(m.line) for m in to.queued())


# ---- writing

def number(n, width):
    return n.to_bytes(width, "big")


def write_part(part):
    return bytes([part is not None]) + number(len(part or b""), 4) + (part or b"")


def write_flow(flow):
    return number(flow[0], 4) + number(flow[1], 4) + bytes([flow[2]])


def write_queue(q, version):
    if version == 1:
        bands = b"".join(write_flow(flow) for flow in q.flows[:FIRST_BANDS])
    else:
        new = new_flow(q.at)
        listed = [(band, flow) for band, flow in enumerate(q.flows) if flow != new]
        bands = number(len(listed), 2) + b"".join(bytes([band]) + write_flow(flow) for band, flow in listed)
    messages = b"".join(bytes([m.kind, m.band]) + write_part(m.control) + write_part(m.data) for m in q.messages)
    return bytes([q.flags]) + bands + number(len(q.messages), 4) + messages


def write_module(m, version):
    text = bytes([m.kind])
    if m.kind == LDTERM:
        text += m.termios + bytes(m.flags) + number(m.column, 4) + bytes([len(m.line)]) + m.line
    if m.kind == PTEM:
        text += m.termios + m.window
    if m.kind == OWN:
        text += bytes([m.own]) + number(len(m.settings), 2) + m.settings
    return text + (write_queue(m.read, version) + write_queue(m.write, version) if m.queued() else b"")


def write_slot(slot):
    text = bytes([slot[0]]) + b"".join(number(n, 4) for n in slot[1:3])
    return text + (bytes([slot[3]]) + number(slot[4], 4) + number(len(slot[5]), 4) + slot[5] if slot[0] == 2 else b"")


def write_stream(s, version):
    group = number(s.group, 4) if s.flags & 4 else b""
    text = bytes(s.modes) + bytes([s.flags]) + group + bytes([len(s.signals)]) + s.signals + write_slot(s.slot)
    text += bytes([len(s.modules)]) + b"".join(write_module(m, version) for m in s.modules)
    return text + write_queue(s.head, version) + write_queue(s.driver, version)


def write(image, version=2):
    text = b"STPI" + bytes([version, *image.opened, image.locked]) + number(image.next_ioctl, 4)
    text += b"".join(write_stream(s, version) for s in image.streams)
    text += bytes([len(image.enabled)]) + b"".join(bytes(name) for name in image.enabled)
    for ledger in image.ledgers:
        text += b"".join(number(n, 8) for n in (ledger.written, ledger.made, *ledger.gone))
    return text


# ---- reading

class Reader:
    def __init__(self, text, owns):
        self.text, self.at, self.version, self.owns = text, 0, 0, owns

    def bytes(self, count):
        if len(self.text) - self.at < count:
            raise Fault("bytes missing")
        self.at += count
        return self.text[self.at - count:self.at]

    def number(self, width):
        return int.from_bytes(self.bytes(width), "big")

    def upto(self, most, what):
        value = self.number(1)
        need(value <= most, what)
        return value


def need(holds, what):
    if not holds:
        raise Fault(what)


def read_part(r):
    there, part = r.upto(1, "part neither there nor absent"), r.bytes(r.number(4))
    need(there or not part, "absent part with bytes")
    return part if there else None


def read_message(r, at, rank):
    kind, band = r.number(1), r.number(1)
    m = Message(kind, band, read_part(r), read_part(r))
    need(kind in KINDS, "kind")
    need(kind in STANDS[at], "kind that doesn't stand there")
    need(band < (FIRST_BANDS if r.version == 1 else BANDS), "band")
    need(kind < 0x80 or band == 0, "band of high priority")
    need((m.control is not None) == (kind in (PROTO, PCPROTO)), "control part")
    need(kind in (PROTO, PCPROTO) or m.data is not None, "no data part")
    need(kind not in (IOCTL, IOCACK, IOCNAK) or 16 <= len(m.data) <= 272, "ioctl's length")
    need(m.rank() <= rank, "order of rank")
    return m


def read_flow(r):
    high, low, waits = r.number(4), r.number(4), r.upto(1, "want-write")
    need(1 <= high and low <= high, "marks")
    return high, low, waits


def read_flows(r, at):
    if r.version == 1:
        first = [read_flow(r) for _ in range(FIRST_BANDS)]
        return first + [(*first[-1][:2], 0)] * (BANDS - FIRST_BANDS)
    flows, behind = [new_flow(at)] * BANDS, -1
    for _ in range(r.number(2)):
        band, flow = r.number(1), read_flow(r)
        need(band > behind and flow != new_flow(at), "listed band")
        flows[band], behind = flow, band
    return flows


def read_queue(r, at):
    q = Queue(at, r.upto(3, "flags of a queue"), read_flows(r, at))
    rank = 256
    for _ in range(r.number(4)):
        q.messages.append(read_message(r, at, rank))
        rank = q.messages[-1].rank()
    return q


def read_module(r, above):
    m = Module(r.number(1))
    kind = m.kind
    need(kind in (LDTERM, PTEM, PCKT, OWN), "module")
    if kind == OWN:
        need(r.version == 2, "module of a user's own in version 1")
        m.own, length = r.number(1), r.number(2)
        need(length <= 320, "settings' length")
        m.settings = r.bytes(length)
        need(m.own in r.owns, "module of a user's own of a number that there isn't")
    need((kind, m.own) not in [(other.kind, other.own) for other in above], "module twice")
    if kind in (LDTERM, PTEM):
        m.termios = r.bytes(35)
    if kind == PTEM:
        m.window = r.bytes(8)
    if kind == LDTERM:
        m.flags, m.column = (r.upto(1, "stopped"), r.upto(1, "behind LNEXT")), r.number(4)
        need(m.column <= 65535, "column")
        m.line = r.bytes(r.number(1))
    if m.queued():
        m.read, m.write = read_queue(r, "read"), read_queue(r, "write")
    return m


def read_slot(r):
    kind = r.upto(2, "slot")
    slot = (kind, *(r.number(4) for _ in range(2 if kind else 0)))
    if kind == 2:
        acked, error, length = r.upto(1, "acked"), r.number(4), r.number(4)
        need(length <= 256, "answer's length")
        slot = (*slot, acked, error, r.bytes(length))
    return slot


def read_stream(r, side):
    s = Stream((r.upto(2, "read mode"), r.upto(2, "control mode")), r.upto(7, "flags of a head"))
    if s.flags & 4:
        need(side == 1, "group of the master")
        s.group = r.number(4)
        need(s.group > 0, "group 0")
    s.signals = r.bytes(r.number(1))
    need(all(1 <= n <= 31 for n in s.signals) and len(set(s.signals)) == len(s.signals), "signals")
    s.slot = read_slot(r)
    count = r.upto(3, "number of modules")
    for _ in range(count):
        s.modules.append(read_module(r, s.modules))
    s.head, s.driver = read_queue(r, "head"), read_queue(r, "driver")
    return s


def read_name(r):
    side, place = r.upto(1, "side"), (r.upto(3, "place"),)
    if place == (OWN_PLACE,):
        place = (OWN_PLACE, r.number(1))
        need(place[1] >= OWN_QUEUED, "place of a module that has no queues")
    return (side, *place, r.upto(1, "way"))


def read_ledger(r):
    ledger = Ledger(r.number(8), r.number(8), [r.number(8) for _ in range(RULES)])
    need(ledger.written < 2**63 and ledger.made < 2**63, "booked")
    return ledger


def check_whole(image):
    for side in (0, 1):
        s, ledger = image.streams[side], image.ledgers[side]
        shut = not s.modules and not s.signals and s.slot == (0,) and not s.head.messages
        need(image.opened[side] == 1 or shut, "side that isn't open")
        need(ledger.written + ledger.made == image.standing(side) + sum(ledger.gone), "sums")
    for side, *place, way in image.enabled:
        there = tuple(place) in [m.place() for m in image.streams[side].queued()] or (*place, way) == (DRIVER, 1)
        need(there, "enabled queue that isn't there")
    need(len(set(image.enabled)) == len(image.enabled), "enabled twice")


def read(text, owns=()):
    """The image that a text is, and its version; or a Fault. `owns` are the numbers of the modules of a user's own that the program has, which
    are none in those that the tools compare."""
    r = Reader(text, owns)
    need(r.bytes(4) == b"STPI", "first bytes")
    r.version = r.number(1)
    need(r.version in (1, 2), "version")
    image = Image((r.upto(2, "master"), r.upto(2, "slave")), r.upto(1, "locked"), r.number(4))
    need(image.next_ioctl > 0, "next ioctl 0")
    image.streams = [read_stream(r, side) for side in (0, 1)]
    image.enabled = [read_name(r) for _ in range(r.number(1))]
    image.ledgers = [read_ledger(r), read_ledger(r)]
    need(r.at == len(text), "bytes left over")
    check_whole(image)
    return image, r.version
