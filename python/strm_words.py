"""The words of the stack, as include/strm.h and the scripts have them: names and numbers, refusals, answers, entries of the journal, windows
and modes of a terminal. strm.py gives them all on."""
import errno
import signal as host_signals
import struct
from enum import IntEnum, IntFlag
from typing import NamedTuple, Optional


class Side(IntEnum):
    """A side, and the direction of what it writes."""

    MASTER = 0
    SLAVE = 1


MASTER, SLAVE = Side.MASTER, Side.SLAVE
HIGH, ANY = 256, 257  # beside a band from 0 to 255: high priority; any message, or all bands
READ_MOST, WRITE_MOST, ANSWER_MOST, BLOCK = 4096, 1024, 8192, 256
# So many blocks that bytes typed and written on a terminal are stopped by flow control, and never by its pool, whatever is read or isn't; and so many
# of them in reserve, which neither side takes from the other (Choices).
TERMINAL_BLOCKS, TERMINAL_RESERVE = 12900, 4096
# So many turns one run makes of a pair whose journal begins anew.
RUN_MOST = 65536

REFUSALS = ("ok", "EINVAL", "EAGAIN", "ENXIO", "EBADMSG", "ENOSR", "ERANGE", "JournalFull", "NoMinor", "NoMemory", "StillShared", "EIO")
EINVAL, EAGAIN, JOURNAL_FULL = map(REFUSALS.index, ("EINVAL", "EAGAIN", "JournalFull"))
MODULES = (None, "ldterm", "ptem", "pckt")
MODES = ("norm", "msgn", "msgd", "protnorm", "protdat", "protdis")
QUEUES = {
    "m.head.r": 0, "m.ldterm.r": 2, "m.ldterm.w": 3, "m.drv.w": 5,
    "s.head.r": 6, "s.ldterm.r": 8, "s.ldterm.w": 9, "s.drv.w": 11,
}  # fmt: skip
QUEUE_NAMES = {number: name for name, number in QUEUES.items()}
RULES = tuple(
    "read igncr erase-key erased killed eof-key signal-key flow-key lnext-key reprint-key line-full line-over flushed rest-discarded "
    "control-dropped doubled module-popped end-closed replaced onocr echo-full".split()
)
COMMANDS = {
    "TCGETS": 1, "TCSETS": 2, "TCSETSW": 3, "TCSETSF": 4, "TIOCGWINSZ": 5, "TIOCSWINSZ": 6, "TIOCSIGNAL": 7, "TIOCGPGRP": 8, "TIOCSPGRP": 9,
}  # fmt: skip
OPS = (
    "open_master", "unlock", "open_slave", "close", "push", "pop", "look", "flush", "write", "read", "put", "get", "mode", "nread", "ioctl",
    "ioctl_result", "signals",
)  # fmt: skip
OP = {name: number for number, name in enumerate(OPS)}
ANSWERS = ("done", "name", "count", "bytes", "message", "sizes", "pending", "nak", "signals", "stopped")
DONE, NAME, COUNT, BYTES, MESSAGE, SIZES, PENDING, NAK, SIGNALS, STOPPED = range(10)
HOST_ERRNO = {
    1: errno.EINVAL, 2: errno.EAGAIN, 3: errno.ENXIO, 4: errno.EBADMSG, 5: getattr(errno, "ENOSR", errno.ENOBUFS), 6: errno.ERANGE,
    7: errno.ENOSPC, 9: errno.ENOMEM, 11: errno.EIO,
}  # fmt: skip


class Signal(IntEnum):
    """A signal, by System V's number; `host` is this machine's number, which for WINCH and TSTP is another one on Linux and BSD."""

    HUP = 1
    INT = 2
    QUIT = 3
    WINCH = 20
    TSTP = 24
    TTIN = 26
    TTOU = 27

    @property
    def host(self):
        return getattr(host_signals, f"SIG{self.name}", None)


def signal_of(number):
    """The signal of a number; the number itself where it has no name here."""
    try:
        return Signal(number)
    except ValueError:
        return number


class Refused(Exception):
    """A call was refused, and nothing has changed: `name` and `number` say why, `call` which one, `errno` is this machine's number."""

    def __init__(self, number, call):
        self.number, self.call = number, call
        self.name = REFUSALS[number] if number < len(REFUSALS) else "?"

    def __str__(self):
        return f"{self.call}: {self.name}"

    @property
    def would_wait(self):
        """Whether the call would have had to wait: EAGAIN."""
        return type(self) is Refused and self.number == EAGAIN

    @property
    def errno(self):
        return HOST_ERRNO.get(self.number, errno.EBUSY)


class Nak(Refused):
    """An ioctl was answered with M_IOCNAK, for the reason that `name` says."""


class Stopped(Exception):
    """Job control would stop the caller, which is in the background: `signal` is the one that its process group gets."""

    def __init__(self, number, call):
        self.signal, self.call = signal_of(number), call
        super().__init__(f"{call}: stopped by {getattr(self.signal, 'name', number)}")


class Caller(NamedTuple):
    """Who calls, for job control: a process group (0: none), whether it ignores SIGTTIN and SIGTTOU, whether it is orphaned."""

    group: int = 0
    ignores: bool = False
    orphaned: bool = False


NOBODY = Caller()


class Sizes(NamedTuple):
    """What a pair is made by: blocks of each kind, and the entries and bytes that its journal takes."""

    blocks: int
    entries: int
    bytes: int


class Choices(NamedTuple):
    """What a pair is made of: its Sizes; how many blocks are in reserve, which neither side takes from the other: a write, a put or an ioctl is EAGAIN
    where fewer are free than the reserve and what it asks for, and 64 messages that its side sent wait on a queue; and whether the library begins a full
    journal anew, so that nobody is handed its entries."""

    blocks: int = TERMINAL_BLOCKS
    entries: int = 64
    bytes: int = 16384
    reserve: int = TERMINAL_RESERVE
    anew: bool = True


class Ready(IntFlag):
    """What a side is ready for."""

    CAN_READ = 1  # a read of a byte or more isn't EAGAIN
    CAN_GET = 2  # a get of any message isn't EAGAIN
    CAN_WRITE = 4  # a write is taken, however long it is
    HAS_SIGNALS = 8
    HAS_ANSWER = 16  # an ioctl was answered, and its answer not taken
    HUNG_UP = 32  # the other end is gone


class Room(NamedTuple):
    """What is left of a pair: free blocks, and the entries and bytes that its journal takes yet."""

    blocks: int
    entries: int
    bytes: int


class Answer(NamedTuple):
    """What a call came to, as strm_reply of strm.h has it: `kind` is one of ANSWERS, and `bytes` are those that it gave."""

    kind: str
    value: int
    prio: int
    parts: int
    size: int
    more_control: bool
    more_data: bool
    bytes: bytes


class Call(NamedTuple):
    """An entry of the journal: a call, its numbers as strm_ask has them, the bytes that it brought, and its answer."""

    op: str
    side: Side
    a: int
    b: int
    c: int
    caller: Caller
    bytes: bytes
    answer: Answer


class Turn(NamedTuple):
    """An entry of the journal: a turn of a queue, whose `kind` is "idle", "blocked" or "moved"."""

    queue: str
    kind: str
    moved: int


class Trace(NamedTuple):
    """What a cut handed out: the image at which the pair's journal began, and its entries since, each a Call or a Turn."""

    base: bytes
    entries: list


class Message(NamedTuple):
    """What a get gives: `prio` is a band or HIGH; a part that isn't there is None; more_* say that more of that part waits."""

    prio: int
    control: Optional[bytes]
    data: Optional[bytes]
    more_control: bool
    more_data: bool


class Standing(NamedTuple):
    """How many messages stand on a queue, and how many bytes they have."""

    messages: int
    bytes: int


class Books(NamedTuple):
    """Where the bytes of a direction are; `gone` has the rules by which some have gone. written + made is where they all are."""

    written: int
    made: int
    queued: int
    inlined: int
    gone: dict

    @property
    def balance(self):
        return self.written + self.made == self.queued + self.inlined + sum(self.gone.values())


class Winsize(NamedTuple):
    """A window: rows and columns of characters, width and height in pixels. Each is below 65536."""

    rows: int
    columns: int
    width: int = 0
    height: int = 0

    @classmethod
    def of_wire(cls, wire):
        return cls(*struct.unpack(">4H", wire))

    def wire(self):
        return struct.pack(">4H", *self)


IFLAGS = dict(ISTRIP=0x20, INLCR=0x40, IGNCR=0x80, ICRNL=0x100, IUCLC=0x200, IXON=0x400, IXANY=0x800, IMAXBEL=0x2000)
OFLAGS = dict(OPOST=1, OLCUC=2, ONLCR=4, OCRNL=8, ONOCR=0x10, ONLRET=0x20, XTABS=0x1800)
LFLAGS = dict(
    ISIG=1, ICANON=2, ECHO=8, ECHOE=0x10, ECHOK=0x20, ECHONL=0x40, NOFLSH=0x80, TOSTOP=0x100, ECHOCTL=0x200, ECHOKE=0x800, IEXTEN=0x8000
)
KEYS = dict(
    VINTR=0, VQUIT=1, VERASE=2, VKILL=3, VEOF=4, VEOL=5, VEOL2=6, VSTART=8, VSTOP=9, VSUSP=10, VREPRINT=12, VWERASE=14, VLNEXT=15
)
FLAGS = {name: (word, bits) for word, flags in (("iflag", IFLAGS), ("oflag", OFLAGS), ("lflag", LFLAGS)) for name, bits in flags.items()}


class Termios:
    """The modes of a terminal: termio(7I). `termios["ECHO"]` is whether a flag is set, `termios["VINTR"]` the number of a key, and both are
    set so. `wire` gives the 35 bytes that TCSETS takes."""

    def __init__(self, iflag=0, oflag=0, cflag=0, lflag=0, cc=bytes(19)):
        self.iflag, self.oflag, self.cflag, self.lflag, self.cc = iflag, oflag, cflag, lflag, bytearray(cc)

    @classmethod
    def of_wire(cls, wire):
        return cls(*struct.unpack(">4I", wire[:16]), wire[16:35])

    def wire(self):
        return struct.pack(">4I", self.iflag, self.oflag, self.cflag, self.lflag) + bytes(self.cc)

    def copy(self):
        return Termios.of_wire(self.wire())

    def raw(self):
        """These modes with all of input, output and local ones off, and the same keys."""
        return Termios(0, 0, self.cflag, 0, self.cc)

    def __getitem__(self, name):
        if name in KEYS:
            return self.cc[KEYS[name]]
        word, bits = FLAGS[name]
        return getattr(self, word) & bits == bits

    def __setitem__(self, name, value):
        if name in KEYS:
            self.cc[KEYS[name]] = value
            return
        word, bits = FLAGS[name]
        others = getattr(self, word) & ~bits
        setattr(self, word, others | bits if value else others)

    def __eq__(self, other):
        return isinstance(other, Termios) and self.wire() == other.wire()

    def __repr__(self):
        return f"Termios({' '.join(name for name in FLAGS if self[name])})"
