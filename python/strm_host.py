"""Programs of Linux on a pair: libstrm_host by ctypes. include/strm_host.h (host/strm_host.h) is the manual of each call.

    from strm_host import Bridge

    with Bridge(["bash", "--norc"]) as bridge:
        bridge.type(b"echo hi\\r")
        while bridge.step():                # carries on till something was shown; False: bash waits, or has ended
            pass
        bridge.take()                       # what was shown

The shared object is found by STRM_HOST_LIBRARY, else beside the libstrm that is loaded, else by the loader, pkg-config, and in ~/.local/lib and
/usr/local/lib: `tools/host PREFIX` lays it out. strm_expect.spawn("bash") makes a bridge of its own. Where the pair's journal is full it begins
anew, unless the pair keeps it; a Recorder has taken its entries then.
"""
import ctypes
import errno
import os
import select
import signal
import time

from strm import MASTER, SLAVE, Pair, Refused, Termios
from strm_library import places

SHOWS, MOVED, ENDED = 1, 2, 4
ROOM = 65536  # how much is shown at most by one pump
LOOK_SECONDS = (0.0005, 0.001, 0.002, 0.004, 0.008, 0.016)  # how long is waited between two looks whether a program waits


class Window(ctypes.Structure):
    _fields_ = [(name, ctypes.c_uint16) for name in ("rows", "columns", "width", "height")]


class Modes(ctypes.Structure):
    _fields_ = [(name, ctypes.c_uint32) for name in ("iflag", "oflag", "cflag", "lflag")] + [("cc", ctypes.c_uint8 * 19)]


def prototypes():
    """The exports of strm_host.h that are called here: name, result, arguments."""
    number, pointer, texts = ctypes.c_int, ctypes.c_void_p, ctypes.POINTER(ctypes.c_char_p)
    return (
        ("spawn", number, (pointer, pointer, texts, texts, pointer)),
        ("pump", ctypes.c_uint32, (pointer, pointer)),
        ("take", ctypes.c_uint32, (pointer, pointer, ctypes.c_size_t, pointer, pointer)),
        ("fd", number, (pointer,)),
        ("waits", ctypes.c_bool, (pointer,)),
        ("asks", ctypes.c_bool, (number,)),
        ("ended", ctypes.c_bool, (pointer,)),
        ("pid", number, (pointer,)),
        ("group", number, (pointer,)),
        ("kill", number, (pointer, number)),
        ("wait", number, (pointer, pointer)),
        ("resize", number, (pointer, pointer)),
        ("tcgetattr", None, (pointer, pointer)),
        ("tcsetattr", number, (pointer, pointer)),
        ("close", number, (pointer,)),
    )


def host_places():
    """Where the shared object may be, the best place first."""
    given = os.environ.get("STRM_HOST_LIBRARY")
    if given:
        yield given
        return
    for place in places(None):
        yield os.path.join(os.path.dirname(place), "libstrm_host.so.1")
    yield "libstrm_host.so.1"


class HostLibrary:
    """libstrm_host, its exports bound."""

    known = None

    def __init__(self):
        failures = []
        for place in host_places():
            try:
                shared = ctypes.PyDLL(place)
                break
            except OSError as failure:
                failures.append(str(failure))
        else:
            raise ImportError("libstrm_host wasn't found (STRM_HOST_LIBRARY names it; tools/host makes it): " + "; ".join(failures))
        for name, result, arguments in prototypes():
            function = getattr(shared, "strm_host_" + name)
            function.restype, function.argtypes = result, arguments
            setattr(self, name, function)

    @classmethod
    def get(cls):
        if cls.known is None:
            cls.known = cls()
        return cls.known


def readable(descriptors, seconds):
    """Those of some descriptors that are readable within so long."""
    if max(descriptors) < 1024:  # (poll takes no part of a millisecond, and select no descriptor above)
        return select.select(descriptors, [], [], seconds)[0]
    poll = select.poll()
    for one in descriptors:
        poll.register(one, select.POLLIN)
    return [one for one, _ in poll.poll(1000 * seconds)]


def _texts(words):
    return (ctypes.c_char_p * (len(words) + 1))(*map(os.fsencode, words), None)


def _done(number):
    if number:
        raise OSError(number, os.strerror(number))


def exit_of(status):
    """The exit status of a status of waitpid, or minus the number of the signal."""
    return -os.WTERMSIG(status) if os.WIFSIGNALED(status) else os.WEXITSTATUS(status)


def terminal():
    """A pair for a program: its journal is so large that it begins anew behind some hundred kB of output."""
    return Pair.terminal(entries=8192, journal_bytes=1 << 20)


class Bridge:
    """A program on the pair's line discipline. `pair` is a terminal of its own, where none is handed in. `environment` is laid over that of this
    process. FileNotFoundError and other OSErrors: the program can't be run.

    `ended` says that it has ended and all was carried; `status` is its exit status then, or minus the number of the signal that ended it."""

    has_limit = True  # for strm_expect: what isn't shown within a time-out counts as not shown

    def __init__(self, words, rows=24, columns=80, environment=None, pair=None):
        self.shown, self.status, self._at = b"", None, None
        self.library, self.owned = HostLibrary.get(), pair is None
        self.pair = pair or terminal()
        self._what, made = ctypes.c_uint32(), ctypes.c_void_p()
        self._room, self._taken = ctypes.create_string_buffer(ROOM), ctypes.c_size_t()
        self._what_at, self._room_at, self._taken_at = map(ctypes.addressof, (self._what, self._room, self._taken))
        size = Window(rows, columns, 0, 0)
        texts = [f"{name}={value}" for name, value in {**os.environ, **(environment or {})}.items()]
        arguments = (self.pair._at, _texts(list(words)), _texts(texts), ctypes.addressof(size))
        if not self.pair.keeps:
            self.pair.restart()  # so that its journal has room for what the host asks at first
        _done(self.library.spawn(ctypes.addressof(made), *arguments))
        self._at = made.value
        self.pid = self.library.pid(self._at)

    def __enter__(self):
        return self

    def __exit__(self, *_):
        self.close()

    def __del__(self):
        if getattr(self, "_at", None) is not None:
            self.close()

    def _again(self, call):
        """Makes a call that is refused with ENOSPC, where the journal is full, again."""
        number = call()
        if number == errno.ENOSPC and not self.pair.keeps:
            self.pair.restart()
            number = call()
        _done(number)

    def fileno(self):
        """For select: readable where there is something to pump."""
        return self.library.fd(self.at)

    @property
    def at(self):
        """The host's address. ValueError: the bridge was closed."""
        if self._at is None:
            raise ValueError("the bridge was closed")
        return self._at

    @property
    def group(self):
        """The foreground process group; 0 where there is none."""
        return self.library.group(self.at)

    @property
    def ended(self):
        return self._at is None or self.library.ended(self._at)

    def pump(self):
        """Carries what is there, both ways. Whether something was shown, or went on."""
        at, moved, refused = self.at, False, -1
        while refused:
            refused = self.library.take(at, self._room_at, ROOM, self._taken_at, self._what_at)
            taken = self._taken.value
            moved = moved or taken > 0 or self._what.value & (SHOWS | MOVED) > 0
            self.shown += self._room[:taken] if taken else b""
            if refused and not self.pair._mends(refused):
                raise Refused(refused, "pump")
        if self._what.value & ENDED:
            self._told()
        return moved

    def _told(self):
        status = ctypes.c_int()
        if self.status is None and self.library.wait(self.at, ctypes.addressof(status)) == 0:
            self.status = exit_of(status.value)

    def waits(self):
        """Whether nothing is under way, and a process of the foreground asks for input without a time-out; or the program has ended."""
        return self.library.waits(self.at)

    def step(self, seconds=20.0, looks_at=True):
        """Carries on until something was shown, or went on. False: the program waits or has ended, or the time is over; where `looks_at` is False the
        time alone tells, as a relay (ssh, script, tmux) asks for keys while another program is at work."""
        end, looks = time.monotonic() + seconds, 0
        while not self.pump():
            left = end - time.monotonic()
            if left <= 0 or (self.waits() if looks_at else self.ended):
                return False
            readable([self.fileno()], min(left, LOOK_SECONDS[min(looks, len(LOOK_SECONDS) - 1)]))
            looks += 1
        return True

    def rests(self, seconds=20.0):
        """Carries on until the program waits or has ended: whether it did so in time."""
        end = time.monotonic() + seconds
        while self.step(end - time.monotonic()):
            pass
        return self.waits()

    def type(self, data, seconds=20.0):
        """Writes keys to the master. TimeoutError: the program doesn't read them."""
        end = time.monotonic() + seconds
        while data:
            try:
                data = data[self.pair.write(MASTER, data) :]
            except Refused as refusal:
                if refusal.name not in ("EAGAIN", "ENOSR"):
                    raise
            if not self.pump() and data:
                if time.monotonic() > end or self.ended:
                    raise TimeoutError(f"the program doesn't read, and these keys weren't taken: {data[:80]!r}")
                readable([self.fileno()], 0.01)

    def take(self):
        shown, self.shown = self.shown, b""
        return shown

    def resize(self, rows, columns):
        size = Window(rows, columns, 0, 0)
        self._again(lambda: self.library.resize(self.at, ctypes.addressof(size)))
        self.pump()

    def tcgetattr(self):
        """The modes of the terminal."""
        modes = Modes()
        self.library.tcgetattr(self.at, ctypes.addressof(modes))
        words = b"".join(getattr(modes, name).to_bytes(4, "big") for name in ("iflag", "oflag", "cflag", "lflag"))
        return Termios.of_wire(words + bytes(modes.cc))

    def tcsetattr(self, termios):
        """Sets them, as if the program had done so at once."""
        wire = termios.wire()
        modes = Modes(*(int.from_bytes(wire[at : at + 4], "big") for at in (0, 4, 8, 12)), (ctypes.c_uint8 * 19)(*wire[16:35]))
        self._again(lambda: self.library.tcsetattr(self.at, ctypes.addressof(modes)))

    def kill(self, number=signal.SIGTERM):
        """Sends a signal to the foreground process group. ProcessLookupError: there is none."""
        _done(self.library.kill(self.at, int(number)))

    def close(self):
        """Hangs up, and gives all back but a pair that was handed in."""
        if self._at is None:
            return
        at, self._at = self._at, None
        status = self.library.close(at)
        self.status = exit_of(status) if self.status is None else self.status
        if self.owned:
            self.pair.free()


def asks(master):
    """Whether a process of the foreground of any pseudoterminal, named by its master, asks it for input without a time-out."""
    return HostLibrary.get().asks(master)


__all__ = ["MASTER", "SLAVE", "Bridge", "asks"]
