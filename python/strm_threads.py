"""Pairs that threads share: libstrm_mt by ctypes, for Linux. include/strm_mt.h is the manual of each call.

    from threading import Thread
    from strm_threads import Reader, System, Writer

    with System(100, workers=2) as system:        # 100 pairs, and two threads of the library's that make turns
        master, slave = system.terminal()         # a pair is claimed, both sides are open, ptem and ldterm on the slave
        keys, shell = Writer(master), Reader(slave)
        typing = Thread(target=keys.write, args=(b"ls\\r",))
        typing.start()
        shell.read(4096)                          # b"ls\\n": sleeps until a line is there, without the interpreter's lock
        typing.join()
        master.join(slave).settle()               # the Account: what both ends were told is what the pair's books say

An end is what a thread has of a pair, and is used by one thread at a time: RuntimeError where a second one calls meanwhile. `split`, `into_halves`
and `open_slave` make further ones. Calls by an end return at once, and raise Refused as those of strm.Pair; `wait`, `read_wait`, `write_all`,
`drain`, ioctls and the files Reader and Writer sleep, for `timeout` seconds at most where that isn't None. Ctrl-C ends a sleep of the main thread.

An end that is freed (`free`, the end of a `with`, or where nothing names it) isn't lost: the last one of a side closes that, behind what it wrote
(where nothing names it, at once), and the last one of a pair gives it back to its system. The library is found by STRM_MT_LIBRARY, else beside
libstrm: `tools/library_mt PREFIX` lays it out.
"""
import ctypes
import errno
import io
import itertools
import math
import os
import threading
import time
from collections import deque

from strm import _traced
from strm_library import Ask, Chosen, Reply
from strm_threads_calls import Calls
from strm_threads_library import Account, Each, Part, Settled, Share, ThreadsLibrary, Told, Visit, done
from strm_words import *

LINGER = 15.0  # so many seconds the last end of a slave that is freed waits at most for what it wrote to leave its modules, as close(2) of a stream
SLICE = 0.2  # so long the main thread sleeps without a look at signals
TERMINALS = Choices(reserve=0)  # of what a system of terminals is made: its pairs haven't a reserve
NO_MEMORY = REFUSALS.index("NoMemory")


class _Memory:
    """A system of the library's, freed with the last of all that was made of it."""

    def __init__(self, library, pairs, choices):
        self.library, self.at, self.process, made = library, None, os.getpid(), ctypes.c_void_p()
        blocks, entries, bytes_, reserve, anew = choices
        chosen = Chosen(blocks, entries, bytes_, reserve, anew)
        done(library.system_new(ctypes.addressof(made), pairs, ctypes.addressof(chosen)), "system_new")
        self.at = made.value

    def __del__(self):
        # (a forked child has neither the workers nor who has a lock)
        if self.at is not None and self.process == os.getpid():
            self.library.system_free(self.at)


class System:
    """1 to 65536 pairs that threads share, each of these Choices, and so many workers, which make turns wherever a queue is enabled and sleep where
    none is. EINVAL: a number isn't one of these, or a reserve is asked for.

    It is used by any threads at once. `free`, or the end of a `with`, stops the workers; its memory goes with the last end."""

    def __init__(self, pairs, choices=TERMINALS, workers=0, library=None):
        self.library, self.pairs = ThreadsLibrary.at(library), pairs
        self._memory, self._starts, self._has_workers = _Memory(self.library, pairs, choices), threading.Lock(), False
        if workers:
            self.start_workers(workers)

    def free(self):
        """Stops the workers, and gives the memory back with the last end. Any call behind it is a ValueError."""
        with self._starts:
            if self._has_workers:
                self.library.workers_stop(self._at)
                self._has_workers = False
            self._memory = None

    @property
    def _at(self):
        memory = self._memory
        if memory is None:
            raise ValueError("the system was freed")
        return memory.at

    def __enter__(self):
        return self

    def __exit__(self, *_):
        self.free()

    def __reduce_ex__(self, _):
        raise TypeError("a system isn't copied")

    def start_workers(self, threads):
        """Starts 1 to 256 threads that make turns. EINVAL: workers are there, or the number is none of these. NoMemory: a thread couldn't be had."""
        with self._starts:
            done(self.library.workers_start(self._at, threads), "start_workers")
            self._has_workers = True

    def stop_workers(self):
        """Stops them, and waits until each has ended; what is enabled stays so. EINVAL: none is there."""
        with self._starts:
            done(self.library.workers_stop(self._at), "stop_workers")
            self._has_workers = False

    def claim(self):
        """Claims a pair that nobody has: its number. NoMinor: each is taken."""
        pair = ctypes.c_uint32()
        done(self.library.system_claim(self._at, ctypes.addressof(pair)), "claim")
        return pair.value

    def release(self, pair):
        """Gives a claimed pair back that isn't open. EINVAL: it isn't claimed, or is open."""
        done(self.library.system_release(self._at, pair), "release")

    def open(self, pair=None):
        """open(2) of the master of a claimed pair, or of one that is claimed here: the end that has all of it."""
        number, made = self.claim() if pair is None else pair, ctypes.c_void_p()
        refused = self.library.system_open(self._at, number, ctypes.addressof(made))
        if refused and pair is None:
            self.release(number)
        done(refused, "open")
        return _Shared(self._memory, number).adds(made.value, MASTER)

    def terminal(self):
        """A terminal as a shell expects it: the ends of the master and of the slave, both open, ptem and ldterm on the slave."""
        made = (ctypes.c_void_p * 2)()
        at = ctypes.addressof(made)
        done(self.library.system_terminal(self._at, at, at + ctypes.sizeof(ctypes.c_void_p)), "terminal")
        part = Part()
        self.library.end_told(made[0], ctypes.addressof(part))
        shared = _Shared(self._memory, part.pair)
        return shared.adds(made[0], MASTER), shared.adds(made[1], SLAVE)

    def turn(self, pair):
        """Makes the turn of the queue of a pair that was enabled first: a Turn; None where none is enabled."""
        visit = Visit()
        done(self.library.system_turn(self._at, pair, ctypes.addressof(visit)), "turn")
        done(visit.refusal, "turn")
        name = QUEUE_NAMES.get(visit.queue)
        return name and Turn(name, ("idle", "blocked", "moved")[visit.went.kind], visit.went.moved)

    def run(self, pair):
        """Makes such turns until none is enabled: how many. EAGAIN behind RUN_MOST of them. A journal begins anew by an end alone (End.run), so here
        it may be JournalFull."""
        turns = ctypes.c_size_t()
        done(self.library.system_run(self._at, pair, ctypes.addressof(turns)), "run")
        return turns.value

    def audit(self, pair):
        """What was told of a pair so far, and its ledgers: an Account of one moment."""
        told = Settled()
        done(self.library.system_audit(self._at, pair, ctypes.addressof(told)), "audit")
        return Account.of(told)


class _Shared:
    """What the ends of a pair share: their sides, those that were freed and have parts of it yet, and whose turn an ioctl of a side is. It blocks for
    nothing where an end is collected."""

    def __init__(self, memory, number):
        self.memory, self.library, self.number = memory, memory.library, number
        self.keys, self.live, self.sides, self.freed, self.last = itertools.count(), {}, {}, deque(), threading.Lock()
        self.ioctl, self.asks, self.unanswered = threading.Condition(), set(), {}

    def adds(self, at, side, timeout=None):
        key = next(self.keys)  # (the address of an end that is gone may be another one's)
        self.live[key] = self.sides[key] = side
        return End(self, at, key, side, timeout)

    def leaves(self, key, side):
        """An end is about to go: whether it is the last of its side, and the other side has one."""
        self.sides.pop(key, None)
        left = list(self.sides.values())
        return side not in left and bool(left)

    def goes(self, key, at):
        """An end is gone. The last one settles the pair, which is released then."""
        self.freed.append(at)
        self.live.pop(key, None)
        if not self.live and self.last.acquire(False):
            first, told = self.freed.popleft(), Settled()
            self.gathers(first)
            if not self.library.end_settle(first, ctypes.addressof(told)):
                self.library.system_release(self.memory.at, self.number)

    def gathers(self, at):
        """Joins the parts of those that were freed to an end."""
        while self.freed:
            self.library.end_join(at, self.freed.popleft())


class _Use:
    """An end in use by a thread: a second one is told."""

    def __init__(self):
        self.lock = threading.Lock()

    def __enter__(self):
        if not self.lock.acquire(False):
            raise RuntimeError("another thread uses this end: each has one of its own (split)")

    def __exit__(self, *_):
        self.lock.release()


class End(Calls):
    """What a thread has of a pair: it calls as one side, and is told what its own calls were, wrote and read. `timeout` is how many seconds each of
    its sleeps lasts at most; None has no end."""

    def __init__(self, shared, at, key, side, timeout):
        self._shared, self._at, self._key, self.side, self.pair, self.timeout = shared, at, key, side, shared.number, timeout
        self._library, self._use, self._room, self._caller = shared.library, _Use(), None, NOBODY
        self._ask, self._reply, self._ready = Ask(), Reply(), ctypes.c_uint32()

    def __enter__(self):
        return self

    def __exit__(self, *_):
        self.free()

    def __del__(self):
        if getattr(self, "_at", None) is not None and self._shared.memory.process == os.getpid():
            self.free(linger=0)

    def __reduce_ex__(self, _):
        raise TypeError("an end isn't copied: split it")

    def __repr__(self):
        return f"<End of pair {self.pair}, {self.side.name.lower()}{', gone' if self._at is None else ''}>"

    @property
    def _address(self):
        if self._at is None:
            raise ValueError("the end is gone: it was joined, settled or freed")
        return self._at

    def _makes(self, name, *arguments):
        with self._use:
            return getattr(self._library, "end_" + name)(self._address, *arguments)

    # ------------------------------------------------------------------------------------------------------------- ends

    def open_slave(self):
        """open(2) of the slave: an end that calls as it. EAGAIN before the unlock."""
        made = ctypes.c_void_p()
        done(self._makes("open_slave", ctypes.addressof(made)), "open_slave")
        return self._shared.adds(made.value, SLAVE, self.timeout)

    def split(self):
        """Cuts the end in two, which call alike: the second one, for another thread."""
        made = ctypes.c_void_p()
        done(self._makes("split", ctypes.addressof(made)), "split")
        second = self._shared.adds(made.value, self.side, self.timeout)
        second._caller = self._caller
        return second

    def into_halves(self):
        """The end as two files: a Reader and a Writer, for a thread each."""
        second = self.split()
        return Reader(self), Writer(second)

    def join(self, second):
        """Joins a second end to this one, which has the parts of both and what both were told, and is given. It calls as the end that opened the
        pair did, where that is one of them, else as this one did. EINVAL: they are of two pairs; both stay."""
        if second is self:
            raise Refused(EINVAL, "join")
        with self._use, second._use:
            done(self._library.end_join(self._address, second._address), "join")
            second._at = None
            self._shared.sides.pop(second._key, None)
            self._shared.live.pop(second._key, None)
            self._looks()
        return self

    def settle(self):
        """Settles the pair, of which no other end is left: an Account. The pair is free for another claim. StillShared: another end is left; this one
        stays."""
        told = Settled()
        with self._use:
            self._shared.gathers(self._address)
            self._looks()
            done(self._library.end_settle(self._at, ctypes.addressof(told)), "settle")
            self._at = None
            self._library.system_release(self._shared.memory.at, self.pair)
        return Account.of(told)

    def _looks(self):
        """Behind a join, by which the end may call as the other side."""
        part = Part()
        self._library.end_told(self._at, ctypes.addressof(part))
        self.side = self._shared.live[self._key] = self._shared.sides[self._key] = Side(part.side)

    def free(self, linger=LINGER):
        """Gives the end up. The last one of a side closes it, behind what it wrote: for so many seconds at most it waits until that has left the
        slave's modules, unless the side was closed before. The last one of a pair gives it back to its system."""
        if self._at is None:
            return
        with self._use:
            heard = self._shared.leaves(self._key, self.side)
        if heard:
            self._closes(linger)
        with self._use:
            at, self._at = self._address, None
            self._shared.goes(self._key, at)

    def _closes(self, linger):
        self._runs()
        end, self.timeout = time.monotonic() + linger, 0.0
        self.caller = NOBODY
        while self.side == SLAVE and time.monotonic() < end:
            try:
                self._drains(turns=True)
                break
            except Refused as refusal:
                if not refusal.would_wait:
                    break
                self.timeout = min(0.05, max(0.0, end - time.monotonic()))
        try:
            self.close()
        except Refused:
            pass
        self._runs()

    def told(self):
        """What the end is: a Share."""
        part = Part()
        self._makes("told", ctypes.addressof(part))
        return Share(Told.of(part.told), part.parts, part.pair, Side(part.side), Caller(part.group, part.ignores, part.orphaned))

    @property
    def caller(self):
        """Who makes the end's calls, for job control: a Caller."""
        return self._caller

    @caller.setter
    def caller(self, caller):
        self._caller = Caller(*caller)
        self._makes("set_group", *self._caller)

    def run(self):
        """Makes turns of the pair until no queue is enabled: how many. A full journal begins anew where that was chosen."""
        turns = ctypes.c_size_t()
        done(self._makes("run", ctypes.addressof(turns)), "run")
        return turns.value

    def restart(self):
        """Begins the journal of the pair anew."""
        done(self._makes("restart"), "restart")

    def cut(self):
        """Hands out the Trace of the pair, the image at which its journal began and the entries since, calls of all ends and turns, and begins the
        journal anew. Where full ones begin anew (Choices) entries before that are gone."""
        library = self._library
        return _traced(lambda at: self._makes("cut", at), library.end_trace_base, library.end_trace_next, library.end_trace_free)

    # ------------------------------------------------------------------------------------------------------------- waiting

    def ready(self):
        """What the end's side is ready for, as Ready has it. ENXIO: the side isn't open."""
        done(self._makes("ready", ctypes.addressof(self._ready)), "ready")
        return Ready(self._ready.value)

    def wait(self, what=Ready.CAN_READ, timeout=None):
        """Sleeps until the side is ready for something of `what`, or is hung up: all that it is ready for. EAGAIN: so many seconds are over. ENXIO:
        the side isn't open, or was closed meanwhile by another end."""
        end = None if timeout is None else time.monotonic() + timeout
        in_slices = threading.current_thread() is threading.main_thread()
        while True:
            left = math.inf if end is None else max(0.0, end - time.monotonic())
            sleeps = min(left, SLICE) if in_slices else left
            milliseconds = -1 if sleeps == math.inf else min(math.ceil(sleeps * 1000), 0x7FFFFFFF)
            refused = self._makes("wait", int(what), milliseconds, ctypes.addressof(self._ready))
            if refused != EAGAIN or left <= sleeps:
                done(refused, "wait")
                return Ready(self._ready.value)

    def fileno(self):
        """A descriptor for select or poll, closed with the end: readable where the side may have become ready for more since this end looked (ready,
        wait). NoMemory: the system gives none."""
        number = self._makes("fd")
        done(NO_MEMORY if number < 0 else 0, "fd")
        return number


class _File(io.RawIOBase):
    """An end as a file; `end` has all other calls. A time-out of the end that is over is a TimeoutError, other refusals are OSErrors whose __cause__
    is the Refused or Stopped. Where it is closed its end is freed; a file that nothing names leaves it."""

    def __init__(self, end):
        super().__init__()
        self.end = end

    def close(self):
        if not self.closed:
            super().close()
            self.end.free()

    def __del__(self):
        pass  # (that of the class above would close it)

    def _makes(self, call, *arguments):
        if self.closed:
            raise ValueError("the file was closed")
        try:
            return call(*arguments)
        except Refused as refusal:
            if refusal.would_wait:
                raise TimeoutError(str(refusal)) from refusal
            raise OSError(refusal.errno, str(refusal)) from refusal
        except Stopped as stopped:
            raise OSError(errno.EIO, str(stopped)) from stopped


class Reader(_File):
    """An end that reads, and sleeps until there is something: under ICANON a read is a line. b"" is the end of input: a hang-up, or an EOF key."""

    def readable(self):
        return True

    def readinto(self, room):
        room = memoryview(room).cast("B")
        return self._makes(self.end.read_into_wait, room) if len(room) else 0


class Writer(_File):
    """An end that writes, and sleeps until all is taken; fewer bytes only where its time is over behind some of them."""

    def writable(self):
        return True

    def write(self, data):
        return self._makes(self.end.write_all, data)
