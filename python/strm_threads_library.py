"""libstrm_mt by ctypes: the structs of include/strm_mt.h, what is told of ends and pairs, where the shared object is found, and its exports bound.
strm_threads.py is made of it; a program needs it only to call an export itself."""
import ctypes
import os
from typing import NamedTuple

from strm_library import Counts, Went, places
from strm_words import *


class Bytes(ctypes.Structure):
    _fields_ = [(name, ctypes.c_uint64) for name in ("from_master", "from_slave")]


class Tally(ctypes.Structure):
    _fields_ = [("calls", ctypes.c_uint64), ("written", Bytes), ("read", Bytes)]


class Part(ctypes.Structure):
    _fields_ = [("told", Tally), ("parts", ctypes.c_uint64)] + [(name, ctypes.c_uint32) for name in ("pair", "side", "group")] + [
        ("ignores", ctypes.c_bool),
        ("orphaned", ctypes.c_bool),
    ]


class Settled(ctypes.Structure):
    _fields_ = [("told", Tally), ("ms", Counts), ("sm", Counts)]


class Visit(ctypes.Structure):
    _fields_ = [("queue", ctypes.c_uint32), ("refusal", ctypes.c_uint32), ("went", Went)]


class Each(NamedTuple):
    """How many bytes, by the side that wrote them."""

    from_master: int
    from_slave: int


class Told(NamedTuple):
    """How many calls were granted, and the bytes that they wrote and read, those of control parts too."""

    calls: int
    written: Each
    read: Each

    @classmethod
    def of(cls, told):
        return cls(told.calls, *(Each(it.from_master, it.from_slave) for it in (told.written, told.read)))


class Share(NamedTuple):
    """What an end is: what it was told, with those that were joined to it; how many parts of its pair it has, of 2^63; its pair; as whom it calls."""

    told: Told
    parts: int
    pair: int
    side: Side
    caller: Caller


class Account(NamedTuple):
    """What was told of a pair in all since it was opened, and where the bytes are that the master (ms) and the slave (sm) wrote."""

    told: Told
    ms: Books
    sm: Books

    @classmethod
    def of(cls, it):
        return cls(Told.of(it.told), *(Books(b.written, b.made, b.queued, b.inlined, _gone(b)) for b in (it.ms, it.sm)))


def _gone(books):
    return {rule: count for rule, count in zip(RULES, books.gone) if count}


def prototypes():
    """The exports of strm_mt.h: name, result, arguments."""
    number, size, pointer, whole, bit = ctypes.c_uint32, ctypes.c_size_t, ctypes.c_void_p, ctypes.c_int, ctypes.c_bool
    return (
        ("system_new", number, (pointer, size, pointer)),
        ("system_free", number, (pointer,)),
        ("system_pairs", size, (pointer,)),
        ("system_claim", number, (pointer, pointer)),
        ("system_release", number, (pointer, number)),
        ("system_open", number, (pointer, number, pointer)),
        ("system_terminal", number, (pointer, pointer, pointer)),
        ("system_turn", number, (pointer, number, pointer)),
        ("system_run", number, (pointer, number, pointer)),
        ("system_audit", number, (pointer, number, pointer)),
        ("workers_start", number, (pointer, size)),
        ("workers_stop", number, (pointer,)),
        ("end_open_slave", number, (pointer, pointer)),
        ("end_split", number, (pointer, pointer)),
        ("end_join", number, (pointer, pointer)),
        ("end_settle", number, (pointer, pointer)),
        ("end_told", None, (pointer, pointer)),
        ("end_set_group", None, (pointer, number, bit, bit)),
        ("end_call", number, (pointer, pointer, ctypes.c_char_p, size, pointer, size, pointer)),
        ("end_run", number, (pointer, pointer)),
        ("end_restart", number, (pointer,)),
        ("end_cut", number, (pointer, pointer)),
        ("end_trace_next", number, (pointer, pointer, pointer, pointer, size)),
        ("end_trace_base", number, (pointer, pointer, size, pointer)),
        ("end_trace_free", None, (pointer,)),
        ("end_ready", number, (pointer, pointer)),
        ("end_wait", number, (pointer, number, whole, pointer)),
        ("end_fd", whole, (pointer,)),
    )


class ThreadsLibrary:
    """libstrm_mt, its exports bound. A call lets the interpreter's lock go."""

    known = {}

    def __init__(self, path=None):
        failures = []
        given = path or os.environ.get("STRM_MT_LIBRARY")
        beside = (os.path.join(os.path.dirname(place), "libstrm_mt.so.1") for place in places(None))
        for place in [given] if given else [*beside, "libstrm_mt.so.1"]:
            try:
                shared = ctypes.CDLL(place)
                break
            except OSError as failure:
                failures.append(str(failure))
        else:
            raise ImportError("libstrm_mt wasn't found (STRM_MT_LIBRARY names it; tools/library_mt makes it): " + "; ".join(failures))
        for name, result, arguments in prototypes():
            function = getattr(shared, "strm_" + name)
            function.restype, function.argtypes = result, arguments
            setattr(self, name, function)

    @classmethod
    def at(cls, path=None):
        """The library at a path, or where it is found."""
        key = path or os.environ.get("STRM_MT_LIBRARY") or ""
        if key not in cls.known:
            cls.known[key] = cls(path)
        return cls.known[key]


def done(refused, call):
    if refused:
        raise Refused(refused, call)
