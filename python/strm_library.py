"""libstrm by ctypes: the structs of include/strm.h, where the shared object is found, its version checked and its exports bound. strm.py is made of
it; a program needs it only to call an export itself."""
import ctypes
import os
import subprocess

from strm_words import RULES

VERSION = (1, 4)  # the least version of the library that strm.py calls


class Handle(ctypes.Structure):
    _fields_ = [("at", ctypes.c_void_p), ("is_open", ctypes.c_bool)]


class Chosen(ctypes.Structure):
    _fields_ = [(name, ctypes.c_size_t) for name in ("blocks", "entries", "bytes", "reserve")] + [("anew", ctypes.c_bool)]


class Ask(ctypes.Structure):
    _fields_ = [(name, ctypes.c_uint32) for name in ("op", "side", "a", "b", "c", "group")] + [
        ("ignores", ctypes.c_bool),
        ("orphaned", ctypes.c_bool),
    ]


class Reply(ctypes.Structure):
    _fields_ = [("bytes", ctypes.c_size_t)] + [(name, ctypes.c_uint32) for name in ("kind", "value", "prio", "parts", "size")] + [
        ("more_control", ctypes.c_bool),
        ("more_data", ctypes.c_bool),
    ]


class Went(ctypes.Structure):
    _fields_ = [("kind", ctypes.c_uint32), ("moved", ctypes.c_uint32)]


class Stands(ctypes.Structure):
    _fields_ = [("messages", ctypes.c_size_t), ("bytes", ctypes.c_size_t)]


class Counts(ctypes.Structure):
    _fields_ = [(name, ctypes.c_uint64) for name in ("written", "made", "queued", "inlined")] + [("gone", ctypes.c_uint64 * len(RULES))]


class Left(ctypes.Structure):
    _fields_ = [(name, ctypes.c_size_t) for name in ("blocks", "entries", "bytes")]


class Place(ctypes.Structure):
    _fields_ = [("entry", ctypes.c_size_t), ("byte", ctypes.c_size_t)]


class Entry(ctypes.Structure):
    _fields_ = [
        ("brings", ctypes.c_size_t),
        ("kind", ctypes.c_uint32),
        ("queue", ctypes.c_uint32),
        ("ask", Ask),
        ("reply", Reply),
        ("went", Went),
    ]


def prototypes():
    """The exports of strm.h: name, result, arguments. Where a pointer is handed over its address is, as that is the fastest."""
    number, size, pointer, lent = ctypes.c_uint32, ctypes.c_size_t, ctypes.c_void_p, ctypes.c_char_p
    return (
        ("strm_version", number, ()),
        ("strm_new", number, (pointer, size, size, size)),
        ("strm_new_with", number, (pointer, pointer)),
        ("strm_free", None, (pointer,)),
        ("strm_call", number, (pointer, pointer, lent, size, pointer, size, pointer)),
        ("strm_write", number, (pointer, number, lent, size, pointer)),
        ("strm_read", number, (pointer, number, pointer, size, pointer)),
        ("strm_turn", number, (pointer, number, pointer)),
        ("strm_runqueues", number, (pointer, pointer)),
        ("strm_next_entry", number, (pointer, pointer, pointer, pointer, size)),
        ("strm_restart", number, (pointer,)),
        ("strm_cut", number, (pointer, pointer)),
        ("strm_trace_next", number, (pointer, pointer, pointer, pointer, size)),
        ("strm_trace_base", number, (pointer, pointer, size, pointer)),
        ("strm_trace_free", None, (pointer,)),
        ("strm_enabled", number, (pointer, size)),
        ("strm_sizes", number, (pointer, number, pointer)),
        ("strm_first_size", number, (pointer, number, pointer)),
        ("strm_ledger", number, (pointer, number, pointer)),
        ("strm_ready", number, (pointer, number)),
        ("strm_room", number, (pointer, pointer)),
        ("strm_image", number, (pointer, pointer, size, pointer)),
        ("strm_restore", number, (pointer, size, size, size, lent, size)),
        ("strm_restore_with", number, (pointer, pointer, lent, size)),
    )


def places(path):
    """Where the shared object may be, the best place first."""
    given = path or os.environ.get("STRM_LIBRARY")
    if given:
        yield given
        return
    # (a wheel has it beside this file)
    yield os.path.join(os.path.dirname(os.path.abspath(__file__)), "libstrm.so.1")
    yield "libstrm.so.1"
    try:
        told = subprocess.run(["pkg-config", "--variable=libdir", "strm"], capture_output=True, text=True, check=True)
        yield os.path.join(told.stdout.strip(), "libstrm.so.1")
    except (OSError, subprocess.CalledProcessError):
        pass
    yield os.path.expanduser("~/.local/lib/libstrm.so.1")
    yield "/usr/local/lib/libstrm.so.1"


class Library:
    """libstrm, its version checked and its exports bound. One is shared by all pairs that name the same place."""

    known = {}

    def __init__(self, path=None):
        shared = self._found(path)
        for name, result, arguments in prototypes():
            function = getattr(shared, name)
            function.restype, function.argtypes = result, arguments
            setattr(self, name[len("strm_") :], function)

    @staticmethod
    def _found(path):
        # A call returns at once, so the interpreter's lock is kept during it (PyDLL), which also orders the calls of threads.
        failures = []
        for place in places(path):
            try:
                shared = ctypes.PyDLL(place)
            except OSError as failure:
                failures.append(str(failure))
                continue
            shared.strm_version.restype = ctypes.c_uint32
            version = divmod(shared.strm_version(), 65536)
            if version[0] != VERSION[0] or version < VERSION:
                raise ImportError(f"{place} is libstrm {version[0]}.{version[1]}, and {VERSION[0]}.{VERSION[1]} is needed")
            return shared
        raise ImportError("libstrm wasn't found (STRM_LIBRARY names it; tools/library makes it): " + "; ".join(failures))

    @classmethod
    def at(cls, path=None):
        """The library at a path, or where it is found."""
        key = path or os.environ.get("STRM_LIBRARY") or ""
        if key not in cls.known:
            cls.known[key] = cls(path)
        return cls.known[key]
