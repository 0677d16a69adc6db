#!/usr/bin/env python3
"""What a typed line costs from Python: a write of 3 bytes, the turns, and the reads of the line and of its echo. Microseconds, the least of
seven runs.

    STRM_LIBRARY=PREFIX/lib/libstrm.so.1 python3 bench/line.py [LINES]
"""
import pathlib
import sys
import time

sys.path.insert(0, str(pathlib.Path(__file__).parent.parent / "python"))

from strm import MASTER, SLAVE, Pair, Refused  # noqa: E402
from strm_record import Recorder  # noqa: E402


def typed(pair, lines):
    write, run, read, began = pair.write, pair.runqueues, pair.read, time.perf_counter()
    for _ in range(lines):
        write(MASTER, b"ls\r")
        run()
        read(SLAVE)
        read(MASTER)
    return (time.perf_counter() - began) / lines * 1e6


def refused(pair, reads):
    began = time.perf_counter()
    for _ in range(reads):
        try:
            pair.read(SLAVE)
        except Refused:
            pass
    return (time.perf_counter() - began) / reads * 1e6


class Nothing:
    """A writer that keeps nothing."""

    def entry(self, at, entry):
        pass

    def close(self):
        pass


def main():
    lines = int(sys.argv[1]) if len(sys.argv) > 1 else 20000
    with Pair.terminal() as pair:
        print(f"a typed line: {min(typed(pair, lines) for _ in range(7)):.1f} us")
        print(f"a read that is refused: {min(refused(pair, lines) for _ in range(7)):.2f} us")
        recorder = Recorder(pair, [Nothing()])
        print(f"a typed line whose seven entries a recorder takes: {min(typed(pair, lines) for _ in range(7)):.1f} us")
        recorder.close()


main()
