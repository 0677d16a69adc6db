#!/usr/bin/env python3
"""A server with threads, in Python: the same as threads.c, and the same output.

    STRM_MT_LIBRARY=PREFIX/lib/libstrm_mt.so.1 python3 examples/threads.py
"""
import pathlib
import sys
from concurrent.futures import ThreadPoolExecutor

sys.path.insert(0, str(pathlib.Path(__file__).parent.parent / "python"))

from strm_threads import System  # noqa: E402

TERMINALS, LINES = 30, 40


def types(master):
    """Types lines, and an EOF key behind the last."""
    for _ in range(LINES):
        master.write_all(b"make tests\x7f\r")
    master.write_all(b"\x04")


def shell(slave):
    """Reads lines, and answers each, up to the end of input: how many were as they should be."""
    lines = 0
    while line := slave.read_wait():
        lines += line == b"make test\n"
        slave.write_all(b"ok\n")
    slave.write_all(b"bye!")
    return lines


def shows(master):
    """Takes the echo and the answers, until the shell has said goodbye: how many bytes."""
    shown = 0
    while True:
        text = master.read_wait()
        shown += len(text)
        if text.endswith(b"!"):
            return shown


def agrees(account):
    told, books = account.told, (account.ms, account.sm)
    written, read = [it.written for it in books], [it.gone.get("read", 0) for it in books]
    return [*told.written] == written and [*told.read] == read


def main():
    lines = shown = agree = 0
    with System(TERMINALS, workers=2) as system, ThreadPoolExecutor(3 * TERMINALS) as pool:
        running = []
        for _ in range(TERMINALS):
            master, slave = system.terminal()
            second = master.split()
            running.append((master, second, slave, pool.submit(types, master), pool.submit(shows, second), pool.submit(shell, slave)))
        for master, second, slave, typing, showing, working in running:
            typing.result()
            shown += showing.result()
            lines += working.result()
            agree += agrees(master.join(second).join(slave).settle())
    print(f"{TERMINALS} terminals: the shells read {lines} lines, {shown} bytes were shown")
    print(f"{agree} pairs settled, as their books say")


if __name__ == "__main__":
    main()
