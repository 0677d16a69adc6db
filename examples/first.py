#!/usr/bin/env python3
"""A first session on a terminal, in Python: the same as first.c, and the same output.

    STRM_LIBRARY=PREFIX/lib/libstrm.so.1 python3 examples/first.py
"""
import errno
import pathlib
import sys

sys.path.insert(0, str(pathlib.Path(__file__).parent.parent / "python"))

from strm import MASTER, SLAVE, Pair, Refused  # noqa: E402


def show(what, read, *arguments):
    try:
        data = read(*arguments)
    except Refused as refused:
        print(f"{what:<20}{refused.name}")
    else:
        text = "".join(chr(byte) if 32 <= byte < 127 else f"\\x{byte:02x}" for byte in data)
        print(f'{what:<20}{len(data)} "{text}"')


def session(pair):
    """The README's session."""
    typed = pair.write(MASTER, b"lx\x7fs\r")
    print(f"{'the user types':<20}{typed}")
    pair.runqueues()
    show("the program reads", pair.read, SLAVE)
    show("the user sees", pair.read, MASTER)
    show("nothing more", pair.read, SLAVE)


def signals(pair):
    """A resize and an interrupt, as signals of the slave."""
    pair.set_winsize(24, 80)
    told = pair.get_winsize()
    print(f"{'window':<20}{told.rows} x {told.columns}")
    pair.write(MASTER, b"abc\x03")
    pair.runqueues()
    names = "".join(signal.name + " " for signal in pair.signals(SLAVE))
    print(f"{'signals':<20}{names}")


def books(pair):
    """Every byte that the master wrote has one place."""
    told = pair.ledger(MASTER)
    for rule, gone in told.gone.items():
        print(f"  {rule:<18}{gone}")
    print(f"{'balance':<20}{int(told.balance)}")


def main():
    closed = Pair(1, 1, 1)
    closed.free()
    show("closed", closed.read, SLAVE)
    show("no blocks", Pair, 0, 1, 1)
    with Pair.terminal() as pair:
        try:
            pair.read(SLAVE)
        except Refused as refused:
            print(f"{'would have to wait':<20}{int(refused.errno == errno.EAGAIN)}")
        session(pair)
        signals(pair)
        books(pair)
    print(f"{'open':<20}{int(pair.is_open)}")


main()
