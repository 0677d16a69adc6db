#!/usr/bin/env python3
"""A program of the system on the pair's line discipline: editing, echo, signals, flow control and output modes are those of `ldterm`.

    STRM_LIBRARY=PREFIX/lib/libstrm.so.1 python3 examples/bridge.py [--cast FILE] [--journal FILE] [--script LOG TIMING] [bash ..]

    your terminal (raw) -> write m -> ldterm -> read s -> libstrm_host -> program
    your terminal <- read m <- ldterm <- write s <- libstrm_host <- program

libstrm_host stands beside libstrm (tools/library and tools/host with one PREFIX). A resize of your terminal is a TIOCSWINSZ of the master, whose
SIGWINCH goes on to the program. The journal of a session is what a bug report needs: strm_record.replay.
"""
import argparse
import os
import pathlib
import select
import shutil
import signal
import sys
import termios
import tty

sys.path.insert(0, str(pathlib.Path(__file__).parent.parent / "python"))

from strm import Pair  # noqa: E402
from strm_host import Bridge  # noqa: E402
from strm_record import AdvancedTypescriptWriter, AsciicastWriter, JournalWriter, Recorder  # noqa: E402


def shows(bridge):
    data = bridge.take()
    while data:
        data = data[os.write(1, data) :]


def interacts(bridge, recorder):
    """Between the terminal of this process and a bridge, until its program ends."""
    before = termios.tcgetattr(0)
    woken, wakes = os.pipe()
    os.set_blocking(wakes, False)
    signal.set_wakeup_fd(wakes)
    signal.signal(signal.SIGWINCH, lambda *_: bridge.resize(*reversed(shutil.get_terminal_size())))
    tty.setraw(0)
    try:
        while not bridge.ended:
            while bridge.pump():
                shows(bridge)
            recorder.drain()
            ready, _, _ = select.select([0, bridge, woken], [], [])
            if 0 in ready:
                bridge.type(os.read(0, 1024))
            if woken in ready:
                os.read(woken, 64)
        shows(bridge)
    finally:
        termios.tcsetattr(0, termios.TCSADRAIN, before)


def main():
    parser = argparse.ArgumentParser(description=__doc__, formatter_class=argparse.RawDescriptionHelpFormatter)
    parser.add_argument("--cast", metavar="FILE")
    parser.add_argument("--journal", metavar="FILE")
    parser.add_argument("--script", nargs=2, metavar=("LOG", "TIMING"))
    parser.add_argument("words", nargs=argparse.REMAINDER)
    asked = parser.parse_args()
    columns, rows = shutil.get_terminal_size()
    writers = [JournalWriter(asked.journal)] if asked.journal else []
    writers += [AsciicastWriter(asked.cast, columns, rows)] if asked.cast else []
    writers += [AdvancedTypescriptWriter(*asked.script, columns, rows)] if asked.script else []
    words = asked.words[1:] if asked.words[:1] == ["--"] else asked.words
    pair = Pair()
    with Recorder(pair, writers) as recorder:
        pair.open_terminal()
        with Bridge(words or [os.environ.get("SHELL", "sh")], rows, columns, pair=pair) as bridge:
            interacts(bridge, recorder)
    sys.exit(bridge.status if bridge.status is not None and bridge.status >= 0 else 1)


if __name__ == "__main__":
    main()
