"""Records a session as a journal and as an asciicast, makes the journal again on a new pair, and draws it as a page."""
import os
import sys
import tempfile

from strm import MASTER, SLAVE, Pair
from strm_page import make_page
from strm_record import AsciicastWriter, JournalWriter, Recorder, read_asciicast, read_journal, replay


def session(pair):
    """A line that is typed with a mistake, and the answer."""
    for key in b"dater\x7f\r":
        pair.write(MASTER, bytes([key]))
        pair.runqueues()
        pair.take(MASTER)
    line = pair.read(SLAVE)
    pair.write(SLAVE, b"you typed " + line)
    pair.runqueues()
    return pair.take(MASTER)


def main():
    with tempfile.TemporaryDirectory() as room:
        journal_at, cast_at, page_at = (os.path.join(room, name) for name in ("a.jsonl", "a.cast", "a.html"))
        with Pair() as pair:
            recorder = Recorder(pair, [JournalWriter(journal_at, title="a session"), AsciicastWriter(cast_at)], clock=iter(range(1000)).__next__)
            pair.open_terminal()
            print("shown last:", session(pair))
            recorder.close()
        journal = read_journal(journal_at)
        print(f"{len(journal)} entries, {len(replay(journal))} answers differ when they are made again")
        _, told = read_asciicast(cast_at)
        print("the asciicast shows:", b"".join(data for _, kind, data in told if kind == "o"))
        print("the page differs in", make_page(journal, page_at, "a session"), "steps")
    return 0


if __name__ == "__main__":
    sys.exit(main())
