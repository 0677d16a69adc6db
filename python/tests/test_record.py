"""Recorders, the formats that they write and read, and journals that are made again. STRM_SESSIONS says how many random sessions are."""
import io
import json
import os
import pathlib
import random
import shutil
import subprocess
import tempfile
import unittest

from strm import HIGH, MASTER, SLAVE, Pair, Refused
from strm_record import (
    AdvancedTypescriptWriter,
    AsciicastWriter,
    JournalWriter,
    Recorder,
    TypescriptWriter,
    entry_of_json,
    entry_to_json,
    events,
    read_asciicast,
    read_journal,
    read_typescript,
    replay,
)
from tests.test_pair import any_call


def knows(tool, option):
    """Whether a tool is there, and has an option."""
    return shutil.which(tool) is not None and option in subprocess.run([tool, "--help"], capture_output=True, text=True).stdout


class Clock:
    """Seconds that go on by a quarter each time they are asked for."""

    def __init__(self):
        self.now = -0.25

    def __call__(self):
        self.now += 0.25
        return self.now


def a_session(pair, recorder):
    """What it shows, and what is typed."""
    shown, typed = b"", b""
    for keys, output in ((b"h\xc3\xa9llo\r", b"\x1b[1mhi\x1b[0m\n"), (b"x\x7fy\r", b"\xf0\x9f\x98\x80 ok\n"), (b"\x03", b"bye \xff\n")):
        pair.write(MASTER, keys)
        typed += keys
        pair.runqueues()
        shown += pair.take(MASTER)
        recorder.drain()
        pair.write(SLAVE, output)
        pair.runqueues()
        for part in (2, 3, 4096):  # a character is cut in two
            shown += pair.read(MASTER, part)
            recorder.drain()
    pair.set_winsize(30, 100)
    return shown, typed


class Recorders(unittest.TestCase):
    def setUp(self):
        self.room = pathlib.Path(tempfile.mkdtemp())
        self.addCleanup(shutil.rmtree, self.room)
        self.pair = Pair()
        self.addCleanup(self.pair.free)

    def recorded(self, *writers):
        recorder = Recorder(self.pair, [Seen(), *writers], clock=Clock())
        self.pair.open_terminal()
        shown, typed = a_session(self.pair, recorder)
        recorder.close()
        return recorder.writers[0].entries, shown, typed

    def test_events_are_what_was_shown_typed_and_resized(self):
        entries, shown, typed = self.recorded()
        told = events(entries)
        self.assertEqual(b"".join(data for _, kind, data in told if kind == "o"), shown)
        self.assertEqual(b"".join(data for _, kind, data in told if kind == "i"), typed)
        self.assertEqual([data for _, kind, data in told if kind == "r"], [(100, 30)])

    def test_an_asciicast_gives_back_its_text(self):
        path = self.room / "a.cast"
        entries, shown, typed = self.recorded(AsciicastWriter(path, 80, 24, typed=True, title="a session"))
        header, told = read_asciicast(path)
        self.assertEqual((header["version"], header["width"], header["height"], header["title"]), (2, 80, 24, "a session"))
        text = b"".join(data for _, kind, data in told if kind == "o").decode()
        self.assertEqual(text, shown.decode("utf-8", "replace"))
        self.assertEqual(b"".join(data for _, kind, data in told if kind == "i"), typed)
        self.assertIn((100, 30), [data for _, kind, data in told if kind == "r"])
        times = [at for at, _, _ in told]
        self.assertEqual(times, sorted(times))
        self.assertTrue(all(isinstance(json.loads(line), (list, dict)) for line in path.read_text("utf-8").splitlines()))

    def test_an_asciicast_written_again_is_the_same(self):
        path, again = self.room / "a.cast", self.room / "b.cast"
        self.recorded(AsciicastWriter(path, typed=True))
        header, told = read_asciicast(path)
        writer = AsciicastWriter(again, header["width"], header["height"], typed=True)
        for event in told:
            writer.event(*event)
        writer.close()
        self.assertEqual(path.read_bytes(), again.read_bytes())

    def test_a_typescript_gives_back_its_events(self):
        log, timing = self.room / "log", self.room / "timing"
        entries, shown, _ = self.recorded(TypescriptWriter(log, timing))
        told = read_typescript(log, timing)
        self.assertEqual(told, [event for event in events(entries) if event[1] == "o"])
        self.assertEqual(b"".join(data for _, _, data in told), shown)

    def test_an_advanced_typescript_gives_back_all_events(self):
        log, timing = self.room / "log", self.room / "timing"
        entries, _, _ = self.recorded(AdvancedTypescriptWriter(log, timing))
        self.assertEqual(read_typescript(log, timing), events(entries))

    @unittest.skipUnless(knows("scriptreplay", "--log-io"), "scriptreplay is missing, or old")
    def test_scriptreplay_shows_the_same_bytes(self):
        paths = [str(self.room / name) for name in ("log", "timing", "io", "advanced")]
        _, shown, _ = self.recorded(TypescriptWriter(*paths[:2]), AdvancedTypescriptWriter(*paths[2:]))
        for words in (["-t", paths[1], "-O", paths[0]], ["-T", paths[3], "-B", paths[2], "--stream", "out"]):
            told = subprocess.run(["scriptreplay", "-d", "1000", *words], capture_output=True, env={**os.environ, "LC_ALL": "C"})
            self.assertEqual(told.returncode, 0, told.stderr)
            self.assertIn(told.stdout, (shown, shown + b"\n"))

    @unittest.skipUnless(knows("script", "--logging-format") and os.path.exists("/dev/ptmx"), "script is missing, or old")
    def test_what_script_wrote_is_read(self):
        for words in (["-O", "log", "-T", "timing"], ["-B", "log", "-T", "timing", "--logging-format", "advanced"]):
            told = subprocess.run(["script", "-q", "-c", "printf 'a\\nb'; sleep 0.1; printf c", *words], cwd=self.room, capture_output=True)
            self.assertEqual(told.returncode, 0, told.stderr)
            read = read_typescript(self.room / "log", self.room / "timing")
            self.assertEqual(b"".join(data for _, kind, data in read if kind == "o"), b"a\r\nbc")

    def test_a_journals_file_is_made_again_answer_by_answer(self):
        path = self.room / "bug.jsonl"
        entries, _, _ = self.recorded(JournalWriter(path, title="a session"))
        journal = read_journal(path)
        self.assertEqual(journal.header["title"], "a session")
        self.assertEqual([entry for _, entry in journal], [entry for _, entry in entries])
        self.assertEqual(replay(journal), [])

    def test_another_answer_is_told(self):
        path = self.room / "bug.jsonl"
        entries, _, _ = self.recorded(JournalWriter(path))
        journal = read_journal(path)
        at = next(n for n, (_, entry) in enumerate(journal) if getattr(entry, "op", "") == "read")
        when, entry = journal[at]
        journal[at] = when, entry._replace(answer=entry.answer._replace(bytes=b"other"))
        told = replay(journal)
        self.assertEqual([number for number, _, _ in told], [at])
        self.assertEqual(told[0][2].answer.bytes, entry.answer.bytes)

    def test_a_refusal_ends_a_replay(self):
        path = self.room / "bug.jsonl"
        self.recorded(JournalWriter(path))
        journal = read_journal(path)
        del journal[0]
        (number, _, refusal), = replay(journal)
        self.assertEqual((number, refusal.name), (0, "ENXIO"))

    def test_no_entry_is_lost_where_the_journal_is_full(self):
        self.pair = Pair(256, 64, 8192)
        writer = Seen()
        recorder = Recorder(self.pair, [writer])
        self.pair.open_terminal()
        shown = b""
        for number in range(200):
            self.pair.write(MASTER, b"%d\r" % number)
            self.pair.runqueues()
            self.pair.read(SLAVE)
            shown += self.pair.read(MASTER)
        recorder.close()
        self.assertGreater(self.pair.restarts, 10)
        self.assertEqual(b"".join(data for _, kind, data in events(writer.entries) if kind == "o"), shown)
        self.assertEqual(replay(writer.entries, Pair(256, 1 << 14, 1 << 20)), [])

    def test_random_sessions_are_made_again(self):
        chance = random.Random(11)
        for _ in range(int(os.environ.get("STRM_SESSIONS", "50"))):
            file = io.StringIO()
            with Pair(chance.choice([40, 64, 256]), 128, 10000) as pair:
                recorder = Recorder(pair, [JournalWriter(file)])
                pair.open_terminal()
                for _ in range(80):
                    any_call(pair, chance)
                recorder.close()
                file.seek(0)
                again = Pair(*pair.limits)
                self.assertEqual(replay(read_journal(file), again), [])
                for side in (MASTER, SLAVE):
                    self.assertEqual(again.ledger(side), pair.ledger(side))
                self.assertEqual(again.enabled, pair.enabled)
                again.free()

    def test_every_kind_of_entry_is_a_line(self):
        with Pair() as pair:
            pair.open_master(), pair.unlock(), pair.open_slave(), pair.push(MASTER, "pckt")
            pair.put(SLAVE, HIGH, b"\xff\0", b"\"\n"), pair.flush(MASTER, band=3), pair.mode(MASTER, "protdat"), pair.runqueues()
            pair.nread(MASTER), pair.get(MASTER, control=1), pair.look(MASTER), pair.signals(MASTER), pair.close(SLAVE)
            entries = list(pair.entries())
        self.assertEqual([entry_of_json(json.loads(json.dumps(entry_to_json(entry)))) for entry in entries], entries)

    def test_packets_are_output(self):
        with Pair() as pair:
            recorder = Recorder(pair)
            pair.open_master(), pair.unlock(), pair.open_slave(), pair.push(MASTER, "pckt")
            pair.write(SLAVE, b"out"), pair.runqueues(), pair.flush(SLAVE, read=False), pair.runqueues()
            while True:
                try:
                    pair.get(MASTER)
                except Refused:
                    break
            recorder.close()
        self.assertEqual([data for _, _, data in events(recorder.entries)], [b"out"])


class Seen:
    """A writer that keeps what it is handed."""

    def __init__(self):
        self.entries = []

    def entry(self, at, entry):
        self.entries.append((at, entry))

    def close(self):
        pass


if __name__ == "__main__":
    unittest.main()
