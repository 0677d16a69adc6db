"""Programs of the system on a pair, by pexpect's names, and recorders of them. Skipped where libstrm_host isn't there."""
import io
import json
import os
import pathlib
import resource
import shutil
import signal
import subprocess
import sys
import tempfile
import time
import unittest

from strm import MASTER, SLAVE, Pair
from strm_expect import EOF, TIMEOUT, AtRest, spawn
from strm_record import AsciicastWriter, JournalWriter, Recorder, TypescriptWriter, read_asciicast, read_journal, read_typescript, replay

try:
    from strm_host import Bridge, HostLibrary

    HostLibrary.get()
    MISSING = None
except ImportError as failure:
    MISSING = str(failure)

LATE = 60  # seconds in which anything comes, on a machine with much else to do too
LIMIT = 4 * LATE  # of what is expected to come sooner
BASH = "bash --norc --noprofile -i"
PLAIN = {"TERM": "xterm", "PS1": "$ ", "HISTFILE": "", "INPUTRC": "/dev/null", "LC_ALL": "C", "PROMPT_COMMAND": ""}


@unittest.skipIf(MISSING, MISSING)
class Programs(unittest.TestCase):
    def bash(self, **named):
        child = spawn(BASH, env=PLAIN, timeout=LIMIT, **named)
        self.addCleanup(child.close)
        child.expect_exact("$ ")
        return child

    def found(self, command, pattern, **named):
        """How long it took till a pattern was shown by a command."""
        began = time.monotonic()
        with spawn("sh", ["-c", command], timeout=LIMIT, **named) as child:
            child.expect(pattern)
        return time.monotonic() - began

    def test_a_shell(self):
        child = self.bash()
        child.sendline("echo $((6*7)); stty -a | head -1")
        child.expect_exact("\r42\r\n")
        child.expect("rows (\\d+); columns (\\d+)")
        self.assertEqual(child.match.groups(), (b"24", b"80"))
        self.assertTrue(child.isatty() and child.isalive() and child.pid > 1)
        child.sendline("exit 3")
        child.expect(EOF)
        self.assertEqual((child.exitstatus, child.signalstatus, child.isalive()), (3, None, False))

    def test_a_server_with_many_descriptors(self):
        before = resource.getrlimit(resource.RLIMIT_NOFILE)
        if before[1] != resource.RLIM_INFINITY and before[1] < 2048:
            self.skipTest("a process may have few descriptors here")
        resource.setrlimit(resource.RLIMIT_NOFILE, (2048, before[1]))
        self.addCleanup(resource.setrlimit, resource.RLIMIT_NOFILE, before)
        for _ in range(1024):
            self.addCleanup(os.close, os.open(os.devnull, os.O_RDONLY))
        with spawn("cat", timeout=LIMIT) as child:
            self.assertGreater(child.fileno(), 1023)
            child.sendline("hi")
            child.expect_exact("hi\r\nhi\r\n")

    def test_three_false_rests(self):
        self.assertLess(self.found("sleep 1; echo hi", "hi"), LATE)
        self.assertLess(self.found("bash -c 'read -t 1 || echo late'", "late"), LATE)
        room = tempfile.mkdtemp()
        self.addCleanup(shutil.rmtree, room)
        fifo = os.path.join(room, "fifo")
        self.assertLess(self.found(f"mkfifo {fifo}; (setsid sh -c 'sleep .5; echo x > {fifo}' &) ; cat {fifo}", "x"), LATE)

    def test_what_never_comes_is_told_at_once(self):
        began = time.monotonic()
        with spawn("cat", timeout=LIMIT) as child, self.assertRaises(AtRest):
            child.expect("never")
        with self.assertRaises(EOF):
            self.found("exit 3", "never")
        self.assertLess(time.monotonic() - began, LATE)

    def test_a_time_out_is_an_upper_limit(self):
        began = time.monotonic()
        with spawn("sleep 500") as child:
            with self.assertRaises(TIMEOUT):
                child.expect("never", timeout=0.3)
            self.assertEqual(child.expect(["never", TIMEOUT], timeout=0.2), 1)
            self.assertTrue(child.terminate())
            self.assertEqual((child.signalstatus, child.exitstatus), (signal.SIGHUP, None))
        self.assertLess(time.monotonic() - began, LATE)

    def test_time_alone(self):
        with spawn("sh -c 'cat & sleep .3; echo late; kill %1; wait'") as child:
            child.rests = False
            child.expect("late", timeout=LATE)

    def test_ends(self):
        with spawn("sh", ["-c", "trap '' HUP INT; echo ready; while :; do sleep 1; done"]) as child:
            child.expect("ready")
            self.assertFalse(child.terminate())
            self.assertTrue(child.terminate(force=True))
            self.assertEqual(child.signalstatus, signal.SIGKILL)
        with spawn("cat") as child:
            child.sendintr()
            child.expect(EOF)
            self.assertEqual(child.signalstatus, signal.SIGINT)
        with spawn("cat") as child:
            child.kill(signal.SIGTERM)
            self.assertIsNone(child.wait())
            self.assertEqual(child.signalstatus, signal.SIGTERM)
        child = spawn("cat")
        child.close()
        self.assertEqual((child.isalive(), child.signalstatus), (False, signal.SIGHUP))
        with self.assertRaises(FileNotFoundError):
            spawn("/no/such/program")

    def test_lines(self):
        with spawn("printf 'one\\ntwo\\nthree'") as child:
            self.assertEqual(child.readline(), b"one\r\n")
            self.assertEqual(child.readlines(), [b"two\r\n", b"three"])
            self.assertTrue(child.eof())
        with spawn("printf 'one\\ntwo\\n'", encoding="utf-8") as child:
            self.assertEqual(list(child), ["one\r\n", "two\r\n"])
        with spawn("printf abc") as child:
            self.assertEqual((child.read_nonblocking(2), child.read()), (b"ab", b"c"))

    def test_echo(self):
        child = self.bash()
        self.assertFalse(spawn("cat", echo=False).getecho())
        child.sendline("read -s -p 'word: ' w; echo; echo [$w]")
        child.expect("word: (?!')")
        self.assertTrue(child.waitnoecho(timeout=LATE))
        child.sendline("hush")
        child.expect_exact("[hush]")
        self.assertNotIn(b"hush", child.before)
        self.assertFalse(self.bash().getecho())  # readline echoes by itself
        with spawn("cat") as child:
            self.assertFalse(child.waitnoecho(timeout=0.2))
            child.setecho(False)
            child.sendline("silent")
            child.expect_exact("silent")
            self.assertEqual(child.before, b"")

    def test_windows(self):
        child = self.bash(dimensions=(30, 100))
        self.assertEqual(child.getwinsize(), (30, 100))
        child.setwinsize(5, 40)
        child.sendline("stty size")
        child.expect_exact("5 40\r\n")

    def test_a_folder(self):
        with spawn("pwd", cwd="/usr") as child:
            child.expect_exact("/usr\r\n")

    def test_by_hand(self):
        """interact between a pipe and a program."""
        code = "import sys; sys.path.insert(0, sys.argv[1]); from strm_expect import spawn; spawn('cat').interact(escape_character='q')"
        words = [sys.executable, "-c", code, str(pathlib.Path(__file__).parents[1])]
        done = subprocess.run(words, input=b"hi\rq", capture_output=True, timeout=LIMIT)
        self.assertEqual((done.returncode, done.stdout[:4]), (0, b"hi\r\n"), done.stderr)

    def test_who_loops_is_broken_off(self):
        def loops(terminal):
            while True:
                pass

        began = time.monotonic()
        with spawn(loops) as child, self.assertRaises(AtRest) as told:
            child.expect("never", timeout=1)
        self.assertIn("broken off", str(told.exception))
        self.assertLess(time.monotonic() - began, LATE)

    def test_small_pools(self):
        def copies(terminal):
            while line := terminal.read():
                terminal.write(line * 20)

        with spawn(copies, pair=Pair.terminal(40, 256, 65536)) as child:
            child.setecho(False)
            child.sendline("x" * 100)
            child.sendeof()
            child.expect(EOF)
            self.assertEqual(child.before, (b"x" * 100 + b"\r\n") * 20)
        with spawn("seq 2000", pair=Pair.terminal(40, 256, 65536)) as child:
            child.expect(EOF)
            self.assertEqual(child.before, b"".join(b"%d\r\n" % number for number in range(1, 2001)))


@unittest.skipIf(MISSING, MISSING)
class Records(unittest.TestCase):
    def setUp(self):
        self.room = pathlib.Path(tempfile.mkdtemp())
        self.addCleanup(shutil.rmtree, self.room)

    def entries(self, pair):
        return sum(1 for _ in pair.entries())

    def test_an_idle_bridge_enters_nothing(self):
        with Pair.terminal() as pair, Bridge(["cat"], pair=pair) as bridge:
            self.assertTrue(bridge.rests(LATE))
            before = self.entries(pair)
            for _ in range(200):
                bridge.pump(), bridge.waits()
            self.assertEqual(self.entries(pair), before)

    def recorded(self, path, cast, script):
        """A session of bash that is recorded, and what it has shown."""
        pair = Pair(256, 64, 65536)  # its journal begins anew a few times
        writers = [JournalWriter(path), AsciicastWriter(cast, version=3), TypescriptWriter(*script)]
        shown = b""
        with Recorder(pair, writers) as recorder:
            pair.open_terminal()
            with Bridge(BASH.split(), environment=PLAIN, pair=pair) as bridge:
                for keys in (b"", b"seq 300\r", b"cat\r", b"a lin\x7fne\r", b"\x04", b"stty -echo; stty echo\r", b"exit\r"):
                    bridge.type(keys)
                    self.assertTrue(bridge.rests(LATE))
                    shown += bridge.take()
                    recorder.drain()
        self.assertGreater(pair.restarts, 1)
        pair.free()
        return shown

    def test_a_session_is_made_again(self):
        path, cast, script = self.room / "journal", self.room / "cast", (self.room / "log", self.room / "timing")
        shown = self.recorded(path, cast, script)
        journal = read_journal(path)
        self.assertEqual(replay(journal), [])
        self.assertLess(abs(journal.header["timestamp"] - time.time()), 100)
        header, events = read_asciicast(cast)
        self.assertEqual((header["version"], header["term"]), (3, {"cols": 80, "rows": 24}))
        self.assertEqual(b"".join(data for _, kind, data in events if kind == "o"), shown)
        self.assertEqual(b"".join(data for _, _, data in read_typescript(*script)), shown)

    def test_what_a_killed_recorder_leaves(self):
        code = (
            "import os, signal, sys; sys.path.insert(0, sys.argv[1])\n"
            "from strm import Pair\nfrom strm_host import Bridge\nfrom strm_record import *\n"
            "pair = Pair(); recorder = Recorder(pair, [JournalWriter(sys.argv[2]), AsciicastWriter(sys.argv[3])]); pair.open_terminal()\n"
            "bridge = Bridge(['seq', '50'], pair=pair); bridge.rests(60); bridge.take(); recorder.drain()\n"
            "os.kill(os.getpid(), signal.SIGKILL)\n"
        )
        path, cast = self.room / "journal", self.room / "cast"
        subprocess.run([sys.executable, "-c", code, str(pathlib.Path(__file__).parents[1]), path, cast], timeout=LIMIT)
        whole, told = read_journal(path), read_asciicast(cast)
        self.assertEqual(replay(whole), [])
        self.assertTrue(told[1][-1][2].endswith(b"50\r\n"))
        for file, read, least in ((path, read_journal, whole), (cast, lambda name: read_asciicast(name)[1], told[1])):
            text = file.read_bytes()
            for cut in (1, 2, 10):
                file.write_bytes(text[:-cut])
                self.assertEqual(list(read(file)), list(least)[:-1])
            file.write_bytes(text.replace(b"\n", b"}\n", 2))
            with self.assertRaises(ValueError):
                read(file)

    def test_an_asciicast_has_times_of_the_run(self):
        out = io.StringIO()
        pair = Pair.terminal()
        clock = iter([0.0, 0.25, 1.0, 1.0]).__next__
        with Recorder(pair, [AsciicastWriter(out, version=3, title="a")], clock=clock) as recorder:
            for text in (b"one", b"two"):
                pair.write(SLAVE, text)
                pair.runqueues()
                pair.read(MASTER)
                recorder.drain()
        lines = [json.loads(line) for line in out.getvalue().splitlines()]
        self.assertEqual((lines[1:], lines[0]["title"]), ([[0.25, "o", "one"], [0.75, "o", "two"]], "a"))


if __name__ == "__main__":
    unittest.main()
