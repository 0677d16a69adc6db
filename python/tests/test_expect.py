"""Expect by pexpect's names, without time-outs."""
import io
import re
import unittest

from strm import MASTER, SLAVE, Pair, Signal
from strm_expect import EOF, TIMEOUT, AtRest, Signalled, spawn


def greet(terminal):
    terminal.write(b"name? ")
    name = terminal.read().rstrip()
    terminal.write(b"hello " + name + b"\n")
    return 3


def echoes(terminal):
    """Says what it reads, till the end of input, and what interrupts it."""
    while True:
        try:
            terminal.write(b"> ")
            line = terminal.read()
            if not line:
                return
            terminal.write(b"[" + line.rstrip() + b"]\n")
        except KeyboardInterrupt:
            terminal.write(b"INT\n")
        except Signalled as came:
            terminal.write(came.signal.name.encode() + b"\n")


class Spawned(unittest.TestCase):
    def test_a_dialogue(self):
        with spawn(greet) as child:
            self.assertEqual(child.expect("name\\? "), 0)
            self.assertEqual(child.sendline("Annn\x7fa"), 7)
            self.assertEqual(child.expect(["nothing", r"hello (\w+)", EOF]), 1)
            self.assertEqual((child.match[1], child.after), (b"Anna", b"hello Anna"))
            self.assertTrue(child.before.endswith(b"a\r\n"))
            self.assertEqual(child.expect(EOF), 0)
            self.assertEqual((child.before, child.after, child.exitstatus, child.isalive()), (b"\r\n", EOF, 3, False))

    def test_at_rest_comes_at_once_and_tells_what_was_shown(self):
        with spawn(greet) as child:
            with self.assertRaises(AtRest) as told:
                child.expect("password: ", timeout=3600)
            self.assertIn("name? ", str(told.exception))
            self.assertEqual((child.before, child.after), (b"name? ", AtRest))
            self.assertEqual(child.expect(["password", TIMEOUT]), 1)
            self.assertEqual(child.expect_exact("name? "), 0)

    def test_the_end_is_raised(self):
        with spawn(greet) as child:
            child.sendline("x")
            with self.assertRaises(EOF):
                child.expect("goodbye")

    def test_text(self):
        with spawn(greet, encoding="utf-8") as child:
            child.expect_exact("name? ")
            child.sendline("Zoé")
            child.expect("hello (.*?)\r\n")
            self.assertEqual((child.match[1], child.after), ("Zoé", "hello Zoé\r\n"))

    def test_keys(self):
        with spawn(echoes) as child:
            child.sendline("one")
            child.expect_exact("[one]")
            child.sendcontrol("c")
            child.expect("INT")
            child.send("abc")
            child.sendcontrol("u")
            child.sendline("two")
            child.expect_exact(["[abctwo]", "[two]"])
            self.assertEqual(child.match, b"[two]")
            child.sendcontrol("z")
            child.expect("TSTP")
            child.sendintr()
            child.expect("INT")
            child.sendeof()
            child.expect(EOF)
            self.assertEqual(child.wait(), 0)

    def test_the_first_in_the_stream_is_meant(self):
        with spawn(lambda terminal: terminal.write(b"b a\n") and 0) as child:
            self.assertEqual(child.expect(["a", "b"]), 1)
            self.assertEqual(child.expect([re.compile(b"x"), "a"]), 1)
            self.assertEqual(child.match_index, 1)

    def test_reads(self):
        with spawn(lambda terminal: terminal.write(b"one\ntwo\nthree") and 0) as child:
            self.assertEqual(child.readline(), b"one\r\n")
            self.assertEqual(child.read(2), b"tw")
            self.assertEqual(child.read(), b"o\r\nthree")
            self.assertEqual(child.read(), b"")

    def test_what_stands_at_the_programs_end_is_shown(self):
        text = b"".join(b"line %d\n" % number for number in range(3000))
        with spawn(lambda terminal: terminal.write(text) and 0) as child:
            child.expect(EOF)
            self.assertEqual(child.before, text.replace(b"\n", b"\r\n"))

    def test_a_test_that_ends_early(self):
        ran = []
        with spawn(lambda terminal: ran.append(terminal.read())):
            pass
        self.assertEqual(ran, [])

    def test_windows_and_echo(self):
        sizes = []

        def program(terminal):
            terminal.resized = lambda rows, columns: sizes.append((rows, columns))
            return len(terminal.read()) and 0

        with spawn(program, rows=5, columns=10) as child:
            self.assertEqual(child.getwinsize(), (5, 10))
            self.assertTrue(child.getecho())
            child.setecho(False)
            child.setwinsize(6, 11)
            child.sendline("silent")
            child.expect(EOF)
            self.assertEqual((child.before, sizes), (b"", [(6, 11)]))

    def test_logs(self):
        with spawn(greet) as child:
            child.logfile_read, child.logfile_send = io.BytesIO(), io.BytesIO()
            child.sendline("x")
            child.expect(EOF)
            self.assertEqual(child.logfile_send.getvalue(), b"x\r")
            self.assertTrue(child.logfile_read.getvalue().endswith(b"hello x\r\n"))

    def test_a_program_that_fails_fails_the_test(self):
        def fails(terminal):
            raise ZeroDivisionError

        with spawn(fails) as child, self.assertRaises(ZeroDivisionError):
            child.expect(EOF)

    def test_much_of_both(self):
        def copies(terminal):
            while line := terminal.read():
                terminal.write(line * 50)

        with spawn(copies) as child:
            child.setecho(False)
            for number in range(50):
                child.sendline("%0100d" % number)
            child.sendeof()
            child.expect(EOF)
            self.assertEqual(child.before, b"".join(b"%0100d\r\n" % number * 50 for number in range(50)))

    def test_keys_that_nobody_reads(self):
        with spawn(Pair.terminal()) as child, self.assertRaises(AtRest):
            child.setecho(False)
            for _ in range(1000):
                child.sendline("x" * 200)

    def test_a_slave_that_the_test_plays(self):
        pair = Pair.terminal()
        with spawn(pair) as child:
            pair.write(SLAVE, b"login: ")
            child.expect("login: ")
            child.sendline("root")
            child.expect("root\r\n")
            self.assertEqual(pair.read(SLAVE), b"root\n")
            child.sendcontrol("c")
            with self.assertRaises(AtRest):
                child.expect("never")
            self.assertEqual(pair.signals(SLAVE), [Signal.INT])
            pair.write(SLAVE, b"")
            pair.write(SLAVE, b"last")
            pair.runqueues()
            pair.close(SLAVE)
            child.expect_exact("last")
            child.expect(EOF)


if __name__ == "__main__":
    unittest.main()
