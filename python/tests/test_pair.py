"""Calls, refusals and journals of strm.Pair: python3 -m unittest, from the folder python/, with the library that STRM_LIBRARY names."""
import copy
import errno
import random
import unittest

import strm
from strm import HIGH, MASTER, SLAVE, WRITE_MOST, Caller, Message, Nak, Pair, Refused, Signal, Stopped, Turn
from strm_cursor import Cursor


class Terminals(unittest.TestCase):
    def setUp(self):
        self.pair = Pair.terminal()
        self.addCleanup(self.pair.free)

    def typed(self, keys):
        self.assertEqual(self.pair.write(MASTER, keys), len(keys))
        self.pair.runqueues()

    def refused(self, name, call, *arguments):
        with self.assertRaises(Refused) as told:
            call(*arguments)
        self.assertEqual(told.exception.name, name)
        self.assertEqual(strm.REFUSALS[told.exception.number], name)
        return told.exception

    def test_a_line_is_edited_echoed_and_read(self):
        self.typed(b"lx\x7fs\r")
        self.assertEqual(self.pair.read(SLAVE), b"ls\n")
        self.assertEqual(self.pair.read(MASTER), b"lx\b \bs\r\n")

    def test_a_call_that_would_wait_is_refused(self):
        refusal = self.refused("EAGAIN", self.pair.read, SLAVE)
        self.assertEqual((refusal.number, refusal.errno, refusal.call), (2, errno.EAGAIN, "read"))

    def test_refusals_have_names(self):
        self.refused("EINVAL", self.pair.push, SLAVE, "ldterm")
        self.refused("EINVAL", self.pair.push, SLAVE, "nosuch")
        self.refused("EINVAL", self.pair.open_master)
        self.refused("EINVAL", self.pair.turn, "m.drv.w")
        self.refused("EINVAL", self.pair.turn, "nosuch")
        self.refused("EINVAL", self.pair.sizes, "nosuch")
        self.refused("EINVAL", self.pair.first_size, "nosuch")
        self.refused("EINVAL", self.pair.srdopt, SLAVE, "nosuch")
        self.refused("EINVAL", self.pair.ioctl, SLAVE, "NOSUCH")
        self.refused("ERANGE", self.pair.put, MASTER, 0, b"x" * 65)
        self.pair.close(SLAVE)
        self.refused("ENXIO", self.pair.write, SLAVE, b"x")
        self.refused("EINVAL", Pair, 0, 1, 1)
        with Pair(32) as poor:
            poor.open_master()
            self.refused("ENOSR", poor.write, MASTER, b"x")

    def test_a_message_with_a_control_part_is_no_read(self):
        self.pair.pop(SLAVE)
        self.pair.put(MASTER, 3, b"control", b"data")
        self.pair.runqueues()
        self.refused("EBADMSG", self.pair.read, SLAVE)
        self.assertEqual(self.pair.get(SLAVE), Message(3, b"control", b"data", False, False))

    def test_parts_of_messages(self):
        with Pair() as pair:
            pair.open_master(), pair.unlock(), pair.open_slave()
            pair.put(MASTER, HIGH, b"c")
            pair.put(MASTER, 0, None, b"d" * 256)
            pair.put(MASTER, 7, b"", b"")
            pair.runqueues()
            self.assertEqual(pair.nread(SLAVE), (3, 0))
            self.assertEqual(pair.get(SLAVE), Message(HIGH, b"c", None, False, False))
            self.assertEqual(pair.get(SLAVE), Message(7, b"", b"", False, False))
            self.assertEqual(pair.get(SLAVE, data=200), Message(0, None, b"d" * 200, False, True))
            self.assertEqual(pair.get(SLAVE), Message(0, None, b"d" * 56, False, False))

    def test_signals_and_windows(self):
        self.pair.set_winsize(24, 80)
        self.assertEqual(self.pair.get_winsize(), (24, 80, 0, 0))
        self.assertEqual(self.pair.winsize(), (24, 80, 0, 0))
        self.typed(b"abc\x03")
        self.assertEqual(self.pair.signals(SLAVE), [Signal.WINCH, Signal.INT])
        self.assertEqual(self.pair.signals(SLAVE), [])
        self.assertEqual((Signal.WINCH, Signal.INT.host), (20, 2))

    def test_modes_of_a_terminal(self):
        termios = self.pair.tcgetattr()
        self.assertTrue(termios["ECHO"] and termios["ICANON"] and not termios["TOSTOP"])
        self.assertEqual(termios["VINTR"], 3)
        termios["ECHO"], termios["VERASE"] = False, ord("#")
        self.pair.tcsetattr(termios)
        self.assertEqual(self.pair.tcgetattr(), termios)
        self.typed(b"ab#c\r")
        self.assertEqual((self.pair.read(SLAVE), self.pair.take(MASTER)), (b"ac\n", b""))
        self.assertEqual(strm.Termios.of_wire(termios.wire()), termios)

    def test_an_ioctl_without_ptem_is_a_nak(self):
        self.pair.pop(SLAVE)
        self.pair.pop(SLAVE)
        with self.assertRaises(Nak) as told:
            self.pair.tcgetattr()
        self.assertEqual(told.exception.name, "EINVAL")

    def test_job_control(self):
        # TIOCSPGRP takes a group's 32 bits; a reader of another group is stopped, and one that ignores the signal refused.
        self.pair.ioctl(SLAVE, "TIOCSPGRP", (7).to_bytes(4, "big"), Caller(group=7))
        self.assertEqual(self.pair.tcgetpgrp(), 7)
        with self.assertRaises(Stopped) as told:
            self.pair.read(SLAVE, caller=Caller(group=8))
        self.assertEqual(told.exception.signal, Signal.TTIN)
        with self.assertRaises(Refused) as refused:
            self.pair.read(SLAVE, caller=Caller(8, ignores=True))
        self.assertEqual(refused.exception.name, "EIO")

    def test_turns_one_by_one(self):
        self.pair.write(MASTER, b"x")
        self.assertEqual(self.pair.enabled, ["m.drv.w"])
        self.assertEqual(self.pair.sizes("m.drv.w"), (1, 1))
        self.assertEqual(self.pair.turn("m.drv.w"), Turn("m.drv.w", "moved", 1))
        self.assertEqual(self.pair.first_size("s.ldterm.r"), 1)
        self.assertEqual(self.pair.runqueues(), 3)
        self.assertTrue(self.pair.at_rest)

    def test_the_books_balance(self):
        self.typed(b"ab\x7fc\r")
        self.pair.read(SLAVE)
        told = self.pair.ledger(MASTER)
        self.assertEqual((told.written, told.gone), (5, {"read": 3, "erase-key": 1, "erased": 1}))
        self.assertTrue(told.balance and self.pair.ledger(SLAVE).balance)

    def test_much_output(self):
        lines = b"".join(b"line %d\n" % number for number in range(3000))
        shown, rest = b"", lines
        while rest:
            try:
                self.pair.write_all(SLAVE, rest)
                rest = b""
            except Refused as refusal:
                rest = refusal.args[-1]
            shown += self.pair.take(MASTER)
            self.pair.runqueues()
        shown += self.pair.take(MASTER)
        self.assertEqual(shown, lines.replace(b"\n", b"\r\n"))

    def test_a_read_into_a_buffer(self):
        self.typed(b"secret\r")
        room = bytearray(b"." * 9)
        self.assertEqual(self.pair.read_into(SLAVE, room), 7)
        self.assertEqual(room, b"secret\n..")
        self.refused("EAGAIN", self.pair.read_into, SLAVE, room)
        self.assertEqual(room, b"secret\n..")
        self.assertEqual(self.pair.read_into(SLAVE, bytearray()), 0)
        with self.assertRaises(TypeError):
            self.pair.read_into(SLAVE, b"bytes")

    def test_a_freed_pair_refuses(self):
        self.pair.free()
        self.refused("EINVAL", self.pair.room)
        self.assertEqual(self.pair.ready(SLAVE), 0)
        self.assertFalse(self.pair.is_open)
        self.refused("EINVAL", self.pair.write, MASTER, b"x")
        self.assertTrue(self.pair.at_rest)

    def test_a_pair_is_not_copied(self):
        with self.assertRaises(TypeError):
            copy.copy(self.pair)

    def test_text_is_no_bytes(self):
        with self.assertRaises(TypeError):
            self.pair.write(MASTER, "text")
        with self.assertRaises(TypeError):
            self.pair.write(MASTER, 5)
        self.assertEqual(self.pair.write(MASTER, bytearray(b"ab")), 2)


class Journals(unittest.TestCase):
    def test_entries_are_calls_and_turns_in_order(self):
        with Pair() as pair:
            pair.open_master()
            pair.write(MASTER, b"x\0y")
            with self.assertRaises(Refused):
                pair.read(MASTER)
            pair.unlock(), pair.open_slave()
            pair.runqueues()
            pair.read(SLAVE, 2)
            told = list(pair.entries())
        names = [entry.op if isinstance(entry, strm.Call) else entry.queue for entry in told]
        self.assertEqual(names, ["open_master", "write", "unlock", "open_slave", "m.drv.w", "read"])
        self.assertEqual((told[1].bytes, told[1].answer.value), (b"x\0y", 3))
        self.assertEqual((told[5].a, told[5].answer.bytes), (2, b"x\0"))

    def test_a_full_journal_begins_anew(self):
        with Pair.terminal(256, 64, 8192) as pair:
            for number in range(300):
                pair.write(MASTER, b"line\r")
                pair.runqueues()
                self.assertEqual((pair.read(SLAVE), pair.read(MASTER)), (b"line\n", b"line\r\n"))
            self.assertGreater(pair.restarts, 30)

    def test_a_kept_journal_fills(self):
        with Pair(256, 4, 8192, keeps=True) as pair:
            pair.open_master(), pair.unlock(), pair.open_slave(), pair.write(MASTER, b"x")
            with self.assertRaises(Refused) as told:
                pair.runqueues()
            self.assertEqual(told.exception.name, "JournalFull")
            pair.restart()
            self.assertEqual((pair.runqueues(), pair.read(SLAVE)), (1, b"x"))

    def test_a_cut_is_made_again(self):
        with Pair.terminal() as pair:
            pair.write(MASTER, b"pwd\r")
            pair.restart()
            base = pair.image()
            pair.runqueues()
            self.assertEqual(pair.read(SLAVE), b"pwd\n")
            entries, image = list(pair.entries()), pair.image()
            cursor = Cursor(pair)
            cursor.next()
            trace = pair.cut()
            self.assertEqual((trace.base, trace.entries), (base, entries))
            self.assertGreater(len(trace.entries), 2)
            self.assertEqual((pair.image(), list(pair.entries()), cursor.next()), (image, [], None))
            with Pair(image=trace.base) as again:
                self.assertEqual([again.repeat(entry) for entry in trace.entries], trace.entries)
                self.assertEqual(again.image(), image)
        with self.assertRaises(Refused) as told:
            pair.cut()
        self.assertEqual(told.exception.name, "EINVAL")

    def test_turns_that_do_not_end_are_refused(self):
        with Pair.terminal(256, 500, 8192) as pair:
            pair.push(MASTER, "ldterm")
            pair.write(MASTER, b"x")
            with self.assertRaises(Refused) as told:
                pair.runqueues(2000)
            self.assertEqual(told.exception.name, "JournalFull")
            self.assertTrue(pair.ledger(SLAVE).balance and not pair.at_rest)

    def test_a_journal_too_small_for_a_call_refuses_it(self):
        with Pair(256, 64, 100) as pair:
            pair.open_master(), pair.unlock(), pair.open_slave()
            for _ in range(2):
                with self.assertRaises(Refused) as told:
                    pair.read(SLAVE)
                self.assertEqual(told.exception.name, "JournalFull")

    def test_a_write_brings_its_first_bytes(self):
        for caller in (None, Caller(7)):
            with Pair(512) as pair:
                pair.open_master()
                self.assertEqual(pair.write(MASTER, bytes(60000), caller), 512)
                self.assertEqual(list(pair.entries())[-1].bytes, bytes(WRITE_MOST))

    def test_random_sessions_balance(self):
        chance = random.Random(5)
        for _ in range(20):
            with Pair.terminal(chance.choice([40, 64, 256])) as pair:
                for _ in range(100):
                    any_call(pair, chance)
                self.assertTrue(pair.ledger(MASTER).balance and pair.ledger(SLAVE).balance)


class Images(unittest.TestCase):
    def test_a_pair_goes_on_where_its_image_was_taken(self):
        with Pair.terminal() as pair:
            pair.write(MASTER, b"half a l")
            pair.runqueues()
            pair.set_winsize(10, 40)
            image, books = pair.image(), pair.ledger(MASTER)
        with Pair(image=image) as pair:
            self.assertEqual((pair.ledger(MASTER), pair.get_winsize()), (books, (10, 40, 0, 0)))
            pair.write(MASTER, b"ine\r")
            pair.runqueues()
            self.assertEqual((pair.read(SLAVE), pair.take(MASTER)), (b"half a line\n", b"half a line\r\n"))

    def test_what_is_no_image_is_refused(self):
        with Pair.terminal() as pair:
            image = pair.image()
        for wrong in (b"", image[:-1], image + b"x", b"x" + image[1:]):
            with self.assertRaises(Refused) as told:
                Pair(image=wrong)
            self.assertEqual(told.exception.name, "EINVAL")

    def test_images_of_random_sessions(self):
        chance = random.Random(7)
        for _ in range(20):
            with Pair.terminal() as pair:
                for _ in range(60):
                    any_call(pair, chance)
                with Pair(1024, image=pair.image()) as again:
                    self.assertEqual(again.image(), pair.image())
                    self.assertEqual(again.enabled, pair.enabled)


def any_call(pair, chance):
    """Some call of a session, with keys that mean something."""
    keys = bytes(chance.choice(b"ab \r\n\t\x7f\x15\x17\x03\x04\x11\x13\x12\x16\x1a\xc3") for _ in range(chance.randint(0, 40)))
    side = chance.choice([MASTER, SLAVE])
    calls = (
        lambda: pair.write(MASTER, keys),
        lambda: pair.write(side, keys * chance.randint(1, 20)),
        lambda: pair.read(side, chance.choice([1, 7, 4096])),
        lambda: pair.put(side, chance.choice([0, 3, 255, HIGH]), keys[:5], chance.choice([None, keys])),
        lambda: pair.get(side, chance.choice([strm.ANY, HIGH, 2]), chance.randint(0, 9), chance.randint(0, 99)),
        lambda: pair.flush(side, chance.random() < 0.5, True, chance.choice([strm.ANY, 0, 3])),
        lambda: pair.srdopt(side, chance.choice(strm.MODES)),
        lambda: pair.signals(side),
        lambda: pair.set_winsize(chance.randint(1, 3), 80),
        lambda: pair.push(side, chance.choice(["ldterm", "ptem", "pckt"][side == MASTER :])),
        lambda: pair.pop(side),
        lambda: pair.tcsetattr(pair.tcgetattr(), SLAVE, chance.choice(["TCSETS", "TCSETSW", "TCSETSF"])),
        lambda: pair.turn(chance.choice(pair.enabled or ["m.drv.w"])),
        pair.runqueues,
    )
    try:
        chance.choice(calls + calls[:3] + calls[-1:] * 3)()
    except Refused:
        pass


if __name__ == "__main__":
    unittest.main()
