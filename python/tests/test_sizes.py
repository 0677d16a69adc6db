"""Pairs by their sizes, readiness, and 10 MB through a small pair whose journal has one entry."""
import random
import unittest

from strm import COMMANDS, MASTER, RUN_MOST, SLAVE, TERMINAL_BLOCKS, WRITE_MOST, Choices, Cursor, Pair, Ready, Refused, Sizes, Winsize

from tests.test_pair import any_call

SMALL = Sizes(64, 1, 8192)
TEN_MEGABYTES = 10_000_000


def refusal_of(call, *arguments):
    """The name of a call's refusal, or what it gave."""
    try:
        return call(*arguments)
    except Refused as refused:
        return refused.name


def opened(pair):
    pair.open_master(), pair.unlock(), pair.open_slave()
    return pair


class Limits(unittest.TestCase):
    def test_a_pair_has_blocks(self):
        Pair.new(1, 0, 0).free()
        Pair.new(65536, 0, 0).free()
        for blocks in (0, 65537):
            self.assertEqual(refusal_of(Pair.new, blocks, 64, 9000), "EINVAL", blocks)

    def test_pairs_are_made_by_sizes(self):
        for pair in (Pair.new(100, 7, 9000), Pair(100, 7, 9000)):
            with pair:
                self.assertEqual((pair.limits, pair.room()), (Sizes(100, 7, 9000), (100, 7, 9000)))
        with Pair.terminal() as pair:
            self.assertEqual(pair.limits, Sizes(TERMINAL_BLOCKS, 8192, 262144))

    def test_choices_fit(self):
        small = Choices(64, 1, 8192, 64, True)
        Pair.new_with(small).free()
        for other in (small._replace(blocks=0), small._replace(reserve=65), small._replace(entries=0), small._replace(bytes=8191)):
            self.assertEqual(refusal_of(Pair.new_with, other), "EINVAL", other)
        Pair.new_with(small._replace(entries=0, anew=False)).free()

    def test_a_journal_that_begins_anew(self):
        with Pair.new_with(Choices(64, 1, 8192, 0, True)) as pair, Pair(64, 8192, 262144) as other:
            for each in (pair, other):
                each.open_terminal()
                for _ in range(100):
                    each.write(MASTER, b"ab\r"), each.runqueues(), each.read(SLAVE), each.read(MASTER)
            self.assertEqual(pair.image(), other.image())
            self.assertEqual(refusal_of(Cursor, pair), "EINVAL")
            image = pair.image()
        with Pair.restore_with(Choices(64, 1, 8192, 0, True), image) as pair:
            self.assertEqual(pair.write(MASTER, b"c"), 1)
            pair.runqueues()
            self.assertEqual(pair.room().entries, 0)

    def test_turns_that_never_end(self):
        with Pair.new_with(Choices()) as pair:
            pair.open_terminal()
            pair.push(MASTER, "ldterm")
            pair.write(MASTER, b"x")
            self.assertEqual(refusal_of(pair.runqueues), "EAGAIN")
            pair.close(MASTER)
            self.assertLess(pair.runqueues(), RUN_MOST)

    def test_the_reserve(self):
        floods = {
            MASTER: lambda pair: pair.write(MASTER, b"\x04"),
            SLAVE: lambda pair: pair.write(SLAVE, b""),
        }
        for side, flood in floods.items():
            with Pair.new_with(Choices(1024, 64, 16384, 256, True)) as pair:
                pair.open_terminal()
                while (taken := refusal_of(flood, pair)) != "EAGAIN":
                    self.assertIn(taken, (0, 1))
                    pair.runqueues()
                self.assertGreaterEqual(pair.room().blocks, 256)
                self.assertFalse(pair.ready(side) & Ready.CAN_WRITE)
                self.assertTrue(pair.ready(SLAVE if side == MASTER else MASTER) & Ready.CAN_WRITE)
                self.assertEqual(pair.write(SLAVE if side == MASTER else MASTER, b"x"), 1)
                pair.runqueues()
                for _ in range(2 if side == MASTER else 0):
                    self.assertEqual(pair.read(SLAVE), b"")
                self.assertEqual(pair.write(MASTER, b"\x03"), 1)
                pair.runqueues()
                self.assertEqual([each.name for each in pair.signals(SLAVE)], ["INT"])

    def test_pairs_of_images(self):
        with Pair.terminal() as pair:
            pair.write(MASTER, b"half a l")
            image = pair.image()
        for pair in (Pair.restore(*SMALL, image), Pair.restore(256, 64, 9000, image), Pair(image=image)):
            with pair:
                self.assertEqual(pair.image(), image)
                pair.write(MASTER, b"ine\r"), pair.runqueues()
                self.assertEqual(pair.read(SLAVE), b"half a line\n")
        self.assertEqual(refusal_of(Pair.restore, *SMALL, image[1:]), "EINVAL")


class Readiness(unittest.TestCase):
    def setUp(self):
        self.pair = Pair.terminal()
        self.addCleanup(self.pair.free)

    def test_what_is_typed_is_read_when_it_is_a_line(self):
        self.assertEqual((self.pair.ready(MASTER), self.pair.ready(SLAVE)), (Ready.CAN_WRITE, Ready.CAN_WRITE))
        self.pair.write(MASTER, b"half a line"), self.pair.runqueues()
        self.assertEqual((self.pair.ready(MASTER), self.pair.ready(SLAVE)), (Ready.CAN_READ | Ready.CAN_GET | Ready.CAN_WRITE, Ready.CAN_WRITE))
        self.pair.write(MASTER, b"\r"), self.pair.runqueues()
        self.assertEqual(self.pair.ready(SLAVE), Ready.CAN_READ | Ready.CAN_GET | Ready.CAN_WRITE)

    def test_signals_wait(self):
        self.pair.write(MASTER, b"\x03"), self.pair.runqueues()
        self.assertTrue(self.pair.ready(SLAVE) & Ready.HAS_SIGNALS)
        self.pair.signals(SLAVE)
        self.assertFalse(self.pair.ready(SLAVE) & Ready.HAS_SIGNALS)

    def test_an_answer_waits(self):
        told = self.pair.call("ioctl", MASTER, COMMANDS["TIOCSWINSZ"], data=Winsize(3, 4).wire())
        self.assertEqual((told.kind, self.pair.ready(MASTER) & Ready.HAS_ANSWER), ("pending", 0))
        self.pair.runqueues()
        self.assertTrue(self.pair.ready(MASTER) & Ready.HAS_ANSWER)
        self.assertEqual(self.pair.ioctl_result(MASTER, told.value), b"")
        self.assertEqual(self.pair.get_winsize(), (3, 4, 0, 0))
        self.assertFalse(self.pair.ready(MASTER) & Ready.HAS_ANSWER)

    def test_flow_control_holds_writes(self):
        while self.pair.ready(SLAVE) & Ready.CAN_WRITE:
            self.pair.write(SLAVE, b"x" * WRITE_MOST), self.pair.runqueues()
        self.assertEqual(refusal_of(self.pair.write, SLAVE, b"x"), "EAGAIN")

    def test_an_end_is_gone(self):
        self.pair.close(MASTER)
        self.assertEqual(self.pair.ready(MASTER), Ready(0))
        self.assertTrue(self.pair.ready(SLAVE) & Ready.HUNG_UP and self.pair.ready(SLAVE) & Ready.CAN_READ)
        self.assertEqual(self.pair.read(SLAVE), b"")


class ReadinessOfAnySession(unittest.TestCase):
    """What a side is ready for is what calls of a pair of the same image meet."""

    def meets(self, image, call, *arguments):
        with Pair(image=image) as copy:
            return refusal_of(getattr(copy, call), *arguments)

    def agrees(self, pair, side):
        told, image = pair.ready(side), pair.image()
        read = self.meets(image, "read", side, 1)
        if read == "ENXIO":
            self.assertEqual(told, Ready(0))
            return
        self.assertEqual(bool(told & Ready.CAN_READ), read != "EAGAIN")
        self.assertEqual(bool(told & Ready.CAN_GET), self.meets(image, "get", side) != "EAGAIN")
        self.assertEqual(bool(told & Ready.CAN_WRITE), self.meets(image, "write", side, bytes(WRITE_MOST)) not in ("EAGAIN", "ENOSR", "ENXIO"))
        self.assertEqual(bool(told & Ready.HAS_SIGNALS), bool(self.meets(image, "signals", side)))
        self.assertEqual(bool(told & Ready.HUNG_UP), self.meets(image, "flush", side) == "ENXIO")

    def test_each_side_behind_each_call(self):
        chance = random.Random(13)
        for _ in range(10):
            with Pair.terminal() as pair:
                for step in range(80):
                    any_call(pair, chance)
                    if step > 60 and chance.random() < 0.1:
                        refusal_of(pair.close, chance.choice([MASTER, SLAVE]))
                    self.agrees(pair, MASTER)
                    self.agrees(pair, SLAVE)


class Small(unittest.TestCase):
    """10 MB by a loop of writes, turns and reads that knows one refusal alone: that a call would have to wait."""

    def moves(self, pair, source, sink, text):
        got, at, rest = [], 0, memoryview(text)
        while True:
            taken = self.now(pair.write, source, rest[at : at + WRITE_MOST]) if at < len(rest) else 0
            at += taken
            turns = pair.runqueues()
            came = pair.take(sink)
            if not taken and not turns and not came:
                return b"".join(got)
            got.append(came)

    @staticmethod
    def now(call, *arguments):
        try:
            return call(*arguments)
        except Refused as refused:
            if not refused.would_wait:
                raise
            return 0

    def test_ten_megabytes_go_through(self):
        text = bytes(range(251)) * (TEN_MEGABYTES // 251 + 1)
        with opened(Pair.new(*SMALL)) as pair:
            self.assertTrue(self.moves(pair, SLAVE, MASTER, text[:TEN_MEGABYTES]) == text[:TEN_MEGABYTES])
            self.assertTrue(pair.ledger(SLAVE).balance)

    def test_lines_are_shown_on_a_terminal(self):
        text = (b"x" * 79 + b"\n") * (TEN_MEGABYTES // 80)
        with Pair.new(*SMALL) as pair:
            pair.open_terminal()
            self.assertTrue(self.moves(pair, SLAVE, MASTER, text) == text.replace(b"\n", b"\r\n"))

    def test_lines_are_typed_on_a_terminal(self):
        text = (b"y" * 99 + b"\r") * 10_000
        with Pair.new(*SMALL) as pair:
            pair.open_terminal()
            modes = pair.tcgetattr()
            modes["ECHO"] = False
            pair.tcsetattr(modes)
            self.assertTrue(self.moves(pair, MASTER, SLAVE, text) == text.replace(b"\r", b"\n"))


if __name__ == "__main__":
    unittest.main()
