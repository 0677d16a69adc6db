"""Images as docs/IMAGES.md spells them, read in Python."""
import random
import unittest

from strm import MASTER, SLAVE, Pair
from strm_image import Standing, read_image
from strm_library import Library
from tests.test_pair import any_call

QUEUE = b"\x01\0\0\0\0\0\0"  # a new one
# Nobody opened a side, the slave is locked, and the next ioctl is the first one; no queue is enabled, and the ledgers are empty.
NEW = b"STPI\x02\0\0\x01\0\0\0\x01" + (b"\0\0\0\0\0\0" + QUEUE * 2) * 2 + b"\0" + bytes(368)


class Readers(unittest.TestCase):
    def test_a_new_pair(self):
        told = read_image(NEW)
        self.assertEqual((told.locked, told.next_ioctl, told.enabled), (True, 1, []))
        self.assertEqual([stream.state for stream in told.streams.values()], ["not open", "not open"])
        self.assertEqual(sorted(told.queues), ["m.drv.w", "m.head.r", "s.drv.w", "s.head.r"])
        self.assertTrue(all(queue.wants_read and not queue.messages for queue in told.queues.values()))

    def test_a_module_of_a_users_own_that_has_queues(self):
        stands = QUEUE[:-1] + b"\1" + b"\0\0" + bytes(5) + b"\1\0\0\0\2hi"
        module = b"\4\x80\0\3set" + QUEUE + stands
        told = read_image(NEW[:12] + b"\0\0\0\0\0\1" + module + QUEUE * 2 + bytes(6) + QUEUE * 2 + b"\1" + b"\0\3\x80\1" + bytes(368))
        self.assertEqual((told.streams[MASTER].modules, told.enabled), (["144"], ["m.144.w"]))
        self.assertEqual(told.queues["m.144.w"].messages, [Standing("M_DATA", 0, None, b"hi")])
        self.assertEqual((told.queues["m.144.r"].messages, told.ledgers[MASTER].queued), ([], 2))

    def test_what_is_no_image(self):
        for text in (b"", NEW[:-1], NEW + b"x", b"x" + NEW[1:], NEW[:4] + b"\x03" + NEW[5:], NEW[:5] + b"\x03" + NEW[6:], NEW[:7] + b"\x02" + NEW[8:]):
            with self.assertRaises(ValueError):
                read_image(text)

    @unittest.skipUnless(hasattr(Library.at(), "image"), "the library has no images")
    def test_what_stands_in_a_pair(self):
        with Pair() as pair:
            self.assertEqual(pair.image(), NEW)
            pair.open_terminal()
            pair.set_winsize(10, 40)
            pair.write(MASTER, b"one\rhalf a l")
            pair.runqueues()
            pair.write(MASTER, b"ine")
            told = read_image(pair.image())
        self.assertEqual(told.queues["s.head.r"].messages, [Standing("M_DATA", 0, None, b"one\n")])
        self.assertEqual(told.queues["m.drv.w"].messages, [Standing("M_DATA", 0, None, b"ine")])
        slave = told.streams[SLAVE]
        self.assertEqual((slave.modules, slave.line, slave.window[:2]), (["ldterm", "ptem"], b"half a l", (10, 40)))
        self.assertEqual((told.enabled, slave.signals), (["m.drv.w"], [20]))

    @unittest.skipUnless(hasattr(Library.at(), "image"), "the library has no images")
    def test_images_say_what_the_pair_says(self):
        chance = random.Random(13)
        for _ in range(20):
            with Pair.terminal() as pair:
                for _ in range(60):
                    any_call(pair, chance)
                told = read_image(pair.image())
                self.assertEqual(told.enabled, pair.enabled)
                self.assertEqual(told.ledgers, {side: pair.ledger(side) for side in (MASTER, SLAVE)})
                for name, queue in told.queues.items():
                    self.assertEqual(len(queue.messages), pair.sizes(name).messages)


if __name__ == "__main__":
    unittest.main()
