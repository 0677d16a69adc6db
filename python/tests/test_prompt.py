"""The prompt: what it says, and that no mistake ends it."""
import io
import os
import random
import tempfile
import unittest

from strm_prompt import Prompt, bytes_of, text_of


def said(*lines):
    """What the prompt answers to lines, the last one `quit`."""
    out = io.StringIO()
    prompt = Prompt(stdin=io.StringIO("\n".join([*lines, "quit", ""])), stdout=out)
    prompt.use_rawinput, prompt.prompt, prompt.intro = False, "", None
    prompt.cmdloop()
    return out.getvalue()


class Prompts(unittest.TestCase):
    def test_a_line_is_typed_and_read(self):
        told = said("picture off", "terminal", 'keys "lx\\x7fs\\r"', "run", "read s", "read m", "signals", "ledger m")
        self.assertIn("  turn of s.ldterm.r: 5 bytes went on\n", told)
        self.assertIn('3 "ls\\n"\n8 "lx\\x08 \\x08s\\r\\n"\nnone came\n', told)
        self.assertIn("gone (read 3, erase-key 1, erased 1)", told)

    def test_the_picture_has_what_stands_and_who_is_next(self):
        told = said("terminal", "keys abc")
        self.assertIn("drv  down 1 x, 3 bytes      <- turn 1", told)
        self.assertIn("enabled, in order: m.drv.w", told)

    def test_readiness_and_room(self):
        told = said("picture off", "terminal", "keys \\x03", "run", "ready s", "ready m", "close m", "ready m", "ready s", "new 64", "room")
        self.assertIn("can write, has signals\n", told)
        self.assertIn("nothing\ncan read, can get, has signals, hung up\n", told)
        self.assertTrue(told.endswith("64 blocks, 8192 entries, 262144 bytes\n"), told)

    def test_mistakes_are_told_and_the_prompt_goes_on(self):
        lines = (
            "nonsense", "read", "read q", "read m x", "write m", "turn nosuch", "turn m.drv.w", "push m foo", "size 99999 1", "stty nosuch", "put",
            "get m 1 2 3 4", "mode m x", "replay /nosuch", "new 0", "look s", "flush m x", "help nosuch", "keys \\", 'keys "', "EOFX",
            "# a comment", "", "   ", "read m \r", "\x00\xff", "do_help", "close",
        )  # fmt: skip
        told = said("picture off", *lines, "terminal", "size 5 6")
        self.assertIn("5 rows, 6 columns\n", told)
        self.assertGreaterEqual(len(told.splitlines()), len(lines) - 6)

    def test_any_words(self):
        chance = random.Random(3)
        words = [name[3:] for name in dir(Prompt) if name.startswith("do_")] + ["m", "s", "hi", "-", "1", '"', "x\\", "r", "99999999999999999999"]
        words.remove("quit")
        lines = [" ".join(chance.choices(words, k=chance.randint(1, 4))) for _ in range(1500)]
        here = os.getcwd()
        with tempfile.TemporaryDirectory() as room:
            os.chdir(room)  # `record` makes files
            try:
                told = said(*lines, "record off", "new", "terminal", "size 5 6")
            finally:
                os.chdir(here)
        self.assertTrue("5 rows, 6 columns\n" in told, told[-300:])

    def test_texts(self):
        for data in (bytes(range(256)), b"", b"\\x41"):
            self.assertEqual(bytes_of(text_of(data)), data)
        self.assertEqual(bytes_of("\u00e9\\e[A"), b"\xc3\xa9\x1b[A")


if __name__ == "__main__":
    unittest.main()
