"""Scripts on the library: forms of lines, and the answers of a session. (The scenes are played by tools/scenes --play too.)"""
import io
import unittest

from strm_script import Malformed, Session, run, words_of

TERMINAL = b"open\nunlock\nslave\npush s ptem\npush s ldterm\n"


def answers(script):
    session = Session()
    try:
        return [answer for _, _, answer in run(io.BytesIO(script), session)]
    finally:
        if session.pair:
            session.pair.free()


class Scripts(unittest.TestCase):
    def test_a_session_of_a_terminal(self):
        told = answers(TERMINAL + b'write m "ls\\r"\nrun 50\nread s 100\nread m 100\nledger ms\n')
        self.assertEqual(told[5:8], ["ok 3", "ran 4", 'data 3 "ls\\n"'])
        self.assertEqual(told[-1], "ledger ms written 3 made 0 queued 0 inline 0 read 3")

    def test_comments_and_empty_lines_ask_for_nothing(self):
        self.assertEqual(answers(b"# a comment\n\nopen\n"), ["ok"])

    def test_a_malformed_line_ends_the_script(self):
        texts = [b'write m "a', b'write m "\\q"']
        for line in [b"opens", b"open ", b"open 1 2", b"read m", b"read m 12345678901", b"turn s.ptem.r", b"get m any 1", *texts]:
            self.assertEqual(answers(b"open\n" + line + b"\nopen\n"), ["ok", "err line 2"], line)

    def test_before_open_a_command_is_enxio(self):
        self.assertEqual(answers(b'write m "a"\ngroup s 1 -\n'), ["err ENXIO", "ok"])

    def test_job_control_stops_a_reader(self):
        told = answers(TERMINAL + b"ioctl s TIOCSPGRP 7\nrun 9\npoll s 0\ngroup s 8 -\nread s 1\n")
        self.assertEqual(told[-1], "stop TTIN")

    def test_texts_have_escapes(self):
        self.assertEqual(words_of(b'write m "\\x41 \\n"'), ["write", "m", '"\\x41 \\n"'])
        self.assertRaises(Malformed, words_of, b"read  m 1")


if __name__ == "__main__":
    unittest.main()
