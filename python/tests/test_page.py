"""The page of a journal: its steps are the pair's states, and a browser shows them (where chromium is there)."""
import json
import os
import re
import shutil
import subprocess
import tempfile
import unittest

from strm import MASTER, SLAVE, Cursor, Pair
from strm_page import entries_of, frames, page_of, screen_of, state_of
from strm_record import Journal

BROWSER = shutil.which("chromium") or shutil.which("chromium-browser") or shutil.which("google-chrome")


def session():
    """A journal with a line that is typed, mended and read, a banded message, and one that waits for a turn."""
    with Pair.terminal() as pair:
        for key in b"lx\x7fs\r":
            pair.write(MASTER, bytes([key]))
            pair.runqueues()
        pair.read(SLAVE)
        pair.write(SLAVE, b"a <b> & 'c'\n")
        pair.put(SLAVE, 2, None, b"banded")
        pair.turn("s.ldterm.w")
        journal = Journal((0, entry) for entry in entries_of(pair))
    journal.header = {"blocks": 256}
    return journal


def states_of(journal):
    """What a pair of its own says behind each entry."""
    with Pair() as pair:
        yield state_of(pair)
        for _, entry in journal:
            pair.repeat(entry)
            yield state_of(pair)


class Frames(unittest.TestCase):
    def test_each_step_has_the_state_of_the_pair(self):
        journal = session()
        states, steps = frames(journal)
        self.assertEqual([states[it["state"]] for it in steps], list(states_of(journal)))
        self.assertTrue(all(it["same"] for it in steps))

    def test_an_answer_that_differs_is_told(self):
        journal = session()
        at = next(at for at, (_, entry) in enumerate(journal) if getattr(entry, "op", "") == "read")
        time, entry = journal[at]
        journal[at] = time, entry._replace(answer=entry.answer._replace(bytes=b"xx\n"))
        self.assertEqual(page_of(journal)[1], 1)

    def test_the_books_of_a_step_add_up(self):
        for state in states_of(session()):
            for book in state["books"].values():
                self.assertEqual(book["written"] + book["made"], book["queued"] + book["inline"] + sum(book["gone"].values()))

    def test_a_screen_knows_its_cursor(self):
        self.assertEqual(screen_of(b"lx\b \bs\r\n\x1b[1mtotal\x1b[0m\r\nabc\rX\x1b[K"), "ls\ntotal\nX")


def dumped(address, room):
    """What a browser says and shows; a machine with much else to do lets it take its time, or end early."""
    words = [BROWSER, "--headless", "--no-sandbox", "--disable-gpu", "--disable-dev-shm-usage", f"--user-data-dir={room}/profile"]
    for _ in range(3):
        try:
            ran = subprocess.run([*words, "--enable-logging=stderr", "--dump-dom", address], capture_output=True, text=True, timeout=300)
        except subprocess.TimeoutExpired:
            continue
        if "</body>" in ran.stdout:
            return ran
    return None


def starts():
    """Whether the browser shows any page at all here."""
    with tempfile.TemporaryDirectory() as room:
        return BROWSER and dumped("data:text/html,<p>page</p>", room)


class Browser(unittest.TestCase):
    @unittest.skipUnless(starts(), "no chromium, or it doesn't start")
    def test_five_steps_show_the_state_of_the_pair(self):
        journal = session()
        text, _ = page_of(journal, "<A> page")
        expected = list(states_of(journal))
        with tempfile.TemporaryDirectory() as room:
            path = os.path.join(room, "page.html")
            with open(path, "w", encoding="utf-8") as file:
                file.write(text)
            for number in (0, 4, len(journal) // 2, len(journal) - 2, len(journal)):
                shown = re.search(r"<main>.*</main>", self.dumped(f"file://{path}#{number}", room), re.S)[0]
                found = dict(re.findall(r'aria-label="([ms]\.\w+\.[rw]), (\d+) messages', shown))
                self.assertEqual(found, {name: str(len(of["m"])) for name, of in expected[number]["queues"].items()})
                enabled = re.findall(r'aria-label="([ms]\.\w+\.[rw]), \d+ messages, enabled, number (\d+)"', shown)
                self.assertEqual([name for name, _ in sorted(enabled, key=lambda it: int(it[1]))], expected[number]["enabled"])
                self.assertFalse("don't add up" in shown, f"step {number}")
                for of in expected[number]["queues"].values():
                    for message in of["m"]:
                        title = f'title="{message[0]}, band {message[1]}, {message[4]} bytes'
                        self.assertTrue(title in shown, f"step {number}: {title}")

    def dumped(self, address, room):
        ran = dumped(address, room)
        self.assertTrue(ran, "the browser shows nothing")
        self.assertEqual([line for line in ran.stderr.split("\n") if "CONSOLE" in line], [])
        return ran.stdout


class Template(unittest.TestCase):
    def test_data_ends_no_script(self):
        text, _ = page_of(session(), "</script><b>")
        data = re.search(r'<script type="application/json" id="data">(.*?)</script>', text, re.S)[1]
        self.assertEqual(json.loads(data)["title"], "</script><b>")
        self.assertEqual(text.count("</script>"), 2)


if __name__ == "__main__":
    unittest.main()
