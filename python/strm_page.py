"""A page that shows a journal at work: one file of HTML, with nothing from outside, in which both streams stand as they are behind each entry.

    python3 strm_page.py JOURNAL.jsonl -o PAGE.html

    make_page(read_journal("bug.jsonl"), "page.html", title="A bug")      # how many entries differed when they were made again

The journal is made again on a new pair, entry by entry (`frames`), and what the pair's image and ledgers say behind each is what the page shows: the
messages on every queue with kind, band and bytes, enabled queues in their order, full bands and waiting writers, the unfinished line, the
books as bars, and the screen, which is what the master read. A step has an address, page.html#17.
"""
import argparse
import json
import os
import re
import sys

from strm import ANY, HIGH, MASTER, SLAVE, Call, Cursor, Pair, Refused
from strm_image import read_image
from strm_prompt import text_of
from strm_record import Journal, read_journal  # noqa: F401

TEMPLATE = os.path.join(os.path.dirname(os.path.abspath(__file__)), "strm_page.html")
# A character, or a control sequence as one.
SEQUENCES = re.compile(r"\x1b(?:\[[0-?]*[ -/]*[@-~]|\][^\x07\x1b]*(?:\x07|\x1b\\)|[@-Z\\-_])|.", re.S)
SCREEN = 4000  # bytes of the end of the screen that a step shows
SHOWN = 200  # characters of a part that a message shows


def screen_of(data):
    """What a teletype with a cursor shows of bytes that the master read: it knows BS, CR and LF, erases to the end of a line, and passes over other
    control sequences."""
    rows, column = [[]], 0
    for part in SEQUENCES.finditer(data.decode("utf-8", "replace")):
        text = part[0]
        if text == "\n":
            rows.append([])
        elif text == "\r":
            column = 0
        elif text == "\b":
            column = max(column - 1, 0)
        elif text in ("\x1b[K", "\x1b[0K"):
            del rows[-1][column:]
        elif text >= " " and text != "\x7f":
            rows[-1] += " " * (column - len(rows[-1]))
            rows[-1][column : column + 1] = text
            column += 1
        if text == "\n":
            rows[-1] += " " * column
    return "\n".join("".join(row).rstrip() for row in rows)


def _text(data):
    if data is None:
        return None
    text = text_of(data)
    return text if len(text) <= SHOWN else text[: SHOWN - 1] + "…"


def _queue(queue):
    messages = [[it.kind, it.band, _text(it.control), _text(it.data), len(it.control or b"") + len(it.data or b"")] for it in queue.messages]
    return {"m": messages, "full": queue.full, "waiting": queue.waiting, "wants": queue.wants_read}


def _stream(stream):
    return {
        "state": stream.state, "modules": stream.modules, "line": _text(stream.line) if stream.line else "", "stopped": stream.stopped,
        "hung": stream.hung_up, "signals": [str(getattr(it, "name", it)) for it in stream.signals],
    }  # fmt: skip


def _books(books):
    return {"written": books.written, "made": books.made, "queued": books.queued, "inline": books.inlined, "gone": books.gone}


def state_of(pair):
    """What the page shows of a pair: its image, and its ledgers, by side."""
    image = read_image(pair.image())
    return {
        "queues": {name: _queue(queue) for name, queue in image.queues.items()},
        "streams": {"ms"[side]: _stream(stream) for side, stream in image.streams.items()},
        "enabled": image.enabled,
        "books": {"ms"[side]: _books(pair.ledger(side)) for side in (MASTER, SLAVE)},
    }


def _told(answer):
    """An answer in a few words."""
    if answer.kind in ("bytes", "message"):
        return _text(answer.bytes or b"")
    if answer.kind == "count":
        return str(answer.value)
    return answer.kind


def label_of(entry):
    """An entry in the words of a script, and its answer."""
    if not isinstance(entry, Call):
        moved = f" {entry.moved}" if entry.kind == "moved" else ""
        return f"turn {entry.queue}", f"{entry.kind}{moved}"
    words = [entry.op, "ms"[entry.side]]
    if entry.op in ("put", "get"):
        words.append({HIGH: "hi", ANY: "any"}.get(entry.a, str(entry.a)))
    if entry.bytes and entry.op != "ioctl":
        words.append(_text(entry.bytes))
    return " ".join(words), _told(entry.answer)


def _pair_of(journal):
    header = getattr(journal, "header", {})
    return Pair(header.get("blocks", 256), header.get("entries", 8192), header.get("bytes", 262144))


def frames(journal, progress=None):
    """The steps of a journal: what was done, whether it went as in the journal, and the state behind it as a number in the list of different
    states. (states, steps)"""
    pair, seen = _pair_of(journal), bytearray()
    states, numbers = [], {}

    def number_of(state):
        key = json.dumps(state, sort_keys=True)
        if key not in numbers:
            numbers[key] = len(states)
            states.append(state)
        return numbers[key]

    steps = [{"what": "the beginning", "told": "", "at": 0, "state": number_of(state_of(pair)), "screen": "", "same": True}]
    for at, (time, entry) in enumerate(journal):
        if progress:
            progress(at + 1, len(journal))
        what, told = label_of(entry)
        try:
            made = pair.repeat(entry)
        except Refused as refused:
            steps.append({**steps[-1], "what": what, "told": f"{told}; made again: {refused.name}", "at": time, "same": False})
            break
        if isinstance(entry, Call) and entry.side == MASTER and entry.op == "read":
            seen += entry.answer.bytes or b""
        told = told if made == entry else f"{told}; made again: {label_of(made)[1]}"
        queue = None if isinstance(entry, Call) else entry.queue
        screen = screen_of(bytes(seen[-SCREEN:]))
        step = {"what": what, "told": told, "at": time, "state": number_of(state_of(pair)), "screen": screen}
        steps.append({**step, "same": made == entry, "queue": queue})
    return states, steps


def _packed(steps):
    """Steps without what the step before says too."""
    last = {}
    for step in steps:
        yield {name: value for name, value in step.items() if last.get(name) != value or name == "what"}
        last = step


def page_of(journal, title="A stream at work", progress=None):
    """The page's text, and how many entries differ."""
    states, steps = frames(journal, progress)
    data = json.dumps({"title": title, "states": states, "steps": list(_packed(steps))}, ensure_ascii=False, separators=(",", ":"))
    with open(TEMPLATE, encoding="utf-8") as file:
        template = file.read()
    escaped = title.replace("&", "&amp;").replace("<", "&lt;")
    return template.replace("__TITLE__", escaped).replace("__DATA__", data.replace("</", "<\\/")), sum(not it["same"] for it in steps)


def make_page(journal, path, title="A stream at work", progress=None):
    """Writes the page of a journal; how many entries differed."""
    text, differ = page_of(journal, title, progress)
    with open(path, "w", encoding="utf-8") as file:
        file.write(text)
    return differ


def _progress(at, count):
    if sys.stderr.isatty() and (at % 50 == 0 or at == count):
        print(f"\r{at} of {count} entries", end="\n" if at == count else "", file=sys.stderr, flush=True)


def is_journal(path):
    with open(path, "rb") as file:
        return file.read(1) == b"{"


def entries_of(pair):
    """The entries of a pair's journal."""
    return list(iter(Cursor(pair).next, None))


def main(words=None, of_script=None):
    """`of_script` makes the journal of a file that is none, but a script."""
    what, example = "One file of HTML that shows a journal at work.", "example: strm page bug.jsonl -o bug.html"
    parser = argparse.ArgumentParser(prog="strm page", description=what, epilog=example)
    parser.add_argument("journal", help="a journal's file, as `strm record` writes it, or a script")
    parser.add_argument("-o", "--output", default="page.html")
    parser.add_argument("--title", default=None)
    asked = parser.parse_args(words)
    journal = of_script(asked.journal) if of_script and not is_journal(asked.journal) else read_journal(asked.journal)
    title = asked.title or getattr(journal, "header", {}).get("title") or os.path.basename(asked.journal)
    differ = make_page(journal, asked.output, title, _progress)
    print(f"{asked.output}: {len(journal)} entries, {differ} made again otherwise, {os.path.getsize(asked.output)} bytes")
    return 1 if differ else 0


if __name__ == "__main__":
    sys.exit(main())
