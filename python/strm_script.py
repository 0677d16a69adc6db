"""Scripts of calls (strm_script(5)) on a pair of the library: commands, one a line, and an answer line for each.

    python3 strm_script.py FILE         the answers; a FILE of - is standard input. Status 0, or 1 with `err line N` where line N is malformed

    session = Session()
    session.line(b"open")               # "ok"
    for at, command, answer in run(open("a.script", "rb")): ..

What a script answers is told by docs/BEHAVIOUR.md, in the words of the program of crates/strm_run, which is proved; this is not.
"""
import re
import sys

from strm import ANY, HIGH, MASTER, SLAVE, Caller, Cursor, Pair, Refused
from strm_image import read_image
from strm_words import COMMANDS, MODES, MODULES, QUEUES, RULES

LINE_MAX, NUMBER_MAX = 4096, 4294967295
SIZES = (8192, 262144)  # of the journal
SIDES = {"m": MASTER, "s": SLAVE}
BYTES_OF = {"n": b"\n", "r": b"\r", "t": b"\t", '"': b'"', "\\": b"\\"}
SIGNALS = {2: "INT", 3: "QUIT", 20: "WINCH", 24: "TSTP", 26: "TTIN", 27: "TTOU"}
WORD = re.compile(rb'"(?:[^"\\\n]|\\[nrt"\\]|\\x[0-9a-fA-F]{2})*"|[^ "]+')


class Malformed(Exception):
    """A line that spells no command."""


def text_of(data):
    names = {10: "\\n", 13: "\\r", 9: "\\t", 34: '\\"', 92: "\\\\"}
    return '"' + "".join(names.get(byte) or (chr(byte) if 32 <= byte < 127 else f"\\x{byte:02x}") for byte in data) + '"'


def bytes_of(word):
    if word[:1] != '"' or word[-1:] != '"' or len(word) < 2:
        raise Malformed
    parts = re.findall(r'\\x([0-9a-fA-F]{2})|\\(.)|([^\\])', word[1:-1], re.S)
    return b"".join(bytes([int(x, 16)]) if x else BYTES_OF[e] if e else c.encode("latin-1") for x, e, c in parts)


def number_of(word, most=NUMBER_MAX):
    if not re.fullmatch(r"[0-9]{1,10}", word) or int(word) > most:
        raise Malformed
    return int(word)


def one_of(words, word):
    if word not in words:
        raise Malformed
    return words[word] if isinstance(words, dict) else words.index(word)


def part_of(word):
    return None if word == "-" else bytes_of(word)


def words_of(line):
    """The words of a line, texts whole; a word stands behind exactly one space."""
    words, at = [], 0
    while True:
        found = WORD.match(line, at)
        if not found:
            raise Malformed
        words.append(found[0].decode("latin-1"))
        at = found.end()
        if at == len(line):
            return words
        if line[at : at + 1] != b" ":
            raise Malformed
        at += 1


class Session:
    """A pair that `open` makes, and who makes the calls of each side."""

    def __init__(self, library=None, journal=SIZES, **named):
        self.pair, self.library, self.journal, self.named = None, library, journal, named
        self.callers = {MASTER: Caller(), SLAVE: Caller()}

    def line(self, line):
        """The answer to a line, or None to an empty one and a comment. Malformed."""
        if len(line) > LINE_MAX:
            raise Malformed
        if not line or line.startswith(b"#"):
            return None
        verb, *words = words_of(line)
        does = getattr(self, f"do_{verb}", None) if re.fullmatch(r"[a-z]+", verb) else None
        if does is None:
            raise Malformed
        try:
            ready = does(*words)
        except (TypeError, ValueError):  # (another number of words)
            raise Malformed from None
        try:
            return ready()
        except Refused as refused:
            return f"err {refused.name}"

    def call(self, op, side, *numbers, data=b""):
        if self.pair is None:
            raise Refused(3, op)
        return self.pair.call(op, side, *numbers, data=data, caller=self.callers[side])

    def tells(self, op, side, *numbers, data=b"", says=None):
        """What makes the call of these numbers, and spells its answer."""

        def make():
            told = self.call(op, side, *numbers, data=data)
            if told.kind == "stopped":
                return f"stop {SIGNALS[told.value]}"
            return (says or self.spelled)(told)

        return make

    @staticmethod
    def spelled(told):
        if told.kind == "name":
            return f"name {MODULES[told.value]}" if told.value else "name -"
        return {"done": "ok", "count": f"ok {told.value}", "bytes": f"data {len(told.bytes)} {text_of(told.bytes)}"}[told.kind]

    def do_open(self, blocks="256"):
        count = number_of(blocks)

        def make():
            if self.pair is not None or not 1 <= count <= 4096:
                raise Refused(1, "open")
            self.pair = Pair(count, *self.journal, library=self.library, **self.named)
            return self.tells("open_master", MASTER)()

        return make

    def do_unlock(self):
        return self.tells("unlock", MASTER)

    def do_slave(self):
        return self.tells("open_slave", SLAVE)

    def do_close(self, side):
        return self.tells("close", one_of(SIDES, side))

    def do_push(self, side, name):
        if not re.fullmatch(r"[a-z]{1,8}", name):
            raise Malformed
        return self.tells("push", one_of(SIDES, side), MODULES.index(name) if name in MODULES else len(MODULES))

    def do_pop(self, side):
        return self.tells("pop", one_of(SIDES, side))

    def do_look(self, side):
        return self.tells("look", one_of(SIDES, side))

    def do_write(self, side, text):
        return self.tells("write", one_of(SIDES, side), data=bytes_of(text))

    def do_read(self, side, count):
        return self.tells("read", one_of(SIDES, side), number_of(count))

    def do_put(self, side, prio, control, data):
        of, band, parts = one_of(SIDES, side), HIGH if prio == "hi" else number_of(prio), (part_of(control), part_of(data))
        if prio != "hi" and band > 255:
            return self.invalid
        split = len(parts[0]) if None not in parts else 0
        which = (parts[0] is not None) + 2 * (parts[1] is not None)
        return self.tells("put", of, band, which, split, data=b"".join(it or b"" for it in parts))

    def invalid(self):
        raise Refused(3 if self.pair is None else 1, "band")

    def do_get(self, side, *asked):
        wanted, control, data = asked or ("any", "1024", "1024")
        of, sizes = one_of(SIDES, side), (number_of(control), number_of(data))
        band = {"any": ANY, "hi": HIGH}.get(wanted)
        band = number_of(wanted) if band is None else band
        if wanted not in ("any", "hi") and band > 255:
            return self.invalid
        return self.tells("get", of, band, *sizes, says=self.message)

    @staticmethod
    def message(told):
        split = told.size if told.parts == 3 else len(told.bytes) if told.parts == 1 else 0
        parts = [text_of(part) if told.parts & bit else "-" for bit, part in ((1, told.bytes[:split]), (2, told.bytes[split:]))]
        more = "c" * told.more_control + "d" * told.more_data or "-"
        return f"msg {'hi' if told.prio == HIGH else told.prio} {parts[0]} {parts[1]} {more}"

    def do_mode(self, side, mode):
        return self.tells("mode", one_of(SIDES, side), one_of(MODES, mode))

    def do_flush(self, side, what, band=None):
        of, which = one_of(SIDES, side), one_of({"r": 1, "w": 2, "rw": 3}, what)
        number = ANY if band is None else number_of(band)
        if band is not None and number > 255:
            return self.invalid
        return self.tells("flush", of, which, number)

    def do_ioctl(self, side, name, *words):
        of, body = one_of(SIDES, side), b""
        if name == "raw":
            (number, text) = words
            return self.tells("ioctl", of, number_of(number), data=bytes_of(text), says=self.answered)
        number = one_of(COMMANDS, name)
        if name in ("TCSETS", "TCSETSW", "TCSETSF"):
            (text,) = words
            body = bytes_of(text)
        elif name == "TIOCSWINSZ":
            rows, columns, width, height = words
            body = b"".join(number_of(it, 65535).to_bytes(2, "big") for it in (rows, columns, width, height))
        elif name == "TIOCSIGNAL":
            (signal,) = words
            body = bytes([number_of(signal, 255)])
        elif name == "TIOCSPGRP":
            (group,) = words
            body = number_of(group).to_bytes(4, "big")
        elif words:
            raise Malformed
        return self.tells("ioctl", of, number, data=body, says=self.answered)

    @staticmethod
    def answered(told):
        if told.kind == "pending":
            return f"pending {told.value}"
        if told.kind == "nak":
            return f"nak {Refused(told.value, '').name}"
        return Session.spelled(told)

    def do_poll(self, side, number):
        return self.tells("ioctl_result", one_of(SIDES, side), number_of(number), says=self.answered)

    def do_signals(self, side):
        names = lambda told: [SIGNALS.get(it, str(it)) for it in told.bytes] or ["-"]
        return self.tells("signals", one_of(SIDES, side), says=lambda told: " ".join(["signals", *names(told)]))

    def do_group(self, side, group, flags):
        caller = Caller(number_of(group), *one_of({"-": (False, False), "i": (True, False), "o": (False, True), "io": (True, True)}, flags))
        of = one_of(SIDES, side)

        def make():
            self.callers[of] = caller if of == SLAVE else self.callers[of]
            return "ok"

        return make

    def has_pair(self):
        if self.pair is None:
            raise Refused(3, "pair")
        return self.pair

    def do_turn(self, queue):
        if not re.fullmatch(r"[ms]\.(head|ldterm|drv)\.[rw]", queue):
            raise Malformed

        def make():
            went = self.has_pair().turn(queue)
            return f"ok {went.moved}" if went.kind == "moved" else went.kind

        return make

    def do_run(self, count):
        most = number_of(count)

        def make():
            pair, made = self.has_pair(), 0
            while made < most and not pair.at_rest:
                try:
                    pair.turn(pair.enabled[0])
                except Refused:
                    break
                made += 1
            return f"ran {made}"

        return make

    def do_show(self, side):
        of = one_of(SIDES, side) or 0
        letter = "ms"[of]

        def make():
            pair = self.has_pair()
            known = read_image(pair.image()).queues
            names = [name for name in QUEUES if name[0] == letter and name in known]
            return " ".join([f"show {letter}", *(f"{name[2:]} {pair.sizes(name).messages} {pair.sizes(name).bytes}" for name in names)])

        return make

    def do_ledger(self, direction):
        side = one_of({"ms": MASTER, "sm": SLAVE}, direction)

        def make():
            books = self.has_pair().ledger(side)
            gone = [f"{rule} {books.gone[rule]}" for rule in RULES if books.gone.get(rule)]
            front = f"ledger {direction} written {books.written} made {books.made} queued {books.queued} inline {books.inlined}"
            return " ".join([front, *gone])

        return make

    def do_cut(self):
        def make():
            entries = sum(1 for _ in iter(Cursor(self.has_pair()).next, None))
            self.pair.restart()
            return f"ok {entries}"

        return make


def run(file, session=None):
    """(number, line, answer) of each line that has an answer; the answer `err line N` ends it."""
    session = session or Session()
    for number, line in enumerate(file, 1):
        line = line[:-1] if line.endswith(b"\n") else line
        try:
            answer = session.line(line)
        except Malformed:
            yield number, line, f"err line {number}"
            return
        if answer is not None:
            yield number, line, answer


def main(words=None):
    words = sys.argv[1:] if words is None else words
    if len(words) != 1 or words[0] in ("-h", "--help"):
        print(__doc__.strip(), "\n\nexample: strm run hello.script", file=sys.stderr)
        return 2
    file = sys.stdin.buffer if words[0] == "-" else open(words[0], "rb")
    status = 0
    with file:
        for _, _, answer in run(file):
            print(answer, flush=True)
            status = 1 if answer.startswith("err line ") else 0
    return status


if __name__ == "__main__":
    sys.exit(main())
