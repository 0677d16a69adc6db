"""The language of scripts: a command a line, an answer a line."""
import re

from .head import Refused
from .pair import CONTROL_MODES, MODES, RULES, Caller, Pair, Stopped

IOCTLS = {"TCGETS": 1, "TCSETS": 2, "TCSETSW": 3, "TCSETSF": 4, "TIOCGWINSZ": 5, "TIOCSWINSZ": 6, "TIOCSIGNAL": 7, "TIOCGPGRP": 8, "TIOCSPGRP": 9}
SIGNALS = {2: "INT", 3: "QUIT", 20: "WINCH", 24: "TSTP", 26: "TTIN", 27: "TTOU"}
ESCAPES = {ord("n"): b"\n", ord("r"): b"\r", ord("t"): b"\t", ord('"'): b'"', ord("\\"): b"\\"}
SPELLED = {10: "\\n", 13: "\\r", 9: "\\t", ord('"'): '\\"', ord("\\"): "\\\\"}
LONGEST, HIGHEST = 4096, 4294967295
QUEUES = {f"{side}.{place}.{way}": (side, place, way) for side in "ms" for place in ("head", "ldterm", "drv") for way in "rw"}


class Malformed(Exception):
    """A line that isn't a command."""


class Words:
    """The words of a line, parted by one space; a text in quotes is one, whatever stands in it."""
    WORD = re.compile(rb'[^ "]+|"(?:[^"\\]|\\.)*"', re.S)

    def __init__(self, line):
        self.line, self.at = line, 0

    @staticmethod
    def expect(holds):
        if not holds:
            raise Malformed

    def word(self, form=None):
        if self.at:
            self.expect(self.line[self.at:self.at + 1] == b" ")
            self.at += 1
        found = self.WORD.match(self.line, self.at)
        self.expect(found)
        self.at = found.end()
        word = found[0].decode("latin-1")
        self.expect(form is None or re.fullmatch(form, word, re.S))
        return word

    def one_of(self, *allowed):
        word = self.word()
        self.expect(word in allowed)
        return word

    def number(self, most=HIGHEST, *names):
        word = self.word()
        if word in names:
            return word
        self.expect(re.fullmatch("[0-9]{1,10}", word) and int(word) <= most)
        return int(word)

    def text(self):
        made, at, inner = bytearray(), 0, self.word('".*').encode("latin-1")[1:-1]
        while at < len(inner):
            if inner[at] != ord("\\"):
                made.append(inner[at])
                at += 1
            elif inner[at + 1] in ESCAPES:
                made += ESCAPES[inner[at + 1]]
                at += 2
            else:
                self.expect(re.fullmatch(rb"\\x[0-9a-fA-F]{2}", inner[at:at + 4]))
                made.append(int(inner[at + 2:at + 4], 16))
                at += 4
        return bytes(made)

    def part(self):
        """A text, or None for a part that is absent."""
        return self.text() if self.line[self.at:self.at + 2] != b" -" else self.word("-") and None

    def ioctl(self):
        """(side, command, body)."""
        side, name = READERS["side"](self), self.one_of(*IOCTLS, "raw")
        command, body = self.number() if name == "raw" else IOCTLS[name], b""
        if name == "TIOCSWINSZ":
            body = b"".join(self.number(65535).to_bytes(2, "big") for _ in range(4))
        elif name == "TIOCSIGNAL":
            body = bytes([self.number(255)])
        elif name == "TIOCSPGRP":
            body = self.number().to_bytes(4, "big")
        elif name == "raw" or name.startswith("TCSETS"):
            body = self.text()
        return side, command, body


def spelled(text):
    return '"' + "".join(SPELLED.get(byte) or (chr(byte) if 32 <= byte < 127 else f"\\x{byte:02x}") for byte in text) + '"'


def counted(text):
    return f"data {len(text)} {spelled(text)}"


def got(message):
    band, control, data, more_control, more_data = message
    parts = " ".join("-" if it is None else spelled(it) for it in (control, data))
    return f"msg {'hi' if band is None else band} {parts} {'c' * more_control + 'd' * more_data or '-'}"


def told(answer):
    kind, value = answer
    return {"ok": "ok", "nak": "nak EINVAL", "pending": f"pending {value}"}.get(kind) or counted(value)


def went(turn):
    return f"ok {turn[1]}" if turn[0] == "ok" else turn[0]


def shown(side, rows):
    return f"show {side} " + " ".join(f"{name} {messages} {size}" for name, messages, size in rows)


def booked(side, books):
    written, made, queued, inline, fates = books
    rules = "".join(f" {rule} {fates[rule]}" for rule in RULES if fates[rule])
    return f"ledger {'ms' if side == 'm' else 'sm'} written {written} made {made} queued {queued} inline {inline}{rules}"


READERS = {
    "side": lambda words: words.one_of("m", "s"),
    "direction": lambda words: words.one_of("ms", "sm")[0],
    "name": lambda words: words.word("[a-z]{1,8}"),
    "mode": lambda words: words.one_of(*MODES, *CONTROL_MODES),
    "ways": lambda words: words.one_of("r", "w", "rw"),
    "rank": lambda words: words.number(HIGHEST, "hi"),
    "what": lambda words: words.number(HIGHEST, "any", "hi"),
    "queue": lambda words: QUEUES[words.one_of(*QUEUES)],
    "callers": lambda words: words.one_of("-", "i", "o", "io"),
}
# What each command reads (behind a slash what may be left out), the call, and how its answer is told, where that isn't `ok`.
COMMANDS = {
    "open": ("/ number", None, None), "group": ("side number callers", None, None),
    "unlock": ("", Pair.unlock, None), "slave": ("", Pair.open_slave, None), "close": ("side", Pair.close, None),
    "push": ("side name", Pair.push, None), "pop": ("side", Pair.pop, None), "look": ("side", Pair.look, "name {}".format),
    "write": ("side text", Pair.write, "ok {}".format), "read": ("side number", Pair.read, counted),
    "put": ("side rank part part", Pair.put, None), "get": ("side / what number number", Pair.get, got),
    "mode": ("side mode", Pair.set_mode, None), "flush": ("side ways / number", Pair.flush, None),
    "ioctl": ("ioctl", Pair.ioctl, told), "poll": ("side number", Pair.poll, told),
    "signals": ("side", Pair.take_signals, lambda taken: "signals " + (" ".join(SIGNALS.get(it, str(it)) for it in taken) or "-")),
    "turn": ("queue", lambda pair, name: pair.turn(*name), went), "run": ("number", Pair.run, "ran {}".format),
    "show": ("side", lambda pair, side: (side, pair.show(side)), lambda it: shown(*it)),
    "ledger": ("direction", lambda pair, side: (side, pair.ledger(side)), lambda it: booked(*it)), "cut": ("", Pair.cut, "ok {}".format),
}


class Session:
    """The pair of a script, once there is one, and who calls on each side."""

    def __init__(self):
        self.pair, self.callers = None, {"m": Caller(), "s": Caller()}

    def answer(self, line):
        """The answer to a line that is a command."""
        words = Words(line)
        name = words.one_of(*COMMANDS)
        form, call, tells = COMMANDS[name]
        read = []
        for reader in form.split():
            if reader == "/" and words.at == len(line):
                break
            if reader != "/":
                it = READERS[reader](words) if reader in READERS else getattr(words, reader)()
                read += it if reader == "ioctl" else [it]
        words.expect(words.at == len(line))
        try:
            if name in ("open", "group"):
                return getattr(self, name)(*read)
            if self.pair is None:
                raise Refused("ENXIO")
            answer = call(self.pair, *read)
            return tells(answer) if tells else "ok"
        except Refused as why:
            return f"err {why}"
        except Stopped as signal:
            return f"stop {SIGNALS[signal.args[0]]}"

    def open(self, blocks=256):
        if self.pair or not 1 <= blocks <= 4096:
            raise Refused("EINVAL")
        self.pair = Pair(blocks)
        self.pair.callers = self.callers
        self.pair.open_master()
        return "ok"

    def group(self, side, group, flags):
        self.callers[side] = Caller(group, "i" in flags, "o" in flags)
        return "ok"


def play(script):
    """(the answers, the status, how many answers come before the line for which blocks were first too few; None where there is none)."""
    session, answers, short = Session(), [], None
    lines = script.split(b"\n")
    if lines[-1] == b"":
        lines.pop()
    for number, line in enumerate(lines, 1):
        if line[:1] in (b"", b"#") and len(line) <= LONGEST:
            continue
        try:
            Words.expect(len(line) <= LONGEST)
            answer = session.answer(line)
        except Malformed:
            return [*answers, f"err line {number}"], 1, short
        if short is None and session.pair and session.pair.is_short:
            short = len(answers)
        answers.append(answer)
    return answers, 0, short
