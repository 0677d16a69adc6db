"""Records what goes over a pair, from its journal: as a journal's file, which can be made again answer by answer, as an asciicast (version
2 or 3), and as typescripts of script(1) with their timing files, in both formats.

    pair = Pair()
    with Recorder(pair, [AsciicastWriter("demo.cast"), JournalWriter("bug.jsonl")]) as recorder:
        pair.open_terminal()
        ...                                 # the session; recorder.drain() as often as the times are to be told

    differences = replay(read_journal("bug.jsonl"))     # [] where a new pair gives every answer of the file

Two pairs of one journal replay alike only with ample blocks: a pair that has fewer, or that is made of an image, which doesn't say how messages
stand in blocks, may refuse by ENOSR what the recorded one granted.

A recorder takes the journal's entries through a cursor, each once: when `drain` is called, when the pair's journal is full and begins anew,
and at the end. So a session of any length takes no more memory, and no entry is lost. An entry's time is that of the drain which takes it.
What a drain took is in the files when it returns: a recorder that is killed leaves files that are read up to their last whole line.

A journal's file has a line of JSON for each entry, and one in front that says "strm journal", the version of the format, the version of
libstrm, the sizes of the pair and the time of its beginning, in seconds since 1970. In strings of bytes the characters U+0000 to U+00FF are the
bytes. All times are seconds.

    {"format": "strm journal", "version": 1, "library": "1.2", "blocks": 12900, "entries": 8192, "bytes": 262144, "timestamp": 1795000000}
    {"at": 0.5, "call": "write", "side": "m", "numbers": [0, 0, 0], "caller": [0, false, false], "bytes": "ls\\r",
     "answer": {"kind": "count", "value": 3}}
    {"at": 0.5, "turn": "m.drv.w", "kind": "moved", "moved": 3}

`numbers` are a, b and c of strm_ask in strm.h, left out where they are 0, as are `caller` and `bytes` where there are none; an answer has
the fields of strm_reply that aren't 0, and its bytes.

An event is (at, kind, data), as in an asciicast: "o" and bytes that the master read; "i" and bytes that it wrote; "r" and (columns, rows), a
window's new size. Entries give events (`Events`), the writers take them, and the readers give them back. An asciicast is text: bytes that
are no UTF-8 stand there as U+FFFD. All other files keep every byte.
"""
import codecs
import json
import time

from strm import COMMANDS, MASTER, NOBODY, SLAVE, TERMINAL_BLOCKS, Answer, Call, Caller, Cursor, Pair, Refused, Side, Turn, Winsize
from strm_library import VERSION

FORMAT = "strm journal"


class Recorder:
    """Takes the entries of a pair's journal to writers, or to a list of its own, `entries`, where none is given. A writer has `entry(at, entry)` and
    `close()`."""

    def __init__(self, pair, writers=None, clock=time.monotonic):
        self.pair, self.clock, self.began = pair, clock, clock()
        self.entries = []
        self.writers = [self] if writers is None else list(writers)
        self.cursor = Cursor(pair)
        pair.before_restart.append(self.drain)
        for writer in self.writers:
            getattr(writer, "begins", lambda pair: None)(pair)

    def entry(self, at, entry):
        self.entries.append((at, entry))

    def __enter__(self):
        return self

    def __exit__(self, *_):
        self.close()

    def drain(self, _pair=None):
        """Takes the entries that came since the last time, and flushes the writers: how many."""
        at, taken = self.clock() - self.began, 0
        while (entry := self.cursor.next()) is not None:
            taken += 1
            for writer in self.writers:
                writer.entry(at, entry)
        for writer in self.writers if taken else ():
            getattr(writer, "flush", lambda: None)()
        return taken

    def close(self):
        """Takes the last entries, and closes the writers."""
        if self.drain not in self.pair.before_restart:
            return  # it was closed
        self.drain()
        self.pair.before_restart.remove(self.drain)
        for writer in self.writers:
            if writer is not self:
                writer.close()


class Events:
    """The events of entries, which are handed in one by one."""

    def __init__(self):
        self.windows = {}

    def of(self, at, entry):
        """The event of an entry, or None."""
        if not isinstance(entry, Call):
            return None
        answer = entry.answer
        if entry.op == "ioctl" and entry.a == COMMANDS["TIOCSWINSZ"] and len(entry.bytes) == 8:
            self.windows[entry.side] = Winsize.of_wire(entry.bytes)
        if entry.op in ("ioctl", "ioctl_result"):
            return self._resized(at, entry.side, answer.kind)
        if entry.side != MASTER or answer.kind == "stopped":
            return None
        if entry.op == "write" and answer.value:
            return at, "i", entry.bytes[: answer.value]
        shown = _shown(entry.op, answer)
        return (at, "o", shown) if shown else None

    def _resized(self, at, side, kind):
        # A pending ioctl is told by the answer to the one that asks for it.
        window = self.windows.get(side) if kind == "pending" else self.windows.pop(side, None)
        return (at, "r", (window.columns, window.rows)) if window and kind in ("done", "bytes") else None


def _shown(op, answer):
    """The bytes that a read gave, or a get: of the packets of `pckt` those of M_DATA alone."""
    if op == "read":
        return answer.bytes
    if op == "get":
        control = answer.bytes[: answer.size] if answer.parts == 3 else b""
        return answer.bytes[len(control) :] if answer.parts & 2 and control in (b"", b"\0") else b""
    return b""


def events(entries):
    """The events of entries with their times, as Recorder.entries and read_journal give them."""
    made = Events()
    return [event for event in (made.of(at, entry) for at, entry in entries) if event]


class _EventWriter:
    """A writer of events, to which a recorder hands entries."""

    def __init__(self):
        self.events = Events()

    def entry(self, at, entry):
        event = self.events.of(at, entry)
        if event:
            self.event(*event)


def _opened(path, mode):
    """A file by its name, or the one that is handed in; and whether it is ours to close."""
    named = isinstance(path, (str, bytes)) or hasattr(path, "__fspath__")
    return (open(path, mode, **({} if "b" in mode else {"encoding": "utf-8", "newline": ""})) if named else path), named


# ----------------------------------------------------------------------------------------------------------------- asciicast


class AsciicastWriter(_EventWriter):
    """An asciicast, version 2 or 3. Input is written with typed=True. Further names are those of the header: title, env, tags .."""

    def __init__(self, path, columns=80, rows=24, typed=False, version=2, **header):
        if version not in (2, 3):
            raise ValueError("an asciicast has version 2 or 3")
        super().__init__()
        self.file, self.owned = _opened(path, "w")
        self.kinds, self.version = "oi" if typed else "o", version
        self.decoders = {kind: codecs.getincrementaldecoder("utf-8")("replace") for kind in "oi"}
        self.last = self.told = 0.0
        size = {"width": columns, "height": rows} if version == 2 else {"term": {"cols": columns, "rows": rows}}
        self._line({"version": version, **size, "timestamp": int(time.time()), **header})
        self.file.flush()

    def _line(self, value):
        self.file.write(json.dumps(value, ensure_ascii=False) + "\n")

    def _tells(self, at, kind, text):
        """Version 2 tells of times since the beginning, and 3 of those since the event before."""
        at = round(at, 6)
        self._line([at if self.version == 2 else round(at - self.told, 6), kind, text])
        self.told = at

    def event(self, at, kind, data):
        self.last = at
        if kind == "r":
            self._tells(at, "r", f"{data[0]}x{data[1]}")
        elif kind in self.kinds:
            # A character that is cut between two reads waits for its rest.
            text = self.decoders[kind].decode(data)
            if text:
                self._tells(at, kind, text)

    def flush(self):
        self.file.flush()

    def close(self):
        for kind in self.kinds:
            rest = self.decoders[kind].decode(b"", True)
            if rest:
                self._tells(self.last, kind, rest)
        self.file.close() if self.owned else self.file.flush()


def whole_lines(file):
    """The values of a file's lines of JSON, without empty lines and comments. A last line that was cut is left out: whoever wrote it was ended."""
    last = None
    for line in file:
        if last is not None:
            raise ValueError(f"no line of JSON: {last!r}")
        if not line.strip() or line.startswith("#"):
            continue
        try:
            value = json.loads(line)
        except ValueError:
            last = line
            continue
        if line.endswith("\n"):
            yield value


def read_asciicast(path):
    """The header and the events of an asciicast, of version 2 or 3; those of a version 3 have their times since its beginning."""
    file, owned = _opened(path, "r")
    try:
        lines = whole_lines(file)
        header = next(lines, {})
        version = header.get("version") if isinstance(header, dict) else None
        if version not in (2, 3):
            raise ValueError("not an asciicast of version 2 or 3")
        found, now = [], 0.0
        for at, kind, text in lines:
            now = at if version == 2 else round(now + at, 6)
            found.append(_event_of(now, kind, text))
        return header, found
    finally:
        if owned:
            file.close()


def _event_of(at, kind, text):
    return at, kind, tuple(map(int, text.split("x"))) if kind == "r" else text.encode("utf-8", "surrogatepass")


# ----------------------------------------------------------------------------------------------------------------- script(1)


def _now():
    return time.strftime("%Y-%m-%d %H:%M:%S%z")


class TypescriptWriter(_EventWriter):
    """`script -O log -T timing`: what was shown, and a line with its delay and length for each piece."""

    def __init__(self, log, timing, command="strm"):
        super().__init__()
        (self.log, self.owns_log), (self.timing, self.owns_timing) = _opened(log, "wb"), _opened(timing, "w")
        self.last = 0.0
        self.log.write(f'Script started on {_now()} [COMMAND="{command}"]\n'.encode())

    def delay(self, at):
        told, self.last = max(at - self.last, 0.0), max(at, self.last)
        return f"{told:.6f}"

    def event(self, at, kind, data):
        if kind == "o":
            self.timing.write(f"{self.delay(at)} {len(data)}\n")
            self.log.write(data)

    def flush(self):
        """First the bytes, then the timing that tells of them."""
        self.log.flush()
        self.timing.flush()

    def close(self):
        self.log.write(f"\nScript done on {_now()}\n".encode())
        for file, owned in ((self.log, self.owns_log), (self.timing, self.owns_timing)):
            file.close() if owned else file.flush()


class AdvancedTypescriptWriter(TypescriptWriter):
    """`script -B log --log-timing timing --logging-format advanced`: input, output and resizes. The log has the bytes of both in their order."""

    def __init__(self, log, timing, columns=80, rows=24, command="strm"):
        super().__init__(log, timing, command)
        for name, value in (("START_TIME", _now()), ("COLUMNS", columns), ("LINES", rows), ("COMMAND", command)):
            self.timing.write(f"H 0.000000 {name} {value}\n")

    def event(self, at, kind, data):
        if kind == "r":
            self.timing.write(f"S {self.delay(at)} SIGWINCH ROWS={data[1]} COLS={data[0]}\n")
        else:
            self.timing.write(f"{kind.upper()} {self.delay(at)} {len(data)}\n")
            self.log.write(data)

    def close(self):
        self.timing.write(f"H 0.000000 DURATION {self.last:.6f}\nH 0.000000 EXIT_CODE 0\n")
        super().close()


def read_typescript(log, timing):
    """The events of a log and its timing, in either format, up to what is whole."""
    (data, owns_log), (lines, owns_timing) = _opened(log, "rb"), _opened(timing, "r")
    try:
        data.readline()
        at, found = 0.0, []
        for line in lines:
            words = line.split()
            if not words or words[0] == "H" or not line.endswith("\n"):
                continue
            if not words[0].isalpha():
                words.insert(0, "O")
            at += float(words[1])
            if words[0] in "IO":
                part = data.read(int(words[2]))
                found += [(at, words[0].lower(), part)] if part else []
            elif words[2] == "SIGWINCH":
                sizes = dict(word.split("=") for word in words[3:])
                found.append((at, "r", (int(sizes["COLS"]), int(sizes["ROWS"]))))
        return found
    finally:
        for file, owned in ((data, owns_log), (lines, owns_timing)):
            if owned:
                file.close()


# ----------------------------------------------------------------------------------------------------------------- journals


class JournalWriter:
    """A journal's file: what a bug report needs. It is made again on a pair that nobody opened, so it is begun before the first call."""

    def __init__(self, path, **header):
        self.file, self.owned = _opened(path, "w")
        self.header = header

    def begins(self, pair):
        sizes = pair.limits._asdict()
        self._line({"format": FORMAT, "version": 1, "library": "%d.%d" % VERSION, **sizes, "timestamp": int(time.time()), **self.header})
        self.file.flush()

    def _line(self, value):
        self.file.write(json.dumps(value) + "\n")

    def entry(self, at, entry):
        self._line({"at": round(at, 6), **entry_to_json(entry)})

    def flush(self):
        self.file.flush()

    def close(self):
        self.file.close() if self.owned else self.file.flush()


def entry_to_json(entry):
    """An entry as a line of a journal's file has it, without its time."""
    if isinstance(entry, Turn):
        return {"turn": entry.queue, "kind": entry.kind, "moved": entry.moved}
    made = {"call": entry.op, "side": "ms"[entry.side]}
    if entry.a or entry.b or entry.c:
        made["numbers"] = [entry.a, entry.b, entry.c]
    if entry.caller != NOBODY:
        made["caller"] = list(entry.caller)
    if entry.bytes:
        made["bytes"] = entry.bytes.decode("latin-1")
    told = {name: value for name, value in entry.answer._asdict().items() if value and name != "bytes"}
    if entry.answer.bytes:
        told["bytes"] = entry.answer.bytes.decode("latin-1")
    return {**made, "answer": told}


def entry_of_json(line):
    """The entry of a line of a journal's file."""
    if "turn" in line:
        return Turn(line["turn"], line["kind"], line["moved"])
    told = line["answer"]
    zeros = {"value": 0, "prio": 0, "parts": 0, "size": 0, "more_control": False, "more_data": False}
    answer = Answer(**{**zeros, **told, "bytes": told.get("bytes", "").encode("latin-1")})
    caller = Caller(*line.get("caller", NOBODY))
    side = Side("ms".index(line["side"]))
    return Call(line["call"], side, *line.get("numbers", (0, 0, 0)), caller, line.get("bytes", "").encode("latin-1"), answer)


class Journal(list):
    """The entries of a journal's file with their times, and its `header`."""


def read_journal(path):
    """A journal's file, up to its last whole line."""
    file, owned = _opened(path, "r")
    try:
        journal, lines = Journal(), whole_lines(file)
        journal.header = next(lines, {})
        if journal.header.get("format") != FORMAT or journal.header.get("version") != 1:
            raise ValueError(f"not a {FORMAT} of version 1")
        journal += [(told["at"], entry_of_json(told)) for told in lines]
        return journal
    finally:
        if owned:
            file.close()


def replay(journal, pair=None):
    """Makes a journal's entries again, on a new pair of the sizes that it names or on the one that is handed in: [(number, entry, what came
    instead)], of which the last one is a Refused where a call or turn was refused. It ends there, as nothing behind could be the same."""
    sizes = getattr(journal, "header", {})
    pair = pair or Pair(sizes.get("blocks", TERMINAL_BLOCKS), sizes.get("entries", 8192), sizes.get("bytes", 262144))
    differences = []
    for number, (_, entry) in enumerate(journal):
        try:
            made = pair.repeat(entry)
        except Refused as refusal:
            return [*differences, (number, entry, refusal)]
        if made != entry:
            differences.append((number, entry, made))
    return differences
