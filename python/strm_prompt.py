"""A prompt on a pair, for learning and for trying things: python3 -m strm, in the folder python/ (README: how the library is found).

The commands are those of the program's scripts, and some more; `help` lists them. Each turn is named as it is made, and behind each command
that changed something a picture shows the two streams: the modules, how many messages and bytes stand on each queue, and the enabled queues
by the place in which their turns come. What can't be done is said, and the prompt goes on. Lines are edited with the arrow keys, and TAB
completes commands.
"""
import cmd
import re
import sys

import strm
from strm import ANY, HIGH, MASTER, SLAVE, Call, Cursor, Pair, Refused, Stopped, Turn
from strm_image import read_image
from strm_record import JournalWriter, Recorder, read_journal, replay

try:
    import readline  # noqa: F401  (line editing, where the interpreter has it)
except ImportError:
    pass

SIDES = {"m": MASTER, "s": SLAVE, "master": MASTER, "slave": SLAVE}
ESCAPES = {"n": "\n", "r": "\r", "t": "\t", "e": "\x1b", '"': '"', "\\": "\\"}


UNDONE = 100  # commands that can be taken back
TOUR = (
    ("A pair has a master and a slave. An emulator holds the master, a program the slave; modules are pushed on the slave's stream.", ["terminal"]),
    ("What the master writes stands on its driver's write queue, and that queue is enabled: nothing has moved.", ['write m "hi"']),
    ("A turn is one run of a service procedure: the driver's carries the message across. ldterm's read queue is enabled now.", ["turn m.drv.w"]),
    ("ldterm gathers a line, and echoes each byte down its write side. `run` makes turns till no queue is enabled.", ["run"]),
    ("The echo stands at the master's head, where a read takes it. The slave has nothing to read: the line isn't whole.", ["read m", "read s"]),
    ("DEL erases a byte, and is echoed as BS SPACE BS. The books tell by which rule each byte has gone.", ['keys "\\x7fo"', "run", "ledger m"]),
    ("A return ends the line: it goes up to the slave's head as one message.", ['keys "\\r"', "run", "read s"]),
    ("Messages have bands. One of band 2 overtakes those of band 0, and a message of high priority all others.",
     ['say "text"', 'put s 2 - "banded"', 'put s hi "urgent" -', "run", "get m"]),
    ("Flow control: a queue that holds its high-water mark is full, and takes no more until a reader has made room.",
     ['say "' + "x" * 60 + '"', "run"]),
    ("Every call and turn is in the journal: `record FILE` keeps it, `replay FILE` makes it again; `undo` takes a command back.", ["undo"]),
)  # fmt: skip


class Wrong(Exception):
    """A command that isn't understood: what it wants instead."""


def bytes_of(text):
    """The bytes of a text with \\n \\r \\t \\e \\xHH; other characters are UTF-8."""
    text = text[1:-1] if len(text) > 1 and text[0] == text[-1] == '"' else text
    parts = re.split(r"\\(x[0-9a-fA-F]{2}|.)", text)
    made = bytearray(parts[0].encode())
    for escape, plain in zip(parts[1::2], parts[2::2]):
        made += bytes([int(escape[1:], 16)]) if escape[0] == "x" and len(escape) == 3 else ESCAPES.get(escape, escape).encode()
        made += plain.encode()
    return bytes(made)


def text_of(data):
    """Bytes as scripts print them."""
    names = {10: "\\n", 13: "\\r", 9: "\\t", 27: "\\e", 34: '\\"', 92: "\\\\"}
    return '"' + "".join(names.get(byte) or (chr(byte) if 32 <= byte < 127 else f"\\x{byte:02x}") for byte in data) + '"'


def message_text(message):
    """A message of an image: its data, and what else it is."""
    kind = "" if message.kind == "M_DATA" else message.kind
    band = f"band {message.band}" if message.band else ""
    control = "" if message.control is None else f"control {text_of(message.control)}"
    data = "" if message.data is None else text_of(message.data)
    return "[" + " ".join(word for word in (kind, band, control, data) if word) + "]"


class Stacks:
    """The modules of each stream, from the top, and which sides are open, by the entries of a journal."""

    def __init__(self, pair):
        streams = read_image(pair.image()).streams
        self.cursor = Cursor(pair)
        self.modules = {side: list(it.modules) for side, it in streams.items()}
        self.state = {side: it.state for side, it in streams.items()}

    def look(self, _pair=None):
        """The entries since the last look."""
        seen = []
        while (entry := self.cursor.next()) is not None:
            seen.append(entry)
            if isinstance(entry, Call):
                self._takes(entry)
        return seen

    def _takes(self, entry):
        if entry.op == "open_master":
            self.state[MASTER] = "open"
        elif entry.op == "open_slave":
            self.state[SLAVE] = "open"
        elif entry.op == "close":
            self.state[entry.side], self.modules[entry.side] = "closed", []
        elif entry.op == "push":
            self.modules[entry.side].insert(0, strm.MODULES[entry.a])
        elif entry.op == "pop":
            self.modules[entry.side].pop(0)


class Picture:
    """The two streams, drawn: heads above, drivers below."""

    WIDE = 40

    def __init__(self, pair, stacks):
        self.pair, self.stacks, self.enabled = pair, stacks, pair.enabled

    def queue(self, name, label):
        standing = self.pair.sizes(name)
        turn = f"<- turn {self.enabled.index(name) + 1}" if name in self.enabled else ""
        holds = f"{standing.messages} x, {standing.bytes} bytes" if standing.messages else "-"
        return f"{label:<10}{holds:<18}{turn}"

    def column(self, side):
        letter = "ms"[side]
        yield f"{('master', 'slave')[side]}: {self.stacks.state[side]}"
        yield self.queue(f"{letter}.head.r", "head   up")
        for module in self.stacks.modules[side]:
            if module == "ldterm":
                yield self.queue(f"{letter}.ldterm.r", "ldterm up")
                yield self.queue(f"{letter}.ldterm.w", "     down")
            else:
                yield f"{module:<10}(no queues)"

    def lines(self):
        left, right = (list(self.column(side)) for side in (MASTER, SLAVE))
        height = max(len(left), len(right))
        for column, name in ((left, "m.drv.w"), (right, "s.drv.w")):
            column.extend([""] * (height - len(column)))
            column.append(self.queue(name, "drv  down"))
        bar = "+" + "-" * self.WIDE + "+" + "-" * self.WIDE + "+"
        yield bar
        for each in zip(left, right):
            yield "|" + "|".join(f" {text:<{self.WIDE - 1}}" for text in each) + "|"
        yield bar
        yield from self.contents()
        yield f"enabled, in order: {', '.join(self.enabled)}" if self.enabled else "at rest: no queue is enabled"

    def contents(self):
        """The messages of each queue, the first one first, and the unfinished lines."""
        image = read_image(self.pair.image())
        for name, queue in image.queues.items():
            if queue.messages:
                yield f"{name:<10} {' '.join(map(message_text, queue.messages))}"
        for side, stream in image.streams.items():
            if stream.line:
                yield f"{'ms'[side]}.ldterm   has the line {text_of(stream.line)}"


def told(entry):
    """A turn, as the prompt says it."""
    kinds = {"idle": "the queue is empty", "blocked": "its first message may not go on", "moved": f"{entry.moved} bytes went on"}
    return f"  turn of {entry.queue}: {kinds[entry.kind]}"


class Prompt(cmd.Cmd):
    """Commands: X is m (the master) or s (the slave); TEXT stands in "" where it has blanks, with \\n \\r \\t \\e \\xHH for keys."""

    prompt = "strm> "
    intro = "A pair of a master and a slave. `terminal` opens both sides with ptem and ldterm; `help` lists all commands; Ctrl-D ends."
    doc_header = "Commands (help NAME tells more); X is m or s:"
    undoc_header = None

    def __init__(self, pair=None, **files):
        super().__init__(**files)
        self.draws, self.recorder, self.before, self.step = True, None, [], 0
        self.use(pair or Pair())

    def use(self, pair):
        self.pair, self.stacks = pair, Stacks(pair)
        pair.before_restart.append(self.stacks.look)

    def say(self, *words):
        print(*words, file=self.stdout)

    # ------------------------------------------------------------------------------------------------------------- how commands are made

    def precmd(self, line):
        return line.strip() if not line.strip().startswith("#") else ""

    def emptyline(self):
        pass

    def onecmd(self, line):
        image = self.pair.image()
        try:
            stop = super().onecmd(line)
            if not line.startswith("undo") and self.pair.image() != image:
                self.before = [*self.before[-UNDONE:], image]
            return stop
        except Refused as refusal:
            self.say(f"refused: {refusal.name}")
        except Stopped as stopped:
            self.say(str(stopped))
        except Wrong as wrong:
            self.say(f"{wrong}")
        except Exception as failure:  # no mistake ends the prompt
            self.say(f"not understood: {failure}; `help {line.split()[0]}` says what it wants")
        return False

    def postcmd(self, stop, line):
        entries = self.stacks.look()
        for entry in entries:
            if isinstance(entry, Turn):
                self.say(told(entry))
        if entries and self.draws:
            self.do_show("")
        return stop

    def default(self, line):
        if line == "EOF":
            self.say("")
            return True
        near = [name for name in self.completenames("") if name.startswith(line[:2])]
        self.say(f"no such command: {line.split()[0]}{'; is it ' + ' or '.join(near) + '?' if near else ''} (help lists them)")

    def words(self, line, *wants):
        """The words of a line, each read by what it is wanted as. A trailing want may be a pair of it and what stands for none."""
        given, made = re.findall(r'"(?:\\.|[^"\\])*"|\S+', line), []
        if len(given) > len(wants):
            raise Wrong("too many words: a TEXT with blanks stands in \"\"")
        for number, want in enumerate(wants):
            want, otherwise = want if isinstance(want, tuple) else (want, None)
            if number < len(given):
                made.append(want(given[number]))
            elif otherwise is None:
                raise Wrong("a word is missing: `help` and the command's name say what it wants")
            else:
                made.append(otherwise)
        return made

    @staticmethod
    def side(word):
        if word not in SIDES:
            raise Wrong("a side is m or s")
        return SIDES[word]

    @staticmethod
    def priority(word):
        return {"hi": HIGH, "any": ANY}.get(word) or int(word)

    @staticmethod
    def part(word):
        return None if word == "-" else bytes_of(word)

    # ------------------------------------------------------------------------------------------------------------- commands

    def do_terminal(self, _line):
        """terminal            opens both sides, and pushes ptem and ldterm on the slave"""
        self.pair.open_terminal()

    def do_open(self, _line):
        """open                opens the master"""
        self.pair.open_master()

    def do_unlock(self, _line):
        """unlock              lets the slave be opened"""
        self.pair.unlock()

    def do_slave(self, _line):
        """slave               opens the slave"""
        self.pair.open_slave()

    def do_close(self, line):
        """close X             closes a side"""
        self.pair.close(*self.words(line, self.side))

    def do_push(self, line):
        """push X MODULE       pushes ldterm, ptem or pckt on a stream"""
        self.pair.push(*self.words(line, self.side, str))

    def do_pop(self, line):
        """pop X               takes the top module off"""
        self.pair.pop(*self.words(line, self.side))

    def do_look(self, line):
        """look X              which module stands on top"""
        self.say(self.pair.look(*self.words(line, self.side)))

    def do_write(self, line):
        """write X TEXT        writes bytes: write m "ls\\r" """
        side, data = self.words(line, self.side, bytes_of)
        self.say(f"{self.pair.write(side, data)} of {len(data)} bytes were taken")

    def do_keys(self, line):
        """keys TEXT           the user types: the same as write m"""
        self.do_write(f"m {line}")

    def do_say(self, line):
        """say TEXT            the program prints: the same as write s"""
        self.do_write(f"s {line}")

    def do_read(self, line):
        """read X [N]          reads at most N bytes"""
        side, most = self.words(line, self.side, (int, 4096))
        data = self.pair.read(side, most)
        self.say(f"{len(data)} {text_of(data)}" if data else "0 bytes: the end of input")

    def do_put(self, line):
        """put X hi-or-BAND CONTROL DATA    putpmsg(2); - is no part"""
        self.pair.put(*self.words(line, self.side, self.priority, self.part, self.part))

    def do_get(self, line):
        """get X [any-hi-or-BAND [CMAX DMAX]]    getpmsg(2)"""
        message = self.pair.get(*self.words(line, self.side, (self.priority, ANY), (int, 1024), (int, 1024)))
        parts = ["-" if part is None else text_of(part) for part in (message.control, message.data)]
        more = "".join(text for text, waits in ((", more control waits", message.more_control), (", more data waits", message.more_data)) if waits)
        self.say(f"{'hi' if message.prio == HIGH else f'band {message.prio}'}: control {parts[0]}, data {parts[1]}{more}")

    def do_flush(self, line):
        """flush X r-w-or-rw [BAND]     I_FLUSH"""
        side, what, band = self.words(line, self.side, str, (int, ANY))
        self.pair.flush(side, "r" in what, "w" in what, band)

    def do_mode(self, line):
        """mode X MODE         norm, msgn, msgd, protnorm, protdat or protdis: I_SRDOPT"""
        self.pair.srdopt(*self.words(line, self.side, str))

    def do_signals(self, line):
        """signals [X]         the signals that came up"""
        came = self.pair.signals(*self.words(line, (self.side, SLAVE)))
        self.say(" ".join(getattr(each, "name", str(each)) for each in came) or "none came")

    def do_size(self, line):
        """size [ROWS COLUMNS]  the window; with numbers the master sets it"""
        if line:
            self.pair.set_winsize(*self.words(line, int, int))
        self.say("{} rows, {} columns".format(*self.pair.get_winsize()))

    def do_stty(self, line):
        """stty [FLAG..]       the terminal's modes; echo sets one, -echo clears it"""
        termios = self.pair.tcgetattr()
        for word in line.upper().split():
            termios[word.lstrip("-")] = not word.startswith("-")
        if line:
            self.pair.tcsetattr(termios)
        self.say(" ".join(f"{'' if termios[name] else '-'}{name.lower()}" for name in strm.FLAGS))
        keys = ((name[1:].lower(), termios[name]) for name in strm.KEYS)
        self.say(" ".join(f"{name}={'^' + chr(key ^ 0x40) if key < 32 or key == 127 else chr(key)}" for name, key in keys if key))

    def do_turn(self, line):
        """turn [QUEUE]        one turn, of the queue that is enabled first or of the named one: m.drv.w, s.ldterm.r .."""
        queue = line or next(iter(self.pair.enabled), None)
        if queue is None:
            raise Wrong("at rest: no queue is enabled")
        if queue not in strm.QUEUES:
            raise Wrong("a queue is " + ", ".join(strm.QUEUES))
        self.pair.turn(queue)

    def do_run(self, _line):
        """run                 turns until no queue is enabled"""
        self.say(f"{self.pair.runqueues()} turns")

    def do_ledger(self, line):
        """ledger X            where the bytes are that a side wrote"""
        books = self.pair.ledger(*self.words(line, self.side))
        gone = ", ".join(f"{rule} {count}" for rule, count in books.gone.items())
        self.say(f"written {books.written} + made {books.made} = queued {books.queued} + in a line {books.inlined} + gone ({gone or 'none'})")

    def do_ready(self, line):
        """ready X             what a side is ready for"""
        told = self.pair.ready(*self.words(line, self.side))
        self.say(", ".join(each.name.lower().replace("_", " ") for each in strm.Ready if each & told) or "nothing")

    def do_room(self, _line):
        """room                free blocks, and what the journal takes yet"""
        self.say("{} blocks, {} entries, {} bytes".format(*self.pair.room()))

    def do_show(self, _line):
        """show                draws the two streams"""
        self.say("\n".join(Picture(self.pair, self.stacks).lines()))

    def do_picture(self, line):
        """picture on-or-off   whether they are drawn behind each command"""
        self.draws = line != "off"

    def do_new(self, line):
        """new [BLOCKS]        frees this pair, and makes another one"""
        blocks, = self.words(line, (int, strm.TERMINAL_BLOCKS))
        pair = Pair(blocks)
        self.do_record("off")
        self.pair.free()
        self.use(pair)
        self.do_show("")

    def do_record(self, line):
        """record FILE         writes the journal to a file, from where it began and on; `record off` ends it"""
        recorder, self.recorder = self.recorder, None
        if recorder:
            recorder.close()
        if line != "off":
            self.recorder = Recorder(self.pair, [JournalWriter(*self.words(line, str))])

    def do_replay(self, line):
        """replay FILE         makes a journal's file again on a new pair, and compares every answer"""
        journal = read_journal(*self.words(line, str))
        pair = Pair(journal.header["blocks"], journal.header["entries"], journal.header["bytes"])
        differences = replay(journal, pair)
        self.do_record("off")
        self.use(pair)
        for number, entry, made in differences:
            self.say(f"entry {number}: {entry}\n  instead: {made!r}")
        self.say(f"{len(journal)} entries, {len(differences)} answers differ; the pair is as they left it")

    def do_undo(self, _line):
        """undo                takes the last command back that changed the pair: the pair is made of its image from before"""
        if not self.before:
            raise Wrong("nothing to take back")
        pair = Pair.restore(*self.pair.limits, self.before.pop())
        self.do_record("off")
        self.pair.free()
        self.use(pair)
        self.do_show("")

    def do_tour(self, line):
        """tour [off]          STREAMS in ten steps: each tells what to look at, and makes the next command"""
        if line == "off" or self.step == len(TOUR):
            self.step = 0
            return
        if self.step == 0:
            self.do_new("")
        says, commands = TOUR[self.step]
        self.step += 1
        self.say(f"\n{self.step} of {len(TOUR)}. {says}")
        for command in commands:
            self.say(f"strm> {command}")
            self.postcmd(self.onecmd(command), command)
        self.say("(`tour` goes on; any other command may stand between)" if self.step < len(TOUR) else "(the end; `tour` begins anew)")

    def do_quit(self, _line):
        """quit                ends (so does Ctrl-D)"""
        return True

    def do_help(self, line):
        """help [NAME]         all commands, or one"""
        if line and hasattr(self, f"do_{line}"):
            self.say(getattr(self, f"do_{line}").__doc__)
        elif line:
            self.say(f"no such command: {line}")
        else:
            self.say(type(self).__doc__)
            self.say("\n".join("  " + getattr(self, name).__doc__ for name in sorted(dir(self)) if name.startswith("do_")))


def main():
    """Reads commands till their end. From a file or a pipe each is shown before its answer."""
    prompt = Prompt()
    if not sys.stdin.isatty():
        prompt.use_rawinput, prompt.prompt, prompt.intro = False, "", None
    while True:
        try:
            prompt.cmdloop()
            break
        except KeyboardInterrupt:
            print("^C")
            prompt.intro = None
    if prompt.recorder:
        prompt.recorder.close()
