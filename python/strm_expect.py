"""Expect, by the names of pexpect and without waits for a time: a program is driven through a terminal, and what it shows is matched.

    def greet(terminal):                            # any function: it is handed the slave's end, a raw file
        terminal.write(b"name? ")
        name = terminal.read().rstrip()             # a line, as ldterm edited it
        terminal.write(b"hello " + name + b"\\n")

    child = spawn(greet)
    child.expect("name\\\\? ")
    child.sendline("Annn\\x7fa")                      # a DEL key erases
    child.expect(["hello (\\\\w+)", EOF])              # 0
    child.match[1]                                  # b"Anna"
    child.expect(EOF)

A function runs whenever the test asks for something, and stops where it reads what isn't there; when it waits, and no queue of the pair is enabled,
nothing more can come, and `expect` raises AtRest at once, with all that was shown. So a wrong prompt fails in milliseconds, and a slow machine
fails nothing. One that makes no call for `timeout` seconds is broken off.

    child = spawn("bash --norc")                    # a program of the system, on a pair (strm_host)
    child.expect(r"\\$ ", timeout=5)

Of it the same is told where a process of its foreground asks the terminal for input without a time-out; what it shows is matched till then, or for
`timeout` seconds, 30 where none is said (None: without a limit). With `child.rests = False` the time alone tells, as a relay (ssh, tmux,
script) asks for keys while another program is at work. TIMEOUT is another name of AtRest.

`spawn` takes a function; a command, or a program with a list `args`; a Pair, whose slave the test plays itself; or an object with `type(data)`,
`step(seconds)`, `take()`, `ended` and `pair`, as strm_host.Bridge is.
"""
import codecs
import ctypes
import io
import re
import shlex
import threading
import time

from strm import MASTER, SLAVE, Pair, Refused, Signal
from strm_spawn import EOF, AtRest, Child


TIMEOUT = AtRest


class Signalled(Exception):
    """In a program: a signal came up that isn't INT (KeyboardInterrupt) or WINCH (Terminal.resized). `signal` says which one."""

    def __init__(self, number):
        self.signal = number
        super().__init__(getattr(number, "name", str(number)))


class Ended(BaseException):
    """In a program: the test is over."""


class Terminal(io.RawIOBase):
    """The slave's end, as a program has it: a file whose reads and writes wait. Under ICANON a read is one line, and b"" an EOF key."""

    def __init__(self, host):
        super().__init__()
        self.host, self.pair = host, host.pair
        self.resized = lambda rows, columns: None

    def readable(self):
        return True

    def writable(self):
        return True

    def isatty(self):
        return True

    def read(self, size=4096):
        size = 4096 if size is None or size < 0 else size
        return self.host.waits(lambda: self.pair.read(SLAVE, size), self)

    def readinto(self, room):
        data = self.read(len(room))
        room[: len(data)] = data
        return len(data)

    def readline(self, size=-1):
        return self.read(size)

    def write(self, data):
        data, taken = bytes(data), 0
        while taken < len(data):
            taken += self.host.waits(lambda: self._writes(data[taken : taken + 2048]), self)
        return len(data)

    def _writes(self, part):
        """A pool with few blocks takes a block's bytes, where it takes no more."""
        try:
            return self.pair.write(SLAVE, part)
        except Refused as refusal:
            if refusal.name != "ENOSR" or len(part) <= 256:
                raise
            return self.pair.write(SLAVE, part[:256])

    def raises(self):
        """Raises what the signals that came up mean."""
        for number in self.pair.signals(SLAVE):
            if number is Signal.WINCH:
                window = self.pair.get_winsize(SLAVE)
                self.resized(window.rows, window.columns)
            elif number is Signal.INT:
                raise KeyboardInterrupt
            else:
                raise Signalled(number)


class Hosted:
    """A function of this process on a pair's slave, in a thread of its own that runs only while the test waits for it."""

    def __init__(self, program, pair):
        self.pair, self.shown, self.ended, self.failure, self.status = pair, b"", False, None, None
        self.calls, self.over = 0, False
        self.may_run, self.has_run = threading.Semaphore(0), threading.Semaphore(0)
        self.thread = threading.Thread(target=self._runs, args=(program,), daemon=True)
        self.thread.start()

    def _runs(self, program):
        self.may_run.acquire()
        try:
            self.status = None if self.over else program(Terminal(self)) or 0
        except SystemExit as left:
            self.status = left.code or 0
        except Ended:
            pass
        except BaseException as failure:
            self.failure, self.status = failure, 1
        self.calls += 1
        if not self.over:
            self._closes()
        self.ended = True
        self.has_run.release()

    def _closes(self):
        """A close takes what stands in ldterm, so it comes when all was shown."""
        try:
            while self._turns() or self.pair.sizes("s.ldterm.w").messages:
                self._lets_run()
            self.pair.close(SLAVE)
        except (Refused, Ended):
            pass  # the program closed it, or the test did

    def _lets_run(self):
        """In the program's thread: the test goes on till it wants more."""
        self.has_run.release()
        self.may_run.acquire()
        if self.over:
            raise Ended

    def waits(self, call, terminal):
        """In the program's thread: makes a call again until it isn't EAGAIN, and lets the test run in between."""
        while True:
            terminal.raises()
            try:
                made = call()
                self.calls += 1
                return made
            except Refused as refusal:
                if not refusal.would_wait:
                    raise
            self._lets_run()

    def resume(self, seconds=30):
        """In the test's thread: lets the program run till it waits or ends. Whether it made a call. AtRest: it made none for so long, and was
        broken off; None is without a limit."""
        before = self.calls
        if not self.ended:
            self.may_run.release()
            if not self.has_run.acquire(timeout=-1 if seconds is None else max(seconds, 1)):
                self._breaks_off(seconds)
        return self.calls != before

    def _breaks_off(self, seconds):
        self.over = self.ended = True
        ctypes.pythonapi.PyThreadState_SetAsyncExc(ctypes.c_ulong(self.thread.ident), ctypes.py_object(Ended))
        self.thread.join(1)
        raise AtRest(f"the program has made no call for {seconds} s, and was broken off; it had shown: {self.shown!r}")

    def _turns(self):
        """Turns, whether some were made. Where the pool has no room for one, reads make it."""
        try:
            return self.pair.runqueues() > 0
        except Refused as refusal:
            if refusal.name != "ENOSR":
                raise
            return False

    def step(self, seconds=30, looks_at=True):
        """Turns, what is shown, and the program for a while. False: at rest."""
        moved = self._turns()
        moved = self._sees() or moved
        moved = self.resume(seconds) or moved
        failure, self.failure = self.failure, None
        if failure:
            raise failure
        return moved

    def _sees(self):
        shown = self.pair.take(MASTER)
        self.shown += shown
        return bool(shown)

    def type(self, data):
        """Writes keys to the master. AtRest: the program doesn't read them."""
        while data:
            try:
                data = data[self.pair.write(MASTER, data) :]
            except Refused as refusal:
                if not refusal.would_wait or not self.step():
                    raise AtRest(f"nobody reads, and these keys weren't taken: {data!r}") from None

    def take(self):
        shown, self.shown = self.shown, b""
        return shown

    def close(self):
        if not self.over:
            self.over = True
            self.resume()


class Played(Hosted):
    """A pair whose slave the test itself plays."""

    def __init__(self, pair):
        self.pair, self.shown, self.ended, self.failure, self.status = pair, b"", False, None, None

    def resume(self, seconds=None):
        return False

    def _sees(self):
        # No message stands there, and a read gives no bytes: the slave was closed.
        while True:
            empty = self.pair.sizes("m.head.r").messages == 0
            try:
                data = self.pair.read(MASTER)
            except Refused as refusal:
                if refusal.name != "EAGAIN":
                    raise
                return bool(self.shown)
            self.ended = self.ended or (empty and not data)
            if self.ended:
                return bool(self.shown)
            self.shown += data

    def step(self, seconds=None, looks_at=True):
        seen = len(self.shown)
        moved = self._turns()
        self._sees()
        return moved or len(self.shown) != seen

    def close(self):
        pass


class spawn(Child):
    """A program on a terminal. before, after and match are those of the last `expect`; `encoding` makes all of them text.

    logfile, logfile_read and logfile_send are files that see what goes both ways, comes, or is sent. `env` is laid over this process's
    environment, `cwd` is the folder, of programs of the system; `dimensions` are rows and columns; with echo=False the terminal begins so."""

    linesep = "\r"

    def __init__(self, program, args=(), timeout=30, pair=None, encoding=None, codec_errors="strict", rows=24, columns=80, dimensions=None, **named):
        self.encoding, self.codec_errors, self.timeout, self.rests = encoding, codec_errors, timeout, True
        self.decoder = codecs.getincrementaldecoder(encoding)(codec_errors) if encoding else None
        self.empty = "" if encoding else b""
        self.buffer, self.before, self.after, self.match, self.match_index = self.empty, self.empty, None, None, None
        self.logfile, self.logfile_read, self.logfile_send = named.pop("logfile", None), None, None
        if isinstance(args, Pair):
            args, pair = (), args
        self.session = self._session(program, args, pair, *(dimensions or (rows, columns)), **named)
        self.pair = self.session.pair

    def _session(self, program, args, pair, rows, columns, echo=True, env=None, cwd=None, **_):
        """What plays the program."""
        if isinstance(program, Pair):
            return Played(program)
        if hasattr(program, "step"):
            return program
        if isinstance(program, str):
            from strm_host import Bridge, terminal

            words = [program, *args] if args else shlex.split(program)
            pair = self._quiet(pair or terminal(), echo)
            return Bridge(["env", "-C", cwd, *words] if cwd else words, rows, columns, env, pair)
        pair = self._quiet(pair or Pair.terminal(), echo)
        pair.set_winsize(rows, columns)
        pair.signals(SLAVE)
        return Hosted(program, pair)

    @staticmethod
    def _quiet(pair, echo):
        """The pair, without echo where that isn't wanted."""
        if not echo:
            modes = pair.tcgetattr(SLAVE)
            modes["ECHO"] = False
            pair.tcsetattr(modes, SLAVE)
        return pair

    def __enter__(self):
        return self

    def __exit__(self, *_):
        self.close()

    # ------------------------------------------------------------------------------------------------------------- what is typed

    def send(self, keys):
        """Types keys: how many bytes they are."""
        if isinstance(keys, str):
            keys = keys.encode(self.encoding or "utf-8", self.codec_errors)
        self._logs(keys.decode(self.encoding, "replace") if self.encoding else keys, self.logfile, self.logfile_send)
        try:
            self.session.type(keys)
        except TimeoutError as told:
            raise AtRest(str(told)) from None
        return len(keys)

    write = send

    def writelines(self, lines):
        for line in lines:
            self.send(line)

    def sendline(self, line=""):
        """Types a line and the RETURN key."""
        end = self.linesep.encode() if isinstance(line, bytes) else self.linesep
        return self.send(line + end)

    def sendcontrol(self, key):
        """Types a key with CTRL: a letter, or one of @ [ \\ ] ^ _ ?"""
        return self.send(bytes([ord(key.upper()) ^ 0x40]))

    def _key(self, name, usual):
        try:
            return bytes([self._modes()[name]])
        except Refused:
            return usual

    def sendeof(self):
        """Types the EOF key: at a line's beginning it ends the input."""
        return self.send(self._key("VEOF", b"\x04"))

    def sendintr(self):
        """Types the INTR key."""
        return self.send(self._key("VINTR", b"\x03"))

    # ------------------------------------------------------------------------------------------------------------- what is shown

    @staticmethod
    def _logs(data, *files):
        for file in files:
            if file is not None and data:
                file.write(data)

    def _takes(self):
        data = self.session.take()
        if self.decoder:
            data = self.decoder.decode(data, self.session.ended)
        self._logs(data, self.logfile, self.logfile_read)
        self.buffer += data

    def _searches(self, patterns, exact):
        """[(number, how to search)] of patterns, and the numbers of EOF and AtRest."""
        searches, marks = [], {}
        for number, pattern in enumerate(patterns):
            if pattern in (EOF, AtRest):
                marks.setdefault(pattern, number)
                continue
            if isinstance(pattern, str) and not self.encoding:
                pattern = pattern.encode()
            if exact:
                pattern = re.escape(pattern)
            searches.append((number, re.compile(pattern, re.S) if isinstance(pattern, (str, bytes)) else pattern))
        return searches, marks

    def _end(self, timeout):
        """When a time-out is over; -1 stands for the usual one, None for none."""
        timeout = self.timeout if timeout == -1 else timeout
        return None if timeout is None else time.monotonic() + timeout

    @staticmethod
    def _left(end):
        return 1e9 if end is None else max(end - time.monotonic(), 0)

    def expect(self, pattern, timeout=-1, searchwindowsize=None, exact=False):
        """Waits until a pattern (of a list: one of them, its number is given) is shown: a regular expression as text, bytes or compiled, EOF or
        AtRest. Of several the one that begins first is meant. EOF, AtRest: raised where these come first and aren't in the list."""
        patterns = pattern if isinstance(pattern, (list, tuple)) else [pattern]
        searches, marks = self._searches(patterns, exact)
        end, has_rested = self._end(timeout), False
        has_limit = getattr(self.session, "has_limit", False)
        while True:
            self._takes()
            found = [(told.start(), number, told) for number, search in searches if (told := search.search(self.buffer))]
            if found:
                _, number, told = min(found, key=lambda each: each[:2])
                return self._matched(number, told)
            if has_rested:
                return self._ends(EOF if self.session.ended else AtRest, marks, patterns)
            left = self._left(end)
            if has_limit and not left:
                has_rested = True
            elif has_limit:
                has_rested = not self.session.step(left, self.rests)
            else:
                has_rested = not self.session.step(self.timeout if timeout == -1 else timeout)

    def expect_exact(self, pattern, timeout=-1, searchwindowsize=None):
        """The same by texts that aren't regular expressions. `match` is what was shown."""
        number = self.expect(pattern, timeout, exact=True)
        self.match = self.after
        return number

    def expect_list(self, patterns, timeout=-1, searchwindowsize=None):
        return self.expect(patterns, timeout)

    def _matched(self, number, told):
        self.before, self.after = self.buffer[: told.start()], told[0]
        self.match, self.match_index, self.buffer = told, number, self.buffer[told.end() :]
        return number

    def _ends(self, kind, marks, patterns):
        self.before, self.after = self.buffer, kind
        if kind not in marks:
            self.match = self.match_index = None
            raise kind(f"{patterns!r} wasn't shown; this was: {self.buffer!r}")
        self.match, self.match_index = kind, marks[kind]
        if kind is EOF:
            self.buffer = self.empty
        return self.match_index
