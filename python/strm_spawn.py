"""What strm_expect.spawn has beside expect, by pexpect's names: reading, the terminal, signals, and the program's end."""
import os
import re
import signal
import sys
import termios
import time
import tty

from strm import MASTER, SLAVE, Refused
from strm_host import readable

# System V's numbers, where the host has others.
OF_HOST = {int(signal.SIGWINCH): 20, int(signal.SIGTSTP): 24, int(signal.SIGTTIN): 26, int(signal.SIGTTOU): 27}


class AtRest(Exception):
    """Nothing more is shown until somebody types: what was expected can't come. Or the time-out of a program of the system is over."""


class EOF(Exception):
    """The program has ended, and all that it showed was seen."""


class Child:
    """A program at work: `session` is one of strm_host.Bridge, strm_expect.Hosted and strm_expect.Played."""

    delayafterterminate = 0.1

    # ------------------------------------------------------------------------------------------------------------- what is shown

    def read(self, size=-1):
        """At most so many bytes or characters; without a size all up to the program's end."""
        if size == 0:
            return self.empty
        self.expect([re.compile((r".{%d}" % size) if self.encoding else b".{%d}" % size, re.S), EOF] if size > 0 else EOF)
        return self.after if size > 0 and self.after is not EOF else self.before

    def read_nonblocking(self, size=1, timeout=-1):
        """What is shown next, at most so many bytes or characters. AtRest, EOF: nothing is."""
        self.expect([re.compile((r".{1,%d}" % size) if self.encoding else b".{1,%d}" % size, re.S)], timeout)
        return self.after

    def readline(self, size=-1):
        """A line as the terminal shows it, with CR and LF; what is left at the program's end."""
        if size == 0:
            return self.empty
        return self.before + self.after if self.expect(["\r\n", EOF]) == 0 else self.before

    def readlines(self, sizehint=-1):
        """All lines up to the program's end."""
        return list(iter(self.readline, self.empty))

    def __iter__(self):
        return iter(self.readline, self.empty)

    def eof(self):
        """Whether the program's end was met by an expect or a read."""
        return self.after is EOF

    # ------------------------------------------------------------------------------------------------------------- the end

    @property
    def pid(self):
        """The process; None of a function."""
        return getattr(self.session, "pid", None)

    def fileno(self):
        """For select: readable where something is to be done. Of programs of the system alone."""
        return self.session.fileno()

    def isalive(self):
        if not self.session.ended and self.pid is not None:
            self.session.pump()
            self._takes()
        return not self.session.ended

    @property
    def exitstatus(self):
        """What the function gave, 0 for None, or the program's exit status; None while it runs, and where a signal ended it."""
        status = self.session.status if self.session.ended else None
        return None if self.pid is not None and status is not None and status < 0 else status

    @property
    def signalstatus(self):
        """The signal that ended a program of the system, else None."""
        status = self.session.status if self.session.ended and self.pid is not None else None
        return -status if status is not None and status < 0 else None

    def wait(self):
        """Waits for the program's end: its exit status."""
        self.expect(EOF, timeout=None)
        return self.exitstatus

    def kill(self, sig):
        """Sends a signal to the process. A function, and who plays the slave, has it come up there."""
        if self.pid is not None:
            os.kill(self.pid, sig)
        else:
            self.pair.ioctl(MASTER, "TIOCSIGNAL", bytes([OF_HOST.get(int(sig), int(sig))]))

    def terminate(self, force=False):
        """Ends a program by SIGHUP, SIGCONT and SIGINT, and with `force` by SIGKILL: whether it has ended. A function is broken off."""
        if self.pid is None:
            self.session.close()
            return True
        for number in (signal.SIGHUP, signal.SIGCONT, signal.SIGINT) + (signal.SIGKILL,) * force:
            if not self.isalive():
                return True
            self.kill(number)
            end = time.monotonic() + self.delayafterterminate
            while self.isalive() and time.monotonic() < end:
                self.session.step(0.01)
        return not self.isalive()

    def close(self, force=True):
        """Ends the program: what it waits for raises there, and one of the system is hung up."""
        self.session.close()

    # ------------------------------------------------------------------------------------------------------------- the terminal

    def isatty(self):
        return True

    def setwinsize(self, rows, columns):
        resize = getattr(self.session, "resize", None)
        resize(rows, columns) if resize else self.pair.set_winsize(rows, columns)

    def getwinsize(self):
        return tuple(self.pair.get_winsize(SLAVE))[:2]

    def _modes(self):
        return self.session.tcgetattr() if hasattr(self.session, "tcgetattr") else self.pair.tcgetattr(SLAVE)

    def getecho(self):
        return self._modes()["ECHO"]

    def setecho(self, state):
        modes = self._modes()
        modes["ECHO"] = state
        self.session.tcsetattr(modes) if hasattr(self.session, "tcsetattr") else self.pair.tcsetattr(modes, SLAVE)

    def waitnoecho(self, timeout=-1):
        """Waits till echo is off, as where a password is asked for: whether it is."""
        end = self._end(timeout)
        while self.getecho():
            more = self.session.step(self._left(end))
            self._takes()
            if not more:
                return not self.getecho()
        return True

    # ------------------------------------------------------------------------------------------------------------- by hand

    def interact(self, escape_character=chr(29), input_filter=None, output_filter=None):
        """Between the terminal of this process and the program, until that ends or the escape character (^]) is typed. Filters are handed bytes."""
        leaves = escape_character.encode() if isinstance(escape_character, str) else escape_character
        typed, shows = sys.stdin.fileno(), sys.stdout.fileno()
        before = termios.tcgetattr(typed) if os.isatty(typed) else None
        if before:
            tty.setraw(typed)
        try:
            self._shows(shows, output_filter)
            while not self.session.ended and self._passes(typed, leaves, input_filter):
                self._shows(shows, output_filter)
            self._shows(shows, output_filter)
        finally:
            if before:
                termios.tcsetattr(typed, termios.TCSAFLUSH, before)

    def _shows(self, fd, filters):
        while self.session.step(0):
            pass
        self._takes()
        data, self.buffer = self.buffer, self.empty
        data = data.encode(self.encoding, self.codec_errors) if self.encoding else data
        data = filters(data) if filters else data
        while data:
            data = data[os.write(fd, data) :]

    def _passes(self, typed, leaves, filters):
        """What is typed goes to the program. Whether it goes on."""
        own = [self.session.fileno()] if hasattr(self.session, "fileno") else []
        if typed not in readable([typed, *own], 0.05):
            return True
        data = os.read(typed, 1024)
        data = filters(data) if filters else data
        front, left, _ = data.partition(leaves) if leaves else (data, b"", b"")
        if front:
            self._logs(front.decode(self.encoding, "replace") if self.encoding else front, self.logfile, self.logfile_send)
            self.session.type(front)
        return bool(data) and not left


__all__ = ["AtRest", "Child", "EOF", "Refused"]
