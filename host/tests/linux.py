"""A program on a pseudoterminal of Linux alone, with the modes that a terminal of the pair has at first: what a bridge is compared with. It has the
methods of strm_host.Bridge that a comparison needs, and is at rest by the same look."""
import errno
import fcntl
import os
import pty
import select
import signal
import struct
import termios
import time

from strm import KEYS, Pair
from strm_host import LOOK_SECONDS, asks, exit_of

IUCLC, ECHOCTL, ECHOKE = 0x200, 0x200, 0x800  # not in the module termios
WORDS = {
    0: ("ISTRIP INLCR IGNCR ICRNL IUCLC IXON IXANY IMAXBEL", {"IUCLC": IUCLC}),
    1: ("OPOST OLCUC ONLCR OCRNL ONOCR ONLRET", {"OLCUC": 2}),
    3: ("ISIG ICANON ECHO ECHOE ECHOK ECHONL NOFLSH TOSTOP ECHOCTL ECHOKE IEXTEN", {"ECHOCTL": ECHOCTL, "ECHOKE": ECHOKE}),
}


def set_modes(fd, modes):
    """Sets the modes of the pair at a terminal of Linux."""
    attributes = termios.tcgetattr(fd)
    for at, (names, numbers) in WORDS.items():
        attributes[at] = sum(numbers.get(name) or getattr(termios, name) for name in names.split() if modes[name])
    for name in KEYS:
        place = getattr(termios, name, None)
        if place is not None:
            attributes[6][place] = bytes([modes[name]])
    termios.tcsetattr(fd, termios.TCSANOW, attributes)


class Linux:
    """A program on a terminal of Linux."""

    def __init__(self, words, rows=24, columns=80, environment=None):
        self.shown, self.silent, self.status = b"", False, None
        self.master, self.slave = pty.openpty()
        with Pair.terminal() as pair:
            set_modes(self.slave, pair.tcgetattr())
        self._sized(rows, columns)
        self.pid = os.fork()
        if self.pid == 0:
            self._becomes(words, environment)
        os.set_blocking(self.master, False)

    def _becomes(self, words, environment):
        try:
            for number in signal.valid_signals() - {signal.SIGKILL, signal.SIGSTOP}:
                signal.signal(number, signal.SIG_DFL)
            signal.pthread_sigmask(signal.SIG_SETMASK, [])
            os.setsid()
            fcntl.ioctl(self.slave, termios.TIOCSCTTY, 0)
            for fd in (0, 1, 2):
                os.dup2(self.slave, fd)
            os.closerange(3, 256)
            os.execvpe(words[0], words, {**os.environ, **(environment or {})})
        finally:
            os._exit(127)

    def _sized(self, rows, columns):
        fcntl.ioctl(self.master, termios.TIOCSWINSZ, struct.pack("4H", rows, columns, 0, 0))

    @property
    def ended(self):
        return self.status is not None and self.silent

    def pump(self):
        """Takes what is shown: whether something was."""
        self._looks()
        try:
            data = os.read(self.master, 65536)
        except BlockingIOError:
            return False
        except OSError as failure:
            if failure.errno != errno.EIO:
                raise
            self.silent = True
            return False
        self.shown += data
        return bool(data)

    def _looks(self):
        if self.status is None:
            child, status = os.waitpid(self.pid, os.WNOHANG)
            if child:
                self.status = exit_of(status)
                os.close(self.slave)

    def waits(self):
        """Whether the program waits, or has ended."""
        if self.ended:
            return True
        if self.status is not None or select.select([self.master], [], [], 0)[0]:
            return False
        select.select([self.slave], [], [], 0)  # the kernel hands on what is on its way
        return asks(self.master) and not select.select([self.master], [], [], 0)[0]

    def step(self, seconds=20.0, looks_at=True):
        end, looks = time.monotonic() + seconds, 0
        while not self.pump():
            left = end - time.monotonic()
            if left <= 0 or (self.waits() if looks_at else self.ended):
                return False
            select.select([self.master], [], [], min(left, LOOK_SECONDS[min(looks, len(LOOK_SECONDS) - 1)]))
            looks += 1
        return True

    def type(self, data, seconds=20.0):
        end = time.monotonic() + seconds
        while data and time.monotonic() < end:
            try:
                data = data[os.write(self.master, data) :]
            except BlockingIOError:
                pass
            if not self.pump() and data:
                select.select([self.master], [], [], 0.001)

    def resize(self, rows, columns):
        self._sized(rows, columns)

    def take(self):
        shown, self.shown = self.shown, b""
        return shown

    def close(self):
        os.close(self.master)
        if self.status is None:
            os.close(self.slave)
            os.kill(self.pid, signal.SIGKILL)
            os.waitpid(self.pid, 0)
