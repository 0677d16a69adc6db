"""Calls by an end of strm_threads: those of strm.Pair, without a side, and those that sleep."""
import ctypes

from strm import _answer, _given
from strm_threads_library import done
from strm_words import *


class Calls:
    """Calls return at once, and are refused with EAGAIN where they would have to wait. Those that wait say so: `timeout` is how many seconds each of
    their sleeps lasts at most, and EAGAIN that it is over."""

    def call(self, op, a=0, b=0, c=0, data=b""):
        """Makes any call as the end's side, as strm.Pair.call does, and gives its Answer, "stopped" and "nak" too."""
        at = ctypes.addressof
        with self._use:
            if self._room is None:
                self._room = ctypes.create_string_buffer(ANSWER_MOST)
            ask, reply, room = self._ask, self._reply, self._room
            ask.op, ask.a, ask.b, ask.c = OP[op], a, b, c
            done(self._library.end_call(self._address, at(ask), data, len(data), at(room), ANSWER_MOST, at(reply)), op)
            return _answer(reply, room[: reply.bytes])

    def _told(self, op, *numbers, **named):
        told = self.call(op, *numbers, **named)
        if told.kind == "stopped":
            raise Stopped(told.value, op)
        return told

    def unlock(self):
        """unlockpt(3C), by an end of the master."""
        self.call("unlock")

    def close(self):
        """close(2) of the side, for all of its ends, at once: what stands in its modules is gone."""
        self.call("close")

    def push(self, module):
        """I_PUSH of "ldterm", "ptem" or "pckt". EINVAL: another name, or one that stands there."""
        self.call("push", MODULES.index(module) if module in MODULES[1:] else 0)

    def pop(self):
        """I_POP."""
        self.call("pop")

    def look(self):
        """I_LOOK: the name of the top module. EINVAL: there is none."""
        return MODULES[self.call("look").value]

    def flush(self, read=True, write=True, band=ANY):
        """I_FLUSH, or I_FLUSHBAND of a band."""
        self.call("flush", bool(read) + 2 * bool(write), band)

    def srdopt(self, mode):
        """I_SRDOPT: one of MODES. EINVAL: another name."""
        self.call("mode", MODES.index(mode) if mode in MODES else len(MODES))

    def nread(self):
        """I_NREAD: how many messages stand at the head, and how many bytes of data the first one has."""
        told = self.call("nread")
        return told.value, told.size

    def signals(self):
        """The signals that came up since they were last asked for, each once, in order."""
        return [signal_of(number) for number in self.call("signals").bytes]

    def put(self, prio=0, control=None, data=None):
        """putpmsg(2) in a band or HIGH: at most 64 bytes of control, 256 of data; a part that is None is absent."""
        parts = (control is not None) + 2 * (data is not None)
        split = len(control) if parts == 3 else 0
        self._told("put", prio, parts, split, data=(control or b"") + (data or b""))

    def get(self, wanted=ANY, control=READ_MOST, data=READ_MOST):
        """getpmsg(2): the first message, or its front, where it is wanted: any, HIGH, or of at least a band. The sizes are the most bytes."""
        told = self._told("get", wanted, min(control, READ_MOST), min(data, READ_MOST))
        split = told.size if told.parts == 3 else len(told.bytes) if told.parts == 1 else 0
        first = told.bytes[:split] if told.parts & 1 else None
        second = told.bytes[split:] if told.parts & 2 else None
        return Message(told.prio, first, second, told.more_control, told.more_data)

    # ------------------------------------------------------------------------------------------------------------- write and read

    def write(self, data):
        """write(2) of at most the first 1024 bytes: how many were taken. EAGAIN: flow control takes none."""
        return self._told("write", data=bytes(memoryview(data).cast("B")[:WRITE_MOST])).value

    def read(self, most=READ_MOST):
        """read(2) of at most so many bytes, and 4096. b"" is the end of input: a hang-up, or an EOF key. EAGAIN: nothing stands there."""
        return self._told("read", most).bytes

    def read_into(self, room):
        """read(2) into a bytearray or another buffer that can be written to: how many bytes came. No copy of them is kept here."""
        part, at = (ctypes.c_char * len(room)).from_buffer(room), ctypes.addressof
        with self._use:
            ask, reply = self._ask, self._reply
            ask.op, ask.a, ask.b, ask.c = OP["read"], min(len(room), READ_MOST), 0, 0
            done(self._library.end_call(self._address, at(ask), None, 0, at(part), len(room), at(reply)), "read")
            if reply.kind == STOPPED:
                raise Stopped(reply.value, "read")
            return reply.bytes

    def _reads(self, call, argument, nothing):
        ready = Ready.CAN_READ
        while True:
            try:
                return call(argument)
            except Refused as refusal:
                if not refusal.would_wait:
                    raise
            if not ready & Ready.CAN_READ:
                return nothing  # hung up, and nothing is to come
            ready = self.wait(Ready.CAN_READ, self.timeout)

    def read_wait(self, most=READ_MOST):
        """read(2) that sleeps until a byte, the end of input or a message that no read gives is there."""
        return self._reads(self.read, most, b"")

    def read_into_wait(self, room):
        """The same into a buffer: how many bytes came."""
        return self._reads(self.read_into, room, 0)

    def write_all(self, data):
        """write(2) of all of the bytes, which sleeps where there is no room: how many were taken, which are fewer where the time is over behind
        some."""
        data, taken = memoryview(data).cast("B"), 0
        while taken < len(data):
            try:
                taken += self.write(data[taken : taken + WRITE_MOST])
            except Refused as refusal:
                if refusal.name not in ("EAGAIN", "ENOSR"):
                    raise
                try:
                    self.wait(Ready.CAN_WRITE, self.timeout)
                except Refused as over:
                    if over.would_wait and taken:
                        return taken
                    raise
        return taken

    # ------------------------------------------------------------------------------------------------------------- ioctl

    def ioctl(self, command, body=b""):
        """I_STR, which sleeps until it is answered, as workers make the turns: the bytes of its answer. `command` is a name of COMMANDS or a number.
        An ioctl of another end of the side is waited for first. Nak: it was answered so. EAGAIN: the time is over, and its answer is nobody's.
        ENXIO: the side was closed meanwhile."""
        number = COMMANDS.get(command, command)
        if not isinstance(number, int):
            raise Refused(EINVAL, "ioctl")
        return self._asks(number, body, False)

    def ioctl_result(self, number):
        """The bytes that answer the ioctl of a number, given once. EAGAIN: it isn't answered."""
        return _given(self.call("ioctl_result", number), "ioctl")

    def _asks(self, command, body, turns):
        shared, side = self._shared, self.side
        with shared.ioctl:
            if not shared.ioctl.wait_for(lambda: side not in shared.asks, self.timeout):
                raise Refused(EAGAIN, "ioctl")
            shared.asks.add(side)
        try:
            if side in shared.unanswered:
                self._answered(side, turns)
            told = self._told("ioctl", command, data=bytes(body))
            if told.kind == "pending":
                shared.unanswered[side] = told.value
                told = self._answered(side, turns)
            return _given(told, "ioctl")
        finally:
            with shared.ioctl:
                shared.asks.discard(side)
                shared.ioctl.notify_all()

    def _answered(self, side, turns):
        """Sleeps until the ioctl of a side that is under way is answered: its Answer. It stays unanswered where the time is over."""
        unanswered = self._shared.unanswered
        while True:
            if turns:
                self._runs()
            try:
                told = self.call("ioctl_result", unanswered[side])
                del unanswered[side]
                return told
            except Refused as refusal:
                if not refusal.would_wait:
                    del unanswered[side]
                    raise
            if not self.wait(Ready.HAS_ANSWER, self.timeout) & Ready.HAS_ANSWER:
                raise Refused(REFUSALS.index("ENXIO"), "ioctl")  # hung up, and no answer is to come

    def _runs(self):
        """Makes turns, for who closes a side: there may be no worker."""
        try:
            self.run()
        except Refused:
            pass

    def _drains(self, turns):
        # A command that sets modes goes behind the output. It brings none, so it sets none, and is answered with M_IOCNAK.
        try:
            self._asks(COMMANDS["TCSETSW"], b"", turns)
        except Nak:
            pass

    def drain(self):
        """tcdrain(3C): sleeps until all that the slave wrote has left its modules, and the master can read it."""
        self._drains(False)

    def tcgetattr(self):
        """TCGETS. Nak where no ptem stands."""
        return Termios.of_wire(self.ioctl("TCGETS"))

    def tcsetattr(self, termios, when="TCSETS"):
        """TCSETS at once, TCSETSW behind the output, TCSETSF with the input flushed too."""
        self.ioctl(when, termios.wire())

    def get_winsize(self):
        """TIOCGWINSZ."""
        return Winsize.of_wire(self.ioctl("TIOCGWINSZ"))

    def set_winsize(self, rows, columns, width=0, height=0):
        """TIOCSWINSZ: where the size changes, SIGWINCH comes to the slave."""
        self.ioctl("TIOCSWINSZ", Winsize(rows, columns, width, height).wire())

    def tcgetpgrp(self):
        """TIOCGPGRP: the foreground group; 0 where there is none."""
        return int.from_bytes(self.ioctl("TIOCGPGRP"), "big")

    def tcsetpgrp(self, group):
        """TIOCSPGRP: sets the foreground group."""
        self.ioctl("TIOCSPGRP", group.to_bytes(4, "big"))
