"""Sessions of a login server at once: sessions.py LOGIND NAME [SESSIONS [WRAPPER ..]], whose journals go into a new folder that begins with NAME.
Each is a connection of telnet that says its window, types into its shell and sees what it shows; then the journal of each is made again. The status
is 1 where anything isn't as it should be."""
import os
import pathlib
import re
import selectors
import socket
import subprocess
import sys
import tempfile
import time

sys.path.insert(0, str(pathlib.Path(__file__).parents[2] / "python"))

from strm_record import read_journal, replay  # noqa: E402

SECONDS = 240  # in which any session goes on, on a machine with much else to do too
OFFERS = bytes([255, 251, 1, 255, 251, 3, 255, 253, 31])


class Session:
    """A connection, and how far it has come: (what is waited for, what is typed then)."""

    def __init__(self, number, port):
        self.number, self.seen, self.at = number, b"", 0
        rows = 20 + number % 7
        window = bytes([255, 251, 31, 255, 250, 31, 0, 99, 0, rows, 255, 240])
        self.steps = [
            (re.escape(OFFERS) + rb".*[#$] ", window + b"PS1=; PS2=; echo $((%d*6)) \xff\xff\r\0" % number),
            (rb"\r\n%d \xff\xff\r\n" % (6 * number), b"stty size\r\n"),
            (rb"\r\n%d 99\r\n" % rows, b"cat\r\0a lin\x7fne %d\r\0" % number),
            (rb"a line %d\r\n" % number, b"\x04seq 500; stty -echo\r\0"),
            (rb"\r\n499\r\n500\r\n", b"echo unseen | tr a-z A-Z\r\0"),
            (rb"UNSEEN\r\n", b"exit\r\0"),
        ]
        self.socket = socket.create_connection(("127.0.0.1", port))
        self.socket.setblocking(False)

    def goes_on(self):
        """Reads and types. True: it has ended; None: there was nothing to read."""
        try:
            data = self.socket.recv(65536)
        except BlockingIOError:
            return None
        except ConnectionError:
            data = b""
        self.seen += data
        while self.at < len(self.steps) and (told := re.search(self.steps[self.at][0], self.seen, re.S)):
            self.seen = self.seen[told.end() :]
            self.socket.send(self.steps[self.at][1])
            self.at += 1
        return not data

    @property
    def is_whole(self):
        return self.at == len(self.steps) and b"unseen" not in self.seen


def free_port():
    with socket.socket() as probe:
        probe.bind(("127.0.0.1", 0))
        return probe.getsockname()[1]


def connects(port, server):
    """Whether a server takes a session, which ends at once."""
    for _ in range(600):
        try:
            socket.create_connection(("127.0.0.1", port)).close()
            return server.poll() is None
        except ConnectionRefusedError:
            if server.poll() is not None:
                break
            time.sleep(0.1)
    return None


def listening(program, words):
    """A server, and its port, to which another one may have come first."""
    for _ in range(5):
        port = free_port()
        server = subprocess.Popen([*program, str(port), *words])
        if connects(port, server):
            return port, server
        server.kill()
        server.wait()
    raise SystemExit("the server doesn't listen")


def main():
    logind, folder, number = sys.argv[1], tempfile.mkdtemp(prefix=sys.argv[2]), int(sys.argv[3]) if len(sys.argv) > 3 else 100
    port, server = listening([*sys.argv[4:], logind], [folder, "sh", "-i"])
    began, failed = time.monotonic(), 0
    sessions = [Session(k, port) for k in range(1, number + 1)]
    with selectors.DefaultSelector() as waits:
        for session in sessions:
            waits.register(session.socket, selectors.EVENT_READ, session)
        moved = began
        while waits.get_map() and time.monotonic() - moved < SECONDS:
            for key, _ in waits.select(1):
                ended = key.data.goes_on()
                moved = moved if ended is None else time.monotonic()
                if ended:
                    waits.unregister(key.fileobj)
    for session in sessions:
        if not session.is_whole:
            failed += 1
            print(f"session {session.number} came to step {session.at} and has seen {session.seen[-300:]!r}")
    seconds = time.monotonic() - began
    server.terminate()
    try:
        status = server.wait(SECONDS)
    except subprocess.TimeoutExpired:
        server.kill()
        status = "no answer to SIGTERM"
    journals = sorted(pathlib.Path(folder).iterdir())
    differ = [path.name for path in journals if replay(read_journal(path))]
    entries = sum(len(read_journal(path)) for path in journals)
    print(f"{number} sessions at once, {number - failed} of them whole, in {seconds:.1f} s; the server ended with {status}")
    print(f"{len(journals)} journals of {entries} entries made again, {len(differ)} of them with other answers {' '.join(differ)}")
    sys.exit(bool(failed or differ or status or len(journals) < number))


if __name__ == "__main__":
    os.environ.pop("ENV", None)
    main()
