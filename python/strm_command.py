"""The command strm: scripts, recordings and pages of pairs, and a prompt.

    strm                            a prompt that draws the streams (`tour` shows them in ten steps, `undo` takes a command back)
    strm run FILE                   the answers of a script of calls (strm_script(5))
    strm record -o FILE -- CMD ..   runs a program on a pair, in this terminal, and keeps its journal (--cast: an asciicast too)
    strm replay FILE                makes a journal again on a new pair, and says which answers differ
    strm page FILE -o PAGE          a journal, or a script, as one file of HTML
    strm serve --port N -- CMD ..   a login server on this machine: a program on a pair for each connection (telnet 127.0.0.1 N)

`strm COMMAND --help` says more. Status 0; 1 where an answer differs or a line is malformed; 2 where the words are off; record's is the program's.
"""
import argparse
import os
import selectors
import signal
import socket
import sys
import threading

import strm_page
import strm_prompt
import strm_script
from strm import Pair, Refused
from strm_library import Library
from strm_record import AsciicastWriter, JournalWriter, Recorder, read_journal, replay

BLOCKS = 4096
SHELL = [os.environ.get("SHELL", "/bin/sh")]
IAC, WILL, DO, SB, SE, ECHO, GO_AHEAD, NAWS = 255, 251, 253, 250, 240, 1, 3, 31


def parser_of(name, what, example, **words):
    return argparse.ArgumentParser(prog=f"strm {name}", description=what, epilog=f"example: {example}", **words)


def do_prompt(words):
    parser_of("prompt", "A prompt that draws the streams.", "strm").parse_args(words)
    strm_prompt.main()
    return 0


def do_run(words):
    parser = parser_of("run", "The answers of a script of calls; - is standard input.", "strm run hello.script")
    parser.add_argument("file")
    return strm_script.main([parser.parse_args(words).file])


def do_replay(words):
    parser = parser_of("replay", "Makes a journal again on a new pair, and says which answers differ.", "strm replay bug.jsonl")
    parser.add_argument("file")
    journal = read_journal(parser.parse_args(words).file)
    differences = replay(journal)
    for number, entry, made in differences:
        print(f"entry {number}: {entry}\n  instead: {made!r}")
    print(f"{len(journal)} entries, {len(differences)} answers differ")
    return 1 if differences else 0


def split_at_dashes(words):
    """What stands before `--` and behind it."""
    at = words.index("--") if "--" in words else len(words)
    return words[:at], words[at + 1 :]


def carry(bridge, gives, takes, recorder=None):
    """Carries bytes between a program and its user till the program has ended. `gives` is a file number, `takes` is called with what is shown."""
    with selectors.DefaultSelector() as ready:
        ready.register(bridge.fileno(), selectors.EVENT_READ)
        ready.register(gives, selectors.EVENT_READ)
        while not bridge.ended:
            for key, _ in ready.select(0.5):
                if key.fileobj == gives:
                    typed = os.read(gives, 1024)
                    if not typed:
                        bridge.kill(signal.SIGHUP)
                        return
                    bridge.type(typed)
            while bridge.pump():
                pass
            shown, bridge.shown = bridge.shown, b""
            if shown:
                takes(shown)
            if recorder:
                recorder.drain()


def window_of(number):
    try:
        size = os.get_terminal_size(number)
        return {"rows": size.lines, "columns": size.columns}
    except OSError:
        return {}


def do_record(words):
    import termios
    import tty

    from strm_host import Bridge

    parser = parser_of("record", "Runs a program on a pair, in this terminal, and keeps its journal.", "strm record -o bug.jsonl -- bash")
    parser.add_argument("-o", "--output", default="session.jsonl")
    parser.add_argument("--cast", help="an asciicast of what is shown, too")
    words, command = split_at_dashes(words)
    asked, command = parser.parse_args(words), command or SHELL
    pair = Pair.terminal(BLOCKS)
    writers = [JournalWriter(asked.output, title=" ".join(command))] + ([AsciicastWriter(asked.cast)] if asked.cast else [])
    recorder, modes = Recorder(pair, writers), None
    try:
        with Bridge(command, pair=pair, **window_of(0)) as bridge:
            if os.isatty(0):
                modes = termios.tcgetattr(0)
                tty.setraw(0)
            carry(bridge, 0, lambda shown: os.write(1, shown), recorder)
            status = bridge.status
    finally:
        if modes:
            termios.tcsetattr(0, termios.TCSADRAIN, modes)
        recorder.close()
    print(f"{asked.output}: the journal; `strm page {asked.output}` shows it", file=sys.stderr)
    return status if status is None or status >= 0 else 128 - status


def journal_of_script(path):
    """The journal of a script's calls and turns."""
    session = strm_script.Session()
    with open(path, "rb") as file:
        answers = list(strm_script.run(file, session))
    if session.pair is None:
        sys.exit(f"strm page: {path} opens no pair: {answers[-1][2] if answers else 'it is empty'}")
    journal = strm_page.Journal((0, entry) for entry in strm_page.entries_of(session.pair))
    journal.header = {"blocks": session.pair.limits.blocks, "title": os.path.basename(path)}
    return journal


def do_page(words):
    return strm_page.main(words, journal_of_script)


class Telnet:
    """What a telnet client says: its keys, and the size of its window."""

    hello = bytes([IAC, WILL, ECHO, IAC, WILL, GO_AHEAD, IAC, DO, NAWS])

    def __init__(self):
        self.rest, self.window = b"", None

    def keys(self, data):
        data, out, at = self.rest + data, bytearray(), 0
        while at < len(data):
            if data[at] != IAC:
                out.append(data[at])
                # (a client ends a line by CR LF or CR NUL)
                at += 2 if data[at] == 13 and data[at + 1 : at + 2] in (b"\n", b"\0") else 1
                continue
            size = self.command(data[at:], out)
            if not size:
                break
            at += size
        self.rest = data[at:]
        return bytes(out)

    def command(self, data, out):
        """How many bytes a command has; 0 where it isn't whole."""
        if len(data) < 2:
            return 0
        if data[1] == IAC:
            out.append(IAC)
            return 2
        if data[1] != SB:
            return 2 if data[1] < SB else 3 if len(data) > 2 else 0
        end = data.find(bytes([IAC, SE]))
        if end >= 0 and data[2] == NAWS and end >= 7:
            self.window = {"columns": data[3] << 8 | data[4], "rows": data[5] << 8 | data[6]}
        return end + 2 if end >= 0 else 0


def serve_one(connection, command):
    """A program on a pair of its own, for one client."""
    from strm_host import Bridge

    told = Telnet()
    with connection, Bridge(command, pair=Pair.terminal(BLOCKS)) as bridge, selectors.DefaultSelector() as ready:
        connection.sendall(told.hello)
        ready.register(bridge.fileno(), selectors.EVENT_READ)
        ready.register(connection, selectors.EVENT_READ)
        while not bridge.ended:
            for key, _ in ready.select(0.5):
                if key.fileobj is connection:
                    data = connection.recv(4096)
                    if not data:
                        bridge.kill(signal.SIGHUP)
                        return
                    bridge.type(told.keys(data))
                    if told.window:
                        bridge.resize(**told.window)
                        told.window = None
            while bridge.pump():
                pass
            shown, bridge.shown = bridge.shown, b""
            connection.sendall(shown.replace(bytes([IAC]), bytes([IAC, IAC])))


def do_serve(words):
    parser = parser_of("serve", "A program on a pair for each connection to 127.0.0.1.", "strm serve --port 2323 -- bash")
    parser.add_argument("--port", type=int, default=2323)
    parser.add_argument("--once", action="store_true", help="end behind the first connection")
    words, command = split_at_dashes(words)
    asked, command = parser.parse_args(words), command or SHELL
    with socket.create_server(("127.0.0.1", asked.port)) as server:
        print(f"telnet 127.0.0.1 {server.getsockname()[1]}", flush=True)
        while True:
            connection, _ = server.accept()
            worker = threading.Thread(target=serve_one, args=(connection, command), daemon=not asked.once)
            worker.start()
            if asked.once:
                worker.join()
                return 0


COMMANDS = {"prompt": do_prompt, "run": do_run, "record": do_record, "replay": do_replay, "page": do_page, "serve": do_serve}


def main(words=None):
    words = sys.argv[1:] if words is None else words
    if words[:1] in (["-h"], ["--help"], ["help"]):
        print(__doc__.strip())
        return 0
    if words[:1] == ["--version"]:
        version = Library.at(None).version()
        print(f"libstrm {version >> 16}.{version & 65535}")
        return 0
    name = words[0] if words else "prompt"
    if name not in COMMANDS:
        print(f"strm: no such command: {name}; `strm --help` lists them", file=sys.stderr)
        return 2
    try:
        return COMMANDS[name](words[1:]) or 0
    except Refused as refused:
        print(f"strm {name}: {refused}", file=sys.stderr)
    except (OSError, ValueError, ImportError) as failure:
        print(f"strm {name}: {failure}", file=sys.stderr)
    except KeyboardInterrupt:
        return 130
    return 1


if __name__ == "__main__":
    sys.exit(main())
