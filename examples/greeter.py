"""A program of one's own on a pair, and its test: what is typed is edited and echoed as on a terminal, nothing sleeps, and each run is the same."""
import sys

from strm import MASTER, SLAVE
from strm_expect import EOF, spawn


def greeter(terminal):
    """The program under test: it asks for names till the end of input."""
    while True:
        terminal.write(b"name? ")
        name = terminal.read()
        if not name:
            terminal.write(b"bye\n")
            return 0
        terminal.write(b"hello, " + name.rstrip() + b"!\n")


def main():
    child = spawn(greeter)
    child.expect_exact(b"name? ")
    child.send("Maxy\x7f\r")  # DEL takes the y back
    child.expect_exact(b"hello, Max!\r\n")
    child.expect_exact(b"name? ")
    child.sendeof()
    child.expect(EOF)
    print("shown at the end:", child.before.decode().strip())
    for side, name in ((MASTER, "typed"), (SLAVE, "shown")):
        books = child.pair.ledger(side)
        gone = ", ".join(f"{rule} {count}" for rule, count in books.gone.items())
        print(f"{name}: {books.written} written + {books.made} made = {books.queued} queued + {books.inlined} in a line + gone ({gone})")
    return 0


if __name__ == "__main__":
    sys.exit(main())
