"""Programs of Debian with the steps that each is given, on a terminal of Linux and on a pair: `Program.words`, and steps that are keys or (rows,
columns). What a program shows behind each step is compared byte by byte, but for what `hides` matches (numbers of processes, times)."""
import random
import sys
from typing import NamedTuple

BASH = ["bash", "--norc", "--noprofile", "-i"]
# Waits till the job that was started last has stopped, or has ended, and bash knows it.
STOPS = (
    b"stops() { until grep -q '^State:.T' /proc/$!/status; do sleep .02; done; sleep .3; }; "
    b"ends() { while [ -e /proc/$! ]; do sleep .02; done; }\r"
)
ASKS = 20.0


class Program(NamedTuple):
    words: list
    steps: list
    quiet: float = ASKS  # where it never asks without a time-out: how long nothing is shown, before the next step comes
    hides: bytes = rb"(?!)"
    needs: tuple = ()  # programs beside the first word
    relay: bool = False  # it asks for keys while another program is at work, so the time alone tells that it rests
    differs: dict = {}  # steps behind which the pair shows something else by design, and why


def keys(*texts):
    return [text if isinstance(text, tuple) else text.encode() for text in texts]


def random_line(chance):
    """A line of keys on which both agree: words of letters between single blanks, erased in part."""
    typed = bytearray()
    for _ in range(chance.randint(0, 12)):
        kind = chance.random()
        if kind < 0.55:
            typed += bytes(chance.choice(b"abcdefgxyz0123456789") for _ in range(chance.randint(1, 6)))
        elif kind < 0.7:
            typed += b" "
        elif kind < 0.85:
            typed += b"\x7f" * chance.randint(1, 4)
        else:
            typed += b"\x17" if kind < 0.95 else b"\x15"
    return bytes(typed) + (b"z\x04" if chance.random() < 0.2 else b"") + chance.choice([b"\r", b"\n"])


def random_lines(number, seed):
    chance = random.Random(seed)
    return [random_line(chance) for _ in range(number)]


STTY = (
    "stty", "stty -a", "stty -g", "stty raw; stty cooked", "stty -a | grep -c opost", "stty -echo", "stty echo", "stty erase ^H; stty -a | head -3",
    "stty erase ^?", "stty -icrnl; stty icrnl", "stty olcuc; echo Upper; stty -olcuc", "stty -onlcr; echo a; echo b; stty onlcr",
    "stty tab3; printf 'a\\tb\\n'; stty tab0", "stty ocrnl; printf 'x\\ry\\n'; stty -ocrnl", "stty onlret; printf 'a\\nb\\n'; stty -onlret",
    "stty rows 30 columns 90; stty size", "stty size; stty rows 24 columns 80", "stty -ixon -ixany; stty -a | grep -o '.ixany'",
    "stty sane; stty -a", "stty speed", "stty 9600; stty speed; stty 38400", "stty min 3 time 2; stty -a | grep min; stty min 1 time 0",
    "stty eol ^E eol2 ^F; stty -a | head -3", "stty eol undef eol2 undef", "stty cs7 parenb; stty -a | grep cs",
    "stty tostop; stty -a | grep -o '.tostop'; stty -tostop", "stty nonsense", "exit",
)  # fmt: skip

LNEXT = "LNEXT has no echo of its own (termio(7I)); Linux shows ^ and takes it back"

PROGRAMS = {
    "bash": Program(
        BASH,
        [
            b"echo one two\r", b"echo tyop\x7f\x7fpo\r", b"cat\r", b"a lin\x7fne\r", b"kept\x15gone\r", b"two words\x17x\r", b"\x04", b"stty size\r",
            (30, 100), b"stty size\r", b"printf 'a\\tb\\nc\\n'\r", b"stty -echo; cat\r", b"unseen\r", b"\x04", b"stty echo\r", b"seq 1 200\r",
            b"echo \xc3\xa9\xe2\x82\xac\r", b"read -n 3 x\r", b"abc", b"\x1b[A\x1b[A\r", b"read -s -p 'word: ' w\r", b"hush\r", b"echo $w\r",
            b"select n in a b; do echo $n; break; done\r", b"2\r", b"exit 3\r",
        ],
    ),
    "bash's jobs": Program(
        BASH,
        [
            b"cat\r", b"\x03", b"cat\r", b"\x1a", b"jobs\r", b"fg\r", b"resumed\r", b"\x04", b"sleep 100\r", b"\x1a", b"bg >/dev/null\r", b"jobs\r",
            b"kill %1; wait\r", STOPS, b"cat & stops\r", b"jobs\r", b"fg\r", b"a line\r", b"\x04", b"stty tostop; (echo shown) & stops\r", b"jobs\r",
            b"fg\r", b"stty -tostop; mkfifo f; (read x <f; echo shown) & echo >f; ends\r", b"(stty -echo; echo set) & stops\r", b"fg\r",
            b"stty echo\r", b"cat\r", b"typed\r", b"\x1c",
            b"trap 'echo INT' INT; read x\r", b"\x03", b"\r", b"sh -c 'kill -TSTP $$; echo on'\r", b"fg\r", b"exit\r",
        ],
        quiet=3.0,
        hides=rb"\[1\] \d+",
    ),
    "dash": Program(
        ["dash", "-i"],
        keys("echo $((6*7))\r", "cat <<X\r", "in\r", "X\r", "read a; echo [$a]\r", "w\x7fx\r", "cat\r", "\x03", "nope\r", "exit 2\r"),
    ),
    "zsh": Program(
        ["zsh", "-f", "-i"],
        [
            b"echo one\r", b"ech two\x01\x06\x06\x06o\r", b"cat\r", b"x\r", b"\x04", b"sleep 50\r", b"\x1a", b"jobs\r", b"kill %1; wait\r",
            b"exit\r",
        ],
        0.8,
    ),
    "ksh": Program(
        ["ksh"],
        keys("echo one\r", "set -o emacs\r", "echo tw\x7fwo\r", "cat\r", "\x04", "read x\r", "a b\r", "print -r -- $x\r", "exit 4\r"),
        0.6,
    ),
    "tcsh": Program(["tcsh", "-f"], keys("echo one\r", "set prompt='> '\r", "echo tw\x7fwo\r", "cat\r", "y\r", "\x04", "exit\r"), 0.6),
    "busybox": Program(
        ["busybox", "sh", "-i"],
        keys("echo one\r", "cat\r", "l\x7fmine\r", "\x04", "stty size\r", "read x; echo [$x]\r", "abc\r", "exit 5\r"),
    ),
    "busybox vi": Program(["busybox", "vi", "text"], [b"ihello\x1b", b"j", b"dd", b"\x06", b":q!\r"]),
    "stty": Program(BASH, [line.encode() + b"\r" for line in STTY[:-1]] + [b"exit\r"], needs=("stty",)),
    "ed": Program(
        ["ed", "-p", "* "],
        [
            b"a\r", b"first line\r", b"secnd\x7f\x7f\x7fond line\r", b".\r", b",p\r", b"2s/seond/2nd/p\r", b"nonsense\r", b"h\r", b"\x03", b"q\r",
            b"q\r",
        ],
    ),
    "vim": Program(
        ["vim", "-u", "NONE", "-i", "NONE", "-n", "-N", "--cmd", "set shortmess+=I"],
        [
            b"ihello world\rsecond", b"\x1b", b"ggdw", b"2ix\x1b", b":set number\r", (20, 60), b"/second\r", b"\x03", b":!echo shell\r", b"\r",
            b":q!\r",
        ],
        0.8,
    ),
    "nvi": Program(["nvi", "-e", "text"], keys("1,3p\r", "a\r", "new\r", ".\r", "%s/line/LINE/\r", "q!\r")),
    "nano": Program(["nano", "-I", "new"], keys("hello\rworld", "\x01", "\x0b", (20, 70), "\x15", "\x18", "n"), 0.6),
    # (of several keys it shows the first ones earlier, where it has the time)
    "joe": Program(["joe", "-asis", "text"], keys("a", "b", "c", "\x1b[B", "\x0b", "x"), 0.8, rb"\d\d?:\d\d"),
    "less": Program(["less", "-X", "long"], keys(" ", "G", "g", "/line 50\r", "n", "-N\r", (20, 70), "q"), 0.6),
    "more": Program(["more", "long"], keys(" ", "\r", "h", " ", "q"), 0.6),
    "most": Program(["most", "long"], keys(" ", "b", "G", "7\r", "q"), 0.6),
    "python": Program(
        [sys.executable, "-q", "-I"],
        [
            b"6 * 7\r", b"def f(n):\r", b"    return n + 1\r", b"\r", b"f(41)\r", b"whiel\x7f\x7fle = 1\r", b"input()\r", b"a lie\x7fne\r", b"\x03",
            b"import getpass; getpass.getpass()\r", b"hush\r", b"1/0\r", b"exit()\r",
        ],
    ),
    "bc": Program(["bc", "-q"], keys("6*7\r", "scale=3; 1/7\r", "define f(x){\r", "return x+1}\r", "f(1)\r", "\x03", "quit\r")),
    "dc": Program(["dc"], keys("6 7*p\r", "[hi]p\r", "zp\r", "q\r")),
    "gawk": Program(["gawk", "{ print NF, $1 }"], keys("a b c\r", "one\r", "\x04")),
    "m4": Program(["m4"], keys("define(`x', `y')\r", "x x\r", "eval(6*7)\r", "\x04")),
    "sqlite3": Program(
        ["sqlite3"],
        keys("select 6*7;\r", "create table t(a);\r", "insert into t\r", "values (1),(2);\r", "select * from t;\r", ".quit\r"),
    ),
    "gdb": Program(["gdb", "-q", "-nx"], keys("print 6*7\r", "set confirm off\r", "info line\r", "help x\r", "q\r", "quit\r"), 5.0),
    # (it shows a prompt where the program has said nothing for so many ms)
    "rlwrap": Program(["rlwrap", "-w", "1000", "-H", "/dev/null", "cat"], keys("one\r", "tw\x7fwo\r", "\x1b[A\r", "\x04"), 2.0, relay=True),
    "script": Program(
        ["script", "-q", "-c", "bash --norc --noprofile -i", "log"],
        [
            b"echo hi\r", b"cat\r", b"a\x7fb\r", b"\x04", b"stty size\r", b"sleep 50\r", b"\x03", b"tty >/dev/null; echo $?\r", b"exit\r",
        ],
        0.7,
        relay=True,
    ),
    "screen": Program(
        ["screen", "-c", "screenrc"],
        [b"echo hi\r", b"\x01c", b"echo second\r", b"\x01\x01", b"\x01\"", b"\r", (20, 70), b"cat\r", b"line\r", b"\x04", b"\x01\\y"],
        0.9,
        rb"\d+\.\S+",  # sessions are named by processes
    ),
    "mc": Program(
        ["mc", "-u", ".", "."],
        keys("\x1b[B\x1b[B", "\t", "echo hi\r", "\x0f", "\x0f", "\x1bOF\x1b3", "\x1b3", "\x1b0"),
        1.2,
        rb"\d+[KMG]? ?/ ?\d+[KMG]?( ?\(\d+%\))?|\w\w\w [ \d]\d \d\d:\d\d|\x1b\[\d+;\d+H|Hint: [^\x1b]*",
    ),
    "dialog": Program(["dialog", "--inputbox", "name?", "10", "40"], keys("Annn\x7fa", "\t", "\x1b[Z", "\r"), 0.6),
    "whiptail": Program(["whiptail", "--yesno", "sure?", "10", "40"], keys("\t", "\t", "\r"), 0.6),
    "su": Program(["su", "-s", "/bin/sh", "nobody", "-c", "stty -a | grep -c icanon; read x; echo [$x]"], keys("ab\x7fc\r"), 0.6),
    "ssh-keygen": Program(["ssh-keygen", "-q", "-t", "ed25519", "-f", "key"], keys("hush\r", "hust\r", "word\r", "word\r"), 1.0),
    "expect": Program(["expect", "-c", "spawn -noecho cat; send_user here; interact"], keys("x\r", "\x04"), 0.6, relay=True),
    "watch": Program(["watch", "-t", "-n", "60", "echo same"], keys((20, 60), "\x03"), 1.0),
    "reset": Program(
        BASH,
        keys("stty -echo; reset; stty -a | grep -c ' echo '\r", "tput cols\r", "tset -s\r", "exit\r"),
        2.0,
        needs=("reset", "tput"),
    ),
    "random keys": Program(["cat"], [*random_lines(100, 1), b"\x04"]),
    "by design": Program(
        BASH,
        [b"cat\r", b"x" * 300 + b"\r", b"\x04", b"env | grep -c STRM_TTY\r", b"busybox stty -a | grep -o '.onlcr'\r", b"exit\r"],
        0.6,
        differs={
            b"x" * 300 + b"\r": "a line has 255 bytes, and 4095 on Linux",
            b"env | grep -c STRM_TTY\r": "the environment names the terminal's host",
            b"busybox stty -a | grep -o '.onlcr'\r": "to a static program output modes other than OPOST are off",
        },
        needs=("busybox",),
    ),
    "cat": Program(
        ["cat"],
        keys("\x16\x03\r", "a\x16\x04b\r", "\x12", "ab\x12c\r", "x\x04", "y\r", "\x13", "z\r", "\x11", "\x04"),
        0.5,
        differs={b"\x16\x03\r": LNEXT, b"a\x16\x04b\r": LNEXT},
    ),
}
