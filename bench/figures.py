"""What the tools of bench/ share: the rounds of users, how their programs are built and run, and the file of figures.

bench/figures.json has what the last runs of bench/instructions and bench/run measured, and bench/plot draws it and writes it into documents.
"""
import json
import os
import pathlib
import re
import resource
import subprocess
import tempfile
from typing import Any, Dict, List, NamedTuple

HERE = pathlib.Path(__file__).resolve().parent
TOP = HERE.parent
FILE = HERE / "figures.json"


class Round(NamedTuple):
    """What users do: its words in a plan (act, stack, text, line, size, asked), how many rounds are counted, and how many are timed, on so
    many pairs. `peer` are its words for the baseline, where those differ; `pty`: a pseudoterminal of Linux makes it too."""

    what: str
    words: str
    rounds: int
    timed: int
    pairs: int = 1
    peer: str = ""
    pty: bool = True


ROUNDS = [
    Round("1 byte, no modules", "0 0 0 0 1 1", 2000, 60000),
    Round("1 byte, raw mode", "0 2 0 0 1 1", 2000, 40000),
    Round("256 bytes, raw mode", "0 2 0 0 256 256", 2000, 40000),
    Round("256 bytes of ESC, raw mode", "0 2 1 0 256 256", 2000, 40000),
    Round("a keystroke, and its echo read", "2 1 0 0 1 1", 220, 220, 100),
    Round("a line of 40 characters, and its echo read", "1 1 0 40 40 40", 1000, 20000),
    Round("a paste of 4096 bytes in lines of 64, and its echo read", "1 1 0 64 4096 4096", 100, 400),
    Round("output of 4096 bytes with a newline each 80", "3 1 0 80 4096 4147", 100, 1000),
    Round("output of 10 bytes", "3 1 0 0 10 10", 2000, 40000),
    Round("coloured output of 256 bytes", "3 1 2 64 256 260", 1000, 20000),
    Round("putmsg and getmsg of 4 and 256 bytes", "4 0 0 0 256 260", 2000, 40000, pty=False),
    Round("the same in band 200", "6 0 0 0 256 260", 2000, 40000, pty=False),
    Round("TIOCGWINSZ", "5 1 0 0 0 8", 2000, 60000),
    Round("TIOCGWINSZ, which the baseline answers in its place", "5 1 0 0 0 8", 2000, 60000, peer="10 1 0 0 0 8"),
]

POOLS = [256, 4096]  # blocks of new pairs

ENTRIES = 20000  # of each journal that is counted


def plan(pairs, rounds, words="0 0 0 0 1 1", blocks=256, entries=ENTRIES, standing=0, store=0, warm=0):
    """A plan of rounds, as strm_bench and bench/baseline.rs read it."""
    return f"{pairs} {rounds} {standing} {blocks} {entries} {warm} {store} {words}\n"


def answer(words: List[str], given: str, **settings: str):
    """What a program answers to a plan, and what it wrote to standard error."""
    done = subprocess.run(words, input=given, capture_output=True, text=True, check=True, env={**os.environ, **settings})
    if "plan" in done.stdout or "refused" in done.stdout:
        raise SystemExit(f"{words[-1]}: {given}{done.stdout}")
    return [int(word) for word in done.stdout.split()], done.stderr


def instructions(words: List[str], given: str, profile="/dev/null", options=()) -> int:
    """How many instructions a program takes for a plan, by callgrind, which may write its profile."""
    counted = ["valgrind", "--tool=callgrind", f"--callgrind-out-file={profile}", *options, *words]
    # (where the C library clears long memory by `rep stosb`, from a length on that machines differ in, each byte counts as an instruction)
    _, said = answer(counted, given, GLIBC_TUNABLES="glibc.cpu.x86_rep_stosb_threshold=1000000000")
    return int(re.search(r"Collected : (\d+)", said).group(1))


def nanoseconds(words: List[str], given: str) -> float:
    """CPU time of a program for a plan."""
    before = resource.getrusage(resource.RUSAGE_CHILDREN)
    answer(words, given)
    after = resource.getrusage(resource.RUSAGE_CHILDREN)
    return (after.ru_utime + after.ru_stime - before.ru_utime - before.ru_stime) * 1e9


def entered(words, what, rounds):
    """What a round reads, and how many entries and bytes it adds to a journal."""
    long, short = (answer(words, plan(1, count, what))[0] for count in (rounds, rounds // 10))
    return [(a - b) / (rounds - rounds // 10) for a, b in zip(long, short)]


def build(crate: str) -> str:
    """A program of the repository, proved and built; BENCH_BIN names a folder that has it already."""
    made = os.environ.get("BENCH_BIN")
    if made:
        return str(pathlib.Path(made, crate).resolve())
    subprocess.run(["rt", "run"], cwd=TOP / "crates" / crate, stdin=subprocess.DEVNULL, stdout=subprocess.DEVNULL, check=True)
    return str(TOP / "crates" / crate / "out" / crate)


def compile_rust(room: str, *names: str) -> List[str]:
    """Programs of bench/, built in a folder by rustc -O."""
    for name in names:
        subprocess.run(["rustc", "-O", "--edition", "2024", "-o", f"{room}/{name}", str(HERE / f"{name}.rs")], check=True)
    return [f"{room}/{name}" for name in names]


def compile_c(room: str, library: str, *names: str) -> List[str]:
    """Programs of bench/ over libstrm, which stands under a prefix, built in a folder."""
    for name in names:
        words = ["cc", "-O2", f"-I{library}/include", str(HERE / f"{name}.c"), f"{library}/lib/libstrm.a", "-o", f"{room}/{name}"]
        subprocess.run(words, check=True)
    return [f"{room}/{name}" for name in names]


def load() -> Dict[str, Any]:
    return json.loads(FILE.read_text()) if FILE.exists() else {}


def keep(**parts: Any) -> None:
    """Puts parts in place of those that the file has of the same names."""
    figures = {**load(), **parts}
    with tempfile.NamedTemporaryFile("w", dir=HERE, delete=False) as file:
        json.dump(figures, file, indent=1)
        file.write("\n")
    os.chmod(file.name, 0o644)
    os.replace(file.name, FILE)
