#!/usr/bin/env python3
"""Runs the gate, `rt ci` and tools/wrong, and says what each part of it costs: the table of docs/GATE.md.

    tools/gate.py [--anew] [--write] [CRATE..]

Run it at the top of the repository; ./test does. The output is that of both, then the table, and last 'N passed, M failed' of both together; the
status is 0 where M is. The wrong bodies of a crate are tried as soon as it is proved, where `rt ci` leaves a lane idle (tools/ahead.py), and those
that are left behind it. It passes over what an earlier run on this machine passed: with --anew it proves and tries all. With crates it is the gate
of these and those below them, and the table has those that were at work. --write keeps the figures (tools/costs.json) and puts the table of all
into docs/GATE.md, where nothing failed, for a run with nothing else at work on the machine: the parts of each crate that the run was at are told
anew, and what is said of the whole where the run was of all, from nothing. It looks twice a second at the checker's processes: what each has used of
the processor counts for the proof, the tests or the wrong bodies of its crate, or for its program, which is compiled behind the proof.
"""
import argparse
import glob
import os
import re
import resource
import shutil
import signal
import subprocess
import sys
import tempfile
import time

sys.dont_write_bytecode = True
sys.path.insert(0, os.path.dirname(os.path.realpath(__file__)))
import costs  # noqa: E402
from ahead import Ahead, lanes  # noqa: E402
from costs import crates, text_of, wrong_of  # noqa: E402

TICKS = os.sysconf("SC_CLK_TCK")
CLOSING = re.compile(r"^(\d+) passed, (\d+) failed\b")


class Process:
    """What one run of the checker is for, and what it has used."""

    def __init__(self, number, words):
        self.number, self.start, self.seconds = number, start_of(number), 0.0
        named = words.index("--crate-name") if "--crate-name" in words else None
        self.crate = words[named + 1] if named else ""
        folder = ""
        try:
            folder = os.readlink(f"/proc/{number}/cwd")
        except OSError:
            pass
        # (a program, once it is proved, is compiled by two compilers)
        is_built = "--crate-checked" in words
        self.part = "wrong" if "/wrong-" in folder else "built" if is_built else "tests" if "--test" in words else "proof"

    def goes_on(self):
        return start_of(self.number) == self.start

    def look(self):
        """Takes what the process and those of its children that have ended have used so far."""
        words = text_of(f"/proc/{self.number}/stat").rpartition(")")[2].split()
        if len(words) > 14:
            self.seconds = max(self.seconds, sum(int(word) for word in words[11:15]) / TICKS)


def parent_of(number):
    words = text_of(f"/proc/{number}/stat").rpartition(")")[2].split()
    return words[1] if len(words) > 1 else ""


def start_of(number):
    """When a process began: numbers are given anew."""
    words = text_of(f"/proc/{number}/stat").rpartition(")")[2].split()
    return words[19] if len(words) > 19 else ""


def is_below(number, above):
    """Whether a process was started by another one, or by one that this started."""
    while number not in ("", "0", above):
        number = parent_of(number)
    return number == above


def is_checker(words):
    return words[0].endswith("/rattle") and len(words) > 1 and words[1] in ("check", "build")


def look_around(gate, known, seen):
    """Adds the gate's new processes of the checker, in order of their start, and takes what each has used."""
    for number in sorted((name for name in os.listdir("/proc") if name.isdigit()), key=int):
        if number in known and known[number].start == start_of(number):
            known[number].look()
            continue
        words = text_of(f"/proc/{number}/cmdline").split("\0")
        is_first = is_checker(words) and not is_checker(text_of(f"/proc/{parent_of(number)}/cmdline").split("\0"))
        if is_first and is_below(number, gate):
            known[number] = Process(number, words)
            known[number].look()
            seen.append(known[number])


def run(words, log, known, seen, beside=None):
    """Runs a command to its end while it looks at its processes; its status, and its last line. Its output goes to a file too."""
    ran = subprocess.Popen(["bash", "-o", "pipefail", "-c", '"$@" 2>&1 | tee "$0"', log, *words], stdin=subprocess.DEVNULL)
    while ran.poll() is None:
        look_around(str(os.getpid()), known, seen)
        if beside:
            beside.fill(text_of(log), sum(it.goes_on() for it in known.values()))
        time.sleep(0.5)
    return ran.returncode, (text_of(log).rstrip("\n").splitlines() or [""])[-1]


def takes_words():
    """Whether the kit's `rt ci` takes --anew and names of crates: its help says so, or it comes to a count in a folder without crates."""
    how = {"stdin": subprocess.DEVNULL, "stdout": subprocess.PIPE, "stderr": subprocess.STDOUT, "text": True}
    with tempfile.TemporaryDirectory(prefix="gate-") as room:
        told = [subprocess.run(words, cwd=room, **how).stdout for words in (["rt", "help"], ["rt", "ci", "--anew"])]
    return "--anew" in told[0] or bool(CLOSING.match((told[1].rstrip("\n").splitlines() or [""])[-1]))


def run_gate(asked):
    """The checker's processes of all parts, and how many things passed and failed."""
    known, seen = {}, []
    anew = ["--anew"] if asked.anew else []
    takes = takes_words()
    if asked.names and not takes:
        print("tools/gate.py: this kit's `rt ci` takes no names of crates: it is the gate of all", flush=True)
        return seen, 0, 1
    if anew and not takes:
        print("tools/gate.py: this kit's `rt ci` takes no --anew, as it proves all from nothing", flush=True)
    # (behind its run such a kit puts back the libraries that were here, and those fit none of its own)
    for library in glob.glob("crates/*/out/rlib") if not takes else []:
        shutil.rmtree(library)
    words = ["rt", "ci", *(anew if takes else []), *asked.names]
    with tempfile.TemporaryDirectory(prefix="gate-") as room:
        # (`rt ci` with names works on a copy, and leaves no libraries here)
        if asked.names:
            return seen, *counted(*run(words, f"{room}/log", known, seen))
        ahead = Ahead(room, {name for name in crates() if wrong_of(name)}, lanes(), anew)
        try:
            passed, failed = counted(*run(words, f"{room}/log", known, seen, ahead))
            if not failed:
                failed += bool(run(["tools/kept"], f"{room}/log", known, seen)[0])
            while not failed and ahead.goes_on():
                look_around(str(os.getpid()), known, seen)
                time.sleep(0.5)
        finally:
            ahead.ends()
        results = [(passed, failed), *(counted(*it) for it in ahead.ended)]
        if not failed and ahead.left:
            results.append(counted(*run(["tools/wrong", *anew, *sorted(ahead.left)], f"{room}/log", known, seen)))
    return seen, *map(sum, zip(*results))


def counted(status, closing):
    """How many things passed and failed by a part's last line: one failed at least where it tried nothing, or ended otherwise."""
    found = CLOSING.match(closing)
    passed, failed = (int(found[1]), int(found[2])) if found else (0, 0)
    return passed, max(failed, int(bool(status) or not passed))


def main():
    parser = argparse.ArgumentParser(description=__doc__, formatter_class=argparse.RawDescriptionHelpFormatter)
    parser.add_argument("--anew", action="store_true")
    parser.add_argument("--write", action="store_true")
    parser.add_argument("names", nargs="*")
    asked = parser.parse_args()
    # (what tools/ahead.py began is stopped on the way out, and only an exception goes there)
    signal.signal(signal.SIGTERM, lambda *_: sys.exit(143))
    began, many = time.monotonic(), lanes()
    seen, passed, failed = run_gate(asked)
    used = resource.getrusage(resource.RUSAGE_CHILDREN)
    closing, wall = f"{passed} passed, {failed} failed", time.monotonic() - began
    parts = costs.parts_of(seen)
    whole = costs.whole_of(wall, used.ru_utime + used.ru_stime, many, closing, parts)
    lines = costs.table({"crates": parts, "wholes": [whole]})
    print("\n".join(["", *lines, "", closing]), flush=True)
    if asked.write and not failed:
        costs.write(costs.joined(costs.kept(), parts, whole if asked.anew and not asked.names else {}))
    sys.exit(failed > 0)


if __name__ == "__main__":
    main()
