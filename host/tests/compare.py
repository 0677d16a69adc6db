"""Programs of the system on a pair and on a terminal of Linux: says where what they show differs. compare.py [-j N] [NAME ..]"""
import argparse
import concurrent.futures
import os
import pathlib
import re
import shutil
import sys
import tempfile
import time

sys.path[:0] = [str(pathlib.Path(__file__).parents[2] / "python"), str(pathlib.Path(__file__).parent)]

from linux import Linux  # noqa: E402
from programs import ASKS, PROGRAMS  # noqa: E402
from strm_host import Bridge  # noqa: E402

# What a comparison needs of the environment that it is called in; PLAIN is added to it.
KEPT = ("PATH", "LD_LIBRARY_PATH", "STRM_LIBRARY", "STRM_HOST_LIBRARY", "STRM_SHIM", "TMPDIR", "USER", "LOGNAME", "PYTHONDONTWRITEBYTECODE")
PATIENCES = (1, 3, 3, 6)  # of the tries
LATE = 60.0  # seconds in which any program begins, or ends
PLAIN = {
    "TERM": "xterm", "PS1": "$ ", "PS2": "> ", "LC_ALL": "C.UTF-8", "HISTFILE": "", "INPUTRC": "/dev/null", "PYTHON_HISTORY": "/dev/null",
    "PAGER": "cat", "SHELL": "/bin/sh", "LESSHISTFILE": "-",
}  # fmt: skip
FILES = {
    "text": "".join(f"line {n}\n" for n in range(1, 6)),
    "long": "".join(f"line {n} of a text that is longer than a screen\n" for n in range(1, 201)),
    "screenrc": "startup_message off\nshell /bin/sh\nvbell off\n",
}


def room_for():
    room = tempfile.mkdtemp(prefix="strm")
    for name, text in FILES.items():
        pathlib.Path(room, name).write_text(text)
    for name in ("screens", "tmp"):
        os.mkdir(os.path.join(room, name), 0o700)
    return room


def rests(terminal, program, patience):
    """Carries on till the program waits, or nothing was shown for that long. False: it should have waited."""
    while terminal.step(patience * program.quiet, not program.relay):
        pass
    return program.quiet < ASKS or terminal.waits() or terminal.ended


def begins(terminal, program):
    """Carries on till something is shown, or the program waits: a machine that is at work begins late."""
    end = time.monotonic() + LATE
    while not terminal.shown and terminal.step(end - time.monotonic(), not program.relay):
        pass


def shown(kind, program, room, patience):
    """What a program shows at its beginning and behind each step, and its status."""
    environment = {**PLAIN, "HOME": room, "SCREENDIR": os.path.join(room, "screens"), "TMPDIR": os.path.join(room, "tmp")}
    terminal = kind(["env", "-C", room, *program.words], environment=environment)
    told = []
    begins(terminal, program)
    for step in [None, *program.steps]:
        if isinstance(step, tuple):
            terminal.resize(*step)
        elif step is not None:
            terminal.type(step)
        is_well = rests(terminal, program, patience)
        told.append(terminal.take())
        if terminal.ended or not is_well:
            break
    end = time.monotonic() + (LATE if len(told) > len(program.steps) else 0)
    while not terminal.ended and time.monotonic() < end:
        terminal.step(0.1)
    told[-1] += terminal.take()
    status = terminal.status if terminal.ended else None
    terminal.close()
    return told, status


def differing(ours, theirs):
    """The steps behind which other bytes were shown. Two steps that show the same together are the same: one was told before its end."""
    n = 0
    while n < max(len(ours), len(theirs)):
        if b"".join(ours[n : n + 2]) == b"".join(theirs[n : n + 2]):
            n += ours[n : n + 1] != theirs[n : n + 1]
        elif ours[n : n + 1] != theirs[n : n + 1]:
            yield n
        n += 1


def beside(program, patience):
    """What a program shows on Linux and on a pair, at the same time, with its two statuses."""
    rooms = [room_for(), room_for()]
    with concurrent.futures.ThreadPoolExecutor(2) as both:
        told = [both.submit(shown, kind, program, room, patience) for kind, room in zip((Linux, Bridge), rooms)]
        (theirs, their_end), (ours, our_end) = (each.result() for each in told)
    for room in rooms:
        shutil.rmtree(room, ignore_errors=True)
    hidden = [[re.sub(program.hides, b"", text.replace(room.encode(), b"ROOM")) for text in texts] for texts, room in zip((theirs, ours), rooms)]
    return *hidden, their_end, our_end


def compared(name, patience=PATIENCES[0]):
    """(name, how many steps there are, what is said of those that differ, seconds)."""
    program, began = PROGRAMS[name], time.monotonic()
    labels = ["its beginning", *program.steps]
    try:
        theirs, ours, their_end, our_end = beside(program, patience)
    except Exception as failure:
        return name, len(labels), [f"{name}: {failure!r}"], time.monotonic() - began
    found = list(differing(ours, theirs))
    differ = [n for n in range(max(len(ours), len(theirs))) if (n in found) != (labels[n] in program.differs)]
    said = [f"{name}, behind {labels[n]!r}:\n  Linux {theirs[n : n + 1]}\n  pair  {ours[n : n + 1]}" for n in differ]
    if our_end != their_end:
        said.append(f"{name} ended with {our_end} on the pair, and with {their_end} on Linux")
    return name, len(labels), said, time.monotonic() - began


def once_more(name, steps, said, seconds):
    """What differs by the time alone is the same when there is more of it: tries that a program has for itself, till one shows the same."""
    for tries, patience in enumerate(PATIENCES[1:], 2):
        print(f"{name} is tried once more, as these differ:", *said, sep="\n", flush=True)
        _, _, said, more = compared(name, patience)
        seconds += more
        if not said:
            return said, tries, seconds
    return said, len(PATIENCES), seconds


def tell(name, steps, said, tries, seconds):
    if said:
        print(*said, f"FAILED  {name}: {len(said)} differences at {tries} tries", sep="\n")
    by_design = len(PROGRAMS[name].differs)
    words = [f"{by_design} of them by design not"] * (by_design > 0) + [f"at try {tries}"] * (tries > 1) + [f"{seconds:.1f} s"]
    print(f"{name}: {steps - len(said)} of {steps} steps show the same ({', '.join(words)})", flush=True)


def main():
    parser = argparse.ArgumentParser(description=__doc__)
    parser.add_argument("-j", type=int, default=6)
    parser.add_argument("names", nargs="*", default=list(PROGRAMS))
    asked = parser.parse_args()
    for name in set(os.environ) - set(KEPT):
        del os.environ[name]
    there = [name for name in asked.names if all(map(shutil.which, (PROGRAMS[name].words[0], *PROGRAMS[name].needs)))]
    skipped = [name for name in asked.names if name not in there]
    passed = failed = 0
    again = []
    with concurrent.futures.ProcessPoolExecutor(asked.j) as pool:
        for name, steps, said, seconds in pool.map(compared, there):
            if said:
                again.append((name, steps, said, seconds))
            else:
                passed += 1
                tell(name, steps, said, 1, seconds)
    for name, steps, said, seconds in again:
        said, tries, seconds = once_more(name, steps, said, seconds)
        passed, failed = passed + (not said), failed + bool(said)
        tell(name, steps, said, tries, seconds)
    for name in skipped:
        print(f"{name} is missing: skipped")
    print(f"{passed} passed, {failed} failed, {len(skipped)} skipped")
    sys.exit(failed > 0)


if __name__ == "__main__":
    main()
