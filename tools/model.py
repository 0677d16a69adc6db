#!/usr/bin/env python3
"""A second model of the pair, in Python: it answers scripts as crates/strm_run does.

    tools/model.py [SCRIPT]            the answers to a script (standard input), with the program's status
    tools/model.py --scripts FOLDER    plays each script of a folder that has answers beside it, NAME.stdout; the last line is 'N passed, M failed'

It was made from docs/BEHAVIOUR.md, docs/DEFINITIONS.md and the manual pages, not from the code, so that both have to make the same slip for it to go
unseen. It models all commands: heads, modules, drivers, queues and their flow control, job control, the journal's room, ledgers (whose sums it
asserts), and how many blocks of each kind are free, with data blocks that are shared, so pools of any size.

Not modelled: books near 2^62 and ioctls' numbers near 2^32, to which no script leads; marks other than those of a new queue, since nothing on a
script's pair sets others; images; memory that is refused, readers and writers that fail. How many blocks a message takes isn't promised, so
answers behind the first line for which blocks were too few may differ from another program's, and rightly.
"""
import pathlib
import re
import sys

sys.dont_write_bytecode = True
sys.path.insert(0, str(pathlib.Path(__file__).resolve().parent))
from model.script import play


def compared(folder):
    """How many scripts have the answers that stand beside them; prints the first answer of each that differs."""
    passed = failed = 0
    for path in sorted(folder.glob("*.stdout")):
        wanted = path.read_text("latin-1").split("\n")[:-1]
        wanted.append(f"status {int(bool(wanted and re.fullmatch('err line [0-9]+', wanted[-1])))}")
        given, status, _ = play(path.with_suffix("").read_bytes())
        given.append(f"status {status}")
        passed, failed = passed + (given == wanted), failed + (given != wanted)
        if given != wanted:
            at = next(at for at, pair in enumerate(zip(wanted, given), 1) if pair[0] != pair[1])
            print(f"{path.stem}: answer {at} is '{given[at - 1]}', not '{wanted[at - 1]}'")
    print(f"{passed} passed, {failed} failed")
    return 0 if passed and not failed else 1


def main(words):
    if words[:1] == ["--scripts"] and len(words) == 2:
        return compared(pathlib.Path(words[1]))
    if len(words) > 1 or words[:1] and words[0].startswith("-"):
        sys.exit(__doc__)
    answers, status, _ = play(pathlib.Path(words[0]).read_bytes() if words else sys.stdin.buffer.read())
    sys.stdout.write("".join(f"{answer}\n" for answer in answers))
    return status


if __name__ == "__main__":
    sys.exit(main(sys.argv[1:]))
