"""Wrong bodies of crates that are proved, tried while `rt ci` goes on: tools/gate.py."""
import os
import re
import signal
import subprocess
import time

# What `rt ci` prints as a crate's own proof is done, or is kept of an earlier run.
PROVED = re.compile(r"^rt: (\w+) (?:proved|is kept: .*)$", re.M)
# What a check takes of memory at most, in KB, and how long it needs till all of its lanes are seen at work, in seconds.
MEMORY, BEGINS = 4_194_304, 5


def free_memory():
    with open("/proc/meminfo", encoding="utf-8") as file:
        return next(int(line.split()[1]) for line in file if line.startswith("MemAvailable:"))


def lanes():
    """As many checks at one time as RT_JOBS says; else one for each processor where memory is free for it."""
    number = os.environ.get("RT_JOBS", "")
    if number.isdigit() and number != "0":
        return int(number)
    return max(1, min(len(os.sched_getaffinity(0)), free_memory() // MEMORY))


def ticks():
    """What all processors have done and have idled so far, in ticks."""
    with open("/proc/stat", encoding="utf-8") as file:
        words = [int(word) for word in file.readline().split()[1:9]]
    return sum(words), words[3] + words[4]


class Ahead:
    """Runs tools/wrong of one crate after another where a lane is idle. A proof comes first: what is tried here gets what processors it leaves."""

    def __init__(self, room, crates, most, words):
        self.room, self.left, self.most, self.words = room, {*crates}, most, words
        # (of each run that has ended its status and its last line)
        self.running, self.ended = {}, []
        self.seen, self.since = ticks(), time.monotonic()

    def has_room(self, at_work):
        """Whether a lane has had nothing to do for a while, and its check would find memory."""
        if time.monotonic() - self.since < BEGINS:
            return False
        before, self.seen, self.since = self.seen, ticks(), time.monotonic()
        all_done, idle = (now - then for now, then in zip(self.seen, before))
        processors = os.cpu_count() * idle / max(all_done, 1)
        return at_work < self.most and processors > 0.9 and free_memory() > MEMORY

    def fill(self, log, at_work):
        """Begins with the wrong bodies of a crate that the log tells of as proved, where one more of so many checks at work can be."""
        self.look()
        if not self.left or not self.has_room(at_work):
            return
        ready = [name for name in PROVED.findall(log) if name in self.left]
        if ready:
            self.left.remove(ready[0])
            self.begin(ready[0])

    def begin(self, crate):
        with open(f"{self.room}/wrong-{crate}", "w", encoding="utf-8") as log:
            words = ["nice", "tools/wrong", "--ahead", *self.words, crate]
            how = {"stdin": subprocess.DEVNULL, "stdout": log, "stderr": subprocess.STDOUT, "start_new_session": True}
            self.running[crate] = subprocess.Popen(words, **how)

    def look(self):
        for crate in [it for it, ran in self.running.items() if ran.poll() is not None]:
            self.close(crate, self.running.pop(crate).returncode)

    def close(self, crate, status):
        with open(f"{self.room}/wrong-{crate}", encoding="utf-8", errors="replace") as log:
            text = log.read()
        print(text, end="", flush=True)
        self.ended.append((status, (text.rstrip("\n").splitlines() or [""])[-1]))

    def goes_on(self):
        self.look()
        return bool(self.running)

    def ends(self):
        """Stops what still runs: its crates count as untried."""
        for crate, ran in self.running.items():
            os.killpg(ran.pid, signal.SIGTERM)
            ran.wait()
            self.left.add(crate)
        self.running.clear()
