"""What a program clears, from a callgrind profile of its instructions and its machine code.

A proved build clears each aggregate local before it is written, at the entry of the function that has it, which may stand within another one. Large
ones are cleared by memset, and small ones by stores of zero to the frame. A store that the source asks for counts too, as `let mut sum = 0` where
that isn't in a register.
"""
import collections
import re
import subprocess
from typing import Counter, Dict, Set, Tuple

OPTIONS = ["--dump-instr=yes", "--compress-pos=no", "--demangle=no"]

CLEARS = re.compile(r"^v?(?:xorps|xorpd|pxor|xor)\s+(\w+),(\w+)(?:,(\w+))?$")
STORES = re.compile(r"^v?mov\w*\s+(?:\w+ PTR )?\[(?:rsp|rbp)[^\]]*\],(\w+)$")
WRITES = re.compile(r"^\w+\s+(\w+)(?:,|$)")


class Profile:
    """Of a profile: how often each instruction of a program was made, by its address, what each function takes of those that it calls whose names
    have certain letters, and what each takes by itself."""

    def __init__(self, path: str, program: str, callee: str):
        self.made: Counter[int] = collections.Counter()
        self.took: Counter[str] = collections.Counter()
        self.own: Counter[str] = collections.Counter()
        self.names: Dict[Tuple[str, str], str] = {}
        inside, caller, called = False, "", ""
        with open(path) as lines:
            for line in lines:
                words = re.match(r"(c?ob|c?fn)=\((\d+)\)(?: (.*))?", line)
                if words:
                    name = self.named(*words.groups())
                    inside = name == program if words.group(1) == "ob" else inside
                    caller = name if words.group(1) == "fn" else caller
                    called = name if words.group(1) == "cfn" else called
                elif line.startswith("calls="):
                    cost = int(next(lines).split()[-1])
                    if inside and callee in called and callee not in caller:
                        self.took[caller] += cost
                elif line.startswith("0x"):
                    at, _, cost = line.split()
                    self.own[caller] += int(cost)
                    if inside:
                        self.made[int(at, 16)] += int(cost)

    def named(self, kind: str, number: str, name: str) -> str:
        """The name of a number, which is told where the number first stands; one that callgrind adds to where a function calls itself is left out."""
        if name:
            self.names[kind[-2:], number] = re.sub(r"'\d+$", "", name)
        return self.names[kind[-2:], number]


def stores_of_zero(program: str) -> Dict[int, str]:
    """The addresses of a program's instructions that store zero to a frame, and the function of each. Registers are followed down the code as it
    stands, to the next call."""
    code = subprocess.run(["objdump", "-d", "--no-show-raw-insn", "-M", "intel", program], stdout=subprocess.PIPE, check=True).stdout.decode()
    found: Dict[int, str] = {}
    name, zeros = "", set()
    for line in code.splitlines():
        head = re.match(r"[0-9a-f]+ <(.*)>:$", line)
        words = re.match(r"\s*([0-9a-f]+):\s+(.*?)\s*(?:#.*)?$", line)
        if head:
            name, zeros = head.group(1), set()
        elif words:
            stores, zeros = one_instruction(words.group(2), zeros)
            if stores:
                found[int(words.group(1), 16)] = name
    return found


def one_instruction(said: str, zeros: Set[str]) -> Tuple[bool, Set[str]]:
    """Whether an instruction stores zero to a frame, and which registers are zero behind it."""
    clears, stores, writes = CLEARS.match(said), STORES.match(said), WRITES.match(said)
    if clears and clears.group(2) == (clears.group(3) or clears.group(1)):
        return False, zeros | {clears.group(1)}
    if stores:
        return stores.group(1) == "0x0" or stores.group(1) in zeros, zeros
    if said.startswith("call"):
        return False, set()
    return False, zeros - {writes.group(1)} if writes else zeros


def plain_name(name: str) -> str:
    """A function's name without the type that it was made for."""
    return re.sub(r"::<[^>]*>$", "", name)
