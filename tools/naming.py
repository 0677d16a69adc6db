"""Finds what edits of definitions make unproved, and writes it into them: for `tools/wrong --name`.

Those that name nothing are tried in few copies, over all proofs of a crate: what isn't proved there, and can reach what one of the edits changes and
nothing of the others in the copy, is refused for that edit. Of these the one is named that the fewest other edits of the crate meet and that reaches
least: so the edits share few checks later. Where nothing of a copy tells an edit, it is tried alone.
"""
import collections
import glob
import os
import random
import re

import definitions
import reach

# How many checks the definitions of a crate should take.
CHECKS = 4


def provable(home):
    """What a check of a crate can find unproved: its functions that have a proof file, and its lemmas and rows."""
    for path in sorted(glob.glob(f"{home.folder}/proofs/**/*.antt", recursive=True)):
        inside = os.path.relpath(path, f"{home.folder}/proofs").split("/")
        if len(inside) > 1 and all(re.fullmatch(r"\w+", it) for it in inside[:-1]):
            yield "::".join([home.name, *inside[:-1]])
        elif len(inside) == 1 and inside != ["Lib.antt"]:
            for name in reach.declarations(reach.text_of(path)):
                yield f"{home.name}::proofs::{inside[0][:-len('.antt')]}::{name}"


class Namer:
    def __init__(self, rt, changes, crate, home, edits, tools):
        self.rt, self.changes, self.crate, self.home, self.tools = rt, changes, crate, home, tools
        texts, self.meets = changes.texts_of(home), {}
        reaching = {edit: texts.reaching(changes.changed(edit)[0]) for edit in edits}
        for name in dict.fromkeys(provable(home)):
            own = texts.of(name)
            met = frozenset(edit for edit in edits if own & reaching[edit])
            if met:
                self.meets[name] = met
        self.sets = collections.Counter(self.meets.values())

    def clash(self, edit, group):
        lines = self.changes.changed(edit)[1]
        return any(it is not edit and lines & self.changes.changed(it)[1] for it in group)

    def score(self, group):
        """How well the edits of a group are told from each other: each by one name at least, and then by more."""
        count = collections.Counter()
        for met, number in self.sets.items():
            inside = met & group
            if len(inside) == 1:
                count[next(iter(inside))] += number
        return sum(10 + min(count[it], 8) for it in group if count[it] and not self.clash(it, group))

    def groups(self, edits):
        """The edits in as many groups as a crate may take checks, in which most are told: found by moving one at a time."""
        rng, best = random.Random(1), (-1, [])
        for _ in range(4):
            groups = [frozenset(edits[at::CHECKS]) for at in range(CHECKS)]
            scores, moved = [self.score(it) for it in groups], True
            while moved:
                moved = False
                for edit in rng.sample(edits, len(edits)):
                    here = next(at for at, it in enumerate(groups) if edit in it)
                    without = self.score(groups[here] - {edit}) - scores[here]
                    gain, there = max((self.score(it | {edit}) - scores[at] + without, at) for at, it in enumerate(groups) if at != here)
                    if gain > 0:
                        groups[here], groups[there], moved = groups[here] - {edit}, groups[there] | {edit}, True
                        scores = [self.score(it) for it in groups]
            best = max(best, (sum(scores), groups), key=lambda it: it[0])
            edits = rng.sample(edits, len(edits))
        return [it for it in best[1] if it]

    def tried(self, group):
        """What isn't proved where these edits stand in one copy."""
        names = [name for name, met in self.meets.items() if met & group]
        here, why_not, ran, unproved = definitions.check(self.rt, self, group, names, self.tools)
        for edit, why in why_not.items():
            print(f"{edit.crate.name}/{edit.name}: {why}")
        if ran is None or not re.search(self.tools.VERDICT, ran.stdout, re.M):
            print(f"no verdict on {', '.join(it.name for it in here)}: " + " ".join(ran.stdout.split("\n")[-4:])[:300] if ran else "nothing to try")
        return unproved

    def name(self, group):
        """Names what tells each edit of a group, and gives those that nothing tells."""
        unproved = self.tried(group)
        for edit in sorted(group, key=lambda it: it.name):
            own = [name for name, met in self.meets.items() if name in unproved and met & group == {edit}]
            if own:
                least = min(own, key=lambda it: (len(self.meets[it]), len(self.changes.reaches(self.home, it)), it))
                print(f"{edit.crate.name}/{edit.name}: {least}", flush=True)
                with open(edit.path, "w", encoding="utf-8") as file:
                    file.write(f"refused: {least}\n" + edit.text)
            else:
                yield edit


def name_all(rt, changes, crate, home, edits, tools):
    """Names all that can be named; how many can't."""
    namer = Namer(rt, changes, crate, home, edits, tools)
    left = edits
    for _ in range(2):
        left = [edit for group in namer.groups(left) for edit in namer.name(group)] if left else []
    left = [edit for it in left for edit in namer.name(frozenset([it]))]
    for edit in left:
        print(f"{crate.name}/{edit.name}: nothing of {home.name} is refused for it")
    return len(left)
