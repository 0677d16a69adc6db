"""Wrong definitions, several in one copy: for tools/wrong.

An edit of a definition names what it makes unproved: a function, as a check prints its name, or a lemma or a row, CRATE::proofs::FILE::NAME, of its
crate or of one crate above, whose proofs are then checked over the sources below. Two edits are tried at once where what either one names can't reach
what the other changes, as the texts tell (tools/reach.py): so what is refused is refused for its own edit.
"""
import os
import re
import shutil
import sys
import tempfile

sys.path.insert(0, os.path.dirname(os.path.realpath(__file__)))
import reach

# A file of proofs of each crate that lemmas are named in is read by this: the proof of a function there gets a line that imports it.
HOOK = "use Rattle.{crate}.proofs.{file} as wrong_{number}\n"


def is_lemma(name):
    return name.split("::")[1:2] == ["proofs"]


def home_of(edit, crates):
    """The crate in which an edit is refused, or None where its names are of several."""
    named = {name.split("::")[0] for name in edit.refused} or {edit.crate.name}
    return crates.get(named.pop()) if len(named) == 1 else None


def lines_of(text, old):
    """The lines of a text that another one stands in."""
    at = text.find(old)
    return range(text.count("\n", 0, at), text.count("\n", 0, at + len(old)) + 1) if at >= 0 else ()


class Changes:
    """What edits change, and what they name can reach."""

    def __init__(self, rt):
        self.rt, self.texts, self.reached, self.of = rt, {}, {}, {}

    def changed(self, edit):
        """(the declarations that an edit changes, the lines that it has the old text of)"""
        if edit not in self.of:
            texts, found, lines, path = self.rt.edited(edit.text, edit.crate.folder)[0] or {}, set(), set(), ""
            for name, text in texts.items():
                found |= reach.changed(edit.crate.name, name, reach.text_of(f"{edit.crate.folder}/{name}"), text)
            for line in edit.text.split("\n"):
                path = line[6:].strip() if line.startswith("file: ") else path
                if line.startswith("old: "):
                    lines |= {(path, it) for it in lines_of(reach.text_of(f"{edit.crate.folder}/{path}"), line[5:])}
            self.of[edit] = found, lines
        return self.of[edit]

    def texts_of(self, home):
        if home.name not in self.texts:
            self.texts[home.name] = reach.Texts({it.name: it.folder for it in [home, *home.below()]})
        return self.texts[home.name]

    def reaches(self, home, name):
        """The declarations that a name of a crate reaches; none where there is no such function or lemma."""
        if name not in self.reached:
            self.reached[name] = self.texts_of(home).reached(name)
        return self.reached[name]

    def why_not(self, home, edit):
        """Why what an edit names can't show anything of it, or None."""
        if not edit.refused:
            return "it names nothing that is refused: tools/wrong --name finds something"
        if len({name.split("::")[0] for name in edit.refused}) > 1:
            return "it names functions of several crates"
        for name in edit.refused:
            if not self.reaches(home, name):
                return f"there is no function or lemma {name}"
            if not self.reaches(home, name) & self.changed(edit)[0]:
                return f"{name} can't reach what it changes"
        return None

    def meets(self, home, one, other):
        """Whether what one edit names can reach what another changes, or both change one line."""
        found, lines = self.changed(other)
        return bool(lines & self.changed(one)[1]) or any(found & self.reaches(home, name) for name in one.refused)

    def rounds(self, home, edits):
        """Lists of edits that don't meet, the ones that meet most others first."""
        met = {one: {it for it in edits if it is not one and (self.meets(home, one, it) or self.meets(home, it, one))} for one in edits}
        rounds = []
        for edit in sorted(edits, key=lambda it: -len(met[it])):
            found = next((it for it in rounds if not met[edit] & {*it}), None)
            if found is None:
                found = []
                rounds.append(found)
            found.append(edit)
        return rounds


def hook(changes, home, room, names):
    """Has the check reach the files of the lemmas, and gives the functions to check: the proof of the one that reaches least imports these files. A
    crate without functions, whose check is of all its files, is left with these and with what they import."""
    files = sorted({"::".join(name.split("::")[2:-1]) for name in names if is_lemma(name)})
    functions = [name for name in names if not is_lemma(name)]
    if files:
        proofs = [f"{at}/{it}" for at, _, found in os.walk(f"{room}/proofs") for it in found if it in ("Answers.antt", "Proof.antt")]
        named = {"::".join([home.name, *os.path.relpath(os.path.dirname(it), f"{room}/proofs").split("/")]): it for it in sorted(proofs)}
        named = {name: it for name, it in named.items() if re.fullmatch(r"[\w:]+", name)}
        if not named:
            keep_files(home, f"{room}/proofs", files)
            return functions
        least = min(named, key=lambda it: len(changes.reaches(home, it)) or len(named) ** 9)
        text = reach.text_of(named[least])
        with open(named[least], "w", encoding="utf-8") as file:
            file.write("".join(HOOK.format(crate=home.name, file=it.replace("::", "."), number=at) for at, it in enumerate(files)) + text)
        functions.append(least)
    return functions


def keep_files(home, proofs, files):
    """Leaves of a crate's files of proofs these, and those that they import."""
    imports = re.compile(rf"^(?:pub )?use Rattle\.{home.name}\.proofs\.(\w+)", re.M)
    kept = reach.closed(files, lambda it: {*imports.findall(reach.text_of(f"{proofs}/{it}.antt"))})
    lines = [line for line in reach.text_of(f"{proofs}/Lib.antt").split("\n") if line.split(" ")[-1] in kept]
    for name in os.listdir(proofs):
        if name[:-len(".antt")] not in {*kept, "Lib"}:
            os.remove(f"{proofs}/{name}")
    with open(f"{proofs}/Lib.antt", "w", encoding="utf-8") as file:
        file.write("\n".join([*lines, ""]))


def words_of(crate, home, room, functions):
    """The check of these functions; where they are of a crate above, over the sources from the changed crate up."""
    words = home.words(["--jobs", "1"], keeps=False, as_source=home.name != crate.name)
    words = [it.replace(f"={crate.folder}/src/", f"={room}/{crate.name}/src/") for it in words]
    built = {it.name: it.rlib for it in crate.below()}
    for at, word in enumerate(words):
        name = word.split(":")[0]
        if words[at - 1] == "--lib" and name in built:
            words[at - 1], words[at] = "--extern", f"{name}={built[name]}"
    return [*words, *(word for name in dict.fromkeys(functions) for word in ("--only", name))]


def refused_of(said, names, shows_nothing):
    """Those of some names that aren't proved: a lemma has an error of its own."""
    unproved = {*re.findall(r"^fn (\S+): (?:not proved|no proof)", said, re.M)}
    for name in filter(is_lemma, names):
        _, _, *inside, lemma = name.split("::")
        own = rf"^(?:\./)?proofs/{'/'.join(inside)}\.antt:\S+ error: `{re.escape(lemma)}`: (.*)"
        if any(not re.search(shows_nothing, it) for it in re.findall(own, said, re.M)):
            unproved.add(name)
    return unproved


def check(rt, it, edits, names, tools):
    """Tries edits of a round in one copy: (those that were laid into it, why others weren't, the run, which of these names aren't proved)"""
    crate, home = it.crate, it.home
    with tempfile.TemporaryDirectory(prefix=f"wrong-{crate.name}-") as room:
        os.mkdir(f"{room}/{crate.name}")
        here, told = tools.copy_with(rt, crate, edits, f"{room}/{crate.name}")
        if home.name != crate.name:
            for part in rt.rtlib.PARTS:
                if os.path.isdir(f"{home.folder}/{part}"):
                    shutil.copytree(f"{home.folder}/{part}", f"{room}/{home.name}/{part}")
        words = words_of(crate, home, room, hook(it.changes, home, f"{room}/{home.name}", names))
        ran = tools.run(rt, words, f"{room}/{home.name}", [home, *home.below()]) if here else None
    return here, told, ran, refused_of(ran.stdout, names, tools.SHOWS_NOTHING) if ran else set()
