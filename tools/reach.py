"""Which definitions the proof of a function or a lemma can reach, by the text alone: for tools/wrong.

A declaration is one of a crate's files of specs/ and proofs/, or a function or a constant of its src/. It reaches each one that a word of its text
names there, by the file's own declarations and by what the file imports, also through files that pass it on (`pub use`), what those reach, and so
on. A function's text has its contract, its body and the files of its proof in it. A variable that is spelled like a definition reaches that one too: more is reached than a proof uses, and never
less.
"""
import glob
import os
import re

WORD = re.compile(r"[^\s(){}\[\],;.:=\"⟦⟧⌜⌝`&|*!?<>@#/\\◌]+")
MODIFIERS = re.compile(r"(?:(?:abbrev|pub|record|data|private|axiom) )*")
USE = re.compile(r"^(?:(?:unfoldable )?pub |ghost )?use (Rattle\.[\w.«»+-]+?)(?:\.\{([^}]*)\}| as (\w+))?;?$", re.M)
PASSED = re.compile(r"^(?:unfoldable )?pub use (Rattle\.[\w.«»+-]+?)\.\{([^}]*)\}$", re.M)
FUNCTION = re.compile(r"^(?: *#\[[^\n]*\]\n+)* *(?:pub(?:\([a-z ]+\))? )?(?:(?:const |unsafe |extern \"C\" )*fn|const) (\w+)", re.M)
COMMENT = re.compile(r"^ *//.*\n", re.M)


def text_of(path):
    with open(path, encoding="utf-8", errors="replace") as file:
        return file.read()


def declarations(text):
    """{name: text} of an .antt file, all lines of a name together; what stands in a `module` has the module's head with it."""
    found, heads, current = {}, [(0, "")], None
    for line in text.split("\n"):
        indent, body = len(line) - len(line.lstrip(" ")), line.strip()
        if not body or body.startswith(("--", "use ", "pub use ", "mod ", "pub mod ")):
            continue
        inside = [it for it in heads if it[0] <= indent]
        if indent == inside[-1][0] and body[0] not in "({[})]" and not body.startswith("unfolding"):
            heads = inside
            if body.startswith("module "):
                heads, current = [*inside, (indent + 2, f"{inside[-1][1]}\n{body}")], None
                continue
            name = WORD.search(body, MODIFIERS.match(body).end())
            current = name[0] if name else body
        if current is None:
            heads[-1] = (heads[-1][0], f"{heads[-1][1]}\n{body}")
        else:
            found[current] = f"{found.get(current, heads[-1][1])}\n{body}"
    return found


def functions(text):
    """{name: text} of the functions and constants of a file of src/, each up to the next one; methods of one name together."""
    text, found = COMMENT.sub("", text), {}
    starts = [(it.start(), it[1]) for it in FUNCTION.finditer(text)]
    for (at, name), (after, _) in zip(starts, [*starts[1:], (len(text), "")]):
        found[name] = found.get(name, "") + text[at:after]
    return found


def file_of(module):
    """(crate, path) of the file that a module is."""
    crate, _, inside = module[len("Rattle."):].partition(".")
    return crate, inside.replace(".", "/") + ".antt"


def each_name(names):
    """(name, what it is called here) of each in the braces of a line `use`; the second is empty where that is the same."""
    for name in filter(None, (it.strip() for it in names.split(","))):
        given, _, own = name.partition(" as ")
        yield given, own


class Texts:
    """The declarations of some crates, each known as (crate, path, name)."""

    def __init__(self, folders):
        self.text, self.uses, self.inside, self.named, self.brings, self.stepped, self.back = {}, {}, {}, {}, {}, {}, {}
        self.passed = {}
        for crate, folder in folders.items():
            for part in ("src", "specs", "proofs"):
                for path in glob.glob(f"{folder}/{part}/**/*.*", recursive=True):
                    self.take(crate, os.path.relpath(path, folder), text_of(path))

    def take(self, crate, path, text):
        told = functions(text) if path.endswith(".rt") else declarations(text)
        for name, words in told.items():
            self.text[crate, path, name] = words
            if path.endswith(".rt"):
                for known in (name, (crate, name)):
                    self.named.setdefault(known, set()).add((crate, path, name))
        self.uses[crate, path] = USE.findall(text)
        for module, names in PASSED.findall(text):
            for given, own in each_name(names):
                self.passed[crate, path, own or given] = (file_of(module), given)
        self.inside[crate, path] = [(crate, path, name) for name in told]

    def imports(self, crate, path):
        """{word: declarations} of what a file's lines `use` bring in, and of its own declarations."""
        found = {}
        for module, names, alias in self.uses[crate, path]:
            file = file_of(module)
            for given, own in each_name(names):
                for word in WORD.findall(own or given):
                    found.setdefault(word, set()).update(self.called(file, given))
            if alias:
                found.setdefault(alias, set()).update(self.inside.get(file, ()))
        for it in self.inside[crate, path]:
            for word in WORD.findall(it[2]):
                found.setdefault(word, set()).add(it)
        return found

    def called(self, file, name):
        """What a name of a module is: a declaration of that file or one that it passes on, or, of a function's own modules, the function."""
        it = (*file, name)
        if it in self.passed:
            return self.called(*self.passed[it])
        if file in self.uses:
            return {it} if it in self.text else set()
        of, path = file
        words = path[:-len(".antt")].split("/")
        if words[-1] == "TheConstants":
            return self.named.get((of, name), set())
        return self.named.get((of, words[-2]), set()) if words[0] == "proofs" and len(words) > 2 else set()

    def steps(self, it):
        """The declarations that the text of one names. A function names those of its crate and of the crates below by their last words."""
        if it not in self.stepped:
            crate, path, _ = it
            if (crate, path) not in self.brings:
                self.brings[crate, path] = self.imports(crate, path)
            brings, found = self.brings[crate, path], set()
            for word in {*WORD.findall(self.text[it])}:
                found |= brings.get(word, set())
                if path.endswith(".rt"):
                    found |= self.named.get(word, set())
            self.stepped[it] = found
        return self.stepped[it]

    def of(self, witness):
        """The declarations that a witness is: a lemma's, CRATE::proofs::FILE::NAME, or a function's and those of the files of its proof."""
        crate, *inside, name = witness.split("::")
        if inside[:1] == ["proofs"]:
            file = (crate, f"proofs/{'/'.join(inside[1:])}.antt")
            return {it for it in self.inside.get(file, ()) if it[2] == name}
        folder = f"proofs/{'/'.join([*inside, name])}/"
        own = self.named.get((crate, name), set())
        return own | {it for it in self.text if it[0] == crate and it[1].startswith(folder)} if own else own

    def reached(self, witness):
        """All that a witness reaches, itself with it."""
        return closed(self.of(witness), self.steps)

    def reaching(self, them):
        """All that reach one of these, themselves with them."""
        if not self.back:
            for it in self.text:
                for step in self.steps(it):
                    self.back.setdefault(step, set()).add(it)
        return closed(them, lambda it: self.back.get(it, set()))


def closed(them, steps):
    """These and all to which steps lead from them."""
    left, found = [*them], set()
    while left:
        it = left.pop()
        if it not in found:
            found.add(it)
            left += steps(it) - found
    return found


def changed(crate, path, old, new):
    """The declarations of a file that differ between two texts of it; where what it imports differs, also those that name what does."""
    told = functions if path.endswith(".rt") else declarations
    was, after = told(old), told(new)
    names = {name for name in {*was, *after} if was.get(name) != after.get(name)}
    words = [{word for line in re.findall(r"^use .*", text, re.M) for word in WORD.findall(line)} for text in (old, new)]
    names |= {name for name, told in was.items() if (words[0] ^ words[1]) & {*WORD.findall(told)}}
    return {(crate, path, name) for name in names}
