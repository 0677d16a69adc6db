"""Whether what READMEs claim is there: for tools/readme.

In a section 'What is proved' each `name` is one of the crate or of those below it: a function, one of its clauses, a type, a field, a definition, a
file. Names in brackets behind a function, as in "`Queue::putq` (clauses `placed`, `enables`)" or "(`put_joins_its_lane`: `lanes`, `order`)", are
clauses of that function, or of those that stand beside it; or definitions that a clause of it cites.
"""
import pathlib
import re

FUNCTION = re.compile(r"^ *(?:pub(?:\([a-z ]+\))? )?(?:const |unsafe |extern \"C\" )*fn (\w+)", re.M)
IMPL = re.compile(r"^(?:impl|pub trait|trait)\b(?:<[^{]*?>(?= ))?\s*([^{;]*?)\{", re.M | re.S)
CLAUSE = re.compile(r"\b(?:ensures|requires)\*? (\w+) \{")
COMMENT = re.compile(r"^\s*//.*$", re.M)
DECLARED = re.compile(r"^\s*(?:abbrev |pub |record |data )+([^\s:(){}]+)", re.M)
# Words of the language, of the subject and of the lines of strm_vectors, which are no names of a crate.
PLAIN = {"requires", "ensures", "Send", "AllocError", "Ok", "Err", "None", "Some", "Vec", "Box", "b_cont", "db_ref", "pckt", "also", "flip", "from1"}


class Names:
    """The functions of a crate with their clauses; its functions, types, modules and definitions; and these with all fields and variants."""

    def __init__(self, folder):
        self.clauses, self.named, self.others = {}, set(), {folder.name}
        for path in sorted((folder / "src").rglob("*.rt")):
            self.named |= {path.stem, *path.relative_to(folder / "src").parts[:-1]}
            self.take(path.read_text())
        for part in ("specs", "proofs"):
            for path in (folder / part).rglob("*.antt"):
                self.named |= {path.stem, *DECLARED.findall(path.read_text())}
                self.others |= {*re.findall(r"\b([A-Za-z_]\w*) :", path.read_text())}
        self.named |= {*self.clauses}
        self.others |= self.named

    def take(self, text):
        text = COMMENT.sub("", text)
        self.named |= {*re.findall(r"\b(?:struct|enum|trait|type|const|static|mod|ghost) (\w+)", text)}
        self.others |= {*re.findall(r"^\s+(?:pub )?(\w+)(?:[:,(]| \{)", text, re.M)}
        starts = [(it.start(), it[1]) for it in FUNCTION.finditer(text)]
        for (at, name), (after, _) in zip(starts, [*starts[1:], (len(text), "")]):
            impls = [it for it in IMPL.finditer(text, 0, at)]
            inside = impls and text[at:at + 1] == " "
            kinds = {word for word in re.findall(r"\w+", impls[-1][1])} if inside else set()
            for known in (name, *(f"{kind}::{name}" for kind in kinds)):
                self.clauses.setdefault(known, set()).update(CLAUSE.findall(text[at:after]))

    def has(self, word):
        return word in self.others or any(word in it for it in self.clauses.values())

    def is_inside(self, path):
        """Whether a path is of a module and a function or a type of it."""
        parts = path.split("::")
        return len(parts) > 1 and parts[0] in self.others and self.has(parts[-1])


BESIDE, PURE = r"((?:`[\w:]+`(?:, | and |, and ))*`[\w:]+`)", r"(?:clauses? )?((?:`\w+`(?:, | and )?)+)"


def told(crate, names, every, section):
    """What a section claims that isn't so; every are the crate's names and those of the crates that it speaks of."""
    for name in re.findall(r"`([^`]+)`", section):
        word = re.sub(r"^\w+::(?=[A-Z]\w*::)", "", name.split("(")[0].split("<")[0])
        if re.fullmatch(r"[A-Za-z_]\w*(::\w+)*", word) and word not in PLAIN and not any(it.has(word) or it.is_inside(word) for it in every):
            yield f"`{name}` is nothing of {crate}"
    for group, clauses in re.findall(rf"{BESIDE} \({PURE}\)", section) + re.findall(rf"\({BESIDE}: {PURE}[);]", section):
        functions = [it for it in re.findall(r"`([\w:]+)`", group) if it in names.clauses]
        for clause in re.findall(r"`(\w+)`", clauses) if functions else []:
            if not any(clause in names.clauses[it] for it in functions) and clause not in names.clauses:
                yield f"`{clause}` is no clause of {' or '.join(functions)}"
    for clause in re.findall(r"`(\w+)`", " ".join(re.findall(rf"\({PURE}\)", section))):
        if not any(clause in it for it in names.clauses.values()) and not any(clause in it.named for it in every):
            yield f"`{clause}` is no clause of {crate}, and no function, type or definition"


def section_of(page, heading):
    found = re.search(rf"^## {heading}\n(.*?)(?=^## |\Z)", page.read_text() if page.exists() else "", re.S | re.M)
    return re.sub(r"\s+", " ", found[1]) if found else ""


def wrong():
    """What the READMEs claim of functions and clauses that isn't so."""
    lines = [line.split("#")[0].replace("staticlib", "") for line in pathlib.Path("crates.txt").read_text().split("\n")]
    on = {line.split(":")[0].strip(): line.split(":")[1].split() for line in lines if ":" in line}
    names = {crate: Names(pathlib.Path("crates", crate)) for crate in on}
    crates = re.compile(rf"`(?:{'|'.join({*on, *(dep for deps in on.values() for dep in deps)})})`")
    for crate, deps in on.items():
        page = pathlib.Path("crates", crate, "README.md")
        every = [names[it] for it in on if it in (crate, "strm_laws", *deps)]
        for why in told(crate, names[crate], every, crates.sub("", section_of(page, "What is proved"))):
            yield f"{page}: {why}"
    for name in {*re.findall(r"`([A-Za-z_]\w*(?:::\w+)*)`", crates.sub("", section_of(pathlib.Path("README.md"), "What is proved.*")))} - PLAIN:
        if not any(it.has(name) or it.is_inside(name) for it in names.values()):
            yield f"README.md: `{name}` is nothing of any crate"
