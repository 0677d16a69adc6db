"""What a line of a body, or a few, may become by one slip: for tools/mutants.

Kinds: a comparison turned, two operators exchanged, a condition turned (so its branches are swapped), a branch left out, two arms swapped, a constant
or a number one off, two arguments or two fields of one type exchanged, a variant (a refusal, say) exchanged with another of its type, a call left out
or made twice, a field not written, an early return.
"""
import glob
import os
import re

TURNED = [(" < ", " <= "), (" > ", " >= "), (" < ", " > "), (" <= ", " >= "), (" == ", " != ")]
OPERATORS = [(" && ", " || "), (" + ", " - "), (" += ", " -= "), (" / ", " * "), (" << ", " >> "), (" & ", " | "), (" |= ", " &= "),
             (".min(", ".max("), ("true", "false")]
PLAIN = [("if !", "if "), (" = !", " = ")]
NUMBER = re.compile(r"(?<![\w.\"'])(\d+)(u8|u16|u32|u64|usize)?(?![\w.]*[\"'])\b(?!\s*\])")
NAME = r"[a-z_][\w.]*"
VARIANT = re.compile(r"\b([A-Z]\w+)::([A-Z][A-Za-z0-9]*[a-z]\w*|[A-Z])\b(?!::)([({])?( \{)?")
STATEMENT = re.compile(r"^\s+(?=[\w*(])(?!let\b|return\b|break\b|continue\b|use\b|ghost\b|else\b)[\w.*:()&, \[\]+\-<>=!?|]+;$")
WRITTEN = re.compile(r"^\s+\*?[\w.\[\]]+ [-+|&]?= ")
ARM = re.compile(r"^(\s+)([^=]+?) => ([^{}]+),$")
FIELD = re.compile(r"^(\s+)(\w+): ([^{}]+),$")
CONDITION = re.compile(r"^(\s*(?:\} else )?(?:if|while)) (?!let\b|!)([^{}]+) \{$")
PASSED = re.compile(r"^\s*(?://|#|use\b|prove!|match )|[^\x00-\x7f]|unreachable|\.audit\(")
GHOST = re.compile(r"^\s*(?:ghost|invariant|decreases|requires|ensures|prove!)\b")
SIGNED = re.compile(r"^ *(?:pub(?:\([a-z ]+\))? )?(?:const )?(?:unsafe )?(?:extern \"C\" )?fn \w+")
RETURNED = [(r"bool", ["false", "true"]), (r"(?:u8|u16|u32|u64|usize)", ["0"]), (r"Option<.*>", ["None"]), (r"Result<\(\), \w+>", ["Ok(())"]),
            (r"", [""])]


def bodies(lines):
    """(the first and the last line of a body, without its braces, counted from 0, and the text up to it) of each function."""
    start = None
    for at, line in enumerate(lines):
        indent = re.match(r" *", line)[0]
        if SIGNED.match(line):
            start = [indent, at, at + 1 if line.endswith("{") else None]
        elif start and start[2] is None and line == f"{start[0]}{{":
            start[2] = at + 1
        elif start and start[2] is not None and line == f"{start[0]}}}":
            yield start[2], at - 1, "\n".join(lines[start[1]:start[2]])
            start = None


def returned_by(head):
    found = re.search(r"\) -> ([^{\n]+?)(?: where\b.*)?(?: \{)?$", head, re.M)
    return found[1].strip() if found else ""


def ghosts(lines):
    """The numbers of the lines on which a clause or a ghost stands, to its last brace."""
    found, depth, inside = set(), 0, False
    for at, line in enumerate(lines):
        inside = inside or bool(GHOST.match(line))
        if inside:
            found.add(at)
            depth += line.count("{") - line.count("}")
            inside = depth > 0
        depth = depth if inside else 0
    return found


def parts_of(text):
    """What stands between the commas of a text that are in no bracket, or None where a bracket isn't closed."""
    parts, depth = [""], 0
    for at, sign in enumerate(text):
        depth += (sign in "([{<") - (sign in ")]}" or sign == ">" and text[at - 1] not in "-=")
        if sign == "," and depth == 0:
            parts.append("")
        else:
            parts[-1] += sign
    return [it.strip() for it in parts if it.strip()] if depth == 0 else None


class Known:
    """What crates declare and name: the types of a function's parameters and of fields, and the variants of a type."""

    def __init__(self, crates):
        self.parameters, self.fields, self.variants = {}, {}, {}
        for path in (it for crate in crates for it in glob.glob(f"{crate.folder}/src/**/*.rt", recursive=True)):
            with open(path, encoding="utf-8") as file:
                text = re.sub(r"^ *//.*\n", "", file.read(), flags=re.M)
            for it in VARIANT.finditer(text):
                self.variants.setdefault((it[1], it[3]), set()).add(it[2])
            for it in re.finditer(r"\bfn (\w+)(?:<[^(]*>)?\(([^)]*(?:\(\)[^)]*)*)\)", text):
                given = parts_of(it[2].replace("\n", " ")) or []
                types = tuple(one.partition(":")[2].strip() for one in given if ":" in one)
                self.parameters.setdefault((it[1], len(types)), set()).add(types)
            for it in re.finditer(r"^ +(?:pub(?:\([a-z ]+\))? )?(\w+): ([A-Z&\[(]?[\w<>\[\]; ()&,]+),$", text, re.M):
                self.fields.setdefault(it[1], set()).add(it[2])

    def are_alike(self, one, other):
        """Whether fields of these names may have one type."""
        return one not in self.fields or other not in self.fields or bool(self.fields[one] & self.fields[other])

    def swaps(self, line):
        """The line with two arguments of one type exchanged, for each two of each call on it."""
        for found in re.finditer(r"\b(\w+)(?:::<[^>]*>)?\(", line):
            end = next((at for at in range(found.end(), len(line)) if line[at] == ")" and parts_of(line[found.end():at]) is not None), None)
            given = parts_of(line[found.end():end]) if end else None
            kinds = self.parameters.get((found[1], len(given or [])), set())
            for i in range(len(given or [])):
                for j in range(i + 1, len(given)):
                    if given[i] != given[j] and kinds and all(types[i] == types[j] for types in kinds):
                        new = [*given[:i], given[j], *given[i + 1:j], given[i], *given[j + 1:]]
                        yield f"{line[:found.end()]}{', '.join(new)}{line[end:]}"


def replaced(line, found, new, group=0):
    return line[:found.start(group)] + new + line[found.end(group):]


def operators(line):
    both_ways = [("comparison", TURNED), ("operator", OPERATORS)]
    for kind, pairs in (*both_ways, *((kind, [(new, old) for old, new in pairs]) for kind, pairs in both_ways), ("operator", PLAIN)):
        for old, new in pairs:
            if old == " | " and re.search("=>|::|^ *[|]", line) or old == " || " and " || -> " in line:
                continue  # (a choice of patterns, a closure)
            for found in re.finditer(rf"\b{old}\b" if old.isalpha() else re.escape(old), line):
                yield kind, replaced(line, found, new)


def values(line, known):
    for found in NUMBER.finditer(line):
        for number in (int(found[1]) + 1, int(found[1]) - 1):
            if number >= 0:
                yield "constant", replaced(line, found, str(number), 1)
    yield from (("argument", it) for it in known.swaps(line))
    pattern = line.find("=>") if "=>" in line else 0
    if re.search(r"\blet \w+::|matches!|^ *\|", line):
        return
    for found in VARIANT.finditer(line):
        if found.start() < pattern or found[4]:
            continue
        for other in sorted(known.variants.get((found[1], found[3]), set()) - {found[2]}):
            yield "variant", replaced(line, found, other, 2)


def statements(line):
    """What a whole line may become: nothing, itself twice, a branch that is turned or left out."""
    if STATEMENT.match(line) and line.count("(") == line.count(")"):
        if WRITTEN.match(line):
            yield "field not written", []
        elif "(" in line:
            yield "call left out", []
            yield "call twice", [line, line]
    found = CONDITION.match(line)
    if found:
        yield "branch turned", [f"{found[1]} !({found[2]}) {{"]
        yield "branch left out", [f"{found[1]} {found[2] if ' || ' not in found[2] else '(' + found[2] + ')'} && false {{"]


def returns(line, returned):
    if not re.match(r"^\s+(?:let |if |for |while |self\.|\w+\.\w+\()", line) or line.endswith(("(", ".")):
        return
    indent = re.match(r"\s*", line)[0]
    values_of = next((it for kind, it in RETURNED if re.fullmatch(kind, returned)), [])
    for it in values_of:
        yield "early return", [f"{indent}return {it};".replace(" ;", ";"), line]


def pairs(one, other, known, is_called):
    """What two lines, of a call's arguments or else, may become: what stands on the one is exchanged with what stands on the other."""
    for shape, kind in ((ARM, "arms swapped"), (FIELD, "argument")):
        first, second = shape.match(one), shape.match(other)
        if first and second and first[1] == second[1] and first[3] != second[3] and (shape is ARM or known.are_alike(first[2], second[2])):
            yield kind, [replaced(one, first, second[3], 3), replaced(other, second, first[3], 3)]
    first, second = (re.fullmatch(rf"(\s+)({NAME}),", it) for it in (one, other))
    if first and second and is_called:
        yield "argument", [other, one]
    elif first and second and known.are_alike(first[2], second[2]):
        yield "argument", [f"{first[1]}{first[2]}: {second[2]},", f"{first[1]}{second[2]}: {first[2]},"]


def stands_in_a_call(lines, at):
    """Whether what is round a line is a call, and not a struct's fields."""
    inner = len(lines[at]) - len(lines[at].lstrip())
    return next((it.endswith("(") for it in reversed(lines[:at]) if it.strip() and len(it) - len(it.lstrip()) < inner), False)


def slips_of(lines, at, known, head):
    """(kind, how many lines it takes the place of, the new lines) of each slip that begins on a line."""
    line = lines[at]
    if PASSED.search(line):
        return
    for kind, new in (*operators(line), *values(line, known)):
        if new != line:
            yield kind, 1, [new]
    for kind, new in (*statements(line), *returns(line, returned_by(head))):
        yield kind, 1, new
    if at + 1 < len(lines) and not PASSED.search(lines[at + 1]):
        for kind, new in pairs(line, lines[at + 1], known, stands_in_a_call(lines, at)):
            yield kind, 2, new


def tests_of(folder):
    """The files, and the folders, of the modules that stand under #[cfg(test)]."""
    found = []
    for path in glob.glob(f"{folder}/src/**/*.rt", recursive=True):
        with open(path, encoding="utf-8") as file:
            text = file.read()
        base = os.path.dirname(path) if os.path.basename(path) in ("lib.rt", "main.rt", "mod.rt") else path[:-3]
        for name in re.findall(r"#\[cfg\(test\)\]\n(?:pub )?mod (\w+);", text):
            found += [f"{base}/{name}.rt", f"{base}/{name}/"]
    return tuple(found)
