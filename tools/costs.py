"""What the gate costs: the figures that tools/gate.py keeps of its runs, and the table of docs/GATE.md, which is made of them."""
import collections
import glob
import json
import os
import textwrap

PAGE, HEADING, FIGURES = "docs/GATE.md", "## What it costs", "tools/costs.json"
PARTS = ("proof", "tests", "built", "wrong")
# What the proofs and tests of 1000 lines may take, in CPU minutes, in crates of so many lines: smaller ones take what they load.
RATE_MOST, LINES_LEAST = 3, 300

Row = collections.namedtuple("Row", "crate lines proof tests built edits wrong")


def text_of(path):
    try:
        with open(path, "rb") as file:
            return file.read().decode(errors="replace")
    except OSError:
        return ""


def crates():
    lines = (line.split("#")[0].split(":")[0].split() for line in text_of("crates.txt").splitlines())
    return [words[0] for words in lines if words]


def lines_of(crate):
    """How many lines its source has, with its tests."""
    return sum(text_of(path).count("\n") for path in glob.glob(f"crates/{crate}/src/**/*.rt", recursive=True))


def wrong_of(crate):
    return len(glob.glob(f"crates/{crate}/wrong/*.edit"))


def parts_of(seen):
    """What a run's processes have used of the processor, by crate and part, in seconds."""
    parts = collections.defaultdict(dict)
    for process in seen:
        own = parts[process.crate]
        own[process.part] = round(own.get(process.part, 0) + process.seconds, 1)
    return parts


def whole_of(wall, used, lanes, closing, parts):
    """What is told of a run from nothing as a whole."""
    wrong = sum(own.get("wrong", 0) for own in parts.values())
    return {
        "closing": closing,
        "minutes": round(wall / 60),
        "cores": len(os.sched_getaffinity(0)),
        "lanes": lanes,
        "processor": round(used / 60),
        "wrong": round(100 * wrong / max(used, 1)),
    }


def kept():
    return json.loads(text_of(FIGURES) or '{"crates": {}, "wholes": []}')


def joined(before, parts, whole):
    """The kept figures with those of a run in their place: the parts of the crates that it was at; or, of a whole run, its line, and all parts where
    no whole run in fewer lanes is kept, as what stands in more of them takes longer."""
    others = [one for one in before["wholes"] if whole and one["lanes"] != whole["lanes"]]
    if any(one["lanes"] < whole["lanes"] for one in others):
        parts, kept_parts = {}, before["crates"]
    else:
        kept_parts = {} if whole else before["crates"]
    named = set(crates())
    both = {crate: {**kept_parts.get(crate, {}), **parts.get(crate, {})} for crate in sorted({*kept_parts, *parts} & named)}
    wholes = sorted([*others, whole], key=lambda one: one["lanes"]) if whole else before["wholes"]
    return {"crates": both, "wholes": wholes}


def rate_of(row):
    """What the proofs and tests of 1000 lines take, in CPU minutes."""
    return (row.proof + row.tests) / 60 / max(row.lines, 1) * 1000


def is_dear(row):
    return row.lines >= LINES_LEAST and rate_of(row) > RATE_MOST


def cost_of(row):
    return row.proof + row.tests + row.built + row.wrong


def row_of(row):
    rate, built = f"{rate_of(row):.1f}", f"{row.built:.0f}"
    return f"| {row.crate} | {row.lines} | {row.proof:.0f} | {row.tests:.0f} | {rate} | {built} | {row.edits} | {row.wrong:.0f} |"


def together(name, rows):
    return Row(name, *(sum(row[at] for row in rows) for at in range(1, len(Row._fields))))


def said(whole):
    """A line below the table; what went on beside the run stands in the figures by hand."""
    beside = f", beside {whole['beside']}" if "beside" in whole else ""
    clock = f"{whole['minutes']} minutes by the clock on {whole['cores']} cores in {whole['lanes']} lanes"
    line = f"`{whole['closing']}`: {clock}, {whole['processor']} of the processor; wrong bodies are {whole['wrong']} % of it{beside}."
    return textwrap.fill(line, 150)


def table(figures):
    """A row for each crate that takes a twenty-fifth of the whole, or more than its lines may, one for all others, and one for all."""
    rows = []
    for crate in crates():
        proof, tests, built, wrong = (figures["crates"].get(crate, {}).get(part, 0) for part in PARTS)
        if proof or tests or built or wrong:
            rows.append(Row(crate, lines_of(crate), proof, tests, built, wrong_of(crate), wrong))
    whole = together("all", rows)
    dear = [row for row in rows if cost_of(row) >= cost_of(whole) / 25 or is_dear(row)]
    rest = [row for row in rows if row not in dear]
    yield "| Crate | Lines, with tests | Proof, CPU s | Tests, CPU s | 1000 lines, CPU min | Program, CPU s | Wrong bodies | CPU s |"
    yield "|---|---|---|---|---|---|---|---|"
    yield from map(row_of, [*dear, *([together(f"{len(rest)} others", rest)] if rest else []), whole])
    for whole in figures["wholes"]:
        yield ""
        yield said(whole)


def write(figures):
    """Keeps the figures, and puts the table into docs/GATE.md, whose last section it is."""
    with open(FIGURES, "w", encoding="utf-8") as out:
        out.write(json.dumps(figures, indent=1) + "\n")
    head = text_of(PAGE).partition(HEADING)[0]
    with open(PAGE, "w", encoding="utf-8") as out:
        out.write("\n".join([head + HEADING, "", *table(figures), ""]))
