"""The tables of docs/PERFORMANCE.md, from the figures that bench/instructions and bench/run measured."""
import textwrap
from typing import Any, Callable, Dict, List, Sequence


def table(heads: Sequence[str], rows: Sequence[Sequence[Any]]) -> str:
    lines = [f"| {' | '.join(str(cell) for cell in row)} |" for row in (heads, *rows)]
    return "\n".join([lines[0], "|" + "---|" * len(heads), *lines[1:]])


def whole(n):
    return "" if n is None else f"{n:,.0f}"


def ratio(a, b, places=1):
    return f"{a / b:.{places}f}" if b else ""


def micro(ns):
    return "" if ns is None else f"{ns / 1000:,.1f}"


def rounds(f):
    heads = ["Instructions of", "pair", "baseline", "ratio", "floor", "entries", "bytes"]
    rows = []
    for r in f["instructions"]["rounds"]:
        pair, plain = r["pair"], r["baseline"]
        rows.append([r["what"], whole(pair), whole(plain), ratio(pair, plain), whole(r["floor"]), whole(r["entries"]), whole(r["bytes"])])
    return table(heads, rows)


def pairs(f):
    heads = ["A new pair, and its end", "pair, instructions", "baseline", "pair, CPU µs", "baseline", "Linux pty"]
    took = {r["blocks"]: r for r in f.get("times", {}).get("pairs", [])}
    rows = []
    for r in f["instructions"]["pairs"]:
        t = took.get(r["blocks"], {})
        took_each = [micro(t.get(kind)) for kind in ("pair", "baseline", "pty")]
        rows.append([f"of {r['blocks']:,} blocks", whole(r["pair"]), whole(r["baseline"]), *took_each])
    return table(heads, rows)


def stores(f):
    rows = [[r["what"], whole(r["pair"]), whole(r["tables"]), ratio(r["pair"], r["tables"], 2)] for r in made_once(f["instructions"]["rounds"])]
    return table(["Instructions of", "raw blocks", "tables", "ratio"], rows)


def made_once(rows: List[Dict[str, Any]]) -> List[Dict[str, Any]]:
    """The rounds without those that differ in the baseline alone."""
    return [r for r in rows if "which the baseline" not in r["what"]]


def images(f):
    rows = [[r["what"], whole(r["pair"]), whole(r["bytes"])] for r in f["instructions"]["images"]]
    return table(["Instructions of", "pair", "bytes of the image"], rows)


def profile(f):
    rows = []
    for r in f["zeroing"]:
        most = ", ".join(f"`{name}` {n:,}" for name, n in r["own"])
        rows.append([r["what"], whole(r["total"]), most])
    return table(["A round of", "instructions", "most of it in"], rows)


def zeroing(f):
    rows = []
    for r in f["zeroing"]:
        most = ", ".join(f"`{name}` {n:,}" for name, n in r["functions"])
        clears = r["memset"] + r["stores"]
        rows.append([r["what"], whole(r["total"]), whole(r["memset"]), whole(r["stores"]), f"{100 * clears / r['total']:.0f} %", most])
    return table(["A round of", "instructions", "in memset", "stores of zero", "share", "most of it in"], rows)


def times(f):
    heads = ["A round of, ns", "pair", "baseline", "ratio", "floor", "Linux pty", "first use: pair", "baseline", "ratio"]
    rows = []
    for r in f["times"]["rounds"]:
        first = r["first"]
        rows.append([r["what"], whole(r["pair"]), whole(r["baseline"]), ratio(r["pair"], r["baseline"]), whole(r["floor"]), whole(r.get("pty")),
                     whole(first["pair"]), whole(first["baseline"]), ratio(first["pair"], first["baseline"])])
    return table(heads, rows)


def growth(f):
    rows = []
    for r in f["growth"]:
        rows += [[f"{n:,} {r['what']}", whole(pair), whole(plain)] for n, pair, plain in zip(r["sizes"], r["pair"], r["baseline"])]
    bands = f.get("library", {}).get("bands")
    if bands:
        each = zip(bands["sizes"], bands["pair"], bands["baseline"])
        rows += [[f"a message in each of {n:,} bands, for each", whole(pair), whole(plain)] for n, pair, plain in each]
    return table(["Instructions of a byte beside", "pair", "baseline"], rows)


def growth_times(f):
    rows = [[r["what"], whole(r["pair"]), whole(r["baseline"])] for r in f["times"]["growth"]]
    return table(["A round of a byte beside, ns", "pair", "baseline"], rows)


def modes(f):
    rows = [[r["what"], whole(r["first"]), f"{r['to'][0]:.1f}", whole(r["steady"]), f"{r['to'][1]:.1f}"] for r in f["times"]["modes"]]
    return table(["256 bytes by", "first use, ns", "to raw", "steady, ns", "to raw"], rows)


def image_times(f):
    rows = [[r["what"], whole(r["ns"]), whole(r["bytes"] / r["ns"] * 1000) if r["bytes"] else ""] for r in f["times"]["images"]]
    return table(["Of a pair with 20 full blocks", "CPU ns", "MB/s"], rows)


def one_thread(f):
    counts, times_of = f["system"]["instructions"], f["times"]["threads"]["one"]
    first = times_of[0]
    rows = []
    for r in times_of:
        count = counts[r["what"]]
        rows.append([r["what"], whole(count), ratio(count, counts[first["what"]], 2), whole(r["steady"]), ratio(r["steady"], first["steady"])])
    return table(["A round of 1 byte on one thread", "instructions", "to `Pair::call`", "steady, CPU ns", "to `Pair::call`"], rows)


def threads(f):
    many = f["times"]["threads"]["many"]
    rows = [[r["what"], *[cell for n, one in zip(r["calls"], many[0]["calls"]) for cell in (whole(n), ratio(n, one, 2))]] for r in many]
    return table(["Threads", "system", "to one", "`Mutex` round a plain pair", "to one", "`Mutex` round a queue", "to one"], rows)


def calls(f):
    rows = [[row[0], *[whole(n) for n in row[1:]]] for row in f["library"]["calls"]]
    return table(["A round of, ns", "pair, CPU", "clock", "Linux pty, CPU", "clock"], rows)


SERVER = ["Terminals", "memory, MB", "kB each", "to make one, µs", "a keystroke, µs", "descriptors",
          "Linux ptys", "memory, MB", "kB each", "to make one, µs", "a keystroke, µs", "descriptors"]


def server(f):
    """The last row is ten times the one before it."""
    told = f["library"]["sessions"]
    rows = []
    for ours, theirs in zip(told[::2], told[1::2]):
        wanted, got = ours[1], theirs[2]
        rows.append([whole(wanted), *costs(ours[3:]), whole(got) + ("" if got == wanted else ", and no more"), *costs(theirs[3:])])
    last = [whole(told[-2][1] * 10) + ", reckoned", whole(told[-2][3] * 10), *rows[-1][2:6], "more than the kernel gives", *[""] * 5]
    return table(SERVER, [*rows, last])


def costs(told):
    mb, each, made, key, descriptors = told
    return [whole(mb), f"{each:.0f}", f"{made:.1f}", f"{key:.2f}", whole(descriptors)]


# ---------------------------------------------------------------------------------------------------- sentences with figures in them


# What a Linux pty takes on another machine (docs/PERFORMANCE.md, *From C and from Python*), in µs: a keystroke, and 4096 bytes of output.
OTHER_PTY = (2.3, 14.6)


def readme(f) -> str:
    rows, calls_of = ({row[key]: row for row in rows} for key, rows in (("what", f["instructions"]["rounds"]), (0, f["library"]["calls"])))
    byte, key = rows["1 byte, no modules"], rows["a keystroke, and its echo read"]
    typed, output = calls_of[key["what"]], calls_of["output of 4096 bytes with a newline each 80"]
    nanoseconds = f["times"]["rounds"][0]["pair"]
    return (
        f"A round of a byte (write, turn, read) takes {byte['pair']:,} instructions and {nanoseconds:.0f} ns: "
        f"{ratio(byte['pair'], byte['baseline'])} times the instructions of the leanest plain program of the same behaviour, without proof, that we "
        f"could write. A keystroke with its echo read takes {typed[1] / 1000:.2f} µs from C ({ratio(key['pair'], key['baseline'])} times), where a "
        f"Linux pty takes {typed[3] / 1000:.1f} of the processor, and {OTHER_PTY[0]} on another machine; 4096 bytes of output "
        f"{output[1] / 1000:.1f} µs, a Linux pty {output[3] / 1000:.1f} and {OTHER_PTY[1]}; an image of a terminal {f['library']['image_ns'] / 1000:.2f}."
    )


def reserved(f) -> str:
    of = f["instructions"]["reserved"]
    return f"As valgrind sees it, a block reserves {of['block']:.1f} bytes, and an entry {of['entry']:.1f}."


def system(f) -> str:
    return f"`bench/run` measures such a system, by valgrind's dhat: {f['system']['bytes']:,} bytes at most."


def scripts(f) -> str:
    short, long = (n / 1e6 for n in f["times"]["scripts"])
    return (
        f"A script goes through at {short:.1f} million lines a second (a third each of writes, runs and reads of a byte), and at {long:.2f} million "
        "with texts of 250 bytes."
    )


def library(f) -> str:
    lib, pair = f["library"], f["instructions"]["rounds"][1]["pair"]
    return (
        f"A call through libstrm takes {(lib['raw_byte'] - pair) / 3:.0f} instructions beside the pair's own: `./calls 1 2000` less "
        f"`./calls 1 1000`, counted by callgrind, is {lib['raw_byte']:,} a round of 1 byte in raw mode, which are three calls, and the first "
        f"table has {pair:,} of the pair. An entry taken by strm_next_entry takes {lib['entry_ns']} ns, and strm_image of a terminal at "
        f"rest, {lib['image_bytes']} bytes, {lib['image_ns'] / 1000:.2f} microseconds (`./calls` tells both below the table)."
    )


def python(f) -> str:
    line, refused, recorded = f["library"]["line"]
    return (
        f"`python3 bench/line.py`: a typed line from Python, which is a write, the turns and two reads, takes {line:.1f} microseconds; a read that "
        f"is refused {refused:.1f}; a line whose seven entries a recorder takes {recorded:.0f}."
    )


TABLES = (rounds, pairs, stores, images, profile, zeroing, times, growth, growth_times, modes, image_times, one_thread, threads, calls, server)
SENTENCES = (readme, reserved, system, scripts, library, python)

# How each is called in a document: by its name, with hyphens.
NAMES: Dict[str, Callable[[Dict[str, Any]], str]] = {of.__name__.replace("_", "-"): of for of in (*TABLES, *SENTENCES)}


def all_of(f: Dict[str, Any]) -> Dict[str, str]:
    """Each table and sentence whose figures were measured."""
    made = {}
    for name, of in NAMES.items():
        try:
            text = of(f)
        except KeyError:
            continue
        made[name] = text if of in TABLES else textwrap.fill(text, 150, break_long_words=False, break_on_hyphens=False)
    return made
