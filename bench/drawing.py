"""Pictures of figures as SVG: rows of marks on a logarithmic scale, and panels of lines. They are 480 wide, so that at 400 pixels their text is
read as well as at 1200, and take the colours that the reader's system asks for, light or dark."""
import math
from typing import Dict, List, NamedTuple, Optional, Sequence
from xml.sax.saxutils import escape

WIDTH = 480

KINDS = ("pair", "baseline", "floor", "pty")

LIGHT = {"ground": "#ffffff", "text": "#1b1f24", "dim": "#57606a", "rule": "#d4d9df",
         "pair": "#1a5fd0", "baseline": "#b3530c", "floor": "#68717d", "pty": "#16803c"}
DARK = {"ground": "#0d1117", "text": "#e6edf3", "dim": "#9aa5b1", "rule": "#333b45",
        "pair": "#74aaff", "baseline": "#ffa25e", "floor": "#a3adb8", "pty": "#5fd68d"}


def colours(of: Dict[str, str]) -> str:
    """Rules of a style sheet, each colour spelt out: some programs that draw pictures know no variables."""
    told = [f"text {{ fill: {of['text']}; }} .ground {{ fill: {of['ground']}; }} .rule {{ stroke: {of['rule']}; }} .dim {{ fill: {of['dim']}; }}"]
    for kind in KINDS:
        told += [f".{kind} {{ fill: {of[kind]}; }}", f".line-{kind} {{ stroke: {of[kind]}; }}"]
    return " ".join(told)


STYLE = f"""
  text {{ font-family: system-ui, -apple-system, "Segoe UI", "DejaVu Sans", sans-serif; }}
  .line {{ fill: none; stroke-width: 2.5; }} .dashed {{ stroke-dasharray: 6 4; }}
  {colours(LIGHT)}
  @media (prefers-color-scheme: dark) {{ {colours(DARK)} }}
"""


class Series(NamedTuple):
    name: str
    kind: str  # pair, baseline, floor or pty
    values: Sequence[Optional[float]]


def text(x: float, y: float, said: str, size=13, anchor="start", kind="", weight="") -> str:
    words = f' class="{kind}"' if kind else ""
    words += f' font-weight="{weight}"' if weight else ""
    return f'<text x="{x:.1f}" y="{y:.1f}" font-size="{size}" text-anchor="{anchor}"{words}>{escape(said)}</text>'


def rule(x1: float, y1: float, x2: float, y2: float) -> str:
    return f'<line class="rule" x1="{x1:.1f}" y1="{y1:.1f}" x2="{x2:.1f}" y2="{y2:.1f}"/>'


def mark(kind: str, x: float, y: float) -> str:
    """A disc, a square, a bar or a diamond: each series has a shape of its own beside its colour."""
    if kind == "pair":
        return f'<circle class="pair" cx="{x:.1f}" cy="{y:.1f}" r="5.5"/>'
    if kind == "baseline":
        return f'<rect class="baseline" x="{x - 4.5:.1f}" y="{y - 4.5:.1f}" width="9" height="9"/>'
    if kind == "floor":
        return f'<rect class="floor" x="{x - 1.5:.1f}" y="{y - 7:.1f}" width="3" height="14"/>'
    return f'<path class="pty" d="M{x:.1f} {y - 6.5:.1f}l6.5 6.5l-6.5 6.5l-6.5 -6.5z"/>'


def picture(title: str, told: str, height: float, parts: List[str]) -> str:
    head = (f'<svg xmlns="http://www.w3.org/2000/svg" viewBox="0 0 {WIDTH} {height:.0f}" role="img" aria-labelledby="title told">\n'
            f'<title id="title">{escape(title)}</title>\n<desc id="told">{escape(told)}</desc>\n<style>{STYLE}</style>\n'
            f'<rect class="ground" width="100%" height="100%"/>\n')
    return head + "\n".join(parts) + "\n</svg>\n"


def legend(series: Sequence[Series], y: float) -> List[str]:
    parts, x = [], 18.0
    for one in series:
        parts += [mark(one.kind, x, y - 4), text(x + 11, y, one.name, 13, kind=one.kind)]
        x += 30 + 7.2 * len(one.name)
    return parts


def short(n: float) -> str:
    if n >= 1024 and n % 1024 == 0:
        return f"{n / 1024:.0f}k"
    for size, word in ((1e6, "M"), (1e3, "k")):
        if n >= size:
            return f"{n / size:.3g}{word}"
    return f"{n:.3g}"


def marks_in_rows(title: str, unit: str, noted: str, names: Sequence[str], notes: Sequence[str], series: Sequence[Series]) -> str:
    """A row for each name: its marks on one logarithmic scale, joined from the least to the most, and a note at its end."""
    left, right, top, step = 14, WIDTH - 14, 108, 42
    found = [value for one in series for value in one.values if value]
    low, high = math.floor(math.log10(min(found))), math.ceil(math.log10(max(found)))
    at = lambda value: left + (right - left) * (math.log10(value) - low) / (high - low)
    bottom = top + step * len(names)
    parts = [text(14, 26, title, 16, weight="600"), *legend(series, 50), text(right, 69, noted, 12, "end", "dim")]
    for power in range(low, high + 1):
        x = at(10**power)
        parts.append(rule(x, top - 16, x, bottom))
        anchor, said = {low: "start", high: "end"}.get(power, "middle"), short(10**power) + (f" {unit}" if power == low else "")
        parts.append(text(x, top - 22, said, 12, anchor, "dim"))
    for i, (name, note) in enumerate(zip(names, notes)):
        y = top + step * i
        # A row's text stands on the ground, so that no rule runs through its letters.
        parts.append(f'<rect class="ground" x="0" y="{y - 1:.1f}" width="{WIDTH}" height="18"/>')
        parts += [text(14, y + 13, name, 13), text(right, y + 13, note, 13, "end", "pair", "600")]
        there = [one.values[i] for one in series if one.values[i]]
        parts.append(rule(at(min(there)), y + 27, at(max(there)), y + 27))
        parts += [mark(one.kind, at(one.values[i]), y + 27) for one in reversed(series) if one.values[i]]
    values = lambda i: ", ".join(f"{one.name} {one.values[i]:,.0f}" for one in series if one.values[i])
    return picture(title, "; ".join(f"{name}: {values(i)}" for i, name in enumerate(names)), bottom + 12, parts)


class Panel(NamedTuple):
    title: str
    unit: str
    sizes: Sequence[str]
    series: Sequence[Series]


def lines_in(panel: Panel, x: float, y: float, width: float, height: float) -> List[str]:
    """A panel: a line for each series over sizes that stand side by side, from 0 up."""
    left, right, top, bottom = x + 8, x + width - 8, y + 46, y + height - 22
    found = [value for one in panel.series for value in one.values if value is not None]
    most = nice(max(found) * 1.08)
    across = lambda i: left + 14 + (right - left - 28) * i / max(len(panel.sizes) - 1, 1)
    up = lambda value: bottom - (bottom - top) * value / most
    parts = [text(left, y + 16, panel.title, 13.5, weight="600"), text(left, y + 32, panel.unit, 12, kind="dim")]
    for part in (0, 0.5, 1):
        parts += [rule(left, up(most * part), right, up(most * part)), text(right, up(most * part) - 3, short(most * part), 11, "end", "dim")]
    for i, size in enumerate(panel.sizes):
        parts.append(text(across(i), bottom + 15, size, 11.5, "middle", "dim"))
    for one in reversed(panel.series):
        dots = [(across(i), up(value)) for i, value in enumerate(one.values) if value is not None]
        path = " ".join(f"{a:.1f},{b:.1f}" for a, b in dots)
        dashed = " dashed" if one.kind == "baseline" else ""
        parts.append(f'<polyline class="line line-{one.kind}{dashed}" points="{path}"/>')
        parts += [mark(one.kind, a, b) for a, b in dots]
    return parts


def nice(n: float) -> float:
    """The next of 1, 2, 3, 4, 5, 6, 8 times a power of ten."""
    power = 10 ** math.floor(math.log10(n))
    return next((step * power for step in (1, 1.5, 2, 3, 4, 5, 6, 8) if step * power >= n), 10 * power)


def panels(title: str, named: Sequence[Series], each: Sequence[Panel]) -> str:
    """Panels in two columns below one legend."""
    width, height, top = WIDTH / 2, 178, 62
    parts = [text(14, 26, title, 16, weight="600"), *legend(named, 50)]
    for i, panel in enumerate(each):
        parts += lines_in(panel, 6 + i % 2 * (width - 6), top + i // 2 * height, width - 6, height)
    values = lambda panel, one: " ".join(f"{size}: {value:,.0f}" for size, value in zip(panel.sizes, one.values))
    lines = lambda panel: ", ".join(f"{one.name} {values(panel, one)}" for one in panel.series)
    told = "; ".join(f"{panel.title}, {panel.unit}: {lines(panel)}" for panel in each)
    return picture(title, told, top + (len(each) + 1) // 2 * height + 8, parts)
