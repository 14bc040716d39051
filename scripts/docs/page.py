#!/usr/bin/env python3
"""Makes the page for the outside. Usage: scripts/docs/page.py >docs/generated/index.html

Its frame, style and scripts are in scripts/docs/page/; its words come from README.md (the first paragraph, the picture, the
commands) and docs/PROOFS.md (the theorem), its speeds from the newest file of bench/results that has them.
"""

import html
import math
import pathlib
import re
import sys

sys.dont_write_bytecode = True
TOP = pathlib.Path(__file__).resolve().parents[2]
sys.path.insert(0, str(TOP / "bench"))

import plot  # noqa: E402  bench/plot.py reads results

PARTS = pathlib.Path(__file__).resolve().parent / "page"
SIZE = "4096"
OTHERS = {"Jerasure": "jerasure", "ISA-L": "isal"}
# a panel of the speed picture, and the ratios that are marked, from its foot to its top
WIDE, HIGH, LEFT, GAP = 190, 150, 40, 26
MARKS = (0.5, 1, 2, 4, 8)


def section(path, head):
    """The text of a section of a document, up to the next head."""
    found = re.search(rf"^## {re.escape(head)}\n\n(.*?)(?=^## |\Z)", path.read_text(), re.M | re.S)
    if not found:
        sys.exit(f"page: {path.relative_to(TOP)} has no section '{head}'; scripts/docs/page.py takes words from it")
    return found[1].strip("\n")


def block(text):
    """The first indented block of a text, without its indent."""
    lines = re.search(r"(?:^ {4}.*\n|^\n(?= {4}))+", text + "\n", re.M)[0].strip("\n").split("\n")
    return "\n".join(line[4:] for line in lines)


def prose(text):
    """A paragraph with its code marked and its formulas kept on a line."""
    text = re.sub(r" ([-+]) ", "\u00a0\\1\u00a0", text)
    return "<p>" + re.sub(r"`([^`]+)`", r"<code>\1</code>", html.escape(text, quote=False)) + "</p>"


def newest():
    """The newest results of the benchmark of calls, by their date."""
    def date(path):
        return re.search(r"^Date: (.*)", path.read_text(), re.M)[1]
    found = [path for path in (TOP / "bench/results").glob("*.txt") if "### warm: Jerasure's" in path.read_text()]
    if not found:
        sys.exit("page: no results in bench/results; run bench/run")
    path = max(found, key=date)
    return path, date(path)


def place(ratio):
    """How far below a panel's top a ratio is."""
    if not MARKS[0] <= ratio <= MARKS[-1]:
        sys.exit(f"page: the ratio {ratio} does not fit the picture; widen MARKS in scripts/docs/page.py")
    return HIGH * (1 - math.log(ratio / MARKS[0]) / math.log(MARKS[-1] / MARKS[0]))


def panel(x, operation, ratios):
    """One operation: for each width a bar for each of the others, from 1 upward or downward."""
    yield f'<text x="{x + WIDE / 2:g}" y="14">{operation}</text>'
    for mark in MARKS:
        kind = ' class="one"' if mark == 1 else ""
        yield f'<line x1="{x}" x2="{x + WIDE}" y1="{GAP + place(mark):.1f}" y2="{GAP + place(mark):.1f}"{kind}/>'
    widths = sorted({int(p) for name, p, _, _ in ratios if name == operation})
    step = WIDE / len(widths)
    for i, p in enumerate(widths):
        for j, (other, kind) in enumerate(OTHERS.items()):
            ratio = ratios.get((operation, str(p), other, SIZE))
            if ratio is not None:
                top, foot = sorted((place(ratio), place(1)))
                yield (f'<rect x="{x + i * step + 6 + j * (step - 12) / 2:.1f}" y="{GAP + top:.1f}" width="{(step - 12) / 2 - 1:.1f}" '
                       f'height="{foot - top:.1f}" class="{kind}"><title>{other}, p = {p}: {ratio}</title></rect>')
        yield f'<text x="{x + (i + 0.5) * step:g}" y="{GAP + HIGH + 20}">{p}</text>'


def speed(ratios):
    wide = LEFT + len(plot.OPERATIONS) * (WIDE + GAP)
    parts = [f'<svg viewBox="0 0 {wide} {GAP + HIGH + 28}" role="img" aria-label="ratios of time, by operation and width">']
    parts += [f'<text x="{LEFT - 6}" y="{GAP + place(mark) + 4:.1f}" class="end">{mark:g}</text>' for mark in MARKS]
    parts.append(f'<text x="{LEFT - 16}" y="{GAP + HIGH + 20}" class="end">p =</text>')
    for column, operation in enumerate(plot.OPERATIONS):
        parts += panel(LEFT + column * (WIDE + GAP), operation, ratios)
    return "\n".join(parts + ["</svg>"])


def words():
    """What goes to each place of the frame."""
    readme = TOP / "README.md"
    text = readme.read_text()
    results, date = newest()
    ratios, machine = plot.read(results)
    part = {name.partition(".")[0]: (PARTS / name).read_text() for name in ("plans.js", "draw.js")}
    return {
        "css": (PARTS / "page.css").read_text(),
        "sentence": html.escape(text.split("\n\n")[1]),
        "picture": html.escape("width " + block(text).partition("\nwidth ")[2]),
        "version": re.search(r"^VERSION = (.*)", (TOP / "Makefile").read_text(), re.M)[1],
        "lines": str(len(part["plans"].splitlines())),
        "shapes": str(sum(p - 1 for p in map(int, re.search(r"WIDTHS = \[(.*)\]", part["plans"])[1].split(",")))),
        "theorem": prose(section(TOP / "docs/PROOFS.md", "In one paragraph")),
        "speed": speed(ratios),
        "machine": html.escape(machine.removeprefix("Machine: ").partition(",")[0]),
        "date": date.partition(" ")[0],
        "commands": html.escape(block(section(readme, "Three commands"))),
        **part,
    }


def main():
    given, frame = words(), (PARTS / "page.html").read_text()
    print(re.sub(r"\{\{(\w+)\}\}", lambda found: given[found[1]], frame), end="")


if __name__ == "__main__":
    main()
