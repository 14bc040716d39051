#!/usr/bin/env python3
"""Draws the ratios of a results file of bench/run.

Usage: bench/plot.py bench/results/NAME.txt
  Writes bench/results/NAME.svg: for each operation and for Jerasure, ISA-L and memcpy a panel of bars,
  the other's time over ours (warm, k = p; the median, for memcpy the best of each), on a logarithmic
  scale with a line at 1.
"""

import math
import pathlib
import re
import sys

OPERATIONS = ["encode", "check", "one disk", "two disks"]
OTHERS = ["Jerasure", "ISA-L", "memcpy"]
SIZES = ["64", "512", "4096"]
COLOURS = ["#9ecae1", "#4292c6", "#08519c"]
LOW, HIGH = 0.25, 16.0
PANEL_W, PANEL_H, LEFT, TOP, GAP = 200, 150, 50, 46, 30


def read(path):
    """{(operation, p, other, s): median} of the warm table."""
    text = path.read_text()
    found = re.search(r"### warm: Jerasure's and ISA-L's time over ours.*?\n\n(.*?)\n\n", text, re.S)
    if not found:
        sys.exit(f"plot: {path} has no warm table of ratios; give a file that bench/run wrote")
    rows = [[cell.strip() for cell in line.strip("|").split("|")] for line in found[1].split("\n")]
    heads, ratios = rows[0][3:], {}
    for operation, p, k, *cells in rows[2:]:
        for head, cell in zip(heads, cells):
            other, size = re.fullmatch(r"(.*), s = (\d+)", head).groups()
            if p == k and cell != "none":
                ratios[operation, p, other, size] = float(cell.split("/")[1])
    add_copies(text, ratios)
    return ratios, text.split("\n")[0]


def add_copies(text, ratios):
    """memcpy's best time over ours, of the warm table of times: 'ours; Jerasure; ISA-L; memcpy'."""
    found = re.search(r"### warm: best times of a stripe in us.*?\n\n(.*?)\n\n", text, re.S)
    rows = [[cell.strip() for cell in line.strip("|").split("|")] for line in found[1].split("\n")]
    for operation, p, k, *cells in rows[2:]:
        for size, times in zip(SIZES, cells[::2]):
            ours, copy = float(times.split(";")[0]), float(times.split(";")[-1])
            if p == k and ours > 0:
                ratios[operation, p, "memcpy", size] = round(copy / ours, 2)


def height(ratio):
    """Where a ratio stands in a panel, from its top."""
    part = math.log(min(max(ratio, LOW), HIGH) / LOW) / math.log(HIGH / LOW)
    return PANEL_H * (1 - part)


def panel(x, y, operation, other, ratios):
    widths = sorted({int(p) for op, p, o, _ in ratios if (op, o) == (operation, other)})
    parts = [f'<text x="{x}" y="{y - 6}" font-weight="bold">{operation}, against {other}</text>']
    for mark in (0.25, 0.5, 1, 2, 4, 8, 16):
        at = y + height(mark)
        style = 'stroke="#000"' if mark == 1 else 'stroke="#ddd"'
        parts.append(f'<line x1="{x}" x2="{x + PANEL_W}" y1="{at:.1f}" y2="{at:.1f}" {style}/>')
        parts.append(f'<text x="{x - 6}" y="{at + 4:.1f}" text-anchor="end">{mark:g}</text>')
    step = PANEL_W / max(len(widths), 1)
    for i, p in enumerate(widths):
        for j, size in enumerate(SIZES):
            ratio = ratios.get((operation, str(p), other, size))
            if ratio is None:
                continue
            one, top = y + height(1), y + height(ratio)
            left = x + i * step + 6 + j * (step - 12) / 3
            title = f"<title>p = {p}, s = {size}: {ratio}</title>"
            parts.append(f'<rect x="{left:.1f}" y="{min(one, top):.1f}" width="{(step - 12) / 3 - 1:.1f}" '
                         f'height="{abs(one - top):.1f}" fill="{COLOURS[j]}">{title}</rect>')
        parts.append(f'<text x="{x + (i + 0.5) * step:.1f}" y="{y + PANEL_H + 14}" text-anchor="middle">p = {p}</text>')
    return parts


def main():
    if len(sys.argv) != 2:
        sys.exit(__doc__.split("\n\n")[1])
    path = pathlib.Path(sys.argv[1])
    if not path.exists():
        sys.exit(f"plot: no {path}; give a results file of bench/run")
    ratios, machine = read(path)
    width = LEFT + len(OPERATIONS) * (PANEL_W + LEFT)
    total = TOP + len(OTHERS) * (PANEL_H + TOP) + GAP
    parts = [f'<svg xmlns="http://www.w3.org/2000/svg" width="{width}" height="{total}" font-family="sans-serif" font-size="11">',
             '<rect width="100%" height="100%" fill="#fff"/>',
             f'<text x="{LEFT}" y="18">The other\'s time over ours, median, warm; above 1 we are faster. {machine}</text>']
    for row, other in enumerate(OTHERS):
        for column, operation in enumerate(OPERATIONS):
            if any((op, o) == (operation, other) for op, _, o, _ in ratios):
                parts += panel(LEFT + column * (PANEL_W + LEFT), TOP + row * (PANEL_H + TOP), operation, other, ratios)
    for j, size in enumerate(SIZES):
        x = LEFT + j * 110
        parts.append(f'<rect x="{x}" y="{total - 22}" width="12" height="12" fill="{COLOURS[j]}"/>')
        parts.append(f'<text x="{x + 18}" y="{total - 12}">cells of {size} bytes</text>')
    path.with_suffix(".svg").write_text("\n".join(parts + ["</svg>"]) + "\n")
    print(f"plot: wrote {path.with_suffix('.svg')}")


if __name__ == "__main__":
    main()
