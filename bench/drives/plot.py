#!/usr/bin/env python3
"""Draws a results file of bench/drives/run.

Usage: bench/drives/plot.py bench/results/NAME.txt >bench/results/NAME.svg
  For rebuilds alone, with a slow drive and while screens play a panel of bars, the time of each plan over that of
  rows; the mark on a bar is what the bytes of the busiest survivor say. bench/drives/run calls it.
"""

import pathlib
import sys

KINDS = {"alone": "nothing beside", "slow": "one drive at half speed", "play": "screens play, half load"}
COLOURS = {"rows": "#bdbdbd", "own": "#9ecae1", "balanced": "#4292c6", "relieved": "#08519c"}
PANEL_W, PANEL_H, LEFT, TOP, GAP = 250, 180, 50, 46, 40


def read(path):
    """{(kind, p, plan): (time over rows', bytes of the busiest survivor over rows', late reads)}, and the first line."""
    lines = path.read_text().splitlines()
    found = {}
    for line in lines:
        cells = [cell.strip() for cell in line.strip("|").split("|")]
        if line.startswith("| ") and cells[0] in KINDS:
            found[cells[0], int(cells[1]), cells[2]] = (float(cells[5]), float(cells[3]), cells[10])
    if not found:
        sys.exit(f"plot: {path} has no rebuilds; give a file that bench/drives/run wrote")
    return found, lines[0]


def bar(x, width, y, plan, ratio, share, late, marked):
    top = y + PANEL_H * (1 - ratio)
    note = f"{plan}: {ratio} of rows' time" + (f", {late} late reads" if late != "-" else "")
    parts = [f'<rect x="{x:.1f}" y="{top:.1f}" width="{width:.1f}" height="{PANEL_H * ratio:.1f}" fill="{COLOURS[plan]}"><title>{note}</title></rect>',
             f'<text x="{x + width / 2:.1f}" y="{top - 3:.1f}" text-anchor="middle" font-size="9">{ratio:.2f}</text>']
    if marked:
        at = y + PANEL_H * (1 - share)
        parts.append(f'<line x1="{x - 1:.1f}" x2="{x + width + 1:.1f}" y1="{at:.1f}" y2="{at:.1f}" stroke="#d62728"/>')
    return parts


def panel(x, y, kind, found):
    widths = sorted({p for one, p, _ in found if one == kind})
    parts = [f'<text x="{x}" y="{y - 12}" font-weight="bold">{KINDS[kind]}</text>']
    for mark in (0, 0.25, 0.5, 0.75, 1):
        at = y + PANEL_H * (1 - mark)
        parts.append(f'<line x1="{x}" x2="{x + PANEL_W}" y1="{at:.1f}" y2="{at:.1f}" stroke="{"#000" if mark in (0, 1) else "#ddd"}"/>')
        parts.append(f'<text x="{x - 6}" y="{at + 4:.1f}" text-anchor="end">{mark:g}</text>')
    step = PANEL_W / max(len(widths), 1)
    for number, p in enumerate(widths):
        plans = [plan for plan in COLOURS if (kind, p, plan) in found]
        width = (step - 16) / len(plans)
        for place, plan in enumerate(plans):
            parts += bar(x + number * step + 8 + place * width, width - 3, y, plan, *found[kind, p, plan], kind != "slow")
        parts.append(f'<text x="{x + (number + 0.5) * step:.1f}" y="{y + PANEL_H + 15}" text-anchor="middle">p = {p}</text>')
    return parts


def main():
    if len(sys.argv) != 2 or not pathlib.Path(sys.argv[1]).exists():
        sys.exit(__doc__.split("\n\n")[1])
    path = pathlib.Path(sys.argv[1])
    found, machine = read(path)
    kinds = [kind for kind in KINDS if any(one == kind for one, *_ in found)]
    width, total = LEFT + len(kinds) * (PANEL_W + LEFT), TOP + PANEL_H + 2 * GAP
    parts = [f'<svg xmlns="http://www.w3.org/2000/svg" width="{width}" height="{total}" font-family="sans-serif" font-size="11">',
             '<rect width="100%" height="100%" fill="#fff"/>',
             f'<text x="{LEFT}" y="16">Rebuild of one disk on drives of limited speed: time over that of rows. {machine}</text>']
    for column, kind in enumerate(kinds):
        parts += panel(LEFT + column * (PANEL_W + LEFT), TOP, kind, found)
    for number, (plan, colour) in enumerate(COLOURS.items()):
        x = LEFT + number * 110
        parts.append(f'<rect x="{x}" y="{total - 24}" width="12" height="12" fill="{colour}"/>')
        parts.append(f'<text x="{x + 18}" y="{total - 14}">{plan}</text>')
    parts.append(f'<line x1="{LEFT + 450}" x2="{LEFT + 470}" y1="{total - 18}" y2="{total - 18}" stroke="#d62728"/>')
    parts.append(f'<text x="{LEFT + 476}" y="{total - 14}">what the busiest survivor\'s bytes say</text>')
    print("\n".join(parts + ["</svg>"]))


if __name__ == "__main__":
    main()
