#!/usr/bin/env python3
"""Draws the crates of crates.txt by layers. Usage: scripts/docs/layers.py >docs/generated/layers.svg

A crate stands one layer above the highest crate that it uses, and a line leads to each crate that it
uses, unless another crate that it uses leads there. Yellow: functions; blue: the exports and the
program; grey: definitions and theorems alone. `guarantees` has no lines, as it uses every call.
"""

import pathlib
import re

TOP = pathlib.Path(__file__).resolve().parents[2]
WIDE, STEP, BOX = 1180, 84, 26


def read():
    """The crates that each crate uses, of those that crates.txt lists."""
    listed = dict(re.findall(r"^(\w+)(?: staticlib)?:(.*)", (TOP / "crates.txt").read_text(), re.M))
    return {name: [used for used in listed[name].split() if used in listed] for name in listed}


def layer(uses):
    """One more than the highest layer of what a crate uses; crates.txt has that above it."""
    found = {}
    for name in uses:
        found[name] = 1 + max((found[used] for used in uses[name]), default=0)
    return found


def wide(name):
    return 7 * len(name) + 14


def middles(uses):
    """The middle of each box. A layer is in the order of what its crates use, with equal gaps."""
    layers, middle = layer(uses), {}
    for number in range(1, max(layers.values()) + 1):
        row = [name for name in uses if layers[name] == number]
        row.sort(key=lambda name: sum(middle[used][0] for used in uses[name]) / max(1, len(uses[name])))
        gap = (WIDE - sum(map(wide, row))) // (len(row) + 1)
        for i, name in enumerate(row):
            x = sum(map(wide, row[:i])) + gap * (i + 1) + wide(name) // 2
            middle[name] = (x, STEP * (max(layers.values()) - number) + 40)
    return middle


def lines(uses, middle):
    below = {}
    for name in uses:
        below[name] = set(uses[name]).union(*(below[used] for used in uses[name]))
        for used in uses[name] if name != "guarantees" else []:
            if not any(used in below[other] for other in uses[name]):
                (x, y), (to, top) = middle[name], middle[used]
                yield f'<line x1="{x}" y1="{y + BOX // 2}" x2="{to}" y2="{top - BOX // 2}" stroke="#aaa"/>'


def box(name, x, y):
    source = [path.read_text() for path in (TOP / "crates" / name / "src").glob("*.rt")]
    above = name.startswith("cuzhaveli_") or "fn main" in source[0]
    fill = "#cfe3f7" if above else "#fdf3d8" if any("fn " in text for text in source) else "#e4e4e4"
    yield f'<rect x="{x - wide(name) // 2}" y="{y - BOX // 2}" width="{wide(name)}" height="{BOX}" rx="5" fill="{fill}" stroke="#888"/>'
    yield f'<text x="{x}" y="{y + 4}" text-anchor="middle">{name}</text>'


def main():
    uses = read()
    middle = middles(uses)
    size = f'width="{WIDE}" height="{max(y for _, y in middle.values()) + 40}"'
    print(f'<svg xmlns="http://www.w3.org/2000/svg" {size} font-family="sans-serif" font-size="12">')
    print(f'<rect {size} fill="#fff"/>', *lines(uses, middle), sep="\n")
    for name, (x, y) in middle.items():
        print(*box(name, x, y), sep="\n")
    print("</svg>")


if __name__ == "__main__":
    main()
