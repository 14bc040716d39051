#!/usr/bin/env python3
"""Tests the functions of the header that are compiled into the caller.

Usage: tests/published/inlines.py LIBRARY FOLDER
  LIBRARY: libcuzhaveli.a; FOLDER: an existing folder for what is compiled.

cuzhaveli_refusal_text must say what the one table of refusals says, that of rust/cuzhaveli/src/refusal.rs;
cuzhaveli_update_cells must give the cells that the proved update changes (inlines.c). Wrong headers, made by a
replacement each, must be noticed. Exit status 1 if something differs.
"""

import pathlib
import re
import subprocess
import sys

TOP = pathlib.Path(__file__).resolve().parents[2]
HEADER = TOP / "include/cuzhaveli.h"
TABLE = TOP / "rust/cuzhaveli/src/refusal.rs"
STRICT = ["-std=c99", "-O1", "-Wall", "-Wextra", "-pedantic", "-Werror"]
# What a wrong header has in place of a right one.
WRONG = [
    ("a text of another refusal", '"the data disks are fewer than 2 or more than the width"', '"the package is too long"'),
    ("two texts exchanged", '"the cell size is 0 or over 4096",\n        "the array has no', '"the array has no'),
    ("a number beyond the texts", "refusal < sizeof texts / sizeof *texts ? texts[refusal]", "refusal < 23 ? texts[refusal]"),
    ("the extra cell of another diagonal", "(2 * row + 2) % width", "(2 * row + 1) % width"),
    ("an extra cell on disk 0", "disk == 0 || disk !=", "disk !="),
    ("the diagonal of the neighbour", "(row + width - disk) % width", "(row + disk) % width"),
    ("the Q cell of the row", "width - 1 - row, disks + 1)", "row, disks + 1)"),
    ("a row too many", "if (row >= width ||", "if (row > width ||"),
    ("P as a data disk", "disk >= disks ||", "disk > disks ||"),
]


def table():
    """The texts of the refusals by number."""
    kinds = re.findall(r'^    \w+ = (\d+), "(.*)";$', TABLE.read_text(), re.M)
    return {int(number): text for number, text in kinds if number != "255"}


def said(header, library, folder):
    """What the program prints with a header, or nothing if it notices a difference itself."""
    (folder / "inlines").mkdir(exist_ok=True)
    (folder / "inlines/cuzhaveli.h").write_text(header)
    program = folder / "inlines/program"
    words = ["cc", *STRICT, f"-I{folder / 'inlines'}", TOP / "tests/published/inlines.c", library, "-o", program]
    built = subprocess.run(words, capture_output=True, text=True)
    if built.returncode != 0:
        sys.exit(f"inlines: FAILED: tests/published/inlines.c does not compile:\n{built.stderr[:3000]}")
    return subprocess.run([program], capture_output=True, text=True)


def problems(done):
    """What is wrong with what the program said."""
    texts = {int(number): text for number, text in re.findall(r"^(\d+) (.*)$", done.stdout, re.M)}
    wanted = {0: "not refused", **table()}
    for number in range(256):
        if texts.get(number) != wanted.get(number, "a refusal that this header does not know"):
            yield f"refusal {number} is '{texts.get(number)}', and the table has '{wanted.get(number)}'"
    if done.returncode != 0:
        yield f"another update than the library's: {done.stdout.splitlines()[-1] if done.stdout else done.returncode}"


def main():
    if len(sys.argv) != 3:
        sys.exit(__doc__.split("\n\n")[1])
    library, folder = pathlib.Path(sys.argv[1]), pathlib.Path(sys.argv[2])
    header = HEADER.read_text()
    done = said(header, library, folder)
    for problem in problems(done):
        sys.exit(f"inlines: FAILED: {problem}; correct include/cuzhaveli.h")
    for what, right, wrong in WRONG:
        if header.count(right) != 1:
            sys.exit(f"inlines: FAILED: '{right}' stands in the header {header.count(right)} times; correct WRONG here")
        if not list(problems(said(header.replace(right, wrong), library, folder))):
            sys.exit(f"inlines: FAILED: a wrong header passes: {what}")
    cells = re.search(r"^tried (\d+)$", done.stdout, re.M)[1]
    print(f"inlines: {len(table())} texts, {cells} updates agree; {len(WRONG)} wrong headers noticed")


if __name__ == "__main__":
    main()
