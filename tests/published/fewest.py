#!/usr/bin/env python3
"""Counts what the documents claim of part-filled arrays and no theorem says: how far our plan, the balanced one and the fewest
one are from the fewest cells that a plan reads, in every array and for every lost data disk.

Usage: tests/published/fewest.py LIBRARY FOLDER
  LIBRARY: libcuzhaveli.a; FOLDER: an existing folder for what is compiled.
The fewest come from fewest.c, which goes through all sets of rows; where a theorem says them (k = p, p - 1 and 2), it must agree.
Exit status 1 if a document says other numbers.
"""

import pathlib
import re
import subprocess
import sys

sys.dont_write_bytecode = True

import page  # noqa: E402  the library's plans as lines

TOP = page.TOP
WIDTHS = (3, 5, 7, 11, 13, 17, 19, 23, 29, 31)
NUMBER, COUNT = r"(\d+(?:\.\d)?)", r"([\d,]+\d)"
# where the numbers stand: ours for k from 3p/4 on, from p/2 on and below; in docs/SCOPE.md those of the balanced plan too
SAID = {
    TOP / "docs/SCOPE.md": rf"ours reads up to {NUMBER} % more for k ≥ 3p/4, up to {NUMBER} % for k ≥ p/2, up to {NUMBER} % below, "
                           rf"the balanced plan up to {NUMBER}, {NUMBER} and {NUMBER} %",
    TOP / "docs/man/cuzhaveli.1": rf"reads up to {NUMBER} % more than the fewest from three quarters of WIDTH on, "
                              rf"up to {NUMBER} % from a half on, and up to {NUMBER} % below",
}
COUNTS = TOP / "docs/SCOPE.md", rf"reads the fewest in {COUNT} of {COUNT} arrays and lost disks, one cell more in {COUNT}"


def searched(folder):
    """The fewest cells by width, data disks and lost disk."""
    program = folder / "fewest"
    strict = ["-std=c99", "-O3", "-Wall", "-Wextra", "-pedantic", "-Werror"]
    subprocess.run(["cc", *strict, TOP / "tests/published/fewest.c", "-o", program], check=True)
    lines = [subprocess.run([program, str(p)], capture_output=True, text=True, check=True).stdout for p in WIDTHS]
    return {tuple(map(int, line.split()[:3])): int(line.split()[3]) for line in "".join(lines).splitlines()}


def by_theorem(fewest):
    """What differs from `plans_fewest`."""
    for (p, k, lost), count in fewest.items():
        known = {2: (3 * p + 1) // 2, p - 1: (3 * p * p - 4 * p + 5) // 4, p: (3 * p * p + 1) // 4}.get(k, count)
        if count != known:
            yield f"p = {p}, k = {k}, disk {lost}: {count} cells by the search, {known} by a theorem"


def plans_of(kind, lines):
    """The library's plans of a kind for lost data disks: what each reads, and its rows with a diagonal."""
    found = {}
    for *array, reads, steps in re.findall(rf"^(\d+) (\d+) (\d+) {kind} 0 reads (\d+):((?: \d+,\d,\d+)+)", lines, re.M):
        p, k, lost = map(int, array)
        if lost < k:
            found[p, k, lost] = int(reads), {int(row) for row in re.findall(r" (\d+),1,", steps)}
    return found


def excess(fewest, lines):
    """By how many per cent the plans read more at most, ours and then the balanced one, for each of three parts of k."""
    found = {(kind, part): 0.0 for kind in ("own", "balanced") for part in range(3)}
    for kind in ("own", "balanced"):
        for (p, k, lost), (reads, _) in plans_of(kind, lines).items():
            part = 0 if 4 * k >= 3 * p else 1 if 2 * k >= p else 2
            least = fewest[p, k, lost]
            found[kind, part] = max(found[kind, part], 100 * (reads - least) / least)
    return list(found.values())


def best_progression(p, k, lost):
    """What the progression with the first of the best steps reads, and its rows with a diagonal."""
    steps = range(1, (p + 1) // 2)
    relieved = [sum(min(x, p - x) for x in range(p) if (lost + step * x) % p < k) for step in steps]
    best = steps[relieved.index(max(relieved))]
    return k * p - max(relieved), {((lost - 1) * (p + 1) // 2 + best * n) % p for n in steps}


def one_more(fewest, given):
    """What is wrong of the plans called the fewest, and then how many of them read the fewest, of how many, and one cell more."""
    found, more = [], []
    if given.keys() != fewest.keys():
        found.append("the library has other arrays than the search")
    for array in sorted(given.keys() & fewest.keys()):
        if given[array] != best_progression(*array):
            found.append(f"p, k, disk {array}: the fewest plan is not the best progression")
        more.append(given[array][0] - fewest[array])
        if more[-1] not in (0, 1):
            found.append(f"p, k, disk {array}: the fewest plan reads {more[-1]} cells more than the search found")
    return found, [more.count(0), len(fewest), more.count(1)]


def wrong(text, pattern, counted):
    """What a document says otherwise."""
    said = re.search(pattern, " ".join(re.sub(r"^\.[A-Z]+ ", "", text, flags=re.M).split()))
    if not said:
        yield "it no longer says by how much plans read more; correct SAID here"
        return
    for given, number in zip(said.groups(), counted):
        if round(number, 1 if "." in given else 0) != float(given.replace(",", "")):
            yield f"it says {given}, and {number:.2f} were counted"


def main():
    if len(sys.argv) != 3:
        sys.exit(__doc__.split("\n\n")[1])
    library, folder = pathlib.Path(sys.argv[1]), pathlib.Path(sys.argv[2])
    fewest = searched(folder)
    lines = page.library_plans(library, folder)[page.LARGEST]
    problems, counts = one_more(fewest, plans_of("fewest", lines))
    found = [*by_theorem(fewest), *problems]
    if not one_more(fewest, plans_of("own", lines))[0]:
        found.append("our plan passes for the fewest one")
    counted = excess(fewest, lines)
    for path, pattern, numbers in [*((*said, counted) for said in SAID.items()), (*COUNTS, counts)]:
        text = path.read_text()
        found += [f"{path.relative_to(TOP)}: {problem}" for problem in wrong(text, pattern, numbers)]
        if not list(wrong(text, pattern, [number + 1 for number in numbers])):
            found.append(f"{path.relative_to(TOP)}: other numbers pass")
    if found:
        sys.exit("\n".join(f"fewest: DIFFERS: {problem}" for problem in found))
    print(f"fewest: {len(fewest)} arrays and disks searched; in {counts[0]} the fewest plan reads the fewest, in {counts[2]} one cell more; "
          "ours and the balanced one are as far from the fewest as documents say")


if __name__ == "__main__":
    main()
