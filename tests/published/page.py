#!/usr/bin/env python3
"""Holds docs/generated/index.html to the library and to its folder: the plans of its script are the library's, its links lead to
files, and it loads nothing from outside; and README.md's table of plans to the library's shares.

Usage: tests/published/page.py LIBRARY FOLDER
  LIBRARY: libcuzhaveli.a; FOLDER: an existing folder for what is compiled.
The plans are compared where there is node, for every array, lost disk and kind of plan; wrong scripts must be told apart.
Exit status 1 if something differs.
"""

import pathlib
import re
import shutil
import subprocess
import sys

TOP = pathlib.Path(__file__).resolve().parents[2]
PAGE = TOP / "docs/generated/index.html"
# prints the script's plans as page_plans.c prints the library's
LINES = """
for (const p of WIDTHS.filter((width) => width <= Number(process.argv[2])))
  for (let k = 2; k <= p; k++)
    for (let lost = 0; lost <= k + 1; lost++) {
      const others = Array.from({ length: k }, (_, disk) => disk).filter((disk) => disk !== lost);
      const kinds = [["own", 0], ["balanced", 0], ...others.map((disk) => ["relief", disk]), ["fewest", 0], ["rows", 0]];
      console.log(kinds.map(([kind, relieved]) => {
        const plan = planOf(p, k, lost, kind, relieved);
        const cells = plan.marks.flat().map((mark) => (mark > 0 ? 1 : 0)).join("");
        return `${p} ${k} ${lost} ${kind} ${relieved} reads ${plan.reads}: ${plan.steps.join(" ")} ${cells}`;
      }).join("\\n"));
    }
"""
# what each wrong script has in place of what the right one has
WRONG = [("p - 1 - mod(row - lost, p)", "mod(row - lost, p)"), ("p % 4 === 1", "p % 4 === 3"), ("2 * (relieved", "(relieved"),
         ("other[0] < best[0]", "other[0] <= best[0]"), ("progression(p, lost, n + 1)", "progression(p, lost, 1)"),
         ("mod(-2 * number, p)", "mod(2 * number, p)"), ("number > 0 && ", ""), ("disk !== lost", "true"), ("rows: () => new Set()", "rows: () => new Set([0])")]
SMALL, LARGEST = 7, 31
BUSIEST = {"own": {28, 29, 30}, "balanced": {23}, "relief": {30}, "relieved": {16}, "fewest": {30}}


def outside(text):
    """What a browser would load, and links that lead nowhere."""
    if re.search(r"@import|url\(|\bsrc=|<link(?! rel=\"icon\" href=\"data:,\")|\bfetch\(|XMLHttpRequest|\bimport\b", text):
        yield "it loads something: all that it shows is to stand in it"
    for link in re.findall(r'href="([^"#]*)"', text):
        if link != "data:," and not (PAGE.parent / link).exists():
            yield f"its link {link} leads to no file of the repository"


def plans(folder, script, width):
    """The lines that a script of plans prints, up to a width."""
    path = folder / "page_plans.js"
    path.write_text(script + LINES)
    done = subprocess.run(["node", path, str(width)], capture_output=True, text=True)
    return done.stdout if done.returncode == 0 else done.stderr


def first_difference(ours, library):
    """The first line of the two texts that differs, as far as it says which plan it is."""
    for mine, wanted in zip(ours.split("\n"), library.split("\n")):
        if mine != wanted:
            return f"the page has '{mine[:90]}', the library '{wanted[:90]}'"
    return "one of the two ends early"


def library_plans(library, folder):
    """The library's plans, up to each of two widths."""
    program = folder / "page_plans"
    strict = ["-std=c99", "-O2", "-Wall", "-Wextra", "-pedantic", "-Werror", f"-I{TOP / 'include'}"]
    subprocess.run(["cc", *strict, TOP / "tests/published/page_plans.c", library, "-o", program], check=True)
    return {width: subprocess.run([program, str(width)], capture_output=True, text=True, check=True).stdout for width in (SMALL, LARGEST)}


def busiest(lines):
    """What README.md's table says of the plans for a data disk at p = k = 31: the most that is read of a survivor, and of the relieved one."""
    found = {}
    for line in re.findall(r"^31 31 (\d+) (\w+) (\d+) reads 721: .* ([01]+)$", lines, re.M):
        shares = [line[3][31 * disk:31 * disk + 31].count("1") for disk in range(33)]
        found.setdefault(line[1], set()).add(max(shares))
        if line[1] == "relief":
            found.setdefault("relieved", set()).add(shares[int(line[2])])
    return found


def compare(wanted, folder, text):
    """The script's plans and the library's; how many there are."""
    script = re.search(r'<script id="plans">\n(.*?)</script>', text, re.S)[1]
    given = plans(folder, script, LARGEST)
    if given != wanted[LARGEST]:
        sys.exit(f"page: DIFFERS: {first_difference(given, wanted[LARGEST])}\n  in: scripts/docs/page/plans.js\n  do: correct it, then scripts/docs/page.py >docs/generated/index.html")
    for right, wrong in WRONG:
        if script.count(right) != 1 or plans(folder, script.replace(right, wrong), SMALL) == wanted[SMALL]:
            sys.exit(f"page: FAILED: a script with '{wrong}' for '{right}' passes; correct tests/published/page.py")
    return given.count("\n")


def main():
    if len(sys.argv) != 3:
        sys.exit(__doc__.split("\n\n")[1])
    library, folder, text = pathlib.Path(sys.argv[1]), pathlib.Path(sys.argv[2]), PAGE.read_text()
    found = list(outside(text))
    for wrong in ('<script src="a.js">', '<img src="https://example.org/a.png">', "@import 'a.css'", '<a href="NO.md">', '<link href="a.css">'):
        if not list(outside(wrong)):
            found.append(f"a wrong page passes: {wrong}")
    if found:
        sys.exit("\n".join(f"page: DIFFERS: {problem}\n  in: docs/generated/index.html" for problem in found))
    wanted = library_plans(library, folder)
    if (shares := busiest(wanted[LARGEST])) != BUSIEST:
        sys.exit(f"page: DIFFERS: the busiest survivors at p = 31 are {shares}, README.md's table and BUSIEST here have {BUSIEST}")
    if not shutil.which("node"):
        print("page: its links lead to files, it loads nothing")
        print("page: SKIPPED: the plans of the page's script: no node on this machine")
        return
    print(f"page: {compare(wanted, folder, text)} plans of its script are the library's, {len(WRONG)} wrong scripts are told apart")


if __name__ == "__main__":
    main()
