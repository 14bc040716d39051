#!/usr/bin/env python3
"""Spells what the pages and scripts cite of crates/ as it is spelled since the port.

usage: python3 tools/pages.py [--say] FILE..      once, after tools/respell.py; --say changes nothing, and prints what it would do

The spelling comes from two commits that docs/PORT.md names: what the last one before port.py declares, and the first one after
tools/respell.py, file by file, declaration by declaration. A word between backticks becomes the new name; so does the folder of a
file of specs/ or proofs/. What is not turned is printed: names that became several, and those that a function or a module has too.
"""

import os
import re
import subprocess
import sys
import tempfile

sys.dont_write_bytecode = True
import respell  # noqa: E402

TOP = os.path.dirname(os.path.dirname(os.path.abspath(__file__)))
TICKED = re.compile(r"`[^`\n]+`")
LISTED = re.compile(r"\b(?:edits?|tests?|document 03's) `[^`\n]+`(?:(?:, | and |, and )`[^`\n]+`)*")
OF_FUNCTIONS = ("Invariants.antt", "Answers.antt", "Proof.antt")
# words that stay: of the commands and of Rust
CODE = re.compile(r"::|/|^(?:rt|make|scripts|tests|build|cargo) |--")


def tree(commit, to):
    archive = subprocess.run(["git", "archive", commit, "crates"], cwd=TOP, stdout=subprocess.PIPE, check=True).stdout
    subprocess.run(["tar", "-x", "-C", to], input=archive, check=True)


def camel(name):
    return "".join(word.capitalize() for word in name.split("_"))


def declared(path):
    return [m[2] for m in respell.DECLARED.finditer(respell.read(path))]


def table():
    """The new names of each old one, and the folders that have capitals now."""
    with open(os.path.join(TOP, "docs/PORT.md"), encoding="utf-8") as page:
        _, after, before = page.read().split("\n")[:3]
    names, folders = {}, {}
    with tempfile.TemporaryDirectory() as old, tempfile.TemporaryDirectory() as new:
        tree(before, old)
        tree(after, new)
        for path in respell.files(old, ".antt"):
            if respell.is_walk(path):
                continue
            parts = os.path.relpath(path, old).split(os.sep)
            at = new
            for part in parts:
                stem, ending = os.path.splitext(part)
                if not os.path.exists(os.path.join(at, part)):
                    folders[stem] = camel(stem)
                    part = camel(stem) + ending
                at = os.path.join(at, part)
            ours, theirs = declared(path), declared(at)
            if len(ours) != len(theirs):
                print(f"{os.path.relpath(path, old)}: {len(ours)} declarations, now {len(theirs)}")
                continue
            for one, other in zip(ours, theirs):
                names.setdefault(one, set()).add(other)
    return names, folders


def here():
    """The names that are declared now."""
    return {name for path in respell.files(TOP, ".antt") if os.path.basename(path) not in OF_FUNCTIONS for name in declared(path)}


def code():
    """The names of functions and modules of crates/, which stay."""
    found = set()
    for path in respell.files(TOP, ".rt"):
        found.add(os.path.basename(path)[:-3])
        found.update(re.findall(r"\bfn (\w+)", respell.read(path)))
    return found


def main():
    names, folders = table()
    own, now, say = code(), here(), "--say" in sys.argv
    odd = {}

    def word(m):
        # what was put back since has the plain spelling
        new = names.get(m[0]) or {respell.snake(m[0])} & now
        if new in (set(), {m[0]}):
            return m[0]
        if len(new) > 1 or m[0] in own:
            odd.setdefault(m[0], set()).update(new)
            return m[0]
        return min(new)

    def ticked(m):
        return m[0] if CODE.search(m[0].strip("`")) else re.sub(respell.WORD, word, m[0])

    def line(text):
        kept = {}

        def keep(m):
            kept[f"\0{len(kept)}\0"] = m[0]
            return f"\0{len(kept) - 1}\0"

        text = TICKED.sub(ticked, LISTED.sub(keep, text))
        for key, was in kept.items():
            text = text.replace(key, was)
        return re.sub(r"\b(" + "|".join(folders) + r")/(?=[A-Z]\w*[a-z])", lambda m: folders[m[1]] + "/", text)

    for path in (it for it in sys.argv[1:] if it != "--say"):
        with open(path, encoding="utf-8") as page:
            text = page.read()
        odd.clear()
        new = "\n".join(map(line, text.split("\n")))
        if say:
            for one, other in zip(text.split("\n"), new.split("\n")):
                for a, b in zip(one.split(" "), other.split(" ")):
                    if a != b:
                        print(f"{path}: {a} -> {b}")
        elif new != text:
            with open(path, "w", encoding="utf-8") as page:
                page.write(new)
        for name, new in sorted(odd.items()):
            print(f"{path}: left {name}: {', '.join(sorted(new))}")


if __name__ == "__main__":
    main()
