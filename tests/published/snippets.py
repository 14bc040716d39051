#!/usr/bin/env python3
"""Compiles and runs the C code of the documents.

Usage: tests/published/snippets.py LIBRARY FOLDER
  LIBRARY: libcuzhaveli.a; FOLDER: an existing folder for what is compiled.

The first C block of docs/C.md is a program, which says what came back; the others are together one.
Exit status 1 if one does not compile, an assertion fails or the disk does not come back.
"""

import pathlib
import re
import subprocess
import sys

TOP = pathlib.Path(__file__).resolve().parents[2]
HEAD = "#include <assert.h>\n#include <string.h>\n#include <cuzhaveli.h>\n\nint main(void)\n{\n"
SAID = "disk 1 is back, from 19 of 30 cells\n"


def blocks(path):
    """The C blocks of a document, each with its line, so that an error names the document's."""
    found, inside = [], False
    for number, line in enumerate(path.read_text().split("\n"), 1):
        if line == "```c":
            found.append([f'#line {number + 1} "{path.relative_to(TOP)}"'])
            inside = True
        elif line.startswith("```"):
            inside = False
        elif inside:
            found[-1].append(line)
    return ["\n".join(block) + "\n" for block in found]


def run(source, library, document):
    program = source.with_suffix("")
    strict = ["-std=c99", "-O1", "-Wall", "-Wextra", "-pedantic", "-Werror", f"-I{TOP / 'include'}"]
    built = subprocess.run(["cc", *strict, source, library, "-o", program], capture_output=True, text=True)
    if built.returncode != 0:
        sys.exit(f"snippets: FAILED: the C code of {document} does not compile; correct it there:\n{built.stderr[:3000]}")
    done = subprocess.run([program], capture_output=True, text=True)
    if done.returncode != 0:
        sys.exit(f"snippets: FAILED: the C code of {document} does not hold; correct it there:\n{done.stdout}{done.stderr[:3000]}")
    return done.stdout


def main():
    if len(sys.argv) != 3:
        sys.exit(__doc__.split("\n\n")[1])
    library, folder = pathlib.Path(sys.argv[1]), pathlib.Path(sys.argv[2])
    whole, *rest = blocks(TOP / "docs/C.md")
    (folder / "whole.c").write_text(whole)
    (folder / "c_md.c").write_text(HEAD + "".join(rest) + "return 0;\n}\n")
    said = run(folder / "whole.c", library, "docs/C.md")
    if said != SAID:
        sys.exit(f"snippets: FAILED: the first program of docs/C.md prints {said!r}, not {SAID!r}")
    run(folder / "c_md.c", library, "docs/C.md")
    count = (folder / "c_md.c").read_text().count("assert(")
    print(f"snippets: {count} assertions of docs/C.md hold, its program says '{said.strip()}'")


if __name__ == "__main__":
    main()
