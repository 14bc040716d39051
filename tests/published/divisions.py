#!/usr/bin/env python3
"""Holds docs/REQUESTS.md, ask 5, to the machine code: the members of the archive that have a division instruction.

Usage: tests/published/divisions.py LIBRARY
  LIBRARY: libcuzhaveli.a
Exit status 1 if other members have one than the document says.
"""

import pathlib
import re
import subprocess
import sys

PAGE = pathlib.Path(__file__).resolve().parents[2] / "docs/REQUESTS.md"


def dividing(listing):
    """The members with a division, of what objdump prints of an archive."""
    members = re.split(r"^(\w+)\.o: +file format .*$", listing, flags=re.M)[1:]
    return {name for name, code in zip(members[::2], members[1::2]) if re.search(r"\ti?div[bwlq]?\s", code)}


def said(page):
    """The members that the document names."""
    found = re.search(r"division instructions are in the members (.*?) alone", page)
    return set(re.findall(r"`(\w+)`", found[1])) if found else set()


def main():
    if len(sys.argv) != 2:
        sys.exit(__doc__.split("\n\n")[1])
    listing = subprocess.run(["objdump", "-d", "--no-show-raw-insn", sys.argv[1]], capture_output=True, text=True, check=True).stdout
    found, page = dividing(listing), PAGE.read_text()
    if found != said(page):
        sys.exit(f"divisions: the members with a division instruction are {', '.join(sorted(found))}; {PAGE.name} names "
                 f"{', '.join(sorted(said(page)))}. If no diagonal is walked by dividing, correct the note of ask 5")
    more = listing.replace("\tret", "\tdiv    %rcx\n\tret")
    if dividing(more) == found or not found - said(page.replace(f"`{min(found)}`", "")):
        sys.exit("divisions: a wrong listing or a wrong page passes; correct tests/published/divisions.py")
    print(f"divisions: in {len(found)} members of the archive, as {PAGE.name} says")


if __name__ == "__main__":
    main()
