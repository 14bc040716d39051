"""Runs the tests: `python3 -m cuzhaveli.selftest [SEED]`."""

from __future__ import annotations

import sys
import time
import traceback

from .. import LibraryError, library, version
from . import losses, memory, plans, records, refusals, stripes, texts, units
from .check import Check

GROUPS = (stripes, losses, plans, texts, records, units, refusals, memory)
SEED = 20000831


def main(words: list[str]) -> int:
    if len(words) > 1 or not all(word.isdigit() for word in words):
        print("usage: python3 -m cuzhaveli.selftest [SEED]", file=sys.stderr)
        return 2
    seed = int(words[0]) if words else SEED
    try:
        number = version()
    except LibraryError as error:
        print(f"selftest: {error}", file=sys.stderr)
        return 2
    print(f"selftest: {library.path()}, version {number}, seed {seed}")
    differ = 0
    for group in GROUPS:
        check, start = Check(seed), time.monotonic()
        try:
            group.run(check)
        except Exception:  # a call that is good was refused, or worse
            check.differ += 1
            print(f"DIFFERS: a call that was to be accepted\n{traceback.format_exc()}")
        name, took = group.__name__.rsplit(".", 1)[1], time.monotonic() - start
        print(f"selftest: {name}: {check.compared} comparisons, {check.differ} differ, {took:.1f} s")
        differ += check.differ
    print("selftest: the library differs" if differ else "selftest: all agree")
    return 1 if differ else 0


if __name__ == "__main__":
    sys.exit(main(sys.argv[1:]))
