#!/usr/bin/env python3
"""Tests how the Python package finds its library, and what it says where it does not.

Usage: tests/python/loading.py LIBRARY, the path of libcuzhaveli.so.1
Exit status 1 if a way does not work, or an error does not say what to do.
"""

import ctypes
import os
import pathlib
import shutil
import subprocess
import sys
import tempfile

TOP = pathlib.Path(__file__).resolve().parents[2]
NAME = "libcuzhaveli.so.1"


ONE_CALL = ("-c", "import cuzhaveli; print(cuzhaveli.version(), cuzhaveli.library.path())")
SELFTEST = ("-m", "cuzhaveli.selftest")


def said(package, words=ONE_CALL, **environment):
    """The status and what is said of a program, one call if none is given, with the package in a folder."""
    kept = {name: value for name, value in os.environ.items() if name not in ("CUZHAVELI_LIBRARY", "LD_LIBRARY_PATH")}
    words = [sys.executable, "-B", *words]
    done = subprocess.run(words, env={**kept, "PYTHONPATH": str(package), **environment}, capture_output=True, text=True)
    return done.returncode, (done.stdout + done.stderr).strip().splitlines()[-1]


def main():
    if len(sys.argv) != 2 or not pathlib.Path(sys.argv[1]).is_file():
        sys.exit(__doc__.split("\n\n")[1])
    library = pathlib.Path(sys.argv[1]).resolve()
    remedy = "Build it (`make` in the repository writes build/libcuzhaveli.so.1) and set CUZHAVELI_LIBRARY to its path"
    with tempfile.TemporaryDirectory() as name:
        alone, beside, old = (pathlib.Path(name) / part for part in ("alone", "beside", "old.so"))
        for folder in (alone, beside):
            shutil.copytree(TOP / "python/cuzhaveli", folder / "cuzhaveli", ignore=shutil.ignore_patterns("__pycache__", "*.so.1"))
        shutil.copy(library, beside / "cuzhaveli" / NAME)
        subprocess.run(["cc", "-shared", "-xc", "-", "-o", old], input=b"int cuzhaveli_version(void) { return 99; }", check=True)
        number = ctypes.CDLL(str(library)).cuzhaveli_version()
        loaded = f"{number} {library}"
        tried = [
            ("named", said(alone, CUZHAVELI_LIBRARY=str(library)), 0, [loaded]),
            ("beside the package", said(beside), 0, [f"{number} {beside / 'cuzhaveli' / NAME}"]),
            ("named before beside", said(beside, CUZHAVELI_LIBRARY=str(library)), 0, [loaded]),
            ("by the loader", said(alone, LD_LIBRARY_PATH=str(library.parent)), 0, [f"{number} {NAME}"]),
            ("named, not there", said(beside, CUZHAVELI_LIBRARY="/none.so"), 1, ["LibraryError: CUZHAVELI_LIBRARY is /none.so, which", remedy]),
            ("named, older", said(alone, CUZHAVELI_LIBRARY=str(old)), 1, [f"LibraryError: {old} has no cuzhaveli_plan_disk: it is older", remedy]),
            ("the selftest, not there", said(alone, SELFTEST, CUZHAVELI_LIBRARY="/none.so"), 2, ["selftest: CUZHAVELI_LIBRARY is /none.so, which", remedy]),
        ]
        status, words = said(alone)
        if status == 0:
            print(f"loading: SKIPPED: a search where there is no {NAME}: this system's loader knows one")
        else:
            tried.append(("not there", (status, words), 1, [f"LibraryError: {NAME} was not found: CUZHAVELI_LIBRARY is not set", remedy]))
    wrong = 0
    for way, (status, words), wanted, parts in tried:
        if status != wanted or not all(part in words for part in parts):
            wrong += 1
            print(f"loading: FAILED: {way}: status {status}, {words}")
    if wrong:
        sys.exit(1)
    print(f"loading: {len(tried)} ways to find or miss the library")


if __name__ == "__main__":
    main()
