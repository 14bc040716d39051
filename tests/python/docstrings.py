#!/usr/bin/env python3
"""Runs the examples in the docstrings of the Python package, and the Python code of documents.

With PYTHONPATH and CUZHAVELI_LIBRARY set. Exit status 1 if something differs.
"""

import doctest
import importlib
import pathlib
import pkgutil
import re
import sys
import types

import cuzhaveli
from cuzhaveli.selftest import reference

TOP = pathlib.Path(__file__).resolve().parents[2]
DOCUMENTS = ("python/README.md", "docs/TEST-YOURS.md")


def my_raid():
    """What a document calls yours."""
    module = types.ModuleType("my_raid")

    def encode(width, disks, size, stripe):
        stripe[:] = reference.encoded(cuzhaveli.Shape(width, disks, size), stripe)

    module.encode = encode
    return module


def run_document(path):
    """Runs the code of a document, which ends at an assertion that does not hold."""
    blocks = re.findall(r"```python\n(.*?)```", path.read_text(encoding="utf-8"), re.S)
    if not blocks:
        sys.exit(f"docstrings: {path} has no Python code")
    for block in blocks:
        exec(compile(block, str(path), "exec"), {})


def main():
    names = ["cuzhaveli", *(f"cuzhaveli.{module.name}" for module in pkgutil.iter_modules(cuzhaveli.__path__))]
    results = [doctest.testmod(importlib.import_module(name)) for name in names]
    failed, tried = sum(one.failed for one in results), sum(one.attempted for one in results)
    if failed or not tried:
        sys.exit(f"docstrings: {failed} of {tried} lines differ")
    sys.modules["my_raid"] = my_raid()
    for name in DOCUMENTS:
        run_document(TOP / name)
    print(f"docstrings: {tried} lines of {len(names)} modules hold, and the code of {', '.join(DOCUMENTS)}")


if __name__ == "__main__":
    main()
