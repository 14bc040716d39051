"""Finds and loads libcuzhaveli.so.1.

It is looked for in this order: the file that CUZHAVELI_LIBRARY names, libcuzhaveli.so.1 beside this
package's modules, where `pip install` of a repository or a release with a built library puts it, and
what the system's loader knows by that name.
"""

from __future__ import annotations

import ctypes
import functools
import os
import pathlib

from .declarations import CALLS

__all__ = ["LibraryError"]

NAME = "libcuzhaveli.so.1"
VARIABLE = "CUZHAVELI_LIBRARY"
BESIDE = pathlib.Path(__file__).with_name(NAME)
REMEDY = (
    f"Build it (`make` in the repository writes build/{NAME}) and set {VARIABLE} to its path, "
    "or install it (`make install`, then `ldconfig` where the folder is a usual one)"
)


class LibraryError(ImportError):
    """The library was not found, or is not one that this package can call."""


def path() -> str:
    """What is loaded: a path, or the bare name where the system's loader has to find it."""
    named = os.environ.get(VARIABLE)
    if named:
        return named
    return str(BESIDE) if BESIDE.exists() else NAME


@functools.lru_cache(maxsize=None)
def load() -> ctypes.CDLL:
    """The library with its calls declared; loaded at the first call.

    >>> load().cuzhaveli_version() >= 10000
    True
    """
    where = path()
    try:
        library = ctypes.CDLL(where)
    except OSError as error:
        raise LibraryError(f"{_searched(where)}: {error}. {REMEDY}") from error
    for name, (result, parameters) in CALLS.items():
        try:
            call = getattr(library, name)
        except AttributeError as error:
            raise LibraryError(
                f"{where} has no {name}: it is older than this package, or another library. {REMEDY}"
            ) from error
        call.restype = result
        call.argtypes = [type_ for _, type_ in parameters]
    return library


def _searched(where: str) -> str:
    if os.environ.get(VARIABLE):
        return f"{VARIABLE} is {where}, which does not load"
    if where != NAME:
        return f"{where} does not load"
    return f"{NAME} was not found: {VARIABLE} is not set, and {BESIDE} is not there"
