"""The space that a package of files takes, and what a rebuild costs."""

from __future__ import annotations

from ctypes import c_uint64
from typing import Iterable, NamedTuple

from . import declarations, runs
from .lending import call, whole
from .shape import MAX_FILES, Shape, record

__all__ = ["Bill", "Space", "bill_bytes", "bill_run", "package_space"]


class Space(NamedTuple):
    """The stripes of a package, the bytes of one disk for them, and whether these are free."""

    stripes: int
    bytes: int
    fits: bool


class Bill(NamedTuple):
    """The bytes in each band, which add up to the whole, and the price in cents."""

    first: int
    second: int
    third: int
    cents: int


def package_space(shape: Shape, lengths: Iterable[int], free: int) -> Space:
    """The space of a package of files, each on stripes of its own. Refuses 1, 13, 2, 14, 11.

    `free` is the number of free bytes of one disk.

    >>> package_space(Shape(5, 5, 4096), [102401, 0], 40960)
    Space(stripes=2, bytes=40960, fits=True)
    """
    files = [whole("a length", length, 64) for length in lengths]
    # Too many are refused by their number alone.
    numbers = (c_uint64 * len(files))(*files) if 0 < len(files) <= MAX_FILES else None
    space: declarations.Space = call(
        "package_space", record(shape), numbers, len(files), whole("free", free, 64)
    )
    return Space(space.stripes, space.bytes, space.fits)


def bill_bytes(bytes: int, first: int, second: int, third: int) -> Bill:
    """The bill of so many bytes, at rates in cents a GiB. Refuses 16, 17.

    `first` is for the first 64 GiB, `second` for the part above up to 1024 GiB, `third` for the
    rest. The sum is rounded to the nearest cent, an exact half to the even one.

    >>> bill_bytes(65 << 30, 10, 5, 1).cents, bill_bytes(1 << 29, 3, 0, 0).cents
    (645, 2)
    """
    return _bill(call("bill_bytes", whole("bytes", bytes, 64), *_rates(first, second, third)))


def bill_run(run: runs.Run, first: int, second: int, third: int) -> Bill:
    """The bill of the bytes that a run has read so far. Refuses 1, 13, 2, 3, 10, 16."""
    return _bill(call("bill_run", runs.record(run), *_rates(first, second, third)))


def _rates(*rates: int) -> list[int]:
    return [whole("a rate", rate, 64) for rate in rates]


def _bill(bill: declarations.Bill) -> Bill:
    return Bill(bill.first, bill.second, bill.third, bill.cents)
