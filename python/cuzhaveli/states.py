"""States of arrays: which disks of each are lost, and how many arrays can bear more losses."""

from __future__ import annotations

from dataclasses import dataclass
from typing import NamedTuple, Sequence

from . import declarations
from .lending import call, size, whole
from .shape import MAX_ARRAYS

__all__ = ["ArrayState", "Totals", "report_disk"]


@dataclass
class ArrayState:
    """An array of a list: its width and data disks, and bit d of `lost` set if disk d is lost."""

    width: int
    disks: int
    lost: int = 0


class Totals(NamedTuple):
    """How many arrays can bear two more losses, one more, none, and how many are past saving."""

    optimal: int
    degraded: int
    critical: int
    failed: int


def report_disk(arrays: Sequence[ArrayState], which: int, disk: int, back: bool) -> Totals:
    """Marks a disk of array `which` as lost, or as back, and counts the list as it then is.

    Refuses 20, 1, 13, 3, 21.

    >>> arrays = [ArrayState(5, 3), ArrayState(31, 31)]
    >>> report_disk(arrays, 1, 32, back=False)
    Totals(optimal=1, degraded=1, critical=0, failed=0)
    >>> arrays[1].lost == 1 << 32
    True
    """
    # Too many are refused by their number alone.
    count = len(arrays) if len(arrays) <= MAX_ARRAYS else 0
    records = (declarations.ArrayState * count)(*map(_record, arrays[:count]))
    lent = records if count else None
    board: declarations.Board = call(
        "report_disk", lent, len(arrays), size(which), size(disk), bool(back)
    )
    arrays[which].lost = records[which].lost
    totals = board.totals
    return Totals(totals.optimal, totals.degraded, totals.critical, totals.failed)


def _record(array: ArrayState) -> declarations.ArrayState:
    return declarations.ArrayState(
        size(array.width), size(array.disks), whole("lost", array.lost, 64)
    )
