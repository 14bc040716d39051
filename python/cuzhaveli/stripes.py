"""A stripe in memory: encoding, the check, the scrub, the update of one cell.

A stripe has `Shape.stripe_bytes` bytes: the film in order, then P and Q.
"""

from __future__ import annotations

from enum import IntEnum
from typing import TYPE_CHECKING, NamedTuple, Optional

from . import declarations
from .lending import Read, Written, call, size
from .shape import Shape, record

if TYPE_CHECKING:
    from _typeshed import ReadableBuffer, WriteableBuffer

__all__ = ["Scrubbed", "Verdict", "check_stripe", "encode_stripe", "scrub_stripe", "update_cell"]


class Verdict(IntEnum):
    """What a scrub can say of a stripe."""

    CLEAN = 0
    ONE_DISK = 1
    MORE_THAN_ONE = 2


class Scrubbed(NamedTuple):
    """The verdict, and with `ONE_DISK` the number of the disk whose cells alone are wrong."""

    verdict: Verdict
    disk: Optional[int]


def encode_stripe(shape: Shape, stripe: WriteableBuffer) -> None:
    """Writes P and Q, the last two disks, so that the stripe is clean. Refuses 1, 13, 2, 5.

    >>> stripe = bytearray.fromhex("01 08 40  02 10 80  04 20 00  00 00 00  00 00 00")
    >>> encode_stripe(Shape(3, 3, 1), stripe)
    >>> stripe[9:].hex(" ")
    '07 38 c0 11 9c 66'
    """
    call("encode_stripe", record(shape), Written("stripe", stripe))


def check_stripe(shape: Shape, stripe: ReadableBuffer) -> bool:
    """Whether a stripe is clean. Refuses 1, 13, 2, 5.

    >>> check_stripe(Shape(3, 3, 1), bytes(15))
    True
    """
    checked: declarations.Checked = call("check_stripe", record(shape), Read("stripe", stripe))
    return bool(checked.clean)


def scrub_stripe(shape: Shape, stripe: ReadableBuffer) -> Scrubbed:
    """Whether a stripe is clean, wrong on one disk, or on more. Refuses 1, 13, 2, 5.

    The disk that is named is the only one whose cells alone can be replaced to make it clean.

    >>> scrub_stripe(Shape(3, 3, 1), bytes(14) + b"!")
    Scrubbed(verdict=<Verdict.ONE_DISK: 1>, disk=4)
    """
    scrubbed: declarations.Scrubbed = call("scrub_stripe", record(shape), Read("stripe", stripe))
    verdict = Verdict(scrubbed.verdict)
    return Scrubbed(verdict, scrubbed.disk if verdict is Verdict.ONE_DISK else None)


def update_cell(
    shape: Shape, row: int, disk: int, stripe: WriteableBuffer, cell: ReadableBuffer
) -> None:
    """Puts `cell` into row `row` of data disk `disk` and changes its parity cells with it.

    The XOR of every set is what it was, so a clean stripe stays clean; no other byte changes.
    Refuses 1, 13, 2, 3 (P and Q too), 5, 15.

    >>> stripe = bytearray(15)
    >>> update_cell(Shape(3, 3, 1), 0, 0, stripe, b"!")
    >>> check_stripe(Shape(3, 3, 1), stripe)
    True
    """
    lent = Written("stripe", stripe), Read("cell", cell)
    call("update_cell", record(shape), size(row), size(disk), *lent)
