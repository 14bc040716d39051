"""Units: stripes that are verified together, under checksums.

In memory a unit of n stripes is its pieces, the cells of one row on one disk each, n * cell_size
bytes, at most 32768, at their `Shape.place`. `name` is the name of its set, 16 bytes chosen at
random, `unit` its number in the set. Its checksum block has `block_bytes(shape)` bytes.
"""

from __future__ import annotations

from typing import TYPE_CHECKING, Any

from .lending import Read, Written, call, size, whole
from .shape import MAX_WIDTH, Shape, record

if TYPE_CHECKING:
    from _typeshed import ReadableBuffer, WriteableBuffer

__all__ = ["block_bytes", "block_fits", "film_bytes", "open_unit", "piece_fits", "seal_unit"]


def block_bytes(shape: Shape) -> int:
    """The bytes of a checksum block: one checksum for each piece, and one of these.

    >>> block_bytes(Shape(5, 5, 512))
    288
    """
    return 8 * shape.list_bytes + 8


def seal_unit(
    shape: Shape, stripes: int, name: ReadableBuffer, unit: int, cells: ReadableBuffer
) -> bytearray:
    """The checksum block of a unit. Refuses 1, 13, 2, 25, 5.

    >>> cells = bytes(range(32)) * 12
    >>> block = seal_unit(Shape(3, 2, 32), 1, bytes(range(16)), 5, cells)
    >>> block[80:88].hex()  # row 1 of disk 3, the lowest byte first
    '32c4f390c99b10e7'
    """
    within = 0 <= shape.width <= MAX_WIDTH and 0 <= shape.disks <= MAX_WIDTH
    block = bytearray(block_bytes(shape) if within else 0)
    words = _words(shape, stripes, name, unit)
    call("seal_unit", *words, Read("cells", cells), Written("block", block))
    return block


def open_unit(
    shape: Shape,
    stripes: int,
    name: ReadableBuffer,
    unit: int,
    block: ReadableBuffer,
    marks: WriteableBuffer,
    cells: WriteableBuffer,
) -> None:
    """Rebuilds in place the pieces that do not fit or whose mark is not 0.

    Then each mark is 0 if its piece fits, else 1. Refused by 24 if the block does not fit its
    guard, by 23 if the pieces that fit do not determine the others.
    Refuses 1, 13, 2, 25, 5, 24, 23.

    >>> shape, name, cells, marks = Shape(3, 2, 4), bytes(16), bytearray(48), bytearray(12)
    >>> block = seal_unit(shape, 1, name, 0, cells)  # zeros are clean
    >>> cells[5] = marks[0] = 1
    >>> open_unit(shape, 1, name, 0, block, marks, cells)
    >>> any(cells), any(marks)
    (False, False)
    """
    words = _words(shape, stripes, name, unit)
    lent = Read("block", block), Written("marks", marks), Written("cells", cells)
    call("open_unit", *words, *lent)


def film_bytes(
    shape: Shape,
    stripes: int,
    name: ReadableBuffer,
    unit: int,
    block: ReadableBuffer,
    cells: ReadableBuffer,
    start: int,
    out: WriteableBuffer,
) -> None:
    """Writes the film of a unit from byte `start` on, if the pieces that it is in fit.

    Refuses 1, 13, 2, 25, 5, 24.

    >>> shape, name, cells, out = Shape(3, 2, 1), bytes(16), bytes(range(24)), bytearray(12)
    >>> block = seal_unit(shape, 2, name, 0, cells)  # two stripes, pieces of two bytes
    >>> film_bytes(shape, 2, name, 0, block, cells, 0, out)
    >>> list(out)
    [0, 2, 4, 6, 8, 10, 1, 3, 5, 7, 9, 11]
    """
    words = _words(shape, stripes, name, unit)
    lent = Read("block", block), Read("cells", cells)
    call("film_bytes", *words, *lent, size(start), Written("out", out))


def block_fits(
    width: int, disks: int, name: ReadableBuffer, unit: int, block: ReadableBuffer
) -> None:
    """Compares a checksum block with its guard.

    Refuses 1, 13, 5, 24.

    >>> block_fits(3, 2, bytes(16), 0, seal_unit(Shape(3, 2, 1), 2, bytes(16), 0, bytes(24)))
    """
    words = size(width), size(disks), Read("name", name), whole("unit", unit, 64)
    call("block_fits", *words, Read("block", block))


def piece_fits(
    shape: Shape,
    stripes: int,
    name: ReadableBuffer,
    unit: int,
    block: ReadableBuffer,
    disk: int,
    row: int,
    piece: ReadableBuffer,
) -> None:
    """Compares a piece with the checksum that the block has for that row of that disk.

    Refuses 1, 13, 2, 25, 3, 5, 15, 24.

    >>> cells = bytes(range(24))
    >>> block = seal_unit(Shape(3, 2, 1), 2, bytes(16), 0, cells)
    >>> piece_fits(Shape(3, 2, 1), 2, bytes(16), 0, block, 1, 0, cells[6:8])
    """
    words = _words(shape, stripes, name, unit)
    call("piece_fits", *words, Read("block", block), size(disk), size(row), Read("piece", piece))


def _words(shape: Shape, stripes: int, name: ReadableBuffer, unit: int) -> list[Any]:
    return [record(shape), size(stripes), Read("name", name), whole("unit", unit, 64)]
