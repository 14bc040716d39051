"""The code from its definition, document 01 with ask 1, in plain Python.

A stripe is a list of numbers here, one for each cell, at place disk × p + row; a cell is (row, disk).
"""

from __future__ import annotations

from functools import lru_cache
from typing import FrozenSet, Iterable, Tuple

from .. import DIAGONAL, ROW, Shape, Step

Cell = Tuple[int, int]


def row_set(shape: Shape, number: int) -> list[Cell]:
    """The cells of row set R number."""
    return [(number, disk) for disk in range(shape.disks + 1)]


def diagonal_set(shape: Shape, number: int) -> list[Cell]:
    """The cells of diagonal set D number: the diagonal, its Q cell, the extra cell if it is there."""
    width, disks = shape.width, shape.disks
    cells = [((number + disk) % width, disk) for disk in range(disks)] + [(number, shape.q)]
    extra = (width - 1 - number, width - 2 * number % width)
    return cells + [extra] if number > 0 and extra[1] < disks else cells


@lru_cache(maxsize=None)
def cells_of(shape: Shape, kind: int, number: int) -> FrozenSet[Cell]:
    """The cells of a set."""
    return frozenset((row_set if kind == ROW else diagonal_set)(shape, number))


@lru_cache(maxsize=None)
def every_set(shape: Shape) -> list[list[int]]:
    """The places of the cells of all sets, the rows first."""
    sets = [cells_of(shape, kind, i) for kind in (ROW, DIAGONAL) for i in range(shape.width)]
    return [[shape.place(row, disk) for row, disk in cells] for cells in sets]


def cells_from(shape: Shape, stripe: bytes) -> list[int]:
    """The cells of a stripe as numbers."""
    size = shape.cell_size
    return [int.from_bytes(stripe[at : at + size], "big") for at in range(0, len(stripe), size)]


def bytes_from(shape: Shape, cells: Iterable[int]) -> bytes:
    """The bytes of cells."""
    return b"".join(cell.to_bytes(shape.cell_size, "big") for cell in cells)


def total(cells: list[int], places: Iterable[int]) -> int:
    """The XOR of the cells at some places."""
    result = 0
    for place in places:
        result ^= cells[place]
    return result


def encoded(shape: Shape, stripe: bytes) -> bytes:
    """The stripe with P and Q written."""
    cells = cells_from(shape, stripe)
    for number, places in enumerate(every_set(shape)):
        parity = shape.place(0, shape.p) + number  # Q's cells follow P's
        cells[parity] ^= total(cells, places)
    return bytes_from(shape, cells)


def clean(shape: Shape, stripe: bytes) -> bool:
    """Whether the cells of every set XOR to zero."""
    return _all_zero(shape, cells_from(shape, stripe))


def _all_zero(shape: Shape, cells: list[int]) -> bool:
    return not any(total(cells, places) for places in every_set(shape))


def can_be_mended(shape: Shape, stripe: bytes, disk: int) -> bool:
    """Whether replacing one disk's cells can make the stripe clean.

    Each row set asks for one of them, but for those of Q, for which each diagonal asks.
    """
    cells, sets = cells_from(shape, stripe), every_set(shape)
    column = range(shape.place(0, disk), shape.place(0, disk + 1))
    for places in sets[shape.width :] if disk == shape.q else sets[: shape.width]:
        (place,) = (place for place in places if place in column)
        cells[place] ^= total(cells, places)
    return _all_zero(shape, cells)


def our_plan(shape: Shape, lost: int) -> list[Step]:
    """Our plan for a lost disk."""
    width = shape.width
    if lost >= shape.disks:
        kind = ROW if lost == shape.p else DIAGONAL
        return [Step(row, kind, row) for row in range(width)]
    diagonals = {lost, lost * (width + 1) // 2 % width}
    rows: set[int] = set()
    for row in range(width):
        if len(diagonals) >= (width - 1) // 2:
            break
        if row in diagonals | rows:
            continue
        partner = width - 1 - (row - lost) % width
        if partner == row or partner in diagonals:
            rows.add(row)
        else:
            diagonals.add(row)
            rows.add(partner)
    by_rows = [Step(row, ROW, row) for row in range(width) if row not in diagonals]
    return by_rows + [Step(row, DIAGONAL, (row - lost) % width) for row in sorted(diagonals)]


def judged(shape: Shape, lost: int, steps: list[Step]) -> tuple[int, int, set[Cell]]:
    """The refusal of a plan and its place, 0 and 0 for none; and the surviving cells it reads."""
    rebuilt: set[int] = set()
    reads: set[Cell] = set()
    for place, (row, kind, number) in enumerate(steps):
        if row >= shape.width or number >= shape.width or kind > 1:
            return 6, place, set()
        cells = cells_of(shape, kind, number)
        if (row, lost) not in cells:
            return 7, place, set()
        if row in rebuilt:
            return 8, place, set()
        if any(disk == lost and other not in rebuilt | {row} for other, disk in cells):
            return 9, place, set()
        rebuilt.add(row)
        reads |= {cell for cell in cells if cell[1] != lost}
    return 0, 0, reads


def column_by(shape: Shape, lost: int, steps: Iterable[Step], stripe: bytes) -> bytes:
    """What the steps of an accepted plan rebuild, on dirty stripes too."""
    cells, sets = cells_from(shape, stripe), every_set(shape)
    for row, kind, number in steps:
        place = shape.place(row, lost)
        cells[place] ^= total(cells, sets[kind * shape.width + number])
    start = shape.place(0, lost)
    return bytes_from(shape, cells[start : start + shape.width])


def marks(shape: Shape, cells: set[Cell]) -> bytes:
    """A byte for each cell, 1 for those named."""
    places = {shape.place(row, disk) for row, disk in cells}
    return bytes(place in places for place in range(shape.list_bytes))


def determined(shape: Shape, missing: set[Cell]) -> bool:
    """Whether the sets determine the missing cells: as many of them independent as cells missing."""
    bits = {shape.place(*cell): 1 << number for number, cell in enumerate(missing)}
    pivots: dict[int, int] = {}
    for places in every_set(shape):
        row = 0
        for place in places:
            row ^= bits.get(place, 0)
        while row and row.bit_length() in pivots:
            row ^= pivots[row.bit_length()]
        if row:
            pivots[row.bit_length()] = row
    return len(pivots) == len(missing)
