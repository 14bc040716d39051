"""Lost disks and missing cells of a stripe.

A rebuild of one disk writes its column, `Shape.column_bytes` bytes, to the memory that is given or
to new memory, and returns it; the stripe is only read. Other rebuilds write in place.
"""

from __future__ import annotations

from typing import TYPE_CHECKING, TypeVar, overload

from .lending import Read, Written, call, size
from .plans import plan_bytes
from .shape import Shape, column_room, record

if TYPE_CHECKING:
    from _typeshed import ReadableBuffer, WriteableBuffer

    from .plans import PlanBytes

__all__ = [
    "rebuild_balanced",
    "rebuild_by_plan",
    "rebuild_cells",
    "rebuild_one",
    "rebuild_tested",
    "rebuild_two",
]

Column = TypeVar("Column", bound="WriteableBuffer")


@overload
def rebuild_one(
    shape: Shape, lost: int, stripe: ReadableBuffer, column: None = None
) -> bytearray: ...
@overload
def rebuild_one(shape: Shape, lost: int, stripe: ReadableBuffer, column: Column) -> Column: ...
def rebuild_one(
    shape: Shape, lost: int, stripe: ReadableBuffer, column: WriteableBuffer | None = None
) -> object:
    """The lost disk by our plan: only the cells of `read_list` matter. Refuses 1, 13, 2, 3, 5.

    >>> stripe = bytes.fromhex("01 08 40  ee ee ee  04 20 00  07 38 c0  11 9c 66")
    >>> rebuild_one(Shape(3, 3, 1), 1, stripe).hex(" ")
    '02 10 80'
    """
    return _rebuilt("rebuild_one", shape, lost, stripe, column)


@overload
def rebuild_balanced(
    shape: Shape, lost: int, stripe: ReadableBuffer, column: None = None
) -> bytearray: ...
@overload
def rebuild_balanced(
    shape: Shape, lost: int, stripe: ReadableBuffer, column: Column
) -> Column: ...
def rebuild_balanced(
    shape: Shape, lost: int, stripe: ReadableBuffer, column: WriteableBuffer | None = None
) -> object:
    """The lost disk by the balanced plan. Refuses 1, 13, 2, 3, 5."""
    return _rebuilt("rebuild_balanced", shape, lost, stripe, column)


@overload
def rebuild_tested(
    shape: Shape, lost: int, stripe: ReadableBuffer, column: None = None
) -> bytearray: ...
@overload
def rebuild_tested(shape: Shape, lost: int, stripe: ReadableBuffer, column: Column) -> Column: ...
def rebuild_tested(
    shape: Shape, lost: int, stripe: ReadableBuffer, column: WriteableBuffer | None = None
) -> object:
    """The lost disk, if the surviving disks are those of a clean stripe; else refused by 19.

    Every surviving cell is read. Refuses 1, 13, 2, 3, 5, 19.
    """
    return _rebuilt("rebuild_tested", shape, lost, stripe, column)


@overload
def rebuild_by_plan(
    shape: Shape, lost: int, plan: PlanBytes, stripe: ReadableBuffer, column: None = None
) -> bytearray: ...
@overload
def rebuild_by_plan(
    shape: Shape, lost: int, plan: PlanBytes, stripe: ReadableBuffer, column: Column
) -> Column: ...
def rebuild_by_plan(
    shape: Shape,
    lost: int,
    plan: PlanBytes,
    stripe: ReadableBuffer,
    column: WriteableBuffer | None = None,
) -> object:
    """The lost disk by any plan that the judge accepts: only the cells of `plan_list` matter.

    Refuses 1, 13, 2, 3, 5, 6, 7, 8, 9.
    """
    return _rebuilt("rebuild_by_plan", shape, lost, stripe, column, plan_bytes(plan))


def rebuild_two(shape: Shape, first: int, second: int, stripe: WriteableBuffer) -> None:
    """Two lost disks in their places, whatever stood there. Refuses 1, 13, 2, 3, 4, 5.

    >>> stripe = bytearray.fromhex("ee ee ee  ee ee ee  04 20 00  07 38 c0  11 9c 66")
    >>> rebuild_two(Shape(3, 3, 1), 0, 1, stripe)
    >>> stripe[:6].hex(" ")
    '01 08 40 02 10 80'
    """
    call("rebuild_two", record(shape), size(first), size(second), Written("stripe", stripe))


def rebuild_cells(shape: Shape, missing: ReadableBuffer, stripe: WriteableBuffer) -> None:
    """The missing cells in their places: those whose byte in `missing` is not 0.

    `missing` has `Shape.list_bytes` bytes, that of a cell at `Shape.place(row, disk)`. Refused by 23
    exactly if the other cells do not determine the missing ones. Refuses 1, 13, 2, 5, 23.

    >>> shape = Shape(3, 3, 1)
    >>> stripe = bytearray.fromhex("ee 08 40  02 ee 80  04 20 ee  07 38 c0  11 9c 66")
    >>> rebuild_cells(shape, bytes([1, 0, 0, 0, 1, 0, 0, 0, 1] + 6 * [0]), stripe)
    >>> stripe[0], stripe[4], stripe[8]
    (1, 16, 0)
    """
    call("rebuild_cells", record(shape), Read("missing", missing), Written("stripe", stripe))


def _rebuilt(
    name: str,
    shape: Shape,
    lost: int,
    stripe: ReadableBuffer,
    column: WriteableBuffer | None,
    *plan: Read,
) -> object:
    written = column_room(shape) if column is None else column
    lent = Read("stripe", stripe), Written("column", written)
    call(name, record(shape), size(lost), *plan, *lent)
    return written
