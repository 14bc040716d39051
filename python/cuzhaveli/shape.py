"""The numbers of an array, and where its cells lie in a stripe."""

from __future__ import annotations

from typing import NamedTuple

from . import declarations
from .lending import size

__all__ = [
    "LABEL_BYTES",
    "MAX_ARRAYS",
    "MAX_CELL_SIZE",
    "MAX_FILES",
    "MAX_GROUP",
    "MAX_PIECE",
    "MAX_SERVERS",
    "MAX_STRIPES",
    "MAX_WIDTH",
    "NAME_BYTES",
    "NO_LOSS",
    "TEXT_BYTES",
    "WIDTHS",
    "Shape",
]

WIDTHS = (3, 5, 7, 11, 13, 17, 19, 23, 29, 31)
MAX_WIDTH = 31
MAX_CELL_SIZE = 4096
MAX_SERVERS = 16
MAX_STRIPES = 4294967295
MAX_FILES = 4096
TEXT_BYTES = 263
MAX_ARRAYS = 64
NO_LOSS = 255
MAX_PIECE = 32768
MAX_GROUP = 65536
LABEL_BYTES = 4096
NAME_BYTES = 16


class Shape(NamedTuple):
    """Width p, data disks k and bytes of a cell s.

    Disks 0 to k - 1 hold film, disk k is P, disk k + 1 is Q; each has p cells in a stripe. A shape
    is not tested when it is made: every call tests it.

    >>> shape = Shape(5, 3, 512)
    >>> shape.column_bytes, shape.data_bytes, shape.stripe_bytes
    (2560, 7680, 12800)
    >>> shape.p, shape.q
    (3, 4)
    """

    width: int
    disks: int
    cell_size: int

    @property
    def column_bytes(self) -> int:
        """A disk's part of a stripe."""
        return self.width * self.cell_size

    @property
    def data_bytes(self) -> int:
        """A stripe's film."""
        return self.disks * self.column_bytes

    @property
    def stripe_bytes(self) -> int:
        """A stripe: film, P and Q."""
        return (self.disks + 2) * self.column_bytes

    @property
    def list_bytes(self) -> int:
        """A read list, or the marks of missing cells: a byte for each cell."""
        return (self.disks + 2) * self.width

    @property
    def p(self) -> int:
        """The number of the disk with row parity."""
        return self.disks

    @property
    def q(self) -> int:
        """The number of the disk with diagonal parity."""
        return self.disks + 1

    def place(self, row: int, disk: int) -> int:
        """The place of a cell in a read list; times the cell size, its first byte in a stripe."""
        return disk * self.width + row

    def cell(self, row: int, disk: int) -> slice:
        """The bytes of a cell in a stripe.

        >>> Shape(5, 3, 512).cell(2, 1)
        slice(3584, 4096, None)
        """
        start = self.place(row, disk) * self.cell_size
        return slice(start, start + self.cell_size)

    def column(self, disk: int) -> slice:
        """The bytes of a disk in a stripe.

        >>> Shape(5, 3, 512).column(1)
        slice(2560, 5120, None)
        """
        return slice(disk * self.column_bytes, (disk + 1) * self.column_bytes)


def record(shape: Shape) -> declarations.Shape:
    """The shape as the library takes it."""
    width, disks, cell_size = shape
    return declarations.Shape(size(width), size(disks), size(cell_size))


# New memory for answers has no bytes where a number is beyond its limit: the call refuses that
# number before it looks at the length.


def column_room(shape: Shape) -> bytearray:
    """A column for a rebuilt disk."""
    within = 0 <= shape.width <= MAX_WIDTH and 0 <= shape.cell_size <= MAX_CELL_SIZE
    return bytearray(shape.column_bytes if within else 0)


def list_room(width: int, disks: int) -> bytearray:
    """A read list."""
    within = 0 <= width <= MAX_WIDTH and 0 <= disks <= MAX_WIDTH
    return bytearray((disks + 2) * width if within else 0)
