"""Several servers with arrays of one shape, and one more that holds the XOR of their stripes.

The stripes of m servers, 2 to 16, and of the parity server lie one after another in
(m + 1) × `Shape.stripe_bytes` bytes.
"""

from __future__ import annotations

from typing import TYPE_CHECKING

from .lending import Read, Written, call, size
from .shape import Shape, record

if TYPE_CHECKING:
    from _typeshed import ReadableBuffer, WriteableBuffer

__all__ = ["rebuild_server", "write_server"]


def write_server(shape: Shape, servers: int, stripes: WriteableBuffer) -> None:
    """Writes the parity server's stripe, the last. Refuses 1, 13, 2, 18, 5.

    >>> stripes = bytearray(b"A" * 15 + b"a" * 15 + bytes(15))
    >>> write_server(Shape(3, 3, 1), 2, stripes)
    >>> stripes[30:]
    bytearray(b'               ')
    """
    call("write_server", record(shape), size(servers), Written("stripes", stripes))


def rebuild_server(
    shape: Shape, servers: int, lost: int, stripes: WriteableBuffer, losses: ReadableBuffer
) -> None:
    """Rebuilds the stripe of server `lost` from the others, whose lost disks are mended first.

    `losses` has two bytes for each of the m + 1 servers: up to two lost disks, `NO_LOSS` for none.
    Refuses 1, 13, 2, 18, 5, 3, 4.

    >>> stripes = bytearray(b"A" * 15 + bytes(15) + b" " * 15)
    >>> rebuild_server(Shape(3, 3, 1), 2, 1, stripes, bytes([255] * 6))
    >>> stripes[15:30]
    bytearray(b'aaaaaaaaaaaaaaa')
    """
    lent = Written("stripes", stripes), Read("losses", losses)
    call("rebuild_server", record(shape), size(servers), size(lost), *lent)
