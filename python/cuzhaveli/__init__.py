# SPDX-License-Identifier: Apache-2.0
"""A proved Liberation RAID-6 code: the calls of libcuzhaveli.so.1.

An array has a width p (3, 5, 7, 11, 13, 17, 19, 23, 29 or 31), k data disks (2 to p), row parity P
(disk k) and diagonal parity Q (disk k + 1). In a stripe each disk holds p cells of s bytes, s from 1
to 4096. A `Shape` is such a p, k and s; the calls are those of include/cuzhaveli.h without the
prefix, and take bytes, bytearray, memoryview and whatever else has the buffer protocol.

>>> shape = Shape(5, 5, 512)
>>> stripe = bytearray(7 * shape.column_bytes)
>>> stripe[:shape.data_bytes] = bytes(n % 251 for n in range(shape.data_bytes))
>>> encode_stripe(shape, stripe)
>>> lost = 1
>>> survivors = bytearray(shape.stripe_bytes)
>>> for place, needed in enumerate(read_list(5, 5, lost)):  # 19 cells of 30
...     if needed:
...         cell = slice(place * 512, place * 512 + 512)
...         survivors[cell] = stripe[cell]
>>> rebuild_one(shape, lost, survivors) == stripe[shape.column(lost)]
True

A call that the library refuses raises `Refusal` with its number, name and place, and has written
nothing. What computes is the proved library alone; this package tests nothing that it tests.
"""

from . import (
    figures,
    images,
    library,
    plans,
    rebuilds,
    refusal,
    runs,
    servers,
    shape,
    states,
    stripes,
    units,
)
from .figures import *
from .images import *
from .lending import call as _call
from .library import *
from .plans import *
from .rebuilds import *
from .refusal import *
from .runs import *
from .servers import *
from .shape import *
from .states import *
from .stripes import *
from .units import *

__all__ = ["version"]
__all__ += figures.__all__
__all__ += images.__all__
__all__ += library.__all__
__all__ += plans.__all__
__all__ += rebuilds.__all__
__all__ += refusal.__all__
__all__ += runs.__all__
__all__ += servers.__all__
__all__ += shape.__all__
__all__ += states.__all__
__all__ += stripes.__all__
__all__ += units.__all__

__version__ = "1.0.0"


def version() -> int:
    """The library's version: 10000 times its first number, 100 times its second, and its third.

    >>> version()
    10000
    """
    number: int = _call("version")
    return number
