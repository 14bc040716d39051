"""Lends the memory and the numbers of a Python caller to the library for one call.

Memory is any object with the buffer protocol whose bytes lie one after another: bytes, bytearray,
memoryview, mmap, array, a numpy array. It is lent as it is, without a copy; what a call writes must
be writable. The library asks of its callers that memory it writes overlaps nothing else it is lent,
and here that is tested.
"""

from __future__ import annotations

import ctypes
import operator
from contextlib import ExitStack, contextmanager
from typing import TYPE_CHECKING, Any, Iterator, NamedTuple, SupportsIndex, Union

from .library import load
from .refusal import Refusal

if TYPE_CHECKING:
    from _typeshed import ReadableBuffer, WriteableBuffer

SIZE_MAX = 2**64 - 1


class Read(NamedTuple):
    """Memory that a call reads, and the name of the parameter."""

    name: str
    memory: ReadableBuffer


class Written(NamedTuple):
    """Memory that a call writes, and perhaps reads."""

    name: str
    memory: WriteableBuffer


class _Stretch(NamedTuple):
    name: str
    written: bool
    address: int
    length: int


class _Buffer(ctypes.Structure):
    """`Py_buffer` of Python's C interface."""

    _fields_ = [
        ("buf", ctypes.c_void_p),
        ("obj", ctypes.c_void_p),
        ("len", ctypes.c_ssize_t),
        ("itemsize", ctypes.c_ssize_t),
        ("readonly", ctypes.c_int),
        ("ndim", ctypes.c_int),
        ("format", ctypes.c_void_p),
        ("shape", ctypes.c_void_p),
        ("strides", ctypes.c_void_p),
        ("suboffsets", ctypes.c_void_p),
        ("internal", ctypes.c_void_p),
    ]


# ctypes itself takes the address of writable memory only.
_SIMPLE, _WRITABLE = 0, 1
_get_buffer = ctypes.pythonapi.PyObject_GetBuffer
_get_buffer.argtypes = [ctypes.py_object, ctypes.POINTER(_Buffer), ctypes.c_int]
_get_buffer.restype = ctypes.c_int
_release_buffer = ctypes.pythonapi.PyBuffer_Release
_release_buffer.argtypes = [ctypes.POINTER(_Buffer)]
_release_buffer.restype = None


def size(number: SupportsIndex) -> int:
    """A `size_t`. A number that it cannot hold goes in as its largest, which every call refuses.

    >>> size(5), size(-1) == size(2**64) == 2**64 - 1
    (5, True)
    """
    value = operator.index(number)
    return value if 0 <= value <= SIZE_MAX else SIZE_MAX


def whole(name: str, number: SupportsIndex, bits: int) -> int:
    """A number of so many bits, where not every number that is too large would be refused.

    >>> whole("free", -1, 64)
    Traceback (most recent call last):
    OverflowError: free is -1; give a number from 0 to 18446744073709551615
    """
    value = operator.index(number)
    if not 0 <= value < 2**bits:
        raise OverflowError(f"{name} is {value}; give a number from 0 to {2**bits - 1}")
    return value


def call(name: str, *arguments: Any) -> Any:
    """Makes a call of the header; memory goes in as its address and its length.

    A call that the library refuses raises `Refusal`.
    """
    function = getattr(load(), "cuzhaveli_" + name)
    words: list[Any] = []
    stretches: list[_Stretch] = []
    with ExitStack() as stack:
        for argument in arguments:
            if isinstance(argument, (Read, Written)):
                stretch = stack.enter_context(_lent(argument))
                stretches.append(stretch)
                words += [stretch.address, stretch.length]
            else:
                words.append(argument)
        _test_overlap(stretches)
        answer = function(*words)
    refused = getattr(answer, "answer", answer)
    if getattr(refused, "refusal", 0):
        raise Refusal(refused.refusal, refused.place)
    return answer


@contextmanager
def _lent(argument: Union[Read, Written]) -> Iterator[_Stretch]:
    """The place of an object's memory, which cannot be freed or change its length meanwhile."""
    written = isinstance(argument, Written)
    buffer = _Buffer()
    try:
        _get_buffer(argument.memory, buffer, _WRITABLE if written else _SIMPLE)
    except (TypeError, BufferError, ValueError) as error:
        raise TypeError(
            f"{argument.name} is a {type(argument.memory).__name__}: {error}; give "
            f"{'writable ' if written else ''}memory in one piece, such as a "
            f"{'bytearray' if written else 'bytes object'}"
        ) from error
    try:
        yield _Stretch(argument.name, written, buffer.buf or 0, buffer.len)
    finally:
        _release_buffer(buffer)


def _test_overlap(stretches: list[_Stretch]) -> None:
    for number, one in enumerate(stretches):
        for other in stretches[number + 1 :]:
            first, second = sorted((one, other), key=lambda stretch: stretch.address)
            apart = first.address + first.length <= second.address or not second.length
            if not apart and (one.written or other.written):
                raise ValueError(
                    f"{one.name} and {other.name} overlap; what a call writes has to lie apart"
                )
