"""The kinds of memory that can be lent, and numbers that C cannot hold."""

from __future__ import annotations

import ctypes
import mmap
from array import array
from importlib import import_module
from typing import Any

from .. import (
    ArrayState,
    Shape,
    bill_bytes,
    check_stripe,
    encode_stripe,
    open_run,
    package_space,
    read_list,
    rebuild_one,
    report_disk,
    skip_stripe,
)
from . import reference
from .check import Check

SHAPE = Shape(5, 3, 16)


def run(check: Check) -> None:
    stripe = check.stripe(SHAPE)
    wanted = reference.encoded(SHAPE, stripe)
    for kind, memory in _writable(bytes(stripe)):
        encode_stripe(SHAPE, memory)
        check.same(bytes(memoryview(memory)), wanted, "encode_stripe", kind)
        check.same(check_stripe(SHAPE, memory), True, "check_stripe", kind)
        column = rebuild_one(SHAPE, 1, memory)
        check.same(bytes(column), wanted[SHAPE.column(1)], "rebuild_one", kind)
    for kind, memory in (("bytes", wanted), ("read-only view", memoryview(wanted))):
        check.same(check_stripe(SHAPE, memory), True, "check_stripe", kind)
        check.raises(TypeError, encode_stripe, SHAPE, memory)
    _places(check, wanted)
    _released(check)
    _other_memory(check)
    _numbers(check)


def _writable(content: bytes) -> list[tuple[str, Any]]:
    """The same bytes in memory of each kind, at an odd address too."""
    mapped = mmap.mmap(-1, len(content))
    mapped[:] = content
    kinds = [
        ("bytearray", bytearray(content)),
        ("view at an odd address", memoryview(bytearray(b"!" + content))[1:]),
        ("array of bytes", array("B", content)),
        ("array of numbers", array("Q", content)),
        ("mmap", mapped),
        ("ctypes", (ctypes.c_uint8 * len(content))(*content)),
    ]
    try:
        numpy = import_module("numpy")
    except ImportError:
        return kinds
    plane = numpy.frombuffer(content, dtype=numpy.uint8).copy()
    return [*kinds, ("numpy", plane), ("numpy by disks", plane.copy().reshape(5, 5, 16))]


def _places(check: Check, wanted: bytes) -> None:
    """A column beside the stripe in one piece of memory; one that overlaps it is turned away."""
    whole = bytearray(wanted) + bytearray(SHAPE.column_bytes)
    view, end = memoryview(whole), SHAPE.stripe_bytes
    column = rebuild_one(SHAPE, 1, view[:end], view[end:])
    check.same(bytes(column), wanted[SHAPE.column(1)], "rebuild_one", "a column after the stripe")
    check.raises(ValueError, rebuild_one, SHAPE, 1, view[:end], view[end - 1 : -1])
    check.raises(ValueError, rebuild_one, SHAPE, 1, view[:end], view[SHAPE.column(1)])
    check.raises(ValueError, rebuild_one, SHAPE, 1, whole, whole)
    check.same(bytes(whole[:end]), wanted, "rebuild_one", "memory after calls turned away")


def _released(check: Check) -> None:
    """Memory is the caller's again after each call: its length can be changed."""
    stripe = bytearray(SHAPE.stripe_bytes)
    encode_stripe(SHAPE, stripe)
    check.refused(1, encode_stripe, Shape(9, 3, 16), stripe)
    check.raises(TypeError, rebuild_one, SHAPE, 1, stripe, b"read-only")
    check.raises(ValueError, rebuild_one, SHAPE, 1, stripe, stripe)
    stripe.append(0)
    check.refused(5, encode_stripe, SHAPE, stripe)


def _other_memory(check: Check) -> None:
    stripe = bytearray(2 * SHAPE.stripe_bytes)
    check.raises(TypeError, check_stripe, SHAPE, memoryview(stripe)[::2])
    for wrong in ("text", None, 5, [0] * SHAPE.stripe_bytes):
        check.raises(TypeError, check_stripe, SHAPE, wrong)
    check.raises(TypeError, check_stripe, Shape(5.0, 3, 16), stripe)  # type: ignore[arg-type]
    check.raises(TypeError, read_list, "5", 3, 1)


def _numbers(check: Check) -> None:
    """Numbers that C would cut are turned away where the library could not tell."""
    for wrong in (-1, 1 << 32, 1 << 64):
        check.raises(OverflowError, open_run, SHAPE, 1, wrong)
    for wrong in (-1, 1 << 64):
        check.raises(OverflowError, package_space, SHAPE, [5], wrong)
        check.raises(OverflowError, package_space, SHAPE, [wrong], 5)
        check.raises(OverflowError, bill_bytes, wrong, 1, 1, 1)
        check.raises(OverflowError, bill_bytes, 1, 1, wrong, 1)
        check.raises(OverflowError, report_disk, [ArrayState(5, 3, wrong)], 0, 0, False)
        check.raises(OverflowError, skip_stripe, open_run(SHAPE, 1, 4), wrong)
