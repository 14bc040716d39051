"""Counts comparisons and tells what differs."""

from __future__ import annotations

import random
from typing import Any, Callable, Iterator

from .. import WIDTHS, Refusal, Shape

SHOWN = 10


class Check:
    """The comparisons of one run; the seed gives the same ones again."""

    def __init__(self, seed: int) -> None:
        self.random = random.Random(seed)
        self.compared = 0
        self.differ = 0

    def same(self, got: object, wanted: object, *what: object) -> None:
        """Compares an answer with the wanted one; `what` is the call and its arguments."""
        self.compared += 1
        if got == wanted:
            return
        self.differ += 1
        if self.differ <= SHOWN:
            call = ", ".join(_short(part) for part in what)
            print(f"DIFFERS: {call}\n  wanted: {_short(wanted)}\n  got:    {_short(got)}")

    def refused(self, wanted: int, call: Callable[..., Any], *arguments: Any, place: int = 0) -> None:
        """Makes a call that is to be refused, and to leave the memory that it is lent."""
        before = [bytes(part) for part in arguments if isinstance(part, bytearray)]
        try:
            got: object = call(*arguments)
        except Refusal as refusal:
            got = (refusal.number, refusal.place)
        after = [bytes(part) for part in arguments if isinstance(part, bytearray)]
        self.same(got, (wanted, place), call.__name__, *arguments)
        self.same(after, before, call.__name__, "memory after a refusal", *arguments)

    def raises(self, wanted: type, call: Callable[..., Any], *arguments: Any) -> None:
        """Makes a call that this package itself turns away."""
        try:
            got: object = call(*arguments)
        except Exception as error:  # whatever comes is compared
            got = type(error)
        self.same(got, wanted, call.__name__, *arguments)

    def stripe(self, shape: Shape) -> bytearray:
        """Random bytes of a stripe's length."""
        return bytearray(self.random.randbytes(shape.stripe_bytes))


def shapes() -> Iterator[Shape]:
    """Every width and number of data disks, with cell sizes around those of registers and blocks."""
    sizes = (1, 8, 31, 64, 2, 130, 7, 33)
    number = 0
    for width in WIDTHS:
        for disks in range(2, width + 1):
            yield Shape(width, disks, sizes[number % len(sizes)])
            number += 1


def _short(value: object) -> str:
    text = bytes(value).hex() if isinstance(value, (bytearray, memoryview)) else repr(value)
    return text if len(text) <= 200 else f"{text[:200]}.. ({len(text)} characters)"
