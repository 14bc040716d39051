#!/usr/bin/env python3
"""Compares the functions of the Python package with themselves over the second implementation.

Usage: tests/python/reference.py LIBREFERENCE [CALLS [SEED]], with PYTHONPATH and CUZHAVELI_LIBRARY set
  LIBREFERENCE: the second implementation as a shared library, which exports second_NAME for cuzhaveli_NAME.

Each random call, some with faults, is made twice: by the library, and with the second implementation in
its place. Answers, refusals and all memory have to be the same. Exit status 1 if something differs.
"""

import ctypes
import random
import sys
from unittest import mock

import cuzhaveli
from cuzhaveli import NO_LOSS, WIDTHS, Refusal, Shape, declarations, lending
from cuzhaveli.selftest import refusals

SEED = 20000831


class Second:
    """The second implementation under the names of the library's calls, as far as it has them."""

    def __init__(self, path):
        library = ctypes.CDLL(path)
        for name, (result, parameters) in declarations.CALLS.items():
            call = getattr(library, name.replace("cuzhaveli_", "second_"), None)
            if call is not None:
                call.restype, call.argtypes = result, [type_ for _, type_ in parameters]
                setattr(self, name, call)


def plan_of(numbers, rng):
    """A plan of the library, or one with a number changed or two steps exchanged."""
    planners = cuzhaveli.plan_disk, cuzhaveli.balanced_plan
    plan = bytearray(rng.choice(planners)(*numbers).to_bytes())
    one, other = rng.randrange(numbers[0]) * 3, rng.randrange(numbers[0]) * 3
    if rng.randrange(3) == 0:
        plan[one : one + 3], plan[other : other + 3] = plan[other : other + 3], plan[one : one + 3]
    if rng.randrange(3) == 0:
        plan[rng.randrange(len(plan))] = rng.randrange(numbers[0] + 1)
    return bytes(plan)


def text_of(plan, rng):
    """The plan as text, in one of its forms or a broken one."""
    steps = [plan[at : at + 3] for at in range(0, len(plan), 3)]
    form = rng.choice((b"%d,%c,%d\n", b"%02d,%c,%03d\r\n"))
    text = b"row,set,number\n" + b"".join(form % (row, b"RDx"[min(kind, 2)], number) for row, kind, number in steps)
    return text if rng.randrange(5) else text.replace(rng.choice((b",", b"\n", b"0", b"R")), b"d", 1)


def stripe_of(shape, rng):
    """Noise, a clean stripe, or one with a byte changed."""
    stripe = bytearray(rng.randbytes(shape.stripe_bytes))
    if rng.randrange(3):
        cuzhaveli.encode_stripe(shape, stripe)
    if rng.randrange(2):
        stripe[rng.randrange(len(stripe))] ^= 1
    return bytes(stripe)


def values(rng):
    """Arguments by the names of selftest.refusals, most of them good."""
    width = rng.choice(WIDTHS[: rng.randrange(3, len(WIDTHS) + 1)])
    shape = Shape(width, rng.randrange(2, width + 1), rng.randrange(1, 40))
    disk = lambda: rng.randrange(shape.disks + 2)  # noqa: E731
    lost, servers, unit = disk(), rng.randrange(2, 5), rng.randrange(1, 800)
    plan = plan_of((shape.width, shape.disks, lost), rng)
    counts = {"servers": servers, "server": rng.randrange(servers + 1), "count": rng.randrange(5), "array": rng.randrange(4)}
    memory = {
        **{"plan": plan, "text": text_of(plan, rng), "list": bytes(shape.list_bytes), "column": bytes(shape.column_bytes)},
        **{"stripe": stripe_of(shape, rng), "cell": rng.randbytes(shape.cell_size)},
        "missing": bytes(rng.randrange(3) == 0 and rng.randrange(1, 256) for _ in range(shape.list_bytes)),
        "stripes": b"".join(stripe_of(shape, rng) for _ in range(servers + 1)),
        "losses": bytes(rng.choice((NO_LOSS, disk())) for _ in range(2 * servers + 2)),
    }
    pieces = rng.randrange(1, 6)
    cells = stripe_of(Shape(width, shape.disks, pieces * shape.cell_size), rng)
    name, number = rng.randbytes(16), rng.getrandbits(rng.randrange(1, 65))
    block = bytes(cuzhaveli.seal_unit(shape, pieces, name, number, cells))
    film = pieces * shape.data_bytes
    units = {
        **{"stripes_of": pieces, "name": name, "number": number, "block": block, "unit_row": rng.randrange(width)},
        "cells": cells if rng.randrange(2) else rng.randbytes(5) + cells[5:],
        "marks": bytes(rng.randrange(9) == 0 for _ in range(shape.list_bytes)),
        **{"out": bytes(film // 2), "start": rng.randrange(film - film // 2 + 2)},
        "piece": cells[lost * width * pieces * shape.cell_size :][: pieces * shape.cell_size],
    }
    numbers = {
        **{"lost": lost, "relieved": disk(), "row": rng.randrange(width), "data_disk": rng.randrange(shape.disks)},
        **{"skipped": rng.randrange(2), "which": rng.randrange(2), "rate": rng.randrange(1002)},
        **{"bytes": rng.randrange(1 << rng.randrange(1, 56)), "free": rng.randrange(1 << rng.randrange(1, 64))},
        **{"reported": rng.randrange(5), "back": bool(rng.randrange(2))},
        **{"unit": unit, "group": unit * rng.randrange(1, 40), "length": rng.randrange(1 << rng.randrange(1, 48))},
        **{"image_row": rng.randrange(width + 1), "image_stripe": rng.randrange(1 << rng.randrange(1, 40))},
        **{"image_unit": rng.randrange(1 << rng.randrange(1, 40)), "film_byte": rng.randrange(1 << rng.randrange(1, 48))},
    }
    lists = {
        "lengths": [rng.randrange(1 << rng.randrange(1, 48)) for _ in range(rng.randrange(1, 9))],
        "arrays": [(5, 3, rng.randrange(1 << 5)), (7, 7, 0), (31, 31, rng.randrange(1 << 33))],
    }
    return {**shape._asdict(), **counts, **memory, **units, **numbers, **lists}


def outcome(name, arguments):
    """What a call gives, and the arguments after it."""
    try:
        given = getattr(cuzhaveli, name)(*arguments)
    except Refusal as refusal:
        given = (refusal.number, refusal.place)
    return given, arguments


def main():
    if len(sys.argv) not in (2, 3, 4):
        sys.exit(__doc__.split("\n\n")[1])
    calls, seed = int((sys.argv[2:3] or [6000])[0]), int((sys.argv[3:4] or [SEED])[0])
    rng, second = random.Random(seed), Second(sys.argv[1])
    names = [name for name in refusals.CALLS if hasattr(second, "cuzhaveli_" + name)]
    refused = set()
    for number in range(calls):
        name = rng.choice(names)
        parameters, of = refusals.CALLS[name]
        given = values(rng)
        if rng.randrange(4) == 0:
            parameter, bad = rng.choice(refusals.faults(parameters, rng.choice(of)))
            # The second implementation is lent memory even where the library may be lent none.
            given[parameter] = bad if not isinstance(bad, list) or 0 < len(bad) < 65 else given[parameter]
        got = outcome(name, refusals.arguments(parameters, given))
        with mock.patch.object(lending, "load", lambda: second):
            wanted = outcome(name, refusals.arguments(parameters, given))
        if got != wanted:
            sys.exit(f"reference: DIFFERS: call {number} of seed {seed}: {name}{got[1]}\n  wanted: {wanted[0]}\n  got:    {got[0]}")
        if isinstance(got[0], tuple) and not hasattr(got[0], "_fields"):
            refused.add((name, got[0][0]))
    print(f"reference: {calls} calls of {len(names)} functions agree, {len(refused)} refusals among them")


if __name__ == "__main__":
    main()
