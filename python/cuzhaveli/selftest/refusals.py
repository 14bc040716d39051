"""Refusals: each by its number, and of several faults the one that is tested first.

Every call has good arguments below, and each refusal some values that bring it about. Calls are made
with faults of several refusals at once, and have to answer the first in the order of the header.
"""

from __future__ import annotations

from typing import Any

import cuzhaveli

from .. import ArrayState, Layout, Run, Shape
from .check import Check
from .units import block_of

# Each call's parameters and its refusals, in the order in which they are tested.
CALLS: dict[str, tuple[str, tuple[int, ...]]] = {
    "plan_disk": ("width disks lost", (1, 13, 3)),
    "balanced_plan": ("width disks lost", (1, 13, 3)),
    "relief_plan": ("width disks lost relieved", (1, 13, 3, 4)),
    "fewest_plan": ("width disks lost", (1, 13, 3)),
    "read_list": ("width disks lost list", (1, 13, 3, 5)),
    "judge_plan": ("width disks lost plan", (1, 13, 3, 5, 6, 7, 8, 9)),
    "plan_list": ("width disks lost plan list", (1, 13, 3, 5, 6, 7, 8, 9)),
    "judge_text": ("width disks lost text", (1, 13, 3, 22)),
    "write_plan": ("width disks lost plan", (1, 13, 3, 5, 6, 7, 8, 9)),
    "plain_text": ("width disks lost text", (1, 13, 3, 22)),
    "package_space": ("shape lengths free", (1, 13, 2, 14, 11)),
    "image_bytes": ("layout", (1, 13, 2, 11, 25)),
    "cell_place": ("layout image_row image_stripe", (1, 13, 2, 11, 25, 26)),
    "block_place": ("layout image_unit", (1, 13, 2, 11, 25, 26)),
    "unit_place": ("layout image_row image_unit", (1, 13, 2, 11, 25, 26)),
    "film_place": ("layout film_byte", (1, 13, 2, 11, 25, 26)),
    "seal_unit": ("shape stripes_of name number cells", (1, 13, 2, 25, 5)),
    "open_unit": (
        "shape stripes_of name number block marks cells",
        (1, 13, 2, 25, 5, 24, 23),
    ),
    "film_bytes": ("shape stripes_of name number block cells start out", (1, 13, 2, 25, 5, 24)),
    "block_fits": ("width disks name number block", (1, 13, 5, 24)),
    "piece_fits": (
        "shape stripes_of name number block lost unit_row piece",
        (1, 13, 2, 25, 3, 5, 15, 24),
    ),
    "encode_stripe": ("shape stripe", (1, 13, 2, 5)),
    "check_stripe": ("shape stripe", (1, 13, 2, 5)),
    "scrub_stripe": ("shape stripe", (1, 13, 2, 5)),
    "rebuild_one": ("shape lost stripe column", (1, 13, 2, 3, 5)),
    "rebuild_balanced": ("shape lost stripe column", (1, 13, 2, 3, 5)),
    "rebuild_by_plan": ("shape lost plan stripe column", (1, 13, 2, 3, 5, 6, 7, 8, 9)),
    "rebuild_tested": ("shape lost stripe column", (1, 13, 2, 3, 5, 19)),
    "rebuild_two": ("shape one other stripe", (1, 13, 2, 3, 4, 5)),
    "rebuild_cells": ("shape missing stripe", (1, 13, 2, 5, 23)),
    "update_cell": ("shape row data_disk stripe cell", (1, 13, 2, 3, 5, 15)),
    "write_server": ("shape servers stripes", (1, 13, 2, 18, 5)),
    "rebuild_server": ("shape servers server stripes losses", (1, 13, 2, 18, 5, 3, 4)),
    "open_run": ("shape lost count", (1, 13, 2, 3)),
    "step_run": ("run which stripe column", (1, 13, 2, 3, 5, 10)),
    "skip_stripe": ("run which", (1, 13, 2, 3, 10)),
    "run_progress": ("run", (1, 13, 2, 3, 10)),
    "bill_run": ("run rate rate rate", (1, 13, 2, 3, 10, 16)),
    "bill_bytes": ("bytes rate rate rate", (16, 17)),
    "report_disk": ("arrays array reported back", (20, 1, 13, 3, 21)),
}
# Parts of a shape, and of a run's record, are named on their own.
PARTS = {
    "shape": ("width", "disks", "cell_size"),
    "run": ("width", "disks", "cell_size", "lost", "skipped"),
    "layout": ("width", "disks", "cell_size", "unit", "group", "length"),
}
BEYOND = (-1, 1 << 32, (1 << 64) + 1, 1 << 200)
PLAN = bytes([0, 0, 0, 2, 0, 2, 4, 0, 4, 1, 1, 0, 3, 1, 2])  # ours for width 5, disk 1
TEXT = b"row,set,number\n0,R,0\n2,R,2\n4,R,4\n1,D,0\n3,D,2\n"
BLOCK = block_of(Shape(5, 3, 8), 2, bytes(16), 7, bytes(400))
GOOD: dict[str, Any] = {
    **{"width": 5, "disks": 3, "cell_size": 8, "lost": 1, "relieved": 2, "one": 0, "other": 4},
    **{"unit": 4, "group": 8, "length": 1000, "image_row": 2},  # nine stripes, three units
    **{"image_stripe": 8, "image_unit": 2, "film_byte": 999},
    **{"stripes_of": 2, "name": bytes(16), "number": 7, "cells": bytes(400), "block": BLOCK},
    **{"marks": bytes(25), "start": 140, "out": bytes(100), "unit_row": 4, "piece": bytes(16)},
    **{"plan": PLAN, "text": TEXT, "list": bytes(25), "missing": bytes(25)},
    **{"stripe": bytes(200), "column": bytes(40), "cell": bytes(8), "row": 2, "data_disk": 1},
    **{"servers": 2, "server": 1, "stripes": bytes(600), "losses": bytes([255] * 6)},
    **{"skipped": 0, "which": 0, "count": 4, "rate": 10, "bytes": 1 << 54, "free": 0},
    **{"lengths": [1 << 47, 0], "array": 1, "reported": 3, "back": False},
    "arrays": [(5, 3, 0), (7, 7, 1), (31, 2, 3)],
}
FAULTS: dict[int, dict[str, tuple[Any, ...]]] = {
    1: {"width": (0, 2, 4, 9, 32, *BEYOND), "arrays": ([(9, 3, 0), (5, 6, 0)],)},
    13: {"disks": (0, 1, 6, *BEYOND), "arrays": ([(5, 3, 0), (5, 6, 0), (5, 3, 1 << 5)],)},
    2: {"cell_size": (0, 4097, *BEYOND)},
    3: {
        **{"lost": (5, *BEYOND), "relieved": (3, 4, *BEYOND), "one": (5,), "other": (5, *BEYOND)},
        **{"data_disk": (3, 4, *BEYOND), "losses": (bytes([5]) + bytes([255] * 5),)},
        **{"reported": (9, *BEYOND), "arrays": ([(5, 3, 1 << 5), (7, 7, 0)],)},
    },
    4: {"relieved": (1,), "other": (0,), "losses": (bytes([1, 1, 255, 255, 255, 255]),)},
    5: {
        **{
            name: (GOOD[name][:-1], GOOD[name] + b"\0", b"")
            for name in (
                *("plan", "list", "stripe", "column", "cell", "missing", "stripes", "losses"),
                *("name", "cells", "block", "marks", "piece"),
            )
        },
        "start": (141, 240, *BEYOND),
    },
    6: {"plan": (bytes([5, 0, 0]) + PLAN[3:], bytes([0, 2, 0]) + PLAN[3:])},
    7: {"plan": (bytes([0, 1, 0]) + PLAN[3:],)},
    8: {"plan": (PLAN[:3] + PLAN[:3] + PLAN[6:],)},
    9: {"plan": (bytes([3, 1, 2]) + PLAN[3:],)},
    10: {"which": (1, 1 << 40), "skipped": (1,)},
    11: {
        "lengths": ([1 << 48, 1], [(1 << 64) - 1, 1]),
        "length": ((1 << 48) + 1, (1 << 64) - 1),
    },
    14: {"lengths": ([1 << 60] * 4097,)},
    15: {"row": (5, *BEYOND), "unit_row": (5, *BEYOND)},
    16: {"rate": (1001, 1 << 40)},
    17: {"bytes": ((1 << 54) + 1, (1 << 64) - 1)},
    18: {"servers": (1, 17, *BEYOND), "server": (3, *BEYOND)},
    19: {"stripe": (bytes(100) + b"!" + bytes(99),)},
    20: {"array": (3, *BEYOND), "arrays": ([(9, 9, 9)] * 65, [])},
    21: {"back": (True,)},
    22: {"text": (b"", TEXT[:-1])},
    23: {
        name: (bytes([1] * 25), bytes([1] * 15) + bytes(10)) for name in ("missing", "marks")
    },
    24: {"block": (bytes(208), BLOCK[:-1] + bytes([BLOCK[-1] ^ 1]))},
    25: {
        **{"unit": (0, 3, (1 << 64) - 1), "group": (0, 9, 65540)},
        "stripes_of": (0, 4097, *BEYOND),
    },
    26: {
        "image_row": (5, *BEYOND),
        "image_stripe": (9, (1 << 64) - 1),
        "image_unit": (3, (1 << 64) - 1),
        "film_byte": (1000, (1 << 64) - 1),
    },
}
PLACES = {8: 1}


def run(check: Check) -> None:
    for name, (parameters, refusals) in CALLS.items():
        getattr(cuzhaveli, name)(*arguments(parameters, GOOD))
        for number in refusals:
            for fault in faults(parameters, number):
                _refused(check, name, [(number, *fault)])
        for _ in range(60):
            count = check.random.randrange(2, len(refusals) + 1)
            numbers = sorted(check.random.sample(refusals, count), key=refusals.index)
            several = [(n, *check.random.choice(faults(parameters, n))) for n in numbers]
            _refused(check, name, several)


def faults(parameters: str, number: int) -> list[tuple[str, Any]]:
    """The faults that bring a refusal about in a call with these parameters."""
    names = [part for name in parameters.split() for part in PARTS.get(name, (name,))]
    return [(name, bad) for name in names for bad in FAULTS[number].get(name, ())]


def _refused(check: Check, name: str, several: list[tuple[int, str, Any]]) -> None:
    """Makes a call with faults, of which the first decides; of two in one parameter it is the one."""
    values = dict(GOOD)
    for _, parameter, bad in reversed(several):
        values[parameter] = bad
    number, given = several[0][0], arguments(CALLS[name][0], values)
    check.refused(number, getattr(cuzhaveli, name), *given, place=PLACES.get(number, 0))


def arguments(parameters: str, values: dict[str, Any]) -> list[Any]:
    """The arguments of a call; bytes are copied to memory that can be written."""
    shape = Shape(values["width"], values["disks"], values["cell_size"])
    whole = {
        "shape": shape,
        "run": Run(shape, values["lost"], 4, 0, values["skipped"]),
        "layout": Layout(shape, values["unit"], values["group"], values["length"]),
        "arrays": [ArrayState(*array) for array in values["arrays"]],
    }
    given = [whole[name] if name in whole else values[name] for name in parameters.split()]
    return [bytearray(value) if isinstance(value, bytes) else value for value in given]
