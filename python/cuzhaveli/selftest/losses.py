"""Lost disks, lost pairs and missing cells."""

from __future__ import annotations

from itertools import combinations

from .. import (
    Shape,
    Step,
    balanced_plan,
    encode_stripe,
    plan_disk,
    read_list,
    rebuild_balanced,
    rebuild_by_plan,
    rebuild_cells,
    rebuild_one,
    rebuild_tested,
    rebuild_two,
)
from . import reference
from .check import Check, shapes


def run(check: Check) -> None:
    for shape in shapes():
        clean = check.stripe(shape)
        encode_stripe(shape, clean)
        for lost in range(shape.disks + 2):
            _one(check, shape, lost, clean)
            _dirty(check, shape, lost)
        for pair in combinations(range(shape.disks + 2), 2):
            _two(check, shape, pair, clean)
        for count in range(0, 2 * shape.width + 2, 1 + shape.width // 5):
            _cells(check, shape, count, clean)


def _one(check: Check, shape: Shape, lost: int, clean: bytearray) -> None:
    """A lost disk of a clean stripe comes back, from the cells of the read list alone."""
    wanted = clean[shape.column(lost)]
    survivors = bytearray(clean)
    survivors[shape.column(lost)] = check.random.randbytes(shape.column_bytes)
    tested = rebuild_tested(shape, lost, survivors)
    check.same(tested, wanted, "rebuild_tested", shape, lost, survivors)
    balanced = rebuild_balanced(shape, lost, survivors)
    check.same(balanced, wanted, "rebuild_balanced", shape, lost, survivors)
    for place, needed in enumerate(read_list(shape.width, shape.disks, lost)):
        if not needed:
            at = place * shape.cell_size
            survivors[at : at + shape.cell_size] = check.random.randbytes(shape.cell_size)
    check.same(rebuild_one(shape, lost, survivors), wanted, "rebuild_one", shape, lost, survivors)


def _dirty(check: Check, shape: Shape, lost: int) -> None:
    """Of a dirty stripe the steps of a plan give what they give."""
    stripe = check.stripe(shape)
    ours, balanced = plan_disk(*shape[:2], lost), balanced_plan(*shape[:2], lost)
    wanted = reference.column_by(shape, lost, ours.steps, stripe)
    check.same(rebuild_one(shape, lost, stripe), wanted, "rebuild_one", shape, lost, stripe)
    by_plan = rebuild_by_plan(shape, lost, ours, stripe)
    check.same(by_plan, wanted, "rebuild_by_plan", shape, lost, ours, stripe)
    rows = [Step(row, 0, row) for row in range(shape.width)]
    check.random.shuffle(rows)
    if lost < shape.q:
        got = rebuild_by_plan(shape, lost, bytes(sum(rows, ())), stripe)
        wanted = reference.column_by(shape, lost, rows, stripe)
        check.same(got, wanted, "rebuild_by_plan", shape, lost, rows, stripe)
    got = rebuild_balanced(shape, lost, stripe)
    wanted = reference.column_by(shape, lost, balanced.steps, stripe)
    check.same(got, wanted, "rebuild_balanced", shape, lost, stripe)
    _tested(check, shape, lost, stripe)


def _tested(check: Check, shape: Shape, lost: int, stripe: bytearray) -> None:
    """Survivors that are those of no clean stripe are refused, and only these."""
    if reference.can_be_mended(shape, stripe, lost):
        mended = bytearray(stripe)
        mended[shape.column(lost)] = rebuild_tested(shape, lost, stripe)
        check.same(reference.clean(shape, mended), True, "rebuild_tested", shape, lost, stripe)
    else:
        column = bytearray(shape.column_bytes)
        check.refused(19, rebuild_tested, shape, lost, stripe, column)


def _two(check: Check, shape: Shape, pair: tuple[int, int], clean: bytearray) -> None:
    survivors = bytearray(clean)
    for disk in pair:
        survivors[shape.column(disk)] = bytes([0xEE]) * shape.column_bytes
    first, second = pair if check.random.randrange(2) else pair[::-1]
    rebuild_two(shape, first, second, survivors)
    check.same(survivors, clean, "rebuild_two", shape, first, second)


def _cells(check: Check, shape: Shape, count: int, clean: bytearray) -> None:
    """Missing cells anywhere: they come back exactly where the others determine them."""
    every = [(row, disk) for row in range(shape.width) for disk in range(shape.disks + 2)]
    missing = set(check.random.sample(every, min(count, len(every))))
    stripe = bytearray(clean)
    for row, disk in missing:
        stripe[shape.cell(row, disk)] = check.random.randbytes(shape.cell_size)
    marks = reference.marks(shape, missing)
    if reference.determined(shape, missing):
        rebuild_cells(shape, marks, stripe)
        check.same(stripe, clean, "rebuild_cells", shape, sorted(missing))
    else:
        check.refused(23, rebuild_cells, shape, marks, stripe)
