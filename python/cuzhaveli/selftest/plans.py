"""Plans, read lists, the judge."""

from __future__ import annotations

from collections import Counter

from .. import (
    DIAGONAL,
    Plan,
    Refusal,
    Shape,
    Step,
    balanced_plan,
    fewest_plan,
    judge_plan,
    plan_disk,
    plan_list,
    read_list,
    relief_plan,
)
from . import reference
from .check import Check, shapes

# Routes of document 01, row 0 first, and reads.
ROUTES = {
    (3, 0): "100",
    (3, 2): "011",
    (5, 0): "11000",
    (5, 1): "01010",
    (5, 3): "00011",
    (5, 4): "00101",
    (7, 1): "0110100",
    (11, 1): "01111010000",
}
READS = {(3, 1): 7, (5, 1): 19, (11, 1): 91, (31, 4): 721}


def run(check: Check) -> None:
    for (width, lost), routes in ROUTES.items():
        got = plan_disk(width, width, lost).routes
        check.same(f"{got:0{width}b}"[::-1], routes, "plan_disk", width, lost)
    for (width, lost), reads in READS.items():
        check.same(plan_disk(width, width, lost).reads, reads, "plan_disk", width, lost)
    for shape in shapes():
        for lost in range(shape.disks + 2):
            _ours(check, shape, lost)
            _balanced(check, shape, lost)
            _fewest(check, shape, lost)
            _damaged(check, shape, lost)


def _ours(check: Check, shape: Shape, lost: int) -> None:
    plan = plan_disk(shape.width, shape.disks, lost)
    check.same(list(plan.steps), reference.our_plan(shape, lost), "plan_disk", shape, lost)
    marks = read_list(shape.width, shape.disks, lost)
    _accepted(check, shape, lost, plan)
    _, _, reads = reference.judged(shape, lost, list(plan.steps))
    check.same(bytes(marks), reference.marks(shape, reads), "read_list", shape, lost)
    if lost < shape.disks == shape.width:
        fewest = (3 * shape.width**2 + 1) // 4
        check.same(plan.reads, fewest, "plan_disk", shape, lost, "fewest reads")


def _accepted(check: Check, shape: Shape, lost: int, plan: Plan) -> list[int]:
    """The judge, the list and the reference agree on a plan; gives the reads of each disk."""
    refusal, place, reads = reference.judged(shape, lost, list(plan.steps))
    check.same((refusal, place), (0, 0), "a plan of the library", shape, lost, plan)
    array = shape.width, shape.disks, lost
    check.same(judge_plan(*array, plan), len(reads), "judge_plan", shape, lost, plan)
    check.same(plan.reads, len(reads), "reads of a plan", shape, lost, plan)
    wanted = reference.marks(shape, reads)
    check.same(bytes(plan_list(*array, plan)), wanted, "plan_list", shape, lost, plan)
    routes = sum(1 << step.row for step in plan.steps if step.kind == DIAGONAL)
    check.same(plan.routes, routes, "routes of a plan", shape, lost, plan)
    of_disk = Counter(disk for _, disk in reads)
    return [of_disk[disk] for disk in range(shape.disks + 2)]


def _balanced(check: Check, shape: Shape, lost: int) -> None:
    """The balanced plan asks at most (3p + 2) / 4 of a disk, the relief plan (p + 1) / 2 of one."""
    width, disks = shape.width, shape.disks
    given = _accepted(check, shape, lost, balanced_plan(width, disks, lost))
    if lost >= disks:
        ours = plan_disk(width, disks, lost)
        check.same(balanced_plan(width, disks, lost), ours, "balanced_plan", shape, lost)
        return
    check.same(max(given) <= (3 * width + 2) // 4, True, "balanced_plan", shape, lost, given)
    relieved = check.random.choice([disk for disk in range(disks) if disk != lost])
    given = _accepted(check, shape, lost, relief_plan(width, disks, lost, relieved))
    check.same(given[relieved], (width + 1) // 2, "relief_plan", shape, lost, relieved)
    check.refused(4, relief_plan, width, disks, lost, lost)
    check.refused(3, relief_plan, width, disks, lost, disks)


def _fewest(check: Check, shape: Shape, lost: int) -> None:
    """The fewest plan reads kp cells less what the best step relieves the data disks of."""
    width, disks = shape.width, shape.disks
    plan, ours = fewest_plan(width, disks, lost), plan_disk(width, disks, lost)
    _accepted(check, shape, lost, plan)
    if lost >= disks:
        check.same(plan, ours, "fewest_plan", shape, lost)
        return
    relieved = max(_relieved(shape, lost, step) for step in range(1, width))
    check.same(plan.reads, disks * width - relieved, "fewest_plan", shape, lost)
    fewer = plan.reads <= min(ours.reads, balanced_plan(width, disks, lost).reads)
    check.same(fewer, True, "fewest_plan", shape, lost, "beside the others")


def _relieved(shape: Shape, lost: int, step: int) -> int:
    """How many cells of the data disks the progression plan with this step leaves unread."""
    ways = ((x, (lost + step * x) % shape.width) for x in range(shape.width))
    return sum(min(x, shape.width - x) for x, disk in ways if disk < shape.disks)


def _damaged(check: Check, shape: Shape, lost: int) -> None:
    """Plans with a number changed, or two steps exchanged, are judged as the reference does."""
    array = shape.width, shape.disks, lost
    for _ in range(6):
        steps = [list(step) for step in reference.our_plan(shape, lost)]
        one, other = check.random.sample(range(shape.width), 2)
        if check.random.randrange(2):
            steps[one], steps[other] = steps[other], steps[one]
        else:
            limit = check.random.choice((2, shape.width, shape.width + 2))
            steps[one][check.random.randrange(3)] = check.random.randrange(limit)
        refusal, place, reads = reference.judged(shape, lost, [Step(*step) for step in steps])
        plan = bytes(sum(steps, []))
        try:
            got: object = judge_plan(*array, plan)
        except Refusal as refused:
            got = (refused.number, refused.place)
        wanted = (refusal, place) if refusal else len(reads)
        check.same(got, wanted, "judge_plan", *array, plan)
