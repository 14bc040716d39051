"""Plans as text, and the plan program's text."""

from __future__ import annotations

from .. import (
    Shape,
    Step,
    judge_plan,
    judge_text,
    plain_text,
    plan_disk,
    plan_text,
    write_plan,
)
from . import reference
from .check import Check, shapes

NAMES = b"row,set,number\n"
PRINTED = b"""step,row,set,number,new
0,0,R,0,5
1,2,R,2,5
2,4,R,4,5
3,1,D,0,2
4,3,D,2,2
"""


def run(check: Check) -> None:
    check.same(plan_text(b"p,lost\n5,1\n"), PRINTED, "plan_text", "the example of document 01")
    for wrong in (b"", b"p,lost\n05,1\n", b"p,lost\n5,1", b"p,lost\n5,1\n\n", b"p,lost\n5,-1\n"):
        check.same(plan_text(wrong), b"refused,12\n", "plan_text", wrong)
    for shape in shapes():
        lost = check.random.randrange(shape.disks + 2)
        _written(check, shape, lost)
        _odd(check, shape, lost)
        if shape.disks == shape.width:
            _printed(check, shape, lost)


def _plain(steps: list[Step]) -> bytes:
    return NAMES + b"".join(b"%d,%c,%d\n" % (row, b"RD"[kind], number) for row, kind, number in steps)


def _edited(check: Check, steps: list[Step]) -> bytes:
    """The same plan as some editor may leave it."""
    zeros, ends = (b"%d", b"%02d", b"%03d"), (b"\n", b"\r\n")
    lines = [NAMES.rstrip() + check.random.choice(ends)]
    for row, kind, number in steps:
        letter = check.random.choice((b"Rr", b"Dd")[kind])
        form = check.random.choice(zeros) + b",%c," + check.random.choice(zeros)
        lines.append(form % (row, letter, number) + check.random.choice(ends))
    return b"".join(lines)


def _written(check: Check, shape: Shape, lost: int) -> None:
    steps = reference.our_plan(shape, lost)
    array, plan = (shape.width, shape.disks, lost), bytes(sum(steps, ()))
    check.same(write_plan(*array, plan), _plain(steps), "write_plan", *array, plan)
    text = _edited(check, steps)
    check.same(plain_text(*array, text), _plain(steps), "plain_text", *array, text)
    check.same(judge_text(*array, text), judge_plan(*array, plan), "judge_text", *array, text)
    bad = text.replace(b",", b"x", 1), text[:-1], text + b"\n", text.split(b"\n", 1)[1]
    for wrong in (*bad, NAMES, b"", text.replace(b"row", b"ROW")):
        check.refused(22, judge_text, *array, wrong)
        check.refused(22, plain_text, *array, wrong)


def _odd(check: Check, shape: Shape, lost: int) -> None:
    """A number over the width has the form and is the judge's, one over 255 breaks it."""
    steps, array = reference.our_plan(shape, lost), (shape.width, shape.disks, lost)
    place = check.random.randrange(shape.width)
    steps[place] = Step(255, 0, 0)
    check.refused(6, judge_text, *array, _plain(steps), place=place)
    steps[place] = Step(256, 0, 0)
    check.refused(22, judge_text, *array, _plain(steps))


def _printed(check: Check, shape: Shape, lost: int) -> None:
    seen: set[reference.Cell] = set()
    lines = [b"step,row,set,number,new\n"]
    for place, step in enumerate(plan_disk(shape.width, shape.disks, lost).steps):
        cells = reference.cells_of(shape, step.kind, step.number)
        new = {cell for cell in cells - seen if cell[1] != lost}
        seen |= new
        words = place, step.row, b"RD"[step.kind], step.number, len(new)
        lines.append(b"%d,%d,%c,%d,%d\n" % words)
    text = b"p,lost\n%d,%d\n" % (shape.width, lost)
    check.same(plan_text(text), b"".join(lines), "plan_text", text)
