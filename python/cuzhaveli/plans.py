"""Plans: which sets bring a lost disk back, and which cells they read. No bytes of a stripe move."""

from __future__ import annotations

from typing import TYPE_CHECKING, NamedTuple, TypeVar, Union, overload

from . import declarations
from .lending import Read, Written, call, size
from .shape import TEXT_BYTES, list_room

if TYPE_CHECKING:
    from _typeshed import ReadableBuffer, WriteableBuffer

    PlanBytes = Union["Plan", ReadableBuffer]

__all__ = [
    "DIAGONAL",
    "ROW",
    "Plan",
    "Step",
    "balanced_plan",
    "fewest_plan",
    "judge_plan",
    "judge_text",
    "plain_text",
    "plan_disk",
    "plan_list",
    "plan_text",
    "read_list",
    "relief_plan",
    "write_plan",
]

List = TypeVar("List", bound="WriteableBuffer")

ROW, DIAGONAL = 0, 1


class Step(NamedTuple):
    """Rebuilds the lost cell of `row` as the XOR of the other cells of a row or diagonal set."""

    row: int
    kind: int
    """`ROW` or `DIAGONAL`"""
    number: int
    """The set's."""


class Plan(NamedTuple):
    """A plan for a lost disk."""

    steps: tuple[Step, ...]
    routes: int
    """Bit i is set if row i takes a diagonal."""
    reads: int
    """How many different surviving cells are read."""

    def to_bytes(self) -> bytes:
        """Three bytes a step, row, kind and set number, as calls take a plan."""
        return bytes(number for step in self.steps for number in step)


def plan_disk(width: int, disks: int, lost: int) -> Plan:
    """Our plan, which has the fewest reads where disks = width. Refuses 1, 13, 3.

    >>> plan = plan_disk(5, 5, 1)
    >>> plan.reads, plan.steps[3]
    (19, Step(row=1, kind=1, number=0))
    """
    return _plan(call("plan_disk", *_array(width, disks, lost)), width)


def balanced_plan(width: int, disks: int, lost: int) -> Plan:
    """The plan in which no survivor gives more than (3p + 2) / 4 of its cells. Refuses 1, 13, 3.

    >>> balanced_plan(31, 31, 4).reads == plan_disk(31, 31, 4).reads
    True
    """
    return _plan(call("balanced_plan", *_array(width, disks, lost)), width)


def relief_plan(width: int, disks: int, lost: int, relieved: int) -> Plan:
    """The plan that asks least of one surviving data disk. Refuses 1, 13, 3, 4.

    >>> marks = plan_list(5, 5, 1, relief_plan(5, 5, 1, 3))
    >>> sum(marks[3 * 5 : 4 * 5])
    3
    """
    return _plan(call("relief_plan", *_array(width, disks, lost), size(relieved)), width)


def fewest_plan(width: int, disks: int, lost: int) -> Plan:
    """The plan that reads no more cells than the other three. Refuses 1, 13, 3.

    >>> fewest_plan(7, 5, 2).reads, balanced_plan(7, 5, 2).reads, plan_disk(7, 5, 2).reads
    (25, 27, 29)
    """
    return _plan(call("fewest_plan", *_array(width, disks, lost)), width)


@overload
def read_list(width: int, disks: int, lost: int, list: None = None) -> bytearray: ...
@overload
def read_list(width: int, disks: int, lost: int, list: List) -> List: ...
def read_list(width: int, disks: int, lost: int, list: WriteableBuffer | None = None) -> object:
    """Marks the cells that our plan reads, in `list` or in new memory, which is returned.

    The byte at `Shape.place(row, disk)` is 1 for a cell that is read, else 0; width × (disks + 2)
    bytes. Refuses 1, 13, 3, 5.

    >>> sum(read_list(5, 5, 1))
    19
    """
    marks = list_room(width, disks) if list is None else list
    call("read_list", *_array(width, disks, lost), Written("list", marks))
    return marks


@overload
def plan_list(
    width: int, disks: int, lost: int, plan: PlanBytes, list: None = None
) -> bytearray: ...
@overload
def plan_list(width: int, disks: int, lost: int, plan: PlanBytes, list: List) -> List: ...
def plan_list(
    width: int, disks: int, lost: int, plan: PlanBytes, list: WriteableBuffer | None = None
) -> object:
    """Marks the cells that any accepted plan reads, as `read_list` does for ours.

    Refuses 1, 13, 3, 5, 6, 7, 8, 9.
    """
    marks = list_room(width, disks) if list is None else list
    call("plan_list", *_array(width, disks, lost), plan_bytes(plan), Written("list", marks))
    return marks


def judge_plan(width: int, disks: int, lost: int, plan: PlanBytes) -> int:
    """How many different surviving cells a plan reads. Refuses 1, 13, 3, 5, 6, 7, 8, 9.

    A plan has three bytes a step: row, kind, set number. A refusal's `place` is the step.

    >>> judge_plan(3, 3, 1, bytes([0, 0, 0, 1, 1, 0, 2, 1, 1]))
    7
    """
    judged: declarations.Judged = call("judge_plan", *_array(width, disks, lost), plan_bytes(plan))
    return int(judged.reads)


def judge_text(width: int, disks: int, lost: int, text: ReadableBuffer) -> int:
    """The same for a plan that is a text. Refuses 1, 13, 3, 22, 6, 7, 8, 9.

    >>> judge_text(3, 3, 1, b"row,set,number\\n0,r,0\\n1,d,000\\r\\n2,D,01\\n")
    7
    """
    judged: declarations.Judged = call("judge_text", *_array(width, disks, lost), Read("text", text))
    return int(judged.reads)


def write_plan(width: int, disks: int, lost: int, plan: PlanBytes) -> bytes:
    """An accepted plan as text in its plain form. Refuses 1, 13, 3, 5, 6, 7, 8, 9.

    >>> write_plan(3, 3, 1, plan_disk(3, 3, 1))
    b'row,set,number\\n0,R,0\\n1,D,0\\n2,D,1\\n'
    """
    return _written("write_plan", _array(width, disks, lost), plan_bytes(plan))


def plain_text(width: int, disks: int, lost: int, text: ReadableBuffer) -> bytes:
    """The plain form of an accepted plan that is a text. Refuses 1, 13, 3, 5, 22, 6, 7, 8, 9."""
    return _written("plain_text", _array(width, disks, lost), Read("text", text))


def plan_text(input: ReadableBuffer) -> bytes:
    """What the plan program prints for an input, a refusal too; nothing is refused.

    >>> plan_text(b"p,lost\\n5,7\\n")
    b'refused,3\\n'
    """
    text: declarations.Text = call("plan_text", Read("input", input))
    return bytes(text.bytes[: text.length])


def plan_bytes(plan: PlanBytes) -> Read:
    """A plan to be lent, of this module or as bytes."""
    return Read("plan", plan.to_bytes() if isinstance(plan, Plan) else plan)


def _array(width: int, disks: int, lost: int) -> tuple[int, int, int]:
    return size(width), size(disks), size(lost)


def _plan(plan: declarations.Plan, width: int) -> Plan:
    steps = zip(plan.steps.rows[:width], plan.steps.kinds, plan.steps.numbers)
    return Plan(tuple(Step(*step) for step in steps), plan.routes, plan.reads)


def _written(name: str, array: tuple[int, int, int], plan: Read) -> bytes:
    out = bytearray(TEXT_BYTES)
    written: declarations.Written = call(name, *array, plan, Written("out", out))
    return bytes(out[: written.length])
