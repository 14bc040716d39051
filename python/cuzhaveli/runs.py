"""Runs: the rebuild of one disk over many stripes, in their order, each rebuilt or skipped."""

from __future__ import annotations

from ctypes import byref
from dataclasses import dataclass
from typing import TYPE_CHECKING, NamedTuple, TypeVar, overload

from . import declarations
from .lending import Read, Written, call, size, whole
from .shape import Shape, column_room
from .shape import record as shape_record

if TYPE_CHECKING:
    from _typeshed import ReadableBuffer, WriteableBuffer

__all__ = [
    "DisksRun",
    "FullRun",
    "Progress",
    "Run",
    "open_run",
    "resume_disks_run",
    "resume_full_run",
    "run_progress",
    "skip_stripe",
    "step_run",
]

Column = TypeVar("Column", bound="WriteableBuffer")


@dataclass
class Run:
    """A run's record: plain numbers, to be kept in a file as such. Every call tests them."""

    shape: Shape
    lost: int
    stripes: int
    next: int = 0
    """The next stripe; so many have been passed."""
    skipped: int = 0
    """Of those passed."""


class Progress(NamedTuple):
    """Whether a run is over, and the cells that it has read so far."""

    over: bool
    cells: int


class FullRun(NamedTuple):
    """The record of a run that was opened when arrays had as many data disks as rows."""

    width: int
    size: int
    disk: int
    stripes: int
    next: int


class DisksRun(NamedTuple):
    """The record of a run that was opened before stripes could be skipped."""

    shape: Shape
    lost: int
    stripes: int
    next: int


def open_run(shape: Shape, lost: int, stripes: int) -> Run:
    """Opens a run over `stripes` stripes, 0 to `MAX_STRIPES`. Refuses 1, 13, 2, 3.

    >>> run = open_run(Shape(5, 3, 512), 1, 2)
    >>> skip_stripe(run, 0)
    >>> run.next, run.skipped, run_progress(run)
    (1, 1, Progress(over=False, cells=0))
    """
    opened: declarations.RunAnswer = call(
        "open_run", shape_record(shape), size(lost), whole("stripes", stripes, 32)
    )
    return _run(opened.run)


@overload
def step_run(run: Run, which: int, stripe: ReadableBuffer, column: None = None) -> bytearray: ...
@overload
def step_run(run: Run, which: int, stripe: ReadableBuffer, column: Column) -> Column: ...
def step_run(
    run: Run, which: int, stripe: ReadableBuffer, column: WriteableBuffer | None = None
) -> object:
    """Rebuilds stripe `which`, the run's next, as `rebuild_one` does, and moves the run on by one.

    Refuses 1, 13, 2, 3, 5, 10.
    """
    moved = record(run)
    written = column_room(run.shape) if column is None else column
    lent = Read("stripe", stripe), Written("column", written)
    call("step_run", byref(moved), whole("which", which, 64), *lent)
    run.next = moved.next
    return written


def skip_stripe(run: Run, which: int) -> None:
    """Passes over stripe `which`, the run's next, which holds no film. Refuses 1, 13, 2, 3, 10."""
    moved = record(run)
    call("skip_stripe", byref(moved), whole("which", which, 64))
    run.next, run.skipped = moved.next, moved.skipped


def run_progress(run: Run) -> Progress:
    """How far a run is. Refuses 1, 13, 2, 3, 10."""
    progress: declarations.Progress = call("run_progress", byref(record(run)))
    return Progress(progress.over, progress.cells)


def resume_full_run(old: FullRun) -> Run:
    """The record of a run of an earlier version as this version keeps it; nothing is refused.

    >>> resume_full_run(FullRun(5, 512, 1, 9, 4))
    Run(shape=Shape(width=5, disks=5, cell_size=512), lost=1, stripes=9, next=4, skipped=0)
    """
    sizes = map(size, (old.width, old.size, old.disk))
    return _run(call("resume_full_run", declarations.FullRun(*sizes, *_counts(old))))


def resume_disks_run(old: DisksRun) -> Run:
    """The same for a record with a number of data disks."""
    shape = shape_record(old.shape)
    return _run(
        call("resume_disks_run", declarations.DisksRun(shape, size(old.lost), *_counts(old)))
    )


def record(run: Run) -> declarations.Run:
    """The record as the library takes it."""
    skipped = whole("skipped", run.skipped, 32)
    return declarations.Run(shape_record(run.shape), size(run.lost), *_counts(run), skipped)


def _counts(run: Run | FullRun | DisksRun) -> tuple[int, int]:
    return whole("stripes", run.stripes, 32), whole("next", run.next, 32)


def _run(run: declarations.Run) -> Run:
    shape = Shape(run.shape.width, run.shape.disks, run.shape.cell_size)
    return Run(shape, run.lost, run.stripes, run.next, run.skipped)
