"""Why the library turned a call away."""

from __future__ import annotations

from enum import IntEnum

__all__ = ["Refusal", "RefusalKind"]


class RefusalKind(IntEnum):
    """The refusals with their numbers in include/cuzhaveli.h."""

    BAD_WIDTH = 1
    BAD_CELL_SIZE = 2
    NO_SUCH_DISK = 3
    SAME_DISK = 4
    BAD_LENGTH = 5
    STEP_RANGE = 6
    STEP_SET = 7
    STEP_REPEATED = 8
    STEP_EARLY = 9
    NOT_NEXT = 10
    PACKAGE_TOO_LONG = 11
    BAD_TEXT = 12
    BAD_DISKS = 13
    TOO_MANY_FILES = 14
    NO_SUCH_ROW = 15
    BAD_RATE = 16
    TOO_MANY_BYTES = 17
    NO_SUCH_SERVER = 18
    SURVIVORS_DISAGREE = 19
    NO_SUCH_ARRAY = 20
    DISK_UNCHANGED = 21
    BAD_PLAN_TEXT = 22
    UNDETERMINED = 23
    DOES_NOT_FIT = 24
    BAD_UNIT = 25
    NO_SUCH_PLACE = 26


# The words of the Rust crate.
TEXTS: dict[int, str] = {
    RefusalKind.BAD_WIDTH: "the width is not one of 3, 5, 7, 11, 13, 17, 19, 23, 29, 31",
    RefusalKind.BAD_CELL_SIZE: "the cell size is 0 or over 4096",
    RefusalKind.NO_SUCH_DISK: "the array has no disk of that number, or no data disk",
    RefusalKind.SAME_DISK: "two disks that must differ are the same",
    RefusalKind.BAD_LENGTH: "a length is another than the one required",
    RefusalKind.STEP_RANGE: (
        "the row or set number of a step is the width or more, or its kind over 1"
    ),
    RefusalKind.STEP_SET: "the set of a step lacks that row's lost cell",
    RefusalKind.STEP_REPEATED: "the row of a step was rebuilt by an earlier one",
    RefusalKind.STEP_EARLY: "another lost cell of a step's set is still missing",
    RefusalKind.NOT_NEXT: (
        "next is not below the stripes of the run, the stripe is not next, "
        "or more are skipped than passed"
    ),
    RefusalKind.PACKAGE_TOO_LONG: "the package has more than 2^48 bytes",
    RefusalKind.BAD_TEXT: "the input is not of the plan program's form",
    RefusalKind.BAD_DISKS: "the data disks are fewer than 2 or more than the width",
    RefusalKind.TOO_MANY_FILES: "the package has more than 4096 files",
    RefusalKind.NO_SUCH_ROW: "the array has no row of that number",
    RefusalKind.BAD_RATE: "a rate is over 1000 cents a GiB",
    RefusalKind.TOO_MANY_BYTES: "the bill has more than 2^54 bytes",
    RefusalKind.NO_SUCH_SERVER: (
        "the servers are fewer than 2 or more than 16, or there is none of that number"
    ),
    RefusalKind.SURVIVORS_DISAGREE: "the surviving disks are those of no clean stripe",
    RefusalKind.NO_SUCH_ARRAY: "the list has no array of that number, or more than 64 arrays",
    RefusalKind.DISK_UNCHANGED: "the disk reported lost is lost, or the one reported back is not",
    RefusalKind.BAD_PLAN_TEXT: (
        "the text is not of a plan's form, or has another number of lines than the width"
    ),
    RefusalKind.UNDETERMINED: "the other cells do not determine the missing ones",
    RefusalKind.DOES_NOT_FIT: (
        "a checksum block or a piece has another checksum than the one required"
    ),
    RefusalKind.BAD_UNIT: "the stripes of a unit or of a group are out of limits",
    RefusalKind.NO_SUCH_PLACE: "the images have no such row, stripe, unit or byte of film",
}


class Refusal(ValueError):
    """A call was refused: nothing was written.

    >>> refusal = Refusal(9, 2)
    >>> refusal.number, refusal.name, refusal.place
    (9, 'STEP_EARLY', 2)
    >>> print(refusal)
    refused, 9 (STEP_EARLY): another lost cell of a step's set is still missing (step 2)
    """

    def __init__(self, number: int, place: int = 0) -> None:
        super().__init__(number, place)
        self.number = number
        """The library's number, a `RefusalKind` if this version knows it."""
        self.place = place
        """The step, counted from 0, for refusals 6 to 9; else 0."""

    @property
    def name(self) -> str:
        """The name in the header, without CUZHAVELI_."""
        try:
            return RefusalKind(self.number).name
        except ValueError:
            return "UNKNOWN"

    def __str__(self) -> str:
        text = TEXTS.get(self.number, "a refusal that this version of the package does not know")
        step = f" (step {self.place})" if 6 <= self.number <= 9 else ""
        return f"refused, {self.number} ({self.name}): {text}{step}"
