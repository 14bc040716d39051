"""The structs and calls of include/cuzhaveli.h, field by field and name by name.

The gate compares them with the header. A pointer of the header is an address here, of bytes that a
call reads or of bytes that it writes; `lending` makes them from the objects of a caller.
"""

from __future__ import annotations

from ctypes import POINTER, Structure, c_bool, c_size_t, c_uint8, c_uint32, c_uint64, c_void_p
from typing import Dict, List, Tuple


class ReadBytes(c_void_p):
    """`const uint8_t *`"""


class WrittenBytes(c_void_p):
    """`uint8_t *`"""


class ReadNumbers(c_void_p):
    """`const uint64_t *`"""


class Shape(Structure):
    _fields_ = [("width", c_size_t), ("disks", c_size_t), ("cell_size", c_size_t)]


class Answer(Structure):
    _fields_ = [("refusal", c_uint8), ("place", c_uint32)]


class Steps(Structure):
    _fields_ = [("rows", c_uint8 * 31), ("kinds", c_uint8 * 31), ("numbers", c_uint8 * 31)]


class Plan(Structure):
    _fields_ = [("answer", Answer), ("steps", Steps), ("routes", c_uint32), ("reads", c_uint32)]


class Judged(Structure):
    _fields_ = [("answer", Answer), ("reads", c_uint32)]


class Written(Structure):
    _fields_ = [("answer", Answer), ("length", c_size_t)]


class Checked(Structure):
    _fields_ = [("answer", Answer), ("clean", c_bool)]


class Scrubbed(Structure):
    _fields_ = [("answer", Answer), ("verdict", c_uint8), ("disk", c_size_t)]


class Text(Structure):
    _fields_ = [("bytes", c_uint8 * 458), ("length", c_size_t)]


class Space(Structure):
    _fields_ = [("answer", Answer), ("stripes", c_uint64), ("bytes", c_uint64), ("fits", c_bool)]


class Layout(Structure):
    _fields_ = [
        ("width", c_size_t),
        ("disks", c_size_t),
        ("cell_size", c_size_t),
        ("unit", c_uint64),
        ("group", c_uint64),
        ("length", c_uint64),
    ]


class Image(Structure):
    _fields_ = [
        ("answer", Answer),
        ("stripes", c_uint64),
        ("units", c_uint64),
        ("end", c_uint64),
        ("bytes", c_uint64),
    ]


class Place(Structure):
    _fields_ = [("answer", Answer), ("at", c_uint64), ("bytes", c_uint64)]


class UnitPlace(Structure):
    _fields_ = [
        ("answer", Answer),
        ("first", c_uint64),
        ("stripes", c_uint64),
        ("at", c_uint64),
        ("bytes", c_uint64),
    ]


class FilmPlace(Structure):
    _fields_ = [
        ("answer", Answer),
        ("stripe", c_uint64),
        ("disk", c_size_t),
        ("row", c_size_t),
        ("byte", c_size_t),
        ("at", c_uint64),
    ]


class Run(Structure):
    _fields_ = [
        ("shape", Shape),
        ("lost", c_size_t),
        ("stripes", c_uint32),
        ("next", c_uint32),
        ("skipped", c_uint32),
    ]


class RunAnswer(Structure):
    _fields_ = [("answer", Answer), ("run", Run)]


class Progress(Structure):
    _fields_ = [("answer", Answer), ("over", c_bool), ("cells", c_uint64)]


class Bill(Structure):
    _fields_ = [
        ("answer", Answer),
        ("first", c_uint64),
        ("second", c_uint64),
        ("third", c_uint64),
        ("cents", c_uint64),
    ]


class ArrayState(Structure):
    _fields_ = [("width", c_size_t), ("disks", c_size_t), ("lost", c_uint64)]


class Totals(Structure):
    _fields_ = [
        ("optimal", c_uint32),
        ("degraded", c_uint32),
        ("critical", c_uint32),
        ("failed", c_uint32),
    ]


class Board(Structure):
    _fields_ = [("answer", Answer), ("totals", Totals)]


class FullRun(Structure):
    _fields_ = [
        ("width", c_size_t),
        ("size", c_size_t),
        ("disk", c_size_t),
        ("stripes", c_uint32),
        ("next", c_uint32),
    ]


class DisksRun(Structure):
    _fields_ = [("shape", Shape), ("lost", c_size_t), ("stripes", c_uint32), ("next", c_uint32)]


Parameters = List[Tuple[str, type]]


def _lent(name: str, type_: type) -> Parameters:
    """A pointer and how many bytes or numbers it leads to."""
    return [(name, type_), (name + "_len", c_size_t)]


_ARRAY: Parameters = [("width", c_size_t), ("disks", c_size_t), ("lost", c_size_t)]
_PLAN = _lent("plan", ReadBytes)
_LIST = _lent("list", WrittenBytes)
_TEXT = _lent("text", ReadBytes)
_OUT = _lent("out", WrittenBytes)
_SHAPE: Parameters = [("shape", Shape)]
_LOST: Parameters = [("lost", c_size_t)]
_STRIPE = _lent("stripe", ReadBytes)
_OWN_STRIPE = _lent("stripe", WrittenBytes)
_COLUMN = _lent("column", WrittenBytes)
_SERVERS: Parameters = [("servers", c_size_t)]
_STRIPES = _lent("stripes", WrittenBytes)
_RUN: Parameters = [("run", POINTER(Run))]
_WHICH: Parameters = [("which", c_uint64)]
_LAYOUT: Parameters = [("layout", Layout)]
_ROW: Parameters = [("row", c_size_t)]
_UNIT: Parameters = [
    *_SHAPE,
    ("stripes", c_size_t),
    *_lent("name", ReadBytes),
    ("unit", c_uint64),
]
_BLOCK = _lent("block", ReadBytes)
_CELLS = _lent("cells", ReadBytes)
_RATES: Parameters = [("first", c_uint64), ("second", c_uint64), ("third", c_uint64)]

# Each call's result, and its parameters in their order.
CALLS: Dict[str, Tuple[type, Parameters]] = {
    "cuzhaveli_plan_disk": (Plan, _ARRAY),
    "cuzhaveli_balanced_plan": (Plan, _ARRAY),
    "cuzhaveli_relief_plan": (Plan, [*_ARRAY, ("relieved", c_size_t)]),
    "cuzhaveli_fewest_plan": (Plan, _ARRAY),
    "cuzhaveli_read_list": (Answer, [*_ARRAY, *_LIST]),
    "cuzhaveli_judge_plan": (Judged, [*_ARRAY, *_PLAN]),
    "cuzhaveli_plan_list": (Answer, [*_ARRAY, *_PLAN, *_LIST]),
    "cuzhaveli_plan_text": (Text, _lent("input", ReadBytes)),
    "cuzhaveli_judge_text": (Judged, [*_ARRAY, *_TEXT]),
    "cuzhaveli_write_plan": (Written, [*_ARRAY, *_PLAN, *_OUT]),
    "cuzhaveli_plain_text": (Written, [*_ARRAY, *_TEXT, *_OUT]),
    "cuzhaveli_package_space": (
        Space,
        [*_SHAPE, *_lent("lengths", ReadNumbers), ("free", c_uint64)],
    ),
    "cuzhaveli_encode_stripe": (Answer, [*_SHAPE, *_OWN_STRIPE]),
    "cuzhaveli_check_stripe": (Checked, [*_SHAPE, *_STRIPE]),
    "cuzhaveli_scrub_stripe": (Scrubbed, [*_SHAPE, *_STRIPE]),
    "cuzhaveli_rebuild_one": (Answer, [*_SHAPE, *_LOST, *_STRIPE, *_COLUMN]),
    "cuzhaveli_rebuild_balanced": (Answer, [*_SHAPE, *_LOST, *_STRIPE, *_COLUMN]),
    "cuzhaveli_rebuild_by_plan": (Answer, [*_SHAPE, *_LOST, *_PLAN, *_STRIPE, *_COLUMN]),
    "cuzhaveli_rebuild_tested": (Answer, [*_SHAPE, *_LOST, *_STRIPE, *_COLUMN]),
    "cuzhaveli_rebuild_two": (
        Answer,
        [*_SHAPE, ("first", c_size_t), ("second", c_size_t), *_OWN_STRIPE],
    ),
    "cuzhaveli_rebuild_cells": (Answer, [*_SHAPE, *_lent("missing", ReadBytes), *_OWN_STRIPE]),
    "cuzhaveli_update_cell": (
        Answer,
        [
            *_SHAPE,
            ("row", c_size_t),
            ("disk", c_size_t),
            *_OWN_STRIPE,
            *_lent("cell", ReadBytes),
        ],
    ),
    "cuzhaveli_write_server": (Answer, [*_SHAPE, *_SERVERS, *_STRIPES]),
    "cuzhaveli_rebuild_server": (
        Answer,
        [*_SHAPE, *_SERVERS, *_LOST, *_STRIPES, *_lent("losses", ReadBytes)],
    ),
    "cuzhaveli_open_run": (RunAnswer, [*_SHAPE, *_LOST, ("stripes", c_uint32)]),
    "cuzhaveli_step_run": (Answer, [*_RUN, *_WHICH, *_STRIPE, *_COLUMN]),
    "cuzhaveli_skip_stripe": (Answer, [*_RUN, *_WHICH]),
    "cuzhaveli_run_progress": (Progress, _RUN),
    "cuzhaveli_resume_full_run": (Run, [("old", FullRun)]),
    "cuzhaveli_resume_disks_run": (Run, [("old", DisksRun)]),
    "cuzhaveli_report_disk": (
        Board,
        [
            ("list", POINTER(ArrayState)),
            ("list_len", c_size_t),
            ("which", c_size_t),
            ("disk", c_size_t),
            ("back", c_bool),
        ],
    ),
    "cuzhaveli_image_bytes": (Image, _LAYOUT),
    "cuzhaveli_cell_place": (Place, [*_LAYOUT, *_ROW, ("stripe", c_uint64)]),
    "cuzhaveli_block_place": (Place, [*_LAYOUT, ("unit", c_uint64)]),
    "cuzhaveli_unit_place": (UnitPlace, [*_LAYOUT, *_ROW, ("unit", c_uint64)]),
    "cuzhaveli_film_place": (FilmPlace, [*_LAYOUT, ("byte", c_uint64)]),
    "cuzhaveli_seal_unit": (Answer, [*_UNIT, *_CELLS, *_lent("block", WrittenBytes)]),
    "cuzhaveli_open_unit": (
        Answer,
        [*_UNIT, *_BLOCK, *_lent("marks", WrittenBytes), *_lent("cells", WrittenBytes)],
    ),
    "cuzhaveli_film_bytes": (Answer, [*_UNIT, *_BLOCK, *_CELLS, ("from", c_size_t), *_OUT]),
    "cuzhaveli_block_fits": (
        Answer,
        [
            ("width", c_size_t),
            ("disks", c_size_t),
            *_lent("name", ReadBytes),
            ("unit", c_uint64),
            *_BLOCK,
        ],
    ),
    "cuzhaveli_piece_fits": (
        Answer,
        [
            *_UNIT,
            *_BLOCK,
            ("disk", c_size_t),
            ("row", c_size_t),
            *_lent("piece", ReadBytes),
        ],
    ),
    "cuzhaveli_bill_bytes": (Bill, [("bytes", c_uint64), *_RATES]),
    "cuzhaveli_bill_run": (Bill, [("run", Run), *_RATES]),
    "cuzhaveli_version": (c_uint32, []),
}
