"""Encoding, the check, the scrub and updates of cells."""

from __future__ import annotations

from .. import (
    Scrubbed,
    Shape,
    Verdict,
    check_stripe,
    encode_stripe,
    scrub_stripe,
    update_cell,
)
from . import reference
from .check import Check, shapes

EXAMPLE = "01 08 40  02 10 80  04 20 00  07 38 c0  11 9c 66"


def run(check: Check) -> None:
    example = bytearray.fromhex(EXAMPLE)
    example[9:] = bytes(6)
    encode_stripe(Shape(3, 3, 1), example)
    check.same(example, bytearray.fromhex(EXAMPLE), "encode_stripe", "the example of document 01")
    for shape in shapes():
        stripe = check.stripe(shape)
        _dirty(check, shape, stripe)
        wanted = reference.encoded(shape, stripe)
        encode_stripe(shape, stripe)
        check.same(bytes(stripe), wanted, "encode_stripe", shape)
        check.same(check_stripe(shape, stripe), True, "check_stripe", shape, stripe)
        check.same(scrub_stripe(shape, stripe), (Verdict.CLEAN, None), "scrub_stripe", shape, stripe)
        _one_disk(check, shape, stripe)
        _two_disks(check, shape, stripe)
        _updates(check, shape, stripe)


def _dirty(check: Check, shape: Shape, stripe: bytearray) -> None:
    wanted = reference.clean(shape, stripe)
    check.same(check_stripe(shape, stripe), wanted, "check_stripe", shape, stripe)
    check.same(scrub_stripe(shape, stripe), _verdict(shape, stripe), "scrub_stripe", shape, stripe)


def _verdict(shape: Shape, stripe: bytearray) -> Scrubbed:
    if reference.clean(shape, stripe):
        return Scrubbed(Verdict.CLEAN, None)
    for disk in range(shape.disks + 2):
        if reference.can_be_mended(shape, stripe, disk):
            return Scrubbed(Verdict.ONE_DISK, disk)
    return Scrubbed(Verdict.MORE_THAN_ONE, None)


def _one_disk(check: Check, shape: Shape, stripe: bytearray) -> None:
    """A byte of each disk changed: no clean stripe, and that disk is named."""
    for disk in range(shape.disks + 2):
        at = check.random.randrange(shape.column_bytes) + disk * shape.column_bytes
        wrong = bytearray(stripe)
        wrong[at] ^= check.random.randrange(1, 256)
        check.same(check_stripe(shape, wrong), False, "check_stripe", shape, wrong)
        named = (Verdict.ONE_DISK, disk)
        check.same(scrub_stripe(shape, wrong), named, "scrub_stripe", shape, wrong)


def _two_disks(check: Check, shape: Shape, stripe: bytearray) -> None:
    wrong = bytearray(stripe)
    for disk in check.random.sample(range(shape.disks + 2), 2):
        wrong[shape.column(disk)] = check.random.randbytes(shape.column_bytes)
    check.same(scrub_stripe(shape, wrong), _verdict(shape, wrong), "scrub_stripe", shape, wrong)


def _updates(check: Check, shape: Shape, stripe: bytearray) -> None:
    """A cell of each data disk, of a clean stripe and of one that then is dirty."""
    for disk in range(shape.disks):
        row = check.random.randrange(shape.width)
        cell = check.random.randbytes(shape.cell_size)
        updated = bytearray(stripe)
        updated[shape.cell(row, disk)] = cell
        wanted = reference.encoded(shape, updated)
        updated = bytearray(stripe)
        update_cell(shape, row, disk, updated, cell)
        check.same(bytes(updated), wanted, "update_cell", shape, row, disk, stripe, cell)
    noise = check.stripe(shape)
    before = reference.cells_from(shape, noise)
    update_cell(shape, 0, 0, noise, cell)
    after = reference.cells_from(shape, noise)
    for places in reference.every_set(shape):
        sums = [reference.total(cells, places) for cells in (after, before)]
        check.same(sums[0], sums[1], "update_cell", shape, "the XOR of a set", places)
