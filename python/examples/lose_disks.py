# SPDX-License-Identifier: Apache-2.0
"""Keeps a film on seven disks, loses disks and cells, and brings them back; draws the plan."""

import cuzhaveli
from cuzhaveli import DIAGONAL, ROW, Refusal, Shape


def sets_of(shape, kind, number):
    """The cells of a row set or a diagonal set, as (row, disk)."""
    if kind == ROW:
        return {(number, disk) for disk in range(shape.disks + 1)}
    cells = {((number + disk) % shape.width, disk) for disk in range(shape.disks)} | {(number, shape.q)}
    extra = shape.width - 1 - number, shape.width - 2 * number % shape.width
    return cells | {extra} if number and extra[1] < shape.disks else cells


def draw(shape, lost):
    """Which cells our plan reads for which step."""
    plan = cuzhaveli.plan_disk(shape.width, shape.disks, lost)
    step_of = {step.row: f"{'RD'[step.kind]} {step.number}" for step in plan.steps}
    read = {ROW: set(), DIAGONAL: set()}
    for step in plan.steps:
        read[step.kind] |= sets_of(shape, step.kind, step.number)
    names = [*range(shape.disks), "P", "Q"]
    print("    " + "".join(f"{name:>3}" for name in names))
    for row in range(shape.width):
        line = ""
        for disk in range(shape.disks + 2):
            by_row, by_diagonal = (row, disk) in read[ROW], (row, disk) in read[DIAGONAL]
            line += "  " + ("x" if disk == lost else ".-/#"[by_row + 2 * by_diagonal])
        print(f"  {row:>2}{line}   {step_of[row]}")
    print("  x lost   - read for a row   / for a diagonal   # for both   . not read")
    print(f"  {plan.reads} of {(shape.disks + 1) * shape.width} surviving cells are read\n")


def one_disk(shape, stripe, lost):
    """Reads the cells of the read list alone, as from disks, and rebuilds."""
    survivors = bytearray(shape.stripe_bytes)
    for place, needed in enumerate(cuzhaveli.read_list(shape.width, shape.disks, lost)):
        if needed:
            cell = slice(place * shape.cell_size, (place + 1) * shape.cell_size)
            survivors[cell] = stripe[cell]
    column = cuzhaveli.rebuild_one(shape, lost, survivors)
    print(f"disk {lost} lost: came back {column == stripe[shape.column(lost)]}")


def two_disks(shape, stripe):
    damaged = bytearray(stripe)
    for disk in (0, shape.q):
        damaged[shape.column(disk)] = bytes(shape.column_bytes)
    cuzhaveli.rebuild_two(shape, 0, shape.q, damaged)
    print(f"disk 0 and Q lost: came back {damaged == stripe}")


def cells(shape, stripe):
    """One bad cell on each disk, so that no disk is whole."""
    damaged, missing = bytearray(stripe), bytearray(shape.list_bytes)
    for disk in range(shape.disks + 2):
        row = 2 * disk % shape.width
        missing[shape.place(row, disk)] = 1
        damaged[shape.cell(row, disk)] = bytes(shape.cell_size)
    cuzhaveli.rebuild_cells(shape, missing, damaged)
    print(f"a cell of every disk lost: came back {damaged == stripe}")


def main():
    shape = Shape(5, 5, 512)
    stripe = bytearray(shape.stripe_bytes)
    stripe[: shape.data_bytes] = bytes(n * n % 251 for n in range(shape.data_bytes))
    cuzhaveli.encode_stripe(shape, stripe)
    print(f"clean: {cuzhaveli.check_stripe(shape, stripe)}\n")
    draw(shape, 1)
    one_disk(shape, stripe, 1)
    two_disks(shape, stripe)
    cells(shape, stripe)
    stripe[shape.cell(3, 2)] = bytes(shape.cell_size)
    print(f"a cell of disk 2 goes bad without an error: {cuzhaveli.scrub_stripe(shape, stripe)}")
    try:
        cuzhaveli.plan_disk(9, 9, 1)
    except Refusal as refusal:
        print(refusal)


if __name__ == "__main__":
    main()
