"""Runs, servers, space, bills and states of arrays."""

from __future__ import annotations

from fractions import Fraction

from .. import (
    NO_LOSS,
    ArrayState,
    Bill,
    DisksRun,
    FullRun,
    Progress,
    Run,
    Shape,
    Space,
    Totals,
    bill_bytes,
    bill_run,
    encode_stripe,
    open_run,
    package_space,
    plan_disk,
    rebuild_server,
    report_disk,
    resume_disks_run,
    resume_full_run,
    run_progress,
    skip_stripe,
    step_run,
    write_server,
)
from . import reference
from .check import Check, shapes

GIB = 1 << 30


def run(check: Check) -> None:
    for shape in shapes():
        _runs(check, shape)
        _space(check, shape)
        if shape.stripe_bytes < 9000:
            _servers(check, shape)
    for _ in range(400):
        rates = [check.random.randrange(1001) for _ in range(3)]
        _bill(check, check.random.randrange(1 << check.random.randrange(1, 55)), rates)
    for half, cents in ((1, 0), (3, 2), (5, 2)):
        check.same(bill_bytes(GIB // 2, half, 0, 0).cents, cents, "bill_bytes", "half a cent")
    _states(check)


def _runs(check: Check, shape: Shape) -> None:
    lost, stripe = check.random.randrange(shape.disks + 2), check.stripe(shape)
    record = open_run(shape, lost, 4)
    check.same(record, Run(shape, lost, 4, 0, 0), "open_run", shape, lost, 4)
    column = step_run(record, 0, stripe)
    wanted = reference.column_by(shape, lost, reference.our_plan(shape, lost), stripe)
    check.same(column, wanted, "step_run", record, stripe)
    skip_stripe(record, 1)
    check.refused(10, skip_stripe, record, 1)
    check.refused(10, step_run, record, 3, stripe, column)
    step_run(record, 2, stripe)
    check.same(record, Run(shape, lost, 4, 3, 1), "a run's record", shape, lost)
    cells = 2 * plan_disk(shape.width, shape.disks, lost).reads
    check.same(run_progress(record), Progress(False, cells), "run_progress", record)
    long = Run(shape, lost, 4294967295, 4000000005, 5)
    wanted_bill = _bill(check, 2000000000 * cells * shape.cell_size, [7, 8, 9])
    check.same(bill_run(long, 7, 8, 9), wanted_bill, "bill_run", long)
    skip_stripe(record, 3)
    check.same(run_progress(record), Progress(True, cells), "run_progress", record)
    check.refused(10, run_progress, Run(shape, lost, 4, 1, 2))
    full = resume_full_run(FullRun(shape.width, 5, lost, 9, 4))
    check.same(full, Run(Shape(shape.width, shape.width, 5), lost, 9, 4, 0), "resume_full_run")
    check.same(resume_disks_run(DisksRun(shape, lost, 9, 4)), Run(shape, lost, 9, 4, 0), "resume")


def _space(check: Check, shape: Shape) -> None:
    lengths = [check.random.randrange(1 << check.random.randrange(1, 40)) for _ in range(9)] + [0]
    stripes = sum(-(-length // shape.data_bytes) for length in lengths)
    need = stripes * shape.column_bytes
    for free in (need, need - 1):
        wanted = Space(stripes, need, free == need)
        check.same(package_space(shape, lengths, free), wanted, "package_space", shape, lengths)
    check.same(package_space(shape, [], 0), Space(0, 0, True), "package_space", shape)
    check.refused(14, package_space, shape, [0] * 4097, 0)
    check.refused(11, package_space, shape, [1 << 48, 1], 0)


def _servers(check: Check, shape: Shape) -> None:
    servers, length = check.random.randrange(2, 17), shape.stripe_bytes
    stripes, total = bytearray(), 0
    for _ in range(servers):
        stripe = check.stripe(shape)
        encode_stripe(shape, stripe)
        stripes += stripe
        total ^= int.from_bytes(stripe, "big")
    stripes += bytes(length)
    write_server(shape, servers, stripes)
    wanted = total.to_bytes(length, "big")
    check.same(bytes(stripes[servers * length :]), wanted, "write_server", shape, servers)
    lost = check.random.randrange(servers + 1)
    losses = bytearray([NO_LOSS] * 2 * (servers + 1))
    damaged = bytearray(stripes)
    damaged[lost * length : (lost + 1) * length] = bytes(length)
    for server in range(servers + 1):
        disks = check.random.sample(range(shape.disks + 2), check.random.randrange(3))
        for place, disk in enumerate(disks if server != lost else []):
            losses[2 * server + place] = disk
            at = server * length + disk * shape.column_bytes
            damaged[at : at + shape.column_bytes] = check.random.randbytes(shape.column_bytes)
    rebuild_server(shape, servers, lost, damaged, losses)
    check.same(damaged, stripes, "rebuild_server", shape, servers, lost, losses)


def _bill(check: Check, size: int, rates: list[int]) -> Bill:
    """Compares the bill of so many bytes; gives the wanted one."""
    bands = min(size, 64 * GIB), min(max(size - 64 * GIB, 0), 960 * GIB), max(size - 1024 * GIB, 0)
    price = sum(band * rate for band, rate in zip(bands, rates))
    wanted = Bill(*bands, round(Fraction(price, GIB)))  # a half goes to the even number
    check.same(bill_bytes(size, *rates), wanted, "bill_bytes", size, rates)
    return wanted


def _states(check: Check) -> None:
    arrays = [ArrayState(shape.width, shape.disks) for shape in list(shapes())[::3]]
    lost: list[set[int]] = [set() for _ in arrays]
    for _ in range(600):
        which = check.random.randrange(len(arrays))
        disk = check.random.randrange(arrays[which].disks + 2)
        back = disk in lost[which]
        check.refused(21, report_disk, arrays, which, disk, not back)
        got = report_disk(arrays, which, disk, back)
        lost[which] ^= {disk}
        many = [min(len(disks), 3) for disks in lost]
        wanted = Totals(*(many.count(number) for number in range(4)))
        check.same(got, wanted, "report_disk", which, disk, back)
        words = [sum(1 << disk for disk in disks) for disks in lost]
        check.same([array.lost for array in arrays], words, "report_disk", which, disk, back)
