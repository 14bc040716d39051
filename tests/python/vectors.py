#!/usr/bin/env python3
"""Holds the Python package to the vectors, line by line.

Usage: tests/python/vectors.py FOLDER, such as conformance/vectors/, with PYTHONPATH and CUZHAVELI_LIBRARY set
FORMAT.md in that folder tells the form of the lines. Every file and every kind of line has to be known here.
Exit status 1 if a line does not hold.
"""

import collections
import hashlib
import pathlib
import sys

import cuzhaveli
from cuzhaveli import Refusal, Shape, Verdict, declarations

SHOWN = 5
NOISE = 0xEE


class State:
    """What the lines before say: the array, and the stripe or the seed of what follows."""

    shape = Shape(0, 0, 1)
    stripe = b""
    seed = 0


def array(state, *numbers):
    state.shape = Shape(*map(int, numbers), *[1] * (3 - len(numbers)))
    return True


def stripe(state, text):
    """A clean stripe."""
    state.stripe = bytes.fromhex(text)
    again = damaged(state, state.shape.p, state.shape.q)
    cuzhaveli.encode_stripe(state.shape, again)
    return again == state.stripe and cuzhaveli.check_stripe(state.shape, again)


def dirty(state, text):
    state.stripe = bytes.fromhex(text)
    return not cuzhaveli.check_stripe(state.shape, state.stripe)


def damaged(state, *disks):
    """The stripe with noise in the place of some disks."""
    result = bytearray(state.stripe)
    for disk in disks:
        result[state.shape.column(disk)] = bytes([NOISE]) * state.shape.column_bytes
    return result


def one(state, disk):
    survivors, wanted = damaged(state, int(disk)), state.stripe[state.shape.column(int(disk))]
    ways = cuzhaveli.rebuild_one, cuzhaveli.rebuild_balanced, cuzhaveli.rebuild_tested
    return all(way(state.shape, int(disk), survivors) == wanted for way in ways)


def own_column(state, disk, column):
    return cuzhaveli.rebuild_one(state.shape, int(disk), state.stripe) == bytes.fromhex(column)


def balanced_column(state, disk, column):
    return cuzhaveli.rebuild_balanced(state.shape, int(disk), state.stripe) == bytes.fromhex(column)


def two(state, first, second):
    survivors = damaged(state, int(first), int(second))
    cuzhaveli.rebuild_two(state.shape, int(first), int(second), survivors)
    return survivors == state.stripe


def cell_of(word):
    disk, row = map(int, word.split("."))
    return row, disk


def missing(state, cells):
    """The marks of cells, and the stripe with noise in their places."""
    marks, noisy = bytearray(state.shape.list_bytes), bytearray(state.stripe)
    for cell in map(cell_of, cells):
        marks[state.shape.place(*cell)] = 1
        noisy[state.shape.cell(*cell)] = bytes([NOISE]) * state.shape.cell_size
    return marks, noisy


def determined(state, *cells):
    marks, noisy = missing(state, cells)
    cuzhaveli.rebuild_cells(state.shape, marks, noisy)
    return noisy == state.stripe


def undetermined(state, *cells):
    return refusal(cuzhaveli.rebuild_cells, state.shape, *missing(state, cells)) == (23, 0)


def changes(words):
    """Pairs of a cell and its bytes."""
    return [(cell_of(cell), bytes.fromhex(text)) for cell, text in zip(words[::2], words[1::2])]


def update(state, *words):
    wanted, got = bytearray(state.stripe), bytearray(state.stripe)
    for cell, content in changes(words):
        wanted[state.shape.cell(*cell)] = content
    (row, disk), content = changes(words)[0]
    cuzhaveli.update_cell(state.shape, row, disk, got, content)
    return got == wanted


def scrub(state, verdict, *words):
    found = bytearray(state.stripe)
    for cell, content in changes(words):
        part = state.shape.cell(*cell)
        found[part] = bytes(a ^ b for a, b in zip(found[part], content))
    wanted = {"clean": (Verdict.CLEAN, None), "more": (Verdict.MORE_THAN_ONE, None)}
    answer = wanted[verdict] if verdict in wanted else (Verdict.ONE_DISK, int(verdict))
    return cuzhaveli.scrub_stripe(state.shape, found) == answer


def listed(state, plan, disk, reads, words):
    width, disks, _ = state.shape
    marks = cuzhaveli.plan_list(width, disks, disk, plan)
    columns = [marks[at : at + width] for at in range(0, len(marks), width)]
    given = [sum(mark << row for row, mark in enumerate(column)) for column in columns]
    return plan.reads == reads and given == [int(word, 16) for word in words]


def own_list(state, disk, reads, *words):
    width, disks, _ = state.shape
    plan = cuzhaveli.plan_disk(width, disks, int(disk))
    same = cuzhaveli.read_list(width, disks, int(disk)) == cuzhaveli.plan_list(width, disks, int(disk), plan)
    return same and listed(state, plan, int(disk), int(reads), words)


def balanced_list(state, disk, reads, *words):
    width, disks, _ = state.shape
    return listed(state, cuzhaveli.balanced_plan(width, disks, int(disk)), int(disk), int(reads), words)


def fewest_list(state, disk, reads, *words):
    width, disks, _ = state.shape
    return listed(state, cuzhaveli.fewest_plan(width, disks, int(disk)), int(disk), int(reads), words)


def text_of(word):
    return word.encode().decode("unicode_escape").encode("latin-1")


def accepted(state, disk, reads, text, plain):
    given = state.shape.width, state.shape.disks, int(disk), text_of(text)
    return cuzhaveli.judge_text(*given) == int(reads) and cuzhaveli.plain_text(*given) == text_of(plain)


def refused_plan(state, disk, number, step, text):
    given = state.shape.width, state.shape.disks, int(disk), text_of(text)
    wanted = int(number), int(step)
    return all(refusal(call, *given) == wanted for call in (cuzhaveli.judge_text, cuzhaveli.plain_text))


def refused_call(state, number, name, *words):
    """A call by the numbers of its arguments: a shape has three, lent memory its length."""
    numbers, arguments = iter(map(int, words)), []
    for parameter, type_ in declarations.CALLS["cuzhaveli_" + name][1]:
        if type_ is declarations.Shape:
            arguments.append(Shape(next(numbers), next(numbers), next(numbers)))
        elif type_ in (declarations.ReadBytes, declarations.WrittenBytes):
            arguments.append(bytearray(next(numbers)))
        elif not parameter.endswith("_len"):
            arguments.append(next(numbers))
    return refusal(getattr(cuzhaveli, name), *arguments) == (int(number), 0) and not list(numbers)


def refusal(call, *arguments):
    try:
        return call(*arguments)
    except Refusal as refused:
        return refused.number, refused.place


# Large cells, by sums.


def seed(state, number):
    state.seed = int(number)
    state.stripe = made(state.seed, state.shape.stripe_bytes)
    return True


def made(x, length):
    """The bytes of a seed."""
    result = bytearray(length)
    for at in range(length):
        x = (x * 1664525 + 1013904223) & 0xFFFFFFFF
        result[at] = x >> 24
    return bytes(result)


def sum_of(content):
    return hashlib.sha256(content).hexdigest()


def data(state, wanted):
    return sum_of(state.stripe[: state.shape.data_bytes]) == wanted


def parity(state, wanted):
    encoded = bytearray(state.stripe)
    cuzhaveli.encode_stripe(state.shape, encoded)
    return sum_of(encoded[state.shape.data_bytes :]) == wanted


def own_sum(state, disk, wanted):
    return sum_of(cuzhaveli.rebuild_one(state.shape, int(disk), state.stripe)) == wanted


def two_sum(state, first, second, wanted):
    mended = bytearray(state.stripe)
    cuzhaveli.rebuild_two(state.shape, int(first), int(second), mended)
    return sum_of(mended[state.shape.column(int(first))] + mended[state.shape.column(int(second))]) == wanted


COLUMNS = {"array": array, "stripe": stripe, "dirty": dirty}
FILES = {
    "encode.txt": COLUMNS,
    "jerasure.txt": {**COLUMNS, "two": two},
    "one.txt": {**COLUMNS, "one": one, "own": own_column, "balanced": balanced_column},
    "two.txt": {**COLUMNS, "two": two},
    "cells.txt": {**COLUMNS, "determined": determined, "undetermined": undetermined},
    "update.txt": {**COLUMNS, "update": update},
    "scrub.txt": {**COLUMNS, "scrub": scrub},
    "lists.txt": {"array": array, "own": own_list, "balanced": balanced_list, "fewest": fewest_list},
    "plans.txt": {"array": array, "accepted": accepted, "refused": refused_plan},
    "refusals.txt": {"refused": refused_call},
    "large.txt": {"array": array, "seed": seed, "data": data, "parity": parity, "own": own_sum, "two": two_sum},
}


def main():
    if len(sys.argv) != 2 or not pathlib.Path(sys.argv[1]).is_dir():
        sys.exit(__doc__.split("\n\n")[1])
    wrong, held = 0, collections.Counter()
    for path in sorted(pathlib.Path(sys.argv[1]).glob("*.txt")):
        state = State()
        for number, line in enumerate(path.read_text().splitlines(), 1):
            if line.startswith("#"):
                continue
            word, *words = line.split(" ")
            held[word] += 1
            if not FILES[path.name][word](state, *words):
                wrong += 1
                if wrong <= SHOWN:
                    print(f"vectors: DIFFERS: {path.name}, line {number}: {line[:120]}")
    if wrong or not held:
        sys.exit(f"vectors: {wrong} of {sum(held.values())} lines do not hold")
    print(f"vectors: {sum(held.values())} lines of {len(held)} kinds hold")


if __name__ == "__main__":
    main()
