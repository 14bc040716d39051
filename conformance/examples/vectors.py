#!/usr/bin/env python3
# SPDX-License-Identifier: Apache-2.0
"""A plain Liberation code in Python, held to the vectors: an example for any language.

Usage: conformance/examples/vectors.py FOLDER [WIDTH]
  FOLDER: the vectors, conformance/vectors/ or share/cuzhaveli/vectors. WIDTH: only arrays of up to so many rows.

FORMAT.md in that folder tells the form of the lines. A stripe is here a list of numbers, one a cell, cell c * p + i for
row i of disk c; a number holds the bytes of its cell. Exit status 1 if a line does not hold.
"""

import collections
import functools
import hashlib
import operator
import pathlib
import sys

# The code.


def set_cells(p, k, n):
    """The cells of set n, its parity cell last: row set n for n below p, diagonal set n - p from there on."""
    i, extra = n % p, p - 2 * n % p
    cells = [c * p + (i if n < p else (i + c) % p) for c in range(k)]
    if n > p and extra < k:
        cells.append(extra * p + p - 1 - i)
    return cells + [(k + n // p) * p + i]


@functools.lru_cache(maxsize=None)
def sets(p, k):
    return [set_cells(p, k, n) for n in range(2 * p)]


def total(stripe, cells):
    return functools.reduce(operator.xor, (stripe[cell] for cell in cells), 0)


def encode(p, k, stripe):
    for *others, parity in sets(p, k):
        stripe[parity] = total(stripe, others)


def rebuild_one(p, k, stripe, lost):
    """By row sets, and by diagonal sets for Q."""
    for row in range(p):
        cells = sets(p, k)[p + row if lost == k + 1 else row]
        stripe[lost * p + row] = total(stripe, [cell for cell in cells if cell != lost * p + row])


def rebuild_cells(p, k, stripe, missing):
    """False if the other cells do not determine the missing ones."""
    bit = {cell: 1 << b for b, cell in enumerate(missing)}
    sums = [[sum(bit.get(cell, 0) for cell in cells), total(stripe, [cell for cell in cells if cell not in bit])] for cells in sets(p, k)]
    rows = []
    for cell in missing:
        row = next((row for row in sums if row[0] & bit[cell]), None)
        if row is None:
            return False
        sums.remove(row)
        for other in sums + rows:
            if other[0] & bit[cell]:
                other[0] ^= row[0]
                other[1] ^= row[1]
        rows.append(row)
    for cell, row in zip(missing, rows):
        stripe[cell] = row[1]
    return True


def update(p, k, stripe, cell, new):
    for cells in sets(p, k):
        if cell in cells:
            stripe[cells[-1]] ^= stripe[cell] ^ new
    stripe[cell] = new


def is_clean(p, k, stripe):
    return not any(total(stripe, cells) for cells in sets(p, k))


def scrub(p, k, stripe):
    """`clean`, the number of the one disk that explains the stripe, or `more`."""
    if is_clean(p, k, stripe):
        return "clean"
    for disk in range(k + 2):
        tried = list(stripe)
        rebuild_one(p, k, tried, disk)
        if is_clean(p, k, tried):
            return str(disk)
    return "more"


# The lines.


class Lines:
    """Tries each line by the method of its file and first word; lines without one are passed over."""

    def array(self, p, k, s="0"):
        self.p, self.k, self.s = int(p), int(k), int(s)

    def cells(self, data):
        return [int.from_bytes(data[place : place + self.s], "big") for place in range(0, len(data), self.s)]

    def stripe(self, digits):
        self.whole = self.cells(bytes.fromhex(digits))
        stripe = self.whole[: self.p * self.k] + [0] * (2 * self.p)
        encode(self.p, self.k, stripe)
        return stripe == self.whole

    def dirty(self, digits):
        self.whole = self.cells(bytes.fromhex(digits))

    def spoiled(self, cells):
        stripe = list(self.whole)
        for cell in cells:
            stripe[cell] ^= 0x5A
        return stripe

    def column(self, disk):
        return list(range(int(disk) * self.p, (int(disk) + 1) * self.p))

    def place(self, word):
        disk, row = word.split(".")
        return int(disk) * self.p + int(row)

    def one(self, disk):
        stripe = self.spoiled(self.column(disk))
        rebuild_one(self.p, self.k, stripe, int(disk))
        return stripe == self.whole

    def two(self, a, b):
        missing = self.column(a) + self.column(b)
        stripe = self.spoiled(missing)
        return rebuild_cells(self.p, self.k, stripe, missing) and stripe == self.whole

    def determined(self, *words):
        missing = [self.place(word) for word in words]
        stripe = self.spoiled(missing)
        return rebuild_cells(self.p, self.k, stripe, missing) and stripe == self.whole

    def undetermined(self, *words):
        missing = [self.place(word) for word in words]
        return not rebuild_cells(self.p, self.k, self.spoiled(missing), missing)

    def pairs(self, words):
        return [(self.place(cell), int(digits, 16)) for cell, digits in zip(words[::2], words[1::2])]

    def update(self, *words):
        stripe, wanted, pairs = list(self.whole), list(self.whole), self.pairs(words)
        update(self.p, self.k, stripe, *pairs[0])
        for cell, value in pairs:
            wanted[cell] = value
        return stripe == wanted

    def scrub(self, verdict, *words):
        stripe = list(self.whole)
        for cell, value in self.pairs(words):
            stripe[cell] ^= value
        return scrub(self.p, self.k, stripe) == verdict

    def seed(self, number):
        x, data = int(number), bytearray()
        for _ in range((self.k + 2) * self.p * self.s):
            x = (x * 1664525 + 1013904223) % 2**32
            data.append(x >> 24)
        self.whole = self.cells(data)

    def is_sum(self, cells, digits):
        data = b"".join(cell.to_bytes(self.s, "big") for cell in cells)
        return hashlib.sha256(data).hexdigest() == digits

    def data(self, digits):
        return self.is_sum(self.whole[: self.p * self.k], digits)

    def parity(self, digits):
        stripe = list(self.whole)
        encode(self.p, self.k, stripe)
        return self.is_sum(stripe[self.p * self.k :], digits)

    def two_sums(self, a, b, digits):
        stripe, missing = list(self.whole), self.column(a) + self.column(b)
        rebuild_cells(self.p, self.k, stripe, missing)
        return self.is_sum([stripe[cell] for cell in missing], digits)


NOT_OURS = {"own", "balanced", "fewest", "accepted", "refused"}  # plans and refusals, which this code does not have


def main():
    if len(sys.argv) not in (2, 3) or not pathlib.Path(sys.argv[1]).is_dir():
        sys.exit(__doc__.split("\n\n")[1])
    most, tried, wrong = int((sys.argv + ["31"])[2]), collections.Counter(), 0
    for path in sorted(pathlib.Path(sys.argv[1]).glob("*.txt")):
        lines = Lines()
        for number, line in enumerate(path.read_text().splitlines(), 1):
            word, *words = line.split(" ")
            if word == "array":
                lines.array(*words)
            if word in NOT_OURS | {"#", "array"} or lines.p > most:
                continue
            name = "two_sums" if word == "two" and len(words) == 3 else word
            tried[word] += 1
            if getattr(lines, name)(*words) is False:
                wrong += 1
                print(f"vectors: {path.name}, line {number}, p = {lines.p}, k = {lines.k}, s = {lines.s}: DIFFERS: {line[:100]}")
    print("vectors: " + ", ".join(f"{count} {word}" for word, count in tried.items()) + f": {wrong} differ")
    sys.exit(1 if wrong or not tried else 0)


main()
