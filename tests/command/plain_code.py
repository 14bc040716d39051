"""A plain Liberation code in Python, apart from the program's, and the lines of conformance/vectors/ by array."""

import functools
import operator
import random

from harness import TOP, expect, noise


class Code:
    """A plain Liberation code: a stripe is a list of numbers, that of row i on disk c at place c * p + i."""

    def __init__(self, p, k, s=1):
        self.p, self.k, self.s, self.bytes = p, k, s, (k + 2) * p * s
        self.sets = [self.set(n) for n in range(2 * p)]
        self.options = ["-p", p, "-k", k, "-s", s]

    def set(self, n):
        """The cells of row set n, or of diagonal set n - p; its parity cell is the last."""
        i, extra = n % self.p, self.p - 2 * n % self.p
        cells = [c * self.p + (i if n < self.p else (i + c) % self.p) for c in range(self.k)]
        if n > self.p and extra < self.k:
            cells.append(extra * self.p + self.p - 1 - i)
        return cells + [(self.k + n // self.p) * self.p + i]

    def name(self, n):
        return f"{'RD'[n // self.p]} {n % self.p}"

    def cells(self, data):
        return [int.from_bytes(data[at:at + self.s], "big") for at in range(0, len(data), self.s)]

    def data(self, cells):
        return b"".join(cell.to_bytes(self.s, "big") for cell in cells)

    def total(self, cells, places):
        return functools.reduce(operator.xor, (cells[place] for place in places), 0)

    def dirty(self, data):
        cells = self.cells(data)
        return [self.name(n) for n, places in enumerate(self.sets) if self.total(cells, places)]

    def encoded(self, data):
        cells = self.cells(data)
        for *others, parity in self.sets:
            cells[parity] = self.total(cells, others)
        return self.data(cells)

    def random(self, count, seed=1):
        """Clean stripes."""
        return [self.encoded(noise(self.bytes, f"{seed}-{number}")) for number in range(count)]

    def column(self, disk):
        return range(disk * self.p, (disk + 1) * self.p)

    def spoiled(self, data, places, seed=2):
        """Other bytes in these cells."""
        cells, other = self.cells(data), random.Random(seed)
        for place in places:
            cells[place] ^= other.randrange(1, 1 << 8 * self.s)
        return self.data(cells)

    def updated(self, data, place, new):
        cells = self.cells(data)
        changed = cells[place] ^ int.from_bytes(new, "big")
        for touched in {place, *(places[-1] for places in self.sets if place in places)}:
            cells[touched] ^= changed
        return self.data(cells)

    def determined(self, missing):
        """The missing cells that the other cells determine, each alone."""
        rows = []
        for places in self.sets:
            row = set(places) & set(missing)
            for pivot, other in rows:
                if pivot in row:
                    row ^= other
            if row:
                pivot = min(row)
                rows = [(p, other ^ row if pivot in other else other) for p, other in rows] + [(pivot, row)]
        return {pivot for pivot, row in rows if len(row) == 1}

    def called(self, setting, action, *words, input, status=0):
        """What an action makes of these stripes."""
        return setting.call("stripe", action, *self.options, *words, input=b"".join(input), status=status)


def same(done, wanted, what):
    wanted = b"".join(wanted)
    place = next((n for n, (a, b) in enumerate(zip(done.out, wanted)) if a != b), min(len(done.out), len(wanted)))
    expect(done.out == wanted, f"{what}: {len(done.out)} bytes of {len(wanted)}, the first other one is {place}; {done.err[:300]!r}")


def xored(stripes):
    return functools.reduce(operator.xor, (int.from_bytes(one, "big") for one in stripes)).to_bytes(len(stripes[0]), "big")


def listed(name):
    """The lines of a file of vectors by array: the array, and the words of each line."""
    code, lines = None, []
    for line in (TOP / "conformance/vectors" / name).read_text().splitlines():
        word, *words = line.split()
        if word == "array":
            if code:
                yield code, lines
            code, lines = Code(*map(int, words)), []
        elif word != "#":
            lines.append((word, words))
    yield code, lines


def place_of(code, cell):
    disk, row = cell.split(".")
    return int(disk) * code.p + int(row)
