"""Which unreadable sectors cost film while one disk is lost, counted over the sets of the code in docs/SCOPE.md."""


def cell_sets(p, extras=True):
    """For each cell (row, disk), k = p, a word of the sets that have it: R i is bit i, D i is bit p + i."""
    words = {(row, disk): 0 for disk in range(p + 2) for row in range(p)}
    for i in range(p):
        for disk in range(p):
            words[i, disk] ^= 1 << i
            words[(i + disk) % p, disk] ^= 1 << p + i
        words[i, p] ^= 1 << i
        words[i, p + 1] ^= 1 << p + i
        if i and extras:
            words[p - 1 - i, p - 2 * i % p] ^= 1 << p + i
    return words


def reduced(word, basis):
    """The word without the highest bits of the basis; 0 if it is a sum of its words."""
    for one in basis:
        word = min(word, word ^ one)
    return word


def determined(words):
    """Whether the other cells determine these missing ones: no sum of some of their words is 0."""
    basis = []
    for word in words:
        rest = reduced(word, basis)
        if not rest:
            return False
        basis.append(rest)
        basis.sort(reverse=True)
    return True


class Pairs:
    """All cases of one lost disk and an unreadable cell on each of two others, in one stripe."""

    def __init__(self, p, extras=True):
        words = cell_sets(p, extras)
        self.all = self.lost = self.same_row = self.both = 0
        for gone in range(p + 2):
            self.count(p, words, gone)

    def count(self, p, words, gone):
        """Two cells are not determined exactly if they differ by a sum of cells of the lost disk."""
        basis = []
        for row in range(p):
            basis.append(reduced(words[row, gone], basis))
            basis.sort(reverse=True)
        alike = {}
        for (row, disk), word in words.items():
            if disk != gone:
                alike.setdefault(reduced(word, basis), []).append((row, disk))
        self.all += p * p * (p + 1) * p // 2
        self.same_row += p * (p + 1) * p // 2
        for cells in alike.values():
            for number, (row, disk) in enumerate(cells):
                others = [other for other in cells[:number] if other[1] != disk]
                self.lost += len(others)
                self.both += sum(other[0] == row for other in others)
