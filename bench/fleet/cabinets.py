"""A cabinet over the years: drives fail, sectors become unreadable, checks find them, drives are replaced and rebuilt.

Times are in days. While nothing is lost the cabinet is followed as it happens. At each first failure two things are
done. What happens next is drawn. And what is to be expected is computed: a further failure within the window is
forced, with its probability as weight, and the sectors enter as a probability. The mean of both is the same; the
second has little spread, so losses are counted that a fleet of this size would not see once.
"""

import math
import random
from dataclasses import dataclass

YEAR = 365.25


@dataclass
class Drives:
    size: float  # bytes
    failing: float  # of a hundred, how many fail within a year
    unreadable: float  # sectors of a drive that become unreadable in a year
    bit_errors: float  # sectors that cannot be read, for each bit that is read
    speed: float = 500e6  # bytes a second


@dataclass
class Care:
    check: float  # days from check to check, 0 for none
    repair: float = 2  # days from the start of a check until what it finds is repaired
    wait: float = 1  # days from a failure until a new drive is there


@dataclass
class System:
    name: str
    data: int  # disks of film
    parity: int  # disks that may be lost, 1 or 2
    data_days: float  # the rebuild of a disk of film,
    parity_days: float  # of one of parity,
    two_days: float  # and of two disks
    pair: float = 0  # chance that two unreadable sectors of two disks cost film while a third disk is lost

    @property
    def disks(self):
        return self.data + self.parity


class Cabinet:
    def __init__(self, system, drives, care, seed):
        self.system, self.drives, self.care = system, drives, care
        self.events, self.forced = random.Random(seed), random.Random(-1 - seed)
        self.rate = -math.log1p(-drives.failing / 100) / YEAR
        self.born = [0.0] * system.disks
        self.phase = self.events.uniform(0, care.check)
        self.failures = 0
        self.expected = [0.0, 0.0]  # losses of all film, and of spots
        self.happened = [0, 0]

    def window(self, draw, days):
        """How long a rebuild and the wait before it take; the test of the simulator draws it."""
        return days

    def weight(self, others, days):
        """The probability that one of so many drives fails within these days."""
        return -math.expm1(-others * self.rate * days)

    def forced_failure(self, others, days):
        """When, given that one does."""
        return -math.log1p(-self.forced.random() * self.weight(others, days)) / (others * self.rate)

    def clean_since(self, now):
        """What was unreadable before this day has been repaired."""
        if not self.care.check:
            return 0.0
        return max(0.0, now - self.care.repair - (now - self.care.repair - self.phase) % self.care.check)

    def sectors(self, lost, begun, end):
        """The mean number of unreadable sectors of each drive that is left, up to the end of the window. What the last
        check before the first failure did not find is still there; each drive is then read once."""
        clean, a_day = self.clean_since(begun), self.drives.unreadable / YEAR
        read = self.drives.size * 8 * self.drives.bit_errors
        return [a_day * (end - max(clean, born)) + read for disk, born in enumerate(self.born) if disk not in lost]

    def one_window(self, draw, lost):
        system = self.system
        return self.window(draw, self.care.wait + (system.data_days if lost < system.data else system.parity_days))

    def two_window(self, draw):
        """Both begin anew: what of the first was rebuilt before the second failed does not count."""
        return self.window(draw, self.care.wait + self.system.two_days)

    def some(self, lost, begun, end):
        """The probability that a sector of the others cannot be read."""
        return -math.expm1(-sum(self.sectors(lost, begun, end)))

    def pairs(self, lost, begun, end):
        """The mean number of pairs of unreadable sectors that cost film; the probability of one is no greater."""
        sectors = self.sectors(lost, begun, end)
        return self.system.pair * (sum(sectors) ** 2 - sum(one * one for one in sectors)) / 2

    def expect(self, now, first):
        """Adds what is to be expected of a first failure."""
        disks, days = self.system.disks, self.one_window(self.forced, first)
        second = self.weight(disks - 1, days)
        if self.system.parity == 1:
            self.expected[0] += second
            self.expected[1] += (1 - second) * self.some([first], now, now + days)
            return
        self.expected[1] += (1 - second) * self.pairs([first], now, now + days)
        then, days = now + self.forced_failure(disks - 1, days), self.two_window(self.forced)
        third = self.weight(disks - 2, days)
        lost = [first, self.other(self.forced, [first])]
        self.expected[0] += second * third
        self.expected[1] += second * (1 - third) * self.some(lost, now, then + days)

    def other(self, draw, lost):
        place = draw.randrange(self.system.disks - len(lost))
        for disk in sorted(lost):
            place += place >= disk
        return place

    def happen(self, now, first):
        """Draws what happens after a first failure; the day on which all is well again."""
        lost, begun, days = [first], now, self.one_window(self.events, first)
        while True:
            wait = self.events.expovariate((self.system.disks - len(lost)) * self.rate)
            if wait > days:
                self.spots(lost, begun, now + days)
                now += days
                break
            now += wait
            lost.append(self.other(self.events, lost))
            if len(lost) > self.system.parity:
                self.happened[0] += 1  # and the films are delivered anew
                break
            days = self.two_window(self.events)
        for disk in lost:
            self.born[disk] = now
        return now

    def spots(self, lost, begun, end):
        full = len(lost) == self.system.parity
        self.happened[1] += self.events.random() < (self.some if full else self.pairs)(lost, begun, end)

    def live(self, years):
        now = 0.0
        while True:
            now += self.events.expovariate(self.system.disks * self.rate)
            if now > years * YEAR:
                return
            self.failures += 1
            first = self.events.randrange(self.system.disks)
            self.expect(now, first)
            now = self.happen(now, first)


@dataclass
class Losses:
    """In a thousand cabinet-years: losses of all film and of spots, each with half of its 95 % interval."""

    failures: float
    store: tuple
    spots: tuple
    happened: list  # in the whole fleet


def fleet(system, drives, care, seed, cabinets=10_000, years=10, kind=Cabinet):
    """Follows so many cabinets; cabinet c has the seed 1,000,003 × seed + c."""
    failures, sums, squares, happened = 0, [0.0, 0.0], [0.0, 0.0], [0, 0]
    for number in range(cabinets):
        cabinet = kind(system, drives, care, 1_000_003 * seed + number)
        cabinet.live(years)
        failures += cabinet.failures
        for what, one in enumerate(cabinet.expected):
            sums[what] += one
            squares[what] += one * one
            happened[what] += cabinet.happened[what]
    scale = 1000 / years / cabinets

    def interval(one, two):
        variance = max(0.0, two - one * one / cabinets)
        return one * scale, 1.96 * math.sqrt(variance) * scale

    return Losses(failures * scale, *map(interval, sums, squares), happened)
