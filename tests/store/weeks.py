"""Random weeks of a store against a model that is a folder of files: puts, removes, patches, rebuilds, repairs; disks
away, unmounted, exchanged, swapped back, in other places; kills and power cuts."""

import json
import random
import shutil
from collections import Counter

from harness import can_trace, noise
from record import Recorder, keepers, states_after
from shelf import REFUSED, Shelf, expect, generation

NAMES = ("a", "b c")
SHAPES = [(3, 2), (3, 3), (3, 3), (5, 3), (5, 4)]
KINDS = ["put"] * 4 + ["patch"] * 3 + ["remove", "rebuild", "rebuild", "rebuild", "repair", "exchange", "swap", "swap"]


class Week:
    """A store, what each of its packages may be, and the days so far."""

    def __init__(self, setting, seed):
        self.rng, self.setting, self.seen = random.Random(seed), setting, Counter()
        p, k = self.rng.choice(SHAPES)
        self.shelf = Shelf(setting, p, k, self.rng.choice([5, 16]), *self.rng.choice([(1, 1), (1, 3), (2, 4)]))
        self.allowed = {name: {None} for name in NAMES}
        self.taken_out, self.acknowledged = {}, self.shelf.catalogues()[0][1]
        self.whole = True  # every disk has all, and nothing was cut off since
        self.told = f"seed {seed}, p {p}, k {k}"

    def expect(self, holds, what):
        expect(holds, f"{self.told}, day {self.seen['days']}: {what}")

    def package(self):
        stripe = self.shelf.k * self.shelf.p * self.shelf.s
        names = self.rng.sample([b"film", b"subs/de", b"subs/\xff \n,%", b"x"], self.rng.choice([1, 1, 2, 3]))
        return tuple(sorted((name, noise(self.rng.choice([0, 1, stripe, self.rng.randrange(4 * stripe)]), self.rng.random()))
                            for name in names))

    def too_many(self):
        """Whether more disks are stale or blank than is promised for."""
        found, newest = self.shelf.catalogues(), generation(self.acknowledged)
        lack = [number for number, text in found.values() if text != self.acknowledged]
        return len(lack) > 2 or sum(0 <= number < newest for number in lack) > self.shelf.readers - 1

    def exchange(self, kind):
        """A new drive in a disk's place, or one that was taken out comes back."""
        disk = self.rng.randrange(self.shelf.count)
        if kind == "swap" and self.taken_out and self.rng.random() < 0.6:
            disk = self.rng.choice(sorted(self.taken_out))
        before = self.shelf.drives[disk]
        if kind == "swap" and disk not in self.taken_out:
            copy = self.setting.new()
            shutil.copytree(before, copy)
            self.taken_out[disk] = copy
            return
        self.shelf.drives[disk] = self.shelf.drive() if kind == "exchange" else self.taken_out.pop(disk)
        if self.too_many():
            self.shelf.drives[disk] = before
            return
        self.seen[kind], self.whole = self.seen[kind] + 1, False

    def words(self, kind, view, before, name):
        """A command of that kind, and what the package is after it; none if it makes no sense now."""
        if kind == "put":
            new = self.package()
            return ["put", view, name, self.shelf.files(new)], new
        if kind == "remove":
            return ["remove", view, name], None
        if kind == "patch":
            return self.patch(view, before, name)
        if kind == "rebuild":
            return ["rebuild", *self.new_disks(self.present), view], before
        return ["repair", view], before

    def new_disks(self, disks):
        """The options that name new drives, also those of which a cut left no more than a beginning."""
        new = [disk for disk in disks if not (self.shelf.drives[disk] / "disk").exists()]
        return [word for disk in new for word in ("--new", disk)]

    def patch(self, view, before, name):
        if not before or before == REFUSED:
            return None, None
        file, old = self.rng.choice(before)
        at, more = self.rng.randrange(len(old) + 1), noise(self.rng.randrange(1, 60), self.rng.random())
        new = old[:at] + more + old[at + len(more):]
        other = self.setting.new()
        other.write_bytes(more)
        changed = tuple((one, new if one == file else content) for one, content in before)
        return ["patch", "--at", at, view, name, file.decode(errors="surrogateescape"), other], changed

    def day(self):
        self.seen["days"] += 1
        kind = self.rng.choice(KINDS)
        if kind in ("exchange", "swap"):
            return self.exchange(kind)
        away = self.rng.sample(range(self.shelf.count), self.rng.choice([0, 0, 0, 1, 2]))
        empty = [disk for disk in away if self.rng.random() < 0.5]
        self.present = [disk for disk in range(self.shelf.count) if disk not in away]
        view, name = self.shelf.view(away, empty=empty), self.rng.choice(NAMES)
        before = {one: self.shelf.get(one, view) for one in NAMES}
        words, new = self.words(kind, view, before[name], name)
        if words is None:
            return None
        self.seen[kind] += 1
        cut = self.run(kind, words, name, new, before, bool(away))
        for disk in empty:
            self.expect(not any((view / f"disk-{disk:02}").iterdir()), f"{kind} wrote to the folder of a disk that is not mounted")
        return self.read_all(f"{kind}{', cut ' + cut if cut else ''}")

    def run(self, kind, words, name, new, before, away):
        """Runs a command, perhaps cut off; gives how."""
        state = self.shelf.state()
        recorder = Recorder(self.setting, self.shelf.drives, words[0], "--json", *words[1:])
        self.expect(recorder.status in (0, 1, 5, 6), f"{words} ended with {recorder.status}")
        operations, cut, moment = recorder.operations, None, None
        if operations and self.rng.random() < 0.5:
            moment = self.rng.randrange(len(operations) + 1)
            cut = self.rng.choice(list(keepers(self.rng)))
            self.shelf.restore(states_after(state, operations[:moment], keepers(self.rng)[cut]))
            self.seen["cut"] += 1
        said = recorder.said(moment)
        stands = bool(said) and json.loads(said).get("catalogues") != 0
        same = kind in ("rebuild", "repair")
        if stands:
            self.acknowledge(name, None if same else new, same, before)
        elif operations and not same:
            self.allowed[name] = self.allowed[name] | {new}
        if cut or away or recorder.status != 0:
            self.whole = self.whole and not operations
        elif kind == "rebuild":
            self.whole = True
        if self.whole and stands and not cut:
            self.swept(kind)
        return cut

    def acknowledge(self, name, new, same, before):
        """Every package is now what the command saw, or made."""
        self.acknowledged = max(self.shelf.catalogues().values(), key=lambda found: found[0])[1]
        for one in NAMES:
            if one == name and not same:
                self.allowed[one] = {new}
            elif before[one] != REFUSED:
                self.allowed[one] = {before[one]}

    def swept(self, kind):
        """Each disk has the images that the catalogue names, and nothing else."""
        named = {line.split()[1].decode() + ".img" for line in self.acknowledged.splitlines() if line.startswith(b"file ")}
        for disk, drive in self.shelf.drives.items():
            has = {path.name for path in drive.iterdir()} - {"disk", "disk.new", "catalogue", "catalogue.new"}
            self.expect(has == named - {"-.img"}, f"after {kind} disk {disk} has {has}, and {named} are named")

    def read_all(self, after):
        """Reads by all disks, without some, and with drives in other places: what is allowed, or refused."""
        for turn in range(4):
            lost = self.rng.sample(range(self.shelf.count), turn) if turn < 3 else []
            places = dict(self.shelf.drives)
            if turn == 3:
                places = {disk: self.shelf.drives[self.rng.choice([disk, disk, self.rng.randrange(self.shelf.count)])] for disk in places}
            view = self.shelf.view(lost, places)
            for name in NAMES:
                found = self.shelf.get(name, view)
                self.seen["reads"] += 1
                if found == REFUSED:
                    moved = self.seen["exchange"] + self.seen["swap"]
                    self.expect(turn == 3 or not self.whole, f"after {after} {name} is refused without disks {lost}, and all were whole")
                    self.expect(turn > 0 or moved, f"after {after} {name} is refused with all disks there")
                else:
                    self.expect(found in self.allowed[name], f"after {after}, without {lost}: {name} is {found!r:.80}, "
                                f"allowed {[repr(one)[:80] for one in self.allowed[name]]}")
            shutil.rmtree(view)

    def end(self):
        """All disks come back and are brought up to date: every package is there, and a check finds nothing."""
        view = self.shelf.view()
        done = self.shelf.call("rebuild", *self.new_disks(self.shelf.drives), view)
        self.expect(done.status == 0 or self.seen["exchange"] + self.seen["swap"], f"the last rebuild: {done.told()}")
        if done.status == 0:
            self.shelf.call("check", view, status=0)
            for name in NAMES:
                self.expect(self.shelf.get(name, view) in self.allowed[name], f"{name} is another at the end")


def weeks(setting, first=1, count=20, days=14):
    """Random weeks; none loses or changes what was acknowledged."""
    if not can_trace(setting):
        return "left out: no tracing on this machine"
    total = Counter()
    for seed in range(first, first + count):
        week = Week(setting, seed)
        for _ in range(days):
            week.day()
        week.end()
        total += week.seen
        setting.clear()
    return f"{count} weeks: " + ", ".join(f"{what} {number}" for what, number in sorted(total.items()))


CHECKS = [weeks]
