#!/usr/bin/env python3
"""Power cuts: the states that they may leave after each system call of an encode, a rebuild, a repair and a decode, by a
model of what was synced; in each the film is right or refused, and the next call ends what was cut off.

Outside the gate, with more states for each system call: tests/command/cuts.py FOLDER [STATES [SEED]]
"""

import os
import pathlib
import random
import sys

sys.dont_write_bytecode = True

from harness import LABEL, Setting, Wrong, can_trace, expect, noise
from recorder import Recorder
from storage import Storage, lay_out, stands

STATES, SEED = 12, 1  # random states for each system call
CELL = 200  # cells and checksum blocks of a group in sectors of their own, and some that share one
NO_TRACE = "left out: no tracing on this machine"


class Cuts:
    """The states that power cuts may leave during one call of the program, each laid out in a folder of its own."""

    def __init__(self, setting, world, *words):
        self.setting, self.words = setting, words
        self.draw = random.Random(SEED)
        self.before = Storage(world)
        self.events = Recorder(setting, world, *words).events()
        self.end = stands(world)
        self.count = 0

    def states(self):
        """Each state once: its folder, whether the call had told its result, and where files are torn."""
        storage, known = self.before, set()
        for number in range(len(self.events) + 1):
            if number:
                storage.do(self.events[number - 1])
            for left, torn in self.left(storage):
                key = (storage.told, tuple(sorted(left.items(), key=lambda one: one[0])))
                if key not in known:
                    known.add(key)
                    self.count += 1
                    self.number = number
                    world = self.setting.new()
                    lay_out(left, world)
                    yield world, storage.told, torn
        left, _ = storage.after(lambda: True, lambda: True, self.draw, False)
        expect(left == self.end, f"{self.words[0]}: what was recorded is not what was done")

    def left(self, storage):
        """All lost, all there, names or bytes alone, and random parts."""
        for names, data in ((0, 0), (1, 1), (1, 0), (0, 1)):
            yield storage.after(lambda: names, lambda: data, self.draw, False)
        for state in range(STATES):
            names, data = self.draw.choice((0.5, 1, 1)), self.draw.choice((0.1, 0.5, 0.9))
            kept = [lambda share=share: self.draw.random() < share for share in (names, data)]
            yield storage.after(*kept, self.draw, state % 2 == 1)

    def expect(self, holds, what):
        expect(holds, f"a power cut after {self.number} of {len(self.events)} changes of {self.words[0]}: {what}")


def new_world(setting):
    world = setting.new()
    world.mkdir()
    return world


def film_or_refused(setting, cuts, folder, film):
    """What decode ends with: the film with status 0, or no set at all; never a set that is not whole."""
    done = setting.call("decode", folder, out := setting.new())
    cuts.expect(done.status in (0, 4, 5), f"a set that is not whole: {done.told()}")
    cuts.expect(done.status != 0 or out.read_bytes() == film, f"another film: {done.told()}")
    return done.status == 0


def encode_anew(setting, cuts, words, folder):
    """Encodes to a folder after a power cut: what is said to be there is removed."""
    for _ in range(20):
        done = setting.call(*words, folder)
        if done.status == 0:
            return
        named = done.err.decode().removeprefix("cuzhaveli: ").split(" is there already")
        cuts.expect(done.status == 4 and len(named) == 2, f"encode anew: {done.told()}")
        os.unlink(named[0])
    cuts.expect(False, f"encode anew does not come to an end: {done.told()}")


def cut_encodes(setting):
    """A set is whole or not there; encode is done anew after what it names is removed; one that was told stays."""
    if not can_trace(setting):
        return NO_TRACE
    film, world = noise(3 * 2 * CELL * 5 - 7), new_world(setting)
    source = setting.new()
    source.write_bytes(film)
    words = ["encode", "-p", 3, "-k", 2, "-s", CELL, "-u", 1, "-g", 2, source]
    cuts = Cuts(setting, world, *words, world / "set")
    good, ends = stands(world / "set"), {True: 0, False: 0}
    for left, told, _ in cuts.states():
        folder = left / "set"
        whole = film_or_refused(setting, cuts, folder, film)
        ends[whole] += 1
        cuts.expect(whole or not told, "a set that was told is not there")
        if whole:
            done = setting.call("rebuild", folder)
            cuts.expect(done.status == 0 and stands(folder) == good, f"other images: {done.told()}")
        else:
            encode_anew(setting, cuts, words, folder)
            cuts.expect(film_or_refused(setting, cuts, folder, film), "encoded anew: no set")
    expect(all(ends.values()), f"whole or not: {ends}")
    return f"{cuts.count} states after {len(cuts.events)} changes"


def go_on(setting, cuts, folder, torn, *words):
    """Rebuilds after a power cut. A part whose first block is torn has no mark: it is named, and removed."""
    done = setting.call("rebuild", *words, folder)
    for name in (name for name, at in torn.items() if at is not None and at < LABEL):
        if done.status == 5 and f"{name} is not of this rebuild; remove it".encode() in done.err:
            (folder.parent / name).unlink()
            done = setting.call("rebuild", *words, folder)
    cuts.expect(done.status == 0, f"rebuild again: {done.told()}")


def cut_rebuilds(setting):
    """The film is right at any time, rebuild again ends with every image as it was, and told images stay."""
    if not can_trace(setting):
        return NO_TRACE
    film, states, changes = noise(3 * 3 * CELL * 5 - 7), 0, 0
    for lost, short in (((1,), False), ((0, 4), False), ((2,), True)):
        world = new_world(setting)
        images = setting.encoded(film, 3, 3, CELL, 2, unit=1, where=world)
        good = stands(images.folder)
        for disk in lost:
            os.truncate(images.path(disk), 5000) if short else images.lose(disk)
        cuts = Cuts(setting, world, "rebuild", images.folder)
        for left, told, torn in cuts.states():
            folder = left / images.folder.name
            cuts.expect(film_or_refused(setting, cuts, folder, film), "no film")
            cuts.expect(not told or stands(folder) == good, "images that were told are not there")
            go_on(setting, cuts, folder, torn)
            cuts.expect(stands(folder) == good, "other images after rebuild again")
        states, changes = states + cuts.count, changes + len(cuts.events)
    return f"{states} states after {changes} changes"


def spoil_sectors(images):
    """A bad disk in each stripe, where a sector has cells of more stripes: a torn one makes two."""
    for stripe, disk in ((0, 1), (1, 3), (2, 0), (3, 4)):
        images.flip(disk, images.offset(stripe, 1))


def spoil_pieces(images):
    """Two bad disks in each stripe, where each piece has sectors of its own; bad labels and checksum blocks."""
    for stripe, disks in ((0, (1, 3)), (1, (0, 4)), (3, (2, 3))):
        for disk in disks:
            images.flip(disk, images.offset(stripe, disk % 3) + 7 * disk)
    for unit, disks in ((0, (0, 1)), (1, (2, 3, 4))):
        for disk in disks:
            images.flip(disk, images.block(unit))
    images.flip(2, 5)
    images.flip(3, images.end() + 5)


def cut_repairs(setting):
    """The film is right at any time, repair again ends with every image as it was, and told repairs stay."""
    if not can_trace(setting):
        return NO_TRACE
    states, changes = 0, 0
    for cell, spoil in ((16, spoil_sectors), (512, spoil_pieces)):
        film, world = noise(3 * 3 * cell * 4 - 7), new_world(setting)
        images = setting.encoded(film, 3, 3, cell, 4, unit=1, where=world)
        good = stands(images.folder)
        spoil(images)
        cuts = Cuts(setting, world, "repair", images.folder)
        for left, told, _ in cuts.states():
            folder = left / images.folder.name
            done = setting.call("decode", folder, out := setting.new())
            cuts.expect(done.status == 0 and out.read_bytes() == film, f"no film: {done.told()}")
            cuts.expect(not told or stands(folder) == good, "a repair that was told is not there")
            done = setting.call("repair", folder)
            cuts.expect(done.status == 0 and stands(folder) == good, f"repair again: {done.told()}")
        states, changes = states + cuts.count, changes + len(cuts.events)
    return f"{states} states after {changes} changes"


def cut_decodes(setting):
    """A film that has its name is whole, and one that was told has it."""
    if not can_trace(setting):
        return NO_TRACE
    film, world = noise(3 * 3 * 16 * 40 - 7), new_world(setting)
    images = setting.encoded(film, 3, 3, 16, 4)
    cuts = Cuts(setting, world, "decode", images.folder, world / "film")
    for left, told, _ in cuts.states():
        named = (left / "film").exists()
        cuts.expect(named or not told, "a film that was told is not there")
        cuts.expect(not named or (left / "film").read_bytes() == film, "another film")
    return f"{cuts.count} states after {len(cuts.events)} changes"


def cut_remnants(setting):
    """A part, or a marked image, that the film cannot do without, since two other disks are bad: the film is there at any time."""
    if not can_trace(setting):
        return NO_TRACE
    states, changes, cell = 0, 0, 512
    film = noise(3 * 3 * cell * 4 - 7)
    for kind in ("part", "named"):
        world = new_world(setting)
        images = setting.encoded(film, 3, 3, cell, 4, unit=1, where=world)
        good = stands(images.folder)
        own = images.part(1) if kind == "part" else images.path(1)
        images.path(1).rename(own)
        images.lose(2)
        with open(own, "r+b") as file:
            if kind == "part":
                file.write(images.label(1, "part"))
            for stripe, row in ((1, 0), (3, 2)):  # the rest of these units comes back from what is good of it
                file.seek(images.offset(stripe, row))
                file.write(bytes(cell))
        for stripe, row in ((0, 0), (0, 1), (1, 1), (2, 2), (3, 2)):
            images.flip(3, images.offset(stripe, row))
        words = ["--disk", 1] if kind == "named" else []
        cuts = Cuts(setting, world, "rebuild", *words, images.folder)
        for left, _, torn in cuts.states():
            folder = left / images.folder.name
            cuts.expect(film_or_refused(setting, cuts, folder, film), "no film")
            go_on(setting, cuts, folder, torn, *words)
            done = setting.call("repair", folder)
            cuts.expect(done.status == 0 and stands(folder) == good, f"other images after rebuild again: {done.told()}")
        states, changes = states + cuts.count, changes + len(cuts.events)
    return f"{states} states after {changes} changes"


CHECKS = [cut_encodes, cut_rebuilds, cut_remnants, cut_repairs, cut_decodes]


def main():
    global STATES, SEED
    if len(sys.argv) not in (2, 3, 4) or not (pathlib.Path(sys.argv[1]) / "cuzhaveli").exists():
        sys.exit(__doc__)
    STATES = int(sys.argv[2]) if len(sys.argv) > 2 else 100
    SEED = int(sys.argv[3]) if len(sys.argv) > 3 else random.randrange(1 << 32)
    with Setting(pathlib.Path(sys.argv[1]).resolve()) as setting:
        for check in CHECKS:
            try:
                print(f"cuts: {check.__name__}, seed {SEED}: {check(setting)}", flush=True)
            except Wrong as what:
                sys.exit(f"cuts: FAILED: {check.__name__}, seed {SEED}: {what}")
            setting.clear()


if __name__ == "__main__":
    main()
