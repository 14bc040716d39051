"""Power cuts at every system call of a put and of a remove: the package is the old or the new one, and the new one once
it was acknowledged."""

import random

from harness import can_trace, noise
from record import Recorder, keepers, states_after
from shelf import Shelf, expect

OLD = ((b"film", noise(700, 1)), (b"subs/x", noise(40, 2)))
NEW = ((b"film", noise(333, 3)), (b"other", noise(120, 4)), (b"empty", b""))


def cut_everywhere(setting, k, words, new, stride):
    """Cuts a change of a store at its system calls, in several ways."""
    rng, states = random.Random(k), 0
    shelf = Shelf(setting, 3, k)
    shelf.put("a", OLD)
    state = shelf.state()
    recorder = Recorder(setting, shelf.drives, *words(shelf))
    expect(recorder.status == 0, f"{words(shelf)[0]} ended with {recorder.status}")
    changes = len(recorder.operations)
    for moment in sorted({*range(0, changes + 1, stride), *range(changes - 30, changes + 1)}):
        acknowledged = bool(recorder.said(moment))
        for how, keep in keepers(rng).items():
            shelf.restore(states_after(state, recorder.operations[:moment], keep))
            allowed = [new] if acknowledged else [new, OLD]
            lost = rng.sample(range(shelf.count), rng.choice([1, 2]))
            for away in ((), lost):
                found = shelf.get("a", shelf.view(away))
                told = f"k {k}, {words(shelf)[0]} cut at {moment} of {changes}, kept {how}, without {away}: {str(found)[:40]}"
                expect(found in allowed, told)
            states += 1
    shelf.call("rebuild", shelf.folder, status=0)
    shelf.call("check", shelf.folder, status=0)
    return states


def power_cuts(setting):
    """Each cut of a put over a package and of a remove leaves the old or the new."""
    if not can_trace(setting):
        return "left out: no tracing on this machine"
    states = 0
    new = tuple(sorted(NEW))
    for k, stride in ((2, 3), (3, 5)):
        states += cut_everywhere(setting, k, lambda shelf: ["put", shelf.folder, "a", shelf.files(NEW)], new, stride)
        states += cut_everywhere(setting, k, lambda shelf: ["remove", shelf.folder, "a"], None, stride)
    return f"{states} states"


def cut_off_on_one_disk(setting):
    """A put that was cut off once one disk had its catalogue, on a disk that then was away: a later one stands against
    it, by its promise."""
    if not can_trace(setting):
        return "left out: no tracing on this machine"
    cases = 0
    for k, disk in ((2, 0), (3, 0), (3, 2)):
        shelf = Shelf(setting, 3, k)
        shelf.put("a", OLD)
        state = shelf.state()
        recorder = Recorder(setting, shelf.drives, "put", shelf.folder, "a", shelf.files(NEW))
        named = [place for place, (what, one, value) in enumerate(recorder.operations)
                 if what == "rename" and value == ("catalogue.new", "catalogue")]
        expect(len(named) == shelf.count, f"{len(named)} catalogues are replaced")
        cut = states_after(state, recorder.operations[:named[disk] + 1], lambda _: True)
        shelf.restore(cut)
        for behind in range(disk):  # only one disk has it
            shelf.restore({behind: {**cut[behind], "catalogue": state[behind]["catalogue"]}})
        later = ((b"later", noise(99)),)
        shelf.put("a", later, shelf.view([disk]))
        for away in ((), *((one,) for one in range(shelf.count) if one != disk)):
            expect(shelf.get("a", shelf.view(away)) == later, f"k {k}: without {away} the later put does not stand")
            cases += 1
        shelf.call("rebuild", shelf.folder, status=0)
        expect(shelf.get("a") == later, "another after the rebuild")
    return f"{cases} views"


CHECKS = [power_cuts, cut_off_on_one_disk]
