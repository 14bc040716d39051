"""Images that a mistake cannot ruin: what does not belong together is told and not believed, and nothing is overwritten."""

import fcntl
import os
import shutil
import subprocess

from harness import LABEL, MEMORY, Set, Traced, can_trace, expect, label_block, noise

FILM = noise(5 * 5 * 16 * 9 - 3)


def small(setting, film=FILM, **more):
    return setting.encoded(film, 5, s=16, group=4, unit=2, **more)


def stands(setting, images, status, *words, says=b""):
    """The call ends with that status, says so, and leaves the folder as it was."""
    before = images.state()
    done = setting.call(*words, status=status)
    expect(images.state() == before, f"the folder changed: {done.told()}")
    expect(says in done.err, f"{says} expected: {done.told()}")
    expect(status in (0, 1) or done.err.startswith(b"cuzhaveli: "), done.told())


def refused(setting, images, says):
    """No set can be opened: status 5 for every command, and nothing written."""
    for words in (["rebuild", images.folder], ["rebuild", "-n", images.folder], ["decode", images.folder, setting.new()],
                  ["check", images.folder], ["repair", images.folder], ["info", images.folder]):
        stands(setting, images, 5, *words, says=says)


def strangers(setting):
    """Swapped images, another set's, damaged ones: told, not believed; rebuild replaces them only if they are named."""
    images, other = small(setting), small(setting, noise(3000, 2))
    good = images.images()
    short = bytearray(good[4])
    short[10] ^= 4
    short[-10] ^= 4
    cases = [({1: good[2], 2: good[1]}, b"disk-01.img is the image of disk 2"), ({3: other.path(3).read_bytes()}, b"disk-03.img is of set"),
             ({4: bytes(short)}, b"disk-04.img has damaged labels"), ({0: bytes(len(good[0]))}, b"disk-00.img has no label"),
             ({6: b"mine"}, b"disk-06.img has damaged labels")]
    for changes, says in cases:
        images.write(changes)
        expect(setting.film(images) == FILM, f"{says}: another film")
        done = setting.call("info", images.folder, status=1)
        expect(says in done.err, done.told())
        named = [word for disk in changes for word in ("--disk", str(disk))]
        stands(setting, images, 5, "rebuild", images.folder, says=" ".join(["cuzhaveli rebuild", *named, str(images.folder)]).encode())
        stands(setting, images, 5 if len(changes) > 1 else 0, "rebuild", "-n" if len(changes) == 1 else "-q", *named[:2], images.folder)
        setting.call("rebuild", *named, images.folder, status=0)
        expect(images.images() == good, f"{says}: other images after a rebuild")
    return f"{len(cases)} sorts of strange images"


def no_set(setting):
    """Three lost, two sets in one folder, no labels, the first layout: refused by every command."""
    images = small(setting)
    good = images.images()
    images.lose(0, 3, 6)
    refused(setting, images, b"are lost, and no more than two can be rebuilt")
    images.write(good)
    for disk in (0, 1, 2):
        os.truncate(images.path(disk), LABEL)
    refused(setting, images, b"are lost, and no more than two can be rebuilt")
    images.write({disk: bytes(len(image)) for disk, image in good.items()})
    refused(setting, images, b"no disk-NN.img with a label")
    first = b"cuzhaveli image 1\nset 0\n".ljust(len(good[0]), b"\0")
    images.write({disk: first for disk in good})
    refused(setting, images, b"images of the first layout")
    narrow = [setting.encoded(noise(500, seed), 3, 2, 16) for seed in (1, 2)]
    for disk in (0, 1):
        narrow[0].path(disk).write_bytes(narrow[1].path(disk).read_bytes())
    refused(setting, narrow[0], b"images of two whole sets")
    for words in (["info"], ["check"], ["repair"], ["rebuild"], ["decode"]):
        more = [setting.new()] if words == ["decode"] else []
        setting.call(*words, setting.new(), *more, status=4)
        setting.call(*words, images.path(0), *more, status=4)
    return "5 folders, 6 commands each"


def odd_labels(setting):
    """Labels with a right sum that no set has: not believed."""
    images = small(setting)
    good = images.images()
    lines = good[0][:LABEL].rstrip(b"\0").decode().splitlines()[:-1]
    expect(label_block(lines) == good[0][:LABEL], "the label is not as the manual has it")
    changes = ["cuzhaveli image 3", "set x", "set " + "g" * 32, "disk 7", "disk -1", "width 9", "disks 6", "cell 0", "cell 4097", "unit 0",
               "unit 3", "unit 4096", "group 0", "group 5", "group 65538", "stripes 10", "stripes 18446744073709551615", "length 0",
               "length 18446744073709551615", "length 281474976710657", "width 05", "unit 18446744073709551615"]
    for change in changes:
        name = change.split()[0]
        changed = [change if line.split()[0] == name else line for line in lines]
        block = label_block(changed)
        images.path(0).write_bytes(block + good[0][LABEL:-LABEL] + block)
        done = setting.told("info", images.folder, status=1)
        expect(done["lost"] == [0] and b"disk-00.img has damaged labels" in done.err, f"{change}: {done.told()}")
    for change in changes:  # all labels: no set, no crash, nothing of that size taken
        name = change.split()[0]
        for disk, image in good.items():
            own = [f"disk {disk}" if line.startswith("disk ") else line for line in lines]
            block = label_block([change if line.split()[0] == name else line for line in own])
            images.path(disk).write_bytes(block + image[LABEL:-LABEL] + block)
        expect(setting.call("decode", images.folder, setting.new()).status == 5, f"{change} in all labels")
    return f"{len(changes)} labels"


def large_labels(setting):
    """Labels of a huge set on small images: the lengths are compared when images are opened."""
    images = small(setting)
    for disk in range(images.disks):
        lines = [f"cuzhaveli image 2", images.lines[1], f"disk {disk}", "width 31", "disks 31", "cell 4096", "unit 8", "group 65536",
                 "stripes 71507379", "length 281474976710656"]
        lines[8] = f"stripes {-(-(1 << 48) // (31 * 31 * 4096))}"
        images.path(disk).write_bytes(label_block(lines) + bytes(8192))
    for words in (["decode", images.folder, setting.new()], ["check", images.folder], ["repair", images.folder], ["rebuild", images.folder]):
        done = setting.call(*words, status=5)
    return "4 commands"


def lost_disks(setting):
    """A disk is lost if its image is missing, empty, short, unfinished, or named; these are rebuilt without a word more."""
    images = small(setting)
    good = images.images()
    cases = (b"", good[2][:-1], good[2] + b"\0", good[2][:LABEL], images.label(2, "part") + good[2][LABEL:])
    for content in cases:
        images.path(2).write_bytes(content)
        done = setting.told("info", images.folder, status=1)
        expect(done["lost"] == [2] and b"it counts as lost" in done.err, done.told())
        expect(setting.film(images) == FILM, f"{content[:20]}..: another film")
        setting.call("rebuild", images.folder, status=0)
        expect(images.images() == good, f"{content[:20]}..: other images")
    stands(setting, images, 3, "rebuild", "--disk", 7, images.folder, says=b"--disk 7: the array has no disk of that number, or no data disk (refusal 3)")
    stands(setting, images, 0, "rebuild", images.folder)
    return f"{len(cases)} sorts of lost disks"


def nothing_overwritten(setting):
    """encode and decode leave what is there, links too, and take away what they cannot finish."""
    images = small(setting)
    film = setting.new()
    film.write_bytes(noise(1000))
    stands(setting, images, 4, "encode", "-p", 5, film, images.folder, says=b"is there already")
    stands(setting, images, 4, "encode", "-p", 3, film, images.folder, says=b"disk-05.img is there already")
    images.lose(0, 1, 2)
    stands(setting, images, 4, "encode", "-p", 5, film, images.folder, says=b"disk-03.img is there already")
    other = small(setting)
    setting.call("decode", other.folder, film, status=4)
    expect(film.read_bytes() == noise(1000), "decode wrote over a film")
    out = setting.new()
    part = out.with_name(out.name + ".part")
    part.write_bytes(b"mine")
    setting.call("decode", other.folder, out, status=4)
    expect(part.read_bytes() == b"mine" and not out.exists(), "decode wrote over a part")
    setting.call("decode", other.folder, setting.scratch, status=4)
    stands(setting, other, 4, "encode", "-p", 5, setting.new(), other.folder / "new", says=b"No such file")
    setting.call("encode", "-p", 5, setting.scratch, setting.new(), status=4)
    return "8 calls"


def outside(setting):
    """Links, hard links and pipes in the place of a part are not written through, and not waited for."""
    precious = setting.new()
    for kind in ("symlink", "hardlink", "fifo", "folder", "symlink to nothing"):
        images = small(setting)
        precious.write_bytes(b"precious")
        images.lose(1)
        part = images.part(1)
        make = {"symlink": lambda: part.symlink_to(precious), "hardlink": lambda: os.link(precious, part), "fifo": lambda: os.mkfifo(part),
                "folder": part.mkdir, "symlink to nothing": lambda: part.symlink_to(precious.with_suffix(".gone"))}
        make[kind]()
        done = setting.call("rebuild", images.folder, status=5)
        expect(b"is not of this rebuild" in done.err and precious.read_bytes() == b"precious", done.told())
        expect(not precious.with_suffix(".gone").exists() and not images.path(1).exists(), f"{kind}: written outside")
        folder = setting.new()
        folder.mkdir()
        shutil.move(part, folder / "disk-02.img.part")
        source = images.path(0)
        done = setting.call("encode", "-p", 3, source, folder, status=4)
        expect(precious.read_bytes() == b"precious" and len(list(folder.iterdir())) == 1, f"{kind}: {done.told()}")
    images = small(setting)
    images.lose(2)
    os.mkfifo(images.path(2))
    expect(setting.film(images) == FILM, "a pipe in an image's place")
    stands(setting, images, 5, "rebuild", images.folder, says=b"neither a file nor a drive")
    images.path(2).unlink()
    images.path(2).symlink_to("/dev/zero")
    expect(setting.film(images) == FILM, "a device in an image's place")
    done = setting.told("judge", "-p", 5, "-d", 1, "/dev/zero", status=1)
    expect(done["refusal"] == 22, done.told())
    # a link that leads nowhere, as to a drive that is not attached now, is not replaced by a file
    images.path(2).unlink()
    images.path(2).symlink_to("/dev/not-attached-now")
    expect(setting.film(images) == FILM, "a link that leads nowhere")
    stands(setting, images, 5, "rebuild", images.folder, says=b"disk-02.img is a link that leads nowhere")
    expect(images.path(2).is_symlink() and not images.part(2).exists(), "a link that leads nowhere was replaced")
    pipe = setting.new()
    os.mkfifo(pipe)
    for words in (["rebuild", pipe], ["repair", pipe], ["encode", "-p", 5, images.path(0), pipe], ["check", pipe], ["info", pipe],
                  ["decode", pipe, setting.new()]):
        try:
            done = subprocess.run([setting.program, *map(str, words)], capture_output=True, timeout=10)
        except subprocess.TimeoutExpired:
            expect(False, f"{words[0]} waits for a pipe")
        expect(done.returncode == 4 and b"Not a directory" in done.stderr, f"{words[0]} of a pipe: {done}")
    target = images.path(3).rename(setting.new())
    images.path(3).symlink_to(target)
    images.path(2).unlink()
    setting.call("rebuild", images.folder, status=0)
    images.flip(3, images.offset(0, 0))
    before = target.read_bytes()
    setting.call("repair", images.folder, status=4)
    expect(target.read_bytes() == before, "repair wrote through a link to a file")
    return "20 links, pipes and devices"


def exchanged(setting, moment, path, *words):
    """A call during which another program puts a file of its own at a path: its status."""
    traced, seen = Traced(setting, *words), 0
    for name, first, second, _ in traced.calls():
        if name == moment or moment == "rename" and name == "renameat2":
            if seen == 0 and path.exists():
                path.rename(path.with_suffix(".aside"))
                path.write_bytes(b"not ours")
            seen += 1
    expect(seen > 0, f"no {moment} in {words}")
    return traced.status


def held(path):
    return path.read_bytes() if path.exists() else None


def exchanged_parts(setting):
    """A part that another program exchanges gets no name; at the last moment it may, and that is told. It is not removed."""
    if not can_trace(setting):
        return "left out: no tracing on this machine"
    images = small(setting)
    good = images.images()
    for moment in ("fsync", "rename"):
        images.lose(1)
        status = exchanged(setting, moment, images.part(1), "rebuild", images.folder)
        expect(status == 4, f"rebuild, exchanged at {moment}: status {status}")
        named = images.path(1) if moment == "rename" else images.part(1)
        expect(held(named) == b"not ours" and images.path(1).exists() == (moment == "rename"), f"rebuild, exchanged at {moment}")
        named.unlink()
        images.part(1).with_suffix(".aside").unlink()
        setting.call("rebuild", images.folder, status=0)
        expect(images.images() == good, "other images")
        out = setting.new()
        part = out.with_name(out.name + ".part")
        status = exchanged(setting, moment, part, "decode", images.folder, out)
        expect(status == 4 and out.exists() == (moment == "rename"), f"decode, exchanged at {moment}: status {status}")
        expect(held(out if moment == "rename" else part) == b"not ours", f"decode, exchanged at {moment}: another's file is gone")
    return "4 exchanges"


def parts(setting):
    """A part that is foreign is refused; one that is cut, stale or spoiled is gone on with to the same bytes."""
    images, other = small(setting), small(setting, noise(3000, 3))
    good = images.images()
    images.lose(1)
    for content in (other.path(1).read_bytes(), b"mine", noise(LABEL), good[2], images.label(2, "part") + good[2][LABEL:]):
        images.part(1).write_bytes(content)
        stands(setting, images, 5, "rebuild", images.folder, says=b"is not of this rebuild")
    mark = images.label(1, "part")
    spoiled = bytearray(mark + good[1][LABEL:])
    for unit in (1, 3):
        spoiled[images.offset(2 * unit, 2)] ^= 1
    block = bytearray(mark + good[1][LABEL:])
    block[images.block(2)] ^= 1
    fill = bytearray(mark + good[1][LABEL:])
    fill[images.start(1)[0] - 1] ^= 1
    cases = [(mark, 0), (mark[:LABEL] + bytes(images.image_bytes() - LABEL), 0), (b"", 0), (bytes(100), 0), (mark + good[1][LABEL:], 9),
             (bytes(spoiled), 5), (bytes(block), 7), (bytes(fill), 7), (mark + good[1][LABEL:images.block(2)], 4), (mark + other.path(1).read_bytes()[LABEL:], 0),
             (good[1], 9), (mark + good[1][LABEL:] + bytes(500), 9)]
    for content, kept in cases:
        images.part(1).write_bytes(content)
        done = setting.told("rebuild", images.folder)
        expect(images.images() == good, f"a part of {len(content)} bytes, {kept} stripes good: other images")
        expect((done["kept"], done["stripes"]) == (kept, 9 - kept), f"{kept} kept expected: {done.told()}")
        images.lose(1)
    return f"{5 + len(cases)} parts"


def locked(setting):
    """A second program keeps out while one writes."""
    images = small(setting)
    images.lose(2)
    folder = os.open(images.folder, os.O_RDONLY)
    fcntl.flock(folder, fcntl.LOCK_EX)
    for words in (["rebuild", images.folder], ["repair", images.folder], ["encode", "-p", 5, images.path(0), images.folder]):
        stands(setting, images, 4, *words, says=b"another cuzhaveli")
    stands(setting, images, 0, "rebuild", "-n", images.folder)
    os.close(folder)
    setting.call("rebuild", images.folder, status=0)
    return "5 calls"


CHECKS = [strangers, no_set, odd_labels, large_labels, lost_disks, nothing_overwritten, outside, exchanged_parts, parts, locked]
