"""The rules of a store: how many disks must agree, which disk is believed, what a change leaves out and takes away."""

import fcntl
import os
import shutil

from harness import noise
from shelf import REFUSED, Shelf, expect, found, out_of, put_on, sealed

OLD = ((b"film", noise(700, 1)), (b"subs/x", noise(40, 2)))
NEW = ((b"film", noise(333, 3)),)


def too_few_disks(setting):
    """Fewer than R catalogues: nothing is believed; fewer than W disks: nothing is changed."""
    for p, k in ((3, 2), (3, 3), (5, 4)):
        shelf = Shelf(setting, p, k)
        shelf.put("a", OLD)
        for seen in range(shelf.count + 1):
            view = shelf.view(range(seen, shelf.count))
            shelf.call("list", view, status=0 if seen >= shelf.readers else 5)
            before = shelf.state()
            shelf.call("remove", view, "b", status=1 if seen >= shelf.readers else 5)
            if seen < shelf.writers:
                shelf.put("b", NEW, view, status=5)
                shelf.call("remove", view, "a", status=5)
                expect(shelf.state() == before, f"k {k}: changed with {seen} disks")
            found = shelf.get("a", view)
            expect(found == (OLD if seen >= max(k, shelf.readers) else REFUSED), f"k {k}, {seen} disks: {str(found)[:50]}")
            if shelf.readers <= seen < k:
                to = setting.new()
                done = shelf.call("get", view, "a", to, status=5)
                left = [path.name for path in to.parent.iterdir() if path.name.startswith(to.name)]
                expect(b"cuzhaveli mount" in done.err and not left, f"{left} is left of a package of which all is lost: {done.told()}")
    return "3 stores, any number of disks"


def stale_disks(setting):
    """A disk that was away is told and not believed, and is brought up to date by a rebuild."""
    shelf = Shelf(setting, 3, 3)
    shelf.put("a", OLD)
    shelf.put("a", NEW, shelf.view([1, 4]))
    done = shelf.call("list", shelf.folder, status=0)
    expect(done.err.count(b"is stale: generation 2, and 3 counts") == 2, done.told())
    for away in ((), (0,), (2,), (0, 2), (0, 2, 3)):  # three disks have the new images
        got = shelf.get("a", shelf.view(away))
        expect(got == (REFUSED if away else NEW), f"without {away}: {str(got)[:60]}")
        if len(away) < 3:
            listed = shelf.told("list", shelf.view(away))["packages"]
            expect(listed == [{"name": "a", "files": 1, "length": 333}], f"without {away} a stale catalogue counts: {listed}")
    done = shelf.told("check", shelf.folder, status=1)
    expect(found(done, "stale") == [(1, 2), (4, 2)] and found(done, "missing") == [("a/film", 1), ("a/film", 4)], done.told())
    expect(b"cuzhaveli rebuild" in done.err, done.told())
    done = shelf.told("rebuild", shelf.folder)
    expect(done["images"] == 2 and done["lacks"] == [] and done["done"], done.told())
    shelf.call("check", shelf.folder, status=0)
    before = shelf.state()
    done = shelf.told("rebuild", shelf.folder)
    expect(done["images"] == 0 and shelf.state() == before, "a rebuild of nothing changed something")
    for lost in ((0, 2), (1, 4), (3, 1)):
        expect(shelf.get("a", shelf.view(lost)) == NEW, f"without {lost}")
    return "two disks"


def left_out(setting):
    """A disk whose catalogue cannot be replaced is told; images that it still names stay until no catalogue does."""
    shelf = Shelf(setting, 3, 3)
    shelf.put("a", OLD)
    old = shelf.images(0)
    put_on("catalogue.new", shelf.drives[2])
    done = shelf.put("a", NEW)
    expect(done["lacks"] == [2] and b"disk 2 lacks the change" in done.err, done.told())
    for disk in range(shelf.count):
        expect(old <= shelf.images(disk), f"disk {disk}: images went that the catalogue of disk 2 names")
    expect(shelf.get("a") == NEW, "the change does not stand")
    out_of("catalogue.new", shelf.drives[2])
    shelf.call("rebuild", shelf.folder, status=0)
    for disk in range(shelf.count):
        expect(not old & shelf.images(disk) and len(shelf.images(disk)) == 1, f"disk {disk} keeps {shelf.images(disk)}")
    put_on("disk.new", shelf.drives[2])
    done = shelf.put("b", NEW)
    expect(done["lacks"] == [2] and b"disk 2 is left out" in done.err, done.told())
    out_of("disk.new", shelf.drives[2])
    shelf.call("rebuild", shelf.folder, status=0)
    shelf.call("check", shelf.folder, status=0)
    return "a catalogue and a promise"


def unsure(setting):
    """Too few disks take the catalogue: status 7, and the same command once more settles it."""
    for p, k in ((3, 2), (3, 3)):
        shelf = Shelf(setting, p, k)
        shelf.put("a", OLD)
        for disk in (0, 1, 2):
            put_on("catalogue.new", shelf.drives[disk])
        done = shelf.put("a", NEW, status=7)
        expect(b"it may stand or not; run it again" in done.err and done.out == b"", done.told())
        expect(shelf.get("a") in (OLD, NEW), "neither the old nor the new")
        for disk in (0, 1, 2):
            out_of("catalogue.new", shelf.drives[disk])
        expect(shelf.get("a") in (OLD, NEW), "neither the old nor the new")
        done = shelf.told("check", shelf.folder, status=1)
        expect(done["found"] and b"cuzhaveli rebuild" in done.err, f"disks that differ are not told: {done.told()}")
        shelf.put("a", NEW)
        expect(shelf.get("a") == NEW and len(shelf.images(0)) == 1, "not settled")
        for disk in (0, 1, 2):
            put_on("disk.new", shelf.drives[disk])
        done = shelf.put("a", OLD, status=4)
        expect(b"nothing is changed" in done.err, done.told())
        for disk in (0, 1, 2):
            out_of("disk.new", shelf.drives[disk])
        expect(shelf.get("a") == NEW, "changed without a promise on enough disks")
    return "2 stores"


def other_places(setting):
    """Drives in other places, of another store, or in two: known, told, and left out of a change."""
    shelf, other = Shelf(setting, 3, 3), Shelf(setting, 3, 3)
    shelf.put("a", OLD)
    other.put("a", NEW)
    drives, foreign = shelf.drives, other.state()
    cases = [({**drives, 0: drives[1], 1: drives[0]}, b"is disk 1 of this store, in another place", [0, 1]),
             ({**drives, 3: drives[4]}, b"is disk 4 of this store, in another place", [3]),
             ({**drives, 2: other.drives[2]}, b"not of this one", [2]),
             ({**drives, 2: other.drives[2], 3: other.drives[3]}, b"not of this one", [2, 3])]
    for places, says, lack in cases:
        view = shelf.view(places=places)
        expect(shelf.get("a", view) == OLD, f"{says}: another package")
        done = shelf.put("b", NEW, view)
        expect(says in done.err and done["lacks"] == lack, done.told())
        expect(other.state() == foreign, "a disk of another store was written")
        shelf.call("rebuild", shelf.folder, status=0)
        shelf.call("check", shelf.folder, status=0)
    narrow = [Shelf(setting, 3, 2), Shelf(setting, 3, 2)]
    mixed = {disk: narrow[disk // 2].drives[disk] for disk in range(4)}
    done = shelf.call("list", shelf.view(places=mixed), status=5)
    expect(b"disks of two stores" in done.err, done.told())
    return f"{len(cases) + 1} views"


def new_disks(setting):
    """A new disk is taken if it is named and empty, gone on with after a cut, and read from an old drive first."""
    shelf = Shelf(setting, 5, 4)
    shelf.put("a", OLD)
    shelf.put("b", NEW)
    good, old = shelf.state(), shelf.drives[1]
    shelf.drives[1] = shelf.drive()
    view = shelf.view()
    done = shelf.call("rebuild", view, status=1)
    expect(b"disk 1 still to be rebuilt" in done.err and b"--new DISK" in done.err, done.told())
    expect(not any(shelf.drives[1].iterdir()), "an empty folder was written that was not named")
    (shelf.drives[1] / "mine").write_bytes(b"mine")
    done = shelf.call("rebuild", "--new", 1, view, status=4)
    expect(b"is not empty: mine" in done.err and len(list(shelf.drives[1].iterdir())) == 1, done.told())
    (shelf.drives[1] / "mine").unlink()
    shelf.call("rebuild", "--new", 6, view, status=3)
    done = shelf.told("rebuild", "-n", "--new", 1, view)
    expect(done["images"] == 3 and not done["done"] and not any(shelf.drives[1].iterdir()), done.told())
    done = shelf.told("rebuild", "--new", 1, "--rates", "1000,5,1", view)
    by_plan = done["read"]
    expect(done["cents"] == setting.told("bill", "--rates", "1000,5,1", "--bytes", by_plan)["cents"], done.told())
    images = lambda state: {name: data for name, data in state.items() if name.endswith(".img")}
    expect(images(shelf.state()[1]) == images(good[1]), "other images")
    shelf.drives[1] = shelf.drive()
    name = sorted(images(good[1]))[0]
    spoiled = bytearray((old / name).read_bytes())
    spoiled[4096 + 3] ^= 1
    (old / name).write_bytes(spoiled)
    done = shelf.told("rebuild", "--new", 1, "--from", old, shelf.view())
    read = done["read"]
    expect(done["mended"] == 1, done.told())
    expect(images(shelf.state()[1]) == images(good[1]), "other images from an old drive")
    expect(read < by_plan, f"{read} bytes were read with the old drive, {by_plan} without")
    shelf.call("check", shelf.view(), status=0)
    return "with and without the old drive"


def locked(setting):
    """A second program keeps out while one changes the store; reading needs no lock."""
    shelf = Shelf(setting, 3, 3)
    shelf.put("a", OLD)
    folder = os.open(shelf.folder, os.O_RDONLY)
    fcntl.flock(folder, fcntl.LOCK_EX)
    before = shelf.state()
    done = shelf.put("a", NEW, status=4)
    expect(b"another cuzhaveli" in done.err, done.told())
    for words in (["remove", shelf.folder, "a"], ["rebuild", shelf.folder], ["repair", shelf.folder]):
        shelf.call(*words, status=4)
    expect(shelf.get("a") == OLD and shelf.state() == before, "changed under another's lock")
    os.close(folder)
    shelf.call("remove", shelf.folder, "a", status=0)
    return "4 commands"


def needed_parts(setting):
    """A part with a bad first block, which film needs since two other disks are bad, is read by get and not removed by a rebuild."""
    shelf = Shelf(setting, 3, 3)
    shelf.put("a", NEW)
    (name,) = shelf.images(0)
    part = shelf.drives[0] / f"{name}.part"
    (shelf.drives[0] / name).rename(part)
    for path, at in ((part, 100), (shelf.drives[1] / name, 4096), (shelf.drives[2] / name, 4096)):
        held = bytearray(path.read_bytes())
        held[at] ^= 255
        path.write_bytes(held)
    kept = part.read_bytes()
    expect(shelf.get("a") == NEW, "the part is not read")
    done = shelf.call("rebuild", shelf.folder)
    expect(done.status != 0 and part.read_bytes() == kept, f"the part is taken away: {done.told()}")
    expect(shelf.get("a") == NEW, "film that could be read before the rebuild is lost")
    return "one part"


def damaged_files(setting):
    """Bad images, catalogues and `disk` files: nothing wrong is believed, check tells, repair and rebuild mend."""
    shelf = Shelf(setting, 3, 3)
    shelf.put("a", OLD)
    good = shelf.state()
    image = max(shelf.images(2), key=lambda name: len(good[2][name]))
    for disk, name, at in ((2, image, 4096), (2, image, 5), (1, "catalogue", 30), (0, image, 4100)):
        data = bytearray((shelf.drives[disk] / name).read_bytes())
        data[at] ^= 4
        (shelf.drives[disk] / name).write_bytes(data)
    expect(shelf.get("a") == OLD, "a damaged store gives another package")
    done = shelf.told("check", "--rate", "100M", shelf.folder, status=1)
    expect(found(done, "stale") == [(1, 0)] and len(found(done, "bad")) == 2 and found(done, "label") == [("a/film", 2, "first")], done.told())
    shown = shelf.call("check", shelf.folder, status=1).out
    expect(b"Disk 1 is stale\na/film: Disk 2: the first label is bad\n" in shown and b": 0 lost, 1 stale, 0 missing, 3 bad, " in shown, shown)
    done = shelf.told("repair", "--rate", "100M", shelf.folder)
    expect(done["catalogues"] == 1 and done["pieces"] == 2 and done["labels"] == 1, done.told())
    shelf.call("check", shelf.folder, status=0)
    images = lambda state: {disk: {name: data for name, data in files.items() if ".img" in name} for disk, files in state.items()}
    expect(images(shelf.state()) == images(good), "other images after a repair")
    for content in (b"", b"x" * 5000, good[1]["disk"].replace(b"disk 1", b"disk 2")):
        (shelf.drives[1] / "disk").write_bytes(content)
        done = shelf.told("info", shelf.folder, status=1)
        expect(done["lost"] == [1] and done["each"][1]["state"] == "lost" and shelf.get("a") == OLD, done.told())
    os.unlink(shelf.drives[1] / "disk")
    os.mkfifo(shelf.drives[1] / "disk")
    expect(shelf.get("a") == OLD, "a pipe in the place of `disk`")
    view = shelf.view([1])
    os.mkfifo(view / "disk-01")
    expect(shelf.get("a", view) == OLD, "a pipe in the place of a disk")
    return "bytes of images, labels, catalogues and disk files"


def hostile_catalogues(setting):
    """Catalogues with a right sum that no store has: names that lead elsewhere, too much of anything: not believed."""
    shelf = Shelf(setting, 3, 2)
    shelf.put("a", OLD)
    lines = (shelf.drives[0] / "catalogue").read_bytes().splitlines()[:-1]
    film = next(line for line in lines if line.endswith(b" film"))
    expect(sealed(lines) == (shelf.drives[0] / "catalogue").read_bytes(), "the catalogue is not as the manual has it")
    changes = [(film, film.replace(b" film", b" " + name)) for name in (b"../film", b"/film", b"a/../b", b".", b"", b"f%2e", b"%2E%2E/x", b"a b")]
    changes += [(b"package a", b"package " + name) for name in (b"..", b"a/b", b"%61", b"")]
    changes += [(b"width 3", b"width 4"), (b"unit 2", b"unit 0"), (b"disks 2", b"disks 9"), (b"cell 16", b"cell 0"),
                (film, film.replace(b" 700 ", b" 281474976710657 ")), (film, film.replace(b" 700 ", b" 0 ")), (b"package a", b"file - 0 x")]
    for old, new in changes:
        expect(old in lines, f"{old} is no line")
        text = sealed([new if line == old else line for line in lines])
        for drive in shelf.drives.values():
            (drive / "catalogue").write_bytes(text)
        shelf.call("list", shelf.folder, status=5)
        expect(shelf.get("a") == REFUSED, f"{new} was believed")
    for drive in shelf.drives.values():
        (drive / "catalogue").unlink()
        (drive / "catalogue").symlink_to("/dev/zero")
    shelf.call("list", shelf.folder, status=5)
    return f"{len(changes)} catalogues and a device"


def two_of_one_generation(setting):
    """Two different catalogues of the generation that counts: refused."""
    shelf = Shelf(setting, 3, 3)
    shelf.put("a", OLD)
    state = shelf.state()
    shelf.put("b", NEW)
    one = shelf.state()
    shelf.restore(state)
    shelf.put("c", NEW)
    for disk in (0, 1):
        shelf.restore({disk: one[disk]})
    done = shelf.call("list", shelf.folder, status=5)
    expect(b"two different catalogues of generation 3" in done.err, done.told())
    return "one store"


def creation(setting):
    """`create` wants empty folders that are apart; one that was cut off is created anew."""
    shelf = Shelf(setting, 3, 2)
    shelf.call("create", "-p", 3, "-k", 2, "--same-device", shelf.folder, status=4)
    folder = setting.new()
    shelf.call("create", "-p", 3, folder, status=4)
    shelf.call("create", "-p", 4, "--same-device", folder, status=3)
    shelf.call("create", "-p", 3, "--same-device", folder, status=0)
    for name in ("film", "0" * 32 + ".img"):
        other = setting.new()
        (other / "disk-01").mkdir(parents=True)
        (other / "disk-01" / name).write_bytes(b"mine")
        done = shelf.call("create", "-p", 3, "--same-device", other, status=4)
        expect(b"is not empty" in done.err and not (other / "disk-00" / "disk").exists(), done.told())
    begun = setting.new()
    shutil.copytree(folder, begun)
    for disk in (0, 1, 2, 3):
        (begun / f"disk-{disk:02}" / "catalogue").unlink()
    shelf.call("create", "-p", 3, "--same-device", begun, status=0)
    shelf.call("put", begun, "a", shelf.files(OLD), status=0)
    twice = {disk: shelf.drive() for disk in range(5)}
    twice[3] = twice[1]
    done = shelf.call("create", "-p", 3, "--same-device", shelf.view(places=twice), status=4)
    expect(b"are on one device" in done.err, done.told())
    shelf.call("create", "-p", 3, shelf.view(places={disk: shelf.drive() for disk in range(5)}), status=4)
    return "8 calls"


CHECKS = [too_few_disks, stale_disks, left_out, unsure, other_places, new_disks, locked, damaged_files, needed_parts, hostile_catalogues,
          two_of_one_generation, creation]
