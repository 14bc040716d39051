"""What is left of lost disks: a part, a drive under rebuild, an image that is named or has bad labels. What of it fits its
checksums counts where nothing else is left, and is never written again."""

import itertools

from drives import FILM, content, linked, put, small, with_drives
from harness import LABEL, Traced, can_trace, expect, noise


def spoil(images, disk, unit, *rows):
    for row in rows:
        images.flip(disk, images.offset(unit * images.unit, row) + 3)


def left_of_disks(setting):
    """Disk 1 counts as lost, but its cells stand somewhere; disk 2 is lost and disk 3 bad: the film, and every image, come back."""
    film = noise(5 * 5 * 512 * 12 - 5)
    images = setting.encoded(film, 5, s=512, group=4, unit=2)
    good = images.images()
    end = images.end()
    bad_labels = bytearray(good[1])
    bad_labels[3], bad_labels[end + 3] = 0, 0
    cases = [("a part", images.part(1), images.label(1, "part") + good[1][LABEL:], []), ("a part with labels", images.part(1), good[1], []),
             ("a short image", images.path(1), good[1][:-1], []), ("a marked image", images.path(1), images.label(1, "part") + good[1][LABEL:], []),
             ("bad labels", images.path(1), bytes(bad_labels), ["--disk", 1]), ("a named image", images.path(1), good[1], ["--disk", 1])]
    for what, path, image, words in cases:
        images.write({disk: good[disk] for disk in range(images.disks) if disk not in (1, 2)})
        for disk in (1, 2):
            images.path(disk).unlink(missing_ok=True)
        path.write_bytes(image)
        for unit in range(images.units()):
            spoil(images, 3, unit, *range(images.p))
        expect(setting.film(images) == film, f"{what}: another film, or none")
        done = setting.call("check", images.folder, status=1)
        expect(b"beyond" not in done.out.replace(b", 0 beyond repair", b""), f"{what}: {done.told()}")
        setting.call("rebuild", *words, images.folder, status=0)
        expect({disk: images.path(disk).read_bytes() for disk in (1, 2)} == {1: good[1], 2: good[2]}, f"{what}: other images")
        setting.call("repair", images.folder, status=0)
        expect(images.state() == {images.path(disk).name: image for disk, image in good.items()}, f"{what}: something is left")
    # the checksums too, and what is wrong in what is left is not taken
    images.lose(1, 2)
    part = bytearray(images.label(1, "part") + good[1][LABEL:])
    part[images.offset(4, 2)] ^= 1
    images.part(1).write_bytes(part)
    for disk in (0, 3, 4, 5, 6):
        images.flip(disk, images.block(0))
    spoil(images, 3, 2, *range(images.p))
    done = setting.told("rebuild", images.folder, status=6)
    expect(done["beyond"] == [{"stripe": 4, "count": 2, "disks": [1, 2, 3]}] and done["gaps"] == 2, done.told())
    expect(images.part(1).exists() and images.part(2).exists() and not images.path(1).exists(), "an image with a gap got its name")
    expect(images.part(1).read_bytes()[images.block(0):images.block(0) + 8] == good[1][images.block(0):images.block(0) + 8], "a part was spoiled")
    images.path(3).write_bytes(good[3])
    setting.call("rebuild", images.folder, status=0)
    setting.call("repair", images.folder, status=0)
    expect(images.images() == good, "other images")
    return f"{len(cases) + 1} sets"


def writes(setting, drive, *words):
    """The places of a drive that a call writes, and its status."""
    traced, places = Traced(setting, *words), []
    for name, file, _, length in traced.calls():
        if name == "pwrite64" and traced.opened(file) == drive:
            places.append((traced.registers()[7], length))
    return places, traced.status


@with_drives
def named_drives(setting, loops):
    """rebuild --disk of a good drive: it is not written; what it has counts; and a bad piece of it alone is written."""
    if not can_trace(setting):
        return "left out: no tracing on this machine"
    images, good = small(setting)
    drive = loops.new(images.image_bytes())
    put(drive, 0, good[1])
    linked(images, 1, drive)
    images.lose(2)
    for unit in range(images.units()):
        spoil(images, 3, unit, 0, 1, 2)
    expect(setting.film(images) == FILM, "another film, or none")
    places, status = writes(setting, drive, "rebuild", "--disk", 1, images.folder)
    expect((places, status) == ([], 0), f"a good drive was written: {places}, status {status}")
    expect(content(drive) == good[1] and images.path(2).read_bytes() == good[2], "other images")
    # three disks bad in unit 1: that unit alone is beyond, and the drive stays what it is
    images.lose(2)
    images.lose(4)
    places, status = writes(setting, drive, "rebuild", "--disk", 1, images.folder)
    expect((places, status) == ([], 5) and content(drive) == good[1], f"three disks lost: {places}, status {status}")
    images.write({3: good[3], 4: good[4]})
    spoil(images, 3, 1, 0, 1, 2)
    spoil(images, 4, 1, 0, 1, 2)
    setting.call("decode", images.folder, setting.new(), status=6)
    places, status = writes(setting, drive, "rebuild", "--disk", 1, images.folder)
    expect((places, status) == ([], 6) and content(drive) == good[1], f"beyond repair: {places}, status {status}")
    expect(images.part(2).exists() and not images.path(2).exists(), "an image with a gap got its name")
    setting.call("decode", images.folder, setting.new(), status=6)
    # nor is the film written over what is left of a disk
    put(drive, 0, images.label(1, "part"))
    done = setting.call("decode", "--overwrite", drive, images.folder, drive, status=5)
    expect(b"lead to one drive" in done.err and content(drive)[LABEL:] == good[1][LABEL:], done.told())
    put(drive, 0, good[1][:LABEL])
    # a bad piece of the drive: it alone is written, between mark and labels
    images.write({3: good[3], 4: good[4]})
    images.part(2).unlink()
    at = images.offset(images.unit, 2)
    put(drive, at, bytes([good[1][at] ^ 4]))
    spoil(images, 3, 1, 0)
    piece = (at, images.unit * images.s)
    places, status = writes(setting, drive, "rebuild", "--disk", 1, images.folder)
    expect((places, status) == ([(0, LABEL), piece, (images.end(), LABEL), (0, LABEL)], 0), f"{places}, status {status}")
    expect(content(drive) == good[1] and images.path(2).read_bytes() == good[2], "other images")
    return "4 rebuilds"


@with_drives
def tested_first(setting, loops):
    """All drives are tested before the first byte is written: of a repair, a rebuild and an encode."""
    images, good = small(setting)
    drive, short, other = loops.new(images.image_bytes()), loops.new(8192), loops.new(images.image_bytes())
    put(drive, 0, good[2])
    linked(images, 2, drive)
    put(drive, 0, bytes(LABEL))
    images.flip(0, 5)
    images.flip(4, images.end() + 5)
    before = images.state()
    done = setting.call("repair", images.folder, status=5)
    expect(images.state() == before and content(drive, LABEL) == bytes(LABEL), f"written before a drive was refused: {done.told()}")
    setting.call("repair", "--overwrite", drive, images.folder, status=0)
    expect(content(drive) == good[2] and images.path(0).read_bytes() == good[0], "other images")
    for first, second in ((2, 3), (3, 2)):
        for named, status in (([drive, short], 4), ([drive], 5)):
            for disk in (2, 3):
                images.path(disk).unlink()
            linked(images, first, drive)
            put(drive, 0, b"precious".ljust(images.image_bytes(), b"\0"))
            linked(images, second, short)
            words = itertools.chain.from_iterable(("--overwrite", name) for name in named)
            done = setting.call("rebuild", *words, images.folder, status=status)
            expect(content(drive, 8) == b"precious", f"marked before another drive was refused: {done.told()}")
    for disk in (2, 3):
        images.path(disk).unlink()
    linked(images, 3, short)
    done = setting.call("rebuild", images.folder, status=5)
    expect(not images.part(2).exists(), f"a part was made before a drive was refused: {done.told()}")
    images.path(3).unlink()
    images.part(3).write_bytes(b"mine")
    done = setting.call("rebuild", images.folder, status=5)
    expect(not images.part(2).exists(), f"a part was made before another was refused: {done.told()}")
    folder, film = setting.new(), setting.new()
    folder.mkdir()
    film.write_bytes(FILM)
    put(other, 0, b"precious")
    (folder / "disk-00.img").symlink_to(other)
    (folder / "disk-01.img").symlink_to(short)
    setting.call("encode", "-p", 3, "-s", 512, "--overwrite", other, "--overwrite", short, film, folder, status=4)
    expect(content(other, 8) == b"precious", "a drive was marked before another was found too short")
    return "9 calls"


CHECKS = [left_of_disks, named_drives, tested_first]
