"""Drives: written only if they are named or marked as this set and disk, by nobody else at that time, each for one disk."""

import os
import shutil
import subprocess

from harness import LABEL, Set, Traced, can_trace, expect, noise

FILM = noise(100_000)


class Loops:
    """Loop devices over files in the scratch folder, detached at the end."""

    def __init__(self, setting):
        self.setting, self.names = setting, []

    def __enter__(self):
        return self

    def __exit__(self, *_):
        for name in self.names:
            subprocess.run(["losetup", "--detach", name], check=False, capture_output=True)

    def new(self, size, *options):
        """A drive of zeros; none if no loop device can be had."""
        backing = self.setting.new(self.setting.on_disk)
        backing.write_bytes(b"")
        os.truncate(backing, size)
        made = subprocess.run(["losetup", "--find", "--show", *options, backing], capture_output=True, text=True)
        if made.returncode != 0:
            return None
        self.names.append(made.stdout.strip())
        return made.stdout.strip()


def with_drives(check):
    """Leaves a check out where there are no loop devices."""
    def checked(setting):
        if os.geteuid() != 0 or not shutil.which("losetup"):
            return "left out: no loop devices for this user"
        with Loops(setting) as loops:
            if loops.new(4096) is None:
                return "left out: no loop device can be had"
            return check(setting, loops)
    checked.__name__ = check.__name__
    return checked


def content(drive, length=None):
    with open(drive, "rb") as file:
        return file.read(length)


def put(drive, at, data):
    with open(drive, "r+b") as file:
        file.seek(at)
        file.write(data)
        file.flush()
        os.fsync(file.fileno())


def linked(images, disk, drive):
    """The disk's image is a link to a drive from now on."""
    images.path(disk).unlink(missing_ok=True)
    images.path(disk).symlink_to(drive)


def small(setting):
    images = setting.encoded(FILM, 3, s=512, unit=8, group=16, where=setting.on_disk)
    return images, images.images()


@with_drives
def rebuilt_drives(setting, loops):
    """A rebuild onto a drive: only if it is named, or marked or labelled as this set and disk."""
    images, good = small(setting)
    size = images.image_bytes()
    drive = loops.new(size + 8192)
    linked(images, 2, drive)
    setting.call("info", images.folder, status=1)
    for blank in (bytes(size), noise(size), bytes(LABEL) + noise(size - LABEL)):
        put(drive, 0, blank)
        done = setting.call("rebuild", images.folder, status=5)
        expect(b"--overwrite" in done.err and content(drive, size) == blank, f"a drive that is not named was written: {done.told()}")
    setting.call("rebuild", "--overwrite", images.path(3), images.folder, status=4)  # no drive
    setting.call("rebuild", "--overwrite", drive, images.folder, status=0)
    expect(images.path(2).is_symlink() and content(drive, size) == good[2], "other bytes on the drive")
    setting.call("check", images.folder, status=0)
    # cut off: marked, so that the same command goes on; a label of another disk or set is no mark
    put(drive, 0, images.label(2, "part"))
    put(drive, images.offset(3, 0), bytes(512))
    done = setting.told("rebuild", images.folder, status=0)
    expect(content(drive, size) == good[2] and done["kept"] == images.stripes - 8, done.told())
    setting.call("rebuild", "--disk", 2, images.folder, status=0)
    for block in (images.label(1), images.label(1, "part"), images.label(2, "part").replace(images.set[:8].encode(), b"00000000")):
        put(drive, 0, block)
        put(drive, images.end(), block)
        before = content(drive)
        setting.call("rebuild", images.folder, status=5)
        expect(content(drive) == before, "a drive with another's label was written")
    linked(images, 2, loops.new(size - 4096))
    done = setting.call("rebuild", "--overwrite", images.path(2), images.folder, status=4)
    expect(b"are needed" in done.err, done.told())
    return "10 rebuilds"


@with_drives
def foreign_drives(setting, loops):
    """A rebuild cut off on one drive, a link that leads to another after a reboot: each goes on with what verifies on it."""
    images, good = small(setting)
    size = images.image_bytes()
    first, second = loops.new(size), loops.new(size)
    linked(images, 1, first)
    setting.call("rebuild", "--overwrite", first, images.folder, status=0)
    put(first, 0, images.label(1, "part"))
    put(first, images.offset(20, 0), noise(images.end() - images.offset(20, 0)))  # as if it had been begun
    put(first, images.offset(2, 1), noise(100))  # and a piece whose checksums are right
    linked(images, 1, second)
    before = content(second)
    setting.call("rebuild", images.folder, status=5)
    expect(content(second) == before, "a drive to which a link leads was overwritten")
    put(second, 0, images.label(1, "part"))
    for drive in (second, first):
        linked(images, 1, drive)
        setting.call("rebuild", images.folder, status=0)
        expect(content(drive) == good[1], "a drive was gone on with by what is not on it")
    expect(setting.film(images) == FILM, "another film")
    return "2 drives"


@with_drives
def encoded_drives(setting, loops):
    """encode onto drives: all must be named, no two may be one, and a failed one leaves no label."""
    size = small(setting)[0].image_bytes()
    drives = [loops.new(size + 4096 * disk) for disk in range(5)]
    folder, film = setting.new(), setting.new()
    folder.mkdir()
    film.write_bytes(FILM)
    words = ["encode", "-p", 3, "-s", 512, "-u", 8, "-g", 16]
    paths = [folder / f"disk-{disk:02}.img" for disk in range(5)]
    for path, drive in zip(paths, drives):
        path.symlink_to(drive)
        put(drive, 0, bytes(LABEL) + b"precious")
    named = [word for drive in drives for word in ("--overwrite", drive)]
    for some in ([], named[:-2], named[2:]):
        done = setting.call(*words, *some, film, folder, status=5)
        expect(all(content(drive, LABEL + 8).endswith(b"precious") for drive in drives), f"a drive was written: {done.told()}")
    for path in paths[:4]:
        path.unlink()
        path.symlink_to(drives[0])
    done = setting.call(*words, *named, film, folder)
    expect(done.status in (4, 5) and content(drives[0], LABEL + 8).endswith(b"precious"), f"one drive four times: {done.told()}")
    for path, drive in zip(paths, drives):
        path.unlink()
        path.symlink_to(drive)
    done = setting.call(*words, *named, drives[3], folder, status=5)
    expect(content(drives[3], LABEL + 8).endswith(b"precious"), f"a film was overwritten by its own image: {done.told()}")
    setting.call(*words, *named, film, folder, status=0)
    images = Set(folder)
    expect(setting.film(images) == FILM, "another film")
    setting.call("check", folder, status=0)
    for disk, drive in enumerate(drives):
        expect(content(drive)[:LABEL] == images.label(disk) == content(drive)[images.end():][:LABEL], f"disk {disk} has other labels")
    before = [content(drive, size) for drive in drives]
    done = setting.call(*words, *named, "-", folder, input=noise(500_000), status=4)
    expect(all(content(drive, 17) == b"cuzhaveli part 2\n" for drive in drives), "an encode that failed left labels")
    for drive, image in zip(drives, before):
        put(drive, 0, image)
    images.flip(1, images.offset(3, 1))
    setting.call("repair", folder, status=0)
    expect([content(drive, size) for drive in drives] == before, "repair gave other bytes on drives")
    put(drives[1], 0, bytes(LABEL))  # as if another use of the drive had begun; its last label is still there
    setting.call("repair", folder, status=5)
    setting.call("repair", "--overwrite", drives[1], folder, status=0)
    expect([content(drive, size) for drive in drives] == before, "repair gave other bytes on a drive")
    return "5 drives, 10 calls"


@with_drives
def drives_in_use(setting, loops):
    """A mounted file system, and a partition of a drive that is another disk's, are not written, even if named."""
    images, good = small(setting)
    told = []
    drive, mount = loops.new(16 << 20), setting.new()
    mount.mkdir()
    made = subprocess.run(["mkfs.ext4", "-q", "-F", drive], capture_output=True) if shutil.which("mkfs.ext4") else None
    if made and made.returncode == 0 and subprocess.run(["mount", drive, mount], capture_output=True).returncode == 0:
        try:
            (mount / "precious").write_bytes(b"precious")
            linked(images, 1, drive)
            for words in (["rebuild", "--overwrite", drive, images.folder], ["decode", "--overwrite", drive, images.folder, drive]):
                done = setting.call(*words, status=4)
                expect(b"has this drive" in done.err, done.told())
            setting.call("rebuild", images.folder, status=4)
            folder, film = setting.new(), setting.new()
            folder.mkdir()
            film.write_bytes(FILM)
            (folder / "disk-02.img").symlink_to(drive)
            for named in ([], ["--overwrite", drive]):
                done = setting.call("encode", "-p", 3, *named, film, folder, status=4)
                expect(b"has this drive" in done.err and len(list(folder.iterdir())) == 1, done.told())
        finally:
            subprocess.run(["umount", mount], check=True)
        subprocess.run(["mount", drive, mount], check=True)
        expect((mount / "precious").read_bytes() == b"precious", "a mounted file system was written to")
        subprocess.run(["umount", mount], check=True)
        told.append("a mounted drive")
    images.write({1: good[1]}) if not images.path(1).is_symlink() else (images.path(1).unlink(), images.write({1: good[1]}))
    whole = loops.new(16 << 20)
    # an MBR with one partition, from sector 2048 on
    put(whole, 446, bytes([0, 0, 0, 0, 0x83, 0, 0, 0]) + (2048).to_bytes(4, "little") + (8192).to_bytes(4, "little"))
    put(whole, 510, b"\x55\xaa")
    subprocess.run(["partx", "-a", whole], capture_output=True)
    part = whole + "p1"
    if os.path.exists(part):
        for first, second in ((part, whole), (whole, part)):
            linked(images, 1, first)
            linked(images, 2, second)
            before = content(whole)
            done = setting.call("rebuild", "--overwrite", part, "--overwrite", whole, images.folder)
            expect(done.status in (4, 5) and content(whole) == before, f"a drive and its partition: {done.told()}")
            images.path(2).unlink()
            images.write({2: good[2]})
        linked(images, 1, part)
        setting.call("rebuild", "--overwrite", part, images.folder, status=0)
        linked(images, 2, whole)
        done = setting.call("rebuild", "--overwrite", whole, images.folder, status=5)
        expect(b"lead to one drive" in done.err and setting.film(images) == FILM, f"a survivor's drive: {done.told()}")
        subprocess.run(["partx", "-d", whole], capture_output=True)
        told.append("a partition")
    lacking = {"a mounted drive": "no file system can be mounted", "a partition": "no partition can be had"}
    setting.left_out += [why for what, why in lacking.items() if told and what not in told]
    return " and ".join(told) or "left out: no file system can be mounted, no partition be had"


@with_drives
def decoded_drives(setting, loops):
    """decode to a drive: only if it is named, long enough and free."""
    images, _ = small(setting)
    drive = loops.new(1 << 20)
    put(drive, 0, b"precious")
    setting.call("decode", images.folder, drive, status=5)
    expect(content(drive, 8) == b"precious", "decode wrote to a drive that was not named")
    setting.call("decode", "--overwrite", drive, images.folder, drive, status=0)
    expect(content(drive, len(FILM)) == FILM, "another film on the drive")
    setting.call("decode", "--overwrite", loops.new(4096), images.folder, drive, status=5)
    little = loops.new(8192)
    setting.call("decode", "--overwrite", little, images.folder, little, status=4)
    expect(content(little) == bytes(8192), "a film was begun on a drive that is too short for it")
    # where film cannot be made right, zeros: what was on the drive is no film
    put(drive, 0, b"precious" * (len(FILM) // 8 + 1))
    for disk in (0, 1, 2):
        images.flip(disk, images.offset(images.unit, 0))
        images.flip(disk, images.offset(images.unit, 1))
        images.flip(disk, images.offset(images.unit, 2))
    done = setting.call("decode", "--overwrite", drive, images.folder, drive, status=6)
    unit = images.unit * images.k * images.p * images.s
    expect(content(drive, len(FILM)) == FILM[:unit] + bytes(unit) + FILM[2 * unit:], f"other bytes in a gap: {done.told()}")
    expect(f"has gaps of {unit} bytes of zeros".encode() in done.err, done.told())
    return "5 calls"


@with_drives
def drive_order(setting, loops):
    """On a drive: the mark, a sync; cells and checksums, a sync; the labels, a sync."""
    if not can_trace(setting):
        return "left out: no tracing on this machine"
    images, good = small(setting)
    drive = loops.new(images.image_bytes())
    linked(images, 0, drive)
    traced, seen = Traced(setting, "rebuild", "--overwrite", drive, images.folder), []
    for name, file, _, length in traced.calls():
        if name in ("pwrite64", "fsync") and traced.opened(file) == drive:
            seen.append("sync" if name == "fsync" else "block" if length == LABEL and seen.count("block") == 0 else length)
    expect(traced.status == 0 and content(drive) == good[0], f"the rebuild ended with {traced.status}")
    expect(seen[:2] == ["block", "sync"] and seen[-4:] == ["sync", LABEL, LABEL, "sync"], f"the drive saw {seen}")
    expect(seen.count("sync") == 3, f"the drive saw {seen}")
    return f"{len(seen)} writes and syncs"


def threads(setting, *words):
    """The threads that a call begins, and its status."""
    traced, seen = Traced(setting, *words), 0
    while traced.status is None:
        traced.step()
        seen += traced.status is None and traced.registers()[15] in (56, 435)  # clone, clone3: entry and exit
    return seen // 2, traced.status


@with_drives
def drives_alone(setting, loops):
    """Where each image has a drive of its own, check asks all of them at once, and finds and repairs what is bad on each."""
    film = noise(6 << 20)
    images = setting.encoded(film, 5, s=1000, group=40, where=setting.on_disk)  # rows begin anywhere in a block
    good, on_files = images.images(), threads(setting, "check", images.folder)[0] if can_trace(setting) else 0
    drives = {disk: loops.new(images.image_bytes()) for disk in good}
    if None in drives.values():
        return "left out: not enough loop devices"
    for disk, drive in drives.items():
        put(drive, 0, good[disk])
        linked(images, disk, drive)
    if not can_trace(setting):
        setting.left_out.append("no tracing on this machine")
    else:
        begun, status = threads(setting, "check", images.folder)
        # two for each drive but the first one's, where files of one device have four in all
        expect(status == 0 and begun >= on_files + (2 * len(drives) - 4), f"{begun} threads for drives, {on_files} for files: {status}")
    for disk in drives:
        images.flip(disk, images.offset(disk * images.unit, disk % images.p) + 1)
    told = setting.told("check", images.folder, status=1)
    seen = [(one["disk"], one["stripe"] // images.unit) for one in told["found"]]
    expect(sorted(seen) == [(disk, disk) for disk in drives] and told["cached"] == [], told.told())
    setting.call("repair", images.folder, status=0)
    expect({disk: content(drive) for disk, drive in drives.items()} == good, "repair left other bytes on the drives")
    return f"{len(drives)} drives"


CHECKS = [rebuilt_drives, foreign_drives, encoded_drives, drives_in_use, decoded_drives, drive_order, drives_alone]
