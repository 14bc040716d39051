"""Disks on file systems of their own: apart, unmounted, full."""

import os
import shutil
import subprocess

from harness import noise
from shelf import expect, package_of, sealed

FILM = noise(300_000, 7)


class Mounts:
    """Small file systems in memory, mounted in the places of a store's disks, unmounted at the end."""

    def __init__(self, setting, count, size="2m"):
        self.setting, self.folder, self.size, self.mounted = setting, setting.new(), size, []
        for disk in range(count):
            self.path(disk).mkdir(parents=True)

    def path(self, disk):
        return self.folder / f"disk-{disk:02}"

    def mount(self, disk, more="", place=None):
        options = f"size={self.size}{more}"
        done = subprocess.run(["mount", "-t", "tmpfs", "-o", options, "none", place or self.path(disk)], capture_output=True)
        if done.returncode == 0:
            self.mounted.append(place or self.path(disk))
        return done.returncode == 0

    def move(self, disk, place):
        """Mounts a disk's file system somewhere else."""
        place.mkdir()
        subprocess.run(["mount", "--bind", self.path(disk), place], check=True)
        self.mounted.append(place)
        self.unmount(disk)

    def unmount(self, disk):
        subprocess.run(["umount", self.path(disk)], check=True)
        self.mounted.remove(self.path(disk))

    def __enter__(self):
        return self

    def __exit__(self, *_):
        for place in self.mounted:
            subprocess.run(["umount", "--lazy", place], check=False, capture_output=True)


def with_mounts(check):
    """Leaves a check out where nothing can be mounted."""
    def checked(setting):
        if os.geteuid() != 0 or not shutil.which("mount"):
            return "left out: this user mounts nothing"
        with Mounts(setting, 5) as mounts:
            if not all(mounts.mount(disk) for disk in range(5)):
                return "left out: no file system can be mounted"
            setting.call("create", "-p", 3, "-s", 64, mounts.folder, status=0)
            return check(setting, mounts)
    checked.__name__ = check.__name__
    return checked


@with_mounts
def unmounted(setting, mounts):
    """An unmounted disk's folder is empty and is not written; a new disk is one on a device of its own."""
    film, store = setting.new(), mounts.folder
    film.write_bytes(FILM)
    setting.call("put", store, "a", film, status=0)
    place = setting.new()
    mounts.move(3, place)
    done = setting.told("put", store, "b", film)
    expect(done["lacks"] == [3] and b"is its disk mounted?" in done.err, done.told())
    done = setting.call("rebuild", "--new", 3, store, status=4)
    expect(b"no disk is mounted there" in done.err and not list(mounts.path(3).iterdir()), done.told())
    mounts.mount(3)
    done = setting.call("rebuild", store, status=1)
    expect(not list(mounts.path(3).iterdir()), f"an empty disk is taken unnamed: {done.told()}")
    done = setting.told("rebuild", "--new", 3, "--from", place, store)
    expect(done["images"] == 2 and done["lacks"] == [], done.told())
    setting.call("check", store, status=0)
    subprocess.run(["mount", "--bind", mounts.path(0), mounts.path(1)], check=True)
    mounts.mounted.append(mounts.path(1))
    done = setting.call("list", store, status=0)
    expect(b"is disk 0 of this store, in another place" in done.err, done.told())
    subprocess.run(["umount", mounts.path(1)], check=True)
    mounts.unmount(4)
    mounts.path(4).rmdir()
    (mounts.path(0) / "sub").mkdir()
    for name in ("disk", "catalogue"):
        shutil.copy(mounts.path(1) / name, mounts.path(0) / "sub" / name)
    text = (mounts.path(1) / "disk").read_bytes().splitlines()[:-1]
    (mounts.path(0) / "sub" / "disk").write_bytes(sealed([b"disk 4" if line == b"disk 1" else line for line in text]))
    mounts.path(4).symlink_to(mounts.path(0) / "sub")
    done = setting.call("list", store, status=5)
    expect(b"disks 0 and 4 are on one device" in done.err, done.told())
    return "6 views"


@with_mounts
def full_disks(setting, mounts):
    """What does not fit is refused before a byte is written, by bytes and by inodes; removing makes room."""
    film, big, store = setting.new(), setting.new(), mounts.folder
    film.write_bytes(noise(1_500_000))
    big.write_bytes(noise(5_000_000))
    setting.call("put", store, "a", film, status=0)
    before = [package_of(mounts.path(disk)) for disk in range(5)]
    stamps = [(mounts.path(disk) / "disk").stat().st_mtime_ns for disk in range(5)]
    done = setting.told("put", "-n", store, "b", big, status=1)
    expect(not done["fits"] and b"does not fit" in done.err, done.told())
    done = setting.call("put", store, "b", big, status=1)
    expect(b"does not fit" in done.err and done.out == b"", done.told())
    expect([package_of(mounts.path(disk)) for disk in range(5)] == before, "a put that does not fit wrote something")
    expect([(mounts.path(disk) / "disk").stat().st_mtime_ns for disk in range(5)] == stamps, "a put that does not fit was promised")
    setting.call("put", store, "a", film, status=0)
    (mounts.path(2) / "mine").write_bytes(bytes(600_000))
    done = setting.call("put", store, "b", film, status=0)
    done = setting.call("put", store, "c", film, status=1)
    expect(b"disk 2 has" in done.err and b"disk 1 has" not in done.err, done.told())
    setting.call("remove", store, "a", status=0)
    setting.call("put", store, "c", film, status=0)
    mounts.unmount(1)
    mounts.mount(1, ",nr_inodes=10")
    setting.call("rebuild", "--new", 1, store, status=0)
    many = setting.new()
    many.mkdir()
    for number in range(20):
        (many / str(number)).write_bytes(b"x")
    mounts.unmount(4)
    mounts.mount(4, ",nr_blocks=64")
    done = setting.call("rebuild", "--new", 4, store, status=1)
    expect(b"it does not fit" in done.err and not list(mounts.path(4).glob("*.img")), done.told())
    mounts.unmount(4)
    mounts.mount(4)
    setting.call("rebuild", "--new", 4, store, status=0)
    setting.call("remove", store, "b", status=0)
    done = setting.call("put", store, "d", many, status=1)
    expect(b"disk 1 has" in done.err and b"files free" in done.err and b"disk 0" not in done.err, done.told())
    setting.call("check", store, status=0)
    return "bytes and inodes"


CHECKS = [unmounted, full_disks]
