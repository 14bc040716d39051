"""Stores and sets mounted by `cuzhaveli mount`, which starts cuzhaveli-fuse."""

import contextlib
import errno
import os
import pathlib
import random
import shutil
import signal
import subprocess
import threading
import time

from films import AGAIN, kept, kill, losses, without
from harness import expect, noise
from shelf import Shelf, package_of

SERVERS = ["build/cuzhaveli-fuse"]


def lacks():
    """What is not there that mounting needs; nothing if all is."""
    if not shutil.which("pkg-config"):
        return "pkg-config"
    if subprocess.run(["pkg-config", "--exists", "fuse3"], capture_output=True).returncode != 0:
        return "libfuse3-dev"
    if not shutil.which("fusermount3"):
        return "fuse3"
    return "" if os.access("/dev/fuse", os.R_OK | os.W_OK) else "/dev/fuse that can be opened"


@contextlib.contextmanager
def mounted(setting, place, *options, name=""):
    """A place mounted, until the block ends."""
    point = setting.new() / name
    point.mkdir(parents=True)
    setting.call("mount", *options, place, point, status=0, stdout=subprocess.DEVNULL, stderr=subprocess.DEVNULL)
    expect(os.path.ismount(point), f"{point} is not mounted")
    try:
        yield point
    finally:
        for _ in range(50):
            if subprocess.run(["fusermount3", "-u", str(point)], capture_output=True).returncode == 0:
                break
            time.sleep(0.1)
        expect(not os.path.ismount(point), f"{point} is still mounted")


def helper_of(point):
    """The number of the process that serves a point."""
    for path in os.listdir("/proc"):
        with contextlib.suppress(OSError, ValueError):
            words = open(f"/proc/{int(path)}/cmdline", "rb").read().split(b"\0")
            if words[0].endswith(b"cuzhaveli-fuse") and os.fsencode(point) in words:
                return int(path)
    return None


def error_of(call):
    """The name of the error of a call; none if it works."""
    try:
        call()
    except OSError as error:
        return errno.errorcode[error.errno]
    return None


def read_at(path, offset, length):
    """Bytes of a file, past what the kernel keeps of it."""
    file = os.open(path, os.O_RDONLY)
    try:
        os.posix_fadvise(file, 0, 0, os.POSIX_FADV_DONTNEED)
        return os.pread(file, length, offset)
    finally:
        os.close(file)


def packages(setting, shelf):
    """Two packages in a store, as files."""
    first = [(b"film", noise(900_001)), (b"subs/de.xml", b"de"), (b"subs/old/en 100%\xff", noise(5000)), (b"empty", b"")]
    second = [(b"film", noise(70_000, 2))]
    shelf.put("feature", first)
    shelf.put("trailer", second)
    return {b"feature/" + name: content for name, content in first} | {b"trailer/" + name: content for name, content in second}


def mounted_with_every_loss(setting):
    shelf = Shelf(setting, 5, 5, 512, 4, 8)
    wanted = tuple(sorted(packages(setting, shelf).items()))
    views = losses(7)
    for lost in views:
        with mounted(setting, shelf.view(away=lost)) as point:
            expect(package_of(point) == wanted, f"lost {lost}: other files, or other bytes")
            expect(sorted(os.listdir(point)) == ["feature", "trailer"], "the packages")
    film = kept(setting, 2_000_000)
    images = setting.encoded_file(film, 7)
    with mounted(setting, without(setting, images, (0, 3))) as point:
        expect(os.listdir(point) == ["film"], "the film of a bare set")
        expect((point / "film").read_bytes() == film.read_bytes(), "the film of a bare set")
    return f"{len(views)} losses of up to two disks, every file alike; a bare set"


def mounted_replaced(setting):
    """A bare set that is replaced while it is mounted is not taken for the film that is shown."""
    films = [kept(setting, 700_000), setting.new()]
    films[1].write_bytes(films[0].read_bytes()[::-1] * 2)
    first, second = (setting.encoded_file(film, 5).folder for film in films)
    with mounted(setting, first) as point:
        expect((point / "film").read_bytes() == films[0].read_bytes(), "the film")
        for path in first.iterdir():
            path.unlink()
        for path in second.iterdir():
            shutil.copy(path, first)
        for wait in (3, 1):  # until nobody has it open, and then without what the kernel keeps
            time.sleep(wait)
            found = error_of(lambda: (point / "film").read_bytes()) or (point / "film").read_bytes()
            expect(found in (films[0].read_bytes(), "EIO", "ESTALE"), "bytes of another film")
            pathlib.Path("/proc/sys/vm/drop_caches").write_text("3")
    return "another set is not shown"


def mounted_on_itself(setting):
    """A mount over the store, below it or above one of its disks is refused: it would wait for itself."""
    shelf = Shelf(setting, 3, 3, 64)
    packages(setting, shelf)
    view = shelf.view()
    below = shelf.folder / "below"
    below.mkdir()
    for place, point in ((shelf.folder, shelf.folder), (shelf.folder, below), (view, shelf.drives[0].parent)):
        done = setting.call("mount", place, point, status=4)
        expect(b"give another folder for POINT" in done.err, done.told())
    below.rmdir()
    return "three points"


def mounted_twice(setting):
    """A second mount on one point is refused, since it would hide the first; so is one where the first was killed."""
    shelf = Shelf(setting, 3, 3, 64)
    packages(setting, shelf)

    def refused(point):
        done = setting.call("mount", shelf.folder, point, status=4)
        expect(b"is mounted already" in done.err, done.told())

    with mounted(setting, shelf.folder, name="two words") as point:
        refused(point)
        os.kill(helper_of(point), signal.SIGKILL)
        until = time.monotonic() + 10
        while error_of(lambda: os.listdir(point)) != "ENOTCONN" and time.monotonic() < until:
            time.sleep(0.05)
        refused(point)
    with mounted(setting, shelf.folder, name="two words") as point:  # and is taken once the first has ended
        expect(sorted(os.listdir(point)) == ["feature", "trailer"], "the packages")
    return "a point with a space in its name"


def mounted_read_only(setting):
    shelf = Shelf(setting, 3, 3, 64)
    packages(setting, shelf)
    with mounted(setting, shelf.folder, "--cache", "1M") as point:
        film = point / "feature/film"
        for call in (lambda: os.open(film, os.O_RDWR), lambda: os.unlink(film), lambda: os.mkdir(point / "new"),
                     lambda: os.rename(film, point / "feature/other"), lambda: os.truncate(film, 0),
                     lambda: os.open(point / "feature/new", os.O_WRONLY | os.O_CREAT)):
            expect(error_of(call) == "EROFS", "something could be written")
        expect(error_of(lambda: os.stat(point / "feature/none")) == "ENOENT", "a name that is not there")
        data = film.stat()
        expect((data.st_size, data.st_mode & 0o777) == (900_001, 0o444), "length and mode")
        expect(read_at(film, 900_000, 100) == noise(900_001)[-1:], "the last byte")
    done = setting.call("mount", shelf.folder, setting.scratch / "none")
    expect(done.status == 4, done.told())
    done = setting.call("mount", setting.scratch, point)
    expect(done.status == 5 and not os.path.ismount(point), done.told())
    return "nothing can be written, and nothing is mounted where there is no store or no point"


def mounted_beside_changes(setting):
    """Names follow the catalogue; a file that is open keeps its bytes, whatever the kernel has of its name."""
    shelf = Shelf(setting, 5, 5, 512, 4, 8)
    packages(setting, shelf)
    old, new = noise(900_001), noise(900_001, 7)
    with mounted(setting, shelf.folder, "--cache", "1M") as point:
        path = point / "feature/film"
        with open(path, "rb", buffering=0) as film:
            expect(film.read(100_000) == old[:100_000], "before")
            shelf.put("feature", [(b"film", new)])
            shelf.put("late", [(b"film", b"late")])
            time.sleep(AGAIN + 1)
            expect((point / "late/film").read_bytes() == b"late", "a package that came")
            expect(path.read_bytes() == new, "the new film by the same name")
            expect(error_of(lambda: os.stat(point / "feature/subs")) == "ENOENT", "a folder that went")
            expect(os.pread(film.fileno(), 900_001, 0) == old, "the old film, open since")
            shelf.call("remove", shelf.folder, "feature", status=0)
            time.sleep(AGAIN + 1)
            expect(error_of(path.read_bytes) == "ENOENT" and sorted(os.listdir(point)) == ["late", "trailer"], "removed")
            os.posix_fadvise(film.fileno(), 0, 0, os.POSIX_FADV_DONTNEED)
            expect(os.pread(film.fileno(), 900_001, 0) == old, "the old film, removed since")
    return "put, replaced and removed beside it"


def mounted_third_loss(setting):
    """EIO for the pages that need a third disk; the others come."""
    film = noise(2_000_000)
    shelf = Shelf(setting, 5, 5, 4096, 8, 8)
    shelf.put("a", [(b"film", film)])
    counts = {None: 0, "EIO": 0}
    with mounted(setting, shelf.view(away=(0, 1, 3))) as point:
        for page in random.Random(1).sample(range(2_000_000 // 4096), 120):
            disk, got = page // 5 % 5, []
            error = error_of(lambda: got.append(read_at(point / "a/film", page * 4096, 4096)))
            expect(error == ("EIO" if disk in (0, 1, 3) else None), f"page {page} of disk {disk}: {error}")
            expect(error or got[0] == film[page * 4096:(page + 1) * 4096], f"page {page} is WRONG")
            counts[error] += 1
    return f"of 120 pages {counts[None]} right and {counts['EIO']} EIO, each as it must be"


def mounted_signals(setting):
    """A signal unmounts, also while a file is open."""
    shelf = Shelf(setting, 3, 2, 64)
    packages(setting, shelf)
    for number in (signal.SIGTERM, signal.SIGINT, signal.SIGHUP):
        point = setting.new()
        point.mkdir()
        setting.call("mount", shelf.folder, point, status=0, stdout=subprocess.DEVNULL, stderr=subprocess.DEVNULL)
        file = os.open(point / "feature/film", os.O_RDONLY) if number == signal.SIGTERM else None
        os.kill(helper_of(point), number)
        until = time.monotonic() + 10
        while (os.path.ismount(point) or helper_of(point)) and time.monotonic() < until:
            time.sleep(0.05)
        expect(not os.path.ismount(point) and not helper_of(point), f"signal {number}: still mounted")
        with contextlib.suppress(OSError, TypeError):
            os.close(file)  # nobody is there to hear of it
        expect(os.listdir(point) == [], "something is left")
    return "unmounted by three signals"


def mounted_by_fstab(setting):
    """The words that mount(8) hands on for a line of fstab."""
    if os.getuid() != 0 or not shutil.which("mount.fuse3"):
        return "left out: no root or no mount.fuse3"
    shelf, point = Shelf(setting, 3, 3, 64), setting.new()
    point.mkdir()
    wanted = tuple(sorted(packages(setting, shelf).items()))
    environment = {**os.environ, "PATH": f"{setting.program.parent}:{os.environ['PATH']}"}
    words = ["mount.fuse3", str(shelf.folder), str(point), "-t", "fuse.cuzhaveli-fuse", "-o", "ro,allow_other,nofail,cache=1000000"]
    subprocess.run(words, env=environment, check=True)
    try:
        line = next(line for line in open("/proc/mounts") if f" {point} " in line)
        expect({"ro", "allow_other", "nosuid", "nodev"} <= set(line.split()[3].split(",")), f"mounted so: {line}")
        expect(package_of(point) == wanted, "other files, or other bytes")
    finally:
        subprocess.run(["umount", str(point)], check=True)
    return "mounted and unmounted as by mount(8)"


def mounted_while_rebuilt(setting):
    """Played in order by two readers, at random by two, while two disks are lost, replaced and rebuilt, and two others go."""
    shelf = Shelf(setting, 5, 5, 4096, 8, 8)
    content = noise(12_000_000)
    shelf.put("a", [(b"film", content)])
    found, ended, total = [], threading.Event(), [0] * 4

    def play(path, number):
        rand, at = random.Random(number), 0
        while not ended.is_set():
            length = rand.randrange(1, 400_000)
            at = at % len(content) if number < 2 else rand.randrange(len(content))
            try:
                if read_at(path, at, length) != content[at:at + length]:
                    found.append(f"WRONG bytes at {at}")
            except OSError as error:
                found.append(f"at {at}: {error}")
            at, total[number] = at + length, total[number] + length

    with mounted(setting, shelf.folder, "--cache", "8M") as point:
        threads = [threading.Thread(target=play, args=(point / "a/film", number)) for number in range(4)]
        [thread.start() for thread in threads]
        for disk in (1, 4):
            for image in shelf.drives[disk].glob("*.img"):
                kill(image)
            shutil.rmtree(shelf.drives[disk])
            shelf.drives[disk].mkdir()
            time.sleep(0.3)
        shelf.call("rebuild", "--new", 1, "--new", 4, shelf.folder, status=0)
        time.sleep(AGAIN)
        for disk in (0, 6):
            for image in shelf.drives[disk].glob("*.img"):
                kill(image)
        time.sleep(AGAIN)
        ended.set()
        [thread.join() for thread in threads]
    expect(not found, f"{len(found)} reads: {found[:3]}")
    return f"four readers, {sum(total)} bytes alike while disks 1 and 4 were rebuilt and 0 and Q lost"


def mounted_file_system(setting):
    """An ext4 file system in a store, mounted from there with two disks gone."""
    loop = subprocess.run(["losetup", "-f"], capture_output=True, text=True)
    if os.getuid() != 0 or loop.returncode != 0 or not shutil.which("mkfs.ext4"):
        return "left out: no root, loop devices or mkfs.ext4"
    source, image, inside = setting.new(), setting.new(), setting.new()
    inside.mkdir()
    source.mkdir()
    for number in range(20):
        (source / f"{number}").write_bytes(noise(1000 + 40_000 * number, number))
    with open(image, "wb") as file:
        file.truncate(24 << 20)
    subprocess.run(["mkfs.ext4", "-q", "-F", "-d", str(source), str(image)], check=True)
    images = setting.encoded_file(image, 5)
    with mounted(setting, without(setting, images, (1, 3))) as point:
        words = ["mount", "-o", "ro,noload,loop", str(point / "film"), str(inside)]
        if subprocess.run(words, capture_output=True).returncode != 0:
            return "left out: no loop device can be had"
        try:
            wanted, found = package_of(source), [one for one in package_of(inside) if not one[0].startswith(b"lost+found")]
            expect(list(wanted) == found, "other files in the ext4 file system")
        finally:
            subprocess.run(["umount", str(inside)], check=True)
    return "20 files of an ext4 file system in a set, two disks gone, alike"


CHECKS = [mounted_with_every_loss, mounted_replaced, mounted_on_itself, mounted_twice, mounted_read_only, mounted_beside_changes,
          mounted_third_loss, mounted_signals, mounted_by_fstab, mounted_while_rebuilt, mounted_file_system]
