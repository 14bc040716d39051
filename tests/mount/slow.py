"""Drives that are slow or do not answer: delays are injected below the programs, by slow/delay.c."""

import contextlib
import os
import pathlib
import shutil
import subprocess
import time

from films import Player, kept
from harness import expect, noise
from shelf import Shelf

HERE = pathlib.Path(__file__).absolute().parent


def built(setting):
    """The library that delays calls."""
    path = setting.new()
    words = [os.environ.get("CC", "cc"), "-O1", "-std=gnu11", "-Wall", "-Wextra", "-Werror", "-shared", "-fPIC", "-o", str(path), str(HERE / "slow/delay.c"), "-ldl"]
    subprocess.run(words, check=True)
    return path


def delays(shim, paths, ms, flag, calls="pread,stat,open", count=None):
    """The environment of a program whose calls on some paths are delayed while a file is there."""
    words = {"LD_PRELOAD": shim, "DELAY_CALLS": calls, "DELAY_PATHS": ",".join(paths), "DELAY_MS": ms, "DELAY_FLAG": flag}
    return {**os.environ, **{name: str(value) for name, value in words.items()}, **({"DELAY_COUNT": str(count)} if count else {})}


@contextlib.contextmanager
def slowed(setting, shim, store, point, paths, ms, flag, *options, calls="pread,stat,open", count=None):
    """A store mounted by the helper, below which calls are delayed; the helper, with what it says."""
    words = [str(setting.program.with_name("cuzhaveli-fuse")), str(store), str(point), "-f", *options]
    said = setting.new()
    with open(said, "wb") as to:
        helper = subprocess.Popen(words, env=delays(shim, paths, ms, flag, calls, count), stderr=to)
    try:
        for _ in range(200):
            if os.path.ismount(point):
                break
            time.sleep(0.05)
        expect(os.path.ismount(point), f"not mounted: {said.read_text()}")
        yield said
    finally:
        flag.unlink(missing_ok=True)
        subprocess.run(["fusermount3", "-u", "-z", str(point)], capture_output=True)
        helper.wait(timeout=60)


def counted(path):
    """How many calls were delayed so far."""
    return path.stat().st_size if path.exists() else 0


@contextlib.contextmanager
def slow_player(setting, film, images, disks, ms):
    """A player of a set, some of whose drives take their time once the flag is there; the flag, and where calls are counted."""
    flag, count, shim = setting.new(), setting.new(), built(setting)
    kept_environment = dict(os.environ)
    os.environ.update(delays(shim, [f"disk-{disk:02}.img" for disk in disks], ms, flag, "pread", count))
    try:
        player = Player(setting, film, images.folder, limit=4 << 20)
    finally:
        os.environ.clear()
        os.environ.update(kept_environment)
    try:
        with player:
            yield player, flag, count
    finally:
        flag.unlink(missing_ok=True)


def slow_drives(setting):
    """Two drives of seven are slow: all comes, and they are asked for little of it."""
    film, total, most = kept(setting, 12_000_000), 0, 0
    images = setting.encoded_file(film, 5)
    for disks in [(0, 1), (2, 4), (3, 5), (1, 6), (5, 6)]:
        with slow_player(setting, film, images, disks, 300) as (player, flag, count):
            flag.touch()
            total += player.right("all 300000", f"disks {disks} are slow")
            total += player.right("random 1 60 5000 4", f"disks {disks} are slow")
            asked = counted(count)
        expect(asked <= 40, f"disks {disks} are slow, and were asked {asked} times")
        most = max(most, asked)
    return f"5 pairs of slow drives: {total} bytes alike; a pair was asked {most} times at most"


def slow_drives_come_back(setting):
    """Drives that answer in time again are read: two others can go."""
    film = kept(setting, 6_000_000)
    images = setting.encoded_file(film, 5)
    with slow_player(setting, film, images, (1, 2), 400) as (player, flag, _):
        flag.touch()
        player.right("all 100000", "two are slow")
        flag.unlink()
        until = time.monotonic() + 6
        while time.monotonic() < until:
            player.right("all 100000", "they answer again")
            time.sleep(0.2)
        for disk in (0, 4):
            path = images.folder / f"disk-{disk:02}.img"
            os.truncate(path, 0)
            path.unlink()
        total = player.right("all 100000", "two others are lost") + player.right("random 1 100 5000 4", "two others are lost")
    return f"two slow drives, well again, and two others lost: {total} bytes alike"


def three_slow_drives(setting):
    """Where too few answer in time, those that are late are waited for."""
    film = kept(setting, 2_000_000)
    images = setting.encoded_file(film, 5)
    with slow_player(setting, film, images, (0, 2, 3), 500) as (player, flag, _):
        flag.touch()
        total = player.right("all 1000000", "three are slow") + player.right("random 1 4 5000 2", "three are slow")
    return f"three slow drives: {total} bytes alike"


def store_of(setting, width, names, length):
    """A store in memory with the same film in some packages."""
    store, film = setting.new(), setting.new()
    store.mkdir(), film.mkdir()
    setting.call("create", "-p", width, "--same-device", store, status=0)
    (film / "film").write_bytes(noise(length))
    for name in names:
        setting.call("put", "-q", store, name, film, status=0)
    point, flag = setting.new(), setting.new()
    point.mkdir()
    return store, point, flag, (film / "film").read_bytes()


def seconds(work):
    begun = time.monotonic()
    return work(), time.monotonic() - begun


def mounted_slow_drive(setting):
    """A drive that takes 2 s a read, and a hung one: the film plays on, and they are reported once each."""
    store, point, flag, film = store_of(setting, 5, "a", 60_000_000)
    with slowed(setting, built(setting), store, point, ["disk-02/", "disk-04/"], 2000, flag) as said:
        with open(point / "a/film", "rb", buffering=0) as file:
            flag.touch()
            got, time_ = seconds(lambda: b"".join(iter(lambda: file.read(1 << 20), b"")))
        told = said.read_text().splitlines()
    expect(got == film, "WRONG")
    expect(time_ < 20, f"60 MB took {time_:.1f} s")
    for disk in (2, 4):
        lines = [line for line in told if f"disk-{disk:02} does not answer" in line]
        expect(len(lines) == 1, f"disk {disk} is reported {len(lines)} times: {told}")
    return "60 MB beside two drives that take 2 s a call; each is reported once"


def mounted_slow_shares_memory(setting):
    """p = 31, where the cache has few units: two players of slow drives do not keep a third from its film."""
    store, point, flag, film = store_of(setting, 31, "abc", 70_000_000)
    with slowed(setting, built(setting), store, point, ["disk-02/"], 2000, flag, calls="pread"):
        flag.touch()
        players = [subprocess.Popen(["cat", str(point / name / "film")], stdout=subprocess.DEVNULL) for name in "ab"]
        time.sleep(0.3)
        with open(point / "c/film", "rb", buffering=0) as file:
            got, time_ = seconds(lambda: file.read(4096))
        expect([player.wait() for player in players] == [0, 0], "a player failed")
    expect(got == film[:4096] and time_ < 5, f"the third film waited {time_:.1f} s")
    return "the first 4 KiB of a third film beside two players of slow drives"


def mounted_names_beside_slow_reads(setting):
    """Thirty reads wait for drives, all of which are slow: names are answered meanwhile."""
    store, point, flag, film = store_of(setting, 5, "a", 30_000_000)
    with slowed(setting, built(setting), store, point, [".img"], 3000, flag, calls="pread"):
        words = ["dd", f"if={point}/a/film", "of=/dev/null", "bs=4096", "count=1", "status=none"]
        os.listdir(point)
        flag.touch()
        reads = [subprocess.Popen([*words, f"skip={number * 200}"]) for number in range(30)]
        time.sleep(1.5)
        names, time_ = seconds(lambda: os.listdir(point / "a"))
        flag.unlink()
        expect([read.wait() for read in reads] == [0] * 30, "a read failed")
    expect(names == ["film"] and time_ < 2.5, f"names took {time_:.1f} s")
    return "names beside 30 reads that wait"


def mounted_hung_drive(setting):
    """Each call on a drive takes 5 s: names and opens do not wait for it."""
    store, point, flag, film = store_of(setting, 5, "ab", 300_000)
    with slowed(setting, built(setting), store, point, ["disk-02/"], 5000, flag):
        time.sleep(1.2)
        flag.touch()
        names, first = seconds(lambda: os.listdir(point / "a"))
        got, second = seconds(lambda: (point / "b/film").read_bytes())
        expect(names == ["film"] and got == film, "WRONG")
        expect(first < 3 and second < 3, f"names took {first:.1f} s, a film {second:.1f} s")
        shutil.copy(store / "disk-00/catalogue", store / "disk-00/catalogue.new")
        os.replace(store / "disk-00/catalogue.new", store / "disk-00/catalogue")
        time.sleep(1.2)
        expect(os.listdir(point / "a") == ["film"], "names after a catalogue was replaced")
    return "names and opens beside a hung drive"


def listed(folder):
    """The names in a folder, or the error."""
    try:
        return sorted(os.listdir(folder))
    except OSError as error:
        return error


def mounted_third_disk_away(setting):
    """Three disks go while it is mounted, so that the store cannot be opened: films that are complete play."""
    shelf, film = Shelf(setting, 3, 3, 4096, 2, 4), noise(300_000)
    shelf.put("short", [(b"film", film[:24_000])])
    shelf.put("long", [(b"film", film)])
    flag, point = setting.new(), setting.new()
    point.mkdir()
    with slowed(setting, built(setting), shelf.folder, point, ["nowhere"], 0, flag) as said:
        for disk in (2, 3, 4):
            (shelf.folder / f"disk-{disk:02}").unlink()
        time.sleep(1.2)
        for _ in range(2):
            names = listed(point)
            expect(names == ["long", "short"], f"the names are gone: {names}")
            time.sleep(1.2)
        expect((point / "short/film").read_bytes() == film[:24_000], "the short film is on disks 0 and 1, and does not play")
        file = os.open(point / "long/film", os.O_RDONLY)
        expect(os.pread(file, 4096, 0) == film[:4096], "a page of disk 0 of the long film")
        with contextlib.suppress(OSError):
            os.pread(file, 4096, 7 * 4096)
            expect(False, "a page of disk 2 is handed out")
        os.close(file)
        told = [line for line in said.read_text().splitlines() if "must; mount them" in line]
    expect(len(told) == 1, f"reported {len(told)} times")
    return "three of five disks away: names, and films that are complete"


CHECKS = [slow_drives, slow_drives_come_back, three_slow_drives]
MOUNTED = [mounted_slow_drive, mounted_slow_shares_memory, mounted_names_beside_slow_reads, mounted_hung_drive, mounted_third_disk_away]
