"""Films read in place by the calls of cuzhaveli_play.h: what is right, what is refused, and how much is read for it."""

import itertools
import os
import random
import subprocess
import time

from harness import expect, noise
from shelf import Shelf

AGAIN = 1.4  # seconds after which other images have been looked for
EIO = 5
ENOENT = 2
EINVAL = 22


class Player:
    """A film that the program `player` has open."""

    def __init__(self, setting, film, *place, limit=32 << 20):
        words = [str(setting.program.with_name("player")), str(film), str(limit), *map(str, place)]
        self.child = subprocess.Popen(words, stdin=subprocess.PIPE, stdout=subprocess.PIPE, stderr=subprocess.PIPE, text=True)
        self.opened = self.child.stdout.readline()

    def __enter__(self):
        expect(self.opened.startswith("0 "), f"not opened: {self.opened}")
        return self

    def __exit__(self, *_):
        _, said = self.child.communicate()
        expect(self.child.returncode == 0 and "panicked" not in said, f"the player ended with {self.child.returncode}: {said}")

    def say(self, line):
        self.child.stdin.write(line + "\n")
        self.child.stdin.flush()

    def heard(self):
        return self.child.stdout.readline().strip()

    def ask(self, line):
        self.say(line)
        return self.heard()

    def at(self, offset, length):
        """The error of a read; 0 if all is right."""
        error, told = self.ask(f"at {offset} {length}").split(" ", 1)
        expect(error != "0" or told == "right", f"{length} bytes at {offset}: {told}")
        return int(error)

    def counts(self, line):
        """The bytes that were the same, that failed, that were wrong."""
        return verdict(self.ask(line))

    def right(self, line, what):
        """A task by which every byte must come, and be right."""
        same, failed, wrong = self.counts(line)
        expect(same > 0 and failed == 0 and wrong == 0, f"{what}: {line}: {same} same, {failed} EIO, {wrong} WRONG")
        return same

    def begin(self, line):
        expect(self.ask(line) == "begun", line)

    def end(self, what):
        same, failed, wrong = verdict(self.ask(""))
        expect(same > 0 and failed == 0 and wrong == 0, f"{what}: {same} same, {failed} EIO, {wrong} WRONG")
        return same


def verdict(told):
    words = told.split()
    expect(words[::2] == ["same", "eio", "wrong"], f"no verdict: {told}")
    return tuple(map(int, words[1::2]))


def kept(setting, length, seed=1):
    """A film in a file."""
    path = setting.new()
    path.write_bytes(noise(length, seed))
    return path


def without(setting, images, lost):
    """A folder of links to the images but those of some disks."""
    folder = setting.new()
    folder.mkdir()
    for path in images.folder.glob("disk-*.img"):
        if int(path.name[5:7]) not in lost:
            (folder / path.name).symlink_to(path)
    return folder


def kill(path):
    """Makes an image useless for those who have it open, too, and takes its name away."""
    os.truncate(path, 0)
    path.unlink()


def losses(disks):
    return [lost for count in range(3) for lost in itertools.combinations(range(disks), count)]


def every_loss(setting):
    count = total = 0
    for p, k, s, unit, group, length in [(3, 2, 16, 2, 4, 4001), (5, 5, 64, 2, 8, 50_000), (7, 5, 32, 1, 3, 30_011),
                                         (5, 5, 4096, 8, 16, 3_000_001)]:
        film = kept(setting, length)
        images = setting.encoded_file(film, p, k, s, group, unit=unit)
        for lost in losses(k + 2):
            limit = 1 if count % 4 == 1 else 32 << 20  # memory of a unit taken over by the next, or not
            with Player(setting, film, without(setting, images, lost), limit=limit) as player:
                for task in ("random 1 40 5000 4", f"all {s * 3 + 1}", "all 300000"):
                    total += player.right(task, f"p = {p}, k = {k}, lost {lost}")
            count += 1
    return f"{count} losses of up to two disks of 4 sets, {total} bytes alike"


def ends_of_the_film(setting):
    film = kept(setting, 10_000)
    images = setting.encoded_file(film, 3, 2, 16, 4, unit=2)
    with Player(setting, film, images.folder) as player:
        expect(player.at(9_999, 1) == 0 and player.at(10_000, 0) == 0, "the last byte")
        for offset, length in [(9_999, 2), (10_000, 1), (10_001, 0), (1 << 63, 1), ((1 << 64) - 1, 5)]:
            expect(player.at(offset, length) == EINVAL, f"{length} bytes at {offset} are not there")
        for place, error in [("/no/such", EIO), (f"{images.folder} a b", EIO), (f"{setting.scratch}", EIO)]:
            expect(int(player.ask(f"open {place}").split()[0]) == error, place)
    return "nothing beyond the end, and no film where there is none"


def cells_with_three_lost(setting, player, p, s, length, lost):
    for cell in range(length // s):
        disk = cell // p % p
        error = player.at(cell * s, s)
        expect(error == (EIO if disk in lost else 0), f"cell {cell} of disk {disk}: error {error}, lost {lost}")
    return length // s


def third_loss(setting):
    """Three of five data disks: the bytes of the two others come, and no others."""
    p, s, length, lost = 5, 64, 40_000, (0, 1, 3)
    film = kept(setting, length)
    images = setting.encoded_file(film, p, p, s, 8, unit=2)
    with Player(setting, film, images.folder, limit=1) as player:
        player.right("all 5000", "nothing lost")
        for disk in lost:
            kill(images.folder / f"disk-{disk:02}.img")
        cells = cells_with_three_lost(setting, player, p, s, length, lost)
        time.sleep(AGAIN)
        cells += cells_with_three_lost(setting, player, p, s, length, lost)
    shelf = Shelf(setting, p, p, s)
    shelf.put("a", [(b"film", film.read_bytes())])
    with Player(setting, film, shelf.view(away=lost), "a", "film") as player:
        cells += cells_with_three_lost(setting, player, p, s, length, lost)
    return f"{cells} cells of films with three disks lost: EIO where it must be, right elsewhere"


def image_killed(setting):
    """Two images are cut, overwritten or removed while four threads read."""
    film, total = kept(setting, 4_000_000), 0
    for kind in ("cut", "noise", "zeros", "unlinked", "half"):
        images = setting.encoded_file(film, 5)
        with Player(setting, film, images.folder, limit=4 << 20) as player:
            player.begin("until 7 200000 4")
            for disk in (2, 6):
                time.sleep(0.15)
                path = images.folder / f"disk-{disk:02}.img"
                size = path.stat().st_size
                if kind == "unlinked":
                    path.unlink()
                elif kind in ("cut", "half"):
                    os.truncate(path, size // 2 if kind == "half" else 0)
                else:
                    with open(path, "r+b") as file:
                        file.write(noise(size, disk) if kind == "noise" else bytes(size))
            time.sleep(AGAIN if kind in ("cut", "noise") else 0.2)
            total += player.end(kind)
    return f"two images killed in 5 ways while 4 threads read, {total} bytes alike"


def flips(setting):
    """Flips on two disks of a unit are mended; with flips on all disks what is handed out is right."""
    film, total, failed = kept(setting, 400_000), 0, 0
    rand = random.Random(5)
    for trial in range(12):
        images = setting.encoded_file(film, 5, 5, 512, 16, unit=4)
        disks = rand.sample(range(7), 2) if trial < 8 else range(7)
        for disk in disks:
            path = images.folder / f"disk-{disk:02}.img"
            content = bytearray(path.read_bytes())
            for _ in range(40):
                content[rand.randrange(4096, len(content) - 4096)] ^= 1 << rand.randrange(8)
            path.write_bytes(content)
        with Player(setting, film, images.folder) as player:
            for task in ("random 3 60 9000 4", "all 65536"):
                same, eio, wrong = player.counts(task)
                expect(wrong == 0, f"flips on {disks}: {wrong} bytes WRONG")
                expect(trial >= 8 or eio == 0, f"flips on two disks {disks}: {eio} bytes refused")
                total, failed = total + same, failed + eio
    expect(failed > 0, "flips on every disk, and nothing was refused")
    return f"12 sets with flips: {total} bytes right, {failed} refused, none wrong"


def rebuild_beside(setting):
    """A rebuilt image is read once it has its name: after it two others can go."""
    film = kept(setting, 6_000_000)
    images = setting.encoded_file(film, 5)
    with Player(setting, film, images.folder, limit=4 << 20) as player:
        player.begin("until 11 100000 3")
        for disk in (1, 4):
            kill(images.folder / f"disk-{disk:02}.img")
        time.sleep(0.2)
        setting.call("rebuild", images.folder, status=0)
        time.sleep(AGAIN)
        for disk in (0, 5):
            kill(images.folder / f"disk-{disk:02}.img")
        time.sleep(AGAIN)
        total = player.end("rebuild beside it")
        player.right("all 100000", "after the rebuild")
    return f"two images lost, rebuilt beside it and two others lost: {total} bytes alike"


def repair_beside(setting):
    film, rand = kept(setting, 3_000_000), random.Random(9)
    images = setting.encoded_file(film, 5)
    with Player(setting, film, images.folder, limit=2 << 20) as player:
        player.begin("until 13 60000 3")
        for turn in range(6):
            for disk in rand.sample(range(7), 2):
                with open(images.folder / f"disk-{disk:02}.img", "r+b") as file:
                    size = os.fstat(file.fileno()).st_size
                    for _ in range(30):
                        file.seek(rand.randrange(4096, size - 4096))
                        file.write(b"\x5a")
            setting.call("repair", images.folder)
        total = player.end("repair beside it")
    return f"6 repairs beside it, {total} bytes alike"


def removed_and_replaced(setting):
    """A film that is open stays; who opens it later has the new one, or none."""
    film, other = kept(setting, 300_000), kept(setting, 200_000, 2)
    shelf = Shelf(setting, 5, 5, 512)
    shelf.put("a", [(b"film", film.read_bytes()), (b"empty", b"")])
    with Player(setting, film, shelf.folder, "a", "film", limit=1) as player:
        player.right("all 10000", "before")
        shelf.put("a", [(b"film", other.read_bytes()), (b"empty", b"")])
        time.sleep(AGAIN)
        player.right("all 10000", "after it was replaced")
        expect(player.ask(f"open {shelf.folder} a film").startswith("0 200000"), "the new one")
        expect(player.ask(f"open {shelf.folder} a empty").startswith("0 0"), "an empty one")
        with Player(setting, other, shelf.folder, "a", "film", limit=1) as later:
            shelf.call("remove", shelf.folder, "a", status=0)
            time.sleep(AGAIN)
            later.right("all 10000", "after it was removed")
            expect(later.ask(f"open {shelf.folder} a film").startswith(f"{ENOENT} "), "there is none now")
        player.right("random 1 50 9000 4", "after all")
    return "a film replaced and removed while it is open"


def little_is_read_for_little(setting):
    """A cell costs its piece, on a lost disk its row; a unit that is in memory costs nothing."""
    film = kept(setting, 8_000_000)
    images = setting.encoded_file(film, 5)
    cell, unit, piece, slack = 4096, 8 * 25 * 4096, 32768, 8192
    with Player(setting, film, without(setting, images, [2])) as player:
        def cost(disk, row, number):
            before = int(player.ask("taken"))
            expect(player.at(number * unit + (disk * 5 + row) * cell, cell) == 0, "a cell")
            return int(player.ask("taken")) - before
        there, lost, again = cost(1, 3, 2), cost(2, 1, 5), cost(2, 1, 5)
        expect(piece <= there <= piece + slack, f"a cell of a disk that is there costs {there} bytes")
        expect(5 * piece <= lost <= 5 * piece + slack, f"a cell of a lost disk costs {lost} bytes")
        expect(again <= slack, f"a cell in memory costs {again} bytes")
    with Player(setting, film, without(setting, images, [2])) as player:
        before = int(player.ask("taken"))
        player.right("all 131072", "in order")
        order = (int(player.ask("taken")) - before) / 8_000_000
        expect(order < 1.1, f"in order {order:.2f} bytes are read for one")
    return f"a cell: {there} bytes read, on a lost disk {lost}, again {again}; in order {order:.3f} for one"


def memory_has_a_limit(setting):
    film = kept(setting, 48 << 20)
    images = setting.encoded_file(film, 7)
    most = {}
    for limit in (4, 200):
        with Player(setting, film, images.folder, limit=limit << 20) as player:
            player.right("random 1 200 300000 8", f"limit of {limit} MiB")
            player.right("all 1000000", f"limit of {limit} MiB")
            most[limit] = int(player.ask("memory")) >> 10
    expect(most[4] < 48 + 4 + 24 and most[200] > 48 + 40, f"MiB by limits: {most}")
    return f"a film of 48 MiB beside the original in memory: {most[4]} MiB with a limit of 4, {most[200]} with one of 200"


CHECKS = [every_loss, ends_of_the_film, third_loss, image_killed, flips, rebuild_beside, repair_beside, removed_and_replaced,
          little_is_read_for_little, memory_has_a_limit]
