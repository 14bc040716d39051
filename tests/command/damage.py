"""Damage on the disks: no wrong byte is handed out, and what can be made right is."""

import itertools
import random

from harness import LABEL, expect, noise, xxh64


def small(setting, seed=1, stripes=9, **more):
    film = noise(5 * 5 * 16 * stripes - 7, seed)
    return film, setting.encoded(film, 5, s=16, group=4, unit=2, **more)


def following_check(setting):
    """A bad byte on two disks in different stripes: doing what check says gives clean images and the same film."""
    film, images = small(setting)
    before = images.images()
    images.flip(1, images.offset(1, 2) + 3)
    images.flip(4, images.offset(6, 0))
    done = setting.told("check", images.folder, status=1)
    expect(done.found() == [("bad", 1, 2, 0, 2, "sum"), ("bad", 4, 0, 6, 2, "sum")] and done.sums() == (9, 2, 0, 0), done.told())
    expect(b"cuzhaveli repair " in done.err, done.told())
    images_now = images.images()
    setting.call("rebuild", "--disk", 1, images.folder, status=0)
    expect(images.path(1).read_bytes() == before[1], "a rebuild took over the bad byte of another disk")
    images.write(images_now)
    done = setting.told("repair", images.folder)
    expect((done["pieces"], done["blocks"], done["labels"], done["beyond"]) == (2, 0, 0, []), done.told())
    expect(images.images() == before, "repair gave other images")
    done = setting.call("check", images.folder, status=0)
    expect(done.err == b"", done.told())
    expect(setting.film(images) == film, "another film")
    return "one set"


def flips(setting):
    """A flip in every piece, for none, one and two lost disks: the film is the same, or the status is 6."""
    film, images = small(setting, stripes=5)
    before = images.images()
    count = beyond = 0
    for lost in ((), (1,), (5,), (0, 6)):
        for disk, row, unit in itertools.product(range(images.disks), range(images.p), range(images.units())):
            if disk in lost:
                continue
            images.write(before)
            images.flip(disk, images.offset(unit * images.unit, row) + 5, 64)
            images.lose(*lost)
            done = setting.call("decode", images.folder, out := setting.new())
            expect(done.status == 0 or len(lost) == 2 and done.status == 6, f"{disk, row, unit}: {done.told()}")
            expect(out.exists() == (done.status == 0), f"a film with a gap got its name, or a whole one none: {done.told()}")
            expect(done.status != 0 or out.read_bytes() == film, f"{disk, row, unit}: another film: {done.told()}")
            beyond += done.status == 6
            done = setting.call("rebuild", images.folder, status=0 if len(lost) < 2 else 6) if lost else None
            for one in lost:
                whole = images.path(one).exists()
                expect(whole == (len(lost) == 1), f"lost {lost}, flip {disk, row, unit}: {done.told()}")
                expect(not whole or images.path(one).read_bytes() == before[one], f"a wrong image: lost {lost}, flip {disk, row, unit}")
                images.part(one).unlink(missing_ok=True)
            count += 1
    expect(0 < beyond < count, f"{beyond} films of {count} beyond repair")
    return f"{count} flips, {beyond} beyond repair and told so"


def two_and_a_half(setting):
    """One disk lost and bad pieces on two others: what the rest determines comes back, the rest is told."""
    draw, back, tried = random.Random(3), 0, 0
    film, images = small(setting, stripes=2)
    before = images.images()
    for _ in range(150):
        lost, first, second = draw.sample(range(images.disks), 3)
        images.write(before)
        for disk in (first, second):
            images.flip(disk, images.offset(0, draw.randrange(images.p)))
        images.lose(lost)
        done = setting.call("decode", images.folder, out := setting.new())
        expect(done.status == 0 and out.read_bytes() == film or done.status == 6, done.told())
        done = setting.call("rebuild", images.folder)
        expect(done.status == 0 and images.path(lost).read_bytes() == before[lost] or done.status == 6, done.told())
        images.part(lost).unlink(missing_ok=True)
        back, tried = back + (done.status == 0), tried + 1
    expect(85 <= 100 * back / tried < 100, f"{back} of {tried} came back, 93 % were expected")
    return f"{back} of {tried} came back"


def checksum_blocks(setting):
    """Bad checksum blocks: another image's is taken; all bad: status 6. repair mends them."""
    film, images = small(setting)
    before = images.images()
    images.flip(3, images.block(1) + images.block_len + 7)  # a byte after them, where zeros are
    done = setting.told("check", images.folder, status=1)
    expect(done.found() == [("block", 3, 2, 2)], done.told())
    setting.call("repair", images.folder, status=0)
    expect(images.images() == before, "repair gave other images")
    for count in range(1, images.disks + 1):
        for disk in range(count):
            images.flip(disk, images.block(2) + 9 * disk, 16)
        done = setting.told("check", images.folder, status=None)
        if count < images.disks:
            expect(done.status == 1 and [one[0] for one in done.found()] == ["block"] * count, done.told())
            expect(setting.film(images) == film, f"{count} bad blocks: another film")
            setting.call("repair", images.folder, status=0)
            expect(images.images() == before, f"{count} bad blocks: repair gave other images")
        else:
            expect(done.status == 6 and ("beyond", 4, 2, ()) in done.found(), done.told())
            done = setting.call("decode", images.folder, out := setting.new(), status=6)
            gap = 2 * 5 * 5 * 16
            kept = out.with_name(out.name + ".part").read_bytes()
            expect(kept == film[:2 * gap] + bytes(gap) + film[3 * gap:], "the film beside the gap is another")
            expect(not out.exists() and f"{gap} bytes of film from byte {2 * gap}".encode() in done.err, done.told())
            done = setting.call("decode", images.folder, "-", status=6)
            expect(done.out == film[:2 * gap], f"a stream goes on after a gap: {len(done.out)} bytes")
            images.write(before)
    return f"{images.disks} sets"


def stale_and_misplaced(setting):
    """Cells of an older film, of another set, unit, row or disk with their own sums: none is believed."""
    film, images = small(setting)
    _, other = small(setting, seed=2)
    before, strange = images.images(), other.images()
    size = 2 * images.s
    for disk in range(images.disks):
        for source, row, unit in ((strange[disk], 1, 1), (before[disk], 2, 1), (before[disk], 1, 0), (before[(disk - 1) % images.disks], 1, 1)):
            image = bytearray(before[disk])
            at, start = images.offset(2, 1), images.offset(2 * unit, row)
            image[at:at + size] = source[start:start + size]
            images.path(disk).write_bytes(image)
            expect(setting.film(images) == film, f"disk {disk}: another film")
            done = setting.told("check", images.folder, status=1)
            expect(("bad", disk, 1, 2, 2, "sum") in done.found(), done.told())
            images.path(disk).write_bytes(before[disk])
    # the whole unit of an older set, sums and all
    for disk in range(images.disks):
        image = bytearray(before[disk])
        for row in range(images.p):
            at = images.offset(2, row)
            image[at:at + size] = strange[disk][at:at + size]
        at = images.block(1)
        image[at:at + images.block_len] = strange[disk][at:at + images.block_len]
        images.path(disk).write_bytes(image)
        done = setting.call("decode", images.folder, out := setting.new(), status=0 if disk < 2 else 6)
        expect(disk >= 2 or out.read_bytes() == film, f"disks to {disk} stale: another film")
    return f"{4 * images.disks} pieces and {images.disks} units"


def dirty(setting):
    """Sums that fit parity that does not: encoded by faulty memory. check tells the disk, the film is as its sums say."""
    film, images = small(setting)
    before = images.images()

    def resealed(changes):
        """Images with these cells changed, and the sums of that."""
        contents = {disk: bytearray(image) for disk, image in before.items()}
        for disk, stripe, row in changes:
            contents[disk][images.offset(stripe, row) + 1] ^= 8
        for unit in range(images.units()):
            block = images.sums(contents, unit)
            for image in contents.values():
                image[images.block(unit):images.block(unit) + len(block)] = block
        return contents

    for disk in range(images.disks):
        images.write(resealed([(disk, 7, 3)]))
        done = setting.told("check", images.folder, status=1)
        expect(done.found() == [("dirty", 7, (disk,))] and done.sums() == (9, 0, 1, 0), done.told())
        expect(b"encode it anew" in done.err and b"repair" not in done.err, done.told())
        expect((setting.film(images) == film) == (disk >= images.k), "the film is not what the sums say")
    images.write(resealed([(0, 2, 0), (1, 2, 3)]))
    done = setting.told("check", images.folder, status=1)
    expect(done.found() == [("dirty", 2, ())] and done.sums() == (9, 0, 1, 0), done.told())
    done = setting.call("rebuild", "--test", "--disk", 3, images.folder, status=3)
    expect(done.err.startswith(b"cuzhaveli: stripe 2: ") and done.err.endswith(b" (refusal 19)\n"), done.told())
    images.part(3).unlink(missing_ok=True)
    images.lose(3)
    done = setting.call("rebuild", images.folder, status=6)
    expect(not images.path(3).exists() and b"stripes 2 to 3" in done.err, done.told())
    images.part(3).unlink()
    images.write(before)
    setting.call("check", images.folder, status=0)
    return f"{images.disks + 1} faulty memories"


def labels(setting):
    """One bad label: the image is used, told and repaired. Two: it counts as lost, and only --disk lets it be replaced."""
    film, images = small(setting)
    before = images.images()
    for disk, places in ((2, [0]), (3, [images.end()]), (0, [40]), (6, [images.end() + LABEL - 1])):
        for place in places:
            images.flip(disk, place)
        expect(setting.film(images) == film, "another film")
        setting.call("info", images.folder, status=0)
        done = setting.told("check", images.folder, status=1)
        which = "first" if places[0] < LABEL else "last"
        expect(done.found() == [("label", disk, which)] and done.sums() == (9, 1, 0, 0), done.told())
        done = setting.told("repair", images.folder)
        expect(images.images() == before and done["labels"] == 1, done.told())
    for place in (0, images.end()):
        images.flip(2, place)
    done = setting.told("check", images.folder, status=1)
    expect(("lost", 2, "foreign") in done.found() and b"has damaged labels" in done.err, done.told())
    setting.call("rebuild", images.folder, status=5)
    setting.call("rebuild", "--disk", 2, images.folder, status=0)
    expect(images.images() == before, "other images")
    return "5 images"


def wide_damage(setting):
    """Two disks full of noise but for their labels: the film comes back, and repair makes them right."""
    film, images = small(setting)
    before = images.images()
    for pair in ((0, 1), (2, 6), (5, 6)):
        for disk in pair:
            images.path(disk).write_bytes(before[disk][:LABEL] + noise(images.end() - LABEL, disk) + before[disk][-LABEL:])
        expect(setting.film(images) == film, f"disks {pair} of noise: another film")
        setting.call("repair", images.folder, status=0)
        expect(images.images() == before, f"disks {pair} of noise: repair gave other images")
    for disk in (0, 1, 2):
        images.path(disk).write_bytes(before[disk][:LABEL] + noise(images.end() - LABEL, disk) + before[disk][-LABEL:])
    spoiled = images.images()
    done = setting.told("repair", images.folder, status=6)
    expect((done["pieces"], done["blocks"], done["gaps"]) == (0, 0, 9), done.told())
    expect(done["beyond"] == [{"stripe": 0, "count": 9, "disks": [0, 1, 2]}], done.told())
    expect(images.images() == spoiled, "repair wrote where nothing can be made right")
    setting.call("decode", images.folder, setting.new(), status=6)
    return "4 sets"


def forged_blocks(setting):
    """A checksum block with another sum and the right guard: told, and repair does not write it to the other images."""
    film, images = small(setting)
    good = images.images()
    for disk in range(images.disks):
        at = images.block(1)
        sums = bytearray(good[disk][at:at + images.block_len - 8])
        sums[8 * (3 * images.p + 2)] ^= 1
        forged = bytes(sums) + xxh64(sums, images.seed(0xFFFFFFFF, 0xFFFFFFFF, 1)).to_bytes(8, "little")
        images.write({disk: good[disk][:at] + forged + good[disk][at + images.block_len:]})
        before = images.images()
        done = setting.told("repair", images.folder, status=None)
        expect(done.status == 6 and images.images() == before or images.images() == good, f"disk {disk}: a forged block spread: {done.told()}")
        done = setting.call("decode", images.folder, out := setting.new())
        expect(done.status == 6 or out.read_bytes() == film, done.told())
        images.write(good)
    return f"{images.disks} blocks"


def random_reads(setting):
    """Sets with random damage: decode gives the film or status 6, whatever is lost or bad."""
    draw, told = random.Random(11), {0: 0, 5: 0, 6: 0}
    film, images = small(setting)
    before = images.images()
    for _ in range(120):
        images.write(before)
        for disk in draw.sample(range(images.disks), draw.choice((0, 1, 2, 3, 4))):
            if draw.random() < 0.4:
                images.lose(disk)
                continue
            for _ in range(draw.choice((1, 3, 40))):
                anywhere, cell = draw.randrange(images.image_bytes()), images.offset(draw.randrange(9), draw.randrange(5)) + draw.randrange(16)
                images.flip(disk, anywhere if draw.random() < 0.3 else cell, draw.randrange(1, 256))
        done = setting.call("decode", images.folder, out := setting.new())
        expect(done.status in told and (done.status != 0 or out.read_bytes() == film), done.told())
        told[done.status] += 1
    expect(all(told.values()), f"not every end was seen: {told}")
    return f"{told[0]} films, {told[5]} refused, {told[6]} with gaps told"


CHECKS = [following_check, flips, two_and_a_half, checksum_blocks, stale_and_misplaced, dirty, labels, wide_damage, forged_blocks, random_reads]
