"""Sets of images: what encode writes, and that every loss comes back, byte for byte."""

import itertools

from harness import LABEL, expect, noise, rounded

# width, data disks, cell size, unit, group (None: the usual ones)
SHAPES = [(3, None, 1, 2, 2), (3, None, 40, None, None), (3, 2, 17, 1, 5), (5, None, 16, 2, 4), (5, None, 64, None, None),
          (5, 3, 512, 3, 6), (31, None, 8, 1, 1), (31, None, 8, None, None), (31, 2, 3, 7, 7)]


def film_for(p, k, s, stripes, more=0):
    return noise(stripes * (k or p) * p * s + more, seed=p * s + stripes)


def lengths_and_layout(setting):
    """Films of awkward lengths: the images are those of the manual, byte for byte, and the film comes back."""
    count = 0
    for p, k, s, unit, group in SHAPES[:6]:
        stripe = (k or p) * p * s
        for length in (0, 1, stripe - 1, stripe, stripe + 1, 3 * stripe + 1, (group or 64) * stripe + 1):
            film = noise(length, seed=length)
            images = setting.encoded(film, p, k, s, group, unit=unit)
            expect(images.length == length, f"the label has length {images.length} for {length}")
            expect(images.stripes == -(-length // stripe), f"the label has {images.stripes} stripes for {length} bytes")
            expect(film_of(images) == film, f"p {p}, s {s}, {length} bytes: the cells are not those of the film")
            as_the_manual_says(images)
            expect(setting.film(images) == film, f"p {p}, s {s}, {length} bytes: decode gave another film")
            setting.call("check", images.folder, status=0)
            source = setting.new()
            source.write_bytes(film)
            known = setting.encoded_file(source, p, k, s, group, unit=unit)
            expect(known.image_bytes() == images.image_bytes(), "a film of known length has other images")
            expect(film_of(known) == film, f"p {p}, s {s}, {length} bytes of a file: other cells")
            as_the_manual_says(known)
            count += 1
    return f"{count} films, from files and pipes, and their images"


def film_of(images):
    """The film as the model reads it from the data disks."""
    contents = images.images()
    film = bytearray()
    for stripe in range(images.stripes):
        for disk in range(images.k):
            for row in range(images.p):
                start = images.offset(stripe, row)
                film += contents[disk][start:start + images.s]
    expect(not any(film[images.length:]), "the film is not filled up with zeros")
    return bytes(film[:images.length])


def as_the_manual_says(images):
    """Labels, row parity, checksum blocks and zeros, by the model."""
    contents = images.images()
    blocks = [images.sums(contents, unit) for unit in range(images.units())]
    groups = -(-images.stripes // images.group)
    for disk, image in contents.items():
        expect(len(image) == images.image_bytes(), f"the image of disk {disk} has {len(image)} bytes")
        for at in (0, images.end()):
            expect(image[at:at + LABEL] == images.label(disk), f"disk {disk} has another label at {at}")
        for unit, block in enumerate(blocks):
            start = images.block(unit)
            expect(image[start:start + len(block)] == block, f"disk {disk} has other checksums of unit {unit}")
        for group in range(groups):
            base, stripes = images.start(group)
            end = base + images.p * stripes * images.s + images.block_len * -(-stripes // images.unit)
            expect(not any(image[end:rounded(end)]), f"disk {disk}: group {group} does not end with zeros")
    for stripe in range(images.stripes):
        for start in (images.offset(stripe, row) for row in range(images.p)):
            cells = (int.from_bytes(contents[disk][start:start + images.s], "little") for disk in range(images.k + 1))
            total = 0
            for cell in cells:
                total ^= cell
            expect(total == 0, f"P is not the XOR of its row in stripe {stripe}")


def every_loss(setting):
    """Each disk and each pair lost: the images and the film come back."""
    losses = 0
    for p, k, s, unit, group in SHAPES:
        film = film_for(p, k, s, 3, more=1)
        images = setting.encoded(film, p, k, s, group, unit=unit)
        before = images.images()
        disks = range(images.disks)
        pairs = list(itertools.combinations(disks, 2))
        for lost in [(disk,) for disk in disks] + (pairs if p < 31 else pairs[::7] + pairs[-3:]):
            images.lose(*lost)
            done = setting.told("decode", images.folder, out := setting.new())
            expect(out.read_bytes() == film, f"p {p}, group {group}, lost {lost}: decode gave another film")
            out.unlink()
            again = setting.told("rebuild", images.folder)
            expect(images.images() == before, f"p {p}, group {group}, lost {lost}: other images")
            for told in (done, again):
                expect(told["mended"] == 0, f"the plan alone does not bring disks {lost} back: {told.told()}")
            expect(len(list(images.folder.iterdir())) == images.disks, f"lost {lost}: something is left in the folder")
            losses += 1
    return f"{losses} losses rebuilt and decoded"


def every_way(setting):
    """By rows, tested, and of a disk that is there: the same bytes."""
    count = 0
    for p, k, s, unit, group in [(5, None, 64, 2, 4), (7, 4, 24, None, None)]:
        images = setting.encoded(film_for(p, k, s, 9, more=5), p, k, s, group, unit=unit)
        before = images.images()
        rows = images.k * images.p * images.s * images.stripes
        blocks = images.block_len * images.units()
        for disk in range(images.disks):
            for way, read in ((["--plan", "rows"], rows), (["--test"], rows + rows // images.k), ([], None)):
                done = setting.told("rebuild", *way, "--disk", disk, images.folder)
                expect(images.images() == before, f"{way} of disk {disk}: other bytes")
                expect(read is None or done["read"] == read + blocks, f"{way}: {read} + {blocks} bytes expected: {done.told()}")
                expect(done["rows"] == rows and done["lost"] == [disk] and done["done"], done.told())
                count += 1
    return f"{count} rebuilds"


def whole_groups(setting):
    """More than one group, the last one in part; a group of more stripes than fit into memory at once."""
    for p, k, s, unit, group, stripes in [(5, None, 32, 2, 4, 19), (5, None, 4096, 8, 320, 330), (31, 2, 512, 1, 3, 8)]:
        film = film_for(p, k, s, stripes - 1, more=7)
        source = setting.new()
        source.write_bytes(film)
        images = setting.encoded_file(source, p, k, s, group, unit=unit)
        before = images.images()
        expect(film_of(images) == film, f"group {group}: the cells are not those of the film")
        for lost in ((1,), (0, images.k + 1)):
            images.lose(*lost)
            expect(setting.film(images) == film, f"group {group}, lost {lost}: another film")
            setting.call("rebuild", images.folder, status=0)
            expect(images.images() == before, f"group {group}, lost {lost}: other images")
        setting.call("check", images.folder, status=0)
    done = setting.call("encode", "-p", 5, "-g", 320, "-", setting.new(), status=2)
    expect(b"without a known length" in done.err, done.told())
    return "3 sets of several groups"


CHECKS = [lengths_and_layout, every_loss, every_way, whole_groups]
