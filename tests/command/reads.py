"""What is read: the listed cells and a checksum block a unit, and around survivors that cannot be read."""

import os

from harness import LABEL, Traced, can_trace, expect, noise


def listed(images, setting, lost):
    """How many cells of a stripe a rebuild reads, by the count of our plan or the balanced one."""
    text = setting.call("plan", "-p", images.p, "-k", images.k, "-d", lost, status=0).out.decode()
    return int(text.split(":")[1].split()[0])


def bytes_asked(setting):
    """The bytes that pread asks for are the listed cells' and one checksum block a unit: what the rebuild tells."""
    if not can_trace(setting):
        return "left out: no tracing on this machine"
    count = 0
    for p, k, s, unit, group, stripes in [(5, None, 64, 2, 4, 10), (7, 5, 512, 1, 1, 3), (31, None, 16, 4, 8, 9)]:
        images = setting.encoded(noise(stripes * (k or p) * p * s), p, k, s, group, unit=unit)
        for lost in (0, 1, images.k, images.k + 1):
            images.lose(lost)
            most = listed(images, setting, lost) * s * stripes
            would = setting.told("rebuild", "-n", images.folder)["read"]
            expect(would <= most and (k or would == most), f"lost {lost}: would read {would}, our plan {most}")
            traced = Traced(setting, "rebuild", images.folder)
            asked = sum(length for name, file, _, length in traced.calls()
                        if name == "pread64" and traced.opened(file).endswith(".img"))
            expect(traced.status == 0, f"rebuild of disk {lost} ended with {traced.status}")
            # the labels of the survivors, first and last, are read when they are opened
            wanted = would + images.block_len * images.units() + 2 * 4096 * (images.disks - 1)
            expect(asked == wanted, f"p {p}, lost {lost}: {asked} bytes asked, {wanted} expected")
            images.lose(lost)
            told = setting.told("rebuild", images.folder)["read"]
            expect(told == would + images.block_len * images.units(), f"p {p}, lost {lost}: {told} bytes told")
            count += 1
    return f"{count} rebuilds"


def cold(images):
    """Takes the images out of the page cache."""
    for disk in range(images.disks):
        if images.path(disk).exists():
            file = os.open(images.path(disk), os.O_RDONLY)
            os.fsync(file)
            os.posix_fadvise(file, 0, 0, os.POSIX_FADV_DONTNEED)
            os.close(file)


def device_reads(setting):
    """What the device reads for a rebuild with a cold cache: within 1 % of the listed cells, and check reads all."""
    images = setting.encoded(noise(5 * 5 * 4096 * 320), 5, where=setting.on_disk)
    cold(images)
    whole = setting.measured("check", images.folder).usage.ru_inblock * 512
    stripes = images.disks * images.p * images.s * images.stripes
    if whole < stripes:
        return "left out: the file system does not count device reads"
    setting.call("decode", images.folder, "/dev/null", status=0)  # all data is in the cache now
    again = setting.measured("check", "--json", images.folder)
    if not again["cached"]:
        read = again.usage.ru_inblock * 512
        expect(read >= stripes, f"check says medium, and {read} bytes of {stripes} were read from the device")
    seen = []
    for lost in (1, 3):
        images.lose(lost)
        asked = setting.told("rebuild", "-n", images.folder)["read"]
        expect(asked == listed(images, setting, lost) * images.s * images.stripes, f"{asked} bytes would be read")
        cold(images)
        read = setting.measured("rebuild", images.folder).usage.ru_inblock * 512
        expect(asked <= read <= asked * 1.01, f"lost {lost}: {asked} bytes listed, {read} read")
        seen.append(f"{read} for {asked}")
    return f"bytes read: {', '.join(seen)}, by rows {images.k * images.p * images.s * images.stripes}"


def unreadable(setting):
    """Survivors that cannot be read: whole ones, and single cells of a piece, are mended from the rest of the unit."""
    if not can_trace(setting):
        return "left out: no tracing on this machine"
    film = noise(9 * 5 * 5 * 512)
    images = setting.encoded(film, 5, None, 512, 4, unit=2)
    before = images.images()
    all_of, count = [(LABEL, images.end())], 0

    def cells(stripe, *rows):
        return [(images.offset(stripe, row), images.offset(stripe, row) + images.s) for row in rows]

    # the last one: three disks are bad in a unit, and two in each of its stripes
    for lost, dead in (((1,), {3: all_of}), ((1,), {3: cells(2, 1), 4: cells(2, 2)}), ((), {0: all_of, 6: all_of}), ((0, 5), {}),
                       ((6,), {0: cells(2, 0), 2: cells(2, 3)}), ((1,), {3: cells(2, *range(5)), 4: cells(3, *range(5))})):
        images.lose(*lost)
        out = setting.new()
        spoil = {str(images.path(disk)): stretches for disk, stretches in dead.items()}
        traced = Traced(setting, "decode", images.folder, out)
        traced.fail_reads(spoil)
        expect(traced.status == 0 and out.read_bytes() == film, f"lost {lost}, unreadable {dead}: status {traced.status}")
        traced = Traced(setting, "rebuild", images.folder)
        traced.fail_reads(spoil)
        expect(traced.status == 0 and images.images() == before, f"lost {lost}, unreadable {dead}: {traced.status}")
        count += 1
    images.lose(1)
    traced = Traced(setting, "rebuild", images.folder)
    traced.fail_reads({str(images.path(disk)): all_of for disk in (2, 3)})
    expect(traced.status == 6 and not images.path(1).exists(), f"three disks unreadable: status {traced.status}")
    done = setting.call("rebuild", images.folder, status=0)
    expect(images.images() == before, "gone on after a failure: other bytes")
    return f"{count + 1} sets of unreadable disks"


def memory(setting):
    """Less than 64 MiB, for the widest stripes, a group beyond memory, and columns as long as they can be."""
    if not can_trace(setting):
        return "left out: no tracing on this machine"
    most = 0
    for p, k, s, group, stripes in [(31, 31, 4096, [], 49), (31, 31, 4096, ["-g", 40], 9), (31, 2, 4096, [], 70), (31, 31, 1, [], 33_000),
                                    (31, 2, 1, ["-u", 1, "-g", 65_536], 20_000)]:
        folder, source = setting.new(), setting.new()
        source.write_bytes((noise(1 << 20) * (1 + (stripes * k * p * s >> 20)))[:stripes * k * p * s])
        calls = [["encode", "-p", p, "-k", k, "-s", s, *group, source, folder], ["check", folder], ["repair", folder],
                 ["rebuild", "--disk", 1, folder], ["rebuild", "--disk", 0, "--disk", k, folder], ["decode", folder, "/dev/null"]]
        for words in calls:
            traced = Traced(setting, *words)
            for name, *_ in traced.calls():
                most = max(most, traced.peak()) if name == "exit_group" else most
            expect(traced.status == 0, f"{words} ended with {traced.status}")
            expect(0 < most < 64 * 1024, f"{words}: {most} KiB of memory")
    return f"at most {most} KiB of 65536"


def rates(setting):
    """--rate: no more than so many bytes a second are read of each disk, and all disks side by side."""
    images = setting.encoded(noise(3 * 3 * 4096 * 64), 3)
    blocks = images.block_len * images.units()
    column = images.p * images.s * images.stripes
    told = []
    for words, most in ((["check"], column + 2 * blocks), (["repair"], column + 2 * blocks), (["rebuild", "--disk", 1], 2 * column // 3)):
        rate = 2 * most
        tries = [setting.measured(*words, "--json", "--rate", rate, images.folder) for _ in range(3)]
        done = min(tries, key=lambda done: done.seconds)  # a busy machine takes longer
        busiest = done.figures().get("busiest", most)
        expect(abs(busiest - most) <= column // 10 and done["read"] > 2.5 * busiest, f"{words}: {busiest} bytes of a disk, {done.told()}")
        expect(0.9 * busiest / rate < done.seconds < 2.5 * busiest / rate, f"{words}: {done.seconds} s for {busiest} bytes of a disk at {rate} a second")
        told.append(f"{words[0]} {done.seconds:.2f} s")
        free = min(setting.measured(*words, images.folder).seconds for _ in range(5))
        expect(free < 0.8 * done.seconds, f"{words} takes {free} s without a rate, {done.seconds} s with one")
    setting.call("check", "--rate", 0, images.folder, status=2)
    return f"{', '.join(told)}; 0.5 s were due"


def small_units(setting, count):
    """A set of that many units of one-byte cells in one group, the sums of three disks wrong in each."""
    images = setting.encoded_file(source_of(setting, 6 * count), 3, 2, 1, 65_536, unit=1)
    turn = bytes(255 - byte for byte in range(256))
    for disk in (0, 1, 2):
        image = images.path(disk).read_bytes()
        start, _ = images.start(0)
        cells = images.p * images.stripes
        images.path(disk).write_bytes(image[:start] + image[start:start + cells].translate(turn) + image[start + cells:])
    return images


def source_of(setting, length):
    path = setting.new()
    path.write_bytes(noise(length))
    return path


def spent(setting, *words):
    """The seconds of the processor that a call takes, and its status."""
    pid = os.fork()
    if pid == 0:
        null = os.open(os.devnull, os.O_WRONLY)
        os.dup2(null, 1)
        os.dup2(null, 2)
        os.execv(setting.program, [str(setting.program), *map(str, words)])
    _, status, usage = os.wait4(pid, 0)
    return usage.ru_utime + usage.ru_stime, os.waitstatus_to_exitcode(status)


def many_gaps(setting):
    """Tens of thousands of units beyond repair: four times as many take about four times as long; 1,000 stretches are kept."""
    few, many = small_units(setting, 15_000), small_units(setting, 60_000)
    told = []
    for words in (["check"], ["repair"], ["decode"], ["rebuild", "--disk", 0]):
        seconds = []
        for images in (few, many):
            more = [setting.new()] if words == ["decode"] else []
            taken, status = spent(setting, *words, "--json", images.folder, *more)
            expect(status == 6, f"{words}: status {status}")
            seconds.append(taken)
        expect(seconds[1] < 8 * seconds[0] + 0.3, f"{words}: {seconds} s for 15,000 and 60,000 units")
        told.append(f"{words[0]} {seconds[1] / max(seconds[0], 0.001):.1f}")
    # other disks in every other unit: stretches that cannot be told as one
    images = few
    image = bytearray(images.path(2).read_bytes())
    for stripe in range(0, images.stripes, 2):
        for row in range(images.p):
            image[images.offset(stripe, row)] ^= 255
    images.path(2).write_bytes(image)
    images.lose(3)
    done = setting.told("rebuild", images.folder, status=6)
    expect(len(done["beyond"]) == 1000 and done["gaps"] == images.stripes, f"{len(done['beyond'])} stretches, {done['gaps']} stripes")
    expect(done.err.count(b"\n") == 1002 and b"too much is bad in 14000 stripes more" in done.err, done.err[-300:].decode())
    return f"{', '.join(told)} times as long"


def small_unreadable(setting):
    """One-byte cells of a disk that cannot be read: sectors are tried, not cells, and the film comes back."""
    if not can_trace(setting):
        return "left out: no tracing on this machine"
    film = noise(3 * 3 * 4096)
    images = setting.encoded(film, 3, None, 1, 4096, unit=4096)
    path, out, count = str(images.path(1)), setting.new(), 0
    traced = Traced(setting, "decode", images.folder, out)
    count = traced.fail_reads({path: [(LABEL, images.end())]})
    expect(traced.status == 0 and out.read_bytes() == film, f"status {traced.status}")
    sectors = -(-(images.end() - LABEL) // 512)
    expect(count < 4 * sectors, f"{count} reads failed of {sectors} sectors")
    return f"{count} reads failed of {sectors} sectors"


CHECKS = [bytes_asked, device_reads, unreadable, small_unreadable, memory, many_gaps, rates]
