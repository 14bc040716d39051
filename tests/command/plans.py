"""Rebuilds of one disk by any plan: the same bytes, read as the plan's picture says."""

import re

from harness import TOP, expect, noise


def shares(setting, images, lost, *options):
    """What the picture of a plan says is read of each disk of a stripe."""
    text = setting.call("plan", "-p", images.p, "-k", images.k, "-d", lost, *options, status=0).out.decode()
    return [int(share) for share in re.search(r"^read (.*?) *at most", text, re.M)[1].split() if share != "x"]


def rebuilt(setting, images, lost, *options):
    """What a rebuild of a disk by a plan told; its image must be the same, and -n must have said what it reads."""
    before = images.path(lost).read_bytes()
    would = setting.told("rebuild", "-n", *options, "--disk", lost, images.folder)
    expect(images.path(lost).read_bytes() == before and not images.part(lost).exists(), "-n wrote something")
    done = setting.told("rebuild", *options, "--disk", lost, images.folder)
    expect(images.path(lost).read_bytes() == before, f"disk {lost} by {options}: other bytes")
    blocks = images.block_len * images.units()
    expect(done["read"] == would["read"] + blocks and done["plan"] == would["plan"], f"{options}: would {would.told()}, did {done.told()}")
    expect(would["busiest"] <= done["busiest"] <= would["busiest"] + blocks, f"{options}: would {would.told()}, did {done.told()}")
    return would


def every_plan(setting):
    """Balanced, fewest, own, rows, relief of each disk, files: by -n and by the rebuild as in the picture; and which is taken unasked."""
    count = 0
    for p, k, s, unit, group in [(5, None, 64, 2, 4), (7, 4, 24, None, None), (7, 5, 24, None, None), (11, None, 8, 1, 1)]:
        images = setting.encoded(noise(9 * (k or p) * p * s - 5), p, k, s, group, unit=unit)
        each = s * images.stripes
        file = setting.new()
        file.write_text("row,set,number\r\n" + "".join(f"0{row},r,{row}\r\n" for row in reversed(range(p))))
        for lost in range(images.disks):
            data = lost < images.k
            own, balanced, fewest = (shares(setting, images, lost, *words) for words in ([], ["--balanced"], ["--fewest"]))
            wanted = [(["--plan", "own"], own, "own"), (["--plan=balanced"], balanced, "balanced" if data else "own"),
                      (["--plan", "fewest"], fewest, "fewest" if data else "own")]
            wanted.append(([], balanced, "balanced") if data and sum(balanced) <= sum(own) else ([], own, "own"))
            if data:
                rows = [p] * images.k
                wanted += [(["--plan", "rows"], rows, "rows"), (["--plan", file], rows, "file")]
                wanted += [(["--relieve", other], shares(setting, images, lost, "--relieve", other), "relief") for other in range(images.k) if other != lost]
            for options, given, name in wanted:
                would = rebuilt(setting, images, lost, *options)
                expect(would["plan"] == name and would["read"] == sum(given) * each, f"p {p}, lost {lost}, {options}: {given} a stripe, would {would.told()}")
                expect(would["busiest"] == max(given) * each, f"p {p}, lost {lost}, {options}: {given} a stripe, would {would.told()}")
                count += 1
            if data and k is None:
                expect(sum(balanced) == (3 * p * p + 1) // 4 and max(balanced) == -(-(3 * p - 1) // 4), f"p {p}, lost {lost}: balanced {balanced}")
                relieved = (lost + 1) % images.k
                share = shares(setting, images, lost, "--relieve", relieved)
                expect(sum(share) == sum(balanced) and share[relieved - (relieved > lost)] == (p + 1) // 2, f"p {p}, lost {lost}: relief {share}")
    return f"{count} rebuilds"


def relieved_most(p, k, lost):
    """The cells that the fewest plan leaves unread of those that rows read: the most that a step of a progression does."""
    return max(sum(min(step * (disk - lost) % p, -step * (disk - lost) % p) for disk in range(k)) for step in range(1, p))


def fewest_plans(setting):
    """plan --fewest reads what the formula says, in every array up to 13 rows; the manual has its numbers for 5 of 7 bays."""
    count = 0
    for p in (3, 5, 7, 11, 13):
        for k in range(2, p + 1):
            for lost in range(k + 2):
                own, fewest = (setting.told("plan", "-p", p, "-k", k, "-d", lost, *words).figures() for words in ([], ["--fewest"]))
                reads = k * p - relieved_most(p, k, lost) if lost < k else own["reads"]
                expect(fewest["reads"] == sum(fewest["shares"]) == reads, f"p {p}, k {k}, lost {lost}: {fewest}, not {reads}")
                count += 1
    seen = {}
    for name in ("balanced", "fewest"):
        told = [setting.told("plan", "-p", 7, "-k", 5, "-d", lost, f"--{name}").figures() for lost in range(5)]
        seen[name] = [(one["reads"], max(one["shares"])) for one in told]
    (balanced,), (few, alike) = ({*seen["balanced"]}, sorted({*seen["fewest"]}))
    expect([lost for lost in range(5) if seen["fewest"][lost] == few] == [2], f"of 5 of 7 bays: {seen}")
    said = (f"row parity reads {told[0]['rows']} cells of a stripe, the balanced plan {balanced[0]}, of a disk at most {balanced[1]}. "
            f"The fewest plan reads {alike[0]}, of a disk at most {alike[1]}; for disk 2 it reads {few[0]}, at most {few[1]}.")
    text = " ".join((TOP / "docs/man/cuzhaveli.1").read_text().split())
    expect(said in text, f"docs/man/cuzhaveli.1 does not say: {said}")
    return f"{count} plans"


def wrong_plans(setting):
    """Plans that cannot be: nothing is written, and the answer names the plan."""
    images = setting.encoded(noise(5000), 5, s=16)
    before = images.state()
    early, short = setting.new(), setting.new()
    early.write_text("row,set,number\n3,D,2\n" + "".join(f"{row},R,{row}\n" for row in (0, 1, 2, 4)))
    short.write_text("row,set,number\n")
    for words, status, answer in [(["--plan", early], 3, f"--plan {early}: another lost cell of a step's set is still missing (step 0) (refusal 9)"),
                                  (["--plan", short], 3, "(refusal 22)"), (["--plan", "balance"], 2, "--plan balance: no such plan, and no file; is balanced meant?"),
                                  (["--plan", images.folder], 4, "Is a directory"), (["--relieve", 1], 3, "--relieve 1: two disks that must differ are the same"),
                                  (["--relieve", "P"], 3, "--relieve P: the array has no disk"), (["--plan", "own", "--relieve", 2], 2, "exclude each other"),
                                  (["--plan", "own", "--test"], 2, "exclude each other"), (["--disk", "Q", "--plan", "own"], 2, "with two disks lost"),
                                  (["--disk", "P", "--relieve", 2], 2, "with two disks lost")]:
        done = setting.call("rebuild", "--disk", 1, *words, images.folder, status=status)
        expect(answer in done.err.decode() and done.out == b"", f"{answer!r} expected: {done.told()}")
        expect(images.state() == before, f"{words}: something was written")
    for words in (["--csv", "--balanced"], ["--csv", "--fewest"], ["--balanced", "--fewest"], ["--fewest", "--relieve", 2]):
        setting.call("plan", "-p", 5, "-d", 1, *words, status=2)
    return "14 calls"


CHECKS = [every_plan, fewest_plans, wrong_plans]
