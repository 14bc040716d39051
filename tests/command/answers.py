"""Answers: info, check, judge, space, bill, and files that cannot be read."""

from harness import LABEL, expect, noise


def checks(setting):
    """check names lost disks, tells how it read and what to do, and goes on where it was stopped."""
    images = setting.encoded(noise(5 * 5 * 16 * 10), 5, s=16, group=4, unit=2)
    good = images.images()
    done = setting.told("check", images.folder)
    read = images.disks * (images.end() - LABEL) + images.block_len * images.units()
    expect(done.found() == [] and done.sums() == (10, 0, 0, 0) and done["read"] == read and done.err == b"", done.told())
    expect(done["cached"] in ([], list(range(7))), done.told())
    images.lose(4, 6)
    done = setting.told("check", images.folder, status=1)
    expect(done.found() == [("lost", 4, "missing"), ("lost", 6, "missing")] and b"rebuild disks 4 and Q: cuzhaveli rebuild " in done.err, done.told())
    images.flip(1, images.offset(0, 0))
    done = setting.told("check", images.folder, status=6)
    expect(done.found()[2:] == [("bad", 1, 0, 0, 2, "sum"), ("beyond", 0, 2, (1, 4, 6))] and b"cannot be made right" in done.err, done.told())
    images.write({4: good[4], 6: good[6][:5000]})
    done = setting.told("check", images.folder, status=1)
    expect(done.found()[0] == ("lost", 6, "unfinished") and b"repair " in done.err and b"then rebuild disk Q" in done.err, done.told())
    images.write(good)
    for disk, stripe in ((1, 0), (2, 7), (3, 9)):
        images.flip(disk, images.offset(stripe, 1))
    for start, stripes, bad in ((0, 10, 3), (1, 10, 3), (2, 8, 2), (7, 4, 2), (8, 2, 1)):
        done = setting.told("check", "--from", start, images.folder, status=1 if bad else 0)
        expect(done.sums() == (stripes, bad, 0, 0), done.told())
    for start in (10, 1 << 60):
        done = setting.told("check", "--from", start, images.folder, status=2)
        expect(b"the set has 10 stripes" in done.err and not done.out, done.told())
    return "11 checks"


def infos(setting):
    images = setting.encoded(noise(7000), 7, 5, 16, 4)
    told = setting.told("info", images.folder).figures()
    wanted = {"set": images.set, "width": 7, "disks": 5, "cell": 16, "unit": 4, "group": 4, "stripes": 13, "length": 7000,
              "bytes": images.image_bytes(), "lost": []}
    expect(told == wanted and len(images.set) == 32, f"info says {told}")
    images.lose(2)
    expect(setting.told("info", images.folder, status=1)["lost"] == [2], "one lost")
    images.lose(5)
    expect(setting.told("info", images.folder, status=1)["lost"] == [2, 5], "two lost")
    images.lose(6)
    expect(b"disks 2, P and Q of set" in setting.call("info", images.folder, status=5).err, "three lost")
    setting.call("info", setting.new(), status=4)
    setting.call("info", images.path(0), status=4)
    done = setting.told("rebuild", "-n", setting.encoded(noise(10), 3).folder)
    expect((done["lost"], done["plan"], done["stripes"], done["read"]) == ([], "none", 0, 0), done.told())
    return "7 calls"


def judged(setting):
    """The judge's verdicts on a host's plan, in every form of the text that is allowed."""
    plan = setting.call("plan", "-p", 5, "-d", 1, "--csv", status=0).out.decode().splitlines()[1:]
    ours = "row,set,number\n" + "".join(",".join(line.split(",")[1:4]) + "\n" for line in plan)
    rows = "row,set,number\n" + "".join(f"{row},R,{row}\n" for row in range(5))
    early = "row,set,number\n3,D,2\n" + "".join(f"{row},R,{row}\n" for row in (0, 1, 2, 4))
    texts = [(0, (True, 19, 0, 0), ours), (0, (True, 25, 0, 0), rows), (0, (True, 19, 0, 0), ours.replace("\n", "\r\n").lower()),
             (0, (True, 25, 0, 0), rows.replace("3,R,3", "003,r,03")), (1, (False, 0, 8, 1), rows.replace("1,R,1", "0,R,0")),
             (1, (False, 0, 9, 0), early), (1, (False, 0, 7, 2), rows.replace("2,R,2", "2,R,3")), (1, (False, 0, 6, 4), rows.replace("4,R,4", "4,R,5")),
             (1, (False, 0, 22, 0), rows[:-1]), (1, (False, 0, 22, 0), ""), (1, (False, 0, 22, 0), rows + "5,R,5\n"),
             (1, (False, 0, 22, 0), rows.replace("4,R,4", "4,R,256")), (1, (False, 0, 22, 0), rows.replace("row", "ROW"))]
    for status, answer, text in texts:
        file = setting.new()
        file.write_bytes(text.encode())
        for name in (file, "-"):
            done = setting.told("judge", "-p", 5, "-d", 1, name, input=text.encode(), status=status)
            expect(tuple(done.figures().values()) == answer, f"{answer} expected: {done.told()}")
    setting.call("judge", "-p", 5, "-d", 1, setting.new(), status=4)
    return f"{2 * len(texts) + 1} plans"


def spaces_and_bills(setting):
    film = setting.new()
    film.write_bytes(noise(102_401))
    for words, status, answer in [(["--free", 40960, "--bytes", 102_401], 0, (2, 40960, True)),
                                  (["--free", "40959", film], 1, (2, 40960, False)),
                                  (["--free", "1M", film, film], 0, (4, 81920, True)),
                                  (["--free", "1T", "--bytes", "256T"], 1, (2748779070, 56294995353600, False)),
                                  (["--free", 0, "--bytes", 0], 0, (0, 0, True))]:
        done = setting.told("space", "-p", 5, *words, status=status)
        expect(tuple(done.figures().values()) == answer, f"{answer} expected: {done.told()}")
    setting.call("space", "-p", 5, "--free", 1, setting.new(), status=4)
    setting.call("space", "-p", 5, "--free", 1, setting.scratch, status=4)
    for options in ([], ["-s", 100, "-k", 4], ["-g", 16], ["-s", 512, "-u", 3, "-g", 9]):
        folder = setting.new()
        setting.call("encode", "-p", 5, *options, film, folder, status=0)
        taken = (folder / "disk-00.img").stat().st_size
        for free, fits in ((2 * taken, True), (2 * taken - 1, False)):
            done = setting.told("space", "-p", 5, *options, "--images", "--free", free, film, film, status=0 if fits else 1)
            expect((done["bytes"], done["fits"]) == (2 * taken, fits), f"an image has {taken}: {done.told()}")
    done = setting.told("bill", "--rates", "10,5,1", "--bytes", "65G")
    expect(tuple(done.figures().values()) == (68719476736, 1073741824, 0, 645), done.told())
    images = setting.encoded(noise(5 * 5 * 16 * 9), 5, s=16, group=4)
    images.flip(3, images.offset(0, 0))
    done = setting.told("rebuild", "--rates", "1000,5,1", "--disk", 1, images.folder)
    bill = setting.told("bill", "--rates", "1000,5,1", "--bytes", done["read"])
    expect(done["cents"] == bill["cents"] and done["mended"] == 1, done.told())
    expect(done["read"] > setting.told("rebuild", "-n", "--disk", 1, images.folder)["read"], done.told())
    return "20 calls"


CHECKS = [checks, infos, judged, spaces_and_bills]
