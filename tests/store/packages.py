"""What goes into packages and comes out: names, bytes, kinds of files, patches; boards and bills."""

import os

from harness import Traced, can_trace, noise
from shelf import Shelf, expect

FILM = noise(5000, 5)


def names_and_bytes(setting):
    """Any names and lengths come back, from files and folders, to a folder, a file and standard output."""
    shelf = Shelf(setting, 3, 3)
    package = tuple(sorted([(b"a", b""), (b"b c/d,e/\xff\n%", noise(77)), (b"b c/...", b"x"), (b"film.part", FILM), (b"film", noise(240)),
                            (b"-q", noise(3)), (b"img", noise(16 * 9))]))
    done = shelf.told("put", shelf.folder, "week 1, reel", shelf.files(package))
    expect(done["files"] == 7 and done["package"] == "week%201,%20reel" and done["done"], done.told())
    expect(shelf.get("week 1, reel") == package, "another package came back")
    listed = shelf.told("list", shelf.folder, "week 1, reel")
    files = {one["name"]: one for one in listed["files"]}
    expect(len(files) == 7 and files["b%20c/d,e/%FF%0A%25"]["length"] == 77 and files["a"] == {"name": "a", "length": 0, "set": ""}, listed.told())
    packages = [{"name": "week%201,%20reel", "files": 7, "length": sum(len(data) for _, data in package)}]
    expect(listed["packages"] == packages and shelf.told("list", shelf.folder).figures() == {"packages": packages, "files": []}, listed.told())
    shown = shelf.call("list", shelf.folder, status=0).out, shelf.call("list", shelf.folder, "week 1, reel", status=0).out
    expect(shown[0].endswith(b"  week%201,%20reel, 7 files\n") and shown[1].count(b"\n") == 7 and b"  77 bytes  b%20c/d,e/%FF%0A%25\n" in shown[1], shown)
    out = setting.new()
    shelf.call("get", shelf.folder, "week 1, reel", "film.part", out, status=0)
    expect(out.read_bytes() == FILM, "another file")
    done = shelf.call("get", shelf.folder, "week 1, reel", os.fsdecode(b"b c/d,e/\xff\n%"), "-", status=0)
    expect(done.out == noise(77), "another file on standard output")
    expect(shelf.call("get", shelf.folder, "week 1, reel", "a", "-", status=0).out == b"", "an empty file")
    shelf.call("get", shelf.folder, "week 1, reel", "film", out, status=4)
    expect(out.read_bytes() == FILM, "get wrote over a file")
    shelf.call("get", shelf.folder, "week 1, reel", setting.scratch, status=4)
    shelf.call("get", shelf.folder, "no", setting.new(), status=1)
    shelf.call("get", shelf.folder, "week 1, reel", "-", status=2)
    shelf.call("get", shelf.folder, "week 1, reel", "no", setting.new(), status=1)
    one, two = shelf.files(((b"x", b"1"),)), shelf.files(((b"y/z", b"2"),))
    shelf.call("put", shelf.folder, "p", one / "x", two, status=0)
    expect(shelf.get("p") == ((b"x", b"1"), (b"y/z", b"2")), "a file and a folder")
    shelf.call("put", shelf.folder, "p", one, one, status=4)
    for name in ("", ".", "..", "a/b", "/"):
        shelf.call("put", shelf.folder, name, one, status=2)
        shelf.call("remove", shelf.folder, name, status=2)
    shelf.call("get", shelf.folder, "p", "../x", setting.new(), status=2)
    file = shelf.files(((b"y", b"1"),))
    done = shelf.call("put", shelf.folder, "p", file, two, status=4)
    expect(b"name of a folder" in done.err, done.told())
    return "21 calls"


def kinds(setting):
    """Links, pipes, devices and empty folders are told and refused, and nothing is written."""
    shelf = Shelf(setting, 3, 2)
    make = {"link": lambda path: path.symlink_to("film"), "pipe": os.mkfifo, "empty folder": lambda path: path.mkdir(),
            "link to a folder": lambda path: path.symlink_to("..")}
    before = shelf.state()
    for kind, made in make.items():
        folder = shelf.files(((b"film", FILM), (b"subs/x", b"x")))
        made(folder / "subs" / "odd")
        done = shelf.call("put", shelf.folder, "a", folder, status=4)
        expect(b"nothing is put" in done.err and b"subs/odd" in done.err and shelf.state() == before, f"{kind}: {done.told()}")
        if kind != "empty folder":
            shelf.call("put", shelf.folder, "a", folder / "subs" / "odd", status=4)
    shelf.call("put", shelf.folder, "a", "/dev/null", status=4)
    shelf.call("put", shelf.folder, "a", setting.new(), status=4)
    many = setting.new()
    many.mkdir()
    for number in range(4097):
        (many / str(number)).touch()
    done = shelf.call("put", shelf.folder, "a", many, status=3)
    expect(b"(refusal 14)" in done.err and shelf.state() == before, done.told())
    (many / "0").unlink()
    shelf.call("put", shelf.folder, "a", many, status=0)
    long = setting.new()
    with open(long, "wb") as file:
        os.truncate(file.fileno(), 1 << 44)
    done = shelf.told("put", "-n", shelf.folder, "b", long, status=1)
    expect(not done["fits"] and not done["done"], done.told())
    return f"{len(make)} kinds, 4,096 and 4,097 files"


def changed_files(setting):
    """A file that changes while it is read is refused, and the store stands."""
    if not can_trace(setting):
        return "left out: no tracing on this machine"
    shelf = Shelf(setting, 3, 3)
    shelf.put("a", ((b"film", FILM),))
    before = shelf.state()
    film = setting.new()
    for change in ("byte", "longer", "shorter", "patch"):
        film.write_bytes(FILM)
        os.utime(film, (1, 1))
        words = ["patch", "--at", 0, shelf.folder, "a", "film", film] if change == "patch" else ["put", shelf.folder, "a", film]
        traced, done = Traced(setting, *words), False
        for name, first, *_ in traced.calls():
            if not done and name == "pwrite64" and ".img" in traced.opened(first):
                with open(film, "r+b") as file:
                    file.write(b"!") if change in ("byte", "patch") else os.truncate(file.fileno(), 6000 if change == "longer" else 10)
                done = True
        expect(done and traced.status == 4, f"{change}: status {traced.status}")
        expect(shelf.get("a") == ((b"film", FILM),), f"{change}: the package was changed")
        expect(all(shelf.images(disk) == {name for name in before[disk] if ".img" in name} for disk in before), f"{change}: images are left")
    return "4 changes"


def patches(setting):
    """Bytes of a file replaced, anywhere, with disks away; the rest of the package stands."""
    shelf = Shelf(setting, 3, 3)
    subs = (b"subs", noise(500, 9))
    film, more, count = FILM, setting.new(), 0
    shelf.put("a", ((b"empty", b""), (b"film", film), subs))
    for at, length, away in ((0, 1, ()), (17, 300, (1,)), (4999, 1, (0, 4)), (4990, 40, ()), (5030, 9, ()), (0, 5039, ()), (3, 0, ())):
        more.write_bytes(noise(length, at))
        shelf.call("rebuild", shelf.folder, status=0)
        done = shelf.call("patch", "--at", at, shelf.view(away), "a", "film", more, status=0)
        film = film[:at] + noise(length, at) + film[at + length:]
        expect(f"{length} bytes of {len(film)} are replaced".encode() in done.err, done.told())
        expect(shelf.get("a") == ((b"empty", b""), (b"film", film), subs), f"{length} bytes at {at}: another package")
        count += 1
    shelf.call("patch", "--at", len(film) + 1, shelf.folder, "a", "film", more, status=2)
    shelf.call("patch", "--at", 0, shelf.folder, "a", "no", more, status=1)
    shelf.call("patch", "--at", 0, shelf.folder, "a", "film", setting.scratch, status=4)
    more.write_bytes(b"now")
    shelf.call("patch", "--at", 0, shelf.folder, "a", "empty", more, status=0)
    expect(shelf.get("a")[0] == (b"empty", b"now"), "an empty file")
    shelf.call("rebuild", shelf.folder, status=0)
    shelf.call("check", shelf.folder, status=0)
    return f"{count + 4} patches"


def totals(done):
    return tuple(done[state] for state in ("optimal", "degraded", "critical", "failed", "unknown"))


def boards(setting):
    """A line for each store and the totals, with a status for monitoring."""
    shelves = [Shelf(setting, p, k) for p, k in ((3, 2), (3, 3), (5, 4), (5, 5))]
    for shelf in shelves:
        shelf.put("a", ((b"film", FILM),))
    told = shelves[0].told
    expect(totals(told("board", *(shelf.folder for shelf in shelves))) == (4, 0, 0, 0, 0), "all are well")
    views = [shelf.view(range(lost)) for lost, shelf in enumerate(shelves)]
    listed = setting.new()
    listed.write_bytes(b"# stores\n\n" + b"".join(bytes(view) + b"\n" for view in views))
    done = told("board", "--list", listed, status=5)
    expect([one["state"] for one in done["stores"]] == ["optimal", "degraded", "critical", "failed"], done.told())
    expect(totals(done) == (1, 1, 1, 1, 0), done.told())
    done = told("board", *views[:3], status=1)
    expect(done["stores"][2]["lost"] == [0, 1], done.told())
    shown = shelves[0].call("board", *views[:3], setting.scratch, status=5).out
    expect(f"{views[2]}: critical, disks 0 and 1\n".encode() in shown and shown.endswith(b"4 stores: 1 optimal, 1 degraded, 1 critical, 0 failed, 1 unknown\n"), shown)
    shelves[1].put("a", ((b"film", noise(9)),), shelves[1].view([4]))
    expect(told("board", shelves[1].folder, status=1)["stores"][0]["lost"] == [4], "a stale disk")
    shelves[3].put("b", ((b"film", FILM),))
    shelves[3].call("remove", shelves[3].view([2]), "b", status=0)
    expect(told("board", shelves[3].folder, status=1)["stores"][0]["lost"] == [2], "a stale disk with all images")
    os.unlink(shelves[2].drives[3] / sorted(shelves[2].images(3))[0])
    done = told("board", shelves[2].folder, status=1)
    expect((done["stores"][0]["state"], done["stores"][0]["lost"]) == ("degraded", [3]), f"an image that is missing: {done.told()}")
    done = told("info", shelves[2].folder, status=1)
    expect(done["lost"] == [3] and [(one["state"], one["lacks"]) for one in done["each"]] == [("whole", 0)] * 3 + [("lacking", 1)] + [("whole", 0)] * 2, done.told())
    shown = shelves[2].call("info", shelves[2].folder, status=1).out
    expect(b"Lost      disk 3\n" in shown and b"lacks 1, " in shown and shown.count(b" free\n") == 6, shown)
    shelves[0].call("board", *[views[0]] * 65, status=3)
    shelves[0].call("board", setting.scratch, status=5)
    shelves[0].call("board", status=2)
    shelves[0].call("board", "--list", listed, views[0], status=2)
    listed.write_bytes(b"# none\n")
    shelves[0].call("board", "--list", listed, status=2)
    return "11 boards"


def removed_bytes(setting):
    """A removed package's images are gone from every disk that is there, and the others stand."""
    shelf = Shelf(setting, 3, 3)
    shelf.put("a", ((b"film", FILM), (b"x", b"x")))
    shelf.put("b", ((b"film", noise(9)),))
    expect(all(len(shelf.images(disk)) == 3 for disk in range(5)), "images")
    shelf.call("remove", shelf.folder, "a", status=0)
    expect(all(len(shelf.images(disk)) == 1 for disk in range(5)), "images of a removed package")
    expect(shelf.get("a") is None and shelf.get("b") == ((b"film", noise(9)),), "remove")
    shelf.call("remove", shelf.folder, "a", status=1)
    return "two packages"


CHECKS = [names_and_bytes, kinds, changed_files, patches, boards, removed_bytes]
