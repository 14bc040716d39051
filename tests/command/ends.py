"""Ends of all sorts: kill -9 at any moment, Ctrl-C, full devices, closed pipes; and progress up to them."""

import os
import pty
import re
import signal
import subprocess
import time

from harness import CHANGES, Set, Traced, can_trace, expect, noise


def killed_at(setting, words, moment):
    """Kills the program just before its system call of that number that changes something; False if it ends before."""
    traced = Traced(setting, *words)
    seen = 0
    for name, *_ in traced.calls():
        if name in CHANGES:
            seen += 1
            if seen == moment:
                traced.kill()
                return True
    expect(traced.status == 0, f"{words} ended with {traced.status}")
    return False


def killed_rebuilds(setting):
    """kill -9 at every system call of a rebuild that changes something: the next call ends it, byte for byte."""
    if not can_trace(setting):
        return "left out: no tracing on this machine"
    kills = kept = 0
    for lost in ((1,), (0, 5), (4, 6)):
        images = setting.encoded(noise(5 * 5 * 16 * 10 - 3), 5, s=16, group=4, unit=2)
        before = images.images()
        moment = 1
        while True:
            images.lose(*lost)
            ended = not killed_at(setting, ["rebuild", images.folder], moment)
            for disk in lost:
                whole = images.path(disk).exists()
                expect(not whole or images.path(disk).read_bytes() == before[disk], f"kill {moment}: an image that is not whole")
            done = setting.told("rebuild", images.folder)
            expect(images.images() == before, f"lost {lost}, kill {moment}: other bytes after going on")
            left = [path.name for path in images.folder.iterdir() if not path.name.endswith(".img")]
            expect(not left, f"kill {moment}: {left} is left")
            kept = max(kept, done["kept"])
            if ended:
                break
            kills, moment = kills + 1, moment + 1
    expect(kept == images.stripes, f"at most {kept} stripes were kept")
    return f"{kills} kills"


def killed_encodes(setting):
    """kill -9 in an encode: no set stands there, or the whole one, perhaps with images that a rebuild names."""
    if not can_trace(setting):
        return "left out: no tracing on this machine"
    film = setting.new()
    film.write_bytes(noise(3 * 3 * 8 * 5 + 1))
    kills, moment, seen = 0, 1, set()
    while True:
        folder = setting.new()
        ended = not killed_at(setting, ["encode", "-p", 3, "-s", 8, "-u", 1, "-g", 2, film, folder], moment)
        done = setting.call("info", folder)
        expect(done.status in (0, 1, 4, 5), done.told())
        seen.add(done.status)
        if done.status < 2:
            images = Set(folder)
            expect(setting.film(images) == film.read_bytes(), f"kill {moment}: a set with names that is not whole")
            setting.call("rebuild", folder, status=0)
            setting.call("check", folder, status=0)
        if ended:
            break
        kills, moment = kills + 1, moment + 1
    expect(seen >= {0, 1, 5}, f"only the statuses {seen} were seen")
    return f"{kills} kills"


def killed_repairs(setting):
    """kill -9 in a repair: the film is the same at any moment, and the next repair ends it."""
    if not can_trace(setting):
        return "left out: no tracing on this machine"
    film = noise(5 * 5 * 16 * 6)
    images = setting.encoded(film, 5, s=16, group=4, unit=2)
    before = images.images()
    kills, moment = 0, 1
    while True:
        images.write(before)
        for disk, stripe, row in ((1, 0, 2), (4, 0, 3), (4, 5, 0), (6, 2, 1)):
            images.flip(disk, images.offset(stripe, row))
        images.flip(2, 5)
        images.flip(3, images.block(1))
        ended = not killed_at(setting, ["repair", images.folder], moment)
        expect(setting.film(images) == film, f"kill {moment}: another film")
        setting.call("repair", images.folder, status=0)
        expect(images.images() == before, f"kill {moment}: other images")
        if ended:
            break
        kills, moment = kills + 1, moment + 1
    return f"{kills} kills"


def steps(setting, *words):
    """What a call writes, syncs and names, in order: the name of the call and of the file."""
    traced, seen = Traced(setting, *words), []
    for name, first, second, third in traced.calls():
        if name in ("pwrite64", "fsync", "fdatasync"):
            seen.append((name, traced.opened(first).rsplit("/", 1)[1]))
        elif name in ("rename", "renameat2"):
            seen.append(("name", traced.text(first if name == "rename" else second).rsplit("/", 1)[1]))
    expect(traced.status == 0, f"{words} ended with {traced.status}")
    return seen


def order(setting):
    """All is synced before the first image gets its name, then the folder; repair syncs one disk before the next."""
    if not can_trace(setting):
        return "left out: no tracing on this machine"
    film = setting.new()
    film.write_bytes(noise(5 * 5 * 16 * 10))
    folder = setting.new()
    taken = {"encode": steps(setting, "encode", "-p", 5, "-s", 16, "-g", 4, film, folder)}
    images = Set(folder)
    images.lose(1, 4)
    taken["rebuild"] = steps(setting, "rebuild", folder)
    for what, seen in taken.items():
        names = [place for place, (name, _) in enumerate(seen) if name == "name"]
        expect(len(names) == {"encode": 7, "rebuild": 2}[what], f"{what}: {len(names)} names are given")
        unsynced = set()
        for name, file in seen[:names[0]]:
            unsynced = unsynced | {file} if name == "pwrite64" else unsynced - {file}
        expect(not unsynced, f"{what}: {unsynced} named before it was synced")
        expect(("fsync", folder.name) in seen[names[-1]:], f"{what}: the folder is not synced after the names")
        expect(not any(name == "pwrite64" for name, _ in seen[names[0]:]), f"{what}: written after a name was given")
    out = setting.new()
    seen = steps(setting, "decode", folder, out)
    expect([name for name, _ in seen[-3:]] == ["fsync", "name", "fsync"], f"decode ends with {seen[-3:]}")
    for disk in (1, 4):
        images.flip(disk, images.offset(0, 0))
    seen = steps(setting, "repair", folder)
    expect([name for name, _ in seen] == ["pwrite64", "fsync", "pwrite64", "fsync"], f"repair does {seen}")
    return "an encode, a rebuild, a decode and a repair"


def full_devices(setting):
    """Output that cannot be written: status 4, and nothing half done is left."""
    images = setting.encoded(noise(4000), 3, s=16)
    full = open("/dev/full", "wb")
    setting.call("decode", images.folder, "/dev/full", status=4)
    for words in (["decode", images.folder, "-"], ["plan", "-p", 5, "-d", 1], ["help"], ["info", images.folder], ["check", images.folder],
                  ["--version"], ["bill", "--rates", "1,2,3", "--bytes", 5], ["repair", images.folder]):
        done = setting.call(*words, status=4, stdout=full)
        expect(b"standard output" in done.err, done.told())
        done = setting.call(*words, status=4, stdout=None, preexec_fn=lambda: os.close(1))
        expect(b"standard output: closed" in done.err, done.told())
    # a film that goes to standard output by another name has no result behind it
    done = setting.call("decode", images.folder, "/dev/stdout", status=0)
    expect(done.out == noise(4000), "decode to /dev/stdout gave other bytes than the film")
    # a closed input is no empty film, nor a text
    folder = setting.new()
    for words in (["encode", "-p", 3, "-", folder], ["judge", "-p", 5, "-d", 1, "-"]):
        done = setting.call(*words, status=4, stdin=None, preexec_fn=lambda: os.closerange(0, 1))
        expect(b"standard input: closed" in done.err, done.told())
    expect(not folder.exists(), "an encode without an input left a folder")
    # a set whose line cannot be printed stands all the same
    folder = setting.new()
    setting.call("encode", "-p", 3, "-", folder, input=b"film", status=4, stdout=full)
    expect(setting.film(Set(folder)) == b"film", "a set was taken away because its line could not be printed")
    Set(folder).lose(0)
    setting.call("rebuild", folder, status=4, stdout=full)
    setting.call("check", folder, status=0)
    film, folder = setting.new(), setting.new()
    film.write_bytes(noise(40_000))
    limit = ["sh", "-c", 'ulimit -f 8; exec "$0" "$@"', setting.program]
    done = subprocess.run([*limit, "encode", "-p", "3", film, folder], capture_output=True)
    expect(done.returncode == 4 and b"disk-00.img.part, byte" in done.stderr, f"encode on a full disk: {done}")
    expect(not list(folder.iterdir()), "an encode that failed left images")
    out = setting.new()
    done = subprocess.run([*limit, "decode", images.folder, out], capture_output=True)
    expect(done.returncode == 0, f"decode of a short film: {done}")
    setting.call("encode", "-p", 3, film, folder, status=0)
    out = setting.new()
    done = subprocess.run([*limit, "decode", folder, out], capture_output=True)
    expect(done.returncode == 4 and b"byte" in done.stderr, f"decode on a full disk: {done}")
    expect(not list(setting.scratch.glob(f"{out.name}*")), "a decode that failed left a film")
    good = Set(folder).images()
    Set(folder).lose(1)
    done = subprocess.run([*limit, "rebuild", folder], capture_output=True)
    expect(done.returncode == 4 and not Set(folder).path(1).exists(), f"rebuild on a full disk: {done}")
    setting.call("rebuild", folder, status=0)
    expect(Set(folder).images() == good, "gone on after a full disk: other bytes")
    return "26 calls"


def closed_pipes(setting):
    """A reader that goes away: no panic, status 4."""
    images = setting.encoded(noise(3 * 3 * 4096 * 40), 3)
    for words in (["plan", "-p", "31", "-d", "0", "--svg"], ["decode", images.folder, "-"], ["help"]):
        reader, writer = os.pipe()
        os.close(reader)
        setting.call(*words, stdout=writer, status=4)
        os.close(writer)
    setting.call("plan", "-p", 5, "-d", 1, stderr=open("/dev/full", "wb"), status=0)
    setting.call("plan", "-p", 9, "-d", 1, stderr=open("/dev/full", "wb"), status=3)
    return "5 calls"


def all_of(terminal):
    """What was written to a terminal that is closed at the other end."""
    text = b""
    try:
        while more := os.read(terminal, 4096):
            text += more
    except OSError:
        pass
    os.close(terminal)
    return text


def progress(setting):
    """A bar with rate and time left on a terminal, for work of over a second alone, and not with -q; results are one line all the same."""
    images = setting.encoded(noise(5 * 5 * 256 * 40), 5, s=256, unit=1)
    column = images.p * images.s * images.stripes
    film = setting.new()
    film.write_bytes(noise(100))
    slow = {"rebuild": ["--disk", 1, "--rate", column // 2], "check": ["--rate", column * 2 // 3], "repair": ["--rate", column * 2 // 3]}
    bar = rb"\[#*\.*\] +\d+ %  [\d.]+ (bytes|[KMG]iB)/s  \d+:\d\d left"
    for name, options in slow.items():
        for quiet, wanted in (([], True), (["-q"], False)) if name == "check" else (([], True),):
            ours, theirs = pty.openpty()
            done = setting.call(name, *quiet, *options, images.folder, stderr=theirs, status=0)
            os.close(theirs)
            shown = all_of(ours)
            expect(done.out.count(b"\n") == 1, done.told())
            expect(bool(re.search(name.encode() + rb"[^\[]* " + bar, shown)) == wanted and wanted == bool(shown), f"{name} {quiet}: {shown}")
    for words in (["rebuild", "--disk", 1, images.folder], ["encode", "-p", 3, film, setting.new()]):
        ours, theirs = pty.openpty()
        setting.call(*words, stderr=theirs, status=0)
        os.close(theirs)
        expect(all_of(ours) == b"", f"a bar for {words}, which takes no second")
    done = setting.call("check", *slow["check"], images.folder, status=0)
    expect(done.err == b"", f"no terminal, no minute, and yet: {done.told()}")
    return "on a terminal, quiet, and without"


def stopped(setting, words, ready, how=signal.SIGINT, **more):
    """What a call says that is stopped once something is ready; it ends by the signal, also where the tests ignore it."""
    with subprocess.Popen([setting.program, *map(str, words)], stdout=subprocess.PIPE, stderr=subprocess.PIPE,
                          preexec_fn=lambda: signal.signal(how, signal.SIG_DFL), **more) as child:
        until = time.monotonic() + 20
        while not ready() and child.poll() is None and time.monotonic() < until:
            time.sleep(0.01)
        time.sleep(0.3)
        child.send_signal(how)
        _, err = child.communicate()
    expect(child.returncode == -how, f"{words} ended with {child.returncode}: {err}")
    return err.decode()


def interrupts(setting):
    """Ctrl-C and kill leave things as they are and say how to go on; doing that ends it."""
    film, images = setting.new(), setting.encoded(noise(5 * 5 * 256 * 400), 5, s=256, unit=1)
    film.write_bytes(noise(5000))
    before = images.images()
    images.lose(1)
    for how in (signal.SIGINT, signal.SIGTERM):
        told = stopped(setting, ["rebuild", "--rate", "100K", images.folder], images.part(1).exists, how)
        expect(told.endswith("cuzhaveli: stopped; what is rebuilt stays; the same command goes on\n"), told)
        expect(images.part(1).exists() and not images.path(1).exists(), "a rebuild that was stopped left no part")
    done = setting.told("rebuild", images.folder)
    expect(images.images() == before and done["kept"] > 0, f"gone on after a stop: {done.told()}")
    images.flip(2, images.offset(300, 0))
    told = stopped(setting, ["check", "--rate", "200K", images.folder], lambda: True)
    again = re.fullmatch(r"cuzhaveli: stopped; to go on: cuzhaveli check --from (\d+) (.*)\n", told)
    expect(again and again[2] == str(images.folder) and 0 < int(again[1]) <= 300, f"a check that was stopped says {told}")
    done = setting.told("check", "--from", again[1], images.folder, status=1)
    expect(done.sums() == (400 - int(again[1]), 1, 0, 0), done.told())
    told = stopped(setting, ["repair", "--rate", "200K", images.folder], lambda: True)
    expect("the same command goes on" in told, told)
    setting.call("repair", images.folder, status=0)
    expect(images.images() == before, "repaired after a stop: other images")
    folder, out = setting.new(), setting.new()
    told = stopped(setting, ["encode", "-p", 3, "-", folder], lambda: list(folder.glob("*")) if folder.exists() else [], stdin=subprocess.PIPE)
    expect(f"no set is in {folder} yet: remove its .part files, and encode again" in told, told)
    for part in folder.iterdir():
        expect(part.name.endswith(".part"), f"a stopped encode left {part}")
        part.unlink()
    setting.call("encode", "-p", 3, film, folder, status=0)
    with subprocess.Popen([setting.program, "check", "-q", "--rate", "100K", images.folder], stdout=subprocess.DEVNULL,
                          preexec_fn=lambda: signal.signal(signal.SIGINT, signal.SIG_IGN)) as child:
        time.sleep(0.3)
        child.send_signal(signal.SIGINT)
        time.sleep(0.3)
        expect(child.poll() is None, "a call that was started to ignore Ctrl-C ended by it")
        child.kill()
    return "6 stops"


CHECKS = [killed_rebuilds, killed_encodes, killed_repairs, order, full_devices, closed_pipes, progress, interrupts]
