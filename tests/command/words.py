"""Words of the command: usage, help, numbers."""

import re
import shutil
import subprocess

from harness import TOP, Done, expect, noise


def usage_errors(setting):
    """Words that are not of the usage: status 2, and nothing done."""
    film, folder = setting.new(), setting.new()
    film.write_bytes(noise(100))
    images = setting.encoded(noise(4000), 3, s=16).folder
    wrong = [[], ["no-such"], ["encode"], ["encode", film, folder], ["encode", "-p", 5, film], ["encode", "-p", 5, film, folder, "x"],
             ["encode", "-p", film, folder], ["encode", "-p", "five", film, folder], ["encode", "-p", "", film, folder],
             ["encode", "-p", "-5", film, folder], ["encode", "-p", "+5", film, folder], ["encode", "-p", "5X", film, folder],
             ["encode", "-p", "18446744073709551616", film, folder], ["encode", "-p", "16777216T", film, folder],
             ["encode", "-p", 5, "-p", 5, film, folder], ["encode", "-p", 5, "-g", 0, film, folder],
             ["encode", "-p", 5, "-g", 65537, film, folder], ["encode", "-p", 5, "-u", 8, "-g", 12, film, folder],
             ["encode", "-p", 5, "-u", 9, film, folder], ["encode", "-p", 5, "-u", 0, film, folder],
             ["check", "--rate", 0, images], ["repair"], ["repair", "--disk", 1, images], ["check", "--from", "x", images], ["encode", "-p", 5, "-q", "-q", film, folder],
             ["encode", "-p", 5, film, folder, "-s"], ["encode", "--", "-p", 5, film, folder], ["decode", images],
             ["info"], ["info", "--images"], ["info", images, images], ["check", "-n", images], ["rebuild"], ["rebuild", "--disk", images], ["rebuild", "--rates", "1,2", images],
             ["rebuild", "--test", "--plan", "rows", "--disk", 1, images], ["rebuild", "--test", "--disk", 0, "--disk", 1, images],
             ["plan", "-p", 5], ["plan", "-d", 1], ["plan", "-p", 5, "-d", 1, "x"], ["plan", "-p", 5, "-d", 1, "--csv", "--svg"],
             ["plan", "-p", 5, "-k", 4, "-d", 1, "--csv"], ["judge", "-p", 5, "-d", 1], ["space", "-p", 5, "--free", 1],
             ["space", "-p", 5, "--bytes", 1], ["space", "-p", 5, "--free", 1, "--bytes", 1, film], ["bill", "--bytes", 1],
             ["bill", "--rates", "1,2,3"], ["bill", "--rates", "1,2", "--bytes", 1], ["bill", "--rates", "1,2,3,4", "--bytes", 1],
             ["bill", "--rates", "1,,3", "--bytes", 1], ["help", "no-such"], ["help", "plan", "plan"], [b"\xff\xfe"]]
    for words in wrong:
        words = [word if isinstance(word, bytes) else str(word) for word in words]
        done = call_raw(setting, words)
        expect(done.status == 2 and done.out == b"", f"status 2 and no result expected: {done.told()}")
        expect(done.err.startswith(b"cuzhaveli: ") and b"  cuzhaveli " in done.err or b"usage: cuzhaveli " in done.err, done.told())
    expect(not folder.exists(), "a call with wrong words made a folder")
    return f"{len(wrong)} calls"


# thirteen wrong command lines, and what the answer says of the mistake
MISTAKES = [("encod -p 5 FILM NEW", "no command encod; is encode meant?"), ("rebiuld SET", "no command rebiuld; is rebuild meant?"),
            ("encode -p5 FILM", "DIR is missing: the folder of the images"), ("encode FILM NEW", "-p WIDTH is missing: the rows of a stripe"),
            ("encode -p five FILM NEW", "-p five: not a number below 2^64; give digits"),
            ("encode -p9 FILM NEW", "-p 9: the width is not one of 3, 5, 7, 11, 13, 17, 19, 23, 29, 31"),
            ("encode -p5 -k6 FILM NEW", "-k 6: the data disks are fewer than 2 or more than the width"),
            ("rebuild --disk SET", "DIR is missing"), ("rebuild --disk=R SET", "--disk R: no disk; give its number from 0 on, P or Q"),
            ("rebuild --disks=1 SET", "no option --disks; is --disk meant?"), ("check -q=1 SET", "-q takes no value; leave 1 out"),
            ("decode SET FILM extra", "extra is a word too many; leave it out"), ("plan -p5 -d", "-d needs DISK after it: the lost disk")]


def mistakes(setting):
    """Thirteen wrong command lines get answers that name the mistake and what to do."""
    film, images = setting.new(), setting.encoded(noise(4000), 3, s=16).folder
    film.write_bytes(noise(100))
    for line, answer in MISTAKES:
        places = {"FILM": film, "SET": "1" if "--disk SET" in line else images, "NEW": setting.new()}
        done = setting.call(*(places.get(word, word) for word in line.split()))
        expect(done.status in (2, 3) and done.out == b"" and answer in done.err.decode(), f"{answer!r} expected: {done.told()}")
    return f"{len(MISTAKES)} lines"


def call_raw(setting, words):
    done = subprocess.run([str(setting.program).encode(), *words], capture_output=True, stdin=subprocess.DEVNULL)
    return Done(words, done.returncode, done.stdout, done.stderr, None)


def refusals(setting):
    """What the library refuses: status 3, its number and its text."""
    film, folder = setting.new(), setting.new()
    film.write_bytes(noise(100))
    wrong = [(1, ["encode", "-p", 9, film, folder]), (1, ["plan", "-p", "4294967301", "-d", 0]), (1, ["plan", "-p", "16T", "-d", 0]),
             (13, ["encode", "-p", 5, "-k", 6, film, folder]), (13, ["plan", "-p", 5, "-k", 1, "-d", 0]),
             (2, ["encode", "-p", 5, "-s", 0, film, folder]), (2, ["encode", "-p", 5, "-s", "5K", film, folder]),
             (3, ["plan", "-p", 5, "-d", 7]), (3, ["plan", "-p", 5, "-d", 99, "--csv"]), (3, ["judge", "-p", 5, "-d", 7, film]),
             (11, ["space", "-p", 5, "--free", 1, "--bytes", "257T"]), (16, ["bill", "--rates", "1001,0,0", "--bytes", 1]),
             (17, ["bill", "--rates", "1,1,1", "--bytes", "16385T"]),
             (16, ["rebuild", "--rates", "0,0,1001", setting.encoded(noise(50), 3).folder])]
    for number, words in wrong:
        done = setting.call(*words, status=3)
        expect(done.err.endswith(f"(refusal {number})\n".encode()) and done.out == b"", done.told())
        expect(any(f"{option} {value}: ".encode() in done.err for option, value in zip(words, words[1:])), f"no option named: {done.told()}")
    expect(not folder.exists(), "a refused call made a folder")
    return f"{len(wrong)} calls"


def numbers(setting):
    """K, M, G and T; values in their options, flags together; options after operands; `--` before a name with a dash."""
    for text, value in (("0", 0), ("64G", 64 << 30), ("1K", 1024), ("3M", 3 << 20), ("1T", 1 << 40), ("0012", 12)):
        done = setting.told("bill", "--bytes", text, "--rates", "0,0,0")
        total = sum(done[band] for band in ("first", "second", "third"))
        expect(total == value, f"{value} expected: {done.told()}")
    drawn = {setting.call("plan", *width, *disk, status=0).out for width in (["-p", 5], ["-p5"], ["-p=5"]) for disk in (["-d", "P"], ["-dp"], ["-d=5"])}
    expect(len(drawn) == 1, "a value in its option draws another plan")
    images = setting.encoded(noise(100), 3)
    done = setting.call("rebuild", "-qn", "--disk=Q", images.folder, status=0)
    expect(done.out.startswith(b"Would rebuild disk Q "), done.told())
    film = setting.scratch / "-film"
    film.write_bytes(noise(100))
    folder = setting.new()
    setting.call("encode", "-p", 3, "--", "-film", folder, status=0, cwd=setting.scratch)
    out = setting.new()
    setting.call("decode", folder, out, "-q", status=0)
    expect(out.read_bytes() == noise(100), "a name with a dash: another film")
    return "18 calls"


def walk_through(setting):
    """The commands of README.md under 'By hand', as written, one after the other."""
    readme = (TOP / "README.md").read_text().split("## By hand")[1].split("\n## ")[0]
    commands = re.findall(r"^    (\S.*)$", readme, re.M)
    expect(len(commands) == 12, f"README.md has {len(commands)} commands by hand")
    folder = setting.new()
    (folder / "build").mkdir(parents=True)
    for name in ("cuzhaveli", "libcuzhaveli.a"):
        (folder / "build" / name).symlink_to(setting.program.parent / name)
    for name in ("docs", "include"):
        shutil.copytree(TOP / name, folder / name)
    told = []
    for command in commands:
        done = subprocess.run(["bash", "-o", "pipefail", "-c", command], cwd=folder, capture_output=True, text=True)
        stale = "disk-0" in done.stderr and " store" in command  # of the lost disks that the lines have
        expect(done.returncode == 0 and (done.stderr == "" or stale), f"{command}: {done}")
        told.append(done.stdout)
    expect(re.fullmatch(r"Rebuilt \d+ images: \d+ stripes, [\d.]+ MiB read\n", told[6]), f"the store's rebuild told {told[6]}")
    expect("by the balanced plan" in told[10] and re.search(r", 2[34] % less than by rows;", told[10]), f"the rebuild told {told[10]}")
    return f"{len(commands)} commands"


def demo(setting):
    """`make demo` comes to its end, a whole store is left at it, and the folder is not."""
    folder = setting.new(setting.on_disk)
    done = subprocess.run([TOP / "examples/demo", setting.program, folder], capture_output=True, text=True)
    expect(done.returncode == 0, f"examples/demo: {done}")
    shown = ("the ball\n", "19 of 30 surviving cells read", "frame 96 of 96", "all is well")
    expect(all(text in done.stdout for text in shown) and len(re.findall(r"[\d.]+ MiB read", done.stdout)) == 4, f"examples/demo says {done.stdout}")
    expect(done.stdout.endswith("1 store: 1 optimal, 0 degraded, 0 critical, 0 failed, 0 unknown\n"), f"examples/demo says {done.stdout}")
    expect(not folder.exists(), "examples/demo left its folder")
    return f"{done.stdout.count('$ cuzhaveli ')} commands"


CHECKS = [usage_errors, mistakes, refusals, numbers, walk_through, demo]
