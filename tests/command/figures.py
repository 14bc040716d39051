"""What results say: one documented object for programs, words for people, colours on terminals alone."""

import os
import pty
import re

from ends import all_of
from harness import TOP, expect, noise
from tables import manual_text, synopsis


def fields(name, of="set"):
    """The fields of a command's object, of a set, a store, or what else it is of, by its manual page."""
    text = manual_text(TOP / f"docs/man/cuzhaveli-{name}.1")
    if ".SH JSON" not in text:
        return []
    listed = re.findall(r"^\.TP\n\.B (\w+)\n(.*)$", text.split("\n.SH JSON\n")[1].split("\n.SH ")[0], re.M)
    return [field for field, about in listed if not re.match(r"of a \w+:", about) or about.startswith(f"of a {of}:")]


def calls(setting):
    """A call of each command that tells figures, and its status: where all is well, and where not."""
    film, plan = setting.new(), setting.new()
    film.write_bytes(noise(9000))
    plan.write_text("row,set,number\n" + "".join(f"{row},R,{row}\n" for row in range(5)))
    images, bad = setting.encoded(noise(9000), 5, s=64, unit=2, group=4), setting.encoded(noise(9000), 5, s=64, unit=2, group=4)
    for disk in (0, 2, 5):
        for row in range(5):
            bad.flip(disk, bad.offset(3, row))
    return [(["encode", "-p", 5, film, setting.new()], 0), (["decode", images.folder, setting.new()], 0), (["info", images.folder], 0),
              (["check", images.folder], 0), (["check", bad.folder], 6), (["rebuild", "-n", images.folder], 0), (["rebuild", images.folder], 0),
              (["rebuild", "--disk", 1, images.folder], 0), (["rebuild", "-n", "--disk", "P", "--disk", 1, images.folder], 0),
              (["rebuild", "--disk", 1, bad.folder], 6), (["repair", images.folder], 0), (["repair", bad.folder], 6),
              (["plan", "-p", 5, "-d", "Q"], 0), (["judge", "-p", 5, "-d", 1, plan], 0), (["judge", "-p", 5, "-d", "P", film], 1),
              (["space", "-p", 5, "--free", 0, film], 1), (["bill", "--rates", "1,2,3", "--bytes", 1], 0)]


def store_calls(setting):
    """The same of the commands on stores."""
    film, small, store, bad = setting.new(), setting.new(), setting.new(), setting.new()
    film.write_bytes(noise(9000))
    small.write_bytes(b"x")
    made = [(["create", "-p", 3, "-s", 64, "--same-device", store], 0), (["create", "-p", 3, "-s", 64, "--same-device", bad], 0),
            (["put", "-n", store, "a", film], 0), (["put", store, "a", film], 0), (["put", bad, "a", film], 0), (["list", store], 0),
            (["list", store, "a"], 0), (["get", store, "a", setting.new()], 0), (["patch", "--at", 5, store, "a", film.name, small], 0)]
    yield from made
    for disk in range(3):
        next((bad / f"disk-{disk:02}").glob("*.img")).unlink()
    yield from [(["info", store], 0), (["check", store], 0), (["rebuild", "-n", store], 0), (["rebuild", store], 0), (["repair", store], 0),
                (["info", bad], 1), (["check", bad], 6), (["rebuild", bad], 6), (["repair", bad], 6), (["board", store, bad, film], 5),
                (["board", film], 5), (["remove", store, "a"], 0)]


def stripe_objects(setting):
    """Those of `stripe`, by what they are of."""
    for of, words, status in [("verdict", ["check"], 0), ("verdict", ["scrub"], 0), ("picture", ["rebuild-cells", "--missing", "1", "--draw"], 0),
                              ("picture", ["rebuild-cells", "--missing", "0,1,2", "--draw"], 3)]:
        told = setting.told("stripe", *words, "-p", 5, "-s", 64, input=bytes(2240), status=status).figures()
        expect(list(told) == fields("stripe", of), f"{words}: the object has {list(told)}, the manual {fields('stripe', of)}")
    return "stripe"


def objects(setting):
    """--json: one line, an object with just the fields of the manual, in their order; for every command that tells figures."""
    seen = {stripe_objects(setting)}
    for of, all_calls in (("set", calls), ("store", store_calls)):
        for words, status in all_calls(setting):
            told, wanted = setting.told(*words, status=status).figures(), fields(words[0], of)
            expect(list(told) == wanted, f"{words}: the object has {list(told)}, the manual {wanted}")
            seen.add(words[0])
    names = {line.split()[0] for line in synopsis()}
    expect(seen == {name for name in names if fields(name) or fields(name, "verdict")} == names - {"help", "mount"}, f"objects of {seen} were looked at, of {names}")
    images = setting.encoded(noise(9000), 5, s=64)
    setting.call("decode", "--json", images.folder, "-", status=2)
    plan = setting.told("plan", "-p", 5, "-d", 1).figures()
    text = "row,set,number\n" + "".join(f"{one['row']},{one['set']},{one['number']}\n" for one in plan["steps"])
    done = setting.told("judge", "-p", 5, "-d", 1, "-", input=text.encode())
    expect(done["reads"] == plan["reads"] == sum(plan["shares"]) == 19 and plan["rows"] == 25, f"{plan}, judged {done.told()}")
    return f"{len(seen)} commands"


# words, status, and what people read
READ = [("rebuild --disk 4 SET", 0, r"Rebuilt disk 4 by the balanced plan: 10 stripes, 60\.8 KiB read, 22 % less than by rows; busiest survivor \d\d\.\d KiB"),
        ("rebuild -n --disk P SET", 0, r"Would rebuild disk P by our plan: 10 stripes, 78\.1 KiB of cells read; busiest survivor 15\.6 KiB"),
        ("rebuild --disk=0 --disk=q SET", 0, r"Rebuilt disks 0 and Q from all survivors: 10 stripes, [\d.]+ KiB read; busiest survivor [\d.]+ KiB"),
        ("rebuild --disk=0 --rates 1,1,1 --plan rows SET", 0, r"Rebuilt disk 0 by rows: 10 stripes, [\d.]+ KiB read; busiest survivor [\d.]+ KiB; \w+ cents?"),
        ("rebuild SET", 0, "Nothing is lost"), ("repair SET", 0, r"Nothing was rewritten; [\d.]+ KiB read"),
        ("check SET", 0, r"Checked 10 stripes, [\d.]+ KiB read, (from the medium|of disks .* and Q perhaps from the page cache): all is well"),
        ("check BAD", 1, r"Disk P, row 1, stripes 2 to 3: does not fit its checksum\nChecked 10 stripes, .*: 0 lost, 1 bad, 0 dirty, 0 beyond repair"),
        ("repair BAD", 0, r"Repaired 1 piece; [\d.]+ KiB read"), ("info SET", 0, r"Set      [0-9a-f]{32}\nFilm     78\.1 KiB \(80000\)\n(.*\n)*Lost     none"),
        ("decode SET NEW", 0, r"Decoded 78\.1 KiB to \S+: [\d.]+ KiB read"), ("encode -p 3 FILM NEW", 0, r"Encoded 1 byte to 5 images in \S+: 1 stripe, set \w{32}"),
        ("judge -p 5 -d 1 FILM", 1, r"Not accepted: the text is not of a plan's form.* \(refusal 22\)"), ("bill --rates 5,1,1 --bytes 65G", 0, r"321 cents: 64\.0 GiB at 5 cents a GiB, 1\.0 GiB at 1 cent a GiB"),
        ("bill --rates 1,1,1 --bytes 1G", 0, r"1 cent: 1\.0 GiB at 1 cent a GiB"), ("space -p 5 --free 1 --bytes 1", 1, r"1 stripe, 20\.0 KiB of each disk: 20\.0 KiB too many"),
        ("space -p 5 --free 1T --bytes 1", 0, r"1 stripe, 20\.0 KiB of each disk: it fits")]


def people(setting):
    """Results in words, with singular and plural, and P and Q by their names."""
    images, bad = (setting.encoded(noise(80_000), 5, s=320, unit=2) for _ in range(2))
    film = setting.new()
    bad.flip(5, bad.offset(3, 1))
    film.write_bytes(b"x")
    for line, status, wanted in READ:
        places = {"SET": images.folder, "BAD": bad.folder, "FILM": film, "NEW": setting.new()}
        done = setting.call(*(places.get(word, word) for word in line.split()), status=status)
        expect(re.fullmatch(wanted + "\n", done.out.decode()), f"{wanted} expected: {done.told()}")
    return f"{len(READ)} calls"


def on_terminal(setting, words, **environment):
    """What a call writes to a terminal, results and errors."""
    ours, theirs = pty.openpty()
    names = {name: value for name, value in os.environ.items() if name not in ("NO_COLOR", "TERM")}
    setting.call(*words, stdout=theirs, stderr=theirs, env={**names, "TERM": "xterm", **environment})
    os.close(theirs)
    return all_of(ours)


def colours(setting):
    """Colours on a terminal, not with NO_COLOR, not on one that is dumb, not in a pipe or for programs."""
    images = setting.encoded(noise(900), 3, s=16)
    expect(b"\x1b[32mall is well\x1b[0m" in on_terminal(setting, ["check", images.folder]), "no colour on a terminal")
    expect(b"\x1b[31mcuzhaveli:\x1b[0m" in on_terminal(setting, ["check"]), "no colour of errors on a terminal")
    expect(b"\x1b[" in on_terminal(setting, ["check", images.folder], NO_COLOR=""), "NO_COLOR without a value is not set")
    for words in (["check", images.folder], ["check"], ["info", images.folder]):
        for name, value in (("NO_COLOR", "1"), ("TERM", "dumb")):
            expect(b"\x1b[3" not in on_terminal(setting, words, **{name: value}), f"{words} in colour in spite of {name}")
        done = setting.call(*words)
        expect(b"\x1b" not in done.out + done.err, f"colours in a pipe: {done.told()}")
    expect(b"\x1b" not in on_terminal(setting, ["info", "--json", images.folder]), "colours for programs")
    return "4 calls on terminals and in pipes"


CHECKS = [objects, people, colours]
