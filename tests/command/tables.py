"""Help, manual and completion: made from one table, as the parser is; and every line of the synopsis runs."""

import itertools
import os
import re
import shutil
import stat
import subprocess

from harness import TOP, expect, noise

COMPLETION = TOP / "rust/command/completion"
WIDTHS = (60, 80, 100)  # columns of a terminal


def manual_text(path):
    return re.sub(r"\\f[BIPR]|\\&", "", path.read_text()).replace("\\-", "-").replace("\\e", "\\")


def synopsis():
    """The synopsis of each command that the manual lists, from its own page, without the program's name."""
    names = re.findall(r"^\.B cuzhaveli-(\w+)\(1\)$", manual_text(TOP / "docs/man/cuzhaveli.1"), re.M)
    pages = (manual_text(TOP / f"docs/man/cuzhaveli-{name}.1") for name in names)
    return [page.split(".SH SYNOPSIS\n.nf\ncuzhaveli ")[1].split("\n.fi")[0] for page in pages]


def one_table(setting):
    """docs/man/*.1 and the completions are what the program makes; every usage stands in help and in refusals."""
    lines = {line.split()[0]: line for line in synopsis()}
    shown = setting.call("help", status=0).out.decode()
    for words in ("--help", "-h"):
        expect(setting.call(words, status=0).out.decode() == shown, f"{words} is not help")
    expect(re.findall(r"^  cuzhaveli (.*)$", shown, re.M)[:len(lines)] == list(lines.values()), "help has other lines than the manual")
    pages = {"cuzhaveli.1", *(f"cuzhaveli-{name}.1" for name in lines)}
    expect({path.name for path in (TOP / "docs/man").glob("*.1")} == pages, "docs/man has other manual pages; `make manual`")
    for words, path in [([], TOP / "docs/man/cuzhaveli.1"), *(([name], TOP / f"docs/man/cuzhaveli-{name}.1") for name in lines)]:
        made = setting.call("help", "--man", *words, status=0).out
        expect(made == path.read_bytes(), f"{path.name} is another; `make manual`")
    for shell, name in (("bash", "cuzhaveli.bash"), ("zsh", "_cuzhaveli"), ("fish", "cuzhaveli.fish")):
        made = setting.call("help", "--completion", shell, status=0).out
        expect(made == (COMPLETION / name).read_bytes(), f"{name} is another; `make manual`")
    for name, line in lines.items():
        page = manual_text(TOP / f"docs/man/cuzhaveli-{name}.1")
        told = setting.call("help", name, status=0).out.decode()
        for words in ([name, "--help"], [name, "-h", "--no-such"]):
            expect(setting.call(*words, status=0).out.decode() == told, f"{words} is not help {name}")
        expect(told.startswith(f"usage: cuzhaveli {line}\n") and f"cuzhaveli {line}\n" in page, f"help or manual of {name} lacks {line}")
        expect(line in setting.call(name, "--no-such", status=2).err.decode(), f"{name} --no-such does not show its usage")
        for option in re.findall(r"-[-\w]+", line):
            told_of = [text for text in (told, page) if not re.search(rf"^(  |\.B ){option}\b", text, re.M)]
            expect(not told_of, f"{name}: a text lacks {option}")
    version = setting.call("--version", status=0).out
    expect(re.fullmatch(rb"cuzhaveli (\d+\.\d+\.\d+), library \1\n", version), f"--version says {version}")
    return f"{len(pages)} pages, 3 completions, {len(lines)} texts"


def manual_pages(setting):
    """The pages are what man understands, and no name in them is broken by a hyphen at the end of a line."""
    if not shutil.which("man"):
        return "left out: no man on this machine"
    pages = sorted((TOP / "docs/man").glob("*.1"))
    for page in pages:
        done = subprocess.run(["man", "--warnings", "-Tutf8", "-Z", "-l", page], capture_output=True, text=True)
        # where a table meets the end of a printed page is no fault
        told = [line for line in done.stderr.splitlines() if not line.endswith("will not fit on one page")]
        expect(done.returncode == 0 and not told, f"man says of {page.name}: {told}")
        for width in WIDTHS:
            shown = subprocess.run(["man", "-Tutf8", "-l", page], capture_output=True, text=True, env={**os.environ, "MANWIDTH": str(width), "MANPAGER": "cat"})
            broken = re.findall(r"^.*\w[-\u2010]$", re.sub(r"\x1b\[[0-9;]*m|.\x08", "", shown.stdout), re.M)
            expect(shown.returncode == 0 and shown.stdout and not broken, f"{page.name} in {width} columns breaks a word: {broken[:1]}")
    return f"{len(pages)} pages in {len(WIDTHS)} widths"


# what is typed, and what must be offered and what must not
TYPED = [("cuzhaveli re", {"rebuild", "repair"}, {"info", "--help"}), ("cuzhaveli rebuild --d", {"--disk"}, {"--test"}),
         ("cuzhaveli rebuild --plan ", {"balanced", "fewest", "own", "rows", "film"}, {"--plan"}), ("cuzhaveli help re", {"rebuild"}, {"info"}), ("cuzhaveli rebuild --disk ", {"P", "Q"}, {"--disk"}),
         ("cuzhaveli help --completion ", {"bash", "fish"}, {"--man"}), ("cuzhaveli info f", {"film"}, {"info"}),
         ("cuzhaveli bill --by", {"--bytes"}, {"film"}), ("cuzhaveli stripe re", {"rebuild", "rebuild-cells"}, {"scrub", "film"})]


def completions(setting):
    """Bash and fish offer what may stand there; zsh reads its script."""
    folder = setting.new()
    folder.mkdir()
    (folder / "film").write_bytes(b"")
    seen = []
    scripts = {"bash": 'source "$1"; read -ra COMP_WORDS <<<"$2"; case $2 in *" ") COMP_WORDS+=("");; esac; '
                       'COMP_CWORD=$((${#COMP_WORDS[@]} - 1)); _cuzhaveli; printf "%s\\n" "${COMPREPLY[@]}"',
               "fish": 'source $argv[1]; complete -C $argv[2]'}
    for shell, file in (("bash", "cuzhaveli.bash"), ("fish", "cuzhaveli.fish")):
        if not shutil.which(shell):
            setting.left_out.append(f"no {shell} on this machine")
            continue
        seen.append(shell)
        for typed, offered, others in TYPED:
            words = [shell, "-c", scripts[shell], *(["-"] if shell == "bash" else []), COMPLETION / file, typed]
            done = subprocess.run(words, capture_output=True, text=True, cwd=folder, env={**os.environ, "HOME": str(folder)})
            told = {line.split("\t")[0] for line in done.stdout.splitlines()}
            expect(done.returncode == 0 and offered <= told and not others & told, f"{shell}, {typed!r}: {told}, {done.stderr}")
    if not shutil.which("zsh"):
        setting.left_out.append("no zsh on this machine")
    else:
        seen.append("zsh")
        done = subprocess.run(["zsh", "-n", COMPLETION / "_cuzhaveli"], capture_output=True, text=True)
        expect(done.returncode == 0 and done.stderr == "", f"zsh says {done.stderr}")
    for line in synopsis():
        name, text = line.split()[0], (COMPLETION / "_cuzhaveli").read_text()
        part = text.split(f"\n    {name})\n")[1].split(";;")[0]
        missing = [option for option in re.findall(r"-[-\w]+", line) if f"{option}[" not in re.sub(r"[+=]\[", "[", part)]
        expect(not missing, f"the completion for zsh lacks {missing} of {name}")
    return f"{len(TYPED)} lines in {', '.join(seen)}"


def parsed(line):
    """The parts of a usage line: whether each is needed, and its alternatives, lists of words."""
    parts = re.findall(r"\[[^]]*\](?:\.\.\.)?|\([^)]*\)|-[-\w]+ [A-Z][\w,|]*|\S+", line)
    for part in parts:
        inner = part.removesuffix("...").strip("[]()")
        yield not part.startswith("["), [words.split() for words in inner.split(" | ")]


def variants(line):
    """Command lines of a usage: the needed words with each alternative, each other part with them, and all together."""
    parts = list(parsed(line))
    first = [alternatives[0] if needed else [] for needed, alternatives in parts]
    yield first
    for place, (needed, alternatives) in enumerate(parts):
        for words in alternatives[1:] if needed else alternatives:
            yield [*first[:place], words, *first[place + 1:]]
    yield [alternatives[0] for _, alternatives in parts]


def on_store(setting, words, film):
    """The words of a command on a store, without those for sets only, and what they stand for."""
    store, listed = setting.new(), setting.new()
    if words[0] == "create":
        return [*words, *(["--same-device"] if "--same-device" not in words else [])], {"STORE": store}
    setting.call("create", "-p", 3, "-s", 64, "--same-device", store, status=0)
    setting.call("put", store, "a", film, status=0)
    listed.write_text(f"{store}\n")
    if "--new" in words:
        old = ["--from", "FOLDER"] if "--from" in words else []
        words = [*(word for word in words if word in ("rebuild", "-q", "--json", "-n")), "--new", "D", *old, "DIR"]
        for path in (store / "disk-01").iterdir():
            path.unlink()
    return words, {"STORE": store, "STORE...": store, "DIR": store, "PACKAGE": "a", "OFFSET": 5, "FROM": film, "TO": setting.new(), "FOLDER": setting.scratch,
                   "FILE": {"board": listed, "put": film}.get(words[0], film.name)}


# the words of `stripe` that show each of its options, for stripes of 2,240 zeros
STRIPES = {"--disk": "rebuild --disk 0", "--test": "rebuild --disk 0 --test", "--missing": "rebuild-cells --missing 1,P.0",
           "--draw": "rebuild-cells --missing 1 --draw", "--row": "update --disk 0 --row 1", "--servers": "server-write --servers 2",
           "--server": "server-rebuild --servers 2 --server 1", "--loss": "server-rebuild --servers 2 --server 1 --loss 0.P", "--json": "check --json"}


def stripe_runs(setting, line):
    """Every option of `stripe` with an action that has it."""
    for option in {*re.findall(r"--[-\w]+", line), *STRIPES}:
        words = STRIPES[option].split()
        setting.call("stripe", *words, "-p", 5, "-k", 5, "-s", 64, input=bytes(2240 * 3 + 64 * 3 * ("--row" in words)), status=0)
    return len(STRIPES)


def synopsis_runs(setting):
    """Every line of the manual's synopsis, with each of its options, ends with status 0."""
    film, plan, drive = setting.new(), setting.new(), setting.new()
    film.write_bytes(noise(9000))
    plan.write_text("row,set,number\n" + "".join(f"{row},R,{row}\n" for row in range(5)))
    try:
        os.mknod(drive, stat.S_IFBLK | 0o600, os.makedev(7, 250))  # it is named, and never opened
    except OSError:
        drive = None
    kept = setting.encoded(noise(9000), 5, s=64).folder
    values = {"WIDTH": 5, "DISKS": 5, "CELL": 64, "UNIT": 2, "GROUP": 4, "STRIPE": 1, "BYTES": "1M", "N": 5000, "DISK": 0, "D": 1, "R": 2, "PLAN": plan,
              "A,B,C": "3,2,1", "SHELL": "zsh", "COMMAND": "encode", "DRIVE": drive, "FILE": plan, "FILE...": film}
    count = 0
    for line in synopsis():
        if line.startswith("stripe "):
            count += stripe_runs(setting, line)
            continue
        if line.startswith("mount "):
            continue  # by tests/mount, where its helper is
        all_of_set = [part for part in parsed(line) if part[1][0][0] not in ("--new", "--from")]
        for parts in [*variants(line), [alternatives[0] for _, alternatives in all_of_set]]:
            words = list(itertools.chain(*parts))
            if "DRIVE" in words and drive is None:
                continue
            places = {**values, "FILM": film if words[0] == "encode" else setting.new(), "DIR": setting.new() if words[0] == "encode" else kept}
            if {"STORE", "STORE...", "--new", "--list"} & set(words) or words[0] == "rebuild" and "--from" in words:
                words, more = on_store(setting, words, film)
                places.update(more)
            setting.call(*(places.get(word, word) for word in words), status=0)
            count += 1
    return f"{count} command lines"


CHECKS = [one_table, manual_pages, completions, synopsis_runs]
