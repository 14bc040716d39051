"""`stripe` on raw stripes, held to the vectors and to a plain code in Python."""

import collections
import json
import os
import random
import resource
import select
import subprocess

from harness import expect, noise
from plain_code import Code, listed, place_of, same, xored


def stripe_vectors(setting):
    """Encode, check and scrub as the vectors say, for every array; updates and rebuilds of some lines of each."""
    count = collections.Counter()
    for code, lines in listed("encode.txt"):
        stripes = [bytes.fromhex(words[0]) for _, words in lines]
        parity = [*code.column(code.k), *code.column(code.k + 1)]
        same(code.called(setting, "encode", input=[code.spoiled(one, parity) for one in stripes]), stripes, f"encode {code.options}")
        count["encoded"] += len(stripes)
    for code, lines in listed("scrub.txt"):
        stripes, verdicts = [], []
        for word, (first, *words) in lines:
            if word == "stripe":
                whole = bytes.fromhex(first)
                continue
            cells = code.cells(whole)
            for cell, digits in zip(words[::2], words[1::2]):
                cells[place_of(code, cell)] ^= int(digits, 16)
            stripes.append(code.data(cells))
            verdicts.append(first)
        done = code.called(setting, "scrub", input=stripes, status=1)
        expect(done.out.decode().split("\n") == [*verdicts, ""], f"scrub {code.options}: {done.out}")
        lines = [f"Stripe {n} is not clean: {', '.join(code.dirty(one))}\n" for n, one in enumerate(stripes) if code.dirty(one)]
        same(code.called(setting, "check", input=stripes, status=1), [line.encode() for line in lines], f"check {code.options}")
        count["examined"] += len(stripes)
    for number, (code, ((_, [dirty]), *lines)) in enumerate(listed("update.txt")):
        _, words = lines[-1] if number % 2 else lines[number // 2 % len(lines)]  # the last is of an extra cell, if there is one
        cells = code.cells(bytes.fromhex(dirty))
        for cell, digits in zip(words[::2], words[1::2]):
            cells[place_of(code, cell)] = int(digits, 16)
        disk, row = words[0].split(".")
        done = code.called(setting, "update", "--disk", disk, "--row", row, input=[bytes.fromhex(dirty), bytes.fromhex(words[1])])
        same(done, [code.data(cells)], f"update {code.options} {words[0]}")
        count["updated"] += 1
    for turn, name in enumerate(("one.txt", "two.txt", "cells.txt")):
        for number, (code, lines) in enumerate(listed(name)):
            all_of_it = (code.p, code.k) in ((3, 2), (5, 5)) and name != "two.txt"
            some = range(len(lines)) if all_of_it else [1 + 5 * number % (len(lines) - 1)] if number % 3 == turn else []
            count["rebuilt"] += sum(rebuilt_line(setting, code, lines, one) for one in some)
    return ", ".join(f"{number} {what}" for what, number in count.items())


def rebuilt_line(setting, code, lines, number):
    """Whether a line of one.txt, two.txt or cells.txt was tried."""
    word, words = lines[number]
    before = next(bytes.fromhex(more[0]) for kind, more in reversed(lines[:number + 1]) if kind in ("stripe", "dirty"))
    if word == "own":
        cells = code.cells(before)
        cells[code.column(int(words[0])).start:code.column(int(words[0])).stop] = code.cells(bytes.fromhex(words[1]))
        same(code.called(setting, "rebuild", "--disk", words[0], input=[before]), [code.data(cells)], f"{code.options} {word} {words}")
    elif word in ("one", "two"):
        disks = [part for disk in words for part in ("--disk", disk)]
        spoiled = code.spoiled(before, [place for disk in words for place in code.column(int(disk))])
        same(code.called(setting, "rebuild", *disks, input=[spoiled]), [before], f"{code.options} {word} {words}")
    elif word in ("determined", "undetermined"):
        spoiled = code.spoiled(before, [place_of(code, cell) for cell in words])
        done = code.called(setting, "rebuild-cells", "--missing", ",".join(words), input=[spoiled], status=0 if word == "determined" else 3)
        same(done, [before] if word == "determined" else [], f"{code.options} {word} {words}")
        expect(word == "determined" or b"(refusal 23)" in done.err, done.told())
    else:
        return 0
    return 1


def many_stripes(setting):
    """Several stripes at once, with cells of one byte up to 4,096: as the plain code says, in their order."""
    count = 0
    for p, k, s, stripes in [(3, 2, 1, 9000), (5, 5, 16, 300), (7, 4, 100, 9), (31, 31, 512, 2), (31, 2, 4096, 2)]:
        code = Code(p, k, s)
        clean, other = code.random(min(stripes, 9)), random.Random(p)
        clean = [clean[number % len(clean)] for number in range(stripes)]
        parity = [*code.column(k), *code.column(k + 1)]
        spoiled = {places: [code.spoiled(one, places, n) for n, one in enumerate(clean[:9])] for places in map(tuple, [parity, code.column(0), code.column(k)])}
        many = {places: [some[number % len(some)] for number in range(stripes)] for places, some in spoiled.items()}
        same(code.called(setting, "encode", input=many[tuple(parity)]), clean, f"encode {code.options}")
        for lost, name in ((0, 0), (k, "P")):
            for test in ([], ["--test"]):
                same(code.called(setting, "rebuild", "--disk", name, *test, input=many[tuple(code.column(lost))]), clean, f"rebuild {code.options} {lost}")
        same(code.called(setting, "rebuild", "--disk", "Q", "--disk", "p", input=many[tuple(parity)]), clean, f"rebuild {code.options} P and Q")
        same(code.called(setting, "rebuild-cells", "--missing", "p,Q", input=many[tuple(parity)]), clean, f"rebuild-cells {code.options}")
        expect(code.called(setting, "check", input=clean).out == b"", f"check {code.options}: clean stripes")
        expect(code.called(setting, "scrub", input=clean).out == b"clean\n" * stripes, f"scrub {code.options}: clean stripes")
        told = json.loads(code.called(setting, "scrub", "--json", input=[*clean[:2], many[tuple(code.column(0))][0]], status=1).out)
        expect(told == {"found": [{"stripe": 2, "disks": [0]}], "stripes": 3, "dirty": 1}, f"scrub {code.options}: {told}")
        told = json.loads(code.called(setting, "check", "--json", input=clean[:2]).out)
        expect(told == {"found": [], "stripes": 2, "dirty": 0}, f"check {code.options}: {told}")
        row, disk, new = other.randrange(p), other.randrange(k), [noise(s, f"new {n}") for n in range(9)]
        changed = [code.updated(one, disk * p + row, new[n % 9]) for n, one in enumerate(clean[:9])]
        records = [part for n, one in enumerate(clean[:9]) for part in (one, new[n % 9])]
        same(code.called(setting, "update", "--row", row, "--disk", disk, input=records), changed, f"update {code.options} {disk}.{row}")
        expect(all(not code.dirty(one) for one in changed), f"update {code.options}: not clean")
        count += 13
    return f"{count} calls"


def servers(setting):
    """A parity server written, and every one of the servers rebuilt, with lost disks of others."""
    count = 0
    for p, k, s, m in [(3, 2, 1, 2), (5, 5, 8, 3), (7, 4, 33, 16), (31, 31, 16, 2)]:
        code, other = Code(p, k, s), random.Random(m)
        wanted = []
        for number in range(4):
            stripes = code.random(m, f"server {number}")
            wanted += [*stripes, xored(stripes)]
        empty = [noise(code.bytes, n) if n % (m + 1) == m else one for n, one in enumerate(wanted)]
        same(code.called(setting, "server-write", "--servers", m, input=empty), wanted, f"server-write {code.options} {m}")
        for lost in range(m + 1):
            losses = {server: other.sample(range(k + 2), other.randrange(3)) for server in range(m + 1)}
            words = [part for server, disks in losses.items() for disk in disks for part in ("--loss", f"{server}.{'PQ'[disk - k] if disk >= k else disk}")]
            given = []
            for number, one in enumerate(wanted):
                server = number % (m + 1)
                places = [place for disk in losses[server] for place in code.column(disk)]
                given.append(noise(code.bytes, number) if server == lost else code.spoiled(one, places, number))
            done = code.called(setting, "server-rebuild", "--servers", m, "--server", lost, *words, input=given)
            same(done, wanted, f"server-rebuild {code.options} {m}, lost {lost} and {losses}")
            count += 1
        dirty = [noise(code.bytes, f"dirty {n}") for n in range(m + 1)]
        same(code.called(setting, "server-write", "--servers", m, input=dirty), [*dirty[:m], xored(dirty[:m])], "server-write of dirty stripes")
    return f"{count} rebuilds"


# an action with its words, and the bytes beside a stripe, or the stripes of a record
FILTERS = [("encode", [], 0, 1), ("check", [], 0, 1), ("scrub", [], 0, 1), ("rebuild", ["--disk", 1], 0, 1), ("rebuild", ["--disk", 1, "--test"], 0, 1),
           ("rebuild", ["--disk", 0, "--disk", "Q"], 0, 1), ("rebuild-cells", ["--missing", "0.1,P"], 0, 1), ("update", ["--row", 2, "--disk", 1], 1, 1),
           ("server-write", ["--servers", 2], 0, 3), ("server-rebuild", ["--servers", 2, "--server", 1, "--loss", "0.0"], 0, 3)]


def short_input(setting):
    """An input that ends within a stripe, or has none: refused by its number and place, after what is whole."""
    code, count = Code(5, 3, 7), 0
    for action, words, cells, stripes in FILTERS:
        record = code.bytes * stripes + cells * code.s
        done = {"check": b"", "scrub": b"clean\n"}.get(action, bytes(code.bytes * stripes))
        for length in (0, 1, code.bytes - 1, record - 1, record + 1, 2 * record + code.bytes - 1, 3 * record - 1, 700 * record + 3):
            whole, left = divmod(length, record)
            told = code.called(setting, action, *words, input=[bytes(length)], status=3)
            same(told, [done * whole], f"{action} of {length} bytes")
            answer = f"stripe {whole} at byte {whole * record}: {left} of {record} bytes, a length is another than the one required"
            expect(answer in told.err.decode() and b"(refusal 5)" in told.err, f"{answer!r} expected: {told.told()}")
            count += 1
    clean = code.random(3)
    swapped = code.data(code.cells(clean[1])[code.p:2 * code.p] + code.cells(clean[1])[:code.p] + code.cells(clean[1])[2 * code.p:])
    done = code.called(setting, "rebuild", "--disk", 2, "--test", input=[clean[0], swapped, clean[2]], status=3)
    same(done, clean[:1], "exchanged disks")
    expect(f"stripe 1 at byte {code.bytes}: the surviving disks are those of no clean stripe (refusal 19)" in done.err.decode(), done.told())
    code.called(setting, "rebuild", "--disk", 2, input=[clean[0], swapped, clean[2]], status=0)
    return f"{count + 2} calls"


# words, their status, and what the answer says; -p 5 -k 3 -s 2 stand before them
WRONG = [(["encode", "--disk", 1], 2, "--disk is not for encode; leave it out"), (["encode", "--json"], 2, "--json is not for encode"),
         (["encod"], 2, "encod: not one of encode, check,"), (["encod"], 2, "is encode meant?"), (["encode", "x"], 2, "x is a word too many"),
         (["rebuild"], 2, "rebuild needs --disk"), (["rebuild", "--disk", 5], 3, "--disk 5: the array has no disk of that number, or no data disk (refusal 3)"),
         (["rebuild", "--disk", 1, "--disk", 9], 3, "--disk 9: the array has no disk"), (["rebuild", "--disk", 1, "--disk", 1], 3, "the same (refusal 4)"),
         (["rebuild", "--disk", 3, "--disk", "P"], 3, "the same (refusal 4)"), (["rebuild", "--disk", 0, "--disk", 1, "--disk", 2], 2, "at most two disks"),
         (["rebuild", "--disk", 0, "--disk", 1, "--test"], 2, "--test is for one lost disk"), (["rebuild", "--disk", 0, "--row", 1], 2, "--row is not for rebuild"),
         (["rebuild-cells"], 2, "rebuild-cells needs --missing"), (["rebuild-cells", "--missing", "0.0,5"], 2, "5 is no cell; give DISK.ROW"),
         (["rebuild-cells", "--missing", "0.5"], 2, "with disks 0 to 4, P or Q, and rows 0 to 4"), (["rebuild-cells", "--missing", ","], 2, "no cell; name at least one"),
         (["rebuild-cells", "--missing", "0.0,P.0,Q.0"], 3, "--missing 0.0,P.0,Q.0: the other cells do not determine"), (["rebuild-cells", "--missing", "none"], 4, "none: No such file"),
         (["rebuild-cells", "--missing", "0,1", "--json"], 2, "--json: standard output has the stripes"), (["rebuild-cells", "--missing", "0.1.2"], 2, "0.1.2 is no cell"),
         (["update", "--row", 1], 2, "update needs --disk"), (["update", "--disk", 1], 2, "update needs --row"), (["update", "--disk", 1, "--disk", 2, "--row", 1], 2, "given twice"),
         (["update", "--disk", "P", "--row", 1], 3, "--disk P: the array has no disk of that number, or no data disk (refusal 3)"),
         (["update", "--disk", 1, "--row", 5], 3, "--row 5: the array has no row of that number (refusal 15)"), (["update", "--disk", 1, "--row", "16T"], 3, "(refusal 15)"),
         (["server-write"], 2, "server-write needs --servers"), (["server-write", "--servers", 1], 3, "--servers 1: the servers are fewer than 2"),
         (["server-write", "--servers", 17], 3, "(refusal 18)"), (["server-write", "--servers", "16777215T"], 3, "(refusal 18)"),
         (["server-rebuild", "--servers", 2], 2, "needs --server"), (["server-rebuild", "--servers", 2, "--server", 3], 3, "--server 3: the servers are"),
         (["server-rebuild", "--servers", 2, "--server", 0, "--loss", "3.0"], 2, "--loss 3.0: no disk of a server; give SERVER.DISK, with servers 0 to 2"),
         (["server-rebuild", "--servers", 2, "--server", 0, "--loss", "1.255"], 3, "--loss 1.255: the array has no disk"),
         (["server-rebuild", "--servers", 2, "--server", 0, "--loss", "1.5"], 3, "(refusal 3)"), (["server-rebuild", "--servers", 2, "--server", 0, "--loss", "1"], 2, "no disk of a server"),
         (["server-rebuild", "--servers", 2, "--server", 0, "--loss", "1.1", "--loss", "1.1"], 3, "the same (refusal 4)"),
         (["server-rebuild", "--servers", 2, "--server", 0, "--loss", "1.1", "--loss", "1.0", "--loss", "1.2"], 2, "at most two disks of a server")]


def wrong_words(setting):
    """Options that cannot be: told by their name before anything is read, and nothing is written."""
    path = setting.new()
    path.write_bytes(bytes(4 * 50))  # which another program than ours would read
    numbers = [(["encode", "-p", p, "-k", k, "-s", s], 3, f"(refusal {refusal})")
               for p, k, s, refusal in ((9, 3, 2, 1), (5, 6, 2, 13), (5, 3, 0, 2), (5, 3, "5K", 2), (5, 3, "16777215T", 2))]
    with open(path, "rb") as file:
        for words, status, answer in [*((["-p", 5, "-k", 3, "-s", 2, *words], status, answer) for words, status, answer in WRONG), *numbers]:
            done = setting.call("stripe", *words, stdin=file, status=status)
            expect(answer in done.err.decode() and done.out == b"", f"{answer!r} expected: {done.told()}")
            expect(os.lseek(file.fileno(), 0, os.SEEK_CUR) == 0, f"something was read: {done.told()}")
    text = setting.new()
    for content, status in ((b"0.0 P.1\r\n2.2,\t1.4\n", 0), (b"", 2), (b"0.0\xff", 2), (b"0.0 " * 20_000, 2), (b"# a list\n0.0", 2)):
        text.write_bytes(content)
        setting.call("stripe", "rebuild-cells", "-p", 5, "-s", 2, "--missing", text, input=bytes(70), status=status)
    return f"{len(WRONG) + 10} calls"


def limited(most):
    """Sets a limit of a program's memory, all that it maps."""
    return lambda: resource.setrlimit(resource.RLIMIT_AS, (most, most))


def raw_pipes(setting):
    """Pipes that are closed or full, no memory, a stripe at a time; memory is that of a stripe."""
    code = Code(5, 3, 7)
    for action, words, cells, stripes in FILTERS:
        record = bytes(code.bytes * stripes + cells * code.s)
        line = ["stripe", action, *code.options, *words]
        done = setting.call(*line, status=4, stdin=None, preexec_fn=lambda: os.closerange(0, 1))
        expect(b"standard input: closed" in done.err and done.out == b"", done.told())
        done = setting.call(*line, input=record, status=4, stdout=None, preexec_fn=lambda: os.close(1))
        expect(b"standard output: closed" in done.err, done.told())
        folder = os.open(setting.scratch, os.O_RDONLY)
        done = setting.call(*line, stdin=folder, status=4)
        expect(b"standard input, byte 0: Is a directory" in done.err, done.told())
        os.close(folder)
        if action == "check":
            continue  # says nothing of a clean stripe
        done = setting.call(*line, input=record * 9, status=4, stdout=open("/dev/full", "wb"))
        expect(b"standard output: No space" in done.err, done.told())
        reader, writer = os.pipe()
        os.close(reader)
        setting.call(*line, input=record * 9, stdout=writer, status=4)
        os.close(writer)
    clean = code.random(3)
    with subprocess.Popen([setting.program, "stripe", "encode", *map(str, code.options)], stdin=subprocess.PIPE, stdout=subprocess.PIPE) as child:
        for one in clean:
            child.stdin.write(code.spoiled(one, code.column(code.k)))
            child.stdin.flush()
            ready = select.select([child.stdout], [], [], 30)[0] or child.kill()
            expect(ready and child.stdout.read(code.bytes) == one, "a stripe at a time: other bytes, or none in 30 seconds")
        child.stdin.close()
        expect(child.wait() == 0 and child.stdout.read() == b"", "a stripe at a time: it did not end well")
    big, room = Code(31, 31, 4096), 33 * 31 * 4096
    sparse = setting.new()
    with open(sparse, "wb") as file:
        file.truncate(20 * room)
    for words, stripes in ((["rebuild", "--disk", 0], 1), (["scrub"], 1), (["server-write", "--servers", 4], 5)):
        with open(sparse, "rb") as file, open(os.devnull, "wb") as null:
            most = limited((stripes * room) + (8 << 20))  # the program itself maps 3 MiB
            setting.call("stripe", *words, *big.options, stdin=file, stdout=null, status=0, preexec_fn=most)
    done = setting.call("stripe", "server-write", *big.options, "--servers", 16, stdin=subprocess.DEVNULL, status=4, preexec_fn=limited(40 << 20))
    expect(f"no memory for {17 * room} bytes" in done.err.decode(), done.told())
    return f"{5 * len(FILTERS) + 3} calls"


CHECKS = [stripe_vectors, many_stripes, servers, short_input, wrong_words, raw_pipes]
