"""Pictures and texts of plans, the README's picture, the SVG; and pictures of missing cells."""

import collections
import pathlib
import random
import re
import subprocess
import xml.etree.ElementTree

from harness import expect
from plain_code import Code, listed

TOP = pathlib.Path(__file__).resolve().parents[2]
WIDTHS = (3, 5, 7, 11, 13, 17, 19, 23, 29, 31)


def printed_plans(setting):
    """plan --csv is what the plan program prints, for every width and disk."""
    count = 0
    for p in WIDTHS:
        for lost in range(p + 2):
            shown = subprocess.run([setting.plan_program], input=f"p,lost\n{p},{lost}\n".encode(), capture_output=True).stdout
            done = setting.call("plan", "-p", p, "-d", lost, "--csv", status=0)
            expect(done.out == shown and shown.count(b"\n") == p + 1, f"the plan program prints {shown[:60]}: {done.told()}")
            count += 1
    return f"{count} plans"


def drawn_plans(setting):
    """The picture counts what the plan reads; README and docs have fresh ones."""
    for p, k in ((3, 3), (5, 5), (7, 4), (31, 31)):
        for lost in range(k + 2) if p < 31 else (0, 30, 32):
            text = setting.call("plan", "-p", p, "-k", k, "-d", lost, status=0).out.decode()
            rows = text.splitlines()[3:3 + p]
            marks = "".join("".join(row.split()[1:k + 3]) for row in rows)
            reads = int(text.split(":")[1].split()[0])
            expect(len(marks) == p * (k + 2) and marks.count("x") == p, f"the picture of {p}, {k}, {lost} is\n{text}")
            expect(sum(marks.count(mark) for mark in "-/#") == reads, f"the picture of {p}, {k}, {lost} shows another count")
            svg = setting.call("plan", "-p", p, "-k", k, "-d", lost, "--svg", status=0).out
            squares = sum(1 for one in xml.etree.ElementTree.fromstring(svg).iter() if one.tag.endswith("}rect"))
            expect(squares == p * (k + 2) + 6, f"the SVG of {p}, {k}, {lost} has {squares} squares")
    text = setting.call("plan", "-p", 5, "-d", 1, status=0).out.decode()
    picture = "".join(f"    {line}\n" if line else "\n" for line in text.splitlines())
    expect(picture in (TOP / "README.md").read_text(), "README.md has another picture; take that of `cuzhaveli plan -p 5 -d 1`")
    svg = setting.call("plan", "-p", 5, "-d", 1, "--svg", status=0).out
    expect((TOP / "docs/generated/plan-5-1.svg").read_bytes() == svg, "docs/generated/plan-5-1.svg is another; make it by `cuzhaveli plan -p 5 -d 1 --svg`")
    return "21 pictures, README.md's and docs/generated/plan-5-1.svg"


def drawn_cells(setting):
    """--draw: what is missing, what is read, and sets that hold of the missing cells just the one that they bring back."""
    other, count = random.Random(5), collections.Counter()
    for p, k in [(3, 2), (3, 3), (5, 5), (7, 4), (13, 13), (31, 31), (31, 17)]:
        code = Code(p, k, 1)
        some = [other.sample(range(p * (k + 2)), size) for size in (1, 3, p, p + 2, 2 * p)]
        some += [[*code.column(0)], [*code.column(1), *code.column(k + 1)], [*code.column(0), p + 1, 2 * p], [0, k * p, (k + 1) * p]]
        for missing in map(sorted, some):
            words = ",".join(f"{place // p}.{place % p}" for place in missing)
            there = code.determined(missing)
            status = 0 if there == set(missing) else 3
            call = ["stripe", "rebuild-cells", "-p", p, "-k", k, "--missing", words, "--draw"]
            told = setting.call(*call, "--json", status=status, stdin=subprocess.DEVNULL).figures()
            expect([one["disk"] * p + one["row"] for one in told["missing"]] == missing and told["determined"] == (status == 0), f"{call}: {told}")
            read = set()
            for place, one in zip(missing, told["missing"]):
                cells = set()
                for name in one["sets"]:
                    kind, number = name.split()
                    cells ^= set(code.sets[int(number) + (p if kind == "D" else 0)])
                expect(cells & set(missing) == ({place} if place in there else set()), f"{call}: {one} holds {cells}")
                read |= cells - {place}
            expect(told["read"] == len(read), f"{call}: {told['read']} read, not {len(read)}")
            text = setting.call(*call, status=status, stdin=subprocess.DEVNULL).out.decode()
            marks = [row.split()[1:k + 3] for row in text.splitlines()[3:3 + p]]
            wanted = [["?x"[place in there] if place in missing else ".o"[place in read] for place in range(row, p * (k + 2), p)] for row in range(p)]
            expect(marks == wanted, f"{call} draws\n{text}")
            lines = re.findall(r"^  ([\dPQ]+)\.(\d+) +(?:R|D|not)", text, re.M)
            expect([{"P": k, "Q": k + 1}.get(disk) or int(disk) for disk, _ in lines] == [place // p for place in missing], f"{call} draws\n{text}")
            count[status] += 1
    expect(count[0] > 20 and count[3] > 8, f"too few of a sort: {count}")
    return f"{count[0]} that come back, {count[3]} that do not"


def plans_as_text(setting):
    """plan --text is accepted by judge, with the reads that the vectors name: every array, own, balanced, fewest and relief."""
    count = 0
    for number, (code, lines) in enumerate(listed("lists.txt")):
        reads = {(word, int(words[0])): int(words[1]) for word, words in lines}
        for lost in range(code.k + 2) if code.p == 5 else [7 * number % code.k, code.k + number % 2]:
            plans = [("own", []), ("balanced", ["--balanced"]), ("relief", ["--relieve", (lost + 1) % code.k]), ("fewest", ["--fewest"])]
            for name, options in plans if code.p == 5 else (plans[number % 3], plans[3]):
                shape = ["-p", code.p, "-k", code.k, "-d", lost]
                text = setting.call("plan", *shape, *options, "--text", status=0).out
                expect(re.fullmatch(rb"row,set,number\n(\d+,[RD],\d+\n){%d}" % code.p, text), f"{shape} {options}: {text}")
                if code.p == 5:
                    steps = [(step["row"], step["set"], step["number"]) for step in setting.told("plan", *shape, *options)["steps"]]
                    expect(text.decode() == "row,set,number\n" + "".join(f"{row},{kind},{of}\n" for row, kind, of in steps), f"{shape} {options}: {text}, not {steps}")
                judged = setting.told("judge", *shape, "-", input=text)
                wanted = reads.get((name, lost), reads.get(("own", lost)) if lost >= code.k else judged["reads"])
                expect(judged["accepted"] and judged["reads"] == wanted, f"{shape} {options}: {judged.told()}, not {wanted}")
                count += 1
    setting.call("plan", "-p", 5, "-d", 1, "--text", "--svg", status=2)
    return f"{count} plans of {number + 1} arrays"


CHECKS = [printed_plans, drawn_plans, drawn_cells, plans_as_text]
