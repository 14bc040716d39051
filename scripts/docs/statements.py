#!/usr/bin/env python3
"""Writes out what is claimed: every theorem of the calls, and every definition that one rests on, without a proof.

Usage: scripts/docs/statements.py >docs/generated/STATEMENTS.md
A definition is there if a theorem names it, or a definition that is there. Crates stand in the order of crates.txt, files in
that of the Lib.antt of their folder, but each after those that it uses.
"""

import collections
import functools
import pathlib
import re

import layers

TOP = pathlib.Path(__file__).resolve().parents[2]
CRATES = layers.read()
# how many functions of the kit whose contracts are not proved a crate uses, as `rt ci` prints it; the gate compares
AXIOMS = {"plan": 2}
# files of `guarantees` with steps on the way to its theorems
STEPS = {"LimitLaws", "SharedLimits", "CallLimits", "ListCounts"}
# files with theorems of single calls, which stand in the crates of these calls
SINGLE = ["planner/proofs/PlanMeans", "planner/proofs/ReadListMeans", "plan_texts/proofs/Form/TextTheorems",
          "rebuild_runs/proofs/WholeRuns/MadeLaws", "rebuild_runs/proofs/WholeRuns/ResumeLaws", "billing/proofs/MeansLaws",
          "space/proofs/SpaceLaws", "image_layout/proofs/ImageLaws", "image_layout/proofs/AnswerPlaces",
          "unit_opening/proofs/BroughtBack", "unit_opening/proofs/NothingWritten", "unit_film/proofs/NoWrongFilm",
          "unit_film/proofs/Sealed", "unit_film/proofs/FilmInUnitsLaws",
          "array_states/proofs/Series/OneReport", "array_states/proofs/Series/ManyReports",
          "starred_examples/proofs/Starred"]
HEAD = """# What is claimed

Made by `scripts/docs/statements.py`; the gate fails if it is another. Every theorem about the calls, and every definition that one of
them rests on, without proofs: from mathematics up the definitions, among them what each call promises (the records named
`..Says`, which the contracts of the functions cite), then the theorems. Whoever agrees that these definitions say what
docs/SCOPE.md says, and trusts the kit's logic (docs/TRUST.md), need read no proof.

`ℕ` are the natural numbers, `a - b` is 0 where it would be negative; `≡` is equality, `eqb`, `ltb` and `leb` test =, < and ≤;
lists are `[]` and `x ∷ xs`; `get_or xs i d` is place i of a list, or d past its end, `set xs i x` the list with x there;
`(x : A) × B` is a pair, or that there is such an x; `A ⊎ B` is 'A or B', `A → ⊥` is 'not A'. `abbrev` and `unfoldable` begin a
definition, `r.answer.refusal` is a field of a field of the record r. A `struct` is one of the code. Letters are those of
docs/ARCHITECTURE.md.

No crate has an axiom but `plan`, the plan program: the kit's contracts of libc::read and libc::write. `rt ci` prints
`logic=proved` for each crate, and `axioms=` where there are any."""

Statement = collections.namedtuple("Statement", "names public theorem lines around")


def indent(line):
    return len(line) - len(line.lstrip())


def is_theorem(line):
    return not re.match(r" *(?:(?:abbrev|unfoldable) |(?:pub )?(?:record|data) )", line)


def names_of(lines):
    """What a statement makes known: its name, the parts of a mutual definition, the cases of a type."""
    first = lines[0]
    if first.endswith("mutual"):
        return re.findall(r"^  (?:pub )?(\S+) :", "\n".join(lines), re.M)
    name = re.match(r" *(?:(?:abbrev|unfoldable|pub|record|data) )*([^\s(){}:.]+)", first)[1]
    cases = re.findall(r"^  ([^\s-]\S*) :", "\n".join(lines), re.M) if re.match(r"(?:pub )?data ", first) else []
    return [name, *cases]


def end_of(lines, start):
    """Where the statement ends that begins at a line: a definition with its clauses, a theorem with its type."""
    first, end = lines[start], start + 1
    mutual, theorem = first.endswith("mutual"), is_theorem(first)
    name = "" if mutual else names_of([first])[0].strip("◌")
    while end < len(lines):
        line = lines[end]
        clause = not theorem and not mutual and re.match(rf"(?:{re.escape(name)}|\S+ {re.escape(name)}|\(.*\) {re.escape(name)}) ", line)
        if not (indent(line) > indent(first) or clause or mutual and not line):
            break
        end += 1
    return end


def statements(lines):
    """The definitions whole, theorems without proof, each with the comment above it and the heads of the modules around it."""
    comment, around, at = [], [], 0
    while at < len(lines):
        line, text = lines[at], lines[at].lstrip()
        around = [(depth, head) for depth, head in around if not text or depth < indent(line)]
        starts = re.match(r"(?:abbrev |unfoldable |pub (?!mod )|record |data )|[^\s(){}:.]+ :", text)
        at += 1
        if text.startswith("--") or text.startswith("infix"):
            comment.append(line)
            continue
        if text.startswith("module "):
            around.append((indent(line), [*comment, line]))
        elif starts and indent(line) == 2 * len(around):
            own = lines[at - 1 : end_of(lines, at - 1)]
            at += len(own) - 1
            said = "\n".join([*comment, *own]).rstrip("\n").split("\n")
            yield Statement(names_of(own), text.startswith("pub "), is_theorem(line), said, [head for _, head in around])
        comment = []


class File:
    """A file of definitions or laws: its head, what it takes from which file, and its statements in their order."""

    def __init__(self, path):
        self.path, text = path, path.read_text()
        head = re.match(r"(?:--.*\n)*", text)[0]
        self.head = " ".join(line[2:].strip() for line in head.splitlines())
        self.taken = {}
        for crate, place, names in re.findall(r"^use Rattle\.(\w+)\.([\w.]+)\.\{(.*)\}", text, re.M):
            for name in names.split(", ") if crate in CRATES else []:
                self.taken[name.split(" as ")[-1]] = (crate, place, name.split(" as ")[0])
        self.statements = list(statements(text[len(head) :].split("\n")))
        self.own = {name: i for i, said in enumerate(self.statements) for name in said.names}
        seen = {line for said in self.statements for line in said.lines}
        for line in re.findall(r"^ *(?:abbrev |unfoldable )?pub (?!mod ).*", text, re.M):
            if line not in seen:
                raise SystemExit(f"statements: {path} has a line that is in no statement; read it in scripts/docs/statements.py: {line}")


@functools.cache
def file(path):
    return File(path)


def target(crate, place):
    """The file that a `use` names."""
    return TOP / "crates" / crate / (place.replace(".", "/") + ".antt")


def words(said):
    code = "\n".join(line for line in said.lines + sum(said.around, []) if not line.lstrip().startswith("--"))
    return {form for word in re.findall(r"[^\s(){},;.λ]+", code) for form in (word, f"◌{word}◌")}


def reach(given):
    """All that the given statements rest on: {path: numbers of statements}, and the structs {crate: names}."""
    found, structs, left = {}, {}, list(given)
    while left:
        path, number = left.pop()
        if number in found.setdefault(path, set()):
            continue
        found[path].add(number)
        here = file(path)
        for name in words(here.statements[number]) & (here.taken.keys() | here.own.keys()):
            crate, place, original = here.taken.get(name, (None, "", name))
            if "declared" in place.split("."):
                structs.setdefault(crate, set()).add(original)
                continue
            there = target(crate, place) if crate else path
            number = file(there).own[original]
            if not file(there).statements[number].theorem:
                left.append((there, number))
    return found, structs


def in_order(crate, folder):
    """The files of a crate's folder in the order of its Lib.antt, each after those of the crate that it uses."""
    base, done = TOP / "crates" / crate / folder, []

    def visit(path):
        for other, place, _ in file(path).taken.values():
            if other == crate and place.startswith(f"{folder}.") and "declared" not in place and target(crate, place) not in (path, *done):
                visit(target(crate, place))
        if path not in done:
            done.append(path)

    def listed(lib, place):
        for name in re.findall(r"^pub mod (\w+)", lib.read_text(), re.M):
            inner = place / f"{name}.antt"
            if (place / name).is_dir() and "pub mod" in inner.read_text():
                listed(inner, place / name)
            elif inner.exists():
                visit(inner)

    if (base / "Lib.antt").exists():
        listed(base / "Lib.antt", base)
    return done


def struct_text(crate, name):
    for path in sorted((TOP / "crates" / crate / "src").glob("*.rt")):
        found = re.search(rf"((?://.*\n)*)(?:#\[.*\]\n)*pub (struct {name} \{{\n(?:    .*\n)*\}})", path.read_text())
        if found:
            return found[1].replace("// ", "-- ") + found[2].replace("    pub ", "    ")
    raise SystemExit(f"statements: no struct {name} in crate {crate}")


def show(path, numbers):
    """The statements of a file under its name and head."""
    here, shown, lines = file(path), [], []
    for said in (here.statements[number] for number in sorted(numbers)):
        for head in said.around:
            if head not in shown:
                shown.append(head)
                lines += [*head, ""]
        lines += [*said.lines, ""]
    used = set().union(*(words(here.statements[number]) for number in numbers))
    other = [f"-- {name} is {original} here" for name, (_, _, original) in sorted(here.taken.items()) if name != original and name in used]
    lines = [*other, "", *lines] if other else lines
    title = re.sub(r"/(?:specs|proofs)/", " ", str(path.relative_to(TOP / "crates").with_suffix("")))
    print(f"\n### {title}\n\n{here.head}\n\n```\n" + "\n".join(lines).rstrip("\n") + "\n```")


def main():
    single = [TOP / "crates" / f"{name}.antt" for name in SINGLE]
    theorems = [path for path in in_order("guarantees", "proofs") if path.stem not in STEPS]
    claims = [(path, i) for path in single + theorems for i, said in enumerate(file(path).statements) if said.theorem and said.public]
    found, structs = reach(claims)
    print(HEAD)
    for crate in CRATES:
        paths = [path for folder in ("specs", "proofs") for path in in_order(crate, folder) if path in found and path not in single + theorems]
        if not paths and crate not in structs:
            continue
        print(f"\n## Definitions of `{crate}`, axioms={AXIOMS.get(crate, 0)}")
        if crate in structs:
            print("\n```\n" + "\n\n".join(struct_text(crate, name) for name in sorted(structs[crate])) + "\n```")
        for path in paths:
            show(path, found[path])
    for title, paths in (("Theorems of single calls", single), ("Theorems of the calls together: `guarantees`, axioms=0", theorems)):
        print(f"\n## {title}")
        for path in paths:
            show(path, found[path])


if __name__ == "__main__":
    main()
