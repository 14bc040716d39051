#!/usr/bin/env python3
"""Holds the documents to the crates: docs/generated/layers.svg, docs/generated/STATEMENTS.md and docs/generated/index.html are what their scripts make, with
the axioms that were printed when the crates were proved, and so are the pictures of drives; docs/ARCHITECTURE.md has a row for each folder and crate, with its layer, names each module, and each public function once; what the
documents cite is there (citations.py); the entries of docs/DECISIONS.md are numbered; and all are short enough to be read.

Usage: tests/published/documents.py
Each check is also given a wrong text, which it must refuse. Exit status 1 if something differs.
"""

import re
import subprocess
import sys

sys.dont_write_bytecode = True

import citations  # noqa: E402
import source  # noqa: E402
import statements  # noqa: E402

TOP = source.TOP
ARCHITECTURE = TOP / "docs/ARCHITECTURE.md"
STATEMENTS = TOP / "docs/generated/STATEMENTS.md"
DECISIONS = TOP / "docs/DECISIONS.md"
DRIVES = sorted((TOP / "bench/results").glob("*-drives.txt"))
CI_LOG = TOP / "build/rt-ci.log"
EXPORT_LOGS = sorted((TOP / "build/members").glob("cuzhaveli_*.log"))
# README.md, CONTRIBUTING.md, the manual pages, docs/*.md but those that follow documents 01 and 02 line by line, and the records of the port, of the new design and of the look back at it
LONG = {"SCOPE.md", "COVERAGE.md", "DESIGN-PASS.md", "LOOK-BACK.md", "PORT.md"}
MOST_WORDS = 38000


def crate_rows(text):
    """Each crate of crates.txt has its row, in that order, with its layer."""
    rows = re.findall(r"^\| (\d+) \| `(\w+)` \| (.*?) \|", text, re.M)
    wanted = [(str(source.layers.layer(source.CRATES)[name]), name) for name in source.CRATES]
    if [row[:2] for row in rows] != wanted:
        for row in set(wanted) ^ {row[:2] for row in rows}:
            yield f"crate {row[1]} in layer {row[0]} stands in crates.txt or in the table, not in both"
        yield "the rows are not those of crates.txt, in its order"
    for _, name, inside in rows:
        if not inside:
            yield f"the row of {name} does not say what is inside"


def table(text, head):
    """The rows of the table whose head begins with this cell."""
    found = re.search(rf"^\| {re.escape(head)} \|.*\n\|[-|]+\n((?:\|.*\n)*)", text, re.M)
    return [row.split(" | ", 1) for row in found[1].splitlines()] if found else []


def named_once(listed, wanted, what):
    """What is listed is all that there is, each once."""
    for name in sorted(wanted - set(listed)):
        yield f"{what} {name} is in no row"
    for name in sorted(set(listed) - wanted):
        yield f"there is no {what} {name}"
    for name in sorted(name for name in set(listed) if listed.count(name) > 1):
        yield f"{what} {name} is in more than one row"


def folder_rows(text):
    """Each folder of the root has its row."""
    rows = [name for row in table(text, "folder") for name in re.findall(r"`(\w+)/`", row[0])]
    yield from named_once(rows, source.folders(), "folder")


def test_rows(text):
    """Each folder of tests has its row."""
    rows = [name for row in table(text, "folder") for name in re.findall(r"`(\w+)`", row[0])]
    wanted = {path.name for path in (TOP / "tests").iterdir() if path.is_dir()} - {"__pycache__"}
    yield from named_once(rows, wanted, "folder of tests")


def rust_rows(text):
    """Each module of the Rust crates is in a row of its crate's table, by its path."""
    for crate in sorted(path.name for path in (TOP / "rust").iterdir() if (path / "src").is_dir()):
        rows = table(text, f"rust/{crate}/src")
        listed = [name for row in rows for name in re.findall(r"`([\w/]+)`", row[0])]
        yield from named_once(listed, source.rust_modules(crate), f"module of rust/{crate}")


def module_rows(text):
    """Each crate with more than its root has a row with all modules, `lib` if that has functions."""
    rows = {row[0].strip("|` "): re.findall(r"`(\w+)`", row[1]) for row in table(text, "crate")}
    for crate in source.CRATES:
        wanted = set(source.modules(crate)) - {""}
        if wanted and source.functions(crate, ""):
            wanted.add("lib")
        yield from named_once(rows.pop(crate, []), wanted, f"module of {crate}")
    yield from (f"no crate {name}" for name in rows)


def functions_once(text):
    """Each function that another crate calls, each of a public type, and each export, stands there once; what stands there is public."""
    for crate in source.CRATES:
        for name in source.called(crate).union(source.methods(crate)):
            if (count := len(re.findall(rf"`{crate}::{name}\b", text))) != 1:
                yield f"{crate}::{name} stands there {count} times"
    for name in source.exports():
        if (count := len(re.findall(rf"`{name}\b", text))) != 1:
            yield f"{name} stands there {count} times"
    for crate, name in re.findall(r"`(\w+)::(\w+(?:::\w+)?)", text):
        if crate not in source.CRATES or name not in source.at_root(crate).union(source.methods(crate)):
            yield f"{crate}::{name} is no public function"


def asks_nothing(text):
    """What is listed as a call, or for any argument, has no `requires`; what is listed as called after the refusals has one."""
    for line in re.findall(r"^\| (?:`|none).*`\w+(?:::\w+)+`.*$", text, re.M):
        free, after = line.split("|")[2:4]
        for cells, wanted in ((free, False), (after, True)):
            for crate, name in re.findall(r"`(\w+)::(\w+(?:::\w+)?)`", cells):
                if name in source.at_root(crate).union(source.methods(crate)) and source.asks(crate, name) != wanted:
                    yield f"{crate}::{name} has {'no' if wanted else 'a'} `requires`"


def made_by(script, given, *words):
    """A file is what its script makes."""
    made = subprocess.run([sys.executable, "-B", TOP / script, *words], capture_output=True, check=True).stdout
    if made != given:
        yield f"it is not what {script} makes"


def number_of_axioms(proved):
    """What the last line that begins logic=proved says, or None."""
    lines = re.findall(r"^logic=proved.*", proved, re.M)
    found = re.search(r" axioms=(\d+)", lines[-1]) if lines else None
    return found[1] if found else "0" if lines else None


def printed_axioms():
    """The axioms of crates, as they were printed: by `rt ci` of those that it had not kept from an earlier run, and when an export
    was compiled, of all that it is made of."""
    for part in re.split(r"^== ", CI_LOG.read_text() if CI_LOG.exists() else "", flags=re.M)[1:]:
        yield part.split()[0], number_of_axioms(part)
    for log in EXPORT_LOGS:
        made_of = source.below(log.stem) if number_of_axioms(log.read_text()) == "0" else []
        yield from ((crate, "0") for crate in made_of)


def axioms(text):
    """The axioms of the crates on the page are those that were printed."""
    said = dict(re.findall(r"^## .*`(\w+)`, axioms=(\d+)$", text, re.M))
    for crate, number in dict.fromkeys(printed_axioms()):
        if number is not None and said.get(crate, str(statements.AXIOMS.get(crate, 0))) != number:
            yield f"{crate} has axioms={number}"


def numbered(text):
    """Every entry has its number, from 1 on."""
    entries = re.findall(r"^(?!#)(\S+) (?=\*\*)", text, re.M)
    for number, given in enumerate(entries, 1):
        if given != f"{number}.":
            yield f"entry {number} begins with '{given}'"
            return


def word_count(readme):
    """The words of the documents with this README.md: without code between ```, and without the requests of manual pages."""
    paths = [TOP / "CONTRIBUTING.md", *sorted((TOP / "docs").glob("*.md"))]
    pages = [readme, *(path.read_text() for path in paths if path.name not in LONG)]
    manual = "".join(path.read_text() for path in sorted((TOP / "docs/man").glob("*.1")))
    pages.append(re.sub(r"^(?:\.[A-Za-z]+|\.\\\".*|'.*)", "", manual, flags=re.M))
    return sum(len(re.sub(r"^```.*?^```$", "", page, flags=re.M | re.S).split()) for page in pages)


def few_words(readme):
    if (count := word_count(readme)) >= MOST_WORDS:
        yield f"the documents have {count} words, of {MOST_WORDS}"


def without(row):
    """Takes the first line of this form out of a text."""
    return lambda text: re.sub(rf"^{row}.*\n", "", text, count=1, flags=re.M)


# a check, the file it is of, what to do, and how a wrong text is made of the right one
CHECKS = [
    (lambda text: made_by("scripts/docs/layers.py", text.encode()), TOP / "docs/generated/layers.svg", "scripts/docs/layers.py >docs/generated/layers.svg", without("<line ")),
    (lambda text: made_by("scripts/docs/statements.py", text.encode()), STATEMENTS, "scripts/docs/statements.py >docs/generated/STATEMENTS.md", without("pub ")),
    (lambda text: made_by("scripts/docs/page.py", text.encode()), TOP / "docs/generated/index.html", "scripts/docs/page.py >docs/generated/index.html", without("<option ")),
    *((lambda text, results=results: made_by("bench/drives/plot.py", text.encode(), results), results.with_suffix(".svg"),
       "bench/drives/plot.py NAME.txt >NAME.svg", without("<line ")) for results in DRIVES),
    *([(axioms, STATEMENTS, "say in scripts/docs/statements.py what the crate takes for granted",
        lambda text: text.replace("axioms=0", "axioms=1"))] if EXPORT_LOGS else []),
    (numbered, DECISIONS, r"""perl -pi -e 's/^(?:\d+\.|-) (?=\*\*)/++$n . ". "/e' docs/DECISIONS.md""", lambda text: text + "\n- **An entry.** Without a number.\n"),
    (few_words, TOP / "README.md", "cut what does not serve, in any of them", lambda text: text * 30),
    (crate_rows, ARCHITECTURE, "write the table anew from crates.txt and the heads of the crates", without(r"\| \d+ \| `")),
    (crate_rows, ARCHITECTURE, "", lambda text: re.sub(r"^\| \d+ \| `", "| 0 | `", text, count=1, flags=re.M)),
    (folder_rows, ARCHITECTURE, "give each folder its row, with what is in it",
     without(r"\| `bench/`")),
    (folder_rows, ARCHITECTURE, "", lambda text: text.replace("| `bench/` |", "| `benches/` |")),
    (test_rows, TOP / "tests/README.md", "give each folder its row, with what it tests",
     without(r"\| `store`")),
    (test_rows, TOP / "tests/README.md", "", lambda text: text.replace("| `store` |", "| `stores` |")),
    (rust_rows, ARCHITECTURE, "name each module in one row of its crate's table, with its task",
     without(r"\| `os/sys`")),
    (rust_rows, ARCHITECTURE, "", lambda text: text.replace("| `os/sys` |", "| `os/sys`, `os/system` |")),
    (rust_rows, ARCHITECTURE, "", lambda text: text.replace("| `os/sys` |", "| `os/sys`, `os/pace` |")),
    (module_rows, ARCHITECTURE, "name each module in the row of its crate, with its task",
     without(r"\| `judge` \| `lib`")),
    (module_rows, ARCHITECTURE, "", lambda text: text.replace("; `one_step` refusals", "; `one_steps` refusals")),
    (module_rows, ARCHITECTURE, "", lambda text: text.replace("`all_steps` its steps in order; ", "")),
    (functions_once, ARCHITECTURE, "list each public function in one row of 'The public functions'", without(r"\| `cuzhaveli_plan_disk`")),
    (functions_once, ARCHITECTURE, "", lambda text: text + re.search(r"`\w+::\w+", text)[0]),
    (functions_once, ARCHITECTURE, "", lambda text: text + "`refusals::check_width`"),
    (functions_once, ARCHITECTURE, "", lambda text: text.replace("`two_disk_walk::LostPair::walk`", "")),
    (functions_once, ARCHITECTURE, "", lambda text: text + "`refusals::Array::tested`"),
    (asks_nothing, ARCHITECTURE, "list a function with a `requires` as called after the refusals, or give it its refusals",
     lambda text: text.replace("| none |", "| none | `planner::plan_steps` |\n| none |")),
    (asks_nothing, ARCHITECTURE, "", lambda text: text.replace("| `parity_sets::no_marks`", "| | `parity_sets::no_marks`")),
    (asks_nothing, ARCHITECTURE, "", lambda text: text.replace("| `two_disk_walk` | | ", "| `two_disk_walk` | ")),
]


def differences():
    """What differs, where, and what to do."""
    for check, path, remedy, spoiled in CHECKS:
        text = path.read_text()
        yield from ((problem, path, remedy) for problem in (check(text) if remedy else []))
        wrong = spoiled(text)
        if wrong == text or not list(check(wrong)):
            yield "a wrong text passes the check", path, "correct the check in tests/published/documents.py"
    for page in citations.PAGES:
        for problem in citations.wrong_lines(page):
            yield problem, page, "cite what is there now, by its name and place"
    for wrong in citations.WRONG:
        if not list(citations.problems(wrong)):
            yield f"a wrong citation passes: {wrong}", TOP / "tests/published/citations.py", "correct the check"


def main():
    found = list(differences())
    for problem, path, remedy in found:
        print(f"documents: DIFFERS: {problem}\n  in: {path.relative_to(TOP)}\n  do: {remedy}")
    if found:
        sys.exit(f"documents: {len(found)} differences")
    public = sum(len(source.called(crate)) for crate in source.CRATES) + len(source.exports())
    cited = sum(len(citations.words(page.read_text())) for page in citations.PAGES)
    count = word_count((TOP / "README.md").read_text())
    print(f"documents: {len(source.CRATES)} crates, {public} public functions, {cited} words cited on {len(citations.PAGES)} pages, {count} words of {MOST_WORDS}")


if __name__ == "__main__":
    main()
