"""What the documents cite is there: files, theorems, definitions, functions, edits, test groups.

A word between backticks is one of these, by its form:
  `crate::function`, `crate::module::function`   a function or struct of that crate, inner ones by their module
  `crate::Type::function`                        a function of that public type of the crate
  `Type::function`                               a function of that type of the Rust crates
  `crate/edit`                                   a must-fail edit; after 'edits' those that follow may leave the crate out
  `Record .field`, then `.field`                 a field of that record
  `folder/module`                                a module of a Rust crate, by its path in src/
  `name`, `a-name`                               any name of the crates, of the header, or of the checks of the command
After 'test' or 'tests' it is a group of tests/reference. '(crate File)', '(crate folder/File)' or ', path.antt' after such words
says where they are stated. Words of another form, as commands, are not looked at.
"""

import re

import source

TOP = source.TOP
NAME = r"`[^`\n]+`"
LIST = rf"{NAME}(?:(?:, | and |, and ){NAME})*"
FOLDERS = "bench|ceph|conformance|crates|debian|docs|examples|include|python|rust|scripts|tests"
MODULES = {name for path in (TOP / "rust").glob("*/src") for name in source.rust_modules(path.parent.name)}
HEADER = set(re.findall(r"\w+", (TOP / "include/cuzhaveli.h").read_text()))
RUST = sorted((TOP / "rust").glob("*/src/**/*.rs"))
TOOL = {name for path in RUST for name in (path.stem, path.parent.name)}
TOOL.update(name for path in RUST for name in re.findall(r"^pub (?:struct|enum|trait) (\w+)", path.read_text(), re.M))
# the functions of each Rust type
METHODS = {}
for path in RUST:
    for name, body in re.findall(r"^impl(?:<.*?>)? (?:\w+ for )?(\w+).*? \{\n(.*?)^\}", path.read_text(), re.M | re.S):
        METHODS.setdefault(name, set()).update(re.findall(r"\bfn (\w+)", body))
CHECKS = {name for kind in ("store", "command") for path in TOP.glob(f"tests/{kind}/*.py") for name in re.findall(r"^def (\w+)", path.read_text(), re.M)}
# words of the language, of the kit and its log, of document 03, of what the command prints, of README's lines; an archive; Python's own
OUTSIDE = {"match", "Result", "Option", "u32", "usize", "count_ones", "requires", "unfoldable", "trusted", "modulo", "diskAt", "one-back", "around", "read_cell", "libcuzhaveli_plans", "PyObject_GetBuffer"}
PAGES = [TOP / "README.md", TOP / "CONTRIBUTING.md", *(TOP / f"docs/{page}.md" for page in ("ARCHITECTURE", "COVERAGE", "DECISIONS", "PROOFS", "REQUESTS", "SCOPE", "TRUST"))]

# each of these has to be found wrong
WRONG = [
    "`encodes_all`", "`is_widht`", "`encode::encode_stripe(stripe, shape)`", "`encode::encode_stripe(shape, stripe) -> Plan`", "`Shape { width, disks }`", "`plan_disc`", "`planner::plan_disc`", "`planner::routes::plan_disk`", "`routes::all_routes`",
    "`liberation/no-such-edit`", "edits `liberation/always-rows`, `no-such-edit`", "edits `judge/nothing-counted`, `always-rows`",
    "test `stripe`", "tests `stripes`, `stripe`", "`Scrubs .says_two`", "`Scrubs .says_one`, `.says_two`",
    "`encodes` (guarantees Plans)", "`restores`, `encodes` (guarantees Stripes)", "(guarantees Stripe)", "(demands Stripes)",
    "crates/liberation/proofs/Price.antt", "Price.antt", "`price`, crates/liberation/proofs/OurPlan.antt", "`price`, OurPlan.antt",
    "docs/PAGE.md", "by liberation_texts", "`Wach`", "`PACKAGE_TO_LONG`", "`store/putt`", "`Cells::filn`", "`Cell::film`", "`planner::Steps::sett`", "`planner::Step::set`", "`reads/image`", "rust/image", "(run_laws MadeLaws)",
]


def words(text):
    return re.findall(r"`([^`\n]+)`", text)


def known(name):
    return name in source.names() or name in HEADER or name in TOOL or name in CHECKS or name in OUTSIDE


def is_function(crate, parts, parameters, result):
    """Has the crate this function, with these parameters and this result, where they are given?"""
    if crate not in source.CRATES:
        return False
    if len(parts) == 2:
        return "::".join(parts) in source.methods(crate) or parts[0] in source.modules(crate) and parts[1] in source.functions(crate, parts[0])
    if parts[0] in source.structs(crate):
        return True
    names, gives = source.signature(crate, parts[0])
    fits = parameters is None or parameters == ", ".join(names)
    return parts[0] in source.at_root(crate) and fits and result in (None, gives)


def wrong_word(word):
    """Why a word between backticks names nothing, or None."""
    path = re.fullmatch(r"(\w+)((?:::\w+)+)(?:\((.*)\))?(?: -> (\w+))?", word)
    if path and path[1] in METHODS and path[1] not in source.CRATES:
        return None if path[2][2:] in METHODS[path[1]] else f"no function {word}"
    if path:
        return None if is_function(path[1], path[2].split("::")[1:], path[3], path[4]) else f"no function {word}"
    literal = re.fullmatch(r"(\w+) \{ ([\w, ]+) \}", word)
    if literal:
        return None if set(literal[2].split(", ")) == source.parts(literal[1]) else f"no struct {word}"
    edit = re.fullmatch(r"(\w+)/([\w-]+)", word)
    if edit and edit[1] in source.CRATES:
        return None if source.has_edit(*edit.groups()) else f"no edit {word}"
    module = re.fullmatch(r"([a-z]+)/[a-z_/]*[a-z]", word)
    if module and module[1] not in FOLDERS.split("|"):
        return None if word in MODULES else f"no module {word}"
    name = re.fullmatch(r"([A-Za-z][\w-]*)(?:\(.*\)|(?: [a-z]'?)+)?", word)
    return f"nothing of the name {name[1]}" if name and not known(name[1]) else None


def wrong_edits(text):
    """Of each list after 'edit' or 'edits' those that are not there."""
    for listed in re.findall(rf"\bedits? ({LIST})", text):
        crate = None
        for word in words(listed):
            crate, name = word.split("/") if "/" in word else (crate, word)
            if crate not in source.CRATES or not source.has_edit(crate, name):
                yield f"no edit {crate}/{name}"


def wrong_fields(text):
    """`Record .field`, and `.field` after it, of which the record has none."""
    for listed in re.findall(LIST, text):
        record = ""
        for word in words(listed):
            part = re.fullmatch(r"([A-Z]\w*)? ?\.(?!antt)([a-z][\w-]*)", word)
            record = part[1] or record if part else record
            if part and part[2] not in source.parts(record):
                yield f"no field {part[2]} of a record {record}"


def places(text):
    """The words before '(crate File)' or ', path.antt', with the files of that name."""
    for listed, crate, file in re.findall(rf"({LIST})? ?\(([a-z_]+) ((?:[a-z_]+/)?[A-Z]\w{{2,}})[),:;]", text):
        yield words(listed), f"{file} of {crate}", source.files(crate).get(file, []) if crate in source.CRATES else []
    for listed, path in re.findall(rf"({LIST}), ((?:crates/)?[\w/]+)\.antt", text):
        paths = [TOP / f"{path}.antt"] if "/" in path else source.named(path)
        yield words(listed), f"{path}.antt", [path for path in paths if path.exists()]


def wrong_places(text):
    for listed, file, paths in places(text):
        if not paths:
            yield f"no file {file}"
            continue
        stated = set(source.CRATES).union(*map(source.statements, paths))
        for name in (name for word in listed for name in re.findall(r"[A-Za-z][\w-]+", word.partition("(")[0])):
            if name not in stated:
                yield f"{name} is not stated in {file}"


def wrong_paths(text):
    """Paths and names of files that are not there, and words with an underscore that name nothing."""
    for path in re.findall(rf"(?<![\w/])(?:{FOLDERS})/[\w./*-]*[\w*]", text):
        if not list(TOP.glob(path)):
            yield f"no {path}"
    yield from (f"no file {file}.antt" for file in re.findall(r"(?<![\w/])(\w+)\.antt", text) if not source.named(file))
    plain = re.sub(r"[\w./*-]*/[\w./*-]*|\]\([^)]*\)", "", re.sub(NAME, "", text))
    yield from (f"nothing of the name {name}" for name in re.findall(r"\b[a-z]+(?:_[a-z]+)+\b", plain) if not known(name))


def problems(text):
    """What a text cites wrongly."""
    yield from wrong_edits(text)
    text = re.sub(rf"\bedits? {LIST}", "", text)
    for listed in re.findall(rf"\btests? ({LIST})", text):
        yield from (f"no group {name} of tests/reference" for name in words(listed) if name not in source.groups())
    text = re.sub(rf"\btests? {LIST}", "", text)
    yield from wrong_fields(text)
    yield from wrong_places(text)
    yield from filter(None, map(wrong_word, words(text)))
    yield from wrong_paths(text)


def wrong_lines(page):
    for number, line in enumerate(page.read_text().split("\n"), 1):
        yield from (f"{problem}, line {number}" for problem in problems(line))
