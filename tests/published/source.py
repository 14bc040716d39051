"""What the crates hold, by name: functions, structs, definitions, theorems, edits. For the tests of the documents."""

import functools
import pathlib
import re
import sys

TOP = pathlib.Path(__file__).resolve().parents[2]
sys.path.insert(0, str(TOP / "scripts/docs"))

import layers  # noqa: E402  scripts/docs/layers.py reads crates.txt

CRATES = layers.read()


def below(crate):
    """The crates that a crate uses, at whatever remove."""
    return set(CRATES[crate]).union(*map(below, CRATES[crate]))


@functools.cache
def modules(crate):
    """Each module of a crate with its text, without comments; the root is ''."""
    found = {}
    for path in sorted((TOP / "crates" / crate / "src").glob("*.rt")):
        name = "" if path.stem in ("lib", "main") else path.stem
        found[name] = re.sub(r"//[^\n]*", "", path.read_text())
    return found


def functions(crate, module):
    return set(re.findall(r"\bfn (\w+)", modules(crate)[module]))


def structs(crate):
    """The structs and enums of a crate, each with its fields; of an enum the names of its values."""
    found = [pair for text in modules(crate).values() for pair in re.findall(r"pub (?:struct|enum) (\w+)(?:<[^>]*>)? \{(.*?)\n\}", text, re.S)]
    return {name: set(re.findall(r"^    (?:pub )?(?:ghost )?(\w+)(?=:|,| =|\()", fields, re.M)) for name, fields in found}


def reused(crate):
    """The functions of its modules that a crate's root makes public, each with its module."""
    listed = re.findall(r"^pub use (\w+)::(?:\{([^}]*)\}|(\w+));", modules(crate)[""], re.M)
    return {name: module for module, several, one in listed for name in re.findall(r"\w+", several or one) if name.islower()}


def at_root(crate):
    """The functions that a crate's root makes public."""
    return set(re.findall(r'^pub (?:extern "C" )?fn (\w+)', modules(crate)[""], re.M)).union(reused(crate))


@functools.cache
def called(crate):
    """The functions of a crate that other crates name."""
    texts = [text for other in CRATES if other != crate for text in modules(other).values()]
    return at_root(crate) & {name for text in texts for name in re.findall(rf"\b{crate}::(\w+)", text)}


def signature(crate, name):
    """The parameters, by name, and the result of a function that the root makes public."""
    found = re.search(rf"\bfn {name}(?:<[^>]*>)?\(([^)]*)\)(?: -> (\w+))?", modules(crate)[reused(crate).get(name, "")])
    return ([item.split(":")[0].strip() for item in found[1].split(",") if item.strip()], found[2]) if found else ([], None)


def asks(crate, name):
    """Whether a function that the root makes public, or one of a public type, has a `requires`."""
    if name in methods(crate):
        return methods(crate)[name]
    contract = re.search(rf"\bfn {name}(?:<[^>]*>)?\(.*?(?:^| )\{{$", modules(crate)[reused(crate).get(name, "")], re.M | re.S)
    return bool(contract and re.search(r"^ *requires ", contract[0], re.M))


def types_at_root(crate):
    """The types that a crate's root makes public."""
    listed = re.findall(r"^pub use \w+::(?:\{([^}]*)\}|(\w+));", modules(crate)[""], re.M)
    used = {name for several, one in listed for name in re.findall(r"\w+", several or one) if not name.islower()}
    return used | set(re.findall(r"^pub (?:struct|enum) (\w+)", modules(crate)[""], re.M))


@functools.cache
def methods(crate):
    """The public functions of these types, as `Type::function`, each with whether it has a `requires`; not those of traits."""
    found = {}
    for text in modules(crate).values():
        for name, body in re.findall(r"^impl(?:<[^>]*>)? (\w+)(?:<[^>]*>)? \{\n(.*?)^\}", text, re.M | re.S):
            for method, contract in re.findall(r"^    pub fn (\w+)(.*?(?:^| )\{)$", body, re.M | re.S):
                if name in types_at_root(crate):
                    found[f"{name}::{method}"] = bool(re.search(r"^ *requires ", contract, re.M))
    return found


def exports():
    return {name for crate in CRATES for name in at_root(crate) if name.startswith("cuzhaveli_")}


@functools.cache
def statements(path):
    """The names that a file of definitions or laws states: those at its margin, public ones, and parts of records."""
    head = r"^(?:  )?(?: *pub )?(?:(?:abbrev|unfoldable|pub|record|data) )*([A-Za-z_][^\s(){}:.]*)(?= *[:({])"
    return set(re.findall(head, path.read_text(), re.M))


def is_of_function(path):
    """Whether a file is of the proof of a function, in the folder of its name."""
    return path.stem in ("Invariants", "Answers", "Proof") and path.parent.name not in ("specs", "proofs") and not path.parent.name[0].isupper()


@functools.cache
def files(crate):
    """The files of definitions and laws of a crate by name, with the folder within specs/ or proofs/; not the proofs of functions."""
    found = {}
    for folder in ("specs", "proofs"):
        base = TOP / "crates" / crate / folder
        for path in sorted(path for path in base.rglob("*.antt") if not is_of_function(path)):
            found.setdefault(str(path.relative_to(base).with_suffix("")), []).append(path)
    return found


@functools.cache
def named(name):
    """The files of definitions and laws that have this name, in whatever folder of whatever crate."""
    return [path for crate in CRATES for file, paths in files(crate).items() if file.rpartition("/")[2] == name for path in paths]


@functools.cache
def parts(name):
    """The fields of the records and structs of this name."""
    found = set().union(*(structs(crate).get(name, set()) for crate in CRATES))
    for path in (path for crate in CRATES for paths in files(crate).values() for path in paths):
        for body in re.findall(rf"^(?:pub )?record {re.escape(name)}\b.* where\n((?:(?:  .*)?\n)*)", path.read_text(), re.M):
            found |= set(re.findall(r"^  (?:pub )?([^\s:]+) :", body, re.M))
    return found


@functools.cache
def names():
    """Every name of a crate, a module, a function, a constant, a struct, a field, a statement or a file of statements."""
    found = set(CRATES)
    for crate in CRATES:
        found.update(modules(crate), structs(crate), files(crate), *structs(crate).values())
        found.update(*(functions(crate, module) for module in modules(crate)))
        found.update(*(re.findall(r"\bconst (\w+)", text) for text in modules(crate).values()))
        found.update(file.rpartition("/")[2] for file in files(crate))
        found.update(*(statements(path) for paths in files(crate).values() for path in paths))
    return found


@functools.cache
def rust_modules(crate):
    """The modules of a Rust crate by their paths; a folder's own one only where it has functions."""
    base, found = TOP / "rust" / crate / "src", set()
    for path in base.rglob("*.rs"):
        name = path.relative_to(base).with_suffix("")
        if path.stem != "mod":
            found.add(str(name))
        elif re.search(r"^ *(?:pub(?:\(\w+\))? )?fn ", path.read_text(), re.M):
            found.add(str(name.parent))
    return found - {"lib", "main"}


def folders():
    """The folders of the repository that are neither hidden nor made."""
    return {path.name for path in TOP.iterdir() if path.is_dir() and path.name[0] != "."} - {"build"}


def has_edit(crate, name):
    return (TOP / "crates" / crate / "must-fail" / f"{name}.edit").exists()


def groups():
    """The groups of the second implementation."""
    return {path.name for path in (TOP / "tests/reference/src/groups").iterdir() if path.is_dir()}
