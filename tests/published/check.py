#!/usr/bin/env python3
"""Holds the interface that users see to the proved source, field by field.

Usage: tests/published/check.py ARCHIVES FOLDER BOUNDARY
  ARCHIVES: the folder of libcuzhaveli.a, libcuzhaveli_plans.a and libcuzhaveli_fast.a; FOLDER: an
  existing folder for what is compiled; BOUNDARY: what tests/c_calls printed.

The exports of crates/cuzhaveli_*/src/lib.rt and the #[repr(C)] structs that they use are the
reference. include/cuzhaveli.h and rust/cuzhaveli/src/ffi.rs must declare the same calls and
structs, with the same sizes and offsets; libcuzhaveli.a must define exactly these calls,
libcuzhaveli_plans.a those of crates/cuzhaveli_plans, and libcuzhaveli_fast.a each call and its two
compilations; an archive must hold no data and need nothing but memcpy and memset; the refusals must have one set of names and
numbers in the header, the crate and docs/SCOPE.md; the refusals that the header names for a
call must be those that it gave in the random calls, and those of the table of calls in docs/C.md; header and Makefile must have one version.
Exit status 1 if something differs.
"""

import pathlib
import re
import shutil
import subprocess
import sys

TOP = pathlib.Path(__file__).resolve().parents[2]
EXPORTS = sorted(TOP.glob("crates/cuzhaveli_*/src/lib.rt"))
PLANS = TOP / "crates/cuzhaveli_plans/src/lib.rt"
HEADER = TOP / "include/cuzhaveli.h"
FFI = TOP / "rust/cuzhaveli/src/ffi.rs"
MAKEFILE = TOP / "Makefile"
KINDS = TOP / "rust/cuzhaveli/src/refusal.rs"
REFUSALS = TOP / "docs/SCOPE.md"
CALLS = TOP / "docs/C.md"
NEEDED = {"memcpy", "memset"}
SIZES = {"u8": 1, "bool": 1, "u32": 4, "u64": 8, "usize": 8}
STANDARDS = [("gcc", "c99"), ("gcc", "c11"), ("g++", "c++98"), ("g++", "c++17")]

problems = 0


def differs(what, where, remedy):
    global problems
    problems += 1
    print(f"published: DIFFERS: {what}\n  in: {where}\n  do: {remedy}")


def without_comments(text):
    text = re.sub(r"/\*.*?\*/", "", text, flags=re.S)
    return re.sub(r"//[^\n]*", "", text)


def split_list(text):
    """The items of a list between commas, brackets kept together."""
    return [item.strip() for item in re.findall(r"(?:\[[^\]]*\]|[^,\[])+", text) if item.strip()]


# Each reader gives a pair: calls {name: [(parameter, type), .., ("", result)]} and structs
# {name: [(field, type), ..]}. Types are written as in Rust: usize, u8, bool, [u8; 31], Shape,
# *const u8, *mut Run.


def named(item):
    """A Rattle or Rust parameter or field: its name and type."""
    name, type_ = item.split(":", 1)
    return name.replace("pub ", "").strip(), " ".join(type_.split())


def rattle_parameters(items):
    """A Rattle call's parameters as C sees them: a slice is a pointer and a length."""
    for name, type_ in map(named, items):
        lent = re.fullmatch(r"&(mut )?(.*)", type_)
        if not lent:
            yield name, type_
            continue
        pointer = "*mut " if lent[1] else "*const "
        if re.fullmatch(r"\[\w+\]", lent[2]):
            yield name, pointer + lent[2].strip("[]")
            yield name + "_len", "usize"
        else:
            yield name, pointer + lent[2]


def read_exports(paths):
    pattern = r'#\[unsafe\(no_mangle\)\]\s*pub extern "C" fn (\w+)\s*\(([^)]*)\)\s*->\s*(\w+)'
    calls = {}
    for path in paths:
        for name, parameters, result in re.findall(pattern, without_comments(path.read_text())):
            if name in calls:
                differs(f"a second export {name}", path, "keep one of the two: the members of an archive have each name once")
            calls[name] = list(rattle_parameters(split_list(parameters))) + [("", result)]
    return calls


def with_lengths(text, shared):
    """A file's text with numbers for the constants that are lengths of arrays: its own, else those that it takes from others."""
    lengths = {**shared, **dict(re.findall(r"const (\w+): usize = (\d+);", text))}
    return re.sub(r"\[(\w+); ([A-Z_]+)\]", lambda array: f"[{array[1]}; {lengths.get(array[2], array[2])}]", text)


def read_rattle():
    calls, structs = read_exports(EXPORTS), {}
    texts = [without_comments(path.read_text()) for path in sorted(TOP.glob("crates/*/src/*.rt"))]
    shared = dict(pair for text in texts for pair in re.findall(r"pub const (\w+): usize = (\d+);", text))
    for text in texts:
        text = with_lengths(text, shared)
        for name, fields in re.findall(r"#\[repr\(C\)\]\s*(?:#\[[^\]]*\]\s*)*pub struct (\w+)\s*\{(.*?)\}", text, re.S):
            structs[name] = [named(item) for item in split_list(fields)]
    return calls, used(calls, structs)


def used(calls, structs):
    """The structs that the calls use, and those within them."""
    wanted, found = [t for call in calls.values() for _, t in call], {}
    while wanted:
        name = wanted.pop().split()[-1]
        if name in structs and name not in found:
            found[name] = structs[name]
            wanted += [t for _, t in structs[name]]
    return found


def read_ffi():
    text = without_comments(FFI.read_text())
    calls = {}
    for name, parameters, result in re.findall(r"pub fn (cuzhaveli_\w+)\(([^)]*)\)\s*->\s*(\w+);", text):
        calls[name] = [named(item) for item in split_list(parameters)] + [("", result)]
    structs = {}
    records = text[text.index("records! {\n") :]
    for name, fields in re.findall(r"pub struct (\w+) \{([^$]*?)\}", records, re.S):
        fields = [named(item) for item in split_list(fields)]
        structs[name] = [(field, "bool" if t == "YesNo" else t) for field, t in fields]
    return calls, structs


C_TYPES = {"size_t": "usize", "uint8_t": "u8", "uint32_t": "u32", "uint64_t": "u64", "bool": "bool"}


def c_type(words):
    """A C type as Rust writes it."""
    words = words.replace("*", " * ").split()
    pointer = "" if "*" not in words else "*const " if "const" in words else "*mut "
    words = [word for word in words if word not in ("const", "*")]
    if words[0] == "struct":
        return pointer + "".join(part.title() for part in words[1].split("_")[1:])
    return pointer + C_TYPES.get(words[0], words[0])


def c_named(item):
    """A C parameter or field: its name and type."""
    words, name, size = re.fullmatch(r"(.*?)(\w+)\s*(?:\[(\d+)\])?", item.strip(), re.S).groups()
    return name, f"[{c_type(words)}; {size}]" if size else c_type(words)


def read_header():
    text = without_comments(HEADER.read_text())
    text = re.sub(r"^\s*#.*$", "", text, flags=re.M)
    calls = {}
    for result, name, parameters in re.findall(r"([\w ]+?)\s*\b(cuzhaveli_\w+)\(([^)]*)\);", text):
        items = [] if parameters == "void" else split_list(parameters)
        calls[name] = [c_named(item) for item in items] + [("", c_type(result))]
    structs = {}
    for name, fields in re.findall(r"struct (cuzhaveli_\w+) \{(.*?)\};", text, re.S):
        fields = [field for field in fields.split(";") if field.strip()]
        structs[c_type("struct " + name)] = [c_named(field) for field in fields]
    return calls, structs


def compare(what, wanted, given, where):
    """Two dictionaries of calls or structs: the same names, and the same parts in the same order."""
    for name in wanted.keys() - given.keys():
        differs(f"{what} {name} of the proved source is not declared", where, "declare it there")
    for name in given.keys() - wanted.keys():
        differs(f"{what} {name} is declared, and no export has it", where, "take it out, or export it in one of crates/cuzhaveli_*")
    for name in wanted.keys() & given.keys():
        if wanted[name] != given[name]:
            differs(f"{what} {name}: {given[name]}\n  proved: {wanted[name]}", where, "declare it as the proved source does")


def layout(structs):
    """The size, the alignment and the offsets of each struct, by the C rules for x86-64."""

    def measure(type_):
        array = re.fullmatch(r"\[(\w+); (\d+)\]", type_)
        if array:
            size, align = measure(array[1])
            return size * int(array[2]), align
        return place(type_)[:2] if type_ in structs else (SIZES[type_],) * 2

    def place(name):
        end, most, offsets = 0, 1, {}
        for field, type_ in structs[name]:
            size, align = measure(type_)
            offsets[field] = -(-end // align) * align
            end, most = offsets[field] + size, max(most, align)
        return -(-end // most) * most, most, offsets

    return {name: place(name) for name in structs}


def snake(name):
    return "cuzhaveli_" + re.sub(r"(?<!^)([A-Z])", r"_\1", name).lower()


def compiles(words, what, where, remedy):
    done = subprocess.run(words, capture_output=True, text=True)
    if done.returncode != 0:
        differs(f"{what}:\n{done.stderr.strip()[:3000]}", where, remedy)
    return done.returncode == 0


def check_layout(structs, folder):
    """Sizes and offsets, asserted by the C and the Rust compiler."""
    c = ['#include "cuzhaveli.h"', "_Static_assert(sizeof(size_t) == 8, \"x86-64\");"]
    rust = [f'#[path = "{FFI}"] #[allow(dead_code)] mod ffi;', "use std::mem::{align_of, offset_of, size_of};", "const _: () = {"]
    count = 0
    for name, (size, align, offsets) in layout(structs).items():
        c_name = f"struct {snake(name)}"
        c.append(f'_Static_assert(sizeof({c_name}) == {size}, "size of {c_name}");')
        c.append(f'_Static_assert(_Alignof({c_name}) == {align}, "alignment of {c_name}");')
        rust.append(f'assert!(size_of::<ffi::{name}>() == {size} && align_of::<ffi::{name}>() == {align}, "size of {name}");')
        for field, offset in offsets.items():
            count += 1
            c.append(f'_Static_assert(offsetof({c_name}, {field}) == {offset}, "offset of {c_name}.{field}");')
            rust.append(f'assert!(offset_of!(ffi::{name}, {field}) == {offset}, "offset of {name}.{field}");')
    (folder / "layout.c").write_text("\n".join(c) + "\n")
    (folder / "layout.rs").write_text("\n".join(rust + ["};", "fn main() {}"]) + "\n")
    compiles(["gcc", "-std=c11", "-fsyntax-only", f"-I{HEADER.parent}", folder / "layout.c"],
             "a size or an offset in C is not that of the proved struct", HEADER, "declare the struct as the proved source does")
    compiles(["rustc", "--edition", "2021", "--emit", "metadata", "-o", folder / "layout.rmeta", folder / "layout.rs"],
             "a size or an offset in Rust is not that of the proved struct", FFI, "declare the struct as the proved source does")
    return count


def check_header(structs, folder):
    """The header compiles in every standard without a warning, each struct and macro used."""
    uses = "".join(f"    struct {snake(name)} x_{name};\n    (void)x_{name};\n" for name in structs)
    macros = re.findall(r"#define (CUZHAVELI_\w+)(\(([^)]*)\))?", HEADER.read_text())
    for name, _, parameters in macros:
        if name != "CUZHAVELI_H":
            arguments = ", ".join("shape" if word.strip() == "shape" else "3" for word in parameters.split(","))
            uses += f"    total += {name}{f'({arguments})' if parameters else ''};\n"
    start = "    struct cuzhaveli_shape shape = {5, 5, 1};\n    size_t total = 0;\n"
    body = f'#include "cuzhaveli.h"\n#include "cuzhaveli.h"\nint main(void)\n{{\n{start}{uses}    return total == 0;\n}}\n'
    declarations, uses = body.split("    total +=", 1)
    (folder / "header.c").write_text(declarations + "    total +=" + uses)
    (folder / "header.cc").write_text((folder / "header.c").read_text())
    for compiler, standard in STANDARDS:
        if not shutil.which(compiler):
            print(f"published: SKIPPED: the header as {standard}: no {compiler} on this machine")
            continue
        source = folder / ("header.c" if compiler == "gcc" else "header.cc")
        strict = [f"-std={standard}", "-Wall", "-Wextra", "-pedantic", "-Werror", "-Wno-uninitialized", "-fsyntax-only"]
        compiles([compiler, *strict, f"-I{HEADER.parent}", source], f"the header does not compile as {standard}", HEADER,
                 "write it so that all of C99, C11, C++98 and C++17 take it without a warning")


def check_archive(calls, library):
    """The archive's symbols are the calls, and it needs and holds nothing else."""
    symbols = subprocess.run(["nm", "-P", library], capture_output=True, text=True, check=True).stdout
    kinds = [line.split()[:2] for line in symbols.splitlines() if " " in line]
    defined = {name for name, kind in kinds if kind in "Ti"}
    for name in calls - defined:
        differs(f"the archive does not define {name}", library, "build it anew: make")
    for name in defined - calls:
        differs(f"the archive defines {name}, and no export has it", library, "export it, or take it out of the archive")
    for name, kind in kinds:
        if kind == "U" and name not in NEEDED | defined:
            differs(f"the archive needs {name}; users were told {', '.join(sorted(NEEDED))}", library, "find the call that brought it in")
        if kind in "BbCcDdGgSs":
            differs(f"the archive has data, {name}; a call is to keep no state", library, "find the static that brought it in")
    for name in written_sections(library):
        differs(f"the archive has a section that can be written, {name}", library, "find the static that brought it in")
    return len(defined)


def written_sections(library):
    """The sections of an archive or a library that can be written and have bytes."""
    sections = subprocess.run(["readelf", "-SW", library], capture_output=True, text=True, check=True).stdout
    found = re.findall(r"\] (\S+) +\S+ +[0-9a-f]{16} [0-9a-f]+ ([0-9a-f]+) [0-9a-f]+ +([A-Za-z]*) ", sections)
    return [name for name, size, flags in found if "W" in flags and int(size, 16) > 0]


def check_archives(calls, archives):
    """The archives of all calls, of those on plans, and of both compilations with the choice between them."""
    symbols = check_archive(set(calls), archives / "libcuzhaveli.a")
    symbols += check_archive(set(read_exports([PLANS])), archives / "libcuzhaveli_plans.a")
    fast = archives / "libcuzhaveli_fast.a"
    if not fast.exists():
        print(f"published: no {fast}, so it is not looked at")
        return symbols
    return symbols + check_archive({name + level for name in calls for level in ("", "_x86_64", "_x86_64_v3")}, fast)


def check_refusals():
    """One set of refusals: the header's enum, the crate's kinds, the table of docs/SCOPE.md."""
    enum = re.search(r"enum cuzhaveli_refusal \{(.*?)\};", without_comments(HEADER.read_text()), re.S)[1]
    wanted = {name: int(number) for name, number in re.findall(r"CUZHAVELI_(\w+) = (\d+)", enum)}
    kinds = re.findall(r'^    (\w+) = (\d+), "', KINDS.read_text(), re.M)
    given = {re.sub(r"(?<!^)([A-Z])", r"_\1", name).upper(): int(number) for name, number in kinds}
    given.pop("UNKNOWN", None)
    if {"OK": 0, **given} != wanted:
        differs(f"refusals {sorted(given.items())}\n  header: {sorted(wanted.items())}", KINDS, "take the header's names and numbers")
    rows = re.findall(r"^\| (\d+) \| `CUZHAVELI_(\w+)` \|", REFUSALS.read_text(), re.M)
    table = {name: int(number) for number, name in rows}
    if {"OK": 0, **table} != wanted:
        differs(f"refusals {sorted(table.items())}\n  header: {sorted(wanted.items())}", REFUSALS, "take the header's names and numbers")
    return len(wanted) - 1


def check_version():
    """The version that the Makefile gives to a release is the header's, which tests/c_calls holds to the archive's."""
    numbers = re.search(r"^VERSION = (\d+)\.(\d+)\.(\d+)$", MAKEFILE.read_text(), re.M)
    first, second, third = map(int, numbers.groups())
    header = int(re.search(r"#define CUZHAVELI_VERSION (\d+)", HEADER.read_text())[1])
    if header != 10000 * first + 100 * second + third:
        differs(f"version {header}; the Makefile has {'.'.join(numbers.groups())}", HEADER, "give both the same version")


def named_refusals():
    """The refusals that the header names for each call."""
    named_in = {}
    for comment, calls in re.findall(r"/\*((?:(?!\*/).)*)\*/\n((?:(?:struct|uint32_t)[^;{}]*\([^;{}]*\);\n)+)", HEADER.read_text(), re.S):
        listed = re.search(r"Refuses ((?:(?!\. |\.$).)*)", comment, re.S)
        for name in re.findall(r"(cuzhaveli_\w+)\(", calls):
            named_in[name] = set(map(int, re.findall(r"\d+", listed[1]))) if listed else None
    return named_in


def told_refusals(text):
    """The refusals that the table of calls names for each call."""
    told = {}
    for calls, numbers in re.findall(r"^\| (`cuzhaveli_.*?`) \|.*\| ([^|]*) \|$", text, re.M):
        listed = {int(number) for number in re.findall(r"\d+", numbers)}
        for first, last in re.findall(r"(\d+) to (\d+)", numbers):
            listed |= set(range(int(first), int(last)))
        told.update({name: listed for name in re.findall(r"`(cuzhaveli_\w+)\(", calls)})
    return told


def check_told():
    """The table of docs/C.md has each call of the header, with its refusals."""
    text, named_in = CALLS.read_text(), {name: numbers or set() for name, numbers in named_refusals().items()}
    told = told_refusals(text)
    for name in told.keys() | named_in.keys():
        if told.get(name) != named_in.get(name):
            differs(f"{name} refuses {sorted(told.get(name) or [])}, in the header {sorted(named_in.get(name) or [])}",
                    CALLS, "give the call its row, with the header's refusals")
    if told_refusals(text.replace("| 1, 13, 3 |", "| 1, 3 |", 1)) == told:
        differs("a wrong table passes", CALLS, "correct told_refusals")


def check_given(boundary):
    """The refusals that the header names for each call, and those that the random calls gave."""
    seen = {name: set(map(int, numbers.split())) for name, numbers in re.findall(r"^refused (\w+):(.*)$", boundary.read_text(), re.M)}
    named_in = named_refusals()
    for name in seen.keys() | named_in.keys():
        if seen.get(name) != named_in.get(name):
            differs(f"{name} gave refusals {sorted(seen.get(name) or [])}, its comment has {sorted(named_in.get(name) or [])}",
                    HEADER, "correct the comment, or add the call to tests/c_calls/calls.c")


def main():
    if len(sys.argv) != 4:
        sys.exit(__doc__.split("\n\n")[1])
    archives, folder, boundary = map(pathlib.Path, sys.argv[1:])
    library, plans_library = archives / "libcuzhaveli.a", archives / "libcuzhaveli_plans.a"
    for path in (library, plans_library, folder, boundary):
        if not path.exists():
            sys.exit(f"published: no {path}; give the folder of the archives, one that exists, and the output of tests/c_calls")
    calls, structs = read_rattle()
    for path, (given_calls, given_structs) in ((HEADER, read_header()), (FFI, read_ffi())):
        compare("call", calls, given_calls, path)
        compare("struct", structs, given_structs, path)
    check_header(structs, folder)
    fields = check_layout(structs, folder)
    symbols = check_archives(calls, archives)
    refusals = check_refusals()
    check_version()
    check_given(boundary)
    check_told()
    if problems:
        sys.exit(f"published: {problems} differences")
    print(f"published: {len(calls)} calls, {len(structs)} structs, {fields} offsets, {symbols} symbols, {refusals} refusals agree")


if __name__ == "__main__":
    main()
