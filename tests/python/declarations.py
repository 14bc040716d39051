#!/usr/bin/env python3
"""Holds the declarations of the Python package to include/cuzhaveli.h, field by field.

Usage: tests/python/declarations.py, with PYTHONPATH=python; no library is loaded.

Calls must have the header's parameters, structs its fields, sizes and offsets, refusals and verdicts its
names and numbers, limits its numbers; each call has a function with a docstring that names the header's
refusals, and the refusals have the words of the Rust crate. Exit status 1 if something differs.
"""

import ctypes
import pathlib
import re
import sys

sys.dont_write_bytecode = True
TOP = pathlib.Path(__file__).resolve().parents[2]
sys.path.insert(0, str(TOP / "tests/published"))

import check as interface  # noqa: E402
import cuzhaveli  # noqa: E402
from cuzhaveli import declarations, refusal  # noqa: E402

DECLARATIONS = pathlib.Path(declarations.__file__)
# size_t and uint64_t are one type in ctypes, and a pointer to a struct does not say const.
TYPES = {
    ctypes.c_size_t: "u64",
    ctypes.c_uint8: "u8",
    ctypes.c_uint32: "u32",
    ctypes.c_bool: "bool",
    declarations.ReadBytes: "*const u8",
    declarations.WrittenBytes: "*mut u8",
    declarations.ReadNumbers: "*const u64",
}


def python_type(type_):
    if type_ in TYPES:
        return TYPES[type_]
    if issubclass(type_, ctypes.Array):
        return f"[{python_type(type_._type_)}; {type_._length_}]"
    return f"*{type_._type_.__name__}" if issubclass(type_, ctypes._Pointer) else type_.__name__


def plain(type_):
    """A type of the header as far as ctypes tells it."""
    type_ = re.sub(r"\busize\b", "u64", type_)
    return re.sub(r"^\*(?:const|mut) ([A-Z])", r"*\1", type_)


def plainly(parts):
    return {name: [(part, plain(type_)) for part, type_ in items] for name, items in parts.items()}


def given_calls():
    return {
        name: [(parameter, python_type(type_)) for parameter, type_ in parameters] + [("", python_type(result))]
        for name, (result, parameters) in declarations.CALLS.items()
    }


def structs():
    found = [one for one in vars(declarations).values() if isinstance(one, type) and issubclass(one, ctypes.Structure)]
    return {one.__name__: one for one in found if one is not ctypes.Structure}


def check_layout(wanted):
    for name, (size, align, offsets) in interface.layout(wanted).items():
        struct = structs().get(name)
        if struct is None:
            continue
        given = {field: getattr(struct, field).offset for field, _ in struct._fields_}
        if (ctypes.sizeof(struct), ctypes.alignment(struct), given) != (size, align, offsets):
            interface.differs(f"{name} has {ctypes.sizeof(struct)} bytes, offsets {given}", DECLARATIONS, "declare it as the header does")


def check_numbers():
    header = interface.without_comments(interface.HEADER.read_text())
    enums = {name: dict(re.findall(r"CUZHAVELI_(\w+) = (\d+)", body)) for name, body in re.findall(r"enum cuzhaveli_(\w+) \{(.*?)\}", header, re.S)}
    enums["refusal"].pop("OK")
    for kind, given in (("refusal", cuzhaveli.RefusalKind), ("verdict", cuzhaveli.Verdict)):
        wanted = {name: int(number) for name, number in enums[kind].items()}
        if {one.name: one.value for one in given} != wanted:
            interface.differs(f"{given.__name__} is not the header's enum {kind}", DECLARATIONS.parent, f"give it {wanted}")
    limits = dict(re.findall(r"#define CUZHAVELI_(\w+) (\d+)u?$", re.sub(r"[ \t]+$", "", header, flags=re.M), re.M))
    version = int(limits.pop("VERSION"))
    for name, number in limits.items():
        if getattr(cuzhaveli, name, None) != int(number):
            interface.differs(f"{name} is {getattr(cuzhaveli, name, 'not there')}", DECLARATIONS.parent, f"give it {number}")
    first, second, third = map(int, cuzhaveli.__version__.split("."))
    if 10000 * first + 100 * second + third != version:
        interface.differs(f"version {cuzhaveli.__version__}; the header has {version}", DECLARATIONS.parent / "__init__.py", "give both one")
    return len(limits) + len(cuzhaveli.RefusalKind) + len(cuzhaveli.Verdict)


def check_functions():
    """Each call has a function, whose docstring names the refusals that the header names."""
    for name, numbers in interface.named_refusals().items():
        function = getattr(cuzhaveli, name.replace("cuzhaveli_", ""), None)
        text = " ".join((getattr(function, "__doc__", None) or "").split())
        if not text:
            interface.differs(f"there is no function for {name}, or it has no docstring", DECLARATIONS.parent, "write it")
            continue
        listed = re.search(r"Refuses ([^.]*)", text)
        given = set(map(int, re.findall(r"\d+", listed[1]))) if listed else set()
        if given != (numbers or set()):
            interface.differs(f"{function.__name__} names the refusals {sorted(given)}", DECLARATIONS.parent, f"name {sorted(numbers or [])}")


def check_words():
    kinds = re.findall(r'^    (\w+) = (\d+), "([^"]*)"', interface.KINDS.read_text(), re.M)
    wanted = {int(number): text for name, number, text in kinds if name != "Unknown"}
    for number in wanted.keys() | refusal.TEXTS.keys():
        if refusal.TEXTS.get(number) != wanted.get(number):
            interface.differs(f"refusal {number}: {refusal.TEXTS.get(number)}", refusal.__file__, f"say: {wanted.get(number)}")


def main():
    calls, header_structs = interface.read_header()
    interface.compare("call", plainly(calls), given_calls(), DECLARATIONS)
    fields = {name: [(field, python_type(type_)) for field, type_ in one._fields_] for name, one in structs().items()}
    interface.compare("struct", plainly(header_structs), fields, DECLARATIONS)
    check_layout(header_structs)
    numbers = check_numbers()
    check_functions()
    check_words()
    if interface.problems:
        sys.exit(f"python: {interface.problems} differences from the header")
    print(f"python: {len(calls)} calls, {len(fields)} structs and {numbers} numbers are the header's")


if __name__ == "__main__":
    main()
