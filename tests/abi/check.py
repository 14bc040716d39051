#!/usr/bin/env python3
"""Holds libcuzhaveli.so.1 to what its versions 1.x promise.

Usage: tests/abi/check.py LIBRARY
       tests/abi/check.py --print

promised.txt has each call with its parameters, each struct with its size and offsets, and each number
with a name, as programs that were linked with the library rely on them. They are compared with the
header, whose sizes tests/published/check.py holds to the compiler and to the proved source; --print
prints them as the header has them now. The library must show exactly the calls of the header, under
its name and version, have no data that can be written, need nothing but memcpy and memset of the C
library, and run no code of its own but what chooses a compilation. Exit status 1 if something differs.
"""

import difflib
import pathlib
import re
import subprocess
import sys

sys.dont_write_bytecode = True
HERE = pathlib.Path(__file__).resolve().parent
sys.path.insert(0, str(HERE.parent / "published"))

import check as interface  # noqa: E402

PROMISED = HERE / "promised.txt"
NAME, VERSION = "libcuzhaveli.so.1", "CUZHAVELI_1"
NEEDED = {"libc.so.6"}
# Sections that a program's loader writes once and then protects (RELRO).
WRITTEN_AT_LOAD = {".dynamic", ".got", ".got.plt", ".data.rel.ro"}


def current():
    """What the header has, a line for each thing that a linked program relies on."""
    calls, structs = interface.read_header()
    lines = []
    for name, parameters in sorted(calls.items()):
        *given, (_, result) = parameters
        lines.append(f"call {name}({', '.join(type_ for _, type_ in given)}) -> {result}")
    for name, (size, align, offsets) in sorted(interface.layout(structs).items()):
        lines.append(f"struct {interface.snake(name)}: {size} bytes, aligned to {align}")
        types = dict(structs[name])
        lines += [f"  {field}: {types[field]} at {offset}" for field, offset in offsets.items()]
    numbers = dict(re.findall(r"\b(CUZHAVELI_\w+) = (\d+)", interface.HEADER.read_text()))
    numbers.update(re.findall(r"#define (CUZHAVELI_(?!VERSION)\w+) (\d+)", interface.HEADER.read_text()))
    return lines + [f"number {name} = {number}" for name, number in sorted(numbers.items())]


def check_promises():
    kept = [line for line in PROMISED.read_text().splitlines() if not line.startswith("#")]
    found = current()
    changes = [line for line in difflib.ndiff(kept, found) if line[0] in "-+"]
    if any(line[0] == "-" for line in changes):
        interface.differs("the header breaks what 1.x promises:\n" + "\n".join(changes), interface.HEADER,
                          "put it back; if it has to go, it is libcuzhaveli.so.2, with a promised.txt of its own")
    elif changes:
        interface.differs("the header has more than promised.txt:\n" + "\n".join(changes), PROMISED,
                          "add these lines, which promises them for all later 1.x")
    return len(found)


def output(*words):
    return subprocess.run(words, capture_output=True, text=True, check=True).stdout


def check_symbols(library):
    calls, _ = interface.read_header()
    shown = {f"{name}@@{VERSION}" for name in calls} | {VERSION}
    given = {line.split()[-1] for line in output("nm", "-D", "--defined-only", library).splitlines()}
    for name in sorted(shown ^ given):
        interface.differs(f"{name} is {'shown' if name in given else 'not shown'}", library,
                          "show the calls of the header and no other name (scripts/dispatch/shared.sh)")
    for line in output("nm", "-D", "--undefined-only", library).splitlines():
        name = line.split()[-1].split("@")[0]
        if name not in interface.NEEDED:
            interface.differs(f"the library needs {name}", library, "find what brought it in")
    return len(calls)


def check_file(library):
    dynamic = output("readelf", "-dW", library)
    tags = re.findall(r"\((\w+)\)\s+(?:Shared library: |Library soname: )?\[?([^\]\n]*)", dynamic)
    of = lambda tag: {value for name, value in tags if name == tag}  # noqa: E731
    if of("SONAME") != {NAME}:
        interface.differs(f"the library is called {of('SONAME')}", library, f"link it as {NAME}")
    if of("NEEDED") != NEEDED:
        interface.differs(f"the library needs {of('NEEDED')}", library, "link it with the C library alone")
    for tag in ("TEXTREL", "RPATH", "RUNPATH", "INIT", "INIT_ARRAY", "FINI", "FINI_ARRAY"):
        if of(tag):
            interface.differs(f"the library has {tag}", library, "link it as scripts/dispatch/shared.sh does")
    headers = output("readelf", "-lW", library)
    if not re.search(r"GNU_STACK .* RW +0x", headers) or "GNU_RELRO" not in headers:
        interface.differs("the stack can be executed, or no part is protected after loading", library,
                          "link it as scripts/dispatch/shared.sh does")
    for name in interface.written_sections(library):
        if name not in WRITTEN_AT_LOAD:
            interface.differs(f"the library has a section that can be written, {name}", library, "keep no state")


def main():
    if sys.argv[1:] == ["--print"]:
        print("\n".join(current()))
        return
    if len(sys.argv) != 2 or not pathlib.Path(sys.argv[1]).is_file():
        sys.exit(__doc__.split("\n\n")[1])
    promises = check_promises()
    calls = check_symbols(sys.argv[1])
    check_file(sys.argv[1])
    if interface.problems:
        sys.exit(f"abi: {interface.problems} differences")
    print(f"abi: {NAME} shows {calls} calls, {promises} lines of promised.txt hold")
    print(f"abi: {calls + promises} passed, 0 skipped")


if __name__ == "__main__":
    main()
