#!/usr/bin/env python3
"""Spells the repository's own definitions, lemmas, fields and modules as the kit does.

usage: python3 tools/respell.py [--check] [FOLDER]      after port.py, once; FOLDER is the repository

What specs/ and proofs/ declare becomes snake_case, also behind a dot where it is a record's field; types keep their capitals;
a file of specs/ or proofs/ that only gathers modules becomes a module in CamelCase, with its folder. Proof.antt keeps the names
of its own goals, which tools/answers.py gives new names anyway. A lemma that would meet a definition ends in _lem; CLASHES has
the types that would meet another. The must-fail edits follow where they name what is declared. --check changes nothing, and
prints the names that fall together.
"""

import os
import re
import sys

WORD = r'[^\s(){}.;,@"«»`|]+'
DECLARED = re.compile(rf"(?m)^( *)(?:(?:pub|abbrev|unfoldable) )*({WORD})(?: \{{[^{{}}\n]*\}})* :(?= |$)([^\n]*)")
RECORD = re.compile(r"(?m)^(?:pub )?record [^\n]*where *\n((?:  [^\n]*\n|\n)+)")
FIELD = re.compile(rf"(?m)^  (?:pub )?({WORD}) :(?= |$)")
TYPE = re.compile(r"(?:→|:|^) *Type \d$")
ODD = re.compile(r"-|[a-z0-9][A-Z]|′")
# types that their plain spelling would make another type of the same file
CLASHES = {"Full-read": "FullAreRead", "Disks-read": "DisksAreRead", "Report-means": "ReportMeaning"}


def snake(name):
    name = name.replace("′", "'")
    if name[0].isupper():
        return name
    head, *rest = re.split("-", name)
    words = [head] + rest
    words = [re.sub(r"(?<=[a-z0-9])[A-Z]+", lambda m: "_" + m[0].lower(), w) if w[:1].islower() else w for w in words]
    return "_".join(words)


def files(root, *endings):
    for folder, dirs, names in os.walk(os.path.join(root, "crates")):
        dirs[:] = sorted(d for d in dirs if d != "out")
        for name in sorted(names):
            if name.endswith(endings):
                yield os.path.join(folder, name)


def read(path):
    with open(path, encoding="utf-8") as f:
        return f.read()


def is_walk(path):
    return path.endswith("/Proof.antt")


def table(root):
    """What is declared outside the proofs of functions and is spelled in another way, with its new spelling; and the fields."""
    names, fields, plain, meets, inside = {}, {}, set(), {}, set()
    for path in files(root, ".antt", ".rt"):
        text = read(path)
        for m in re.finditer(r" as ([a-z]+[A-Z]\w*)(?=[,}\n])", text):
            names[m[1]] = snake(m[1])
        if is_walk(path) or path.endswith(".rt"):
            continue
        if "/specs/" in path:
            words = {snake(w) for w in re.findall(rf"(?<!\.){WORD}", re.sub(r"(?m)--.*$", "", text)) if "-" not in w}
            inside |= {f[1] for m in RECORD.finditer(text) for f in FIELD.finditer(m[1]) if snake(f[1]) not in words}
        for m in DECLARED.finditer(text):
            name = m[2]
            if "-" in name and TYPE.search(m[3]):
                names[name] = CLASHES.get(name, "".join(w[0].upper() + w[1:] for w in name.split("-")))
            elif snake(name) == name:
                plain.add(name)
            else:
                names[name] = snake(name)
                if m[1]:
                    fields[name] = snake(name)
        for m in re.finditer(rf"(?<!\.){WORD}", re.sub(r"(?m)--.*$", "", text)):
            meets.setdefault(snake(m[0]), set()).add(m[0])
    # a definition has the plain name, as has a field of a record of specs/ that does not meet it; a lemma that would have it
    # too ends in _lem
    defined = {new for old, new in names.items() if "-" not in old}
    for old, new in names.items():
        if "-" in old and old not in inside and (new in defined or new in plain or len(meets.get(new, ())) > 1):
            names[old] = new + "_lem"
    fields = {name: names[name] for name in fields}
    lemmas = {name: name + "_lem" for name in plain & defined}
    return names, fields, lemmas


def turned(text, names, fields):
    """The text with its words respelled: any declared name, but behind a dot a field alone."""

    def one(m):
        if m[1]:
            return m[1] + fields.get(m[2], m[2])
        return names.get(m[2], m[2])

    return re.sub(rf"(\.)?({WORD})", one, text)


def with_lemmas(text, lemmas):
    """The text with the lemmas that end in _lem now, outside comments."""
    quiet = re.compile(rf"(?m)--.*$|(\.)?({WORD})")
    return quiet.sub(lambda m: m[0] if not m[2] or m[1] else lemmas.get(m[2], m[2]), text)


def modules(root):
    """The gathering modules: old path below crates/, with the new one."""
    moved = {}
    for path in files(root, ".antt"):
        name = os.path.basename(path)[:-5]
        if not name[0].islower() or is_walk(path):
            continue
        folder = path[:-5]
        crate = os.path.relpath(path, os.path.join(root, "crates")).split(os.sep)[0]
        src = os.path.join(root, "crates", crate, "src", name + ".rt")
        if os.path.isdir(folder) and not os.path.exists(src):
            moved[path] = "".join(w.capitalize() for w in name.split("_"))
    return moved


def main():
    words = [w for w in sys.argv[1:] if w != "--check"]
    root = words[0] if words else "."
    names, fields, lemmas = table(root)
    if "--check" in sys.argv:
        clash(root, names, fields)
        return
    moved = modules(root)
    paths = {}
    for path, new in moved.items():
        below = os.path.relpath(path, os.path.join(root, "crates"))[:-5].split(os.sep)
        paths["Rattle." + ".".join(below)] = "Rattle." + ".".join(below[:-1] + [new])
    heads = re.compile("(" + "|".join(re.escape(p) for p in sorted(paths, key=len, reverse=True)) + r")(?=[.\s{])") if paths else None
    for path in files(root, ".antt", ".rt", ".edit"):
        text = read(path)
        new = turned(with_lemmas(text, lemmas) if path.endswith(".antt") else text, names, fields)
        if heads:
            new = heads.sub(lambda m: paths[m[1]], new)
        if path.endswith(".edit"):
            new = edit_paths(new, path, moved, root)
        if new != text:
            with open(path, "w", encoding="utf-8") as f:
                f.write(new)
    for path, new in moved.items():
        old = os.path.basename(path)[:-5]
        lib = os.path.join(os.path.dirname(path), "Lib.antt")
        text = read(lib)
        with open(lib, "w", encoding="utf-8") as f:
            f.write(re.sub(rf"(?m)^((?:pub )?mod ){old}$", rf"\g<1>{new}", text))
        os.rename(path[:-5], os.path.join(os.path.dirname(path), new))
        os.rename(path, os.path.join(os.path.dirname(path), new + ".antt"))
    print(f"{len(names)} names, {len(fields)} fields, {len(moved)} modules")


def edit_paths(text, path, moved, root):
    crate = os.path.dirname(os.path.dirname(path))
    for old, new in moved.items():
        if old.startswith(crate + os.sep):
            below = os.path.relpath(old[:-5], crate)
            text = text.replace(f"file: {below}/", f"file: {os.path.dirname(below)}/{new}/")
    return text


def clash(root, names, fields):
    """Prints the names that fall together in a file, or anywhere."""
    for path in files(root, ".antt", ".rt"):
        text = read(path)
        seen = {}
        for m in re.finditer(rf"(\.)?({WORD})", text):
            word = m[2]
            if m[1]:
                continue
            new = names.get(word, word)
            seen.setdefault(new, set()).add(word)
        for new, olds in seen.items():
            if len(olds) > 1:
                print(os.path.relpath(path, root), new, sorted(olds))
    back = {}
    for old, new in names.items():
        back.setdefault(new, []).append(old)
    for new, olds in back.items():
        if len(olds) > 1:
            print("both:", new, olds)


if __name__ == "__main__":
    main()
