#!/usr/bin/env python3
"""Turns the proofs of functions that an older Rattle read, proofs/F/Proof.antt, into Invariants.antt and Answers.antt.

usage: python3 tools/answers.py NAMES.json CRATE..      CRATE is a crate's folder
NAMES.json is what 'rt check --generated DIR --old-names' writes in the crate's folder, DIR/names.json; of several crates, join them.

A walk that the borrow checker's steps do not carry (no 'tie.close') is left. Each goal gets its new name by its place in
'tie.spec', and each path from it, as 'c.before.before.if1.true', becomes the one step that holds it, as 'c.if-a-b.true'.
What only says 'search rules' is dropped, since the check tries that itself. rt check decides what still holds.
"""

import json
import os
import re
import sys

NAME = r"[^\s(){}.;,@\"«»]+"
TOP = re.compile(rf"(?m)^((?:(?:pub|abbrev|unfoldable) )*)({NAME}) :(?= |$)")
TRIVIAL = re.compile(r"^\(?(?:λ [^.]*\. *)?\(?(search rules|omega arith|tt)\)?\)?$")


def key(name):
    return name.replace("_", "-").lower()


def snake(name):
    return name.replace("-", "_")


def nested(segs, names):
    """The clause that the first segments name, of pairs nested to the right, as .1.1.0; they are taken away."""
    count = 0
    while segs and segs[0] == "1" and count < len(names) - 1:
        count += 1
        segs.pop(0)
    if count < len(names) - 1:
        if segs and segs[0] == "0":
            segs.pop(0)
        else:
            return "?"
    return names[count]


def matched(text, at):
    """The end of the bracket that opens at 'at'."""
    depth = 0
    for i in range(at, len(text)):
        if text[i] in "([{":
            depth += 1
        elif text[i] in ")]}":
            depth -= 1
            if depth == 0:
                return i + 1
    return len(text)


def items(text, sep):
    """The parts of the text between separators that no bracket holds."""
    parts, depth, last = [], 0, 0
    for i, ch in enumerate(text):
        if ch in "([{":
            depth += 1
        elif ch in ")]}":
            depth -= 1
        elif ch == sep and depth == 0:
            parts.append(text[last:i])
            last = i + 1
    return [p.strip() for p in parts + [text[last:]]]


class Decl:
    def __init__(self, comment, head, name, sign, extra, args, body):
        self.comment, self.head, self.name, self.sign, self.extra, self.args, self.body = comment, head, name, sign, extra, args, body


def parsed(text):
    """The head comment, the use lines and the declarations of a file."""
    uses, decls, head, comment = [], [], [], []
    lines = text.split("\n")
    i, started = 0, False
    while i < len(lines):
        line = lines[i]
        if line.startswith("use "):
            uses.append(line)
            started = True
            i += 1
        elif line.startswith("--"):
            (comment if started else head).append(line)
            i += 1
        elif TOP.match(line):
            started = True
            m = TOP.match(line)
            j = i + 1
            while j < len(lines) and (lines[j].startswith(" ") or lines[j] == "" and j + 1 < len(lines) and lines[j + 1].startswith(" ")):
                j += 1
            sign = "\n".join(lines[i:j])[m.end():].strip()
            extra = []
            while j < len(lines) and lines[j].startswith("unfolding"):
                extra.append(lines[j])
                j += 1
            bodies = []
            while j < len(lines) and re.match(rf"{re.escape(m[2])}(?= )", lines[j]):
                k = j + 1
                while k < len(lines) and (lines[k].startswith(" ") or lines[k] == "" and k + 1 < len(lines) and lines[k + 1].startswith(" ")):
                    k += 1
                bodies.append("\n".join(lines[j:k]).rstrip())
                j = k
            args, body = "", ""
            if len(bodies) == 1:
                eq = re.search(r"(?:^| )=(?=\s|$)", bodies[0])
                args, body = bodies[0][len(m[2]):eq.start()].strip(), bodies[0][eq.end():].strip("\n").strip(" ")
            decls.append(Decl(comment, m[1], m[2], sign, extra, args, body if len(bodies) == 1 else "\n".join(bodies)))
            decls[-1].many = len(bodies) != 1
            comment = []
            i = j
        else:
            if line.strip():
                started = True
            i += 1
    return head, uses, decls


class Places:
    def __init__(self, info):
        self.info = info
        self.parent, self.field, self.callee, self.index = {}, {}, {}, {}
        for n, (place, up, field, callee, _) in enumerate(info["places"]):
            self.parent[place], self.field[place], self.callee[place], self.index[place] = up, field, callee, n
        self.by_key = {key(p): p for p in self.parent}

    def place(self, name):
        return self.by_key.get(key(name))

    def find(self, place, field):
        while place is not None:
            if key(self.field[place][0]) == key(field) or key(self.field[place][1]) == key(field):
                return place
            place = self.parent[place]
        return None

    def resolve(self, start, segs):
        """What the segments name from a place or a step: ('place', P), or ('step', P, new path)."""
        kind = start[0]
        segs = list(segs)
        if kind == "place":
            place = start[1]
            while segs and segs[0] == "before":
                place = self.parent[place] or place
                segs.pop(0)
            if not segs:
                return ("place", place)
            first = re.sub(r"_lem$", "", segs.pop(0))
            first = {"pre": "requires"}.get(first, first)
            if first == "args" and segs:
                for old, new in self.info["args"]:
                    if old == f".args .{segs[0]}":
                        segs[0] = new.split(".")[-1]
                        break
            if first in ("args", "ranges", "well_formed", "lifetimes"):
                return ("step", None, [first] + segs)
            if first == "requires":
                start = ("requires", None, ["requires"])
            else:
                at = self.find(place, first) or self.find(self.home, first)
                if at is None:
                    return ("step", None, [first] + segs)
                start = ("step", at, [self.field[at][1]])
        at, path = start[1], list(start[2])
        if start[0] == "step" and at is not None and self.field[at][0].startswith("match") and segs:
            if segs[0].startswith("keys"):
                return ("step", None, path + ["is"] + segs[1:])
            if segs[0] == "rest":
                return ("step", None, path + ["in_default-own"] + segs)
        if start[0] == "requires":
            pre = self.info.get("pre")
            if pre and segs and segs[0].isdigit():
                field = nested(segs, pre["fields"])
                return ("step", None, path + [field] + segs) if field else ("requires", None, path)
            return ("requires" if not segs else "step", None, path + segs)
        if start[0] == "new":
            path, count = list(start[2]), start[3]
            while segs and segs[0] == "1":
                count += 1
                segs.pop(0)
            if segs and segs[0] == "0":
                segs.pop(0)
                names = self.info["params"].get(self.callee[at]) or []
                path.append(names[count] if count < len(names) else "?")
                return ("step", None, path + segs)
            return ("new", at, path, count)
        if start[0] == "ensures":
            names = self.info["clauses"][self.index[at]]
            if names and segs and segs[0].isdigit():
                field = nested(segs, names)
                return ("step", None, path + [field] + segs) if field else ("ensures", at, path)
            return ("ensures" if not segs else "step", at, path + segs)
        if at is not None and segs:
            if segs[0] in ("new", "auto") and self.callee[at] and len(segs) > 1 and segs[1].isdigit():
                return self.resolve(("new", at, path + [segs[0]], 0), segs[1:])
            if segs[0] == "ensures":
                return self.resolve(("ensures", at, path + ["ensures"]), segs[1:])
            return ("step", None, path + segs)
        return ("step", at, path + segs)


class Turn:
    def __init__(self, places, info, goal_names, helpers, left):
        self.places, self.info, self.goal_names, self.helpers, self.left = places, info, goal_names, helpers, left
        self.called = set()

    def text(self, text, var, place):
        """The text with each path from the variable, at the place, as today's."""
        env = {var: ("place", place)}
        self.places.home = place

        def path(m):
            if m["let"]:
                name, head, rest = m["let"], m["from"], m["rest"]
                if head in env:
                    got = self.places.resolve(env[head], [s for s in rest.split(".") if s])
                    env[name] = got
                    if got[0] == "place":
                        return ""
                    return f"let {name} = {self.written(got, var)} in{m['gap']}"
                env.pop(name, None)
                return m[0]
            head = m["var"]
            if head not in env:
                return m[0]
            segs = [s for s in m["segs"].split(".") if s]
            start = env[head]
            if start[0] == "place":
                return self.written(self.places.resolve(start, segs), var)
            if not segs:
                return head
            base = (start[0], start[1], []) + tuple(start[3:])
            got = self.places.resolve(base, segs)
            return head + "".join("." + s for s in got[2])

        seg = r"(?:\.[\w'\-₀-₉]+)*"
        word = r"[^\s(){}.;,@\"«»]+"
        both = re.compile(
            rf"\blet (?P<let>{word}) = (?P<from>{word})(?P<rest>{seg}) in\b(?P<gap>[ \n]*)|(?<![\w.'\-₀-₉])(?P<var>[A-Za-z_κλ][\w'₀-₉]*)(?P<segs>{seg})(?![\w'\-₀-₉])"
        )
        out = both.sub(path, text)
        # the test of 'if !x' says what x is
        test = rf"not-(?:true|false) (?:\S+\.result|\S+\.args\.\w+|_) ({re.escape(var)}\.if-not-[^\s()]+\.(?:true|false))"
        out = re.sub(rf"\({test}\)|{test}", lambda m: m[1] or m[2], out)
        for old, new in self.info["args"]:
            if old.startswith(".args ."):
                out = re.sub(rf"\.{re.escape(old[7:])}(?![\w'\-₀-₉])", "." + new[7:], out)
        for old, new in self.goal_names.items():
            if old != new:
                out = re.sub(rf"(?<![\w.'\-₀-₉]){re.escape(old)}(?![\w'\-₀-₉]| =)", new, out)
        for old in self.helpers:
            if re.search(rf"(?<![\w.'\-₀-₉]){re.escape(old)}(?![\w'\-₀-₉]| =)", text):
                self.called.add(old)
        return out

    def written(self, got, var):
        return var if got[0] == "place" else ".".join([var] + got[2])


def record_of(body, names):
    """A tuple at the end of the body as a record of the clauses' names."""
    at = 0
    for m in re.finditer(r"\bin\b", body):
        at = m.end()
    start = re.compile(r"\s*").match(body, at).end()
    if start < len(body) and body[start] == "(" and matched(body, start) == len(body.rstrip()):
        parts = [p for p in items(body[start + 1 : len(body.rstrip()) - 1], ",") if p]
        while len(parts) < len(names) and parts[-1].startswith("(") and matched(parts[-1], 0) == len(parts[-1]):
            parts[-1:] = [p for p in items(parts[-1][1:-1], ",") if p]
        if len(parts) == len(names):
            inner = "".join(f"      {n} = {p};\n" for n, p in zip(names, parts))
            return body[:start] + "record {\n" + inner + "    }"
    return body


def convert(path, module, info):
    with open(path, encoding="utf-8") as f:
        text = f.read()
    head, uses, decls = parsed(text)
    places = Places(info)
    left = []
    spec = next((d for d in decls if "tie.close" in d.body), None)
    m = re.search(r"\(\s*tie\.spec\b", spec.body)
    if m:
        inner = spec.body[m.end() : matched(spec.body, m.start()) - 1]
    else:
        inner = ""
    words, at = [], 0
    inner = inner.strip()
    while at < len(inner):
        while at < len(inner) and inner[at].isspace():
            at += 1
        if at >= len(inner):
            break
        if inner[at] == "(":
            end = matched(inner, at)
        else:
            end = re.compile(r"\S+").match(inner, at).end()
        words.append(inner[at:end])
        at = end
    claims = [d for d in decls if re.match(r"tie\.(invariant|decreases)-", d.sign)]
    needs = info["needs"]
    loops = info["loops"]
    goals = words[len(claims) :] if len(words) == len(needs) + len(claims) else None
    by_name = {d.name: d for d in decls}
    todo = []
    used = set()
    if goals is None:
        left.append(f"{path}: {len(words)} arguments of tie.spec, {len(needs)} goals: {words[len(claims):]} {[n[0] for n in needs]}")
        old = {key(n[0]): n for n in needs}
        for d in decls:
            mm = re.match(r"tie\.Need-(?:overflow-)?(\S+)", d.sign)
            if mm and key(mm[1]) in old:
                i = needs.index(old[key(mm[1])])
                todo.append((i, d, None))
                used.add(d.name)
    else:
        for i, w in enumerate(goals):
            if w in by_name:
                todo.append((i, by_name[w], None))
                used.add(w)
            elif not TRIVIAL.match(w):
                todo.append((i, None, w))
    goal_names = {}
    for i, d, w in todo:
        if d is not None:
            goal_names.setdefault(d.name, needs[i][1])
    others = [d for d in decls if d is not spec and d not in claims and d.name not in used]
    for d in others:
        d.sign = re.sub(r"^tie\.([^()→]*?) *→", r"(c : tie.\1) →", d.sign)
    helpers = {d.name: d for d in others if re.search(r"\(\w+ : tie\.", d.sign)}
    plain = [d for d in others if d.name not in helpers]
    turn = Turn(places, info, {k: v for k, v in goal_names.items()}, helpers, left)
    answers = []
    wanted = {}
    order = []

    def want(place_old, goal_place, names):
        for h in sorted(names):
            if (h, goal_place) not in wanted:
                wanted[(h, goal_place)] = None
                order.append((h, goal_place))

    for i, d, w in todo:
        old_place, goal_place = info["asked_at"][i]
        turn.called = set()
        if d is None:
            mm = re.match(r"^\(λ ([^.]*)\. *(.*)\)$", w, re.S)
            if not mm:
                left.append(f"{path}: {w}")
                continue
            args, body, comment, extra, many = mm[1].split(), mm[2], [], [], False
        else:
            args, body, comment, extra, many = d.args.split(), d.body, d.comment, d.extra, d.many
        if many:
            left.append(f"{path}: {d.name} has several clauses")
            continue
        var = args[0] if args else "c"
        if not args:
            mm = re.match(r"^λ (\w+)[^.]*\. *(.*)$", body, re.S)
            if mm:
                var, body = mm[1], mm[2]
            else:
                body = f"{body} {var}"
        if var == "_" or not re.match(r"^\w+$", var):
            var = "c"
        if TRIVIAL.match(body.strip()) and not extra:
            continue
        new = turn.text(body, var, places.place(old_place) or old_place)
        want(old_place, goal_place, turn.called)
        asked = info["asked"].get(needs[i][0])
        if asked:
            new = record_of(new, asked)
        answers.append((needs[i][1], var, new, comment, extra, goal_place, set(turn.called)))
    # helpers, at each place at which an answer calls them
    made = {}
    n = 0
    while n < len(order):
        h, goal_place = order[n]
        n += 1
        d = helpers[h]
        mm = re.search(r"\((\w+) : tie\.([^\s()]+)[^()]*\)", d.sign)
        turn.called = set()
        at = places.place(mm[2])
        if at is None:
            left.append(f"{path}: {h} is at {mm[2]}, which is no place")
            continue
        sign = d.sign[: mm.start()] + f"({mm[1]} : goal.{goal_place})" + turn.text(d.sign[mm.end() :], mm[1], at)
        args = d.args.split()
        var = args[0] if args else mm[1]
        if d.many:
            left.append(f"{path}: {h} has several clauses")
        body = turn.text(d.body, var, at)
        want(None, goal_place, turn.called)
        made[(h, goal_place)] = (sign, d.args, body, d.comment, d.extra, set(turn.called), d.many, d.head)
    # a helper stands behind those that it calls
    depth = {o: 0 for o in order}
    for _ in order:
        for h, g in order:
            for k in made.get((h, g), ("", "", "", "", "", ()))[5]:
                depth[(h, g)] = max(depth[(h, g)], depth[(k, g)] + 1)
    # names of the helpers
    count, named = {}, {}
    for h, goal_place in order:
        count[h] = count.get(h, 0) + 1
        named[(h, goal_place)] = snake(h) if count[h] == 1 else f"{snake(h)}_{count[h]}"

    def renamed(text, goal_place, called):
        for h in called:
            if (h, goal_place) in named:
                text = re.sub(rf"(?<![\w.'\-₀-₉]){re.escape(h)}(?![\w'\-₀-₉]| =)", named[(h, goal_place)], text)
        return text

    keep = [u for u in uses if not re.search(r"\.Statement\.\{statement\}|\.Tie as tie", u)]
    inv_text, ans_text = [], []
    plain_in_inv = set()
    for d in claims:
        mm = re.match(r"tie\.(invariant|decreases)-(\S+)", d.sign)
        which = 0
        for k, (names, fields) in enumerate(loops):
            if key(names[0]) == key(mm[2]) or key(names[1]) == key(mm[2]):
                which = k
        names, fields = loops[which]
        changed = info["changed"][which] if which < len(info["changed"]) else [False] * len(fields)
        params = d.args.split()
        to = {}
        slots = [("l." if not c else "l.initial.") + f for f, c in zip(fields, changed)] + ["l." + f for f, c in zip(fields, changed) if c]
        if len(params) != len(slots):
            left.append(f"{path}: {d.name} has {len(params)} arguments and {len(slots)} variables: {slots}")
        for a, b in zip(params, slots):
            if a != "_":
                to[a] = b
        body = re.sub(
            rf"(?<![\w.'\-₀-₉])([A-Za-z_][\w'₀-₉]*)(?![\w'₀-₉])", lambda x: to.get(x[1], x[1]), d.body
        )
        for p in plain:
            if re.search(rf"(?<![\w.'\-₀-₉]){re.escape(p.name)}(?![\w'\-₀-₉])", d.body):
                plain_in_inv.add(p.name)
        name = f"{mm[1]}-{names[1]}"
        inv_text.append("\n".join(d.comment + [f"abbrev pub {name} : goal.{name}"] + d.extra + [f"{name} l = {body}" if "\n" not in body else f"{name} l ={body if body[0] == chr(10) else ' ' + body}"]))

    def plain_text(d, pub):
        headw = d.head if "pub" in d.head or not pub else d.head + "pub "
        if d.many:
            return "\n".join(d.comment + [f"{headw}{d.name} : {d.sign}"] + d.extra + [d.body])
        return "\n".join(d.comment + [f"{headw}{d.name} : {d.sign}"] + d.extra + [f"{d.name}{' ' if d.args else ''}{d.args} = {d.body}"])

    inv_plain = [plain_text(d, True) for d in plain if d.name in plain_in_inv]
    ans_plain = [plain_text(d, False) for d in plain if d.name not in plain_in_inv]
    for (h, g), (sign, args, body, comment, extra, called, many, word) in [((h, g), made[(h, g)]) for h, g in sorted(order, key=lambda o: (depth[o], order.index(o))) if (h, g) in made]:
        name = named[(h, g)]
        sign, body = renamed(sign, g, called), renamed(body, g, called)
        if many:
            ans_plain.append("\n".join(comment + [f"{word}{name} : {sign}"] + extra + [body]))
        else:
            gap = "\n    " if "\n" in body and not body.startswith("\n") else "" if body.startswith("\n") else " "
            ans_plain.append("\n".join(comment + [f"{word}{name} : {sign}"] + extra + [f"{name} {args} ={gap}{body}"]))
    for name, var, body, comment, extra, g, called in answers:
        body = renamed(body, g, called)
        sep = "\n    " if "\n" in body and not body.startswith("\n") else " "
        ans_text.append("\n".join(comment + [f"pub {name} : goal.{name}"] + extra + [f"{name} {var} ={sep if not body.startswith(chr(10)) else ''}{body}"]))
    folder = os.path.dirname(path)
    if inv_text:
        out = list(head) + keep + [f"use {module}.Given as goal", ""] + ["\n\n".join(inv_plain + inv_text), ""]
        with open(os.path.join(folder, "Invariants.antt"), "w", encoding="utf-8") as f:
            f.write("\n".join(out))
    if ans_text or ans_plain:
        own = [f"use {module}.Invariants.{{{', '.join(sorted(plain_in_inv))}}}"] if plain_in_inv else []
        out = list(head) + keep + own + [f"use {module}.Goals as goal", ""] + ["\n\n".join(ans_plain + ans_text), ""]
        with open(os.path.join(folder, "Answers.antt"), "w", encoding="utf-8") as f:
            f.write("\n".join(out))
    os.remove(path)
    return left


def main():
    with open(sys.argv[1], encoding="utf-8") as f:
        names = json.load(f)
    for crate in sys.argv[2:]:
        name = os.path.basename(os.path.abspath(crate))
        for folder, dirs, files in os.walk(os.path.join(crate, "proofs")):
            if "Proof.antt" not in files:
                continue
            path = os.path.join(folder, "Proof.antt")
            with open(path, encoding="utf-8") as f:
                text = f.read()
            below = os.path.relpath(folder, os.path.join(crate, "proofs")).split(os.sep)
            info = names.get(f"Rattle-{name}-proofs.{'.'.join(below)}.Lts")
            if info is None or "tie.close" not in text:
                print("left:", path)
                continue
            try:
                for line in convert(path, f"Rattle.{name}.proofs.{'.'.join(below)}", info):
                    print("look:", line)
            except Exception as e:  # a file that the script cannot read stays as it is
                print("left:", path, repr(e))


if __name__ == "__main__":
    main()
