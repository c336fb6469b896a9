#!/usr/bin/env python3
"""Brings this repository's own names of specs/ and proofs/ to today's spelling, once, after port.py.

usage: python3 tools/spelling.py          at the top of a checkout in which port.py has run: rewrites crates/
       python3 tools/spelling.py --names  prints the names, old and new, and writes nothing

Types keep their capitals. Every other name of our own is in snake case: definitions, fields, constructors, lemmas, and what
a proof binds. In a lemma's name a dash stays between two names of functions or types (`pairs-append`), and any other is `_`.
Names of Rust code, of the kit and of what the kit makes are not touched, nor texts in quotes; in comments only names with a capital inside are.
"""

import os
import re
import sys

ROOT = "crates"
TOKEN = re.compile(r"[^\s(){}.;,\"λ`]+")
DEFINES = re.compile(r"^\s*(?:(?:abbrev|unfoldable|pub|private|opaque) )*([^\s(){}.;,\"λ`:]+)(?: \{[^}]*\})? : ")
HUMP = re.compile(r"([a-z0-9])([A-Z])")


def read(path):
    with open(path, encoding="utf-8") as f:
        return f.read()


def files(ending):
    for folder, dirs, names in os.walk(ROOT):
        dirs[:] = sorted(d for d in dirs if d != "out")
        for name in sorted(names):
            if name.endswith(ending):
                yield os.path.join(folder, name)


def snake(part):
    """A part of a name: humps become underscores, unless it begins with a capital (a type's name)."""
    if not re.match(r"[a-z]", part) or not re.search(r"[A-Z]", part):
        return part
    return HUMP.sub(lambda m: m.group(1) + "_" + m.group(2), part).lower()


def defined(path, keep_goals=False):
    """The names that a file defines, and those among them that answer a goal of the check."""
    mine, goals = set(), set()
    for line in read(path).split("\n"):
        m = DEFINES.match(line)
        if not m or line.lstrip().startswith("--"):
            continue
        (goals if re.search(r": tie\.", line) else mine).add(m.group(1))
    return mine, goals


def imported():
    """Names that are taken from the kit, and those that are taken from this repository."""
    kit, own = set(), set()
    here = {c for c in os.listdir(ROOT)}
    for ending in (".antt", ".rt"):
        for path in files(ending):
            for m in re.finditer(r"use ([^\s{;]+)\.\{([^}]*)\}", read(path)):
                parts = m.group(1).split(".")
                names = {n.split(" as ")[0].strip() for n in m.group(2).split(",")}
                (own if parts[0] == "Rattle" and parts[1] in here else kit).update(names)
    return kit, own


def table():
    specs, lemmas, goals = set(), set(), set()
    for path in files(".antt"):
        mine, its = defined(path)
        goals |= its
        (specs if "/specs/" in path else lemmas).update(mine)
    kit, _ = imported()
    words = {snake(n) for n in specs if not n.count("-")} | {n for n in kit if not n.count("-")}
    words |= {n for n in specs if re.match(r"[A-Z]", n)} | {"append", "cons", "nil", "snoc", "perm", "length", "map", "take", "drop", "set"}
    to = {}
    for name in sorted(specs | lemmas):
        if name in kit or not re.search(r"[A-Za-z]", name):
            continue
        parts = [snake(p) for p in name.split("-")]
        if any(p == "" for p in parts):
            continue
        new = parts[0]
        for before, after in zip(parts, parts[1:]):
            joined = name not in specs and not name.endswith("-spec") and before in words and after in words
            new += ("-" if joined else "_") + after
        if new != name and name not in goals:
            to[name] = new
    return to


def humps(path, kit, to):
    """What a proof binds: tokens with a capital inside, that are neither of the kit nor made by it."""
    for t in set(TOKEN.findall(read(path))):
        if t in kit or t in to or not re.match(r"[a-z]", t):
            continue
        new = "-".join(snake(p) for p in t.split("-"))
        if new != t and "-" not in t and re.fullmatch(r"[a-zA-Z0-9_'₀-₉]+", t):
            to[t] = new


def turn_line(line, to, comments):
    """One line: tokens outside quotes and comments; in a comment names with a capital inside alone."""
    body, mark, comment = line, "", ""
    at = line.find(comments)
    if at >= 0 and (at == 0 or line[at - 1] == " "):
        body, mark, comment = line[:at], comments, line[at + len(comments):]
    pieces = re.split(r"(\"[^\"]*\")", body)
    for i in range(0, len(pieces), 2):
        pieces[i] = TOKEN.sub(lambda m: to.get(m.group(0), m.group(0)), pieces[i])
    if comment:
        comment = re.sub(r"[a-z]+[A-Z][\w'-]*", lambda m: to.get(m.group(0), m.group(0)), comment)
    return "".join(pieces) + mark + comment


def clauses(text, to):
    """A source file: its `ghost use` lines and its clauses alone."""
    out, depth, inside = [], 0, False
    for line in text.split("\n"):
        starts = re.match(r"\s*(ghost |requires|ensures|invariant|decreases)", line)
        if starts and not inside:
            inside, depth = True, 0
        if inside:
            out.append(turn_line(line, to, "//"))
            depth += line.count("{") - line.count("}")
            if depth <= 0 and ("}" in line or line.rstrip().endswith(";")):
                inside = False
        else:
            out.append(line)
    return "\n".join(out)


def main():
    to = table()
    kit, _ = imported()
    for path in files(".antt"):
        humps(path, kit, to)
    if sys.argv[1:] == ["--names"]:
        for old, new in sorted(to.items()):
            print(old, new)
        return 0
    for path in files(".antt"):
        before = read(path)
        present = set(TOKEN.findall(before))
        for t in sorted(present):
            if to.get(t) in present and to[t] != t:
                print(f"look: {path}: `{t}` becomes `{to[t]}`, which stands there too")
        after = "\n".join(turn_line(l, to, "--") for l in before.split("\n"))
        if after != before:
            with open(path, "w", encoding="utf-8") as f:
                f.write(after)
    for path in files(".rt"):
        before = read(path)
        after = clauses(before, to)
        if after != before:
            with open(path, "w", encoding="utf-8") as f:
                f.write(after)
    news = {}
    for old, new in to.items():
        news.setdefault(new, []).append(old)
    for new, olds in sorted(news.items()):
        if len(olds) > 1:
            print(f"look: {', '.join(sorted(olds))} all become {new}")
    return 0


if __name__ == "__main__":
    raise SystemExit(main())
