#!/usr/bin/env python3
"""Turns a function's old `Proof.antt` into `Invariants.antt` and `Answers.antt`, for the port to today's Rattle.

usage: python3 tools/answers.py CRATE NAMES [FUNCTION..]

CRATE is a crate's folder and NAMES the names.json that `rt check --generated DIR --old-names` wrote for it. A place of the old
proof is today one flat record, so every path through `.before` is shortened, each step gets its new name, and what stood for a place is
the goal's own argument `c`. Answers that were `search rules` alone go: the check tries that itself. It proves nothing: rt check decides.
"""

import json
import os
import re
import sys

IDENT = r"[^\s(){}.;,\"`=→≡∙×:←]+"
CHAIN = re.compile(rf"(?<![^\s(){{}};,\"←])({IDENT})((?:\.{IDENT})*)")
KIT = re.compile(r"^use (mathlib\.|Prim\.|lib\.|native\.|borrow\.)")


def plain(name):
    return re.sub(r"_lem$", "", name.replace("-", "_")).lower()


def common():
    names = set()
    root = "/opt/rattle/rattle"
    for p in ("core/proofs/Common.antt", "std/proofs/Common.antt"):
        path = os.path.join(root, p)
        if os.path.exists(path):
            for m in re.finditer(r"\{([^}]*)\}", open(path, encoding="utf-8").read()):
                names.update(n.strip().split(" as ")[-1] for n in m.group(1).split(","))
    return names


def clauses_of(crates):
    """For each function of all crates: the names of its requires and of its ensures, None where there is but one."""
    said = {}
    for folder, dirs, files in os.walk(crates):
        dirs[:] = [d for d in dirs if d != "out"]
        for f in files:
            if not f.endswith(".rt"):
                continue
            name = None
            crate = os.path.relpath(folder, crates).split(os.sep)[0]
            stem = "" if f in ("lib.rt", "main.rt") else f[:-3] + "::"
            prefix = crate + "::" + stem
            source = open(os.path.join(folder, f), encoding="utf-8").read()
            for m in re.finditer(r"\bfn (\w+)(?:<[^>]*>)?\(([^)]*)\)", source):
                params = [x.split(":")[0].strip().replace("mut ", "") for x in m.group(2).split(",") if ":" in x]
                said.setdefault(prefix + m.group(1), {"requires": [], "ensures": []})["params"] = params
            for line in source.split("\n"):
                m = re.match(r"\s*(?:pub |unsafe |extern \"C\" )*fn (\w+)", line)
                if m:
                    name = prefix + m.group(1)
                    said.setdefault(name, {"requires": [], "ensures": []})
                m = re.match(r"\s*(requires|ensures)(?: (\w+))? \{", line)
                if m and name:
                    said[name][m.group(1)].append(m.group(2))
    return said


class Decl:
    def __init__(self, lines):
        self.lines = lines
        self.name = None
        self.bare = False
        m = re.match(r"((?:abbrev |unfoldable |pub )*)([^\s:]+) :", lines[0])
        if m:
            self.name = m.group(2)
            self.mods = m.group(1)
        m = re.match(r"(?:pub )?record ([^\s:]+) \((\w+) : tie\.([\w-]+)", lines[0])
        self.record = m and m.groups()

    def split(self):
        """Signature text, unfolding lines, clauses text."""
        sig, unf, body = [], [], []
        at = 0
        for i, l in enumerate(self.lines):
            if i > 0 and re.match(rf"{re.escape(self.name)}( |$)", l):
                at = i
                break
            if l.startswith("unfolding "):
                unf.append(l)
            else:
                sig.append(l)
        body = self.lines[at:]
        return sig, unf, body


def decls(text):
    out, now, lead = [], [], []
    for l in text.split("\n"):
        if not l.strip() or l.startswith("--"):
            if now:
                out.append(("decl", now))
                now = []
            if l.startswith("--"):
                out.append(("comment", l))
            continue
        if l.startswith("use "):
            out.append(("use", l))
            continue
        now.append(l)
    if now:
        out.append(("decl", now))
    return out


class Turn:
    def __init__(self, entry, clauses, fn, folder):
        self.entry = entry
        self.clauses = clauses
        self.fn = fn
        self.steps = {}
        self.callee = {}
        for place, new in zip(entry["places"], entry["places_by_name"]):
            old_step, new_step = place[2]
            if old_step:
                self.steps.setdefault(plain(old_step), new_step)
                if place[3]:
                    self.callee[new_step] = place[3]
        for old, new in (x[0] for x in entry["loops"]):
            self.steps[plain(old)] = new
            self.steps[plain(old) + "_test"] = new + "-test"
        self.places = {plain(p[0]): n for p, n in zip(entry["places"], entry["places_by_name"])}
        self.asked = {n for _, n in entry["asked_at"]}
        self.needs = {}
        self.place_of = {}
        for (old, new), at in zip(entry["needs"], entry["asked_at"]):
            self.needs[self.need(old)] = new
            self.place_of[new] = at[1]
        self.accessors = set()
        self.helpers = {}
        self.inlined = {}
        self.defs = {}
        self.goal_names = {}
        self.said = []

    def need(self, name):
        n = plain(name)
        for w in ("overflow_", "nonzero_"):
            n = n.replace(w, "")
        n = n.replace("shared_slice_read", "slice_read")
        n = re.sub(r"^(slice_bounds|part)_", "", n)
        return n

    def index(self, names, rest):
        """`.0.1` of a product of several clauses becomes `.name.1`."""
        if len(names) < 2 or None in names:
            return rest
        parts = rest
        k, left = 0, len(names)
        while parts and left > 1:
            if parts[0] == "0":
                return [names[k]] + parts[1:]
            if parts[0] == "1":
                parts = parts[1:]
                k += 1
                left -= 1
                continue
            return rest
        if left == 1:
            return [names[k]] + parts
        return rest

    def chain(self, root, rest, env):
        """The parts of a path, and what it stands for: 'place', 'requires', or nothing."""
        kind = env.get(root)
        if kind == "place":
            while rest and rest[0] == "before":
                rest = rest[1:]
            if not rest:
                return "c", [], "place"
            step = rest[0]
            if step in ("pre", "requires"):
                names = self.clauses.get(self.fn, {}).get("requires", [])
                if len(rest) == 1:
                    return "c", ["requires"], "requires"
                return "c", ["requires"] + self.index(names, rest[1:]), None
            if step in ("args", "ranges", "type_inv", "lifetimes"):
                return "c", rest, None
            new = self.steps.get(plain(step))
            if new:
                return "c", [new] + self.of_step(new, rest[1:]), ("step", new) if len(rest) == 1 else None
            self.said.append(f"no step {step}")
            return "c", rest, None
        if kind == "requires":
            names = self.clauses.get(self.fn, {}).get("requires", [])
            return root, self.index(names, rest), None
        if isinstance(kind, tuple):
            return root, self.of_step(kind[1], rest), None
        return root, rest, None

    def of_step(self, new, after):
        """What stands behind a step: the memory that a call left is named after its parameter, clauses after themselves."""
        if after and after[0] == "inv":
            after = ["invariant"] + after[1:]
        said = self.clauses.get(self.callee.get(new), {})
        if len(after) > 1 and after[0] == "new" and after[1] in ("0", "1"):
            k = 1
            while k < len(after) and after[k] == "1":
                k += 1
            names = said.get("params", [])
            if k < len(after) and after[k] == "0" and k - 1 < len(names):
                after = ["new", names[k - 1]] + after[k + 1:]
        if len(after) > 1 and after[0] == "ensures":
            after = ["ensures"] + self.index(said.get("ensures", []), after[1:])
        return after

    def text(self, s, env, goal, here=None):
        # helpers that only give an earlier place
        for _ in range(6):
            for a in sorted(self.accessors):
                s = re.sub(rf"\({re.escape(a)} ({IDENT}(?:\.{IDENT})*)\)", r"\1", s)
                s = re.sub(rf"(?<![^\s(]){re.escape(a)} ({IDENT}(?:\.{IDENT})*)", r"\1", s)
        # names for places
        out = ""
        pos = 0
        pieces = re.split(rf"(\blet {IDENT} = {IDENT}(?:\.{IDENT})* in)", s)
        done = []
        for piece in pieces:
            m = re.fullmatch(rf"let ({IDENT}) = ({IDENT})((?:\.{IDENT})*) in", piece)
            if m:
                var, root, rest = m.group(1), m.group(2), [x for x in m.group(3).split(".") if x]
                r, parts, kind = self.chain(root, rest, env)
                if kind == "place":
                    env[var] = "place"
                    done.append("\0")
                    continue
                if kind == "requires":
                    env[var] = "requires"
                elif isinstance(kind, tuple):
                    env[var] = kind
                elif var in env:
                    del env[var]
                done.append(f"let {var} = {'.'.join([r] + parts)} in")
                continue

            def sub(m):
                root, rest = m.group(1), [x for x in m.group(2).split(".") if x]
                if root not in env:
                    return m.group(0)
                r, parts, _ = self.chain(root, rest, env)
                names = []
                if len(parts) == 2 and parts[1] == "ensures":
                    names = self.clauses.get(self.callee.get(parts[0]), {}).get("ensures", [])
                if parts == ["requires"]:
                    names = self.clauses.get(self.fn, {}).get("requires", [])
                if len(names) > 1 and None not in names:
                    each = [".".join([r] + parts + [n]) for n in names]
                    nested = each[-1]
                    for x in reversed(each[:-1]):
                        nested = f"({x}, {nested})"
                    return nested
                return ".".join([r] + parts)

            done.append(CHAIN.sub(sub, piece))
        s = "".join(done)
        s = re.sub(r"[ \t]*\0[ \t]*\n", "\n", s)
        s = re.sub(r"\0[ \t]*", "", s)
        s = re.sub(r"\n[ \t]*\n", "\n", s)
        # a test of `!x` says it of x today
        s = re.sub(rf"(?<![^\s(])not-(?:true|false) (?:{IDENT}(?:\.{IDENT})*|\([^()]*\)) ({IDENT}(?:\.{IDENT})*)", r"\1", s)
        s = re.sub(rf"\((c(?:\.{IDENT})+)\)", r"\1", s)
        # an answer that another cites
        for old, new in self.goal_names.items():
            s = re.sub(rf"(?<![^\s(]){re.escape(old)} c(?![\w.'-])", f"{new} c", s)
        # port.py took a field `fits` of our own for the kit's
        s = re.sub(r"(?<=[\w')-])(?<!\bc)\.ranges\b", ".fits", s)
        # helpers
        for h in reversed(list(self.inlined)):
            if self.inlined[h] is None:
                continue
            was = s
            s = re.sub(rf"(?<![^\s(]){re.escape(h)} c(?![\w.'-])", h, s)
            if s != was:
                kind = f" : {self.inlined[h][0]}" if self.inlined[h][0] else ""
                given = f"let {h}{kind} =\n        {self.inlined[h][1]} in"
                if s.lstrip().startswith("→"):
                    s = " →\n    " + given + " " + s.lstrip().removeprefix("→").lstrip()
                else:
                    s = "\n    " + given + (s if s.startswith("\n") else "\n    " + s.lstrip())
        for h, (place, used) in self.helpers.items():
            if h in self.inlined:
                continue
            if goal == "helper" and here and place != here and h in self.defs:
                was = s
                s = re.sub(rf"(?<![^\s(]){re.escape(h)} c(?![\w.'-])", h, s)
                if s != was:
                    kind = f" : {self.defs[h][0]}" if self.defs[h][0] else ""
                    given = f"let {h}{kind} =\n        {self.defs[h][1]} in"
                    if s.lstrip().startswith("→"):
                        s = " →\n    " + given + " " + s.lstrip().removeprefix("→").lstrip()
                    else:
                        s = "\n    " + given + (s if s.startswith("\n") else "\n    " + s.lstrip())
                continue
            if goal == "helper":
                to = "c"
            else:
                to = "c" if self.place_of.get(goal) == place else f"(goal.at.{goal} c).{place}"
            s = re.sub(rf"(?<![^\s(]){re.escape(h)} c(?![\w.'-])", f"{h} {to}", s)
        for h in list(self.inlined) + list(self.defs):
            s = s.replace(f"({h})", h)
        return s


def parts_of(tail):
    """The entries of a tuple, or None where the text is no tuple as a whole."""
    t = tail.strip()
    if not (t.startswith("(") and t.endswith(")")):
        return None
    depth, cuts, start = 0, [], 1
    for i, ch in enumerate(t):
        if ch in "({[":
            depth += 1
        elif ch in ")}]":
            depth -= 1
            if depth == 0 and i < len(t) - 1:
                return None
        elif ch == "," and depth == 1:
            cuts.append(t[start:i])
            start = i + 1
    last = t[start:-1]
    if last.strip():
        cuts.append(last)
    return [c.strip() for c in cuts] if len(cuts) > 1 else None


def by_clause(rhs, names):
    """An answer to a goal of several clauses: a record with a field for each."""
    if len(names) < 2 or None in names:
        return rhs
    at = 0
    for m in re.finditer(r"\bin\b(?=\s)", rhs):
        # the last `in` of the lets in front: the depth of brackets must be nought there
        before = rhs[: m.end()]
        if before.count("(") == before.count(")") and before.count("{") == before.count("}"):
            at = m.end()
        elif before.count("(") - before.count(")") == 0:
            at = m.end()
    lets, tail = rhs[:at], rhs[at:]
    # a tuple that begins on the line of the last let
    entries = parts_of(tail)
    while entries is not None and len(entries) < len(names):
        inner = parts_of(entries[-1])
        if inner is None:
            break
        entries = entries[:-1] + inner
    if entries is not None and len(entries) > len(names):
        k = len(names) - 1
        entries = entries[:k] + ["(" + ", ".join(entries[k:]) + ")"]
    if entries is not None and len(entries) == len(names):
        return lets + " record { " + "; ".join(f"{n} = {e}" for n, e in zip(names, entries)) + "; }"
    m = re.match(r"\s*(rw (?:[^\s()]+|\([^()]*\))) (\(.*\))\s*$", tail, re.S)
    if entries is None and m:
        inner = parts_of(m.group(2))
        while inner is not None and len(inner) < len(names):
            last = parts_of(inner[-1])
            if last is None:
                break
            inner = inner[:-1] + last
        if inner is not None and len(inner) > len(names):
            k = len(names) - 1
            inner = inner[:k] + ["(" + ", ".join(inner[k:]) + ")"]
        if inner is not None and len(inner) == len(names):
            fields = "; ".join(f"{n} = {m.group(1)} ({e})" for n, e in zip(names, inner))
            return lets + " record { " + fields + "; }"
    if entries is None and len(names) == 2 and tail.strip() not in ("omega arith", "search rules", "c.requires"):
        return lets + f"\n    let both = {tail.strip()} in\n    record {{ {names[0]} = both.0; {names[1]} = both.1; }}"
    return rhs


def settle(t, entry, ds):
    """Gives each helper a place that can be named: one that all its users have passed, the same for helpers that call one another."""
    new = {p[0]: n for p, n in zip(entry["places"], entry["places_by_name"])}
    parent = {new[p[0]]: new.get(p[1]) for p in entry["places"]}

    def above(place):
        out = []
        while place is not None:
            out.append(place)
            place = parent.get(place)
        return out

    def calls(lines, h):
        return re.search(rf"(?<![^\s(]){re.escape(h)}(?![\w'-])", "\n".join(lines[1:])) is not None

    group = {h: h for h in t.helpers}

    def find(h):
        while group[h] != h:
            h = group[h]
        return h

    users = {h: set() for h in t.helpers}
    for d in ds:
        name = d.record[0] if d.record else d.name
        for h in t.helpers:
            if name == h or name is None:
                continue
            body = d.lines if name not in t.helpers else [""] + d.lines
            if not calls(body, h):
                continue
            if name in t.helpers:
                group[find(name)] = find(h)
            else:
                m = re.search(r":\s+tie\.Need-([\w-]+)", "\n".join(d.lines[:3]))
                g = t.needs.get(t.need(m.group(1))) if m else None
                if g:
                    users[h].add(t.place_of[g])
    def best_of(own, goals):
        best = None
        for q in sorted(t.asked):
            if q.endswith("-1"):
                continue
            up = above(q)
            if all(o in up for o in own) and all(q in above(g) for g in goals):
                if best is None or len(up) < len(above(best)):
                    best = q
        return best

    for root in {find(h) for h in t.helpers}:
        members = [h for h in t.helpers if find(h) == root]
        common = best_of([t.helpers[h][0] for h in members], set().union(*(users[h] for h in members)))
        for h in members:
            best = common or best_of([t.helpers[h][0]], users[h])
            if best:
                t.helpers[h] = (best, [])
            elif t.helpers[h][0] not in t.asked or t.helpers[h][0].endswith("-1"):
                t.inlined[h] = None


def convert(folder, entry, clauses, common_names):
    path = os.path.join(folder, "Proof.antt")
    text = open(path, encoding="utf-8").read()
    if "tie.spec" not in text:
        return f"by hand: {folder}"
    path_parts = folder.split("crates/")[1].split("/")
    fn = "::".join([path_parts[0]] + path_parts[2:]).replace("+", "")
    t = Turn(entry, clauses, fn, folder)
    callees = {c.split("::")[-1]: c for c in list(t.callee.values()) + [k for k in entry["params"]]}
    items = decls(text)
    head = []
    for kind, x in items:
        if kind == "comment" and not any(k == "decl" for k, _ in items[: items.index((kind, x))]):
            head.append(x)
        if kind != "comment":
            break
    ds = [Decl(x) for kind, x in items if kind == "decl"]
    # accessors and helpers over places
    place_type = re.compile(r"tie\.([A-Za-z][\w-]*)")
    for d in ds:
        if d.name is None:
            continue
        sig = " ".join(d.lines[: max(1, len(d.lines))])
        m = re.match(rf"(?:abbrev |pub )*{re.escape(d.name)} : tie\.[\w-]+(?: (?:invariant|decreases)-[\w-]+)* → tie\.[\w-]+(?: (?:invariant|decreases)-[\w-]+)*(?= {re.escape(d.name)} )", sig)
        if m:
            t.accessors.add(d.name)
    inv, ans, said = [], [], []
    helper_defs = {}
    for d in ds:
        if d.record:
            t.helpers[d.record[0]] = (t.places.get(plain(d.record[2]), "?" + d.record[2]), [])
    for d in ds:
        if d.name is None or d.name in t.accessors or d.name.endswith("_spec") or d.name.endswith("-spec"):
            continue
        sig, unf, body = d.split()
        s = "\n".join(sig)
        m = re.match(rf"(?:abbrev |pub )*{re.escape(d.name)} :\s+\((\w+) : tie\.([\w-]+)", s)
        if not m:
            m = re.match(rf"((?:abbrev |pub )*{re.escape(d.name)}) :\s+tie\.((?!Need-|invariant-|decreases-)[\w-]+)((?:\s+(?:invariant|decreases)-[\w-]+)*) →", s)
            if m:
                d.lines = (m.group(1) + " : (c : tie." + m.group(2) + m.group(3) + ") →" + s[m.end():]).split("\n") + unf + body
                d.bare = True
        if m:
            t.helpers[d.name] = (t.places.get(plain(m.group(2)), "?" + m.group(2)), [])
            helper_defs[d.name] = d
    for d in ds:
        m = d.name and re.search(r":\s+tie\.Need-([\w-]+)", "\n".join(d.lines[:3]))
        if m and t.needs.get(t.need(m.group(1))):
            t.goal_names[d.name] = t.needs[t.need(m.group(1))]
    settle(t, entry, ds)
    for d in ds:
        if d.record:
            name, var, _ = d.record
            place = t.helpers[name][0]
            all_text = "\n".join(d.lines)
            m = re.match(r"((?:pub )?record [^\s:]+) \(\w+ : tie\.[\w-]+(?:\s+(?:invariant|decreases)-[\w-]+)*\)", all_text)
            if place not in t.asked:
                said.append(f"{name}: place {place} can't be named")
            ans.append(f"{m.group(1)} (c : {place})" + t.text(all_text[m.end():], {var: "place"}, "helper"))
            continue
        if d.name is None:
            said.append("left as it was: " + d.lines[0])
            ans.append("\n".join(d.lines))
            continue
        if d.name in t.accessors:
            continue
        if d.name.endswith("_spec") or d.name.endswith("-spec"):
            continue
        sig, unf, body = d.split()
        s = "\n".join(sig)
        b = "\n".join(body)
        m = re.match(r"(?:abbrev |pub )*([^\s:]+) :\s+tie\.(invariant|decreases)-([\w-]+)$", s.strip())
        if m:
            loop = t.steps.get(plain(m.group(3)))
            k = [x[0][1] for x in entry["loops"]].index(loop)
            vs = entry["loops"][k][1]
            changed = entry["changed"][k]
            params = b.split(" =", 1)[0].split()[1:]
            rhs = b.split(" =", 1)[1]
            names = []
            for v, ch in zip(vs, changed):
                if not ch:
                    names.append(("l." + v))
            # the old order: the unchanged and initial ones, then the changed
            env = {}
            firsts = [p for p in params]
            olds = [p for p in params if p.endswith("₀")]
            for p in params:
                if p.endswith("₀"):
                    env[p] = "l.initial." + p[:-1]
                elif p != "_" and not p.startswith("_"):
                    env[p] = "l." + p
            rhs = CHAIN.sub(lambda mm: env[mm.group(1)] + mm.group(2) if mm.group(1) in env else mm.group(0), rhs)
            name = f"{m.group(2)}-{loop}"
            inv.append(f"abbrev pub {name} : goal.{name}\n" + "".join(u + "\n" for u in unf) + f"{name} l ={rhs}")
            unknown = [p for p in params if not p.endswith("₀") and not p.startswith("_") and p not in vs]
            if unknown:
                said.append(f"{name}: parameters {unknown} for {vs}")
            continue
        m = re.match(r"(?:abbrev |pub )*([^\s:]+) :\s+tie\.Need-([\w-]+)((?:\s+(?:invariant|decreases)-[\w-]+)*)$", s.strip())
        if m:
            new = t.needs.get(t.need(m.group(2)))
            if new is None:
                said.append(f"no goal for {m.group(2)}")
                new = "OLD-" + m.group(2)
            rhs_all = b
            first = rhs_all.split(" =", 1)
            headpart = first[0].split()
            params = headpart[1:]
            if params and params[-1] in ("κs", "κ", "_") and len(params) > 1:
                params = params[:-1]
            rhs = first[1] if len(first) > 1 else ""
            if rhs.strip() in ("search rules",) and not unf:
                continue
            env = {params[0]: "place"} if params else {}
            rhs = t.text(rhs, env, new)
            if re.match(r"returns(-|$)", new):
                rhs = by_clause(rhs, clauses.get(fn, {}).get("ensures", []))
            elif new.endswith("requires") or "-requires-" in new:
                callee = None
                for w in sorted(callees, key=len, reverse=True):
                    if new.startswith(w + "-"):
                        callee = callees[w]
                        break
                if callee in clauses:
                    rhs = by_clause(rhs, clauses[callee]["requires"])
            if re.search(r"-1\.given\b", rhs) and not re.search(r"read_at|ℤ", rhs):
                continue
            if params and params[0] != "c":
                params[0] = "c"
            ans.append(f"pub {new} : goal.{new}\n" + "".join(u + "\n" for u in unf) + f"{new} {' '.join(params)} ={rhs}")
            continue
        if d.name in t.helpers:
            m = re.match(rf"((?:abbrev |pub )*{re.escape(d.name)} :\s+)\((\w+) : tie\.([\w-]+)(?:\s+(?:invariant|decreases)-[\w-]+)*\)", s)
            place, _ = t.helpers[d.name]
            env = {m.group(2): "place"}
            rest = t.text(s[m.end():], dict(env), "helper", place)
            first = b.split(" =", 1)
            params = first[0].split()[1:]
            env = {params[0]: "place"}
            rhs = t.text(first[1], env, "helper", place)
            params[0] = "c"
            spare = " ".join(params[1:])
            if "{" not in spare:
                t.defs[d.name] = ("" if d.mods.startswith("abbrev") else " ".join(rest.split()).removeprefix("→ "), (f"λ {spare}. " if spare else "") + rhs.strip())
            if d.name in t.inlined:
                more = " ".join(params[1:])
                said.append(f"{d.name} is written out where it is used")
                kind = " ".join(rest.split()).removeprefix("→ ")
                if "{" in more:
                    said.append(f"{d.name} has hidden arguments: by hand")
                t.inlined[d.name] = ("" if d.mods.startswith("abbrev") else kind, (f"λ {more}. " if more else "") + rhs.strip())
                continue
            if place not in t.asked:
                said.append(f"{d.name}: place {place} can't be named")
            ans.append(f"{d.mods}{d.name} : (c : {place}){rest}\n" + "".join(u + "\n" for u in unf) + f"{d.name} {' '.join(params)} ={rhs}")
            continue
        if "tie." in s:
            said.append(f"left as it was: {d.name}")
        ans.append("\n".join(d.lines))
    # imports
    uses, plainly = [], set()
    for kind, x in items:
        if kind != "use" or re.search(r"\.(Statement|Tie)(\.\{|\s| as )", x):
            continue
        m = re.match(r"use ([\w.+]+)\.\{(.*)\}$", x)
        if m and KIT.match(x):
            ns = [n.strip() for n in m.group(2).split(",")]
            plainly.update(n for n in ns if n in common_names)
            rest = [n for n in ns if n not in common_names]
            if rest:
                uses.append(f"use {m.group(1)}.{{{', '.join(rest)}}}")
        else:
            uses.append(x)
    module = "Rattle." + folder.split("crates/")[1].replace("/", ".")
    body_ans = "\n\n".join(ans)
    body_inv = "\n\n".join(inv)
    if "search rules" in body_ans or re.search(r"search \(.*rules", body_ans):
        plainly.add("rules")

    def used(u, body):
        m = re.match(r"use ([\w.+]+)\.\{(.*)\}$", u)
        if not m:
            return u
        toks = set(re.findall(r"[^\s(){}.;,]+", body))
        ops = {o for o in re.findall(r"[^\s(){};,]+", body)}
        keep = []
        for n in m.group(2).split(","):
            n = n.strip()
            w = n.split(" as ")[-1]
            bare = w.replace("◌", "").strip()
            if w in toks or ("◌" in w and (bare in ops or bare in body)):
                keep.append(n)
        return f"use {m.group(1)}.{{{', '.join(keep)}}}" if keep else None

    def filehead(body, goals):
        lines = []
        c = used("use Rattle.std.proofs.Common.{" + ", ".join(sorted(plainly)) + "}", body) if plainly else None
        if c:
            lines.append(c)
        for u in uses:
            x = used(u, body)
            if x:
                lines.append(x)
        places = [p for p, _ in t.helpers.values() if re.search(rf"\(c : {re.escape(p)}\)", body)]
        if goals == "Goals" and places:
            lines.append(f"use {module}.Goals.{{{', '.join(sorted(set(places)))}}}")
        lines.append(f"use {module}.{goals} as goal")
        return "\n".join(lines)

    out = []
    if inv:
        out.append(("Invariants.antt", "\n".join(head + [filehead(body_inv, "Given")]) + "\n\n" + body_inv + "\n"))
    if ans:
        lead = head if not inv else []
        out.append(("Answers.antt", "\n".join(lead + [filehead(body_ans, "Goals")]) + "\n\n" + body_ans + "\n"))
    for name, content in out:
        content = re.sub(r" =\n[ \t]*\n+", " =\n", content)
        with open(os.path.join(folder, name), "w", encoding="utf-8") as f:
            f.write(content)
    os.remove(path)
    if not out:
        os.rmdir(folder)
    return f"{fn}: " + "; ".join(said + sorted(set(t.said))) if said or t.said else None


def main():
    crate, names, only = sys.argv[1].rstrip("/"), json.load(open(sys.argv[2])), set(sys.argv[3:])
    said = clauses_of(os.path.dirname(crate) or "crates")
    words = common()
    for key, entry in sorted(names.items()):
        m = re.match(r"Rattle-\w+-proofs\.(.*)\.Lts(?:-\w+)?$", key)
        if not m:
            continue
        folder = os.path.join(crate, "proofs", *m.group(1).split("."))
        if not os.path.exists(os.path.join(folder, "Proof.antt")):
            continue
        if only and os.path.basename(folder).lstrip("+") not in only:
            continue
        try:
            r = convert(folder, entry, said, words)
        except Exception as e:
            r = f"failed: {folder}: {e!r}"
        if r:
            print(r)


if __name__ == "__main__":
    main()
