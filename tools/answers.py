#!/usr/bin/env python3
"""Turns proofs that walk the code by hand (Proof.antt over a Tie) into Invariants.antt and Answers.antt.

usage: tools/answers.py CRATE..    at the top; it asks `rt check --generated DIR --old-names` for each goal's old and new name.
What it cannot turn it prints as 'left:' and leaves as it was.
"""
import json
import os
import re
import subprocess
import sys
import tempfile

WORD = r"[^\s(){}\[\];,.\"`|]+"


def split_args(s):
    out, depth, cur = [], 0, ""
    for ch in s:
        if ch in "([{":
            depth += 1
        if ch in ")]}":
            depth -= 1
        if ch.isspace() and depth == 0:
            if cur:
                out.append(cur)
            cur = ""
        else:
            cur += ch
    if cur:
        out.append(cur)
    return out


def blocks(text):
    """The top-level pieces of a file: (comments before, lines)."""
    out, pend = [], []
    for line in text.split("\n"):
        if not line.strip():
            pend.append(line) if pend and not out else None
            if out and out[-1] and not pend:
                out[-1][1].append("")
            continue
        if line.startswith("--"):
            pend.append(line)
        elif line[0] in " )}]":
            out[-1][1].append(line)
        else:
            out.append((pend, [line]))
            pend = []
    return [(a, [l for l in b if l]) for a, b in out], pend


def flat(name):
    return re.sub(r"[-_]lem$", "", name).replace("_", "-").lower()


class Turn:
    def __init__(self, crate, path, fn, names):
        self.crate, self.path, self.fn = crate, path, fn
        self.names = names
        self.left = []
        self.needs = {}
        for old, new in names["needs"]:
            self.needs.setdefault(flat(old), new)
            if flat(old).startswith("part-"):
                self.needs.setdefault("slice-bounds-" + flat(old)[5:], new)
            if re.match(r"(rem|div)-", flat(old)):
                self.needs.setdefault("nonzero-" + flat(old), new)
            m = re.match(r"(add|sub|mul|shl|shr|cast|neg)-(.*)$", flat(old))
            if m:
                self.needs.setdefault("overflow-" + flat(old), new)
        self.loops = {flat(l[0][0]): (l[0][1], l[1], ch) for l, ch in zip(names["loops"], names["changed"])}
        self.steps = {}
        for place in names["places"]:
            old, new = place[2]
            if old:
                self.steps.setdefault(flat(old), new)
        self.arms, self.typed, self.laws = {}, {}, set()
        for arm in names["arms"]:
            if arm:
                for field, old, path in arm[2]:
                    self.arms[(flat(old), tuple(flat(q) for q in path))] = (arm[0], field)
        for vs in names["typed"]:
            for v, old in vs:
                self.typed[flat(old)] = v
        self.callee = {flat(place[2][0]): place[3] for place in names["places"] if place[3]}
        self.args = {}
        for o, n in names["args"]:
            o, n = o.replace(" ", "").strip(".").split("."), n.replace(" ", "").strip(".").split(".")
            self.args[tuple(o)] = n[-1]
        self.flags = self.source()
        self.places = {flat(place[0]): new for place, new in zip(names["places"], names["places_by_name"])}

    def wrapped(self, op, way, path):
        law = {"==": {"true": "eq-eqb", "false": "ne_eqb"}, "!=": {"true": "ne_eqb", "false": "eq-eqb"}}
        for o in ("<", ">"):
            law[o] = {"true": "lt-ltb", "false": "le-ltb"}
        for o in ("<=", ">="):
            law[o] = {"true": "le-leb", "false": "lt-leb"}
        if op == "not":
            return f"(ap not {path})"
        if op.startswith("not "):
            return f"(ap not {self.wrapped(op[4:], {'true': 'false', 'false': 'true'}[way], path)})"
        name = law[op][way]
        self.laws.add(name)
        one = f"({name} _ _ {path})"
        return f"(ap not {one})" if op == "!=" else one

    def source(self):
        """The function's own text, and its flags: names of single comparisons."""
        name = self.fn[-1]
        found = []
        for d, _, fs in os.walk(os.path.join("crates", self.crate, "src")):
            for f in sorted(fs):
                text = open(os.path.join(d, f)).read()
                for m in re.finditer(rf"(?m)^( *)(?:pub(?:\([^)]*\))? )?(?:unsafe )?(?:extern \"C\" )?fn {re.escape(name)}\b", text):
                    end = text.find("\n" + m.group(1) + "}\n", m.start())
                    found.append((f, text[m.start() : end]))
        if len(found) > 1:
            mine = [t for f, t in found if len(self.fn) > 1 and f == self.fn[-2] + ".rt"] or [t for f, t in found if f in ("lib.rt", "main.rt")]
            found = [("", t) for t in mine] or found
        flags = {}
        for _, text in found[:1]:
            for m in re.finditer(r"let (\w+) = !\w+;", text):
                flags[m.group(1)] = "not"
            for m in re.finditer(r"let (\w+) = ([^;]*?) (==|!=|<=|>=|<|>) ([^;]*);", text):
                if not re.search(r"[&|]{1,2} | [&|] |\bas bool", m.group(2) + m.group(4)) and "|" not in m.group(2) + m.group(4) and " & " not in m.group(2) + " " + m.group(4):
                    flags[m.group(1)] = ("not " if m.group(2).startswith("!(") else "") + m.group(3)
        return flags

    def body(self, s, var, goal=None):
        def step(m):
            parts = m.group(2)[1:].split(".")
            while parts and parts[0] == "before":
                parts = parts[1:]
            if not parts:
                return m.group(1)
            key = flat(parts[0])
            for k in range(len(parts), 0, -1):
                hit = self.arms.get((key, tuple(flat(q) for q in parts[1:k])))
                if hit and k > 1:
                    return m.group(1) + "." + ".".join(list(hit) + parts[k:])
            if len(parts) > 1 and parts[1] == "given" and key in self.typed:
                return m.group(1) + "." + ".".join(["type_inv", self.typed[key]] + parts[2:])
            if len(parts) > 1 and (parts[0], parts[1]) in self.args:
                parts = [parts[0], self.args[parts[0], parts[1]]] + parts[2:]
            if (parts[0],) in self.args:
                parts = [self.args[(parts[0],)]] + parts[1:]
            new = self.steps.get(key, parts[0])
            if len(parts) > 2 and parts[1] in ("new", "auto") and parts[2] in ("0", "1"):
                k, rest = 0, parts[2:]
                while rest and rest[0] == "1":
                    k, rest = k + 1, rest[1:]
                ps = self.names["params"].get(self.callee.get(key), [])
                if rest and rest[0] == "0" and k < len(ps):
                    parts = [parts[0], parts[1], ps[k]] + rest[1:]
            path = m.group(1) + "." + ".".join([new] + parts[1:])
            if re.match(r"(wrapping|saturating)_", new) and parts[1:] == ["ensures"]:
                path += ".value"
            if len(parts) == 2 and parts[1] in ("true", "false") and new.startswith("if-"):
                if new.startswith("if-not-"):
                    other = {"true": "false", "false": "true"}[parts[1]]
                    inner = path
                    for flag in sorted(self.flags, key=len, reverse=True):
                        if new == "if-not-" + flag or re.match(rf"if-not-{re.escape(flag)}-", new):
                            inner = self.wrapped(self.flags[flag], other, path)
                            break
                    return f"(ap not {inner})"
                for flag in sorted(self.flags, key=len, reverse=True):
                    if new == "if-" + flag or re.match(rf"if-{re.escape(flag)}-", new):
                        return self.wrapped(self.flags[flag], parts[1], path)
            return path

        s = re.sub(rf"(?<![\w.'-]){var}((?:\.before)+)(?![\w'-])", var, s)
        # a name for what is known at an earlier place is what is known
        while True:
            m = re.search(rf"let ([\w'₀-₉-]+) = {var}(?:\.before)* in\s*", s)
            if not m:
                break
            s = s[: m.start()] + s[m.end() :]
            s = s[: m.start()] + re.sub(rf"(?<![\w.'₀-₉-]){re.escape(m.group(1))}(?![\w'₀-₉-])(?! *[:=] )", var, s[m.start() :])
        s = re.sub(rf"(?<![\w.'-]){var}((?:\.before)+)(?![\w'-])", var, s)
        while True:
            m = re.search(rf"let ([\w'₀-₉-]+) = ({var}(?:\.{WORD})*\.given|{var}(?:\.before)*\.(?!args|requires|ranges|loop)[\w-]+) in\s*", s)
            if not m:
                break
            s = s[: m.start()] + s[m.end() :]
            s = s[: m.start()] + re.sub(rf"(?<![\w.'₀-₉-]){re.escape(m.group(1))}(?![\w'₀-₉-])(?! *[:=] )", m.group(2), s[m.start() :])
        s = re.sub(rf"(?<![\w.'-])({re.escape(var)})((?:\.{WORD})+)", step, s)
        for o, n in self.args.items():
            if len(o) == 2 and o[0] == "args" and re.fullmatch(r"t\d+", o[1]):
                s = re.sub(rf"\.{o[1]}(?![\w'-])", "." + n, s)
        s = s.replace(".type-inv", ".type_inv").replace(".well-formed", ".well_formed")
        if goal:
            for lemma, place in self.over.items():
                s = re.sub(rf"(?<![\w.'-]){re.escape(lemma)} {var}(?![\w.'-])", f"{lemma} (goal.at.{goal} {var}).{place}", s)
        return s

    def turn(self):
        text = open(self.path).read()
        bl, tail = blocks(text)
        uses, decls, order = [], {}, []
        head = []
        cur = None
        for com, lines in bl:
            one = "\n".join(lines)
            if one.startswith("use "):
                uses.append(one)
                head += com
                continue
            if one.startswith("unfolding"):
                decls[cur]["unfolding"] = one
                continue
            m = re.match(r"(?:(abbrev|unfoldable) )?(?:pub )?([^\s:]+) :\s+", one)
            if m and not re.match(r"[^\n]*?[^:\s] = ", one.split("\n")[0][: m.end()]):
                cur = m.group(2)
                decls[cur] = {"sig": one, "eqs": [], "com": com, "unfolding": None, "type": one[m.end() :]}
                order.append(cur)
                continue
            m = re.match(r"(?:pub )?(data|record|module|abbrev|infix[lr]?) ", one)
            if m:
                cur = one
                decls[cur] = {"sig": one, "eqs": [], "com": com, "unfolding": None, "type": ""}
                order.append(cur)
                continue
            if cur is None:
                raise ValueError("no declaration before " + one[:60])
            decls[cur]["eqs"].append("\n".join(com + [one]))
        spec = [n for n in order if re.search(r"[-_]spec$", n) and "statement" in decls[n]["type"]]
        if len(spec) != 1:
            raise ValueError("no one spec")
        order.remove(spec[0])
        closing = "\n".join(decls[spec[0]]["eqs"])
        m = re.search(r"tie\.spec\b(.*)\)\s*$", closing, re.S)
        if not m or "tie.close" not in closing:
            raise ValueError("closing is not tie.close (tie.spec ..)")
        args = split_args(m.group(1))
        nl = len(self.names["loops"])
        self.over = {}
        for n in order:
            m = re.search(r"(?:\(\w+ : |: )tie\.([\w'-]+)", decls[n]["sig"])
            if m and not re.match(r"tie\.(Need|invariant|decreases)-", decls[n]["type"]) and flat(m.group(1)) in self.places:
                self.over[n] = self.places[flat(m.group(1))]
        inv, ans = [], []
        given = args[2 * nl :]
        answered = set()
        for n in order:
            d = decls[n]
            t = d["type"].strip()
            com = "\n".join(d["com"])
            com = com + "\n" if com else ""
            m = re.match(r"tie\.(invariant|decreases)-([\w'-]+)$", t)
            if m:
                new, vars_, changed = self.loops[flat(m.group(2))]
                eq = d["eqs"][0]
                e = re.match(r"([^\s=]+)((?: [^\s=]+)*) =\s*", eq)
                ps = e.group(2).split()
                want = list(vars_) + [v for v, c in zip(vars_, changed) if c]
                if len(ps) != len(want):
                    raise ValueError(f"{n}: {len(ps)} parameters for {want}")
                bodytext = eq[e.end() :]
                sub = {}
                for k, p in enumerate(ps):
                    if k < len(vars_):
                        sub[p] = ("l.initial." if changed[k] else "l.") + want[k]
                    else:
                        sub[p] = "l." + want[k]
                sub.pop("_", None)
                bodytext = re.sub(rf"(?<![\w.'₀-₉-])({WORD})", lambda q: sub.get(q.group(1), q.group(1)), bodytext)
                name = f"{m.group(1)}-{new}"
                unf = (d["unfolding"] + "\n") if d["unfolding"] else ""
                sep = "\n    " if "\n" in bodytext else " "
                inv.append(f"{com}abbrev pub {name} : goal.{name}\n{unf}{name} l ={sep}{bodytext.strip()}\n")
                continue
            m = re.match(r"tie\.Need-([^\s]+)(.*)$", t, re.S)
            if m:
                old = flat(m.group(1))
                new = self.needs.get(old)
                if new is None:
                    self.left.append(f"no goal {m.group(1)}: " + " / ".join(d["eqs"])[:300])
                    continue
                eqs = []
                for eq in d["eqs"]:
                    e = re.match(rf"(\s*(?:--[^\n]*\n)*){re.escape(n)} ([^\s=]+)((?: [^\s=]+)*) =(\s*)", eq)
                    if not e:
                        raise ValueError(f"{n}: equation {eq[:50]}")
                    rest = e.group(3).split()
                    if [r for r in rest if r not in ("κs", "_")]:
                        self.left.append(f"{new} has more arguments: {rest}")
                    v = e.group(2)
                    eqs.append(f"{e.group(1)}{new} {v} ={e.group(4)}" + self.body(eq[e.end() :], v, new))
                unf = (d["unfolding"] + "\n") if d["unfolding"] else ""
                text_ = "\n".join(eqs)
                answered.add(new)
                if re.fullmatch(rf"{re.escape(new)} [^\s=]+ =\s*search rules", text_.strip()) and not unf:
                    continue
                ans.append(f"{com}pub {new} : goal.{new}\n{unf}{text_}\n")
                continue
            # a lemma of the file's own
            sig = d["sig"]
            tied = "tie." in sig
            if tied:
                if n not in self.over:
                    self.left.append(f"lemma {n} over tie: {t[:100]}")
                m = re.search(r"\((\w+) : tie\.", sig)
                if m:
                    sig = self.body(sig, m.group(1))
                sig = re.sub(r"tie\.([\w'-]+)(?: (?:invariant|decreases)-[\w'-]+)*", lambda q: self.places.get(flat(q.group(1)), q.group(0)), sig)
            unf = ("\n" + d["unfolding"]) if d["unfolding"] else ""
            eqs = []
            for eq in d["eqs"]:
                e = re.match(rf"{re.escape(n)} ([^\s=]+)", eq)
                v = e.group(1) if e and tied else "c"
                eqs.append(self.body(eq, v) if tied else eq)
            ans.append(f"{com}{sig}{unf}\n" + "\n".join(eqs) + "\n")
        for n in order:
            m = re.match(r"tie\.Need-([^\s]+)", decls[n]["type"].strip())
            if m and self.needs.get(flat(m.group(1)), n) != n:
                for k, a_ in enumerate(ans):
                    if re.search(rf"(?<![\w.'-]){re.escape(n)} c(?![\w'-])", a_) and not re.search(rf"(?m)^pub {re.escape(n)} :", a_):
                        ans[k] = re.sub(rf"(?<![\w.'-]){re.escape(n)} c(?![\w'-])", f"{self.needs[flat(m.group(1))]} c", a_)
        # answers that stand in the closing list
        if len(given) == len(self.names["needs"]):
            for a, (old, new) in zip(given, self.names["needs"]):
                if a.startswith("("):
                    m = re.match(r"\(λ ([^\s.]+)((?: [^\s.]+)*)\. ?(.*)\)$", a, re.S)
                    if not m:
                        self.left.append(f"closing: {a[:80]}")
                        continue
                    b = m.group(3).strip()
                    if b == "search rules" or new in answered:
                        continue
                    ans.append(f"pub {new} : goal.{new}\n{new} {m.group(1)} = {self.body(b, m.group(1), new)}\n")
        else:
            for a in given:
                if a.startswith("(") and not re.match(r"\(λ [^.]*\. ?search rules\)$", a):
                    self.left.append(f"closing ({len(given)} for {len(self.names['needs'])}): {a[:80]}")
        folder = os.path.dirname(self.path)
        mod = ".".join([f"Rattle.{self.crate}.proofs"] + os.path.relpath(folder, os.path.join("crates", self.crate, "proofs")).split(os.sep))
        uses = [u for u in uses if not re.search(r"\.(Statement|Tie)\b", u)]
        if self.laws:
            uses.append(f"use borrow.Author.Tests.{{{', '.join(sorted(self.laws))}}}")
        if True:
            if any("(ap not " in a for a in ans):
                uses += ["use mathlib.Core.Path.{ap}", "use mathlib.Core.Bool.{not}"]
        header = "\n".join(l for l in head if l.startswith("--"))
        header = re.sub(r" Assumes nothing\.", "", header)
        if inv:
            body = "\n".join(inv)
            us = "\n".join(self.used(uses, body))
            open(os.path.join(folder, "Invariants.antt"), "w").write((header + "\n" if header else "") + (us + "\n" if us else "") + f"use {mod}.Given as goal\n\n" + body)
        if ans:
            body = "\n".join(ans)
            us = "\n".join(self.used(uses, body))
            if self.over:
                us += f"\nuse {mod}.Goals.{{{', '.join(sorted(set(self.over.values())))}}}"
            open(os.path.join(folder, "Answers.antt"), "w").write((header + "\n" if header else "") + (us + "\n" if us else "") + f"use {mod}.Goals as goal\n\n" + body)
        os.remove(self.path)
        return self.left

    def used(self, uses, body):
        words = set(re.findall(WORD, body)) | set(re.findall(r"[^\s(){}\[\];,\"`|]+", body))
        for u in uses:
            m = re.match(r"use ([^\s]+)\.\{([^}]*)\}$", u, re.S)
            if not m:
                yield u
                continue
            keep = []
            for n in [x.strip() for x in m.group(2).split(",")]:
                k = n.split(" as ")[-1]
                parts = [q for q in k.split("◌") if q]
                if k == "[]":
                    ok = "[]" in body
                    if ok:
                        keep.append(n)
                    continue
                if (parts and all(q in words or q in body for q in parts)) if "◌" in k else k in words:
                    keep.append(n)
            if keep:
                yield f"use {m.group(1)}.{{{', '.join(keep)}}}"


def main(crates):
    for c in crates:
        d = tempfile.mkdtemp()
        r = subprocess.run(["rt", "check", "--generated", d, "--old-names"], cwd=os.path.join("crates", c), capture_output=True, text=True)
        try:
            names = json.load(open(os.path.join(d, "names.json")))
        except OSError:
            print(f"left: {c}: no names: {(r.stdout + r.stderr)[-600:]}")
            continue
        for folder, ds, fs in sorted(os.walk(os.path.join("crates", c, "proofs"))):
            if "Proof.antt" not in fs:
                continue
            rel = os.path.relpath(folder, os.path.join("crates", c, "proofs")).split(os.sep)
            key = f"Rattle-{c}-proofs." + ".".join(rel) + ".Lts"
            if key not in names:
                print(f"left: {c} {'.'.join(rel)}: not among the names")
                continue
            try:
                for l in Turn(c, os.path.join(folder, "Proof.antt"), rel, names[key]).turn():
                    print(f"left: {c} {'.'.join(rel)}: {l}")
            except (ValueError, KeyError, IndexError, AttributeError) as e:
                print(f"left: {c} {'.'.join(rel)}: {type(e).__name__} {e}")


main(sys.argv[1:])
