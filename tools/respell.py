#!/usr/bin/env python3
"""Brings the repository's own definitions and lemmas to snake case: humps and dashes become underscores. Run once, after port.py.

Types, modules and facts keep their capitals; names that Rattle makes, and those of its library, keep their spelling. Two names that fall
together get different ones: that of the lemma (with a dash) ends in _lem. The map is written to tools/respelled.tsv.
"""
import collections
import os
import re
import sys

STOP = {"use", "module", "data", "record", "let", "where", "in", "mod", "pub", "ruleset", "ghost", "open", "do", "elim"}
HEAD = re.compile(r"^( *)(?:(?:abbrev|unfoldable) )?(?:pub )?((?:[^\s(){}:;,.\"]+ )+): ", re.M)
TOKEN = re.compile(r"[^\s(){}\[\];,.\"`|]+")


def own_proof(path):
    return "/proofs/" in path and os.path.basename(path) in ("Proof.antt", "Answers.antt", "Invariants.antt")


def spelled(name):
    if not (name[0].isascii() and name[0].islower()):
        return name
    name = re.sub(r"(?<=[a-z0-9])([A-Z]+)(?=[A-Z][a-z])", r"_\1", name)
    name = re.sub(r"(?<=[a-z0-9])([A-Z])", r"_\1", name)
    name = re.sub(r"(?<=[A-Z])([A-Z][a-z])", r"_\1", name)
    return name.lower().replace("-", "_")


def files(top):
    for d, ds, fs in os.walk(os.path.join(top, "crates")):
        ds[:] = sorted(x for x in ds if x != "out")
        for f in sorted(fs):
            if f.endswith((".antt", ".rt")):
                yield os.path.join(d, f)


def declared(text):
    found = []
    for m in HEAD.finditer(text):
        names = m.group(2).split()
        if len(m.group(1)) > 4 or names[0] in STOP or any(not re.match(r"^[a-z][A-Za-z0-9_'₀-₉-]*$", n) for n in names):
            continue
        found += names
    return found


def without_comments(text):
    return re.sub(r"--[ -].*", "", text)


def imported(text):
    """Names that a file takes from elsewhere than this repository."""
    out = set()
    for m in re.finditer(r"^(?:ghost )?use ([\w'.-]+)\.\{([^}]*)\}", text, re.M):
        if not m.group(1).startswith("Rattle.") or m.group(1).startswith("Rattle.std"):
            out |= {n.split(" as ")[0].strip() for n in m.group(2).split(",")}
            out |= {n.split(" as ")[-1].strip() for n in m.group(2).split(",")}
    return out


def rename(text, table, fields, skip, antt):
    """Each token of the table, but for comments (humps are turned there too), strings and fields that are not the repository's."""
    out = []
    for line in text.split("\n"):
        cut = re.search(r"(?:^|\s)(--+ )" if antt else r"(//)", line)
        code, rest = (line[: cut.start(1)], line[cut.start(1) :]) if cut else (line, "")
        using = re.match(r"\s*(?:pub )?(?:ghost )?use ", code) is not None

        def turn(m):
            name = m.group(0)
            new = table.get(name)
            if new is None or name in skip:
                return name
            i = m.start()
            if i and code[i - 1] == "." and not using:
                before = re.search(r"([^\s(){}\[\];,.\"`|]+)\.$", code[:i])
                if not (before and before.group(1)[0].isupper()) and name not in fields:
                    return name
            return new

        parts = re.split(r'(b?"(?:[^"\\]|\\.)*")', code)
        if not antt and len(parts) > 1:
            code = None
            pieces = []
            for k, piece in enumerate(parts):
                if k % 2 == 0:
                    code = piece
                    pieces.append(TOKEN.sub(turn, piece))
                else:
                    pieces.append(piece)
            done = "".join(pieces)
        else:
            done = TOKEN.sub(turn, code)
        rest = re.sub(r"`([^`]+)`", lambda m: "`" + TOKEN.sub(lambda t: table.get(t.group(0), t.group(0)), m.group(1)) + "`", rest)
        rest = re.sub(r"\b[a-z]+[a-z0-9]*[A-Z][A-Za-z0-9]*\b", lambda m: table.get(m.group(0), m.group(0)), rest)
        out.append(done + rest)
    return "\n".join(out)


def main(top):
    texts = {p: open(p, encoding="utf-8").read() for p in files(top)}
    where = collections.defaultdict(set)
    fields, local = set(), {}
    for p, t in texts.items():
        if not p.endswith(".antt"):
            continue
        t = without_comments(t)
        if own_proof(p):
            local[p] = {n for m in HEAD.finditer(t) if not re.match(r"(?:.*)(?:tie|goal)\.", t[m.end() : t.find("\n", m.end())]) for n in m.group(2).split() if re.match(r"^[a-z][A-Za-z0-9_'₀-₉-]*$", n) and n not in STOP and not n.endswith(("-spec", "_spec")) and len(m.group(1)) <= 2}
            continue
        for n in declared(t):
            where[n].add(p)
        for m in re.finditer(r"^( *)(?:pub )?(?:record|data) [^\n]*where\n((?:\1 +[^\n]*\n|\n)*)", t, re.M):
            fields |= set(declared(m.group(2).replace("\n" + m.group(1) + "  ", "\n")) + declared(m.group(2)))
    table = {n: spelled(n) for n in where if spelled(n) != n}
    # names that fall together
    new = collections.defaultdict(set)
    for n in where:
        new[table.get(n, n)].add(n)
    seen = {p: {m.group(0) for m in TOKEN.finditer(without_comments(t))} for p, t in texts.items() if p.endswith(".antt")}
    proofs_only = set()
    for k, v in sorted(new.items()):
        if len(v) < 2 or not any(len(v & s) > 1 for s in seen.values()):
            continue
        lemmas = sorted(n for n in v if "-" in n) or sorted(n for n in v if n == k)
        if len(lemmas) > 1:
            print("look: several lemmas fall together:", k, sorted(v))
        for i, n in enumerate(lemmas):
            table[n] = k + "_lem" + ("" if i == 0 else str(i + 1))
            if "-" not in n:
                proofs_only.add(n)
        print("together:", sorted(v), "->", [table.get(n, n) for n in sorted(v)])
    # names that the library has: in a file that takes both
    for p, t in texts.items():
        ext = imported(t)
        mine = {m.group(0) for m in TOKEN.finditer(t)}
        for n in list(table):
            if table[n] in ext and n in mine:
                print("look: the library's", table[n], "beside", n, "in", p)
    if "--try" in sys.argv:
        return
    for p, t in texts.items():
        antt = p.endswith(".antt")
        skip = imported(t) if antt else set()
        tab = dict(table) if antt else {n: m for n, m in table.items() if n not in proofs_only}
        if p in local:
            for n in local[p]:
                tab[n] = spelled(n)
        done = rename(t, tab, fields, skip - (local.get(p) or set()), antt)
        if done != t:
            open(p, "w", encoding="utf-8").write(done)
    with open(os.path.join(top, "tools", "respelled.tsv"), "w") as f:
        for n in sorted(table):
            f.write(n + "\t" + table[n] + "\n")
    print(len(table), "names")


main(sys.argv[1])
