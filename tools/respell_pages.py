#!/usr/bin/env python3
"""Brings the names of definitions and lemmas that pages and comments cite to the spelling of the source. Run once, after tools/respell.py.

What stands in backticks or in a code block is looked at, and a word changes only if it is an old name of tools/respelled.tsv or of
tools/respelled-port.txt (the names that port.py respelled itself, in the old spelling). English words with a dash stay as they are.
`--try` changes nothing and prints what would change.
"""
import pathlib
import re
import sys

TOKEN = re.compile(r"[^\s(){}\[\];,.\"`|]+")
ROOT = pathlib.Path(__file__).resolve().parent.parent
PAGES = sorted([*ROOT.glob("docs/**/*.md"), ROOT / "README.md"])
# made by bin/statements, and lists that are themselves about old and new names
LEFT = {"STATEMENTS.md", "PORT.md"}


def spelled(name):
    name = re.sub(r"(?<=[a-z0-9])([A-Z]+)(?=[A-Z][a-z])", r"_\1", name)
    name = re.sub(r"(?<=[a-z0-9])([A-Z])", r"_\1", name)
    name = re.sub(r"(?<=[A-Z])([A-Z][a-z])", r"_\1", name)
    return name.lower().replace("-", "_")


def table():
    port = (ROOT / "tools" / "respelled-port.txt").read_text(encoding="utf-8").split()
    rows = dict(line.split("\t") for line in (ROOT / "tools" / "respelled.tsv").read_text(encoding="utf-8").splitlines())
    # a name in snake case was respelled by port.py before: its old one has a dash or a hump
    found = {old: new for old, new in rows.items() if spelled(old) != old}
    for old in port:
        found.setdefault(old, rows.get(spelled(old), spelled(old)))
    return found


def main():
    names, seen = table(), {}

    def turn(found):
        old = found.group(0)
        new = names.get(old, old)
        if new != old:
            seen.setdefault((old, new), []).append(path.name)
        return new

    for path in PAGES:
        if path.name in LEFT:
            continue
        text = path.read_text(encoding="utf-8")
        out, block = [], False
        for line in text.split("\n"):
            if line.lstrip().startswith("```"):
                block = not block
                out.append(line)
            elif block or re.match(r" {4,}\S", line):
                out.append(TOKEN.sub(turn, line))
            else:
                out.append(re.sub(r"`[^`]+`", lambda found: "`" + TOKEN.sub(turn, found.group(0)[1:-1]) + "`", line))
        done = "\n".join(out)
        if done != text and "--try" not in sys.argv:
            path.write_text(done, encoding="utf-8")
    for (old, new), places in sorted(seen.items()):
        print(old, new, *sorted(set(places)))


main()
