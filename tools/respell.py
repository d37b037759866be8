#!/usr/bin/env python3
"""Respells this repository's own definitions and lemmas as today's Rattle spells names: words in snake case.

Run once, at the top of the repository, after port.py: python3 tools/respell.py
Not twice: some new names are old names of other things (every_in, near_times, items_at).
tools/respelled.txt has a line for each name: the old one and the new one. A name is turned where it stands as a
whole, in proofs, definitions, clauses and must-fail edits; in the pages only between back quotes. Text in string
literals stays. A name that ends in _lem was told from its function's only by a dash.
"""
import pathlib
import re

TOP = pathlib.Path(__file__).resolve().parent.parent
NAMES = dict(line.split() for line in (TOP / "tools/respelled.txt").read_text().splitlines() if line)
TOKEN = re.compile(r'"(?:[^"\\\n]|\\.)*"|[^\s(){}\[\].,;:|"`]+|.', re.S)


def plain(name):
    return name[: -len("_lem")] if name.endswith("_lem") else name


def respelled(text):
    out, before = [], ["", ""]
    for found in TOKEN.finditer(text):
        token = found.group(0)
        new = NAMES.get(token, token)
        # after a dot a name with _lem is a step that Rattle named, unless a module stands before the dot
        if new.endswith("_lem") and before[1] == "." and not before[0][:1].isupper():
            new = plain(new)
        out.append(new)
        before = [before[1], token]
    return "".join(out)


def page(text):
    return re.sub(r"`[^`\n]+`", lambda m: "`" + respelled(m.group(0)[1:-1]) + "`", text)


def main():
    for path in sorted(TOP.glob("crates/**/*")):
        if path.suffix in (".antt", ".rt", ".edit") and "out" not in path.relative_to(TOP).parts:
            text = path.read_text()
            turned = respelled(text)
            if turned != text:
                path.write_text(turned)
    for path in [TOP / "README.md", *sorted(TOP.glob("docs/*.md"))]:
        if path.name == "PORT.md" or not path.exists():
            continue
        text = path.read_text()
        turned = page(text)
        if turned != text:
            path.write_text(turned)


main()
