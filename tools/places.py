#!/usr/bin/env python3
"""Counts the places in src/ where an older form of code stands, point by point as docs/DESIGN-PASS.md has them.

    python3 tools/places.py [FOLDER] [-l]

FOLDER is a checkout, the current folder if none is named; -l lists the places. A place is a line or a function;
the words looked for stand below, so that the same count can be taken of any commit (git worktree add).
"""
import re
import sys
from pathlib import Path

LINES = {
    "1 own enums": r"^(pub )?enum ",
    "1 number or flag for a kind": r"^\s*(pub )?(side|mode|kind|buffer|number|under|counting): (u32|usize|bool),|[(,] (side|mode|kind|buffer|number|under|counting): (u32|usize|bool)\b",
    "1 number told for a refusal": r"return \d+;$|return refused\(|return printing::refused\(",
    "1 flag with a value beside it": r"let mut here\b",
    "3 loops by hand": r"^\s*while ",
    "3 ladders of tests": r"return (false|true);$",
    "4 equality, choice, conversion by hand": r"fn (alike|least|wide|below|passes|nearer_\w+|nearer|recorded|refused|answered|none|sum|more|read_once)\b",
    "6 a stack and its length": r"let mut len: usize|stack\[|fn (top_of|pop)\b",
    "7 switches on a number": r"if (mode|buffer|kind|side) (<|==|!=) |match (buffer|mode|kind)\b",
}
ROOMS = [("lout", "rout", "dout"), ("items", "dists")]
TREE = ("lstarts", "lstems", "litems", "lcoords", "starts", "stems", "items", "coords", "ritems", "rcoords")


def functions(text):
    for m in re.finditer(r"\bfn (\w+)[^\n(]*\(", text):
        depth, i = 1, m.end()
        while depth:
            depth += {"(": 1, ")": -1}.get(text[i], 0)
            i += 1
        yield m.group(1), re.findall(r"(?:^|[\n,(]|mut )\s*(\w+): ([^,]*)", text[m.end() : i - 1]), text.count("\n", 0, m.start()) + 1


def places(top):
    found = {}
    for f in sorted(top.glob("crates/*/src/*.rt")):
        text = f.read_text()
        at = lambda n: f"{f.relative_to(top)}:{n}"
        for point, words in LINES.items():
            for n, line in enumerate(text.split("\n"), 1):
                if re.search(words, line.split("//")[0]):
                    found.setdefault(point, []).append(at(n) + "  " + line.strip())
        for name, given, n in functions(text):
            names = [x for x, _ in given]
            if len(set(names) & set(TREE)) > 2:
                found.setdefault("5 a tree's buffers side by side", []).append(at(n) + "  " + name)
            if {"radius", "under"} <= set(names):
                found.setdefault("5 a radius and its reading side by side", []).append(at(n) + "  " + name)
            if {"min", "max"} <= set(names):
                found.setdefault("5 a box's sides side by side", []).append(at(n) + "  " + name)
            for rooms in ROOMS:
                if set(rooms) <= {x for x, t in given if t.startswith("&mut")}:
                    found.setdefault("6 parallel buffers", []).append(at(n) + "  " + name)
            if len(given) > 7:
                found.setdefault("5 more than seven parameters", []).append(at(n) + f"  {name} ({len(given)})")
    return found


def main():
    given = [a for a in sys.argv[1:] if a != "-l"]
    found = places(Path(given[0] if given else "."))
    for point in sorted(found):
        print(f"{len(found[point]):4}  {point}")
        if "-l" in sys.argv:
            print("".join(f"        {x}\n" for x in found[point]), end="")


main()
