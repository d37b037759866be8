#!/usr/bin/env python3
"""Turns the paths of the theorem modules of rounding and written, which stand in proofs/ and no longer in specs/.

At the top of a checkout: python3 tools/moved.py
Each import of a moved module is turned in every crate's .antt, .rt and .edit files. A second run changes nothing.
"""
import pathlib
import re

TOP = pathlib.Path(__file__).resolve().parent.parent
MOVED = {
    "rounding": "Vectors Fraction Order Signs Squares Finite Sums Exact Boxes".split(),
    "written": "Table Stands Rows Refusals Examples Laws Nodes Checked Right Accounted Limits Answered".split(),
}


def turned(text):
    for crate, names in MOVED.items():
        text = re.sub(rf"\bRattle([.·]){crate}\.specs\.({'|'.join(names)})\b", rf"Rattle\1{crate}.proofs.\2", text)
    return text


for path in sorted(TOP.glob("crates/**/*")):
    if path.suffix in (".antt", ".rt", ".edit") and "out" not in path.relative_to(TOP).parts:
        text = path.read_text()
        if turned(text) != text:
            path.write_text(turned(text))
