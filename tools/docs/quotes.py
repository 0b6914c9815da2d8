#!/usr/bin/env python3
"""Compares the definitions that docs/headline.md quotes with the files that they stand in.

usage: quotes.py [--write]

A quote is a comment line `<!-- FILE: NAME -->` and the block of code after it. The block has to be the paragraph of FILE (lines
between blank lines) that defines NAME. With --write the blocks are replaced by those paragraphs; without it the status is 1 where
one differs.
"""
import pathlib
import re
import sys

TOP = pathlib.Path(__file__).resolve().parents[2]
PAGE = TOP / "docs" / "headline.md"
QUOTE = re.compile(r"<!-- (\S+): (\S+) -->\n```\n(.*?)```\n", re.S)


def paragraph(file, name):
    """The paragraph of a file that defines a name."""
    head = re.compile(r"^(abbrev |unfoldable )?pub (record |data )?" + re.escape(name) + r"[ :]", re.M)
    found = [p for p in (TOP / file).read_text().split("\n\n") if head.search(p)]
    if len(found) != 1:
        sys.exit(f"quotes: {file} defines {name} {len(found)} times")
    lines = [line for line in found[0].split("\n") if line and not line.startswith(("use ", "open "))]
    return "\n".join(lines) + "\n"


def main():
    text = PAGE.read_text()
    quotes = list(QUOTE.finditer(text))
    if not quotes or len(quotes) != text.count("<!-- "):
        sys.exit("quotes: a comment without its block")
    if "--write" in sys.argv[1:]:
        PAGE.write_text(QUOTE.sub(lambda q: f"<!-- {q[1]}: {q[2]} -->\n```\n{paragraph(q[1], q[2])}```\n", text))
        return
    differing = [f"{q[1]}: {q[2]}" for q in quotes if q[3] != paragraph(q[1], q[2])]
    for name in differing:
        print(f"quotes: docs/headline.md differs from {name}")
    sys.exit(1 if differing else 0)


main()
