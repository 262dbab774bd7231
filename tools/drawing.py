#!/usr/bin/env python3
"""drawing.py [--check]: writes the drawing of the crates in docs/ARCHITECTURE.md from crates.txt, between its two marker lines.

A line a crate: its layer (the longest way down to a crate that uses none), its name, the crates that it uses and that no other of them
uses, and the first sentence of its root file, up to a colon. --check writes nothing; exit status 1 where it differs.
"""
import os
import re
import sys
import textwrap

ROOT = os.path.dirname(os.path.dirname(os.path.abspath(__file__)))
DOCUMENT = os.path.join(ROOT, "docs", "ARCHITECTURE.md")
BEGIN, END = "<!-- crates: written by tools/drawing.py from crates.txt -->\n", "<!-- end of crates -->\n"
WIDE = 140


def graph():
    """Crate -> the crates that it uses, in the order of crates.txt."""
    found = {}
    with open(os.path.join(ROOT, "crates.txt"), encoding="utf-8") as lines:
        for line in lines:
            name, colon, rest = line.split("#")[0].partition(":")
            if colon:
                found[name.split()[0]] = rest.split()
    return found


def purpose(crate):
    for name in ("lib.rt", "main.rt"):
        path = os.path.join(ROOT, "crates", crate, "src", name)
        if os.path.exists(path):
            with open(path, encoding="utf-8") as file:
                text = " ".join(x.strip() for x in re.match(r"(?://[^\n]*\n)*", file.read()).group().replace("//", "").split("\n"))
            sentence = re.match(r".*?(?=\.(?:\s|$)|$)", text.strip()).group()
            return sentence.split(": ")[0] + ("; mathematics only" if "mathematics only" in sentence else "")
    return ""


def drawing():
    uses = graph()
    below = lambda c: set().union(*[{d} | below(d) for d in uses.get(c, [])])  # noqa: E731
    layer = lambda c: max([1 + layer(d) for d in uses.get(c, [])], default=0)  # noqa: E731
    bare = {c: [d for d in ds if not any(d in below(e) for e in ds)] for c, ds in uses.items()}
    rows = sorted(((layer(c), c) for c in uses), key=lambda r: r[0])
    names, lists = max(map(len, uses)), max(len(", ".join(d)) for d in bare.values())
    text = f"    {'':2}  {'crate':{names}}  {'uses':{lists}}  what it is\n"
    for n, c in rows:
        start = f"    {n:2}  {c:{names}}  {', '.join(bare[c]):{lists}}  "
        text += "\n".join(textwrap.wrap(purpose(c), WIDE, initial_indent=start, subsequent_indent=" " * len(start)) or [start.rstrip()]) + "\n"
    return text


def main():
    with open(DOCUMENT, encoding="utf-8") as file:
        text = file.read()
    before, begin, rest = text.partition(BEGIN)
    old, end, after = rest.partition(END)
    if not begin or not end:
        sys.exit("drawing: docs/ARCHITECTURE.md has no marker lines")
    new = "\n" + drawing() + "\n"
    if "--check" in sys.argv[1:]:
        if old != new:
            sys.exit("drawing: docs/ARCHITECTURE.md does not show crates.txt; run tools/drawing.py")
        print(f"drawing: {len(graph())} crates")
    elif old != new:
        with open(DOCUMENT, "w", encoding="utf-8") as file:
            file.write(before + BEGIN + new + END + after)


if __name__ == "__main__":
    main()
