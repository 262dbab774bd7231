#!/usr/bin/env python3
"""counts.py: what the tables of docs/ARCHITECTURE.md say, counted: for each crate functions, lines that are not empty of src, specs and
proofs, must-fail edits, and those that ./test leaves out; then the lines of the definitions that the public contract reaches, files and order as in that document's
section "What the public contract says", without imports and empty lines, beside what the document says of each. It only reads.
"""
import os
import re

ROOT = os.path.dirname(os.path.dirname(os.path.abspath(__file__)))
FUNCTION = re.compile(r'^[ \t]*(?:pub(?:\([a-z]+\))? )?(?:extern "C" )?fn [a-z_0-9]+', re.M)


def text_of(path):
    with open(path, encoding="utf-8") as file:
        return file.read()


def files(folder, ending):
    for base, folders, names in os.walk(folder):
        folders.sort()
        yield from (os.path.join(base, name) for name in sorted(names) if name.endswith(ending))


def lines(folder, ending):
    return sum(1 for f in files(folder, ending) for line in text_of(f).split("\n") if line.strip())


def crates():
    for line in text_of(os.path.join(ROOT, "crates.txt")).split("\n"):
        name, colon, _ = line.split("#")[0].partition(":")
        if colon:
            yield name.split()[0]


def row(crate):
    part = lambda name: os.path.join(ROOT, "crates", crate, name)  # noqa: E731
    functions = sum(len(FUNCTION.findall(text_of(f))) for f in files(part("src"), ".rt"))
    edits = len(list(files(part("must-fail"), ".edit")))
    left_out = len(list(files(part("must-fail-long"), ".edit")))
    return functions, lines(part("src"), ".rt"), lines(part("specs"), ".antt"), lines(part("proofs"), ".antt"), edits, left_out


def main():
    rows = {crate: row(crate) for crate in crates()}
    rows["all"] = tuple(map(sum, zip(*rows.values())))
    print("| Crate | Functions | src | specs | proofs | Must-fail edits | Left out of ./test |\n|---|---|---|---|---|---|---|")
    for crate, counts in rows.items():
        print("| " + " | ".join([crate, *map(str, counts)]) + " |")
    section = text_of(os.path.join(ROOT, "docs", "ARCHITECTURE.md")).partition("## What the public contract says")[2].partition("\n## ")[0]
    total = 0
    print("\nDefinitions that the public contract reaches:")
    for crate, name, said in re.findall(r"^\d+\. (\w+)/specs/(\w+) \((\d+)\)", section, re.M):
        text = text_of(os.path.join(ROOT, "crates", crate, "specs", name + ".antt"))
        counted = sum(1 for line in text.split("\n") if line.strip() and not line.startswith("use "))
        total += counted
        print(f"{crate}/specs/{name} {counted}" + ("" if counted == int(said) else f", and the document says {said}"))
    said = re.search(r"without imports, ([\d,]+) in all", section)
    told = int(said.group(1).replace(",", "")) if said else 0
    print(f"in all {total}" + ("" if total == told else f", and the document says {told}"))


if __name__ == "__main__":
    main()
