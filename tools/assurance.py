#!/usr/bin/env python3
"""assurance.py --check [FILE]: whether everything that docs/ASSURANCE.md names is there.

A reference stands in backticks, in one of these forms; paths count from the root of the repository, but for `crates/` before a crate:

    CRATE/specs/File: name, name       crates/CRATE/specs/File.antt declares each name `pub`; a law may stand in CRATE/proofs/File
    CRATE/src/file.rt: name            crates/CRATE/src/file.rt has the function
    CRATE/must-fail/name.edit          the edit is there; CRATE/must-fail-long/name.edit one that ./test leaves out
    path/file.rs: name                 the Rust file has the test `fn name`
    path                               the file or folder is there (a slash in it)
    name                               a file in specs/ or src/ of some crate has the word

Anything else in backticks is an error, but for the commands of COMMANDS. Outside of them, a path into docs, tools, crates, host or oracle
must be there too, and `docs/DECISIONS.md, N` a decision. The rows of ROWS must each begin a line of a table. And what the document says of
contracts is looked at: every function of a crate, but for those of PROGRAMS, has one that is an equation under no condition. But for those
of UNEQUAL: these have none, and the document names each. And but for a function that is not public and whose body is
`true`: it hands on what is true of its arguments by their types. And each edit of must-fail-long fits its file, which `rt ci` says of those of
must-fail alone. Prints what is missing; exit status 1 if anything is. Before that it is tried on references, lines, functions and edits that
are wrong and on a document without rows: if one of these passes, the exit status is 1 too.
"""
import functools
import glob
import os
import re
import sys

ROOT = os.path.dirname(os.path.dirname(os.path.abspath(__file__)))
DOCUMENT = "docs/ASSURANCE.md"
COMMANDS = {"rt ci"}
PROGRAMS = {"replay", "session"}
# An attempt does the whole call or nothing: its contract is what the exported call's equation needs in each case.
UNEQUAL = {
    *(f"attempts/src/lib.rt: {name}" for name in ("attempt", "attempt_exception", "attempt_interrupt", "attempt_return")),
    "fast_return/src/lib.rt: try_return",
    "ways/src/lib.rt: m68k_way",
}

NAME = r"[^\s,:`/()]+"
SPEC = re.compile(rf"(\w+)/(specs|proofs)/(\w+): ({NAME}(?:, {NAME})*)")
SOURCE = re.compile(rf"(\w+)/src/([\w/]+\.rt): (\w+(?:, \w+)*)")
EDIT = re.compile(r"(\w+)/must-fail(?:-long)?/(\w+)\.edit")
TEST = re.compile(r"([\w/.-]+\.rs): (\w+(?:, \w+)*)")
PATH = re.compile(r"[\w.-]*(?:/[\w.-]*)+")
WORD = re.compile(r"[\w'-]+")
BARE = re.compile(r"(?<![\w/.])(?:docs|tools|crates|host|oracle)/[\w./-]*\w")

# What the papers number: the first cells of the tables.
ROWS = ([f"D{n}" for n in (1, 2, 3)] + [f"P{n}" for n in range(1, 12)] + ["Also"] + [f"S{n}" for n in range(1, 7)]
        + [f"M{n}" for n in range(1, 5)] + [f"F{n}" for n in range(1, 10)] + [f"N{n}" for n in range(1, 15)])

WRONG = ["types/specs/Tables: exception_cycle", "types/specs/Tables: exception_cycles, nothing", "types/specs/Table: exception_cycles",
         "typo/specs/Tables: exception_cycles", "types/proofs/Tables: exception_cycles", "types/proofs/Laws: exception_cycles", "types/must-fail/none.edit", "types/must-fail-long/none.edit", "calls/src/lib.rt: performs", "host/tests/boundary.rs: calls",
         "host/tests/boundary.rs: no_such_test", "host/tests/none.rs: no_such_test", "docs/NONE.md", "noSuchWordAnywhere", "two words",
         "types/specs/Tables:exception_cycles", "Tables: exception_cycles"]
WRONG_LINES = ["see docs/NONE.md.", "see (docs/DECISIONS.md, 999)", "a `backtick", "`types/specs/Tables: exception_cycles` and `docs/NONE.md`"]
WRONG_SOURCES = ["fn f(a: u8) -> u8 {\n    a\n}\n", "pub fn f(\n    a: u8,\n) -> u8\n    ensures { result < 9 }\n{\n    a\n}\n",
                 "fn f(a: u8) -> u8\n    ensures { (result ≡ 1 → a ≡ 1) × (result < 9) }\n{\n    a\n}\n",
                 "fn f(a: u8) -> u8\n    ensures one { result ≡ 1 → a ≡ 1 }\n    ensures low { result < 9 }\n{\n    a\n}\n",
                 "fn f(a: u8) -> u8\n    requires { a ≡ 1 }\n    ensures { result < 9 }\n{\n    a\n}\n",
                 "fn f(a: u8) -> bool\n    ensures { a < 256 }\n{\n    false\n}\n",
                 "pub fn f(a: u8) -> bool\n    ensures { a < 256 }\n{\n    true\n}\n"]
WRONG_EDITS = ["file: src/lib.rt\nold: no such text\nnew: other\n", "file: src/none.rt\nold: a\nnew: b\n", "file: src/lib.rt\n",
               "file: src/lib.rt\nold: fn \nnew: fm \n", "file: src/lib.rt\nold: fn kept(\nnew: fn held(\nold: fn kept(\nnew: fn kept(\n"]


@functools.cache
def text(path):
    """The text of a file, empty where there is none."""
    if not os.path.isfile(os.path.join(ROOT, path)):
        return ""
    with open(os.path.join(ROOT, path), encoding="utf-8") as file:
        return file.read()


@functools.cache
def words():
    """Every word of specs/ and src/."""
    files = glob.glob("crates/*/specs/*.antt", root_dir=ROOT) + glob.glob("crates/*/src/**/*.rt", root_dir=ROOT, recursive=True)
    return {word for path in files for word in WORD.findall(text(path))}


def declares(path, name):
    """Whether a file of definitions declares the name for others."""
    return re.search(rf"^ *(?:(?:unfoldable|abbrev) )?pub (?:record |data )?{re.escape(name)}(?= |:|$)", text(path), re.M) is not None


def tests(path, name):
    """Whether a Rust file has the test."""
    return re.search(rf"#\[test\]\s*(?:#\[[^\]]*\]\s*)*fn {name}\(", text(path)) is not None


def missing(reference):
    """What of a reference is not there, in words."""
    if found := SPEC.fullmatch(reference):
        path = f"crates/{found[1]}/{found[2]}/{found[3]}.antt"
        return [f"{path}: {name} is not declared" for name in found[4].split(", ") if not declares(path, name)]
    if found := SOURCE.fullmatch(reference):
        path = f"crates/{found[1]}/src/{found[2]}"
        return [f"{path}: no function {name}" for name in found[3].split(", ") if not re.search(rf"\bfn {name}\b", text(path))]
    if EDIT.fullmatch(reference):
        return [] if text(f"crates/{reference}") else [f"crates/{reference}: no such edit"]
    if found := TEST.fullmatch(reference):
        return [f"{found[1]}: no test {name}" for name in found[2].split(", ") if not tests(found[1], name)]
    if PATH.fullmatch(reference):
        return [] if os.path.exists(os.path.join(ROOT, reference)) else [f"{reference}: no such file"]
    if WORD.fullmatch(reference) and reference in words() or reference in COMMANDS:
        return []
    return [f"{reference}: no reference that can be looked up"]


def line_faults(line):
    """What is wrong with a line."""
    found = ["a backtick without its other"] if line.count("`") % 2 else []
    found += [fault for reference in re.findall(r"`([^`]*)`", line) for fault in missing(reference)]
    bare = re.sub(r"`[^`]*`", "", line)
    found += [f"{path}: no such file" for path in BARE.findall(bare) if not os.path.exists(os.path.join(ROOT, path))]
    decisions = re.findall(r"docs/DECISIONS\.md, (\d+)", bare)
    return found + [f"no decision {n}" for n in decisions if not re.search(rf"^{n}\. ", text("docs/DECISIONS.md"), re.M)]


def equal(head):
    """Whether one of the things that a function ensures is an equation under no condition."""
    return any("≡" in part and "→" not in part and "IfSome" not in part for ensured in re.findall(r"\bensures\b(.*)", head) for part in ensured.split("×"))


def bare(source):
    """The functions of a source whose contract is no equation."""
    found = re.findall(r"^(pub )?(?:pub\(\w+\) )?(?:extern \"C\" )?fn (\w+)(.*?)(?:^\{| \{)$(\n    true\n\})?", source, re.M | re.S)
    return [name for public, name, head, true in found if not equal(head) and (public or not true)]


def contracts():
    """Functions without a contract that is an equation, outside of the programs: those of UNEQUAL and no others."""
    files = [path for path in sorted(glob.glob("crates/*/src/**/*.rt", root_dir=ROOT, recursive=True)) if path.split("/")[1] not in PROGRAMS]
    found = {f"{path.partition('/')[2]}: {name}" for path in files for name in bare(text(path))}
    return ([f"{name} has no equation" for name in sorted(found - UNEQUAL)]
            + [f"{name} is to have no equation and has one, or is not there" for name in sorted(UNEQUAL - found)])


def unfit(crate, edit):
    """Whether an edit fits no text: each `old:` must stand once in what the pairs before it made of its file."""
    head, *pairs = re.split(r"^old: ", edit, flags=re.M)
    name = re.search(r"^file: (.*)$", head, re.M)
    body = text(f"crates/{crate}/{name[1]}") if name else ""
    for pair in pairs:
        old, _, new = pair.partition("\nnew: ")
        if body.count(old) != 1 or "\n" in old:
            return True
        body = body.replace(old, new.split("\n")[0])
    return not pairs


def edits():
    """The edits of must-fail-long that fit no text."""
    files = sorted(glob.glob("crates/*/must-fail-long/*.edit", root_dir=ROOT))
    return [f"{path}: fits no text" for path in files if unfit(path.split("/")[1], text(path))]


def unnamed(document):
    """The functions of UNEQUAL that a document does not name."""
    named = {f"{crate}/src/{file}: {name}" for crate, file, names in SOURCE.findall(document) for name in names.split(", ")}
    return [f"{name} has no equation, and the document does not say so" for name in sorted(UNEQUAL - named)]


def faults(document):
    """What is wrong with a document, and the rows that it has not."""
    found = [f"line {number}: {fault}" for number, line in enumerate(document.splitlines(), 1) for fault in line_faults(line)]
    first = set(re.findall(r"^\| (\w+) \|", document, re.M))
    return found + [f"no row {row}" for row in ROWS if row not in first]


def main():
    if sys.argv[1:2] != ["--check"] or len(sys.argv) > 3:
        sys.exit(__doc__)
    passed = [wrong for wrong in WRONG if not missing(wrong)] + [wrong for wrong in WRONG_LINES if not line_faults(wrong)]
    passed += [wrong for wrong in WRONG_SOURCES if bare(wrong) != ["f"]] + [wrong for wrong in WRONG_EDITS if not unfit("types", wrong)]
    if passed or len(faults("")) != len(ROWS):
        sys.exit(f"assurance.py does not find what is wrong: {passed}")
    path = sys.argv[2] if len(sys.argv) > 2 else os.path.join(ROOT, DOCUMENT)
    with open(path, encoding="utf-8") as file:
        document = file.read()
    found = faults(document) + unnamed(document) + contracts() + edits()
    for fault in found:
        print(f"{os.path.basename(path)}: {fault}")
    if found:
        sys.exit(1)
    tried = len(WRONG) + len(WRONG_LINES) + len(WRONG_SOURCES) + len(WRONG_EDITS)
    print(f"{os.path.basename(path)}: {document.count('`') // 2} references, all there; {tried} wrong ones are found")


if __name__ == "__main__":
    main()
