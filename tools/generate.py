#!/usr/bin/env python3
"""generate.py [--check] [CRATE ..]: writes the files of tools/manifest.txt again, of all crates or of the named ones.

Each is made from the code and the definitions alone, in seconds and without the prover.
--check    writes nothing: says which file is not what the tools give, which is not there, and which has the first line of a
           written file and no line in the manifest; exit status 1 where one is
"""
import argparse
import importlib
import os
import shlex
import sys

sys.dont_write_bytecode = True
HERE = os.path.dirname(os.path.abspath(__file__))
ROOT = os.path.dirname(HERE)
sys.path.insert(0, HERE)
FIRST = "-- Written by tools/generate.py from tools/manifest.txt: not edited by hand.\n"


def runs(crates):
    """(crate, tool, file, words) of each line of the manifest."""
    with open(os.path.join(HERE, "manifest.txt"), encoding="utf-8") as lines:
        for line in lines:
            words = shlex.split(line, comments=True)
            if words and (not crates or words[0] in crates):
                yield words[0], words[1], words[2], words[3:]


def made(crates):
    """The files that the tools give, path -> text; and how many runs failed, each with its reason printed."""
    files, failed = {}, 0
    for crate, tool, name, words in runs(crates):
        try:
            for path, text in importlib.import_module(tool).texts(crate, name, words).items():
                assert path not in files, "another line of the manifest writes it"
                files[path] = FIRST + text
        except (AssertionError, KeyError, OSError) as error:
            failed += 1
            print(f"{crate} {tool} {name}: cannot be made: {error or type(error).__name__}")
    return files, failed


def read(path):
    try:
        with open(os.path.join(ROOT, path), encoding="utf-8") as file:
            return file.read()
    except FileNotFoundError:
        return None


def put(path, text):
    """Writes a file whole or not at all."""
    full = os.path.join(ROOT, path)
    os.makedirs(os.path.dirname(full), exist_ok=True)
    with open(full + ".new", "w", encoding="utf-8") as file:
        file.write(text)
    os.replace(full + ".new", full)


def write(path, text):
    """Writes a file that a tool made, and names its module in Lib.antt."""
    put(path, FIRST + text)
    folder, name = os.path.split(path)
    module, lib = f"pub mod {name.removesuffix('.antt')}\n", os.path.join(folder, "Lib.antt")
    if module not in (read(lib) or ""):
        put(lib, (read(lib) or "") + module)


def written(crates):
    """The files that have the first line of a written file."""
    for base, folders, names in os.walk(os.path.join(ROOT, "crates")):
        folders[:] = sorted(f for f in folders if f != "out")
        path = os.path.relpath(base, ROOT)
        if len(path.split(os.sep)) > 1 and crates and path.split(os.sep)[1] not in crates:
            continue
        for name in sorted(names):
            if name.endswith(".antt") and (read(os.path.join(path, name)) or "").startswith(FIRST.strip()):
                yield os.path.join(path, name)


def check(crates):
    files, bad = made(crates)
    for path, text in files.items():
        old = read(path)
        if old != text:
            bad += 1
            print(f"{path}: " + ("is not there" if old is None else "is not what the tools give; run tools/generate.py"))
    for path in written(crates):
        if path not in files:
            bad += 1
            print(f"{path}: has the first line of a written file, and no line in tools/manifest.txt")
    print(f"generate: {len(files)} files, {bad} that are not right")
    return 1 if bad else 0


def main():
    p = argparse.ArgumentParser(description=__doc__, formatter_class=argparse.RawDescriptionHelpFormatter)
    p.add_argument("--check", action="store_true")
    p.add_argument("crates", nargs="*")
    a = p.parse_args()
    if a.check:
        return check(a.crates)
    files, failed = made(a.crates)
    for path, text in files.items():
        if read(path) != text:
            write(path, text.removeprefix(FIRST))
            print(f"{path}: written")
    return 1 if failed else 0


if __name__ == "__main__":
    sys.exit(main())
