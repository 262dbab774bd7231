#!/usr/bin/env python3
"""module_times.py CRATE [N]: checks a crate anew and prints the N modules that took longest (default 20), in seconds.

It is checked in a copy and under another name, so that nothing that rt kept of it serves; what is kept of the crates below does. The prover
saves each module as soon as it has checked it, so the time between two saved files is what the later one took. The seconds are elapsed ones:
what else runs counts too.
"""
import os
import re
import shutil
import subprocess
import sys
import tempfile

ROOT = os.path.dirname(os.path.dirname(os.path.abspath(__file__)))


def renamed(folder, crate, name):
    """Gives the crate in a folder another name: in the paths of its own definitions and proofs."""
    for base, _, names in os.walk(folder):
        for path in (os.path.join(base, n) for n in names if n.endswith((".rt", ".antt"))):
            with open(path, encoding="utf-8") as file:
                text = file.read()
            with open(path, "w", encoding="utf-8") as file:
                file.write(re.sub(rf"\bRattle\.{crate}\.", f"Rattle.{name}.", text))


def saved(folder):
    """(time, path) of each module saved below a folder, the earliest first."""
    found = []
    for base, folders, names in os.walk(folder):
        folders[:] = [f for f in folders if f != "records"]  # parts of modules, saved beside them
        found += [(os.stat(os.path.join(base, n)).st_mtime, os.path.relpath(os.path.join(base, n), folder)) for n in names if n.endswith(".oantt")]
    return sorted(found)


def main():
    if len(sys.argv) not in (2, 3) or not os.path.isdir(os.path.join(ROOT, "crates", sys.argv[1])):
        sys.exit("usage: module_times.py CRATE [N]")
    crate, name = sys.argv[1], f"{sys.argv[1]}_timed"
    with open(os.path.join(ROOT, "crates.txt"), encoding="utf-8") as file:
        listed = file.read()
    with tempfile.TemporaryDirectory() as room:
        shutil.copytree(os.path.join(ROOT, "crates"), os.path.join(room, "crates"), ignore=shutil.ignore_patterns("out", "must-fail", "must-fail-long"))
        folder = os.path.join(room, "crates", name)
        os.rename(os.path.join(room, "crates", crate), folder)
        renamed(folder, crate, name)
        own, = re.findall(rf"^{crate}(?: staticlib)?:.*$", listed, re.M)
        below = [line for line in listed.split("\n") if line.partition(":")[0] in own.partition(":")[2].split()]
        with open(os.path.join(room, "crates.txt"), "w", encoding="utf-8") as file:
            file.write("\n".join([*below, own.replace(crate, name, 1), ""]))
        done = subprocess.run(["rt", "check", "--jobs", "1"], cwd=folder, stdout=subprocess.PIPE, stderr=subprocess.STDOUT, text=True)
        files = saved(os.path.join(folder, "out", "incremental"))
        if done.returncode or not files:
            sys.exit(done.stdout + f"module_times: {crate} is not proved")
    took = sorted(((now[0] - before[0], now[1].split("/", 1)[-1]) for before, now in zip(files, files[1:])), reverse=True)
    print(f"{sum(t for t, _ in took):.1f} {crate}: {len(files)} modules")
    for seconds, module in took[: int(sys.argv[2]) if len(sys.argv) == 3 else 20]:
        print(f"{seconds:.2f} {module.removesuffix('.oantt').replace(name, crate)}")


main()
