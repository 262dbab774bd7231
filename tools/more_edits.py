#!/usr/bin/env python3
"""more_edits.py [CRATE ..]: tries the edits that ./test leaves out for time, crates/CRATE/must-fail-long/*.edit, of all crates or of those named.

They are written as those of must-fail/ are, and `rt must-fail` tries them, in a copy of the tree where they stand in its place; first `rt check`
says that each crate is proved as it stands. What is kept of a proof is not proved again. Exit status: 0 where every edit is refused; 2 a
wrong call; else one is not refused or bad, or a crate is not proved.
"""
import os
import shutil
import subprocess
import sys
import tempfile

ROOT = os.path.dirname(os.path.dirname(os.path.abspath(__file__)))
CRATES = os.path.join(ROOT, "crates")


def main():
    there = sorted(c for c in os.listdir(CRATES) if os.path.isdir(os.path.join(CRATES, c, "must-fail-long")))
    wanted = sys.argv[1:] or there
    for name in wanted:
        if name not in there:
            sys.stderr.write(f"more_edits: {name} has no edits that are left out; those with some: {' '.join(there)}\n")
            sys.exit(2)
    with tempfile.TemporaryDirectory() as room:
        copy = os.path.join(room, "crates")
        shutil.copytree(CRATES, copy, ignore=shutil.ignore_patterns("out", "must-fail", "must-fail-long"))
        shutil.copy(os.path.join(ROOT, "crates.txt"), room)
        for crate in wanted:
            done = subprocess.run(["rt", "check"], cwd=os.path.join(copy, crate), stdout=subprocess.PIPE, stderr=subprocess.STDOUT, text=True)
            if done.returncode:
                sys.exit(done.stdout + f"more_edits: {crate} is not proved as it stands")
        for crate in wanted:
            shutil.copytree(os.path.join(CRATES, crate, "must-fail-long"), os.path.join(copy, crate, "must-fail"))
        sys.exit(subprocess.run(["rt", "must-fail", *wanted], cwd=room).returncode)


main()
