#!/usr/bin/env python3
"""Tests of long.py in a folder of its own, with a stand-in for what it builds and for compare: that each case is compared once however
often it is stopped, and what it says of differences and failures. Nothing is built or compared."""
import os
import shutil
import subprocess
import sys
import tempfile
import unittest

TOOLS = os.path.dirname(os.path.abspath(__file__))

BUILD = """#!/bin/sh
echo "$(basename $(dirname "$0")) $*" >>"$CALLS"
[ ! -f "$CALLS.unbuilt" ] || { echo "it failed"; exit 3; }
"""
# Prints what compare prints of so many cases: `--oracle PROGRAM --seed N --count M`.
COMPARE = """#!/bin/sh
[ ! -f "$CALLS.stop" ] || [ $(wc -l <"$CALLS") -lt $(cat "$CALLS.stop") ] || { echo "compare: error: stopped" >&2; exit 2; }
echo "compare $4 $5 $6" >>"$CALLS"
differences=0
[ ! -f "$CALLS.differ" ] || [ "$(cat "$CALLS.differ")" != $4 ] || differences=1
[ $differences = 0 ] || echo "difference 1"
echo "compare: compared calls: return 1, trap $(($6 - 1))"
echo "compare: compared kinds: 10 $(($6 - 2)), 2 2"
echo "compare: compared refusals: 12 3"
[ $5 = --count ] || echo "compare: $6 lists, each walk and return held to its book"
[ -f "$CALLS.short" ] || echo "compare: $6 cases, $differences differences, seed $4"
exit $differences
"""


class Long(unittest.TestCase):
    def setUp(self):
        self.folder = tempfile.mkdtemp()
        self.addCleanup(shutil.rmtree, self.folder)
        self.calls = os.path.join(self.folder, "calls")
        self.write("calls", "")
        for name in "tree/oracle/build.sh", "tree/host/build.sh", "tree/tools/built.sh":
            self.write(name, BUILD, 0o755)
        self.write("tree/target/host/release/compare", COMPARE, 0o755)
        self.write("tree/target/oracle/release/oracle", "", 0o755)
        shutil.copy(os.path.join(TOOLS, "long.py"), os.path.join(self.folder, "tree/tools"))

    def write(self, name, text, mode=0o644):
        path = os.path.join(self.folder, name)
        os.makedirs(os.path.dirname(path), exist_ok=True)
        with open(path, "w") as file:
            file.write(text)
        os.chmod(path, mode)
        return path

    def read(self, name):
        with open(os.path.join(self.folder, "tree/target/long", name)) as file:
            return file.read()

    def call(self, *arguments):
        """The exit status, what it printed on both, and the steps that it made: seed, option and count."""
        self.write("calls", "")
        env = {"PATH": os.path.join(self.folder, "bin") + ":/usr/bin:/bin", "CALLS": self.calls}
        done = subprocess.run([sys.executable, os.path.join(self.folder, "tree/tools/long.py"), *arguments], env=env, cwd=self.folder,
                              stdout=subprocess.PIPE, stderr=subprocess.STDOUT, text=True)
        with open(self.calls) as file:
            lines = [line.split() for line in file]
        steps = [(int(seed), option, int(count)) for name, seed, option, count in (line for line in lines if line[0] == "compare")]
        return done.returncode, done.stdout, steps

    def test_what_is_compared(self):
        code, out, steps = self.call("rust", "8400001", "168000")
        self.assertEqual(code, 0, out)
        self.assertEqual(len(steps), len(set(steps)))
        of_seed = {seed: [] for seed in range(1, 9)}
        for seed, option, count in steps:
            of_seed[seed % 2**32].append((option, seed >> 32, count))
        for seed, made in of_seed.items():
            rest = 50_001 if seed == 1 else 50_000
            self.assertEqual(sorted(made), [("--count", 0, 500_000), ("--count", 10, 500_000), ("--count", 20, rest),
                                            ("--nests", 0, 20_000), ("--nests", 4, 1_000)])
        summary = " ".join(self.read("summary.txt").split())
        for said in ["differences: 0", "seeds: 1, 2, 3, 4, 5, 6, 7, 8", "cases: 8,400,001 of 8,400,001", "return 24 trap 8,399,977",
                     "2 48 10 8,399,953", "by refusal (1): 12 72", "nests: 168,000 of 168,000", "return 16 trap 167,984"]:
            self.assertIn(said, summary)
        self.assertIn("long: done, 0 differences", out)

    def test_it_goes_on_where_it_was_stopped(self):
        whole = self.call("rust", "9000000", "100000")[2]
        expected = self.read("summary.txt")
        self.call("rust", "0", "0", "--anew")
        made = []
        for start in range(20):
            # The three programs that it builds are calls too, and five steps are made.
            self.write("calls.stop", "8")
            code, out, steps = self.call("rust", "9000000", "100000")
            made += steps
            if code == 0:
                break
            self.assertEqual((code, len(steps)), (2, 5))
            self.assertIn("stopped", out)
            with open(os.path.join(self.folder, "tree/target/long/steps.txt"), "a") as file:
                file.write('{"what": "cas' if start == 1 else "")
        self.assertEqual((code, made), (0, whole))
        self.assertEqual(self.read("summary.txt"), expected)
        self.assertEqual(self.call("rust", "9000000", "100000")[2], [])

    def test_more_than_before_counts_nothing_twice(self):
        self.call("rust", "800000", "8000")
        self.call("rust", "8000000", "80000")
        summary = self.read("summary.txt")
        self.assertIn("\ncases: 8,000,000 of 8,000,000\n", summary)
        self.assertIn("\nnests: 80,000 of 80,000\n", summary)

    def test_a_difference_is_told(self):
        self.write("calls.differ", "3")
        code, out, steps = self.call("rust", "800000", "8000")
        self.assertEqual((code, len(steps)), (1, 16))
        self.assertIn("long: done, 2 differences", out)
        self.assertIn("differences: 2\n", self.read("summary.txt"))
        self.assertIn("# --seed 3 --count 100000\ndifference 1\n", self.read("differences.txt"))
        # It is still told when nothing is left to compare.
        self.assertEqual(self.call("rust", "800000", "8000")[::2], (1, []))

    def test_other_programs_begin_anew(self):
        self.call("rust", "800000", "8000")
        for name in "host/release/compare", "oracle/release/oracle":
            with open(os.path.join(self.folder, "tree/target", name), "a") as file:
                file.write("# other\n")
            code, out, steps = self.call("rust", "800000", "8000")
            self.assertEqual((code, steps), (2, []))
            self.assertIn("--anew", out)
            code, _, steps = self.call("rust", "800000", "8000", "--anew")
            self.assertEqual((code, len(steps)), (0, 16))

    def test_failures(self):
        self.write("calls.short", "")
        code, out, _ = self.call("rust", "800000", "8000")
        self.assertEqual(code, 2)
        self.assertIn("did not say", out)
        self.write("calls.unbuilt", "")
        code, out, steps = self.call("rust", "800000", "8000")
        self.assertEqual((code, steps), (2, []))
        self.assertIn("failed", out)

    def test_wrong_calls(self):
        for wrong in [], ["rust", "x"], ["rust", "-1"], ["rust", "1", "1", "1"], ["rust", "--no"], ["rust", "--jobs", "0"]:
            self.assertEqual(self.call(*wrong)[::2], (2, []), wrong)


if __name__ == "__main__":
    unittest.main()
