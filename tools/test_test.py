#!/usr/bin/env python3
"""Tests of ./test in a folder of its own, with a stand-in for rt, cargo and every tool: what it calls in which order, what it says, its
last line and its exit status. Nothing is proved or compared."""
import os
import shutil
import subprocess
import tempfile
import unittest

ROOT = os.path.dirname(os.path.dirname(os.path.abspath(__file__)))

# Says how it was called; fails if the file CALLS.fail names it.
TOOL = """#!/bin/sh
call="$(basename "$0")${1:+ $*}${SESSION:+ with $SESSION}"
echo "$call" >>"$CALLS"
[ ! -f "$CALLS.fail" ] || [ "$(cat "$CALLS.fail")" != "$call" ] || { echo "it failed"; exit 7; }
"""
RT = TOOL + """case $1 in
version) cat "$KIT" ;;
ci) echo "rt: types proved (1 s)"; cat "$CI" ;;
all) echo "1 of 1 crates ok" ;;
esac
"""
TOOLS = ["generate.py", "drawing.py", "crossings.py", "assurance.py", "reference.py", "manuals.py", "run_test.py", "test_test.py", "long_test.py", "programs.sh",
         "sample.sh", "sessions.sh", "compare.sh"]
FIRST = ["generate.py --check", "drawing.py --check", "crossings.py --most 85", "assurance.py --check",
         "reference.py --check", "manuals.py --check", "run_test.py", "test_test.py", "long_test.py"]

OK = "rt: ok; handles allowed: none; must-fail edits: 9 refused, 1 of them only by a limit; every proof and must-fail edit was done in this run\n"


def compared(sessions, count, lists):
    source = "../rust"
    return [f"sample.sh {source} --check", f"sessions.sh {source} --check", f"sessions.sh {source} 5 {sessions} with crates/session/out/session",
            f"compare.sh {source} 5 {count} {lists}"]


class Test(unittest.TestCase):
    def setUp(self):
        self.folder = tempfile.mkdtemp()
        self.addCleanup(shutil.rmtree, self.folder)
        self.calls = os.path.join(self.folder, "calls")
        self.kit = self.write("kit", "kit 1\n")
        self.ci = self.write("ci", OK + "12 passed, 0 failed\n")
        self.write("tree/toolchain", "kit 1\n")
        self.write("rust/lib.rs", "")
        for name in TOOLS:
            self.write("tree/tools/" + name, TOOL, 0o755)
        shutil.copy(os.path.join(ROOT, "test"), os.path.join(self.folder, "tree"))
        shutil.copy(os.path.join(ROOT, "tools/toolchain.sh"), os.path.join(self.folder, "tree/tools"))
        self.write("bin/rt", RT, 0o755)
        self.write("bin/cargo", "#!/bin/sh\n", 0o755)

    def write(self, name, text, mode=0o644):
        path = os.path.join(self.folder, name)
        os.makedirs(os.path.dirname(path), exist_ok=True)
        with open(path, "w") as file:
            file.write(text)
        os.chmod(path, mode)
        return path

    def call(self, *arguments, **variables):
        """The exit status, the lines of standard output, standard error, and the calls made besides `rt version`."""
        open(self.calls, "w").close()
        env = {"PATH": os.path.join(self.folder, "bin") + ":/usr/bin:/bin", "CALLS": self.calls, "KIT": self.kit, "CI": self.ci,
               "TMPDIR": os.path.join(self.folder, "bin"), "COMPARE_SEED": "5", "M68K_SOURCE": "../rust", **variables}
        done = subprocess.run([os.path.join(self.folder, "tree/test"), *arguments], env=env, cwd=self.folder, capture_output=True,
                              text=True, stdin=subprocess.DEVNULL)
        with open(self.calls) as file:
            calls = [line.strip() for line in file if line != "rt version\n"]
        self.assertEqual(sorted(os.listdir(os.path.join(self.folder, "bin"))), self.programs(), "a file was left")
        return done.returncode, done.stdout.splitlines(), done.stderr, calls

    def programs(self):
        return [name for name in ["cargo", "rt"] if os.path.exists(os.path.join(self.folder, "bin", name))]

    def test_the_whole_test(self):
        code, out, err, calls = self.call()
        self.assertEqual((code, err, calls), (0, "", FIRST + ["rt ci"] + compared(20000, 1000000, 200000)))
        self.assertRegex(out[0], r"^test: on four processors this takes about \d+ minutes.*; 11 stages, seed 5$")
        stages = [line for line in out if line.startswith("test: stage ")]
        for number, line in enumerate(stages):
            self.assertRegex(line, rf"^test: stage {number + 1} of 11: .+ \({number} passed, 0 min \d+ s\)$")
        self.assertEqual(len(stages), 11)
        self.assertIn("rt: types proved (1 s)", out)
        self.assertEqual(out.count("12 passed, 0 failed"), 2)
        self.assertEqual(out[-1], "12 passed, 0 failed")
        self.assertRegex(out[-2], "^test: all 11 stages passed")

    def test_quick(self):
        code, out, err, calls = self.call("--quick")
        self.assertEqual((code, err, calls), (0, "", FIRST + ["rt all check", "programs.sh"] + compared(2000, 100000, 10000)))
        self.assertRegex(out[0], r"^test: on four processors this takes about \d+ minutes, .*; 11 stages, seed 5$")
        self.assertIn("edits that must fail were left out", out[-1])
        self.assertNotIn(" 0 failed", out[-1])

    def test_numbers_of_ones_own(self):
        numbers = {"COMPARE_COUNT": "3", "COMPARE_LISTS": "0", "COMPARE_SESSIONS": "1"}
        for arguments in [], ["--quick"]:
            self.assertEqual(self.call(*arguments, **numbers)[3][-4:], compared(1, 3, 0))

    def test_every_failure_is_a_failure(self):
        for arguments in [], ["--quick"]:
            every = self.call(*arguments)[3]
            for at, call in enumerate(every):
                self.write("calls.fail", call)
                code, out, err, calls = self.call(*arguments)
                self.assertEqual((code, calls), (7, every[:at + 1]), call)
                self.assertRegex(err, r"^test: FAILED in stage \d+ of 11, ")
                self.assertNotRegex(out[-1], "passed, 0 failed|quick test passed")
                os.remove(os.path.join(self.folder, "calls.fail"))

    def test_rt_ci_ends_with_its_count(self):
        for last in "", "11 passed, 1 failed\n", "rt: done\n":
            self.write("ci", OK + last)
            code, _, err, calls = self.call()
            self.assertEqual((code, calls[-1]), (1, "rt ci"), last)
            self.assertIn("FAILED in stage 7 of 11", err)

    def test_rt_ci_refuses_every_edit(self):
        for told in "", "rt: ok; handles allowed: none; every proof was done in this run\n", OK.replace("limit", "limit, 2 bad"), OK.replace("9 ", "0 "), \
                OK.replace(", 1 of them only by a limit", ", 1 bad"):
            self.write("ci", told + "12 passed, 0 failed\n")
            code, _, err, calls = self.call()
            self.assertEqual((code, calls[-1]), (1, "rt ci"), told)
            self.assertIn("FAILED in stage 7 of 11", err)

    def test_what_is_left_out_is_told(self):
        def left_out(word, **variables):
            code, out, err, calls = self.call(**variables)
            self.assertEqual((code, err, calls), (0, "", FIRST + ["rt ci"]))
            said = [at for at, line in enumerate(out) if line.startswith("test: left out: ") and word in line]
            self.assertEqual(said, [1, len(out) - 2])
            self.assertEqual(out[-1], "12 passed, 0 failed")
        left_out("/no/such/folder", M68K_SOURCE="/no/such/folder")
        os.remove(os.path.join(self.folder, "bin/cargo"))
        left_out("cargo")

    def test_another_toolchain_is_told(self):
        self.write("kit", "kit 2\n")
        for arguments in [], ["--quick"]:
            code, out, _, calls = self.call(*arguments)
            self.assertEqual((code, len(calls)), (0, 15 if arguments else 14))
            said = [at for at, line in enumerate(out) if "warning" in line and "kit 1" in line and "kit 2" in line]
            self.assertEqual(said, [1, len(out) - 2])

    def test_without_rt(self):
        os.remove(os.path.join(self.folder, "bin/rt"))
        code, out, err, calls = self.call()
        self.assertEqual((code, out, calls), (1, [], []))
        self.assertIn("rt, the Rattle toolchain, is not there", err)

    def test_wrong_calls(self):
        for wrong in ["--no"], ["quick"], [""], ["--quick", "--quick"], ["--quick", "x"]:
            code, out, err, calls = self.call(*wrong)
            self.assertEqual((code, out, calls), (2, [], []), wrong)
            self.assertIn("--help", err)
        for name in "COMPARE_COUNT", "COMPARE_LISTS", "COMPARE_SESSIONS", "COMPARE_SEED":
            code, out, err, calls = self.call(**{name: "1e6"})
            self.assertEqual((code, out, calls), (2, [], []), name)
            self.assertIn("1e6", err)

    def test_help(self):
        for option in "--help", "-h":
            code, out, err, calls = self.call(option)
            self.assertEqual((code, err, calls), (0, "", []))
            for word in ["--quick", "--help", "M68K_SOURCE", "COMPARE_COUNT", "COMPARE_LISTS", "COMPARE_SESSIONS", "COMPARE_SEED"]:
                self.assertIn(word, "\n".join(out))


if __name__ == "__main__":
    unittest.main()
