#!/usr/bin/env python3
"""Tests of ./run in a folder of its own, with a stand-in for rt, cargo and host/build.sh: what it builds and when, what it prints where,
what it says to a wrong call. Nothing is proved or compiled."""
import os
import shutil
import subprocess
import tempfile
import time
import unittest

ROOT = os.path.dirname(os.path.dirname(os.path.abspath(__file__)))

RT = """#!/bin/sh
[ $1 = version ] || in=" in $(basename "$PWD")"
echo "rt $*$in" >>"$CALLS"
[ $1 = version ] || cat >/dev/null
case $1 in
version) cat "$KIT" ;;
run)
    [ ! -f "$CALLS.fail" ] || { echo "rt: the library types did not build, so nothing above it was checked"; exit 1; }
    echo "fn types::kept: proved" >&2
    echo "library cpu: modules loaded=175 checked=0" >&2
    echo "crate types: modules loaded=2 checked=4" >&2
    echo "logic=proved functions=13" >&2
    echo "crate session: modules loaded=2 checked=4" >&2
    echo "logic=proved functions=3" >&2
    [ ! -f "$CALLS.edit" ] || { sleep 0.05; echo more >>src/main.rt; }
    mkdir -p out ../types/out/rlib
    printf '#!/bin/sh\\necho printed\\ncat\\n' >out/session
    chmod +x out/session ;;
lib)
    mkdir -p out
    echo "archive" >out/liblent.a
    echo "crate lent: modules loaded=2 checked=4"
    echo "logic=proved functions=9" ;;
esac
"""

BUILD = """#!/bin/sh
echo "build" >>"$CALLS"
cat >/dev/null
mkdir -p target/host/release
printf '#!/bin/sh\\n[ ! -f "$CALLS.spoil" ] || exit 1\\necho "show $*"\\ncat\\n' >target/host/release/show
chmod +x target/host/release/show
"""


class Run(unittest.TestCase):
    def setUp(self):
        self.folder = tempfile.mkdtemp()
        self.addCleanup(shutil.rmtree, self.folder)
        self.root = os.path.join(self.folder, "tree")
        self.calls = os.path.join(self.folder, "calls")
        self.kit = self.write("kit", "kit 1\n")
        self.write("tree/crates/session/src/main.rt", "main\n")
        self.write("tree/crates/types/src/lib.rt", "lib\n")
        self.write("tree/crates/lent/src/lib.rt", "lib\n")
        self.write("tree/crates.txt", "# crates: three\ntypes:\nlent staticlib: types\nsession: types anyhow\n")
        self.write("tree/host/build.sh", BUILD.replace("mkdir", 'cd "$(dirname "$0")/.." || exit 1\nmkdir'), 0o755)
        self.write("tree/host/afternoon/session.txt", "kind 2\n")
        self.write("tree/host/afternoon/words.txt", "a kind\n")
        shutil.copy(os.path.join(ROOT, "run"), self.root)
        self.write("tree/toolchain", "kit 1\n")
        os.mkdir(os.path.join(self.root, "tools"))
        shutil.copy(os.path.join(ROOT, "tools/toolchain.sh"), os.path.join(self.root, "tools"))
        self.write("bin/rt", RT, 0o755)
        self.write("bin/cargo", "#!/bin/sh\n", 0o755)
        self.session = self.write("my session.txt", "ret\n")

    def write(self, name, text, mode=0o644):
        path = os.path.join(self.folder, name)
        os.makedirs(os.path.dirname(path), exist_ok=True)
        with open(path, "w") as file:
            file.write(text)
        os.chmod(path, mode)
        return path

    def run_it(self, *arguments, stdin=""):
        """The exit status, standard output, standard error, and the calls made besides `rt version`."""
        open(self.calls, "w").close()
        env = {"PATH": os.path.join(self.folder, "bin") + ":/usr/bin:/bin", "CALLS": self.calls, "KIT": self.kit}
        done = subprocess.run([os.path.join(self.root, "run"), *arguments], input=stdin, env=env, cwd=self.folder,
                              capture_output=True, text=True)
        with open(self.calls) as file:
            calls = [line.strip() for line in file if line != "rt version\n"]
        return done.returncode, done.stdout, done.stderr, calls

    ALL = ["rt run in session", "rt lib in lent", "build"]

    def test_first_run_builds_and_says_so(self):
        code, out, err, calls = self.run_it()
        self.assertEqual((code, calls), (0, self.ALL))
        afternoon = os.path.join(self.root, "host/afternoon/")
        program = os.path.join(self.root, "crates/session/out/session")
        self.assertTrue(out.startswith(f"show --program {program} --words {afternoon}words.txt {afternoon}session.txt\n"), out)
        self.assertIn("docs/SESSION.md", out)
        for said in ["first run", "minutes for the session program and", "for what shows it", "types proved, of 2 crates", "session proved, of 2 crates", "lent proved, of 2 crates",
                     "stage 1 of 3", "stage 2 of 3", "stage 3 of 3"]:
            self.assertIn(said, err)
        self.assertNotIn("library", err)
        self.assertNotIn("cpu", err)

    def test_later_runs_build_nothing(self):
        self.run_it()
        began = time.time()
        code, out, err, calls = self.run_it()
        self.assertLess(time.time() - began, 1)
        self.assertEqual((code, err, calls), (0, "", []))
        self.assertIn("show --program", out)

    def test_what_changed_is_built_anew(self):
        self.run_it()
        time.sleep(0.05)
        self.write("tree/host/src.rs", "x")
        self.assertEqual(self.run_it()[3], self.ALL[2:])
        time.sleep(0.05)
        self.write("tree/crates/types/src/lib.rt", "changed\n")
        self.assertEqual(self.run_it()[3], self.ALL)
        time.sleep(0.05)
        self.write("tree/crates.txt", "types:\nlent staticlib: types\nsession: types\n")
        self.assertEqual(self.run_it()[3], self.ALL)
        self.assertEqual(self.run_it()[3], [])

    def test_an_old_time_does_not_hide_a_change(self):
        self.run_it()
        time.sleep(0.05)
        os.utime(self.write("tree/crates/types/src/lib.rt", "old\n"), (1, 1))
        self.assertEqual(self.run_it()[3], self.ALL)

    def test_what_is_removed_is_noticed(self):
        self.run_it()
        time.sleep(0.05)
        os.remove(os.path.join(self.root, "crates/types/src/lib.rt"))
        self.assertEqual(self.run_it()[3], self.ALL)
        os.remove(os.path.join(self.root, "crates/session/out/session"))
        self.assertEqual(self.run_it()[3], self.ALL[:1])
        os.remove(os.path.join(self.root, "target/host/release/show"))
        self.assertEqual(self.run_it()[3], self.ALL[2:])
        os.remove(os.path.join(self.root, "crates/lent/out/liblent.a"))
        self.assertEqual(self.run_it()[3], self.ALL[1:])

    def test_another_toolchain_builds_anew(self):
        self.run_it()
        self.write("kit", "kit 2\n")
        self.assertEqual(self.run_it()[3], self.ALL)

    def test_another_toolchain_is_told(self):
        self.write("kit", "kit 2\n")
        for _ in "first run", "later run":
            code, _, err, _ = self.run_it("--raw", self.session)
            first = err.splitlines()[0]
            self.assertEqual((code, err.count("warning")), (0, 1))
            self.assertIn("warning: rt is 'kit 2'", first)
            self.assertIn("'kit 1'", first)

    def test_a_change_while_building_is_noticed(self):
        edit = self.write("calls.edit", "")
        self.run_it("--raw")
        os.remove(edit)
        self.assertEqual(self.run_it("--raw")[3], self.ALL[:1])
        self.assertEqual(self.run_it("--raw")[3], [])

    def test_a_failure_is_told_and_tried_again(self):
        fail = self.write("calls.fail", "")
        code, out, err, calls = self.run_it()
        self.assertEqual((code, out, calls), (1, "", self.ALL[:1]))
        self.assertIn("run:   the library types did not build", err)
        os.remove(fail)
        self.assertEqual(self.run_it()[3], self.ALL)

    def test_raw_prints_what_the_program_prints(self):
        code, out, err, calls = self.run_it("--raw", self.session)
        self.assertEqual((code, out, calls), (0, "printed\nret\n", self.ALL[:1]))
        self.assertIn("stage 1 of 1", err)
        self.assertIn("session proved", err)
        self.assertNotIn("what shows", err)
        self.assertEqual(self.run_it("--raw")[:3], (0, "printed\nkind 2\n", ""))
        self.assertEqual(self.run_it("--raw", "my session.txt")[1], "printed\nret\n")

    def test_standard_input_is_the_sessions_even_if_it_builds(self):
        self.assertEqual(self.run_it("--raw", "-", stdin="walk 1\n")[1], "printed\nwalk 1\n")
        out = self.run_it("-", stdin="walk 1\n")[1]
        self.assertTrue(out.endswith("session -\nwalk 1\n"), out)

    def test_a_session_of_ones_own_has_its_words(self):
        self.assertNotIn("--words", self.run_it(self.session)[1])
        self.write("my session.txt.words", "mine\n")
        self.assertIn("--words my session.txt.words my session.txt", self.run_it("my session.txt")[1])

    def test_without_cargo(self):
        os.remove(os.path.join(self.folder, "bin/cargo"))
        code, out, err, calls = self.run_it("--html", "page.html", self.session)
        self.assertEqual((code, out, calls, os.path.exists(os.path.join(self.folder, "page.html"))), (1, "", [], False))
        self.assertIn("needs cargo", err)
        code, out, err, calls = self.run_it(self.session)
        self.assertEqual((code, out, calls), (0, "printed\nret\n", self.ALL[:1]))
        self.assertIn("needs cargo", err)

    def test_without_rt(self):
        os.remove(os.path.join(self.folder, "bin/rt"))
        code, out, err, calls = self.run_it()
        self.assertEqual((code, out, calls), (1, "", []))
        self.assertIn("rt, the Rattle toolchain, is not there", err)
        self.assertEqual(self.run_it("--help")[0], 0)

    def test_a_page_is_written_whole_or_not(self):
        page = os.path.join(self.folder, "page.html")
        code, out, err, _ = self.run_it("--html", "page.html", self.session)
        self.assertEqual((code, out), (0, ""))
        with open(page) as file:
            text = file.read()
        self.assertIn("--page " + self.session, text)
        self.assertIn("written: page.html", err)
        self.write("calls.spoil", "")
        self.assertEqual(self.run_it("--html", "page.html", self.session)[0], 1)
        with open(page) as file:
            self.assertEqual(file.read(), text)
        self.assertFalse(os.path.exists(page + ".part"))

    def test_wrong_calls(self):
        for wrong in (["--no"], ["/no/such/file"], [self.folder], ["a", "b"], ["--html"], ["--html", "/no/such/folder/x"],
                      ["--html", self.folder], ["--raw", "--no"], ["--raw", "/no/such/file"], ["--html", "x", "/no/such/file"]):
            code, out, err, calls = self.run_it(*wrong)
            self.assertEqual((code, out, calls), (2, "", []), wrong)
            self.assertIn("--help", err)

    def test_help(self):
        code, out, err, calls = self.run_it("--help")
        self.assertEqual((code, err, calls), (0, "", []))
        for command in ["kind n", "pc h", "ppc h", "a7 h", "long a v", "exc h", "trap h", "irq n", "walk n", "ret"]:
            self.assertIn(command, out)


if __name__ == "__main__":
    unittest.main()
