#!/usr/bin/env python3
"""long.py SOURCE [CASES] [NESTS] [--folder DIR] [--jobs J] [--anew]: a long comparison of the proved code with the Rust at SOURCE.

Builds the oracle, the archive of the proved code and `compare`, then compares CASES generated cases (100,000,000) and NESTS nests
(2,000,000), spread over eight seeds, in steps. After each step it says how far it is, adds a line to DIR/steps.txt
and writes DIR/summary.txt: cases by call and by kind, refusals by number, nests, seeds, differences. Stopped at any time and started
again it goes on with the first step that is not in steps.txt. DIR is target/long. The programs are copied to DIR and run from there; if they
are built otherwise when it is started again, it says so and stops: --anew removes what DIR says of earlier steps and begins again. J is how
many parts are compared at a time (default: the processors). It runs at low priority. Exit status: 0 all agreed; 1 there was a difference, in DIR/differences.txt; 2 it could not go on; 130 it was
stopped.
"""
import argparse
import collections
import fcntl
import hashlib
import json
import os
import re
import shutil
import subprocess
import sys
import time

ROOT = os.path.dirname(os.path.dirname(os.path.abspath(__file__)))
SEEDS = range(1, 9)
# Of `compare`: cases and nests of one part; part K of seed N has the seed N + K * 2^32.
PART = {"cases": 50_000, "nests": 5_000}
# Parts of one step.
PARTS = {"cases": 10, "nests": 4}
OPTION = {"cases": "--count", "nests": "--nests"}
PROGRAMS = {"compare": "target/host/release/compare", "oracle": "target/oracle/release/oracle"}

Step = collections.namedtuple("Step", "what seed part count")


class Failed(Exception):
    pass


def plan(totals):
    """The steps, cases and nests and the seeds by turns, so that a run that is not finished has some of each."""
    steps = []
    for what, total in totals.items():
        size = PART[what] * PARTS[what]
        for place, seed in enumerate(SEEDS):
            count = total // len(SEEDS) + (place < total % len(SEEDS))
            for start in range(0, count, size):
                turn = (start / max(count, 1), what, seed)
                steps.append((turn, Step(what, seed, start // PART[what], min(size, count - start))))
    return [step for _, step in sorted(steps)]


def numbers(text, name):
    """The list `compare: NAME: a 1, b 2` of what compare printed."""
    found = re.search(rf"^compare: {name}: (.*)$", text, re.M)
    return {key: int(value) for key, value in (entry.split() for entry in found[1].split(", "))} if found else {}


def read(step, text):
    """What compare printed of a step, as a line of steps.txt."""
    last = re.search(r"^compare: (\d+) cases, (\d+) differences, seed \d+$", text, re.M)
    lists = re.search(r"^compare: (\d+) lists", text, re.M)
    made = lists if step.what == "nests" else last
    if not last or not made or int(made[1]) != step.count:
        raise Failed(f"compare did not say that it compared {step.count} {step.what}:\n{text}")
    return {**step._asdict(), "cases": int(last[1]), "differences": int(last[2]), "calls": numbers(text, "compared calls"),
            "kinds": numbers(text, "compared kinds"), "refusals": numbers(text, "compared refusals")}


def digest(path):
    with open(path, "rb") as file:
        return hashlib.sha256(file.read()).hexdigest()


def build(source):
    for command in [["oracle/build.sh", source], ["tools/built.sh", "lent"], ["host/build.sh"]]:
        print("long:", " ".join(command), flush=True)
        done = subprocess.run(command, cwd=ROOT, stdout=subprocess.PIPE, stderr=subprocess.STDOUT, text=True)
        if done.returncode != 0:
            raise Failed("\n".join(done.stdout.splitlines()[-20:]) + f"\n{command[0]} failed")


class Run:
    def __init__(self, folder, totals, jobs):
        self.folder, self.totals, self.jobs = folder, totals, jobs
        self.steps = os.path.join(folder, "steps.txt")
        self.done = {}
        self.began, self.made = time.time(), 0

    def open(self, anew):
        """Reads what was done, and takes the programs if they are those that did it."""
        os.makedirs(self.folder, exist_ok=True)
        self.lock = open(os.path.join(self.folder, "lock"), "w")
        try:
            fcntl.flock(self.lock, fcntl.LOCK_EX | fcntl.LOCK_NB)
        except BlockingIOError:
            raise Failed(f"another run is under way in {self.folder}") from None
        built = {name: digest(os.path.join(ROOT, path)) for name, path in PROGRAMS.items()}
        if anew or not os.path.exists(self.steps):
            for name in "differences.txt", "summary.txt":
                if os.path.exists(os.path.join(self.folder, name)):
                    os.remove(os.path.join(self.folder, name))
            with open(self.steps, "w") as file:
                file.write(json.dumps(built) + "\n")
        with open(self.steps) as file:
            first, *lines = file.read().split("\n")
        if json.loads(first) != built:
            raise Failed(f"the proved code, the oracle or compare is another than the one of {self.steps}: --anew begins again")
        for line in lines[:-1]:
            self.add(json.loads(line))
        # A line that was not written whole is left out.
        with open(self.steps, "w") as file:
            file.write("\n".join([first, *lines[:-1]]) + "\n")
        self.built = built
        for name, path in PROGRAMS.items():
            shutil.copy2(os.path.join(ROOT, path), os.path.join(self.folder, name))

    def add(self, line):
        """A step with the same start as an earlier one has more of the same, and takes its place."""
        self.done[line["what"], line["seed"], line["part"]] = line

    def is_done(self, step):
        line = self.done.get((step.what, step.seed, step.part))
        return line is not None and line["count"] >= step.count

    def take(self, step):
        seed = (step.seed + (step.part << 32)) % (1 << 64)
        command = [os.path.join(self.folder, "compare"), "--oracle", os.path.join(self.folder, "oracle"), "--seed", str(seed),
                   OPTION[step.what], str(step.count)] + (["--jobs", str(self.jobs)] if self.jobs else [])
        env = {name: value for name, value in os.environ.items() if name != "M68K_DIAG_ADDRESS_ERROR"}
        done = subprocess.run(command, env=env, capture_output=True, text=True)
        if done.returncode not in (0, 1):
            raise Failed(f"{done.stdout}{done.stderr}compare ended with status {done.returncode}")
        line = read(step, done.stdout)
        if (done.returncode == 1) != (line["differences"] > 0):
            raise Failed(f"compare ended with status {done.returncode} and {line['differences']} differences")
        if line["differences"]:
            with open(os.path.join(self.folder, "differences.txt"), "a") as file:
                file.write(f"# {' '.join(command[3:])}\n{done.stdout}")
        with open(self.steps, "a") as file:
            file.write(json.dumps(line) + "\n")
            file.flush()
            os.fsync(file.fileno())
        self.add(line)

    def sum(self, what, name):
        return sum(line[name] for line in self.done.values() if line["what"] == what)

    def differences(self):
        return self.sum("cases", "differences") + self.sum("nests", "differences")

    def say(self, steps):
        """How far it is; the time left, from the steps made since it was started."""
        left = sum(not self.is_done(step) for step in steps)
        spent = time.time() - self.began
        rest = "" if not self.made else f", about {spent / self.made * left / 60:.0f} min left"
        print("long: " + ", ".join(f"{self.sum(what, 'count'):,} of {total:,} {what}" for what, total in self.totals.items())
              + f", {self.differences()} differences{rest}", flush=True)

    def summary(self):
        seeds = sorted({line["seed"] for line in self.done.values()})
        text = ["The proved code, through the exported call, against the Rust: tools/long.py",
                f"differences: {self.differences()}", "seeds: " + ", ".join(map(str, seeds)),
                *(f"sha256 of {name}: {value}" for name, value in sorted(self.built.items()))]
        for what, total in self.totals.items():
            text += ["", f"{what}: {self.sum(what, 'count'):,} of {total:,}"]
            if what == "nests":
                text += [f"  cases in them: {self.sum(what, 'cases'):,}"]
            for title, name in ("call", "calls"), ("kind", "kinds"), ("refusal", "refusals"):
                tally = collections.Counter()
                for line in self.done.values():
                    tally.update(line[name] if line["what"] == what else {})
                order = sorted(tally.items(), key=lambda entry: (not entry[0].isdigit(), int(entry[0]) if entry[0].isdigit() else entry[0]))
                text += [f"  by {title} ({len(order)}):", *(f"    {key:32}{value:>14,}" for key, value in order)]
        path = os.path.join(self.folder, "summary.txt")
        with open(path + ".part", "w") as file:
            file.write("\n".join(text) + "\n")
        os.replace(path + ".part", path)

    def go(self):
        steps = plan(self.totals)
        self.say(steps)
        for step in steps:
            if not self.is_done(step):
                self.take(step)
                self.made += 1
                self.summary()
                self.say(steps)
        self.summary()
        print(f"long: done, {self.differences()} differences; {os.path.join(self.folder, 'summary.txt')}")
        return 1 if self.differences() else 0


def main():
    usage = __doc__.split(": ")[0]
    parser = argparse.ArgumentParser(usage=usage, description=__doc__, formatter_class=argparse.RawDescriptionHelpFormatter)
    parser.add_argument("source")
    parser.add_argument("cases", type=int, nargs="?", default=100_000_000)
    parser.add_argument("nests", type=int, nargs="?", default=2_000_000)
    parser.add_argument("--folder", default=os.path.join(ROOT, "target/long"))
    parser.add_argument("--jobs", type=int)
    parser.add_argument("--anew", action="store_true")
    options = parser.parse_args()
    if min(options.cases, options.nests) < 0 or (options.jobs is not None and options.jobs < 1):
        parser.error("a number is too small")
    os.nice(10)
    try:
        build(os.path.abspath(options.source))
        run = Run(os.path.abspath(options.folder), {"cases": options.cases, "nests": options.nests}, options.jobs)
        run.open(options.anew)
        return run.go()
    except (Failed, OSError) as error:
        print(f"long: {error}", file=sys.stderr)
        return 2
    except KeyboardInterrupt:
        print("\nlong: stopped; the same command goes on", file=sys.stderr)
        return 130


if __name__ == "__main__":
    sys.exit(main())
