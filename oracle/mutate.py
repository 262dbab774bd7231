#!/usr/bin/env python3
"""Put faults into a copy of the lifted text, one by one, and see that the cases notice each.

usage: mutate.py [COUNT] [--all] [--jobs N] [--seed N] [--src SRC_DIR]

COUNT   faults to try, drawn at random (default 60); --all tries every one
--jobs  faults tried at a time (default 1)

A fault is noticed where the faulty oracle answers a recorded case otherwise, stops, or does not
end. Faults that cannot be noticed stand in the tables below with the reason. Everything is written
under target/oracle/mutate. Exit status: 0 all noticed, 1 some missed, 3 left out.
"""
import concurrent.futures
import os
import random
import re
import shutil
import subprocess
import sys
import threading

sys.dont_write_bytecode = True  # nothing is written beside the sources
import lift  # noqa: E402

HERE = lift.HERE
WORK = os.path.join(lift.REPO, "target", "oracle", "mutate")
# Recorded cases, with seed and number: a first look, and a second before a fault counts as missed.
CASES = {"quick": (1, 20_000), "deep": (2, 150_000)}

# Functions that no case can reach, and why.
OUTSIDE = {
    "read_8": "reached only where a word straddles a page of the PMMU",
    "write_8": "reached only where a word straddles a page of the PMMU",
    "mmu_page_mask": "reached only with the PMMU on",
    "handle_mmu_fault": "reached only with the PMMU on",
    "MMU_CONFIGURATION_ERROR": "used only with the PMMU on",
    "MMU_ILLEGAL_OPERATION_ERROR": "used only with the PMMU on",
    "is_supervisor": "reached only with the PMMU on",
    "sp": "used by the printout of address errors only",
    "DECODE_TABLE_SIZE": "size of a table that stays None",
    "MAX_FAST_MEM_REGIONS": "size of a table of the batch engine",
    "PCR_060_RESET": "value of a register that is no part of the record",
    "clear_decoded_op_cache": "the table is None already",
}

# Blocks that no case can reach, by what stands in their condition. The condition itself is tried.
ZONES = [
    ("pmmu_enabled", "the PMMU is off"),
    ("mmu_read_override", "None in the domain"),
    ("mmu_write_suppress", "None in the domain"),
    ("M68K_DIAG_ADDRESS_ERROR", "unset where the Rust runs"),
]

# Single faults without an effect: function, a word of the line, how it is changed (None: anyhow), what is
# put there (None: anything), and why nobody can see it.
EQUIVALENT = [
    ("new", "set_cpu_type", "delete", None, "its values stand already; the kind is set afterwards"),
    ("new", "set_cpu_type", "swap", "CpuType::Invalid", "the same"),
    ("set_cpu_type", "clear_execution_pipeline_state", "delete", None, "calls the stub only"),
    ("set_cpu_type", "clear_decoded_op_cache", "delete", None, "the table is None already"),
    ("set_cpu_type", "has_pmmu", None, None, "read only together with pmmu_enabled, which is off"),
    ("set_cpu_type", "M68000 =>", "swap", "CpuType::Invalid", "new left the same masks"),
    ("set_cpu_type", "M68010 =>", "swap", "CpuType::Invalid", "new left the same masks"),
    ("set_cpu_type", "0x00FFFFFF", "delete", None, "new left the same mask"),
    ("set_cpu_type", "0xA71F", "delete", None, "new left the same mask"),
    ("clear_execution_pipeline_state", "break_060_pipeline", "delete", None, "a stub"),
    ("prefetch_read", "trigger_bus_error", "literal", None, "kinds 1 and 2 stack no size"),
    ("read_32", "trigger_bus_error", "literal", None, "any size but 1, 2, 3 is a long"),
    ("write_32", "trigger_bus_error", "literal", None, "any size but 1, 2, 3 is a long"),
    ("get_sr", "t1_flag", "swap", "=", "nothing is set yet"),
    ("jump_vector", "clear_execution_pipeline_state", "delete", None, "calls the stub only"),
    ("service_interrupt", "M68060 &&", "literal", "1", "M is then set to 0, which it was"),
    ("exception_address_error", "was_supervisor =", "swap", "self.get_sr()", "nothing changed yet"),
    ("exception_address_error", "status_word =", "literal", "0x9", "data codes are odd already"),
    ("exception_bus_error", "was_supervisor =", "swap", "self.get_sr()", "nothing changed yet"),
    ("take_exception", "24", "literal", "32", "32 is a trap and stands in the line above"),
    ("set_sr_noint_nosp", "11", "literal", "7", "set_sm_flag_nosp keeps S and M alone"),
]


class Fault:
    """A replacement in the text of one lifted item."""

    def __init__(self, module, index, name, text, start, end, new, how):
        self.module, self.index, self.name, self.how = module, index, name, how
        self.start, self.end, self.new = start, end, new
        a = text.rfind("\n", 0, start) + 1
        b = text.find("\n", end)
        self.line = text[a:b if b >= 0 else len(text)].strip()
        self.after = (text[a:start] + new + text[end:b if b >= 0 else len(text)]).strip()

    def __str__(self):
        short = lambda s: re.sub(r"\s+", " ", s)[:110]
        return "%s: `%s` -> `%s`" % (self.name, short(self.line), short(self.after))


INTEGER = re.compile(r"(?<!\w)(?<![^.]\.)(0x[0-9A-Fa-f_]+|0b[01_]+|\d[\d_]*)(?:u8|u16|u32|usize|i32)?\b")
SWAPS = [
    (r"==", "!="), (r"!=", "=="), (r"&&", "||"), (r"\|\|", "&&"),
    (r"(?<= )>(?= )", ">="), (r"(?<= )>(?= )", "<"), (r"(?<= )<(?= )", "<="),
    (r"(?<= )\|(?= )", "&"), (r"(?<= )&(?= )", "|"), (r"<<", ">>"), (r"(?<= )>>(?= )", "<<"),
    (r"\|=", "="), (r"\|=", "&="), (r"-=", "+="), (r"(?<= )\+(?= )", "-"), (r"(?<= )-(?= )", "+"),
    (r"\bwrapping_sub\b", "wrapping_add"), (r"\bwrapping_add\b", "wrapping_sub"),
    (r"\btrue\b", "false"), (r"\bfalse\b", "true"),
    (r"\bself\.pc\b", "self.ppc"), (r"\bself\.ppc\b", "self.pc"),
    (r"\bnext_pc\b", "self.ppc"), (r"\bold_sr\b", "self.get_sr()"), (r"\bsr2\b", "old_sr"),
    (r"\bpush_16\b(?=\()", "push_16_raw"), (r"\bpush_32\b(?=\()", "push_32_raw"),
    (r"\bpush_16_raw\b(?=\()", "push_16"), (r"\bpush_32_raw\b(?=\()", "push_32"),
    (r"\bfake_push_16_raw\(", "push_16_raw(bus, 0"), (r"\bfake_push_32_raw\(", "push_32_raw(bus, 0"),
    (r"\bCpuType::(?!Invalid)\w+", "CpuType::Invalid"), (r"\bCpuType::M68000\b", "CpuType::M68EC020"),
    (r"\bCpuType::M68060\b", "CpuType::M68040"),
    (r"\bSFLAG_SET\b(?!:)", "0"), (r"\bMFLAG_SET\b(?!:)", "0"),
    (r"\.take\(\)", ""), (r"!(?=[a-z])", ""), (r"\bset_sm_flag\(", "set_sm_flag_nosp("),
    (r"\bset_s_flag\(SFLAG_SET\)", "set_sm_flag_nosp(SFLAG_SET)"),
    (r"\bset_s_flag\(SFLAG_SET\)", "set_sm_flag(SFLAG_SET)"),
    (r"\bSome\(vector\)", "None"), (r"\bmatches!", "!matches!"),
    (r"\.contains\(&vector\)", ".contains(&(vector + 1))"),
    (r"\bself\.is_040\(\)", "self.is_060()"), (r"\bself\.is_060\(\)", "self.is_040()"),
    (r"\bfault_wdata\b(?! =)", "self.pending_fault_wdata"), (r"\bwas_supervisor\b(?! =)", "true"),
    (r"\bself\.mmu_fc_override\.take\(\)", "None::<u8>"),
]
# A statement beginning with one of these binds a name: without it the text does not compile.
KEEP = re.compile(r"(let|use|pub|fn|const|mod|impl)\b|#|\}")
# Calls whose order shows on the bus.
ORDERED = re.compile(r"self\.(fake_)?(push|write|internal_cycles|flush_sync|prefetch_(first|second)|jump)")


def literals(mask):
    for m in INTEGER.finditer(mask):
        text = m.group(1)
        value = int(text.replace("_", ""), 0)
        for new in {value + 1, 0}:
            if new != value and new <= 0xFFFF_FFFF:
                shown = hex(new) if text.startswith("0x") else str(new)
                yield m.start(1), m.end(1), shown


def swapped(mask):
    for pattern, new in SWAPS:
        for m in re.finditer(pattern, mask):
            yield m.start(), m.end(), new


def negated(text, mask):
    """Conditions of `if` and guards of match arms, each turned round."""
    for m in re.finditer(r"\bif\s+(?!let\b)", mask):
        k = m.end()
        while k < len(mask) and mask[k] != "{" and not mask.startswith("=>", k):
            k = lift.closing(mask, k) if mask[k] in "([" else k + 1
        if not re.search(r"\blet\b", mask[m.end():k]):
            yield m.end(), k, "!(" + text[m.end():k].strip() + ") "


def statements(mask):
    """Ranges of statements that end in a semicolon, whole."""
    start = 0
    k = 0
    while k < len(mask):
        c = mask[k]
        if c in "([":
            k = lift.closing(mask, k)
            continue
        if c in "{};":
            body = mask[start:k + 1]
            if c == ";" and body.strip(" \n") != ";":
                yield start + len(body) - len(body.lstrip()), k + 1
            start = k + 1
        k += 1


def deleted(mask):
    for a, b in statements(mask):
        if not KEEP.match(mask[a:b]):
            yield a, b, ""


def reordered(text, mask):
    """Neighbouring calls that show on the bus, exchanged."""
    spans = list(statements(mask))
    for (a, b), (c, d) in zip(spans, spans[1:]):
        one, two = mask[a:b], mask[c:d]
        if one != two and not mask[b:c].strip() and ORDERED.match(one) and ORDERED.match(two):
            yield a, d, text[c:d] + text[b:c] + text[a:b]


def zones(mask, text):
    """Ranges of the blocks that no case can reach."""
    for word, _ in ZONES:
        for m in re.finditer(re.escape(word), text):
            head = text.rfind("if ", 0, m.start())
            brace = mask.find("{", m.end())
            between = mask[head:m.start()]
            if head >= 0 and brace >= 0 and not re.search(r"[;{}]", between):
                if ";" not in mask[m.end():brace]:
                    # After a pattern that never matches the rest of the condition is not read either.
                    start = m.end() if word == "mmu_read_override" else brace
                    yield start, lift.closing(mask, brace)


def function_names(mask):
    """Starts of functions and constants in a whole file, with their names."""
    return [(m.start(), m.group(1)) for m in re.finditer(r"\b(?:fn|const)\s+(\w+)", mask)]


def item_faults(module, index, what, name, text):
    mask = lift.blank(text)
    out = set()
    for how, found in (("literal", literals(mask)), ("swap", swapped(mask)),
                       ("negate", negated(text, mask)), ("delete", deleted(mask)),
                       ("reorder", reordered(text, mask))):
        out.update((a, b, new, how) for a, b, new in found)
    names = function_names(mask)
    unreachable = list(zones(mask, text))
    for a, b, new, how in sorted(out):
        inside = [n for at, n in names if at <= a] or [name]
        if re.match(r"\s*use\b", mask[mask.rfind("\n", 0, a) + 1:]):
            continue
        fault = Fault(module, index, inside[-1], text, a, b, new, how)
        fault.zone = any(s <= a and b <= e for s, e in unreachable)
        yield fault


def every_fault(lifted):
    """All faults of functions and constants that the lifted text uses."""
    whole = "\n".join(lift.blank(t) for _, items in lifted for _, _, t in items)
    for module, items in lifted:
        for index, (what, name, text) in enumerate(items):
            if what in ("enum", "struct", "trait"):
                continue
            for fault in item_faults(module, index, what, name, text):
                # A constant that nothing uses cannot be noticed and is no fault.
                used = len(re.findall(r"\b%s\b" % fault.name, whole)) > 1
                if used or re.search(r"\bfn\s+%s\b" % fault.name, whole):
                    yield fault


def record_fields():
    with open(os.path.join(HERE, "src", "text.rs"), encoding="utf-8") as f:
        return re.search(r"^fields!\(([^)]*)\)", f.read(), re.M).group(1).split()


SEEN = record_fields()


def unseen_field(fault):
    """A value that `new` gives to a field that is no part of the record; set_cpu_type sets masks and kind."""
    m = re.match(r"(\w+): ", fault.line)
    return fault.name == "new" and m is not None and m.group(1) not in SEEN


def matches(row, fault):
    function, word, how, new, _ = row
    return (fault.name == function and word in fault.line and how in (None, fault.how)
            and new in (None, fault.new))


def outside(fault):
    """Whether one of the tables says that nobody can notice it."""
    return (fault.name in OUTSIDE or fault.zone or unseen_field(fault)
            or any(matches(row, fault) for row in EQUIVALENT))


class Bench:
    """One place to build and run faulty copies."""

    def __init__(self, number):
        self.dir = os.path.join(WORK, "bench%d" % number)
        os.makedirs(os.path.join(self.dir, "lifted"), exist_ok=True)
        self.env = dict(os.environ, ORACLE_LIFTED=os.path.join(self.dir, "lifted"),
                        CARGO_TARGET_DIR=os.path.join(self.dir, "target"),
                        CARGO_PROFILE_DEV_OPT_LEVEL="1", CARGO_PROFILE_DEV_DEBUG="0",
                        CARGO_PROFILE_DEV_INCREMENTAL="true", CARGO_TERM_COLOR="never")
        self.oracle = os.path.join(self.dir, "target", "debug", "oracle")

    def build(self, text):
        with open(os.path.join(self.dir, "lifted", "lifted.rs"), "w", encoding="utf-8") as f:
            f.write(text)
        done = subprocess.run(["cargo", "build", "-q", "--offline", "--bin", "oracle", "--manifest-path",
                               os.path.join(HERE, "Cargo.toml")], env=self.env,
                              stdout=subprocess.DEVNULL, stderr=subprocess.PIPE, text=True)
        return done.returncode == 0, done.stderr

    def run(self, *args, limit=120):
        """Output, or None where the program stopped or did not end."""
        try:
            done = subprocess.run([self.oracle, *args], stdout=subprocess.PIPE, text=True,
                                  stderr=subprocess.DEVNULL, timeout=limit)
        except subprocess.TimeoutExpired:
            return None
        return done.stdout if done.returncode == 0 else None


def assembled(lifted, fault=None):
    if fault is None:
        return lift.assemble(lifted)
    copy = []
    for module, items in lifted:
        items = list(items)
        if module == fault.module:
            what, name, text = items[fault.index]
            items[fault.index] = (what, name, text[:fault.start] + fault.new + text[fault.end:])
        copy.append((module, items))
    return lift.assemble(copy)


def attempt(bench, lifted, fault, expected):
    built, _ = bench.build(assembled(lifted, fault))
    if not built:
        return "no"
    if bench.run("tables", limit=20) != expected:
        return "noticed"
    files = [os.path.join(HERE, "examples.txt")] + [os.path.join(WORK, n + ".txt") for n in CASES]
    if any(bench.run("replay", "--first", path) is None for path in files):
        return "noticed"
    return "missed"


def prepare(lifted):
    """The recorded cases and tables, from an oracle without a fault."""
    bench = Bench(0)
    built, errors = bench.build(assembled(lifted))
    if not built:
        print("mutate: error: the oracle does not build\n" + errors)
        sys.exit(1)
    for name, (seed, count) in CASES.items():
        path = os.path.join(WORK, name + ".txt")
        with open(path, "w", encoding="utf-8") as f:
            subprocess.run([bench.oracle, "gen", str(seed), str(count)], stdout=f, check=True)
    return bench.run("tables")


def options(args):
    chosen = {"count": 60, "jobs": 1, "seed": 1, "src": None, "all": False}
    args = list(args)
    while args:
        a = args.pop(0)
        if a == "--all":
            chosen["all"] = True
        elif a in ("--jobs", "--seed", "--src") and args:
            value = args.pop(0)
            chosen[a[2:]] = value if a == "--src" else int(value)
        elif a.isdigit():
            chosen["count"] = int(a)
        else:
            print(__doc__)
            sys.exit(2)
    return chosen


def main(args):
    chosen = options(args)
    src = chosen["src"] or os.path.join(lift.REPO, os.pardir, "shared", "docs", "src")
    if not os.path.isdir(os.path.join(src, "src", "core")) or not shutil.which("cargo"):
        print("mutate: left out: the Rust source or cargo is not there")
        return 3
    lifted = lift.edited(lift.lift(src), lift.EDITS)
    faults = list(every_fault(lifted))
    for row in EQUIVALENT:
        if not any(matches(row, f) for f in faults):
            print("mutate: error: no fault is meant by %s" % (row,))
            return 1
    if not chosen["all"]:
        faults = random.Random(chosen["seed"]).sample(faults, min(chosen["count"], len(faults)))
    tried = [f for f in faults if not outside(f)]
    equivalent = [f for f in faults if outside(f)]
    expected = prepare(lifted)
    benches = [Bench(n) for n in range(chosen["jobs"])]
    free, lock = list(benches), threading.Lock()
    counts = {"noticed": 0, "missed": 0, "no": 0}

    def one(fault):
        with lock:
            bench = free.pop()
        result = attempt(bench, lifted, fault, expected)
        with lock:
            free.append(bench)
            counts[result] += 1
            if result == "missed":
                print("missed %s" % fault, flush=True)

    with concurrent.futures.ThreadPoolExecutor(chosen["jobs"]) as pool:
        list(pool.map(one, tried))
    for name in CASES:
        os.remove(os.path.join(WORK, name + ".txt"))
    print("%d that do not compile are not counted" % counts["no"])
    print("%d faults, %d noticed, %d equivalent, %d missed" % (
        len(equivalent) + counts["noticed"] + counts["missed"], counts["noticed"],
        len(equivalent), counts["missed"]))
    return 1 if counts["missed"] else 0


if __name__ == "__main__":
    sys.exit(main(sys.argv[1:]))
