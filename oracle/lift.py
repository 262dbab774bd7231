#!/usr/bin/env python3
"""Lift the taken items of the Rust crate, by name and unchanged but for the named edits below, into one generated file.

usage: lift.py [--record] [SRC_DIR [OUT_FILE]]

SRC_DIR   folder that holds src/core/*.rs (default: ../shared/docs/src beside the repository)
OUT_FILE  generated file (default: target/oracle/lifted/lifted.rs in the repository)
--record  rewrite LIFTED.txt; without it a difference from LIFTED.txt is an error

Exit status: 0 done, 1 the source is not what LIFTED.txt says, 3 the source is not there.
The generated file holds text of the crate: it belongs in the build folder, never in the repository.
"""
import hashlib
import os
import re
import sys

HERE = os.path.dirname(os.path.abspath(__file__))
REPO = os.path.dirname(HERE)
LIST = os.path.join(HERE, "LIFTED.txt")
STUBS = os.path.join(HERE, "src", "stubs.rs")

# What is taken. "file" is a whole file; "fn" is a function of `impl CpuCore`.
TAKEN = [
    ("types", [("enum", "CpuType")]),
    ("memory", [
        ("enum", "BusFaultKind"), ("struct", "BusFault"), ("struct", "FastMem"),
        ("const", "MAX_FAST_MEM_REGIONS"), ("struct", "FastMemRegion"),
        ("struct", "TrackedMem"), ("trait", "AddressBus"),
    ]),
    ("op_cache", [("const", "DECODE_TABLE_SIZE"), ("fn", "clear_decoded_op_cache")]),
    ("cpu", [
        ("const", "XFLAG_SET"), ("const", "NFLAG_SET"), ("const", "VFLAG_SET"),
        ("const", "CFLAG_SET"), ("const", "SFLAG_SET"), ("const", "MFLAG_SET"),
        ("const", "PCR_060_RESET"), ("struct", "CpuCore"),
    ] + [("fn", name) for name in """
        new set_cpu_type sp_index backup_sp restore_sp set_s_flag set_sm_flag
        set_sm_flag_nosp prefetch_enabled clear_execution_pipeline_state internal_cycles
        flush_sync prefetch_read prefetch_first prefetch_second sp is_040 is_060 address
        faulted trigger_address_error trigger_bus_error mmu_page_mask read_8 read_16
        read_32 write_8 write_16 write_32 handle_mmu_fault get_sr set_sr_noint_nosp
        set_ccr_internal is_supervisor
    """.split()]),
    ("execute", [("const", "STOP_LEVEL_STOP"), ("const", "RUN_MODE_BERR_AERR_RESET")]
     + [("fn", name) for name in """
        push_16 push_32 jump_vector check_and_service_interrupts iack_vector
        service_interrupt
    """.split()]),
    ("exceptions", [("file", "exceptions.rs")]),
    ("interrupts", [("file", "interrupts.rs")]),
]

# Names that a module of the generated file needs from its neighbours. Whole files bring their own.
NEEDS = {
    "memory": [],
    "types": [],
    "op_cache": ["super::cpu::CpuCore", "crate::stubs::CachedOp"],
    "cpu": ["super::{execute::*, memory::*, types::*}", "crate::stubs::{CachedOp, FloatX80}"],
    "execute": ["super::{cpu::*, memory::*}"],
}

# A child module reaches the private functions of the module that it stands in.
CHILD = {"cpu": "reach_cpu.rs", "execute": "reach_execute.rs", "exceptions": "reach_exceptions.rs"}

# What is altered in the lifted text, and nothing else is: name, module, item, old text, new text. The old text stands in the item
# exactly once. LIFTED.txt has the items as they are in the crate, and below them the names of the edits.
EDITS = []


class Bad(Exception):
    """Something in the source is not as expected."""


def blank(text):
    """The same text with comments, strings and character literals replaced by spaces."""
    out = list(text)
    i, n = 0, len(text)

    def wipe(a, b):
        for k in range(a, min(b, n)):
            if out[k] != "\n":
                out[k] = " "

    while i < n:
        c = text[i]
        if text.startswith("//", i):
            end = text.find("\n", i)
            end = n if end < 0 else end
            wipe(i, end)
            i = end
        elif text.startswith("/*", i):
            depth, j = 1, i + 2
            while j < n and depth:
                if text.startswith("/*", j):
                    depth, j = depth + 1, j + 2
                elif text.startswith("*/", j):
                    depth, j = depth - 1, j + 2
                else:
                    j += 1
            wipe(i, j)
            i = j
        elif (m := re.compile(r'(?:b|c)?r(#*)"').match(text, i)) and not is_word(text, i - 1):
            end = text.find('"' + m.group(1), m.end())
            if end < 0:
                raise Bad("raw string without an end")
            i, start = end + 1 + len(m.group(1)), i
            wipe(start, i)
        elif c == '"':
            j = i + 1
            while j < n and text[j] != '"':
                j += 2 if text[j] == "\\" else 1
            wipe(i, j + 1)
            i = j + 1
        elif c == "'":
            # A character literal, or else a lifetime, which stays.
            m = re.compile(r"'(?:\\u\{[0-9a-fA-F_]+\}|\\x..|\\.|[^'\\\n])'").match(text, i)
            if m:
                wipe(i, m.end())
                i = m.end()
            else:
                i += 1
        else:
            i += 1
    return "".join(out)


def is_word(text, i):
    return i >= 0 and (text[i].isalnum() or text[i] == "_")


def closing(mask, i):
    """Index after the bracket that closes the one at i."""
    pairs = {"{": "}", "(": ")", "[": "]"}
    stack = []
    for k in range(i, len(mask)):
        c = mask[k]
        if c in pairs:
            stack.append(pairs[c])
        elif c in "})]":
            if not stack or stack.pop() != c:
                raise Bad("brackets do not match")
            if not stack:
                return k + 1
    raise Bad("bracket without an end")


def depth_zero(mask, start, end):
    """The mask of a range with everything inside braces blanked: only items of that level are left."""
    out, depth = [], 0
    for c in mask[start:end]:
        if c == "}":
            depth -= 1
        out.append(c if depth == 0 or c == "\n" else " ")
        if c == "{":
            depth += 1
    return "".join(out)


def item_end(mask, start):
    """Index after an item: its closing brace, or its semicolon where it has no body."""
    k = start
    while k < len(mask):
        c = mask[k]
        if c in "([":
            k = closing(mask, k)
        elif c == "{":
            return closing(mask, k)
        elif c == ";":
            return k + 1
        else:
            k += 1
    raise Bad("item without an end")


def with_heading(text, start):
    """Index of the first line of the comments and attributes that belong to the item."""
    start = text.rfind("\n", 0, start) + 1
    while start > 0:
        above = text.rfind("\n", 0, start - 1) + 1
        line = text[above:start].strip()
        if not (line.startswith("///") or (line.startswith("#[") and line.endswith("]"))):
            break
        start = above
    return start


def find(text, mask, what, name, ranges):
    """Text of the one item of this name inside the ranges."""
    found = []
    for a, b in ranges:
        level = depth_zero(mask, a, b)
        for m in re.finditer(r"\b%s\s+%s\b" % (what, re.escape(name)), level):
            at = a + m.start()
            found.append(text[with_heading(text, at):item_end(mask, at)])
    if len(found) != 1:
        raise Bad("%s %s: found %d times" % (what, name, len(found)))
    return found[0]


def impl_ranges(mask):
    """Insides of the blocks `impl CpuCore { ... }`."""
    out = []
    for m in re.finditer(r"^impl\s+CpuCore\s*\{", mask, re.M):
        out.append((m.end(), closing(mask, m.end() - 1) - 1))
    return out


def lift_module(source, module, wanted):
    """List of (what, name, text) of one file."""
    mask = blank(source)
    got = []
    for what, name in wanted:
        if what == "file":
            text = source
        elif what == "fn":
            text = find(source, mask, what, name, impl_ranges(mask))
        else:
            text = find(source, mask, what, name, [(0, len(mask))])
        got.append((what, name, text))
    return got


def assemble(lifted):
    """The generated file: one module for each source file."""
    out = ["// Generated by lift.py from the crate's source. Not for the repository.",
           # Unchanged text: what is not used here, or not in today's style, stays as it is.
           "#[allow(dead_code, unused_imports, clippy::all)]",
           "pub mod core {",
           "pub use crate::stubs::{timing_060, trace_jit, window};"]
    for module, items in lifted:
        out.append("pub mod %s {" % module)
        out += ["use %s;" % path for path in NEEDS.get(module, [])]
        out += [t for w, _, t in items if w != "fn"]
        functions = [t for w, _, t in items if w == "fn"]
        if functions:
            out += ["impl CpuCore {"] + functions + ["}"]
        if module in CHILD:
            out.append("pub mod reach { include!(concat!(env!(\"CARGO_MANIFEST_DIR\"), \"/src/%s\")); }"
                       % CHILD[module])
        out.append("}")
    out.append("}")
    return "\n".join(out) + "\n"


def edited(lifted, edits):
    """The items with each edit made at the one place where its old text stands."""
    out = [(module, list(items)) for module, items in lifted]
    for name, module, item, old, new in edits:
        places = [(items, i) for m, items in out if m == module for i, one in enumerate(items) if one[1] == item]
        if len(places) != 1:
            raise Bad("edit %s: %s.rs has %d items %s" % (name, module, len(places), item))
        items, i = places[0]
        what, _, text = items[i]
        if text.count(old) != 1:
            raise Bad("edit %s: its old text stands %d times in %s of %s.rs" % (name, text.count(old), item, module))
        items[i] = (what, item, text.replace(old, new))
    return out


def stubs():
    """The stubs, as stubs.rs marks them: lines `// stub: NAME - REASON`."""
    with open(STUBS, encoding="utf-8") as f:
        return re.findall(r"^\s*// stub: (.*)$", f.read(), re.M)


def listing(lifted):
    out = ["# Written by lift.py --record: what is lifted from the crate m68k 0.15.1, unchanged.",
           "# file item lines sha256"]
    for module, items in lifted:
        for what, name, text in items:
            digest = hashlib.sha256(text.encode()).hexdigest()
            lines = text.count("\n") + (0 if text.endswith("\n") else 1)
            label = "whole" if what == "file" else "%s:%s" % (what, name)
            out.append("src/core/%s.rs %s %d %s" % (module, label, lines, digest))
    out.append("# stubs, with the reason")
    out += ["stub %s" % s for s in stubs()]
    if EDITS:
        out.append("# edits, made after this text was compared")
    out += ["edit %s src/core/%s.rs %s %s" % (name, module, item, hashlib.sha256((old + "\0" + new).encode()).hexdigest())
            for name, module, item, old, new in EDITS]
    return "\n".join(out) + "\n"


def compare(text):
    try:
        with open(LIST, encoding="utf-8") as f:
            had = f.read()
    except FileNotFoundError:
        raise Bad("LIFTED.txt is not there; lift.py --record writes it")
    if had == text:
        return
    old, new = set(had.splitlines()), set(text.splitlines())
    lines = ["- " + s for s in sorted(old - new)] + ["+ " + s for s in sorted(new - old)]
    raise Bad("the source or the stubs differ from LIFTED.txt (- recorded, + found):\n  "
              + "\n  ".join(lines or ["order of lines"]))


def lift(src):
    out = []
    for module, wanted in TAKEN:
        path = os.path.join(src, "src", "core", module + ".rs")
        with open(path, encoding="utf-8") as f:
            source = f.read()
        try:
            out.append((module, lift_module(source, module, wanted)))
        except Bad as e:
            raise Bad("%s.rs: %s" % (module, e))
    return out


def main(args):
    record = "--record" in args
    args = [a for a in args if a != "--record"]
    if len(args) > 2 or any(a.startswith("-") for a in args):
        print(__doc__)
        return 2
    src = args[0] if args else os.path.join(REPO, os.pardir, "shared", "docs", "src")
    out = args[1] if len(args) > 1 else os.path.join(REPO, "target", "oracle", "lifted", "lifted.rs")
    missing = [m for m, _ in TAKEN if not os.path.isfile(os.path.join(src, "src", "core", m + ".rs"))]
    if missing:
        print("lift: left out: the Rust source is not there (no %s.rs)" % missing[0])
        return 3
    try:
        lifted = lift(src)
        text = listing(lifted)
        if record:
            with open(LIST, "w", encoding="utf-8") as f:
                f.write(text)
        else:
            compare(text)
        altered = edited(lifted, EDITS)
    except Bad as e:
        print("lift: error: %s" % e)
        return 1
    write(out, assemble(altered))
    print("lift: %d items, edits: %s" % (sum(len(items) for _, items in lifted), " ".join(e[0] for e in EDITS) or "none"))
    return 0


def write(path, text):
    """Leave the file alone where it would not change, so that cargo need not build again."""
    os.makedirs(os.path.dirname(os.path.abspath(path)), exist_ok=True)
    try:
        with open(path, encoding="utf-8") as f:
            if f.read() == text:
                return
    except FileNotFoundError:
        pass
    with open(path, "w", encoding="utf-8") as f:
        f.write(text)


if __name__ == "__main__":
    sys.exit(main(sys.argv[1:]))
