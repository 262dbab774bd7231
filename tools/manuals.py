#!/usr/bin/env python3
"""manuals.py [--check]: what docs/DIFFERENCES.md and docs/FRAMES.md say of Motorola's manuals, from the tables of crates/manual.

Reads as text: the frames (specs/Formats, with Exceptions for which exception stacks which), the table of differences (specs/Differences, with
what a program would notice behind each row), the inputs that show each row (specs/Shown), and our own frames (by reference.py). Writes the part
of docs/DIFFERENCES.md between `<!-- manuals -->` and `<!-- end of manuals -->`, docs/FRAMES.md, and a drawing of each frame in docs/frames/.
With --check it writes nothing and fails where a file is not what it would write. It is tried on tables with one thing changed: if one of them would
give the same, it fails too.
"""
import os
import re
import sys

import reference

ROOT = reference.ROOT
SPECS = "crates/manual/specs/"
START, END = "<!-- manuals: written by tools/manuals.py -->", "<!-- end of manuals -->"
CALLS = {"bus_error": "`exception_bus_error`", "address_error": "`exception_address_error`", "fp_disabled": "`take_fp_disabled_060`",
         "group2": "group 2", "protocol": "coprocessor protocol violation", "configuration": "MMU configuration error", "interrupt": "an interrupt's vector"}
WHENS = {"always": "", "nonzero": "where the manual's value is not 0", "chk": "vector 6", "vectored": "vectors 15 and 64 to 255", "in_master": "in the master state",
         "based": "where `vbr` is not 0", "of_the_bus": "where the bus failed, not the translation", "past24": "an address from 0x1000000 on, kind 3"}
WHATS = {"fields": "every field", "at_top": "every field of the frame at A7", "format": "the format, with it every field from +6 on and the length", "length": "the length, so A7", "status": "the status left",
         "pc": "PC", "pins": "the address on the pins"}
# the frames that are drawn: our definition, and the manual's table of the same exception; the file's name says format and parts
DRAWN = [("68000-6-bytes", "68000: all but errors", "short68000", "short_frame", 6), ("68000-14-bytes", "68000: bus and address error", "error68000", "frame68000", 14),
         ("format-0", "68010 on: format 0, and format 1 of an interrupt in the master state", "format0", "short_frame", 8),
         ("format-2", "68020 on: format 2, group 2 and trace; 68060: floating point not implemented", "format2", "long_frame", 12),
         ("format-2-address-error", "68040: address error, format 2", "format2", "frame2", 12),
         ("format-2-68060", "68060: address error, format 2; ours is format 0", "format2", "frame0", 12),
         ("format-4-access", "68060: access error, format 4", "format4_access", "frame4", 16),
         ("format-4-disabled", "68060: floating-point unit disabled, format 4", "format4_disabled", "disabled_frame", 16),
         ("format-7", "68040: access error, format 7", "format7", "frame7", 60), ("format-8", "68010: bus and address error, format 8", "format8", "frame8", 58),
         ("format-9", "68020, 68030: coprocessor protocol violation, format 9; ours is format 0", "format9", "short_frame", 20),
         ("format-A", "68020, 68030: bus error at an instruction's boundary, format A; never made here", "format_a", "", 32),
         ("format-B", "68020, 68030: bus error, format B", "format_b", "frame11", 92),
         ("format-B-address-error", "68020, 68030: address error, format B; ours is format 0", "format_b", "frame0", 92)]
# which rows of the table of differences a drawing marks: parts, exception, way
MARKS = {"68000-14-bytes": ("mc68000", "bus_error", "own"), "format-8": ("mc68010", "bus_error", "own"), "format-2-68060": ("mc68060", "address_error", "own"),
         "format-4-access": ("mc68060", "bus_error", "own"), "format-4-disabled": ("mc68060", "fp_disabled", "own"), "format-7": ("mc68040", "bus_error", "own"),
         "format-9": ("mc68020", "protocol", "by_vector"), "format-B-address-error": ("mc68020", "address_error", "own")}


# Changes of the tables that must be noticed.
WRONG = [("Formats", "long 0x14 fault_address", "long 0x20 fault_address"), ("Formats", "in_word 0x0C 10 1 translation", "in_word 0x0C 11 1 translation"),
         ("Differences", "(field 0x0C 10) of_the_bus", "(field 0x0C 10) always"), ("Differences", "row from68020 (by_vector ∷ []) (group2", "row every (by_vector ∷ []) (group2"),
         ("Shown", "0x0C 21 0 1", "0x0C 21 0 2"), ("Parts", "∷ some mc68020 ∷ some mc68030", "∷ some mc68030 ∷ some mc68030"), ("Returns", "untaken mc68040 3 ∷ ", "")]
changed = {}


def text(name):
    return changed.get(name) or reference.read(f"{SPECS}{name}.antt")


def words(name):
    """A name of the tables in words: `data_output` is `data output`."""
    return re.sub(r"back(?=\d)", "back ", name.replace("_", " ")).replace("stage baddress", "stage B address")


def listed(name, source):
    """A list of names: written out, or a definition."""
    if name.startswith("("):
        return re.findall(r"\w+", name.replace("[]", ""))
    return re.findall(r"\w+", re.search(rf"^{name} = (.*)$", source, re.M)[1])


def kinds():
    """The kinds of each part."""
    names = re.findall(r"\bnone\b|some (\w+)", re.search(r"^family_of k =(.*?)^    k none", text("Parts"), re.M | re.S)[1])
    found = {}
    for k, name in enumerate(names):
        if name:
            found.setdefault(name, []).append(k)
    return found


def differences():
    """The rows: parts, ways, exceptions, what, when, what is noticed."""
    source = text("Differences")
    one = r"(\([^()]*\)|\w+)"
    pattern = rf"^    (?:∷ )?row {one} {one} {one} (\(field \w+ \w+\)|\w+) (\w+)  -- (.*)$"
    return [(listed(f, source), listed(w, source), listed(c, source), what, when, note) for f, w, c, what, when, note in re.findall(pattern, source, re.M)]


def inputs():
    """The inputs that show the rows, by row: kinds, call, manual, ours."""
    source = text("Shown")
    body = source[source.index("\ninputs =\n"):source.index("-- ---- what is computed")]
    found = {}
    for entry in re.split(r"\n    ∷ |\ninputs =\n    ", body)[1:]:
        if entry.startswith("record"):
            get = lambda key: re.search(rf"\b{key} = ([^;}}]+?) *[;}}]", entry)[1]
            row, ks, call, manual, ours = int(get("row")), "(" + get("kinds") + ")", get("call"), get("manual"), get("ours")
            more = [f"{k} {get(k)}" for k in ("ppc", "vbr") if get(k) not in ("0", "0xFE")] + ([f"byte 0x40 at {get('byte')}"] if get("byte") != "0x1FF" else [])
        else:
            m = re.match(r"(\w+) (\d+) (\([^()]*\)|\w+) (\((?:[^()]|\([^()]*\))*\)|\w+) (.*)$", entry.strip().split("\n")[0])
            if not m:
                continue
            rest, row, ks, call = m[5].split(), int(m[2]), m[3], m[4]
            manual, ours = rest[-2], rest[-1]
            more = [f"level {rest[0]}"] if m[1] == "asked" else [f"mmu_fc_override {rest[0]}"] if m[1] == "overridden" else ["status 0x3700, interrupt stack 0x140"] if m[1] == "in_master" else []
        if re.fullmatch(r"[a-z]\w*", call):
            call = re.search(rf"^{call} = (.*)$", source, re.M)[1]
        numbers = [int(n) for n in (re.findall(r"\d+", ks) if ks.startswith("(") else re.findall(r"\d+", re.search(rf"^{ks} = (.*)$", source, re.M)[1]))]
        found.setdefault(row, []).append((numbers, call.removeprefix("(").removesuffix(")"), more, manual, ours))
    return found


def fields(name):
    """A table of the manual: offset, bytes, lowest bit and how many or none, name, whether it has a value."""
    source = re.sub(r"--[^\n]*", "", text("Formats"))
    body = re.search(rf"^{name} [^=]*=(.*?)∷ \[\]", source, re.M | re.S)[1]
    found = []
    for part in re.split(r"∷", body):
        m = re.match(r"\s*(word|long|in_word|in_long) (0x\w+)(?: (\d+) (\d+))? (\w+) (.*?)\s*$", part, re.S)
        if m:
            span = (int(m[3]), int(m[4])) if m[3] else None
            found.append((int(m[2], 16), 4 if "ong" in m[1] else 2, span, m[5], m[6] not in ("none", "unsaid")))
    return found


def format_of(family, cls):
    """The manual's table for an exception of a part."""
    source = text("Exceptions")
    fmt = re.search(rf"^format_of f {cls} = (\S+)(?: f)?$", source, re.M)[1]
    if m := re.search(rf"^{fmt} {family} = (\w+)$", source, re.M):
        fmt = m[1]
    return re.search(rf"^fields_by {fmt} s c v = (\w+)", source, re.M)[1]


def what_of(row):
    families, ways, classes, what, when, note = row
    if not what.startswith("("):
        return WHATS[what]
    offset, low = (int(n, 0) for n in re.findall(r"0x\w+|\d+", what))
    for o, size, span, name, known in fields(format_of(families[-1], classes[0])):
        if o == offset and (span[0] if span else 0) == low:
            bits = f", bits {span[0] + span[1] - 1} to {span[0]}" if span and span[1] > 1 else f", bit {span[0]}" if span else ""
            return f"+0x{o:X} {words(name)}{bits}"
    sys.exit(f"manuals.py: no field at {what} for {families}")


def call_of(row):
    families, ways, classes, what, when, note = row
    if len(classes) > 5:
        return "any"
    names = [CALLS[c] for c in classes]
    return "`take_exception`: " + ", ".join(n.replace("`", "").replace("exception_", "").replace("_", " ") for n in names) if ways == ["by_vector"] else ", ".join(names)


def section():
    """The part of docs/DIFFERENCES.md."""
    shown, parts = inputs(), kinds()
    lines = [START, "", "| Row | Kinds | Call | What | When | Manual | Ours | Smallest input | What a program would notice |", "|---|---|---|---|---|---|---|---|---|"]
    for n, row in enumerate(differences()):
        ks = sorted(k for f in row[0] for k in parts[f])
        if row[4] == "past24":
            ks = [3]
        values = [(reference.listed(i[0]), i[3], i[4]) for i in shown[n] if i[1] == shown[n][0][1]]
        single = len(values) == 1
        manual = "; ".join(m if single else f"{m} on {k}" for k, m, _ in values)
        ours = "; ".join(dict.fromkeys(u for _, _, u in values))
        smallest = shown[n][0][1] + "".join(f", {m}" for m in shown[n][0][2])
        lines.append(f"| {n} | {reference.listed(ks)} | {call_of(row)} | {what_of(row)} | {WHENS[row[4]]} | {manual} | {ours} | `{smallest}` | {row[5]} |")
    lines += ["", "The return refuses these frames by 13, which RTE takes (`formats_are`, `return_rows_shown`):", "", "| Kinds | Format | Bytes by the manual |", "|---|---|---|"]
    source = text("Returns")
    for family, number in re.findall(r"untaken (mc\w+) (\d+)", source):
        length = re.findall(r"\d+", re.search(rf"^formats {family} = (.*)$", source, re.M)[1])[int(number)]
        lines.append(f"| {reference.listed(parts[family])} | {int(number):X} | {length} |")
    return "\n".join(lines + ["", END])


# ---- drawings

CELL, LEFT, TOP, WIDE, GAP = 16, 46, 54, 330, 80


def ours_of(name):
    at, found = 0, []
    for size, value in reference.fields(name):
        found.append((at, size, value))
        at += size
    return found


def differing(mark):
    """Offsets and lowest bits that rows name for a drawing; `from` is the least offset of a row that excludes all behind it."""
    found, least = set(), None
    if mark:
        family, cls, way = mark
        for families, ways, classes, what, when, note in differences():
            if family in families and way in ways and cls in classes and len(classes) < 6:
                if what.startswith("("):
                    found.add(tuple(int(n, 0) for n in re.findall(r"0x\w+|\d+", what)))
                elif what == "format":
                    least = 6
                elif what == "fields":
                    least = 0
    return found, least


def escaped(s):
    return s.replace("&", "&amp;").replace("<", "&lt;")


def drawing(key, title, table, own, size):
    """Offsets upward from A7; each word is a line; bit fields of a word stand in one line."""
    rows, marked, least = {}, *differing(MARKS.get(key))
    for o, width, span, name, known in fields(table):
        rows.setdefault((o, width), []).append((span, name, known))
    out, y = [], TOP

    def box(x, y, h, label, colour, dark=False):
        out.append(f'<rect x="{x}" y="{y}" width="{WIDE}" height="{h}" fill="{colour}" stroke="#444"/>')
        out.append(f'<text x="{x + 6}" y="{y + 12}" {"font-weight=" + chr(34) + "bold" + chr(34) if dark else ""}>{escaped(label)}</text>')

    at = {}
    for (o, width), cells in sorted(rows.items()):
        h = max(CELL * width // 2, CELL * len(cells))
        at[o] = (y, h)
        for i, (span, name, known) in enumerate(cells):
            low = span[0] if span else 0
            different = (o, low) in marked or (least is not None and o >= least)
            label = words(name) + (f" [{span[0] + span[1] - 1}:{span[0]}]" if span and span[1] > 1 else f" [{span[0]}]" if span else "")
            label += "" if known else (" (undefined)" if name == "internal" else " (not defined here)")
            part = h // len(cells)
            box(LEFT, y + i * part, part if i < len(cells) - 1 else h - part * i, label, "#f6c7c2" if different and known else "#ffffff" if known else "#e6e6e6", different and known)
        out.append(f'<text x="4" y="{y + 12}">+{o:02X}</text>')
        y += h
    bottom, y2 = y, TOP
    for o, width, value in ours_of(own):
        if o in at:
            y2 = max(y2, at[o][0])
        ends = [p for q, (p, h) in at.items() if q >= o + width]
        h = max(CELL, (min(ends) if ends else bottom if o + width >= size else y2 + CELL * width // 2) - y2) if o in at else CELL * width // 2
        different = any(m[0] == o for m in marked) or (least is not None and o >= least) or key == "68000-14-bytes" and value != "ir"
        box(LEFT + WIDE + GAP, y2, h, f"+{o:02X}  {value if value != '-' else 'not written'}", "#f6c7c2" if different else "#e6e6e6" if value == "-" else "#ffffff", different)
        y2 += h
    height = max(bottom, y2) + 12
    head = [f'<svg xmlns="http://www.w3.org/2000/svg" width="{LEFT + 2 * WIDE + GAP + 12}" height="{height}" font-family="monospace" font-size="11">',
            "<!-- written by tools/manuals.py -->", f'<rect width="100%" height="100%" fill="#ffffff"/>', f'<text x="{LEFT}" y="18" font-size="13" font-weight="bold">{escaped(title)}</text>',
            f'<text x="{LEFT}" y="44">manual ({size} bytes)</text>', f'<text x="{LEFT + WIDE + GAP}" y="44">{f"ours (`{own}`)" if own else "ours: never made"}</text>']
    return "\n".join(head + out + ["</svg>", ""])


def page():
    """docs/FRAMES.md."""
    lines = ["<!-- written by tools/manuals.py from crates/manual/specs/Formats.antt and Differences.antt -->", "# Frames", "",
             "The frames of Motorola's manuals (recalled, not looked up: docs/DECISIONS.md) but format 3, which no call makes, and format 4 of the 68LC040 and 68EC040, left, and as this",
             "code makes them, right, upward from the new A7. Red: a row of the table of differences (docs/DIFFERENCES.md) stands there for the call that the drawing is of; of the",
             "68000's 14 bytes, right, whatever the manual has elsewhere. Rows of `take_exception` by a vector (but format 9), of the vector base and of the pins are in that table alone.",
             "Grey: the manual defines no value, or a call does not say it; or nothing is written there. `Holds.holds` (crates/manual/specs) proves that a direct entry that starts",
             "sound and is served has no difference that the table lacks.", ""]
    for key, title, table, own, size in DRAWN:
        open_fields = [f"+0x{o:X} {words(name)}" for o, _, _, name, known in fields(table) if not known and name != "internal"]
        lines += [f"## {title}", "", f"![{title}](frames/{key}.svg)", ""]
        if open_fields:
            lines += ["No value in the manual, or not said by a call: " + ", ".join(open_fields) + ".", ""]
    return "\n".join(lines)


def written(document):
    """What is to be written, by file."""
    begin, end = document.index(START), document.index(END) + len(END)
    files = {"docs/DIFFERENCES.md": document[:begin] + section() + document[end:], "docs/FRAMES.md": page()}
    return files | {f"docs/frames/{drawn[0]}.svg": drawing(*drawn) for drawn in DRAWN}


def unnoticed(document, files):
    """The changes of the tables after which the same would be written."""
    found = []
    for name, old, new in WRONG:
        source = text(name)
        changed[name] = source.replace(old, new, 1)
        try:
            if changed[name] == source or written(document) == files:
                found.append((name, old))
        except (SystemExit, KeyError, TypeError, IndexError):
            pass
        del changed[name]
    return found


def main():
    if sys.argv[1:] not in ([], ["--check"]):
        sys.exit(__doc__)
    document = reference.read("docs/DIFFERENCES.md")
    files = written(document)
    if passed := unnoticed(document, files):
        sys.exit(f"manuals.py does not notice a change of {passed}")
    if len(differences()) != len(re.findall(r"^    (?:∷ )?row ", text("Differences"), re.M)) or sorted(inputs()) != list(range(len(differences()))):
        sys.exit("manuals.py: a row or an input was not read")
    for path, content in files.items():
        full = os.path.join(ROOT, path)
        if sys.argv[1:]:
            if not os.path.exists(full) or reference.read(path) != content:
                sys.exit(f"{path} is not what tools/manuals.py writes")
        else:
            os.makedirs(os.path.dirname(full), exist_ok=True)
            with open(full, "w", encoding="utf-8") as file:
                file.write(content)
    print(f"{len(files)} files: as the tables give, {len(differences())} rows; {len(WRONG)} wrong tables are found")


if __name__ == "__main__":
    main()
