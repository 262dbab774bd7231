#!/usr/bin/env python3
"""The setters of the record, for generate.py: crates/cpu/specs/Setters.antt from the structs of crates/cpu/src/lib.rt.

`with_pc c x` is the record c with the field `pc` replaced; `flow_with_pc f x` is the same of the group alone. There is one for each field that
some definition of any crate replaces by that name. It is an `abbrev`, which unfolds everywhere: no proof sees it.
"""
import os
import re

ROOT = os.path.dirname(os.path.dirname(os.path.abspath(__file__)))
TYPES = {"bool": "Bool", "i32": "ℤ", "u8": "ℕ", "u16": "ℕ", "u32": "ℕ"}
HEAD = """-- The record with one field replaced, by tools/setters.py from the structs: a setter for each field that a definition replaces. No other
-- file of specs/ lists the fields of a group to change one.
"""
LIBRARY = "ℕ", "Bool", "List", "ℤ"


def word(field):
    """A field's name in that of its setter: a single letter has no line behind it, as in `with_sflag`."""
    return re.sub(r"(?<![a-z0-9])([a-z])_", r"\1", field)


def antt(kind):
    return "List ℕ" if kind.startswith("[") else TYPES.get(kind, kind)


def structs(crate):
    with open(os.path.join(ROOT, "crates", crate, "src", "lib.rt"), encoding="utf-8") as file:
        text = file.read()
    return {name: re.findall(r"pub (\w+): (\[.*?\]|\w+),", body) for name, body in re.findall(r"pub struct (\w+) \{\n(.*?)^\}", text, re.M | re.S)}


def words(but):
    """The names that the definitions of all crates use."""
    found = set()
    for crate in os.listdir(os.path.join(ROOT, "crates")):
        folder = os.path.join(ROOT, "crates", crate, "specs")
        for name in os.listdir(folder) if os.path.isdir(folder) else []:
            if os.path.join(folder, name) != but:
                with open(os.path.join(folder, name), encoding="utf-8") as file:
                    found |= set(re.findall(r"[A-Za-z]\w*", re.sub(r"^use .*$|--.*$", "", file.read(), flags=re.M)))
    return found


def setter(name, whole, kind, fields, field, group):
    """One setter, on the record through its group, or on the group itself."""
    given = f"c.{group}." if group else "c."
    lines = [f"{f} = {'x' if f == field else given + f};" for f, _ in fields]
    made = "".join(f"      {x}\n" for x in lines)
    value = f"    with_{group} c\n    (record {{\n{made}    }})\n" if group else f"    record {{\n{made}    }}\n"
    return f"abbrev pub {name} : {whole} → {kind} → {whole}\n{name} c x =\n{value}"


def texts(crate, name, _):
    path = f"crates/{crate}/specs/{name}.antt"
    groups, used, laws, names = structs(crate), words(os.path.join(ROOT, path)), [], set()
    for group, struct in groups["Cpu"]:
        for field, kind in groups[struct]:
            for own, whole, through in ((f"with_{word(field)}", "Cpu", group), (f"{group}_with_{word(field)}", struct, "")):
                if own in used and own not in names:
                    names.add(own)
                    laws.append(setter(own, whole, antt(kind), groups[struct], field, through))
    body = "\n".join(laws)
    seen = set(re.findall(r"[\wℕℤ]+", body))
    head = f"use Rattle.std.specs.Prelude.{{{', '.join(t for t in LIBRARY if t in seen)}}}\n"
    head += "".join(f"use Rattle.{crate}.specs.declared.{s}.{{{s}}}\n" for s in sorted(groups) if re.search(rf"→ {s}\b|: {s}\b", body))
    through = sorted({f"with_{g}" for g, _ in groups["Cpu"]} & seen)
    return {path: HEAD + head + f"use Rattle.{crate}.specs.Groups.{{{', '.join(through)}}}\n\n" + body}
