#!/usr/bin/env python3
"""Writes what the Rust and the C side of the boundary are, from the Rattle sources:

src/mirror.rs          the exported functions of the crate `lent`, and the #[repr(C)] structs of it and of the crates that it uses
src/numbers.rs         the number of each call and what its answer is, from `decode` of boundary and `run` of calls
include/m68k.h         both for C
leaves/src/mirror.rs   the exported functions of the crate `leaves`, which take the record by value

usage: mirror.py [--check] [--crates FOLDER]

--check writes nothing and fails if a file is not what the sources give. --crates names the folder of the Rattle crates, beside which
crates.txt stands; without it, ../crates. The structs are those that the functions take, give or hold inside. Sizes and offsets are worked
out here by the rules of C and asserted in Rust and in C, so that three readings of the layout are compared.
"""

import pathlib
import re
import sys

HERE = pathlib.Path(__file__).resolve().parent
LENT, LEAVES, NUMBERED, PERFORMED, ANSWERED = "lent", "leaves", "boundary", "calls", "answers"
SCALARS = {"bool": 1, "u8": 1, "i8": 1, "u16": 2, "i16": 2, "u32": 4, "i32": 4, "u64": 8, "i64": 8, "usize": 8}

STRUCT = re.compile(r"#\[repr\(C\)\]\s*(?:#\[derive\([^)]*\)\]\s*)?pub struct (\w+)\s*\{([^}]*)\}")
EXPORT = re.compile(r'#\[unsafe\(no_mangle\)\]\s*pub extern "C" fn (\w+)\s*\(([^)]*)\)\s*(?:->\s*([\w:]+))?\s*(requires)?')
FUNCTION = re.compile(r"^(?:pub )?fn (\w+)\b.*?^\}", re.M | re.S)
METHOD = re.compile(r"^    (?:pub )?fn (\w+)\b.*?^    \}", re.M | re.S)
ARM = re.compile(r"^\s*(\d+) => (.*?),(?=\s*(?:\d+|_) => )", re.M | re.S)
ARGUMENT = re.compile(r"(types::cause_of\()?\(?call\.(\w)( % 0x100\) as u8| % 0x10000\) as u16| != 0)?")
ARRAY = re.compile(r"\[\s*([\w:]+)\s*;\s*(\d+)\s*\]$")
LENDING = re.compile(r"&\s*(mut\s+)?(?:\[\s*(\w+)\s*\]|([\w:]+))$")

RUST_HEAD = "// Written by mirror.py from the Rattle sources: do not edit.\n"
STRUCTS_HEAD = "#![allow(dead_code)]\n\nuse std::mem::{align_of, offset_of, size_of};\n"

C_HEAD = """\
/* Written by mirror.py from the Rattle sources: do not edit.
 *
 * Exception, fault, trace and interrupt entry of the M68000 family: the functions of liblent.a (`rt lib` in crates/lent).
 * docs/HOST.md has what is proved and what is assumed; docs/REFERENCE.md the kinds, refusals and events.
 *
 * Every value of every field has a meaning; the bytes between fields have none. A byte that is a flag (exception_processing,
 * change_of_flow, loop_mode, precise_bus and each `some`) is set where it is not 0; an accepted call leaves 0 or 1 in it. Where `some` is 0
 * the value beside it means nothing.
 * A pointer is to as many elements as the length behind it says, none of them shared with another pointer of the call; with a length of 0
 * it is not followed, but must not be null. */
#ifndef M68K_H
#define M68K_H

#include <stddef.h>
#include <stdint.h>

#ifdef __cplusplus
extern "C" {
#endif
"""
C_ASSERT = """\
/* The layout that the archive was compiled for, asserted where the language can. */
#if defined(__cplusplus) && __cplusplus >= 201103L
#define M68K_ASSERT static_assert
#elif defined(__STDC_VERSION__) && __STDC_VERSION__ >= 201112L
#define M68K_ASSERT _Static_assert
#endif
#ifdef M68K_ASSERT"""
C_TYPES = {"u8": "uint8_t", "u16": "uint16_t", "u32": "uint32_t", "i32": "int32_t", "usize": "size_t"}

# What a reader of the header is told of each function.
C_SAYS = {
    "m68k_call": "Performs the call on the record, the bus and the lent store and log, or refuses it: then every field of the record,\n"
                 " * flags too, and store and log are as they came. A log has 192 words at least; each event is three of them. `answer` is the\n"
                 " * cycles of an entry, the value of a read, 0 or 1 of a check.",
    "m68k_take_exception": "`take_exception` alone: what m68k_call says and leaves with M68K_TAKE_EXCEPTION and the vector.",
    "m68k_check_and_service_interrupts": "The interrupt call alone: what m68k_call says and leaves with M68K_CHECK_AND_SERVICE_INTERRUPTS.",
    "m68k_return": "Returns from the entry whose frame lies at A7; `row` is what its frame held, zeros where `refused` is not 0.",
    "m68k_walk": "Makes n returns on a copy and lays what each read into `rows`, four words each: format, status, address, offset.",
    "m68k_fresh": "The record of a processor of that kind after it was made.",
    "m68k_get_sr": "The status register.",
    "m68k_set_sr": "Sets the status register under the kind's mask, M only with S, and swaps the stacks; answers the status as it reads then.",
}


class Bad(Exception):
    """Something in the sources that has no mirror."""


def source(crates, name):
    """The text of a crate without its comments, lib.rt first."""
    folder = crates / name / "src"
    files = sorted(folder.glob("**/*.rt"), key=lambda f: (f.name != "lib.rt", str(f)))
    if not files:
        raise Bad(f"no Rattle source in crates/{name}/src")
    return "\n".join(re.sub(r"//[^\n]*", "", f.read_text()) for f in files)


def used(crates, top):
    """The crates of this repository that a crate uses, lowest first, and itself."""
    deps = {}
    for line in (crates.parent / "crates.txt").read_text().splitlines():
        name, _, rest = line.split("#")[0].partition(":")
        if name.strip():
            deps[name.split()[0]] = rest.split()
    if top not in deps:
        raise Bad(f"crates.txt has no crate {top}")
    return [name for name in reversed(deps[top]) if name in deps] + [top]


def bare(path):
    """The last name of a path."""
    return path.split("::")[-1]


def pairs(text):
    """`name: type` pairs of a list with commas; a comma inside brackets stands in no type here."""
    for item in filter(None, (part.strip() for part in text.split(","))):
        name, kind = item.split(":", 1)
        yield name.replace("pub ", "").strip(), kind.strip()


class Layout:
    """Sizes and offsets by the rules of C."""

    def __init__(self):
        self.structs = {}  # name: [(field, type)]

    def of(self, kind):
        """Size and alignment of a type."""
        if kind in SCALARS:
            return SCALARS[kind], SCALARS[kind]
        array = ARRAY.match(kind)
        if array:
            size, align = self.of(bare(array[1]))
            return size * int(array[2]), align
        if bare(kind) in self.structs:
            size, align, _ = self.struct(bare(kind))
            return size, align
        raise Bad(f"no layout for the type {kind}")

    def struct(self, name):
        """Size, alignment and offsets of a struct."""
        at, most, offsets = 0, 1, []
        for field, kind in self.structs[name]:
            size, align = self.of(kind)
            at = -(-at // align) * align
            offsets.append((field, at))
            at, most = at + size, max(most, align)
        return -(-at // most) * most, most, offsets

    def inside(self, kind):
        """The structs that a type is made of, innermost first, itself last."""
        array, lent = ARRAY.match(kind), LENDING.match(kind)
        name = bare(array[1] if array else lent[2] or lent[3] if lent else kind)
        if name in SCALARS or name not in self.structs:
            return []
        return [s for _, field in self.structs[name] for s in self.inside(field)] + [name]


def exported(crates, top):
    """The structs and the functions of a crate's boundary: a layout and [(name, [(parameter, type)], answer)]."""
    layout = Layout()
    for crate in used(crates, top):
        text = source(crates, crate)
        for name, body in STRUCT.findall(text):
            if name in layout.structs:
                raise Bad(f"two structs {name}")
            layout.structs[name] = list(pairs(body))
    exports = []
    for name, args, answer, requires in EXPORT.findall(text):
        if requires:
            raise Bad(f"{name} requires something of its caller: no safe Rust can offer it")
        exports.append((name, list(pairs(args)), answer))
    if not exports:
        raise Bad(f"{top} exports nothing")
    kinds = [kind for _, args, answer in exports for _, kind in [*args, ("", answer)]]
    needed = {name for kind in kinds for name in layout.inside(kind)}
    layout.structs = {name: fields for name, fields in layout.structs.items() if name in needed}
    return layout, exports


def rust_type(kind):
    """A type of a field as the mirror has it."""
    array = ARRAY.match(kind)
    return f"[{bare(array[1])}; {array[2]}]" if array else bare(kind)


def rust_parameters(args):
    """Parameters of an exported function; a slice is a pointer and then a length."""
    for name, kind in args:
        lent = LENDING.match(kind)
        if lent:
            yield f"{name}: *{'mut' if lent[1] else 'const'} {lent[2] or bare(lent[3])}"
            if lent[2]:
                yield f"{name}_len: usize"
        elif kind.startswith("&"):
            raise Bad(f"no mirror of the parameter {name}: {kind}")
        else:
            yield f"{name}: {bare(kind)}"


def rust_function(name, args, answer):
    """Lines that declare an exported function, as rustfmt lays them out."""
    given, gives = list(rust_parameters(args)), f" -> {bare(answer)}" if answer else ""
    line = f"    pub fn {name}({', '.join(given)}){gives};"
    if len(line) <= 100:
        return [line]
    return [f"    pub fn {name}(", *(f"        {parameter}," for parameter in given), f"    ){gives};"]


def rust_mirror(crates, top):
    """The structs and functions of a crate's boundary as Rust."""
    layout, exports = exported(crates, top)
    out = [RUST_HEAD + STRUCTS_HEAD]
    for name, fields in layout.structs.items():
        out.append("#[repr(C)]\n#[derive(Clone, Copy, Debug, PartialEq, Eq)]")
        out.append(f"pub struct {name} {{")
        out += [f"    pub {field}: {rust_type(kind)}," for field, kind in fields]
        out.append("}\n")
    out.append(f"const _: () = assert!(size_of::<usize>() == {SCALARS['usize']});")
    for name in layout.structs:
        size, align, offsets = layout.struct(name)
        out.append(f"const _: () = assert!(size_of::<{name}>() == {size} && align_of::<{name}>() == {align});")
        out += [f"const _: () = assert!(offset_of!({name}, {field}) == {at});" for field, at in offsets]
    out.append('\nunsafe extern "C" {')
    for export in exports:
        out += rust_function(*export)
    out.append("}")
    return "\n".join(out) + "\n"


def snake(name, capital=False):
    """A name of Rust in small letters, or in capitals."""
    words = re.sub(r"(?<=[a-z0-9])(?=[A-Z])|(?<=[a-z])(?=[0-9]+$)", "_", name)
    return words.upper() if capital else words.lower()


def function_of(text, name):
    """The text of a function."""
    for found in FUNCTION.finditer(text):
        if found[1] == name:
            return found[0]
    raise Bad(f"no function {name}")


def numbers(crates):
    """[(number, call, arguments)]: the arms of `decode`. An argument is `a: byte` and the like."""
    arms = []
    sorts = {"": "long", " % 0x100) as u8": "byte", " % 0x10000) as u16": "word", " != 0": "flag"}
    for number, text in ARM.findall(function_of(source(crates, NUMBERED), "decode")):
        call = re.match(r"Call::(\w+)", text)
        if not call:
            raise Bad(f"decode: no call for {number}")
        if left := re.search(r"[^\s(),{}]", ARGUMENT.sub("", text[call.end():])):
            raise Bad(f"decode: no sort of argument for {text}, at {left[0]}")
        arguments = [(letter, "cause" if cause else sorts[way]) for cause, letter, way in ARGUMENT.findall(text)]
        if [letter for letter, _ in arguments] != list("abcde")[:len(arguments)]:
            raise Bad(f"decode: the arguments of {number} are not a, b, c ..")
        arms.append((int(number), call[1], arguments))
    if [number for number, _, _ in arms] != list(range(1, len(arms) + 1)) or not arms:
        raise Bad("decode: the numbers are not 1, 2, 3 ..")
    return arms


def case_of(text, maker):
    """The case of `Answer` that a method of `Performed` makes."""
    for found in METHOD.finditer(text):
        if found[1] == maker:
            return re.search(r"Answer::(\w+)\(", found[0])[1]
    raise Bad(f"no method {maker} of Performed")


def answers(crates):
    """{call: the case of `Answer` that `run` gives it}."""
    run, text = function_of(source(crates, PERFORMED), "run"), source(crates, ANSWERED)
    found = {}
    for call, maker, crate, callee in re.findall(r"Call::(\w+)(?:\([^)]*\))? =>[^;]*?(?:;[^;]*?)?Performed::(\w+)\(\s*(?:(\w+)::(?:\w+::)*(\w+))?", run):
        if maker != "from":
            found[call] = case_of(text, maker)
            continue
        answer = re.search(r"-> (\w+)", function_of(source(crates, crate), callee))[1]
        block = re.search(rf"^impl From<{answer}> for Performed.*?^}}", text, re.M | re.S)
        if not block:
            raise Bad(f"run: no answer of {call}")
        case, inner = re.search(r"Ok\(Answer::(\w+)\(", block[0].split("fn from")[1]), re.search(r"Performed::(\w+)\(", block[0])
        found[call] = case[1] if case else case_of(text, inner[1])
    return found


def rust_numbers(crates):
    """The text of src/numbers.rs."""
    gives = answers(crates)
    out = [RUST_HEAD, "#![deny(dead_code)] // a call that Rust does not offer\n", f"use crate::call::Gives::{{{', '.join(sorted(set(gives.values())))}}};\nuse crate::call::Numbered;\n"]
    for number, call, arguments in numbers(crates):
        name = snake(call, capital=True)
        told = f'{number}, "{snake(call)}", {len(arguments)}, {gives[call]}'
        line = f"pub const {name}: Numbered = Numbered::new({told});"
        out.append(line if len(line) <= 100 else line.replace(" = ", " =\n    "))
    return "\n".join(out) + "\n"


def c_name(name):
    """The tag of a struct."""
    return "m68k_" + snake(re.sub(r"^Lent", "", name))


def c_field(field, kind):
    """A field, or a parameter by value."""
    array = ARRAY.match(kind)
    name = bare(array[1]) if array else bare(kind)
    size = f"[{array[2]}]" if array else ""
    if name in SCALARS and name not in C_TYPES:
        raise Bad(f"no type of C for {field}: {kind}")
    return f"{C_TYPES.get(name) or 'struct ' + c_name(name)} {field}{size}"


def c_function(name, args, answer):
    """The declaration of an exported function."""
    given = []
    for parameter, kind in args:
        lent = LENDING.match(kind)
        if not lent:
            given.append(c_field(parameter, kind))
            continue
        target = c_field("", lent[2] or lent[3]).rstrip()
        given.append(f"{'' if lent[1] else 'const '}{target} *{parameter}")
        if lent[2]:
            given.append(f"size_t {parameter}_len")
    if name not in C_SAYS:
        raise Bad(f"C_SAYS has no sentence for {name}")
    line = f"{c_field(name, answer) if answer else 'void ' + name}({', '.join(given)});"
    return f"/* {C_SAYS[name]} */\n{line}\n"


def c_header(crates):
    """The text of include/m68k.h."""
    layout, exports = exported(crates, LENT)
    out = [C_HEAD]
    for name, fields in layout.structs.items():
        out.append(f"struct {c_name(name)} {{")
        out += [f"    {c_field(field, kind)};" for field, kind in fields]
        out.append("};\n")
    out.append(C_ASSERT)
    out.append(f'M68K_ASSERT(sizeof(size_t) == {SCALARS["usize"]}, "size_t");')
    for name in layout.structs:
        size, _, offsets = layout.struct(name)
        tag = "struct " + c_name(name)
        out.append(f'M68K_ASSERT(sizeof({tag}) == {size}, "{c_name(name)}");')
        out += [f'M68K_ASSERT(offsetof({tag}, {field}) == {at}, "{field}");' for field, at in offsets]
    out.append("#undef M68K_ASSERT\n#endif\n")
    out.append("/* The calls by number, with their arguments: a byte or a word is the low bits of its argument, a flag is set where it is not 0, a\n"
               " * cause is 0 for none or 1 to 8. `answer` is what stands behind the arrow. */\nenum m68k_number {")
    gives = answers(crates)
    for number, call, arguments in numbers(crates):
        told = ", ".join(f"{letter} {sort}" for letter, sort in arguments)
        sort = {"Done": "0"}.get(gives[call], gives[call].lower())
        out.append(f"    M68K_{snake(call, capital=True)} = {number}, /* {told + ' ' if told else ''}-> {sort} */")
    out[-1] = out[-1].replace(", /*", " /*", 1)
    out.append("};\n")
    out += [c_function(*export) for export in exports]
    out.append("#ifdef __cplusplus\n}\n#endif\n\n#endif")
    return "\n".join(out) + "\n"


FILES = [
    ("src/mirror.rs", lambda crates: rust_mirror(crates, LENT)),
    ("src/numbers.rs", rust_numbers),
    ("include/m68k.h", c_header),
    ("leaves/src/mirror.rs", lambda crates: rust_mirror(crates, LEAVES)),
]


def main(args):
    check = "--check" in args
    args = [a for a in args if a != "--check"]
    crates = HERE.parent / "crates"
    if len(args) == 2 and args[0] == "--crates":
        crates = pathlib.Path(args[1])
    elif args:
        print(__doc__.split("\n\n")[2])
        return 2
    try:
        texts = [(HERE / name, made(crates)) for name, made in FILES]
    except Bad as bad:
        print(f"mirror: error: {bad}")
        return 1
    wrong = [file for file, text in texts if not file.is_file() or file.read_text() != text]
    names = ", ".join(name for name, _ in FILES)
    if not check:
        for file, text in texts:
            file.parent.mkdir(exist_ok=True)
            file.write_text(text)
        print(f"mirror: wrote {names}")
        return 0
    for file in wrong:
        print(f"mirror: error: {file.relative_to(HERE)} is not what the sources give: run host/mirror.py")
    if not wrong:
        print(f"mirror: {names} are what the sources give")
    return 1 if wrong else 0


if __name__ == "__main__":
    sys.exit(main(sys.argv[1:]))
