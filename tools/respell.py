#!/usr/bin/env python3
"""Brings the repository's own definitions and lemmas to the spelling of the Rattle that docs/PORT.md names: snake case for what is no type,
the suffix `_lem` where a lemma would have the name of a definition. Run once, at the top, right after port.py; what it can't tell apart stands in
the tables below. The text of the must-fail edits is brought over too, which port.py leaves alone; it says which no longer fit.

usage: tools/respell.py            respells crates/ and docs/, and says which files have one name for two things, and which edits fit no text
       tools/respell.py --map      prints the old and the new names, and writes nothing
"""

import collections
import glob
import os
import re
import subprocess
import sys

ROOT = os.path.dirname(os.path.dirname(os.path.realpath(__file__)))
SIGNATURE = re.compile(r"^\s*(?:(?:unfoldable|abbrev|pub|pattern)\s+)*([^\s:(){}⟦⟧;,λ]+)\s*(?:\{[^}]*\}\s*)?:\s")
RECORD = re.compile(r"^\s*(?:pub\s+)?(?:record|data)\s+([^\s:(){}]+)")
TOKEN = re.compile(r"[^\s(){}\[\],;.«»\"⟨⟩`:]+")
WORDS = {"let", "in", "where", "use", "module"}
# a tactic of antt, and a lemma of its library, have these names
TAKEN = {"first_of": "first_number", "take_all": "taken_all"}
# Names that port.py had spelled with `_` already, of a lemma, where a definition gets the same name: the lemma is told apart by the module
# that declares it.
LEMMAS = ["by_number", "entered_by", "first_frame", "frame_is", "kept_second", "odd_base", "of_entry", "of_service", "read_at", "second_from"]


def files(*kinds):
    for kind in kinds:
        for p in sorted(glob.glob(os.path.join(ROOT, "crates", "*", "**", "*" + kind), recursive=True)):
            if "/out/" not in p and os.path.isfile(p):
                yield p


def text(p):
    with open(p, encoding="utf-8") as f:
        return f.read()


def is_answer(p):
    """Whether a file answers the goals of a function: its names are those of the goals."""
    folder, name = os.path.split(p)
    return name in ("Proof.antt", "Answers.antt", "Invariants.antt") and os.path.basename(folder) not in ("specs", "proofs")


def declared(p):
    for line in text(p).split("\n"):
        m = RECORD.match(line) or SIGNATURE.match(line)
        if m and m.group(1) not in WORDS:
            yield m.group(1)


def snake(name):
    name = re.sub(r"(?<=[a-z0-9])[A-Z]", lambda m: "_" + m.group(0).lower(), name.replace("-", "_"))
    return re.sub(r"[A-Z]", lambda m: m.group(0).lower(), name)


def is_type(name):
    return name[0].isupper()


def table():
    """The new name of each declared name that gets one, and the files that declare each name."""
    at = collections.defaultdict(set)
    for p in files(".antt"):
        if not is_answer(p):
            for n in declared(p):
                at[n].add(p)
    new = {}
    definitions = {snake(n) for n in at if not is_type(n) and "-" not in n}
    for n in at:
        if is_type(n):
            continue
        s = snake(n)
        if "-" in n and s in definitions:
            s += "_lem"
        s = TAKEN.get(s, s)
        if s != n:
            new[n] = s
    return new, at


def local(m):
    """A name that is declared nowhere: a binder, an alias or a constructor."""
    return snake(m.group(0)) if re.fullmatch(r"[a-z]\w*[A-Z]\w*'?", m.group(0)) else m.group(0)


def respell(t, new, prose=True):
    """The text t with its tokens renamed; in comments a name with a dash only between backquotes, for prose has such words too."""
    def swap(m):
        return new.get(m.group(0), m.group(0))

    def comment(m):
        c = re.sub(r"`[^`\n]*`", lambda k: TOKEN.sub(swap, k.group(0)), m.group(0))
        return TOKEN.sub(lambda k: new.get(k.group(0), k.group(0)) if "-" not in k.group(0) else k.group(0), c)

    out = []
    for line in t.split("\n"):
        cut = re.search(r"(^|\s)(--|//)(\s|$)", line) if prose else None
        if cut:
            head, tail = line[: cut.start(2)], line[cut.start(2):]
            out.append(TOKEN.sub(swap, head) + comment(re.match(r"(?s).*", tail)))
        else:
            out.append(TOKEN.sub(swap, line))
    return "\n".join(out)


def module(p):
    crate, rest = re.match(r".*/crates/(\w+)/(.*)\.antt$", p).groups()
    return f"Rattle.{crate}." + rest.replace("/", ".")


def users(name, at):
    """The files that declare a lemma, and those that import it from there."""
    own = {module(p) for p in at[name]}
    for p in files(".antt"):
        if p in at[name]:
            yield p
            continue
        for m in re.finditer(r"^\s*(?:ghost )?use ([^\s{]+)\.\{([^}]*)\}", text(p), re.M):
            if m.group(1) in own and name in re.split(r"[\s,]+", m.group(2)):
                yield p
                break


def twice():
    """Names that one file has for two things: imported twice, or imported and declared."""
    for p in files(".antt", ".rt"):
        seen = collections.defaultdict(set)
        for m in re.finditer(r"^\s*(?:ghost )?use ([^\s{]+)\.\{([^}]*)\}", text(p), re.M):
            for n in m.group(2).split(","):
                n = n.strip()
                if n:
                    seen[n.split(" as ")[-1].strip()].add(m.group(1))
        if p.endswith(".antt") and not is_answer(p):
            for line in text(p).split("\n"):
                m = RECORD.match(line) or SIGNATURE.match(line)
                if m and not line[0].isspace():
                    seen[m.group(1)].add(p)
        for n, k in seen.items():
            if len(k) > 1 and n not in WORDS:
                yield f"{os.path.relpath(p, ROOT)}: {n}"


# How port.py spells what stands in the edits.
EDITS = [
    (r"Rattle·(\w+)(?:·specs\.specs|\.specs)\.", r"Rattle.\1.specs."),
    (r"\b_([-+*/%^])_", "◌\\1◌"),
    (r"\((\w+ \w+|\w+ \(\w+ \w+\)|\w+ \w+ \w+) \.«?(\w+)»?\)", r"(\1).\2"),
    (r"(?<=[\w)′']) \.«?(\w+)»?", r".\1"),
    (r"(?<=[ (])\((\w+(?:\.\w+)+)\)", r"\1"),
    (r"\bnow \(?(\w+)\.exit\)?", r"\1.new"),
    (r"\bnow \(?(\w+)\.entry\)?", r"\1.old"),
    (r"\((\w+\.(?:new|old))\)", r"\1"),
    (r"(?<=[( ])r ≡ ", "result ≡ "),
    (r" r ≡ ", " result ≡ "),
    (r" ⌝$", " }"),
    (r"\bgetD\b", "get_or"),
    (r"\bPrim\.Native\.Nat\b", "Rattle.std.specs.Prelude"),
    ("′", "'"),
]


def turn_edits(new):
    """The text of the must-fail edits in the new spelling, and the edits whose old text doesn't stand once in its file."""
    for p in sorted(glob.glob(os.path.join(ROOT, "crates", "*", "must-fail*", "*.edit"))):
        lines = text(p).split("\n")
        for i, line in enumerate(lines):
            m = re.match(r"(old|new): (.*)", line)
            if m:
                body = m.group(2)
                for a, b in EDITS:
                    body = re.sub(a, b, body)
                body = TOKEN.sub(local, respell(body, new, False))
                lines[i] = m.group(1) + ": " + body
        with open(p, "w", encoding="utf-8") as f:
            f.write("\n".join(lines))
        crate = os.path.dirname(os.path.dirname(p))
        name = re.search(r"^file: (.*)$", text(p), re.M).group(1)
        body = text(os.path.join(crate, name))
        for a, b in re.findall(r"^old: ?(.*)\nnew: ?(.*)$", text(p), re.M):
            if body.count(a) != 1:
                yield os.path.relpath(p, ROOT)
                break
            body = body.replace(a, b)


def main(argv):
    new, at = table()
    if argv == ["--map"]:
        for n in sorted(new):
            print(n, new[n])
        return 0
    if argv:
        print(__doc__)
        return 2
    before = set(twice())
    for name in LEMMAS:
        for p in list(users(name, at)):
            t = text(p)
            with open(p, "w", encoding="utf-8") as f:
                f.write(respell(t, {name: name + "_lem"}))
    for p in files(".antt", ".rt"):
        t = text(p)
        u = respell(t, new)
        if p.endswith(".antt"):
            u = "\n".join(line if re.search(r"(^|\s)--(\s|$)", line) and "`" in line else TOKEN.sub(local, line) for line in u.split("\n"))
        if u != t:
            with open(p, "w", encoding="utf-8") as f:
                f.write(u)
    for p in sorted(glob.glob(os.path.join(ROOT, "docs", "*.md"))) + [os.path.join(ROOT, "README.md")]:
        if os.path.basename(p) == "PORT.md":
            continue
        t = text(p)
        u = re.sub(r"`[^`\n]*`", lambda m: TOKEN.sub(lambda k: new.get(k.group(0), k.group(0)), m.group(0)), t)
        if u != t:
            with open(p, "w", encoding="utf-8") as f:
                f.write(u)
    for p in sorted(glob.glob(os.path.join(ROOT, "crates", "*", "src"))):
        subprocess.run(["rt", "fmt"], cwd=os.path.dirname(p), stdout=subprocess.DEVNULL, stderr=subprocess.DEVNULL)
    loose = list(turn_edits(new))
    print("\n".join(loose))
    fallen = sorted(set(twice()) - before)
    print("\n".join(fallen))
    print(f"respell: {len(new)} names, {len(fallen)} that fall together, {len(loose)} edits that fit no text")
    return 1 if fallen else 0


if __name__ == "__main__":
    raise SystemExit(main(sys.argv[1:]))
