#!/usr/bin/env python3
"""Counts the places in src/ that docs/DESIGN-PASS.md speaks of, point by point.

    tools/places.py [POINT ..] [--list]     of this tree; --list names each place
    tools/places.py --at COMMIT [POINT ..]  of a commit, read through git

It goes by the text of the code, so it finds what looks like a place; docs/DESIGN-PASS.md says of each that is left why it stays.
"""
import collections
import re
import subprocess
import sys
from pathlib import Path

TOP = Path(__file__).resolve().parent.parent
WHOLE = {'u8', 'u16', 'u32', 'u64', 'usize', 'i32', 'bool', 'i64', 'u128'}


def sources(commit):
    """Path and text of each file of src/."""
    if commit is None:
        for p in sorted(TOP.glob('crates/*/src/**/*.rt')):
            yield str(p.relative_to(TOP)), p.read_text()
        return
    run = lambda *a: subprocess.run(['git', '-C', str(TOP), *a], check=True, capture_output=True, text=True).stdout
    for name in run('ls-tree', '-r', '--name-only', commit).split('\n'):
        if re.fullmatch(r'crates/\w+/src/.*\.rt', name):
            yield name, run('show', f'{commit}:{name}')


def bare(text):
    """The text without comments and ghost lines."""
    text = re.sub(r'//[^\n]*', '', text)
    return re.sub(r'^ghost use [^;]*;', '', text, flags=re.M)


def block(text, at):
    """The text in the braces that open at or after a place, and the place behind them."""
    start = text.index('{', at)
    depth, i = 0, start
    while True:
        if text[i] == '{':
            depth += 1
        elif text[i] == '}':
            depth -= 1
            if depth == 0:
                return text[start + 1:i], i + 1
        i += 1


class Function:
    """A function: its name, parameters, result, clauses and body."""

    def __init__(self, path, name, parameters, result, clauses, body, line):
        self.path, self.name, self.parameters, self.result = path, name, parameters, result
        self.clauses, self.body, self.line = clauses, body, line

    def place(self):
        return f'{self.path}:{self.line} {self.name}'


def functions(path, text):
    """Every function with a body."""
    for m in re.finditer(r'\bfn (\w+)', text):
        i = m.end()
        if text[i] == '<':
            i = text.index('(', i)
        if text[i] != '(':
            continue
        depth, j = 0, i
        while True:
            depth += {'(': 1, ')': -1}.get(text[j], 0)
            if depth == 0:
                break
            j += 1
        parameters = text[i + 1:j]
        k, clauses, result = j + 1, [], ''
        head = re.compile(r'\s*->\s*')
        h = head.match(text, k)
        if h:
            k = h.end()
            e = re.compile(r'\s*(requires|ensures)\b|\s*\{|\s*where\b').search(text, k)
            result, k = text[k:e.start()].strip(), e.start()
        clause = re.compile(r'\s*(requires|ensures)\*?\s*(\w+)?\s*(?=\{)')
        while True:
            c = clause.match(text, k)
            if not c:
                break
            inside, k = block(text, c.end())
            clauses.append((c.group(1), ' '.join(inside.split())))
        if ';' in text[k:k + 2] or '{' not in text[k:]:
            continue
        body, _ = block(text, k)
        yield Function(path, m.group(1), ' '.join(parameters.split()), result, clauses, body, text.count('\n', 0, m.start()) + 1)


def tokens(text):
    return re.findall(r'\w+|[^\w\s]', text)


def fields(text):
    """Struct, its line, and each field with its type."""
    for m in re.finditer(r'\bstruct (\w+)[^;{(]*\{', text):
        inside, _ = block(text, m.end() - 1)
        yield m.group(1), text.count('\n', 0, m.start()) + 1, re.findall(r'(?:pub )?(\w+): ([^,]+),', inside)


def point1(path, text, fns):
    """Enums of the shape of Option or Result; flags beside values; numbers for kinds and refusals."""
    for m in re.finditer(r'\benum (\w+)[^{]*\{', text):
        inside, _ = block(text, m.end() - 1)
        units = re.findall(r'(?m)^\s*(\w+),', inside)
        line = text.count('\n', 0, m.start()) + 1
        if set(units) & {'Absent', 'Not', 'Unknown', 'Wrong', 'Nothing'} or 'Refused' in inside:
            yield 'enum', f'{path}:{line} {m.group(1)}'
    for name, line, members in fields(text):
        flags = [f for f, t in members if t.strip() in ('bool', 'u8') and f in ('ok', 'some', 'more', 'fast', 'calm', 'idle', 'trace', 'taken')]
        flags += [f for f, t in members if f == 'refused']
        if flags and len(members) > 1:
            yield 'flag', f'{path}:{line} {name}: {" ".join(flags)}'
        kinds = [f for f, t in members if t.strip() in ('u8', 'u32') and f in ('mode', 'way', 'shape', 'kind', 'cpu_type', 'pending_fault_cause', 'number')]
        if kinds:
            yield 'kind', f'{path}:{line} {name}: {" ".join(kinds)}'
    for f in fns:
        if re.search(r'refus', f.name) and f.result in ('u32', 'u8'):
            yield 'refusal', f.place()
        if re.search(r'Refused\(u32\)', f.body):
            yield 'refusal', f.place()
    for m in re.finditer(r'Refused\((u32|u8)\)', text):
        yield 'refusal', f'{path}:{text.count(chr(10), 0, m.start()) + 1} Refused'


def shape(f):
    """A body with its numbers, types and local names made alike."""
    names, out = {}, []
    for t in tokens(f.parameters + ' ; ' + f.result + ' ; ' + f.body):
        if re.fullmatch(r'0x[0-9A-Fa-f_]+|\d\w*', t):
            out.append('#')
        elif t in WHOLE:
            out.append('T')
        elif re.fullmatch(r'[A-Z][A-Z0-9_]*', t):
            out.append('#')
        elif t in ('mut', 'let', 'if', 'else', 'return', 'match', 'while', 'as', 'for', 'in', 'true', 'false', 'self', 'Self'):
            out.append(t)
        elif re.fullmatch(r'\w+', t):
            out.append(names.setdefault(t, f'n{len(names)}'))
        else:
            out.append(t)
    return ' '.join(out)


def point2(every):
    """Functions alike but for types, sizes, constants and names; each beyond the first of its group is a place."""
    groups = collections.defaultdict(list)
    for f in every:
        s = shape(f)
        if len(s.split()) >= 24:
            groups[s].append(f)
    for g in groups.values():
        for f in g[1:]:
            yield 'function', f'{f.place()} as {g[0].place()}'


def point3(path, text, fns):
    """Loops with `while` or `loop`, and recursion on a count."""
    for f in fns:
        for m in re.finditer(r'\b(while|loop)\b', f.body):
            yield m.group(1), f.place()
        if re.search(rf'(?<![.:\w]){f.name}\([^;]*- 1', f.body):
            yield 'recursion', f.place()


def point4(path, text, fns):
    """Functions that only convert, compare or print."""
    for f in fns:
        body = ' '.join(f.body.split())
        if re.fullmatch(r'\(?\w+( % \w+)?\)? as \w+', body) or re.fullmatch(r'if \w+ \{ return 1; \} 0', body) or re.fullmatch(r'\w+ != 0', body):
            yield 'conversion', f.place()
        elif re.search(r'\b(cause_number|cause_of|numbers|signed|decode)\b', f.name):
            yield 'conversion', f.place()
        elif re.search(r'(raise|lower)\.rt', f.path):
            yield 'conversion', f.place()
        elif re.search(r'\bsame_words\b|\bsame_case\b', f.name):
            yield 'equality', f.place()


def point5(every):
    """Facts required by three functions or more, and parameters that travel together through ten or more."""
    facts = collections.Counter()
    for f in every:
        for kind, c in f.clauses:
            if kind == 'requires':
                for part in re.split(r' × ', c.strip('() ')):
                    facts[re.sub(r'\b\d+\b|0x\w+', '#', part.strip('() '))] += 1
    for fact, n in sorted(facts.items(), key=lambda x: -x[1]):
        if n >= 3:
            yield 'fact', f'{n} times: {fact}'
    together = collections.Counter()
    for f in every:
        names = [p.split(':')[0].strip().replace('mut ', '') for p in f.parameters.split(',')]
        for a, b in zip(names, names[1:]):
            together[(a, b)] += 1
    for (a, b), n in sorted(together.items(), key=lambda x: -x[1]):
        if n >= 10:
            yield 'parameters', f'{n} times: {a}, {b}'


def point6(path, text, fns):
    """Arrays with a count beside them, parallel arrays, buffers with a place."""
    for name, line, members in fields(text):
        arrays = [f for f, t in members if re.match(r'\[.*; *\w+\]|&', t.strip())]
        counts = [f for f, t in members if f in ('count', 'windows', 'kept', 'at', 'used', 'next', 'prefetch_count') and t.strip() in WHOLE]
        if counts:
            yield 'count', f'{path}:{line} {name}: {" ".join(counts)}'
        kinds = collections.Counter(t.strip() for f, t in members if f in arrays)
        if any(n > 1 for n in kinds.values()) and counts:
            yield 'parallel', f'{path}:{line} {name}'
    for f in fns:
        if re.search(r'\bout: &mut \[u8\], at: usize', f.parameters):
            yield 'buffer', f.place()


def point7(path, text, fns):
    """Chains of tests of one value against literals."""
    for f in fns:
        tests = collections.Counter(re.findall(r'if (?:\w+ && )?([\w.]+) == (?:\w+::)*[\dA-Zx]', f.body))
        for value, n in tests.items():
            if n >= 3:
                yield 'tests', f'{f.place()}: {n} of {value}'


POINTS = {1: point1, 2: point2, 3: point3, 4: point4, 5: point5, 6: point6, 7: point7}


def places(commit, wanted):
    every = []
    found = {p: [] for p in wanted}
    for path, text in sources(commit):
        text = bare(text)
        fns = list(functions(path, text))
        every += fns
        for p in wanted:
            if p not in (2, 5):
                found[p] += list(POINTS[p](path, text, fns))
    for p in wanted:
        if p in (2, 5):
            found[p] += list(POINTS[p](every))
    return found


def main(words):
    commit = None
    if '--at' in words:
        i = words.index('--at')
        commit = words[i + 1]
        words = words[:i] + words[i + 2:]
    wanted = [int(w) for w in words if w.isdigit()] or sorted(POINTS)
    for p, list_ in places(commit, wanted).items():
        sorts = collections.Counter(s for s, _ in list_)
        print(f'point {p}: {len(list_)} places' + (' (' + ', '.join(f'{n} {s}' for s, n in sorts.items()) + ')' if list_ else ''))
        if '--list' in words:
            for s, where in list_:
                print(f'    {s}: {where}')


if __name__ == '__main__':
    main(sys.argv[1:])
