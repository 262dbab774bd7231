#!/usr/bin/env python3
"""sample.py SEED ACCEPTED REFUSED RETURNS REFUSED_RETURNS LISTS OUT [ORACLE]: recorded answers of the oracle, for crates/replay.

Takes the examples beside it (examples.txt), then cases of `oracle gen SEED ..` whose store has at most 512 bytes, whose log has at most
192 words and whose rows have at most 32, asks `oracle run` for each answer, and writes them to OUT (crates/replay/data/sample.bin), with
how it was done in README.txt beside it: of the generated calls so many that are accepted, spread evenly over the calls and the kinds, then
so many that are refused, spread over the numbers, then the calls and the kinds; then of the returns and walks so many of each in the same
way; then so many whole lists of `oracle nests SEED ..` whose walks fit, a case a step. Some of the answers stand in spoiled.bin beside it too, with one thing wrong each. tools/sample.sh has the seed and the counts.
ORACLE is the binary, by default target/oracle/release/oracle. The same seed, counts and oracle give the same bytes.

A case is two bytes of length (high byte first) and so many bytes: numbers of one to five bytes. A byte below 251 is the number;
251 stands for ffffffff; 252, 253 and 254 come before one, two and four bytes, high byte first. In this order:
  words      pairs: the words of the case that are not 0
  bytes      pairs: the bytes of the store that its patches lay over the filling
  words      pairs: the words that the call changed, its answer and number of events among them
  bytes      pairs: the bytes of the store that the call changed
  log        the words of the events, three each
  rows       the words of the rows, four each; of a return its one row, four words of 0 where it was refused
Pairs are a count, and for each how far on its place is from the one before (the first: from 0) and its value; log and rows are a count
and its words. The words' places are those below and in crates/replay/src/record.rt. Every fourth case starts with a count of events in
its bus, as an earlier call would leave it: an accepted call does not mind it, a refused one leaves it, returns and walks leave it too.
"""
import collections
import hashlib
import itertools
import os
import subprocess
import sys

HERE = os.path.dirname(os.path.abspath(__file__))
ROOT = os.path.dirname(HERE)
# The store of crates/replay, and the most that a generated case may have, which keeps the file small.
STORE = 65536
SMALL = 512
LOG = 192
ROWS = 32
CASE = 4096

# The numbers of crates/boundary: those of the list of calls in the text format.
CALLS = ['take_exception', 'trap', 'take_group2_exception', 'exception_chk', 'exception_zero_divide', 'exception_privilege',
         'exception_trace', 'exception_address_error', 'exception_bus_error', 'take_fp_unimp_060', 'take_fp_disabled_060',
         'take_aline_exception', 'take_fline_exception', 'take_trap_exception', 'take_bkpt_exception', 'take_illegal_exception',
         'trigger_address_error', 'trigger_bus_error', 'check_trace', 'set_irq', 'check_interrupts', 'check_and_service_interrupts',
         'read_16', 'read_32', 'write_16', 'write_32', 'push_16', 'push_32', 'prefetch_first', 'prefetch_second']
# Return and walk are functions of their own there; the numbers are the replay's.
RETURNS = {'return': 200, 'walk': 201}
NUMBERS = {**{name: i + 1 for i, name in enumerate(CALLS)}, **RETURNS}

# Fields of the record: name, place, and how many words.
PLAIN = [('dar', 0, 16), ('dar_save', 16, 16), ('sp', 32, 8), ('ppc', 40, 1), ('pc', 41, 1), ('vbr', 42, 1), ('ir', 43, 1),
         ('fpiar', 44, 1), ('run_mode', 46, 1), ('stopped', 47, 1), ('exception_processing', 48, 1), ('change_of_flow', 49, 1),
         ('loop_mode', 50, 1), ('t1_flag', 52, 1), ('t0_flag', 53, 1), ('s_flag', 54, 1), ('m_flag', 55, 1), ('x_flag', 56, 1),
         ('n_flag', 57, 1), ('not_z_flag', 58, 1), ('v_flag', 59, 1), ('c_flag', 60, 1), ('int_mask', 61, 1), ('int_level', 62, 1),
         ('sr_save', 63, 1), ('prefetch_queue', 64, 2), ('prefetch_count', 66, 1), ('pending_sync_clocks', 67, 1),
         ('precise_bus', 68, 1), ('pending_fault_cause', 73, 1), ('pending_fault_wdata', 76, 1)]
# Options: a flag, then so many words, 0 where the flag is.
OPTIONS = [('instruction_exception_vector', 69, 1), ('last_exception_vector', 71, 1), ('mmu_fc_override', 74, 1),
           ('fault_resume', 77, 18)]
KIND, CYCLES = 45, 51
# What an answer may say; the status follows from the flags.
ANSWERED = {'refused', 'ans', 'nev', 'ev', 'rows', 'chg', 'status', 'kind', 'cycles_remaining'} | {x[0] for x in PLAIN + OPTIONS}
BASE, WINDOWS, STARTS, LENGTHS, RESPONSES, EVENTS, LENGTH, FILL = 96, 97, 98, 106, 114, 122, 123, 124
# What the call says: its refusal, answer and number of events. EVENTS above is the count that the bus holds.
REFUSED, ANSWER, SAID_EVENTS = 125, 126, 127
NUMBER, ARGUMENTS = 128, 129
# Words that the lent log has less than 192.
LACKING = 134
WORDS = 136


def fields(line):
    return dict(pair.split('=', 1) for pair in line.split())


def items(value):
    return [] if value == '-' else value.split(',')


def put_record(words, f):
    """Lays the fields of the record that f has over the words."""
    for name, at, n in PLAIN:
        if name in f:
            values = [int(x, 16) for x in f[name].split('.')]
            if len(values) != n:
                raise SystemExit('sample.py: %s has %d values' % (name, len(values)))
            words[at:at + n] = values
    for name, at, n in OPTIONS:
        if name in f:
            values = [0] * (n + 1)
            if f[name] != '-':
                values = [1] + [int(x, 16) for x in f[name].split('.')]
            if len(values) != n + 1:
                raise SystemExit('sample.py: %s has %d values' % (name, len(values)))
            words[at:at + n + 1] = values
    if 'cycles_remaining' in f:
        words[CYCLES] = int(f['cycles_remaining']) % 2**32


def start_words(f):
    words = [0] * WORDS
    put_record(words, f)
    words[KIND] = int(f['kind'])
    words[BASE] = int(f['base'], 16)
    windows = [w.split(':') for w in items(f['win'])]
    words[WINDOWS] = len(windows)
    # More than eight are refused for their number, and the bus has no place for them.
    for i, (start, length) in enumerate(windows[:8]):
        words[STARTS + i] = int(start, 16)
        words[LENGTHS + i] = int(length, 16)
    words[RESPONSES:RESPONSES + 8] = [int(x, 16) for x in f['ack'].split('.')]
    words[LENGTH] = int(f['len'])
    words[FILL] = int(f['fill'], 16)
    call = f['call'].split(':')
    words[NUMBER] = NUMBERS[call[0]]
    for i, x in enumerate(call[1:]):
        words[ARGUMENTS + i] = int(x, 16)
    words[LACKING] = LOG - int(f['log'])
    return words


def fill_byte(i, fill):
    return ((i * 31 + fill) ^ (i >> 8)) & 0xFF if fill else 0


def filling(f):
    fill = int(f['fill'], 16)
    n = int(f['len'])
    return bytearray(fill_byte(i, fill) for i in range(min(n, STORE))), n


def lay(store, n, text):
    for run in items(text):
        at, data = run.split(':')
        data = bytes.fromhex(data)
        at = int(at, 16)
        for i, b in enumerate(data):
            if at + i < n:
                store[at + i] = b


def number(n):
    if n < 251:
        return bytes([n])
    if n == 0xFFFFFFFF:
        return b'\xfb'
    if n < 256:
        return bytes([252, n])
    if n < 65536:
        return b'\xfd' + n.to_bytes(2, 'big')
    return b'\xfe' + n.to_bytes(4, 'big')


def pairs(old, new):
    out = b''
    last = 0
    count = 0
    for i, (a, b) in enumerate(zip(old, new)):
        if a != b:
            out += number(i - last) + number(b)
            last = i
            count += 1
    return number(count) + out


# A case and its answer: the words, the filling, the store with the patches; the words and the store after the call, the words of log
# and rows.
Case = collections.namedtuple('Case', 'words filled store after changed log rows')


def name_of(f):
    return f['call'].split(':')[0]


def row_words(f, o):
    """The words of the rows that an answer has; of a refused return those of none."""
    rows = [int(x, 16) for r in items(o['rows']) for x in r.split('.')]
    if name_of(f) == 'return' and not rows:
        rows = [0] * 4
    count = {'return': 1, 'walk': int(o['ans'])}.get(name_of(f), 0)
    if len(rows) != 4 * count or len(rows) > ROWS:
        raise SystemExit('sample.py: %d row words of %d rows' % (len(rows), count))
    return rows


def case_of(f, o, held):
    """A case that starts with a count of events in its bus, and its answer."""
    words = start_words(f)
    words[EVENTS] = held
    filled, n = filling(f)
    store = bytearray(filled)
    lay(store, n, f['patch'])
    after = list(words)
    if not set(o) <= ANSWERED:
        raise SystemExit('sample.py: an answer that says more: %s' % (set(o) - ANSWERED))
    put_record(after, o)
    after[KIND] = int(o.get('kind', f['kind']))
    after[SAID_EVENTS] = int(o['nev'])
    after[REFUSED] = int(o['refused'])
    if after[REFUSED] == 0 and name_of(f) not in RETURNS:
        after[EVENTS] = after[SAID_EVENTS]
    after[ANSWER] = int(o['ans']) % 2**32
    changed = bytearray(store)
    lay(changed, n, o['chg'])
    log = [int(x, 16) for e in items(o['ev']) for x in e.split(':')]
    if len(log) != 3 * after[SAID_EVENTS] or len(log) > LOG:
        raise SystemExit('sample.py: %d log words of %d events' % (len(log), after[SAID_EVENTS]))
    return Case(words, filled, store, after, changed, log, row_words(f, o))


def encode(case):
    out = pairs([0] * WORDS, case.words) + pairs(case.filled, case.store) + pairs(case.words, case.after)
    out += pairs(case.store, case.changed)
    return out + b''.join(number(len(words)) + b''.join(map(number, words)) for words in (case.log, case.rows))


def framed(data):
    if len(data) > CASE:
        raise SystemExit('sample.py: a case of %d bytes' % len(data))
    return len(data).to_bytes(2, 'big') + data


def other(values, at):
    """The values with another one at a place, which may be counted from the end."""
    at %= len(values)
    return values[:at] + type(values)([values[at] ^ 1]) + values[at + 1:]


def unwritten(case, first, end):
    """The words that a log or the rows have from a place on before the call."""
    return [0xA5000000 + case.words[FILL] % 256 * 0x10000 + i for i in range(first, end)]


def spoiled_words(cases, field, most):
    """Answers whose log or rows are wrong: a word of them, the last one that lacks, one more, the last word of the buffer."""
    for at in (0, 1, 2, 3, -1):
        c = next(cases)
        yield c._replace(**{field: other(getattr(c, field), at)})
    c = next(cases)
    yield c._replace(**{field: getattr(c, field)[:-1]})
    c = next(cases)
    yield c._replace(**{field: getattr(c, field) + [0]})
    c = next(cases)
    words = getattr(c, field)
    yield c._replace(**{field: words + other(unwritten(c, len(words), most), -1)})


def spoiled_store(cases):
    """Answers whose store is wrong: the first byte, the last that is lent, the last of all."""
    for at in (0, -1):
        c = next(cases)
        yield c._replace(changed=other(c.changed, at))
    c = next(cases)
    rest = bytearray(fill_byte(i, c.words[FILL]) for i in range(len(c.store), STORE))
    yield c._replace(store=c.store + rest, changed=c.changed + other(rest, -1), filled=c.filled + rest)


def spoiled(cases):
    """Answers with one thing wrong each, for which the replay must say that they differ: of accepted calls every word of a case, log and
    store, a case that ends a byte early or late; of returns and walks, accepted or refused, some words, rows and store."""
    def some(names, refused):
        """Generated cases whose store has a byte, and whose log or rows have something and room behind it, over and over."""
        numbers = {NUMBERS[name] for name in names}
        return itertools.cycle([c for c in cases if c.words[NUMBER] in numbers and (c.after[REFUSED] != 0) == refused
                                and 0 < len(c.store) <= SMALL and (3 < len(c.log) < LOG or 4 <= len(c.rows) < ROWS)])

    calls = some(CALLS, False)
    for at in range(WORDS):
        c = next(calls)
        yield encode(c._replace(after=other(c.after, at)))
    yield from map(encode, spoiled_words(calls, 'log', LOG))
    yield from map(encode, spoiled_store(calls))
    yield encode(next(calls))[:-1]
    yield encode(next(calls)) + b'\0'
    for name in RETURNS:
        for refused in (False, True):
            back = some([name], refused)
            for at in (15, 36, 41, 54, KIND, EVENTS, REFUSED, ANSWER, SAID_EVENTS):
                c = next(back)
                yield encode(c._replace(after=other(c.after, at)))
            yield from map(encode, spoiled_words(back, 'rows', ROWS))
            yield from map(encode, spoiled_store(back))


def wanted(f, most):
    rows = int(f['call'].split(':')[2], 16) if name_of(f) == 'walk' else 0
    return int(f['len']) <= most and int(f['log']) <= LOG and rows <= ROWS


BANKS = {'a7': ('dar', 15), 'a7_save': ('dar_save', 15), 'usp': ('sp', 0), 'isp': ('sp', 4), 'msp': ('sp', 6)}


def complete(short):
    """A short input with the fields that it leaves out: a fresh record and store, 192 log words."""
    f = {name: '.'.join(['0'] * n) for name, _, n in PLAIN}
    f.update({name: '-' for name, _, _ in OPTIONS})
    f.update(s_flag='4', not_z_flag='1', int_mask='700', precise_bus='1', cycles_remaining='0', base='0', len='65536', fill='0', patch='-',
             win='-', ack='.'.join(['ffffffff'] * 8), log='192')
    for name, value in short.items():
        if name == 'status':
            sr = int(value, 16)
            for flag, mask, one in (('t1_flag', 0x8000, 0x8000), ('t0_flag', 0x4000, 0x4000), ('s_flag', 0x2000, 4), ('m_flag', 0x1000, 2),
                                    ('x_flag', 16, 256), ('n_flag', 8, 128), ('v_flag', 2, 128), ('c_flag', 1, 256)):
                f[flag] = '%x' % (one if sr & mask else 0)
            f['int_mask'], f['not_z_flag'] = '%x' % (sr & 0x700), '0' if sr & 4 else '1'
        elif name in BANKS:
            field, k = BANKS[name]
            values = f[field].split('.')
            values[k] = value
            f[field] = '.'.join(values)
        else:
            f[name] = value
    return f


def examples():
    with open(os.path.join(HERE, 'examples.txt'), encoding='utf-8') as file:
        lines = [line.split(' => ')[0] for line in file if line.startswith('call=')]
    return [line for line in lines if wanted(complete(fields(line)), STORE)]


def turns(lists):
    """One of each list in turn, as long as any has one left."""
    for turn in range(max(map(len, lists), default=0)):
        yield from (one[turn] for one in lists if turn < len(one))


def spread(cells):
    """The cases of one number: turn by turn one of each call, of another kind each time and from call to call."""
    by_call = collections.defaultdict(dict)
    for (call, kind), cases in cells.items():
        by_call[call][kind] = cases
    lists = []
    for call in sorted(by_call, key=NUMBERS.get):
        kinds = sorted(by_call[call])
        first = len(lists) % len(kinds)
        lists.append(list(turns([by_call[call][kind] for kind in kinds[first:] + kinds[:first]])))
    return list(turns(lists))


def take(name, count, cases):
    if len(cases) < count:
        raise SystemExit('sample.py: only %d cases that are %s' % (len(cases), name))
    return cases[:count]


def choose(cells, accepted, refused):
    """So many cases of each sort, of cells by number, then by call and kind."""
    first = cells[0]
    chosen = take('accepted', accepted, list(turns([first[k] for k in sorted(first, key=lambda k: (NUMBERS[k[0]], k[1]))])))
    return chosen + take('refused', refused, list(turns([spread(cells[number]) for number in sorted(cells) if number])))


def run(oracle, words, text=None):
    env = {k: v for k, v in os.environ.items() if k != 'M68K_DIAG_ADDRESS_ERROR'}
    return subprocess.run([oracle] + words, input=text, capture_output=True, text=True, check=True, env=env).stdout.splitlines()


def nests(oracle, seed, count):
    """The cases of so many lists, each list whole and in its order."""
    lists = []
    for line in run(oracle, ['nests', seed, str(2 * count)]):
        if line.startswith('#'):
            lists.append([])
        else:
            lists[-1].append(line.split(' => ')[0])
    fit = [one for one in lists if all(wanted(fields(given), STORE) for given in one)]
    return [given for one in take('lists', count, fit) for given in one]


def main():
    if len(sys.argv) not in (8, 9):
        raise SystemExit('usage: sample.py SEED ACCEPTED REFUSED RETURNS REFUSED_RETURNS LISTS OUT [ORACLE]')
    seed, counts_of, out = sys.argv[1], [int(n) for n in sys.argv[2:7]], sys.argv[7]
    oracle = sys.argv[8] if len(sys.argv) == 9 else os.path.join(ROOT, 'target/oracle/release/oracle')
    made = (counts_of[0] + counts_of[1]) * 60
    # Calls, and returns and walks.
    cells = [collections.defaultdict(lambda: collections.defaultdict(list)) for _ in range(2)]
    for line in run(oracle, ['gen', seed, str(made)]):
        given, answer = line.split(' => ')
        f = fields(given)
        if wanted(f, SMALL):
            cells[name_of(f) in RETURNS][int(fields(answer)['refused'])][(name_of(f), int(f['kind']))].append(given)
    shown = examples()
    nested = nests(oracle, seed, counts_of[4])
    chosen = shown + choose(cells[0], *counts_of[:2]) + choose(cells[1], *counts_of[2:4]) + nested
    answers = run(oracle, ['run'], '\n'.join(chosen) + '\n')
    data, cases = bytearray(), []
    counts = collections.defaultdict(collections.Counter)
    for i, (given, answer) in enumerate(zip(chosen, answers, strict=True)):
        f, o = complete(fields(given)), fields(answer)
        cases.append(case_of(f, o, 0 if i % 4 else 1 + i % 300))
        data += framed(encode(cases[-1]))
        answered = 'refused' if int(o['refused']) else 'accepted'
        counts['call'][(name_of(f), answered)] += 1
        counts['kind'][(int(f['kind']), answered)] += 1
        counts['number'][(int(o['refused']), name_of(f) in RETURNS)] += 1
    with open(out, 'wb') as file:
        file.write(data)
    wrong = [framed(case) for case in spoiled(cases)]
    with open(os.path.join(os.path.dirname(os.path.abspath(out)), 'spoiled.bin'), 'wb') as file:
        file.write(b''.join(wrong))
    with open(os.path.join(HERE, 'LIFTED.txt'), 'rb') as file:
        lifted = hashlib.sha256(file.read()).hexdigest()
    refused = sum(n for (number_of, _), n in counts['number'].items() if number_of)
    lines = ['sample.bin: %d recorded answers of the oracle, %d of them refusals, %d bytes. The format is at the head of oracle/sample.py.'
             % (len(chosen), refused, len(data)),
             'Made by: tools/sample.sh (oracle/sample.py %s %s)' % (seed, ' '.join(map(str, counts_of))),
             'from %d examples of oracle/examples.txt and the cases of `oracle gen %s %d` with a store of' % (len(shown), seed, made),
             'at most %d bytes, a log of at most %d words and rows of at most %d, answered by `oracle run`;' % (SMALL, LOG, ROWS),
             'the last %d are %d whole lists of `oracle nests %s %d`.' % (len(nested), counts_of[4], seed, 2 * counts_of[4]),
             'SHA-256 of sample.bin: ' + hashlib.sha256(data).hexdigest(),
             'spoiled.bin: %d of these answers with one thing wrong each, on which the replay must find as many differences.' % len(wrong),
             'SHA-256 of spoiled.bin: ' + hashlib.sha256(b''.join(wrong)).hexdigest(),
             'SHA-256 of oracle/LIFTED.txt (what the oracle runs): ' + lifted,
             '', 'Cases by call, accepted and refused:']
    lines += ['  %-30s %5d %5d' % (c, counts['call'][(c, 'accepted')], counts['call'][(c, 'refused')]) for c in NUMBERS]
    lines += ['Cases by kind, accepted and refused:']
    kinds = sorted({kind for kind, _ in counts['kind']})
    lines += ['  %-30d %5d %5d' % (k, counts['kind'][(k, 'accepted')], counts['kind'][(k, 'refused')]) for k in kinds]
    lines += ['Cases by refusal, 0 for none: calls; returns and walks:']
    lines += ['  %-30d %5d %5d' % (n, counts['number'][(n, False)], counts['number'][(n, True)])
              for n in sorted({n for n, _ in counts['number']})]
    with open(os.path.join(os.path.dirname(os.path.abspath(out)), 'README.txt'), 'w') as file:
        file.write('\n'.join(lines) + '\n')
    print('%d examples, %d calls, %d returns and walks, %d of lists, %d bytes; cells filled: %d and %d'
          % (len(shown), sum(counts_of[:2]), sum(counts_of[2:4]), len(nested), len(data), len(cells[0][0]), len(cells[1][0])))


if __name__ == '__main__':
    main()
