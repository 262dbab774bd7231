#!/usr/bin/env python3
"""measure.py: counts instructions an entry with callgrind, both sides, and prints markdown tables. Run by measure.sh, which builds.

Each program makes the call of one case so many times. A return and a walk are ours and not the Rust's: the proved side alone is counted,
and its answer compared with the oracle's own. Instructions an entry are those of 2,000 turns less those of 1,000, by 1,000,
less the same of turns without the call. What happens once cancels; a count that does not divide is an error.
"""
import collections
import os
import subprocess
import sys
import tempfile

ROOT = os.path.dirname(os.path.dirname(os.path.abspath(__file__)))
SIDES = {'proved': 'target/host/measure/measure', 'Rust': 'target/oracle/measure/measure'}
TURNS = 1000
# Functions that are named of an entry, and the kind whose entries are shown so.
NAMED, SHOWN = 6, 4

# The instances of the scope: these and a handler at 2000, whose address stands at the vector's place. Last what the answer must say.
USUAL = 'status=2700 pc=1000 ppc=ffe a7=8000'
BUS_ERROR = 'exception_bus_error:1234:0:0:4:0'
INTERRUPT = 'check_and_service_interrupts'
ENTERED = {'pc': '2000'}
TRACED = {'ans': '1', 'nev': '0'}
RETURNED, WALKED = {'pc': '3000'}, {'ans': '64'}
# Frames at A7: status, address, and where the kind has it the word of format and vector.
SHORT, LONG = '270000003000', '2700000030000080'
CASES = [
    ('take_exception', 1, 'take_exception:20', 'patch=80:00002000', ENTERED),
    ('take_exception', 2, 'take_exception:20', 'patch=80:00002000', ENTERED),
    ('take_exception', 4, 'take_exception:20', 'patch=80:00002000', ENTERED),
    ('interrupt, level 7', 1, INTERRUPT, 'int_level=7 patch=7c:00002000', ENTERED),
    ('interrupt, level 7', 2, INTERRUPT, 'int_level=7 patch=7c:00002000', ENTERED),
    ('interrupt, level 7', 4, INTERRUPT, 'int_level=7 patch=7c:00002000', ENTERED),
    ('interrupt, not taken', 2, INTERRUPT, 'int_level=3', {'ans': '0', 'nev': '0'}),
    ('interrupt, not taken', 4, INTERRUPT, 'int_level=3', {'ans': '0', 'nev': '0'}),
    ('check_trace', 2, 'check_trace', 'sr_save=a700', TRACED),
    ('check_trace', 4, 'check_trace', 'sr_save=a700', TRACED),
    ('take_exception, own export', 1, 'take_exception:20', 'patch=80:00002000', ENTERED),
    ('take_exception, own export', 2, 'take_exception:20', 'patch=80:00002000', ENTERED),
    ('take_exception, own export', 4, 'take_exception:20', 'patch=80:00002000', ENTERED),
    ('interrupt, own export', 1, INTERRUPT, 'int_level=7 patch=7c:00002000', ENTERED),
    ('interrupt, own export', 2, INTERRUPT, 'int_level=7 patch=7c:00002000', ENTERED),
    ('interrupt, own export', 4, INTERRUPT, 'int_level=7 patch=7c:00002000', ENTERED),
    ('interrupt not taken, own export', 2, INTERRUPT, 'int_level=3', {'ans': '0', 'nev': '0'}),
    ('interrupt not taken, own export', 4, INTERRUPT, 'int_level=3', {'ans': '0', 'nev': '0'}),
    ('CHK', 4, 'exception_chk', 'patch=18:00002000', ENTERED),
    ('bus error', 4, BUS_ERROR, 'patch=8:00002000', ENTERED),
    ('bus error', 9, BUS_ERROR, 'patch=8:00002000', ENTERED),
    ('take_exception whose frame faults', 4, 'take_exception:20', 'a7=2', {'stopped': '1', 'run_mode': '1'}),
    ('return', 1, 'return', 'patch=8000:' + SHORT, RETURNED),
    ('return', 2, 'return', 'patch=8000:' + LONG, RETURNED),
    ('return', 4, 'return', 'patch=8000:' + LONG, RETURNED),
    ('walk of 64', 1, 'walk:40:100', 'patch=8000:' + SHORT * 64, WALKED),
    ('walk of 64', 2, 'walk:40:100', 'patch=8000:' + LONG * 64, WALKED),
    ('walk of 64', 4, 'walk:40:100', 'patch=8000:' + LONG * 64, WALKED),
]
# What the Rust has not.
OURS = 'return', 'walk'


class Bad(Exception):
    """A measurement that means nothing."""


def profile(file):
    """Instructions of each function itself, how often each was called, and instructions by function and address."""
    own, calls, at = collections.Counter(), collections.Counter(), collections.Counter()
    name = called = None
    inside = False
    for line in open(file):
        line = line.rstrip('\n')
        if line.startswith('fn='):
            name = line[3:]
        elif line.startswith('cfn='):
            called = line[4:]
        elif line.startswith('calls='):
            calls[called] += int(line[6:].split()[0])
            inside = True
        elif line.startswith('0x'):
            address, _, count = line.split()
            if not inside:
                own[name] += int(count)
                at[name, int(address, 16)] += int(count)
            inside = False
    return own, calls, at


def counted(program, what, given, turns, folder):
    """What a run prints, and its profile."""
    file = os.path.join(folder, 'out')
    command = ['valgrind', '--tool=callgrind', '--dump-instr=yes', '--compress-strings=no', '--compress-pos=no',
               '--callgrind-out-file=' + file, program, what, given, str(turns)]
    done = subprocess.run(command, capture_output=True, text=True)
    if done.returncode != 0:
        raise Bad('%s %s: %s' % (program, given, done.stderr.strip()))
    return done.stdout.strip(), *profile(file)


def each_turn(side, what, given, folder):
    """The answer, and for one turn instructions by function, calls by function and instructions by address."""
    program = os.path.join(ROOT, SIDES[side])
    answer, *once = counted(program, what, given, TURNS, folder)
    again, *twice = counted(program, what, given, 2 * TURNS, folder)
    if answer != again:
        raise Bad('%s, %s: the answer depends on the turns' % (side, given))
    for more, count in zip(twice, once):
        more.subtract(count)
        if any(n % TURNS for n in more.values()):
            raise Bad('%s, %s: not the same in each turn' % (side, given))
    return answer, *({k: n // TURNS for k, n in more.items() if n} for more in twice)


def own_answer(given):
    """What the oracle's own code answers."""
    done = subprocess.run([os.path.join(ROOT, SIDES['Rust']), 'answer', given], capture_output=True, text=True)
    if done.returncode != 0:
        raise Bad('%s: %s' % (given, done.stderr.strip()))
    return done.stdout.strip()


def short(name):
    """The copy of the C library under one name, whichever it chose; the loops too; a function that calls itself under its own."""
    name = name.split("'")[0]
    if 'memcpy' in name or 'memmove' in name:
        return 'memcpy'
    if name.endswith(('measure::calls', 'measure::copies')):
        return 'the loop'
    name = name.replace('<impl oracle::core::cpu::CpuCore>', 'CpuCore')
    return '::'.join(name.split('::')[-2:]) if name.startswith('oracle::') else name


def without(all_of, empty):
    """Counts by short name, those of the empty turn taken off."""
    left = collections.Counter()
    for sign, counts in ((1, all_of), (-1, empty)):
        for name, n in counts.items():
            left[short(name)] += sign * n
    return left


def sorts(at):
    """The instructions of the archive's functions by what they do, from the disassembly of the program."""
    with open(os.path.join(ROOT, 'crates.txt')) as file:
        crates = {line.split(':')[0].split()[0] for line in file if ':' in line and not line.startswith('#')}
    text = {}
    dump = ['objdump', '-d', '--no-show-raw-insn', os.path.join(ROOT, SIDES['proved'])]
    for line in subprocess.run(dump, capture_output=True, text=True, check=True).stdout.splitlines():
        parts = line.split(None, 2)
        if len(parts) > 1 and line.startswith(' ') and parts[0].endswith(':'):
            text[int(parts[0][:-1], 16)] = parts[1], parts[2] if len(parts) > 2 else ''
    out = collections.Counter()
    for (name, address), n in at.items():
        if name.split('::')[0] in crates or name.startswith('m68k_') and '::' not in name:
            what, operands = text[address]
            moves = what.startswith(('mov', 'vmov'))
            wide = moves and 'mm' in operands
            out['wide' if wide else 'moves' if moves else 'saves' if what in ('push', 'pop') else 'rest'] += n
    return out


def version(*command):
    return subprocess.run(command, capture_output=True, text=True, check=True).stdout.strip().splitlines()[0]


def main():
    rows, wheres = [], []
    with tempfile.TemporaryDirectory() as folder:
        given = 'call=%s kind=4 %s' % (CASES[0][2], USUAL)
        empty = {side: each_turn(side, 'copy', given, folder)[1:] for side in SIDES}
        split = None
        for what, kind, call, rest, want in CASES:
            given = 'call=%s kind=%d %s %s' % (call, kind, USUAL.replace(' a7=8000', '') if 'a7=' in rest else USUAL, rest)
            sides = ['proved'] if call.split(':')[0] in OURS else list(SIDES)
            way = {'proved': 'alone' if 'own export' in what else 'call', 'Rust': 'call'}
            found = {side: each_turn(side, way[side], given, folder) for side in sides}
            told = found['Rust'][0] if 'Rust' in found else own_answer(given)
            if found['proved'][0] != told:
                raise Bad('%s\n  proved %s\n  Rust   %s' % (given, found['proved'][0], told))
            answer = dict(pair.split('=', 1) for pair in told.split())
            if answer['refused'] != '0' or any(answer.get(name) != value for name, value in want.items()):
                raise Bad('%s: not what is to be measured: %s' % (given, told))
            own = {side: without(found[side][1], empty[side][0]) for side in sides}
            copies = without(found['proved'][2], empty['proved'][1])['memcpy']
            rust, proved = sum(own['Rust'].values()) if 'Rust' in own else None, sum(own['proved'].values())
            beside = (rust, proved, '%.2f' % (proved / rust)) if rust else ('-', proved, '-')
            rows.append((what, kind, answer['nev'], *beside, copies, own['proved']['memcpy']))
            if kind == SHOWN:
                for side in sides:
                    named = ', '.join('`%s` %d' % pair for pair in own[side].most_common(NAMED))
                    wheres.append((what, kind, side, named))
            if kind == SHOWN and split is None:
                split = what, kind, sorts(found['proved'][3])
            print('measured: ' + given, file=sys.stderr)
    table(['Entry', 'Kind', 'Events', 'Rust', 'Proved', 'Proved : Rust', 'Copies', 'Instructions in them'], rows)
    print('A turn without the call: %s.\n' % ', '.join('%s %d' % (side, sum(empty[side][0].values())) for side in SIDES))
    table(['Entry', 'Kind', 'Side', 'Functions with most instructions of their own'], wheres)
    what, kind, by = split
    print('Of the %d instructions of the compiled functions themselves, proved, %s, kind %d, %d move 16 bytes, %d move less, %d save or\n'
          'restore registers, %d are the rest.\n' % (sum(by.values()), what, kind, by['wide'], by['moves'], by['saves'], by['rest']))
    print('; '.join([version('rustc', '--version'), version('valgrind', '--version'), version('rt', 'version'),
                     version('ldd', '--version')]))


def table(heads, rows):
    for row in [heads, ['---'] * len(heads)] + rows:
        print('| %s |' % ' | '.join(str(cell) for cell in row))
    print()


if __name__ == '__main__':
    try:
        main()
    except Bad as bad:
        sys.exit('measure: error: %s' % bad)
