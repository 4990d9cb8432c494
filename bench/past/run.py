#!/usr/bin/env python3
"""Texts with many past-time formulas, written out by the built program: see README.md.

    run.py [--times N]      each text N times (5)"""
import argparse
import os
import re
import resource
import subprocess
import sys
import tempfile

HERE = os.path.dirname(os.path.realpath(__file__))
TOP = os.path.dirname(os.path.dirname(HERE))
HEPT = os.path.join(TOP, 'crates/hp_main/out/hp_main')

# The most bytes of a source text.
SIZE = 1_048_576

# Variables of each contract, so that no limit of a node is passed.
GROUP = 1_000

FORMULAS = ('once(r)', 'historically(r)', 'since(r, e)')


def node(number, count):
    """A node whose contract has so many formulas, one in each of its equations."""
    names = [f'v{i}' for i in range(count)]
    declared = ' '.join(f'{name} : bool;' for name in names)
    defined = ' '.join(f'{name} = {FORMULAS[i % 3]};' for i, name in enumerate(names))
    return f'node f{number}(r, e : bool) returns (a : bool)\ncontract var {declared}\nlet {defined} tel\nenforce true\nlet a = e tel\n'


def program(count):
    """A program with so many formulas."""
    return ''.join(node(at, min(GROUP, count - at)) for at in range(0, count, GROUP))


def padded(text):
    """The same with a comment in front, as long as a text may be."""
    room = SIZE - len(text) - len('(**)')
    assert room >= 0, 'the program is too long'
    return '(*' + ' ' * room + '*)' + text


def call(*words):
    """The status of a call, what it tells, and its processor time in seconds."""
    before = resource.getrusage(resource.RUSAGE_CHILDREN)
    made = subprocess.run([HEPT, *words], capture_output=True, timeout=120)
    after = resource.getrusage(resource.RUSAGE_CHILDREN)
    spent = after.ru_utime + after.ru_stime - before.ru_utime - before.ru_stime
    return made.returncode, made.stderr.decode(), spent


def measured(folder, count, times):
    """Writes a text of 1 MiB with so many formulas out: the status, what is told, the least time, and how many formulas became variables."""
    source, out = os.path.join(folder, 'in.ept'), os.path.join(folder, 'out.ept')
    with open(source, 'w', encoding='ascii') as file:
        file.write(padded(program(count)))
    runs = [call('past', source, out) for _ in range(times)]
    remembered = 0
    if os.path.exists(out):
        with open(out, encoding='ascii') as file:
            text = file.read()
        remembered = len(re.findall(r'\blast past_\d+ : bool = ', text))
        assert not re.search(r'\b(once|historically|since) \(', text), 'a formula is left'
        os.remove(out)
    return runs[0][0], runs[0][1].strip(), min(spent for _, _, spent in runs), remembered


def main():
    reads = argparse.ArgumentParser()
    reads.add_argument('--times', type=int, default=5)
    times = reads.parse_args().times
    if not os.path.exists(HEPT):
        print(f'{HEPT} is not there: build it with ./build or rt ci', file=sys.stderr)
        return 70
    wrong = 0
    with tempfile.TemporaryDirectory() as folder:
        # Each formula takes some 160 bytes of what is written, so that of the second text would be longer than a text may be.
        for count, wanted, told in [(6_500, 0, ''), (10_000, 1, 'E3 - size')]:
            status, line, spent, remembered = measured(folder, count, times)
            good = status == wanted and line.startswith(told) and remembered == (count if status == 0 else 0)
            wrong += not good
            print(f'{count} formulas: status {status} {line}, {remembered} variables that remember, {spent:.3f} s' + ('' if good else '  WRONG'))
    return 1 if wrong else 0


sys.exit(main())
