#!/usr/bin/env python3
"""Runs programs with contracts over the built program, and sees that each contract that is kept in its game is kept in its runs.

run.py [PROGRAMS] [LINES]   so many programs, made at random from the seeds 0, 1, .. (300 unless said), and those of the tables of rows, each node over so many lines (50)

Of each program that is accepted, `run NODE --contract` ends with status 0, and where `assume=true` so far `enforce=true` now; `compile` writes machines, and `exec` of a node
says the same outputs. It prints how many programs were accepted, how many nodes and lines were run, and fails where anything else is seen. No file is written but in a
temporary folder.
"""
import json
import os
import random
import re
import subprocess
import sys
import tempfile

sys.dont_write_bytecode = True
TOP = os.path.dirname(os.path.dirname(os.path.dirname(os.path.realpath(__file__))))
PROGRAM = f'{TOP}/crates/hp_main/out/hp_main'
sys.path.insert(0, os.path.dirname(os.path.realpath(__file__)))
from make import Maker

HEAD = re.compile(r'node\s+(\w+)\s*\(([^)]*)\)\s*returns')
TYPE = re.compile(r'type\s+(\w+)\s*=\s*(\w+(?:\s*\|\s*\w+)*)')


def hept(words, text=''):
    done = subprocess.run([PROGRAM, *words], input=text.encode('latin-1'), stdout=subprocess.PIPE, stderr=subprocess.PIPE)
    return done.returncode, done.stdout.decode('latin-1'), done.stderr.decode('latin-1')


def kinds_of(head):
    """The types of the inputs of a node, in order."""
    kinds = []
    for group in filter(None, (it.strip() for it in head.split(';'))):
        names, _, type = group.partition(':')
        kinds += [type.strip()] * len(names.split(','))
    return kinds


def trace_of(text, kinds, lines, seed):
    """So many lines of values of these types."""
    chosen = random.Random(seed)
    types = {name: [it.strip() for it in cons.split('|')] for name, cons in TYPE.findall(text)}
    types.update(bool=['true', 'false'], int=[str(it) for it in (-2147483648, -3, -1, 0, 1, 2, 3, 7, 2147483647)])
    return ''.join(' '.join(chosen.choice(types[kind]) for kind in kinds) + '\n' for _ in range(lines))


def broken(said):
    """The first line whose guarantee does not hold though what was assumed has held so far, and how many lines stand before the first failed assumption."""
    for number, line in enumerate(said.splitlines(), 1):
        words = line.split()
        if words[-2] == 'assume=false':
            return None, number - 1
        if words[-1] != 'enforce=true':
            return number, number
    return None, len(said.splitlines())


def without_words(said):
    return ''.join(' '.join(line.split()[:-2]) + '\n' for line in said.splitlines())


class Counts:
    def __init__(self):
        self.programs = self.accepted = self.nodes = self.lines = self.held = 0
        self.failed = []


def try_node(folder, text, node, kinds, lines, seed, counts, label):
    trace = trace_of(text, kinds, lines, seed)
    status, said, told = hept(['run', f'{folder}/F', node, '--contract'], trace)
    if status or told:
        counts.failed.append(f'{label} {node}: status {status}, {told.strip()}')
        return
    line, held = broken(said)
    if line:
        counts.failed.append(f'{label} {node}: the guarantee fails at line {line}')
    status, other, told = hept(['exec', f'{folder}/out', node], trace)
    if status or told or other != without_words(said):
        counts.failed.append(f'{label} {node}: exec says something else, status {status}, {told.strip()}')
    counts.nodes += 1
    counts.lines += lines
    counts.held += held


def try_program(folder, text, lines, seed, counts, label):
    counts.programs += 1
    with open(f'{folder}/F', 'w', encoding='latin-1') as file:
        file.write(text)
    status, _, _ = hept(['check', f'{folder}/F'])
    if status:
        return
    counts.accepted += 1
    status, _, told = hept(['compile', f'{folder}/F', f'{folder}/out'])
    if status or told:
        counts.failed.append(f'{label}: compile ends with {status}, {told.strip()}')
        return
    for node, head in HEAD.findall(text):
        try_node(folder, text, node, kinds_of(head), lines, seed, counts, label)


def programs_of_rows():
    """The programs of the tables of rows that have contracts."""
    found = {}
    for table in ('contracts', 'controlled', 'worked'):
        with open(f'{TOP}/crates/hp_rows/data/{table}.json', encoding='utf-8') as file:
            for row in json.load(file):
                for text in row['files'].values():
                    if isinstance(text, str) and 'contract' in text and 'node' in text:
                        found.setdefault(text, f'{table}: {row["row"]}')
    return [(label, text) for text, label in found.items()]


def main(words):
    count = int(words[0]) if words else 300
    lines = int(words[1]) if len(words) > 1 else 50
    if not os.access(PROGRAM, os.X_OK):
        sys.exit(f'{PROGRAM} is not there: rt ci builds it')
    counts = Counts()
    with tempfile.TemporaryDirectory() as folder:
        for label, text in programs_of_rows():
            try_program(folder, text, lines, 1, counts, label)
        for seed in range(count):
            try_program(folder, Maker(seed).program(), lines, seed, counts, f'random program {seed}')
    print(f'programs={counts.programs} accepted={counts.accepted} nodes={counts.nodes} lines={counts.lines} lines_while_assumed={counts.held} failed={len(counts.failed)}')
    for line in counts.failed[:20]:
        print(line)
    sys.exit(1 if counts.failed else 0)


if __name__ == '__main__':
    main(sys.argv[1:])
