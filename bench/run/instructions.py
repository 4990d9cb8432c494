#!/usr/bin/env python3
"""Instructions that each line of a trace costs, of the programs of make.py: under `hept run`, and by hand in C. See README.md beside it. Machines are noisy, and instructions are not.

    instructions.py [PROGRAM ..]      a table of these programs, or of all

Each is run by `valgrind --tool=callgrind` over traces of 10,000 and of 30,000 lines; the difference, by 20,000, is what a line costs. It wants valgrind, a C compiler, and the built program (`./build`)."""
import os
import re
import subprocess
import sys
import tempfile

sys.dont_write_bytecode = True
HERE = os.path.dirname(os.path.abspath(__file__))
TOP = os.path.dirname(os.path.dirname(HERE))
HEPT = f'{TOP}/crates/hp_main/out/hp_main'
FEW, MANY = 10_000, 30_000
NODES = {'calls': 'c59', 'states200': 'states'}


def made(*words):
    """What make.py writes."""
    return subprocess.run([sys.executable, f'{HERE}/make.py', *words], check=True, capture_output=True, text=True).stdout


def counted(command, lines):
    """The instructions of a command over a trace."""
    run = subprocess.run(['valgrind', '--tool=callgrind', '--callgrind-out-file=/dev/null', *command], input=lines, capture_output=True, text=True, check=True)
    return int(re.search(r'Collected : (\d+)', run.stderr)[1])


def each_line(command, name):
    """The instructions of a line."""
    return (counted(command, made(name, str(MANY))) - counted(command, made(name, str(FEW)))) / (MANY - FEW)


def main(names):
    with tempfile.TemporaryDirectory() as folder:
        by_hand = f'{folder}/by_hand'
        subprocess.run(['cc', '-O2', '-o', by_hand, f'{HERE}/by_hand.c'], check=True)
        print('| program | by hand in C | hept run | ratio |\n|---|---|---|---|')
        for name in names:
            source = f'{folder}/{name}.ept'
            with open(source, 'w', encoding='utf-8') as file:
                file.write(made(name))
            ours = each_line([HEPT, 'run', source, NODES.get(name, name)], name)
            theirs = each_line([by_hand, name], name)
            print(f'| `{name}` | {theirs:,.0f} | {ours:,.0f} | {ours / theirs:.1f} |', flush=True)


if __name__ == '__main__':
    if not os.path.exists(HEPT):
        sys.exit('nothing is built: ./build')
    main(sys.argv[1:] or ['counter', 'states', 'states200', 'nested', 'filtered', 'calls'])
