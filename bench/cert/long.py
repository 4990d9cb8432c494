#!/usr/bin/env python3
"""Writes a machine and a certificate of it with many lines (crates/hp_games/data/README.md).

long.py read COUNT FILE      lines that nothing reaches: the reader alone, and the test of variables
long.py check VARS FILE      the diagram of a random function of so many registers, which the machine keeps as they are: all lines are reached
"""
import random
import sys


def machine(out, name, registers):
    out.write(f'machine {name}\ncounts {registers} 0 0 0\nwidths\nprefer\n')
    for v in range(registers):
        out.write(f'v {v}\n')
    out.write('c 1\n')
    out.write('init' + ' 0' * registers + '\n')
    out.write('next' + ''.join(f' {v}' for v in range(registers)) + '\n')
    out.write(f'ends {registers} {registers} {registers}\n')


def certificate(out, name, registers, lines, inv):
    out.write(f'text hept-cert 1\\nnode {name}\\nkind win\\nvars {registers} 0 0 0\\n')
    for n, (var, low, high) in enumerate(lines):
        out.write(f'd {n + 2} {var} {low} {high}\\n')
    out.write(f'inv {inv}\\nend\\n\n')


def diagram(registers, pick):
    """The lines of a random function, reduced, bottom up."""
    lines, known = [], {}
    level = [pick.getrandbits(1) for _ in range(1 << registers)]
    level[0] = 1
    for var in range(registers - 1, -1, -1):
        above = []
        for low, high in zip(level[::2], level[1::2]):
            if low == high:
                above.append(low)
                continue
            key = var, low, high
            if key not in known:
                known[key] = len(lines) + 2
                lines.append(key)
            above.append(known[key])
        level = above
    return lines, level[0]


def main(what, number, file):
    with open(file, 'w') as out:
        if what == 'read':
            machine(out, 'long', 16)
            lines = [(n % 16, n % 2, n + 1 if n else 1) for n in range(int(number))]
            certificate(out, 'long', 16, lines, 1)
        else:
            registers = int(number)
            machine(out, 'kept', registers)
            lines, inv = diagram(registers, random.Random(7))
            certificate(out, 'kept', registers, lines, inv)
            print(len(lines), 'lines', file=sys.stderr)


if __name__ == '__main__':
    main(*sys.argv[1:])
