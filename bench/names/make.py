#!/usr/bin/env python3
"""Writes a program with many names to standard output: see README.md beside it."""

import sys

LETTERS = "abcdefghijklmnopqrstuvwxyz"
DIGITS = "0123456789"
NODES = 8
LEVELS = 60
GROUP = 50


def names():
    """Names of four characters, none of which is a word of the language."""
    for first in LETTERS:
        for second in DIGITS:
            for third in LETTERS + DIGITS:
                for fourth in LETTERS + DIGITS:
                    yield first + second + third + fourth


def declare(group):
    return ",".join(group) + ":bool" if group else ""


def chain(group, first):
    """Each name reads the one before it."""
    return "".join(f"{name}={before};" for before, name in zip([first] + group, group))


def assign(group):
    return "".join(f"{name}=x;" for name in group)


def parts(group, size):
    return [group[start : start + size] for start in range(0, len(group), size)]


def choices(group):
    """Switches of which both arms define the names."""
    return "".join(f"switch x|true do {assign(part)}|false do {assign(part)}end;" for part in parts(group, GROUP))


def nest(levels):
    """A switch in a switch: each level declares and defines names of its own."""
    text = ""
    for part in reversed(levels):
        text = f"switch x|true var {declare(part)} do {assign(part)}{text}|false do end;"
    return text


def node(number, group):
    third = len(group) // 3
    plain, both, inner = group[:third], group[third : 2 * third], group[2 * third :]
    levels = parts(inner, len(inner) // LEVELS + 1)
    return (
        f"node f{number}(x:bool)returns(y:bool)\nvar {declare(plain + both)};\nlet\n"
        f"{chain(plain, 'x')}\n{choices(both)}\n{nest(levels)}\ny=x\ntel\n"
    )


def main():
    count = int(sys.argv[1]) if len(sys.argv) > 1 else 60000
    if count < 8 * NODES:
        sys.exit(f"usage: make.py [NAMES], at least {8 * NODES}")
    source = names()
    each = count // NODES
    for number in range(NODES):
        sys.stdout.write(node(number, [next(source) for _ in range(each)]))


main()
