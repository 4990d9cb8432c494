#!/usr/bin/env python3
"""Runs that are stopped and resumed, and checkpoints that are changed at random, over the built program: see README.md.

    run.py [--cuts N] [--changes N]      at most N runs are cut (all), and N checkpoints changed (1000)"""
import argparse
import json
import os
import random
import re
import subprocess
import sys
import tempfile

HERE = os.path.dirname(os.path.realpath(__file__))
TOP = os.path.dirname(os.path.dirname(HERE))
HEPT = os.path.join(TOP, 'crates/hp_main/out/hp_main')
TABLES = [os.path.join(TOP, 'crates/hp_rows/data', name) for name in ('run.json', 'controlled.json')]


def call(folder, words, given=b''):
    """The status of a call in a folder, and what it says and tells."""
    made = subprocess.run([HEPT, *words], cwd=folder, input=given, capture_output=True, timeout=120)
    return made.returncode, made.stdout, made.stderr


def bytes_of(text):
    """The bytes of a text of a table, which is a string or a list of pieces."""
    if isinstance(text, str):
        return text.encode('latin-1')
    return b''.join(bytes_of(it) if isinstance(it, str) else bytes_of(it['text']) * it['times'] for it in text)


def read(folder, name):
    """What a file holds; nothing, where it is not there."""
    path = os.path.join(folder, name)
    if not os.path.exists(path):
        return None
    with open(path, 'rb') as file:
        return file.read()


def write(folder, name, text):
    with open(os.path.join(folder, name), 'wb') as file:
        file.write(text)


def runs():
    """The runs of the tables that come to the end of their input: the files, the words, the lines and the answers."""
    for table in TABLES:
        with open(table, encoding='utf-8') as file:
            rows = json.load(file)
        for row in rows:
            step = row['steps'][0]
            if step['words'][0] != 'run' or len(step['words']) != 3 or step['status'] != 0:
                continue
            lines = bytes_of(step.get('input', '')).split(b'\n')
            if lines[-1]:
                continue
            yield row['row'], row['files'], step['words'][1:], lines[:-1], bytes_of(step.get('said', ''))


def joined(lines):
    return b''.join(line + b'\n' for line in lines)


# ---- cuts

def cut(folder, name, words, lines, said):
    """How many cuts of a run there are, and what is wrong with some."""
    file, node = words
    status, all_said, told = call(folder, ['save', file, node, 'whole'], joined(lines))
    if (status, all_said, told) != (0, said, b''):
        return 0, [f'{name}: save over all lines: status {status}']
    whole, wrong = read(folder, 'whole'), []
    for at in range(len(lines) + 1):
        first = call(folder, ['save', file, node, 'mem'], joined(lines[:at]))
        second = call(folder, ['resume', file, node, 'mem', 'out'], joined(lines[at:]))
        if (first[0], second[0], first[2], second[2]) != (0, 0, b'', b'') or first[1] + second[1] != said or read(folder, 'out') != whole:
            wrong.append(f'{name}: cut behind line {at}: statuses {first[0]} and {second[0]}')
    return len(lines) + 1, wrong


# ---- a second reading of the format

def is_name(word):
    return len(word) <= 270 and re.fullmatch(rb'[a-z][A-Za-z0-9_$]*', word) is not None


def is_number(word):
    return re.fullmatch(rb'0|-?[1-9][0-9]*', word) is not None and -2**31 <= int(word) < 2**31


def is_capital(word):
    return len(word) <= 255 and re.fullmatch(rb'[A-Z][A-Za-z0-9_]*', word) is not None


def is_value(word):
    return word in (b'true', b'false') or is_capital(word) or is_number(word)


def fits(part, word):
    """Whether a word may stand as this part, and whether a longer one that begins with it may."""
    if part == 'name':
        return is_name(word) and word not in (b'true', b'false', b'bool', b'int'), word == b'' or is_name(word)
    if part == 'line':
        return word == b'end' or is_value(word), word == b'-' or is_value(word) or any(it.startswith(word) for it in (b'end', b'true', b'false'))
    return word == part, part.startswith(word)


def reading(text):
    """The name and the values of a checkpoint, or the offset at which the text is none."""
    at, values, name = 0, [], None
    parts = [(b'hept-mem', b' '), (b'1', b'\n'), (b'node', b' '), ('name', b'\n')]
    while True:
        part, gap = parts.pop(0) if parts else ('line', b'\n')
        word = re.match(rb'[^ \n]*', text[at:]).group()
        end = at + len(word)
        fit, longer = fits(part, word)
        if end == len(text):
            return end if fit or longer else at
        if not fit:
            return at
        if text[end:end + 1] != gap:
            return end
        at = end + 1
        if part == 'name':
            name = word
        elif part == 'line' and word == b'end':
            return (name, values) if at == len(text) else at
        elif part == 'line':
            values.append(word)


def kind(word, types):
    """The kind of a value: two words, or the constructors of its type."""
    if word in (b'true', b'false'):
        return 'bool'
    return next((it for it in types if word in it), 'none') if word[:1].isupper() else 'int'


def wanted(text, node, kept, types):
    """The line with which a checkpoint is refused, for a node that keeps values of these kinds; nothing, where it is taken."""
    found = reading(text)
    if isinstance(found, int):
        front = text[:found]
        return f'M1 {front.count(10) + 1}:{len(front) - front.rfind(10)}\n' if b'\n' in front else f'M1 1:{found + 1}\n'
    name, values = found
    if name != node:
        return 'M2 node\n'
    if len(values) != len(kept):
        return f'M2 count {len(values)}\n'
    for number, (value, it) in enumerate(zip(values, kept), 1):
        if kind(value, types) != it:
            return f'M2 value {number}\n'
    return ''


def types_of(source):
    """The constructors of each type of a program."""
    return [tuple(it.strip() for it in found.split(b'|')) for found in re.findall(rb'\btype\s+\w+\s*=\s*([^;\n]*?)(?=\btype\b|\bnode\b|\n|$)', source)]


def changed(text, random):
    """A text that differs from this one in a few places."""
    lines = text.split(b'\n')
    for _ in range(random.randint(1, 2)):
        what = random.randint(0, 6)
        at = random.randrange(len(text)) if text else 0
        if what == 0:
            text = text[:at] + bytes([random.choice(b' \n-01aAe_$.\x00\xff')]) + text[at:]
        elif what == 1:
            text = text[:at] + text[at + 1:]
        elif what == 2:
            text = text[:at]
        elif what == 3:
            text = text[:at] + bytes([random.choice(b' \n-019tTfFeE')]) + text[at + 1:]
        else:
            lines = text.split(b'\n')
            number = random.randrange(len(lines))
            if what == 4:
                lines[number] = random.choice([b'true', b'false', b'0', b'-0', b'-1', b'007', b'2147483647', b'2147483648', b'-2147483648', b'A', b'end', b'node f', b'hept-mem 1', b''])
            elif what == 5:
                lines.insert(number, random.choice([b'true', b'5', b'A', b'end', b'']))
            else:
                del lines[number]
            text = b'\n'.join(lines)
    return text


def change(folder, name, words, source, count, random):
    """What is wrong with the answers to some changed checkpoints of a node, and how many are taken."""
    file, node = words
    if call(folder, ['save', file, node, 'mem'])[0] != 0:
        return [f'{name}: save over no line'], 0
    right = read(folder, 'mem')
    types = types_of(source)
    kept = [kind(it, types) for it in reading(right)[1]]
    wrong, taken = [], 0
    for _ in range(count):
        text = changed(right, random)
        write(folder, 'mem', text)
        if os.path.exists(os.path.join(folder, 'out')):
            os.remove(os.path.join(folder, 'out'))
        line = wanted(text, node.encode(), kept, types).encode()
        status, said, told = call(folder, ['resume', file, node, 'mem', 'out'])
        taken += line == b''
        if (status, said, told, read(folder, 'out')) != (9 if line else 0, b'', line, None if line else text):
            wrong.append(f'{name}: {text!r}: status {status}, {told!r}, wanted {line!r}')
    return wrong, taken


def main():
    take = argparse.ArgumentParser()
    take.add_argument('--cuts', type=int, default=1_000_000)
    take.add_argument('--changes', type=int, default=1000)
    given = take.parse_args()
    if not os.access(HEPT, os.X_OK):
        print(f'{HEPT} is not there: build it with ./build or rt ci', file=sys.stderr)
        return 70
    wrong, cuts, whole, changes, taken = [], 0, 0, 0, 0
    chance = random.Random(20)
    all_runs = list(runs())
    each = -(-given.changes // max(1, min(len(all_runs), 100)))
    for number, (name, files, words, lines, said) in enumerate(all_runs):
        with tempfile.TemporaryDirectory(prefix='hept-checkpoints-') as folder:
            for file, text in files.items():
                write(folder, file, bytes_of(text))
            if number < given.cuts:
                more, found = cut(folder, name, words, lines, said)
                cuts, whole, wrong = cuts + more, whole + 1, wrong + found
            count = min(each, given.changes - changes) if number % max(1, len(all_runs) // 100) == 0 else 0
            if count:
                found, more = change(folder, name, words, bytes_of(files[words[0]]), count, chance)
                changes, taken, wrong = changes + count, taken + more, wrong + found
    for it in wrong[:40]:
        print(it)
    print(f'{whole} runs, {cuts} cuts; {changes} changed checkpoints, of which {taken} are taken; {len(wrong)} wrong')
    return 1 if wrong else 0


sys.exit(main())
