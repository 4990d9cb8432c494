#!/usr/bin/env python3
"""Runs what the documents show over the built program, and compares: see README.md beside this script. It builds nothing and writes nothing into the repository."""
import difflib
import os
import re
import subprocess
import sys
import tempfile

TOP = os.path.realpath(os.path.join(os.path.dirname(os.path.realpath(__file__)), '..', '..'))
PROGRAM = os.path.join(TOP, 'crates', 'hp_main', 'out', 'hp_main')
DOCUMENTS = ['README.md', 'docs/GUIDE.md', 'docs/FORMATS.md', 'docs/REFERENCE.md']
# folders of the repository that commands of a document may read
FOLDERS = ['examples', 'bench']
SECONDS = 60


def read(path):
    with open(path, encoding='utf-8') as file:
        return file.read()


def blocks(text):
    """The fenced blocks of a document: the number of the first line of each, the words behind its fence, and its lines."""
    number, lines = 0, text.split('\n')
    while number < len(lines):
        fence = re.fullmatch(r'```(\S.*)', lines[number])
        number += 1
        if fence:
            first = number
            while lines[number] != '```':
                number += 1
            yield first + 1, fence.group(1).split(), lines[first:number]
            number += 1


def commands(first, lines):
    """The commands of a console block: line, command, and what is shown behind it."""
    found = []
    for number, line in enumerate(lines, first):
        if line.startswith('$ '):
            found.append((number, line[2:], []))
        elif found:
            found[-1][2].append(line)
        else:
            raise SystemExit(f'line {number}: what is shown stands before a command')
    return found


def said(command, folder):
    """What a command writes, standard output and standard error in one, and behind it its status in brackets where it is not 0."""
    try:
        done = subprocess.run(['/bin/sh', '-c', command], cwd=folder, stdin=subprocess.DEVNULL, stdout=subprocess.PIPE, stderr=subprocess.STDOUT, timeout=SECONDS)
    except subprocess.TimeoutExpired:
        return f'[no end within {SECONDS} seconds]\n'
    text = done.stdout.decode('utf-8', 'backslashreplace')
    if done.returncode:
        text += f'[{done.returncode}]\n'
    return text


def differ(name, number, what, wanted, found):
    print(f'{name}:{number}: {what}')
    for line in difflib.unified_diff(wanted.splitlines(), found.splitlines(), 'as shown', 'as found', lineterm=''):
        print('    ' + line)


def put_file(name, number, path, lines, folder):
    """A program of a document: the same as the file of the repository, or a file that the commands behind it read. How many faults."""
    text = '\n'.join(lines) + '\n'
    if path.split('/')[0] in FOLDERS:
        kept = read(os.path.join(TOP, path))
        if kept != text:
            differ(name, number, f'{path} has another text', text, kept)
            return 1
        return 0
    with open(os.path.join(folder, path), 'w', encoding='utf-8') as file:
        file.write(text)
    return 0


def run_document(name):
    """The number of commands of a document, and of its faults."""
    count, faults = 0, 0
    with tempfile.TemporaryDirectory() as folder:
        os.symlink(PROGRAM, os.path.join(folder, 'hept'))
        for path in FOLDERS:
            os.symlink(os.path.join(TOP, path), os.path.join(folder, path))
        for first, words, lines in blocks(read(os.path.join(TOP, name))):
            if len(words) == 2 and words[0] in ('ept', 'obc', 'cert', 'mem', 'trace'):
                faults += put_file(name, first, words[1], lines, folder)
            elif words == ['console']:
                for number, command, shown in commands(first, lines):
                    count += 1
                    wanted = ''.join(line + '\n' for line in shown)
                    found = said(command, folder)
                    if found != wanted:
                        differ(name, number, command, wanted, found)
                        faults += 1
    return count, faults


def run_traces():
    """Each example that has a trace and its outputs: the last node of the program over the trace."""
    count, faults = 0, 0
    folder = os.path.join(TOP, 'examples')
    for name in sorted(os.listdir(folder)):
        stem, kind = os.path.splitext(name)
        if kind != '.out':
            continue
        node = re.findall(r'^node (\w+)', read(os.path.join(folder, stem + '.ept')), re.M)[-1]
        with open(os.path.join(folder, stem + '.trace'), 'rb') as trace:
            done = subprocess.run([PROGRAM, 'run', stem + '.ept', node], cwd=folder, stdin=trace, stdout=subprocess.PIPE, stderr=subprocess.STDOUT, timeout=SECONDS)
        count += 1
        found, wanted = done.stdout.decode('utf-8', 'backslashreplace'), read(os.path.join(folder, name))
        if done.returncode or found != wanted:
            differ('examples', name, f'status {done.returncode}', wanted, found)
            faults += 1
    return count, faults


def main():
    if not os.access(PROGRAM, os.X_OK):
        raise SystemExit(f'{PROGRAM} is not there: build it first (./build)')
    wrong = 0
    for name in sys.argv[1:] or DOCUMENTS:
        count, faults = run_document(name)
        print(f'{name}: {count} commands, {faults} not as shown')
        wrong += faults
    if not sys.argv[1:]:
        count, faults = run_traces()
        print(f'examples: {count} traces, {faults} not as kept')
        wrong += faults
        wrong += subprocess.run([sys.executable, os.path.join(TOP, 'bench', 'guide', 'reference.py'), '--check']).returncode
    sys.exit(1 if wrong else 0)


if __name__ == '__main__':
    main()
