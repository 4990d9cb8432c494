#!/usr/bin/env python3
"""Compares both ways in which ./hept answers, bytes and status, for a call of each status: over the built program, and over a copy of the
repository in which nothing is built. Each call of the second way takes minutes. Run it by hand.

    bench/quick/run.py [NUMBER ..]      the calls of these numbers, from 1, or all"""
import os
import shutil
import subprocess
import sys
import tempfile
import time

TOP = os.path.dirname(os.path.dirname(os.path.dirname(os.path.abspath(__file__))))
PROGRAM = f'{TOP}/crates/hp_main/out/hp_main'
BAD_CERTIFICATE = 'hept-cert 9\n'
CIRCLE = 'node f() returns (y : bool)\nlet y = y tel\n'
# status, words, input: files are of the folder that `fill` makes
CALLS = [
    (0, 'run p1.ept f', 'true\nfalse\ntrue\n'),
    (1, 'check circle.ept', ''),
    (1, 'check alarm.ept', ''),
    (2, 'run p1.ept', ''),
    (3, 'run p1.ept f', 'true\nmaybe\n'),
    (4, 'check none.ept', ''),
    (7, 'verify tasks.ept tasks bad.cert', ''),
    (8, 'exec bad.obc f', ''),
    (0, 'check --print updown.ept', ''),
    (0, 'exec delay.obc f', 'true\nfalse\n'),
]


def fill(folder):
    for name in os.listdir(f'{TOP}/examples'):
        shutil.copy(f'{TOP}/examples/{name}', folder)
    for name, text in (('bad.cert', BAD_CERTIFICATE), ('circle.ept', CIRCLE), ('bad.obc', 'obc 2\n')):
        with open(f'{folder}/{name}', 'w', encoding='ascii') as file:
            file.write(text)


def answer(program, words, text, folder):
    start = time.monotonic()
    done = subprocess.run([program, *words.split()], input=text.encode(), capture_output=True, cwd=folder)
    told = b''.join(it for it in done.stderr.splitlines(True) if not it.startswith(b'hept: '))
    return (done.returncode, done.stdout, told), time.monotonic() - start


def main(numbers):
    if not os.access(PROGRAM, os.X_OK):
        print(f'{PROGRAM} is not there: build it with ./build or rt ci', file=sys.stderr)
        return 70
    wrong = 0
    with tempfile.TemporaryDirectory() as room:
        os.mkdir(f'{room}/files')
        fill(f'{room}/files')
        shutil.copytree(TOP, f'{room}/clone', ignore=shutil.ignore_patterns('out', '.git', 'must-fail'), symlinks=True)
        os.mkdir(f'{room}/clone/.git')
        for number in numbers or range(1, len(CALLS) + 1):
            status, words, text = CALLS[number - 1]
            built, _ = answer(PROGRAM, words, text, f'{room}/files')
            quick, seconds = answer(f'{room}/clone/hept', words, text, f'{room}/files')
            same = built == quick and built[0] == status
            wrong += not same
            print(f'{number}: hept {words}: status {quick[0]} in {seconds:.0f} s: {"the same" if same else f"NOT the same: {built} and {quick}"}', flush=True)
    return 1 if wrong else 0


if __name__ == '__main__':
    sys.exit(main([int(it) for it in sys.argv[1:]]))
