#!/usr/bin/env python3
"""Times hp_games against BuDDy over the families of families.py, in the solver's order, side by side: see README.md.

run.py [--runs N] [PROGRAM]    the built hp_games, unless another one is named; the least processor time of N runs (7) of each
"""
import os
import subprocess
import sys
import tempfile

HERE = os.path.dirname(os.path.realpath(__file__))
SIZES = {
    'tasks': (4, 8, 12, 16),
    'ring': (10, 14, 16, 20, 24),
    'lift': (8, 10, 12, 14, 16, 18, 20),
    'pool': (4, 6, 8, 10, 12),
    'heat': (4, 8, 12, 16),
}


def spent(words):
    """What a program says, and the milliseconds of processor time that it took."""
    read, write = os.pipe()
    child = os.posix_spawn(words[0], words, os.environ, file_actions=[(os.POSIX_SPAWN_DUP2, write, 1)])
    os.close(write)
    with os.fdopen(read, encoding='utf-8') as file:
        said = file.read()
    _, status, usage = os.wait4(child, 0)
    if status:
        sys.exit(f'run.py: {" ".join(words)} ended with status {os.waitstatus_to_exitcode(status)}')
    return said, 1000 * (usage.ru_utime + usage.ru_stime)


def least(runs, *calls):
    """The least time of each call, which take turns, with what it says at the end."""
    best, said = [None] * len(calls), [None] * len(calls)
    for _ in range(runs):
        for k, words in enumerate(calls):
            said[k], took = spent(words)
            best[k] = took if best[k] is None else min(best[k], took)
    return best, said


def main(words):
    runs = 7
    if words[:1] == ['--runs']:
        runs, words = int(words[1]), words[2:]
    games = os.path.realpath(words[0]) if words else f'{HERE}/../../crates/hp_games/out/hp_games'
    if not os.access(games, os.X_OK):
        sys.exit(f'run.py: {games} is not there')
    with tempfile.TemporaryDirectory() as folder:
        buddy = f'{folder}/buddy'
        if subprocess.call(['cc', '-O2', '-o', buddy, f'{HERE}/buddy.c', '-lbdd']):
            sys.exit("run.py: BuDDy is not there: Debian's libbdd-dev")
        print('| machine | solved | BuDDy | times | functions too | BuDDy | times |')
        print('|---|---|---|---|---|---|---|')
        for family, sizes in SIZES.items():
            for size in sizes:
                path = f'{folder}/{family}{size}.txt'
                with open(path, 'w', encoding='utf-8') as file:
                    subprocess.check_call([sys.executable, f'{HERE}/families.py', family, str(size)], stdout=file)
                row = []
                for mode in (['brief'], ['functions']):
                    times, said = least(runs, [games, *mode, path], [buddy, path, 'own', *mode])
                    if said[0].split()[1:2] != said[1].split()[:1] and said[0].split()[:1] != said[1].split()[:1]:
                        sys.exit(f'run.py: {family} {size}: {said}')
                    row += [f'{times[0]:.0f}', f'{times[1]:.0f}', f'{times[0] / times[1]:.2f}']
                print(f'| `{family}` {size} | {" | ".join(row)} |', flush=True)


if __name__ == '__main__':
    main(sys.argv[1:])
