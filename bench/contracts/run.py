#!/usr/bin/env python3
"""Times the commands over programs of many tasks of which one may be active at a time: see README.md.

run.py [PROGRAM]    the built program, unless another one is named. It writes nothing but in a temporary folder.
"""
import os
import resource
import subprocess
import sys
import tempfile
import time

TOP = os.path.dirname(os.path.dirname(os.path.dirname(os.path.realpath(__file__))))
TASK = """node delayable(r, c, e : bool) returns (a, s : bool)
let
  automaton
    state Idle do a = false; s = r & c
      until r & c then Active | r & not c then Wait
    state Wait do a = false; s = c
      until c then Active
    state Active do a = true; s = false
      until e then Idle
  end
tel
"""


def names(letter, tasks):
    return ', '.join(f'{letter}{i}' for i in range(1, tasks + 1))


def program(tasks, chosen=True):
    """The tasks under a contract that chooses which of them run; or with the choice as inputs."""
    numbers = range(1, tasks + 1)
    inputs = ', '.join(f'r{i}, e{i}' for i in numbers)
    contract = ''
    if chosen:
        guarantee = ' & '.join(f'not (a{i} & a{j})' for i in numbers for j in numbers if i < j) or 'true'
        contract = f'contract enforce {guarantee} with ({names("c", tasks)} : bool)\n'
    else:
        inputs += ', ' + names('c', tasks)
    calls = ';\n'.join(f'  (a{i}, s{i}) = inlined delayable(r{i}, c{i}, e{i})' for i in numbers)
    return f'{TASK}node tasks({inputs} : bool) returns ({names("a", tasks)}, {names("s", tasks)} : bool)\n{contract}let\n{calls}\ntel\n'


def trace(tasks, instants, chosen=True):
    """Requests at every third and ends at every fourth instant, one after the other; and where the choice is an input, all may run."""
    word = lambda b: 'true' if b else 'false'
    lines = []
    for k in range(1, instants + 1):
        words = [word((k + j) % every == 0) for j in range(1, tasks + 1) for every in (3, 4)]
        lines.append(' '.join(words + ([] if chosen else ['true'] * tasks)))
    return '\n'.join(lines) + '\n'


class Bench:
    def __init__(self, hept, folder):
        self.hept, self.folder = hept, folder

    def path(self, name):
        return f'{self.folder}/{name}'

    def write(self, name, text):
        with open(self.path(name), 'w') as file:
            file.write(text)
        return self.path(name)

    def once(self, words, source):
        """Processor seconds, the status, and the most memory in MiB."""
        with open(source or os.devnull) as lines:
            child = subprocess.Popen([self.hept, *words], stdin=lines, stdout=subprocess.DEVNULL, stderr=subprocess.DEVNULL)
            _, status, used = os.wait4(child.pid, 0)
        child.returncode = os.waitstatus_to_exitcode(status)
        return used.ru_utime + used.ru_stime, child.returncode, used.ru_maxrss // 1024

    def time(self, what, words, source=None, rounds=3):
        runs = [self.once(words, source) for _ in range(rounds)]
        seconds = min(run[0] for run in runs)
        print(f'{what:34}{seconds * 1000:12.1f} ms{runs[0][2]:8} MiB   status {runs[0][1]}', flush=True)
        return seconds


def main(words):
    hept = words[0] if words else f'{TOP}/crates/hp_main/out/hp_main'
    if not os.access(hept, os.X_OK):
        sys.exit(f'{hept} is not there: rt ci builds it')
    with tempfile.TemporaryDirectory() as folder:
        bench = Bench(hept, folder)
        bench.time('sweep 8 100000', ['sweep', '8', '100000'])
        for tasks in (8, 12, 16):
            source = bench.write(f'tasks{tasks}', program(tasks))
            one = bench.write(f'one{tasks}', trace(tasks, 1))
            bench.time(f'check of {tasks} tasks', ['check', source])
            bench.time(f'run of {tasks} tasks, one line', ['run', source, 'tasks'], one)
            bench.time(f'compile of {tasks} tasks', ['compile', source, bench.path(f'out{tasks}')])
        for tasks in (8, 12):
            source = bench.path(f'tasks{tasks}')
            bench.time(f'prove of {tasks} tasks', ['prove', source, 'tasks', bench.path(f'cert{tasks}')])
            bench.time(f'verify of {tasks} tasks', ['verify', source, 'tasks', bench.path(f'cert{tasks}')])
        bench.time('prove of 16 tasks', ['prove', bench.path('tasks16'), 'tasks', bench.path('cert16')], rounds=1)
        lines = 200_000
        source = bench.write('plain8', program(8, chosen=False))
        ours = bench.time(f'{lines} lines of 8 tasks, chosen', ['run', bench.path('tasks8'), 'tasks'], bench.write('trace8', trace(8, lines)))
        theirs = bench.time(f'{lines} lines of 8 tasks, given', ['run', source, 'tasks'], bench.write('given8', trace(8, lines, chosen=False)))
        print(f'a step that chooses takes {ours / theirs:.2f} times one to which the choice is given')


if __name__ == '__main__':
    main(sys.argv[1:])
