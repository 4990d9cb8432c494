#!/usr/bin/env python3
"""Compares the machines that two programs compile of the same texts: another order of commands, or fewer copies and tests, and nothing else.

same.py BEFORE AFTER TABLE..           BEFORE and AFTER are programs `hept`, each TABLE a list of rows of commands (crates/hp_rows/data/README.md)
same.py fewer BEFORE AFTER TABLE..     where AFTER leaves out copies, tests and what no output needs

For each text of the tables it asks that both programs refuse it, or that both write machines in which types, headings, memories and instances are the same (memories
and instances as sets, by kind and first value, since their names tell their order), and the commands the same but for their order: each command with the cases that stand
around it. Then it runs each node on the lines of the row by both machines, and asks for the same words. It says how many cases stand in both, and ends with status 1 where something differs.

With `fewer` it asks of the commands that outputs need, in each machine: the same operations, calls and resets as a multiset, whatever their operands are called and whichever cases stand around them, but for copies (`set x y`) and tests
(comparisons by `@eq`, `@or`, `@mux`), of which AFTER has as many or fewer; and the same memories and instances among those that are needed. A command is needed where an output is computed from what it sets, now or at a later step."""
import collections
import json
import os
import re
import subprocess
import sys
import tempfile

NUMBERED = re.compile(r'\$[mn]\d+$')


def words_of(text):
    return text.split()


class Reader:
    """Reads Obc text word by word."""

    def __init__(self, text):
        self.words = words_of(text)
        self.at = 0

    def next(self):
        self.at += 1
        return self.words[self.at - 1]

    def peek(self):
        return self.words[self.at] if self.at < len(self.words) else None

    def until_close(self):
        """What stands between round brackets."""
        assert self.next() == '('
        found = []
        while self.peek() != ')':
            found.append(self.next())
        self.next()
        return found

    def commands(self):
        found = []
        while self.peek() not in ('end', '|'):
            found.append(self.command())
        return found

    def command(self):
        word = self.next()
        if word == 'case':
            return self.case()
        if word == 'call':
            instance = self.next()
            return ('call', instance, tuple(self.until_close()), tuple(self.until_close()))
        if word == 'reset':
            return ('reset', self.next())
        assert word == 'set', word
        target, first = self.next(), self.next()
        count = {'@mux': 3, '@not': 1, '@neg': 1}.get(first, 2) if first.startswith('@') else 0
        return ('set', target, first, tuple(self.next() for _ in range(count)))

    def case(self):
        name, arms = self.next(), []
        while self.peek() == '|':
            self.next()
            label = self.next()
            arms.append((label, self.commands()))
        assert self.next() == 'end'
        return ('case', name, arms)

    def machine(self):
        assert self.next() == 'machine'
        name, parts = self.next(), {}
        for part in ('in', 'out', 'var', 'mem', 'inst'):
            assert self.next() == part
            parts[part] = self.until_close()
        assert self.next() == 'step'
        parts['step'] = self.commands()
        assert self.next() == 'end'
        return name, parts

    def file(self):
        assert self.next() == 'obc' and self.next() == '1'
        types, machines = [], {}
        while self.peek() == 'type':
            begin = self.at
            self.next()
            while self.peek() not in ('type', 'machine', None):
                self.next()
            types.append(tuple(self.words[begin:self.at]))
        while self.peek():
            name, parts = self.machine()
            machines[name] = parts
        return types, machines


def listed(words):
    """Declarations between commas."""
    found, one = [], []
    for word in words:
        if word == ',':
            found.append(tuple(one))
            one = []
        else:
            one.append(word)
    return found + [tuple(one)] if one else found


def stem(word):
    return NUMBERED.sub('$', word)


def leaves(commands, around, found):
    """Each command that is no case, with the cases around it."""
    for command in commands:
        if command[0] == 'case':
            for label, inner in command[2]:
                leaves(inner, around + ((command[1], label),), found)
        else:
            found[(around, plain(command))] += 1
    return found


def plain(part):
    """A command in which memories and instances have no numbers."""
    return stem(part) if isinstance(part, str) else tuple(plain(it) for it in part)


def cases(commands):
    return sum(1 + sum(cases(inner) for _, inner in it[2]) for it in commands if it[0] == 'case')


def differences(before, after):
    """Why two files are not the same but for the order of commands."""
    if before[0] != after[0]:
        yield 'types'
    if list(before[1]) != list(after[1]):
        yield 'machines'
        return
    for name, old in before[1].items():
        new = after[1][name]
        for part in ('in', 'out'):
            if old[part] != new[part]:
                yield f'{name}: {part}'
        for part in ('var', 'mem', 'inst'):
            if sorted(plain(it) for it in listed(old[part])) != sorted(plain(it) for it in listed(new[part])):
                yield f'{name}: {part}'
        if leaves(old['step'], (), collections.Counter()) != leaves(new['step'], (), collections.Counter()):
            yield f'{name}: commands'


# what a choice among states is made of
TESTS = {'@eq', '@or', '@mux'}


def flat(commands, around=()):
    """Each command that is no case, with the variables of the cases around it."""
    for command in commands:
        if command[0] == 'case':
            for _, inner in command[2]:
                yield from flat(inner, (*around, command[1]))
        else:
            yield command, around


def given_by(command):
    """What a command gives a value to; a reset does to the memories of an instance."""
    return command[2] if command[0] == 'call' else command[1:2]


def read_by(command):
    """What a command reads: of a call the memories of its instance, too."""
    if command[0] == 'call':
        return (command[1], *command[3])
    return command[2:3] + command[3] if command[0] == 'set' else ()


def chosen(command, alike):
    """A choice as a copy, where its condition is known or both its values are the same."""
    if command[2] != '@mux':
        return command
    test, first, second = (alike.get(it, it) for it in command[3])
    if first == second or test in ('true', 'false'):
        return (*command[:2], command[3][2 if test == 'false' else 1], ())
    return command


def simple_of(machine):
    """The commands, with needless choices as copies. What is set once, to another name or a constant, is alike."""
    found = list(flat(machine['step']))
    times = collections.Counter(name for command, _ in found for name in given_by(command))
    names = {one[0] for one in listed(machine['mem'])}
    grows, alike = True, {}
    while grows:
        found = [(chosen(command, alike) if command[0] == 'set' else command, around) for command, around in found]
        copies = {it[1]: alike.get(it[2], it[2]) for it, _ in found if it[0] == 'set' and not it[2].startswith('@') and times[it[1]] == 1 and it[1] not in names}
        grows = copies != alike
        alike = copies
    return found


def needed_of(machine):
    """The commands from which outputs are computed, now or at a later step, and the names that these read."""
    left, names, found, grows = simple_of(machine), {one[0] for one in listed(machine['out'])}, [], True
    while grows:
        grows, rest = False, []
        for command, around in left:
            if names.isdisjoint(given_by(command)):
                rest.append((command, around))
                continue
            found.append(command)
            names.update(around, read_by(command))
            grows = True
        left = rest
    return found, names


def operations_of(commands, instances):
    """Operations but copies, and of these tests by themselves; calls and resets by the machine that they are of."""
    done, tests = collections.Counter(), collections.Counter()
    for command in commands:
        if command[0] != 'set':
            done[command[0], instances[command[1]]] += 1
            continue
        is_copy = not command[2].startswith('@')
        # a choice between two equal values becomes a copy
        tests['copy or choice'] += is_copy or command[2] == '@mux'
        if command[2] in TESTS:
            tests[command[2]] += 1
        elif not is_copy:
            done[command[2]] += 1
    return done, tests


def fewer(before, after):
    """Why the machines of the second file are not those of the first with fewer copies and tests."""
    if before[0] != after[0]:
        yield 'types'
    if list(before[1]) != list(after[1]):
        yield 'machines'
        return
    for name, old in before[1].items():
        new = after[1][name]
        for part in ('in', 'out'):
            if old[part] != new[part]:
                yield f'{name}: {part}'
        found = []
        for machine in (old, new):
            commands, names = needed_of(machine)
            kept = [sorted(plain(it) for it in listed(machine[part]) if it[0] in names) for part in ('mem', 'inst')]
            instances = {it[0]: it[-1] for it in listed(machine['inst'])}
            found.append((*kept, operations_of(commands, instances)[0], operations_of([it for it, _ in flat(machine['step'])], instances)[1]))
        for part, one, other in zip(('mem', 'inst', 'operations'), *found):
            if one != other:
                yield f'{name}: {part}'
        if found[1][3] - found[0][3]:
            yield f'{name}: more copies or tests'


def run(program, words, given=''):
    """The status of a call and what it says."""
    done = subprocess.run([program, *words], input=given, capture_output=True, text=True, timeout=120, check=False)
    return done.returncode, done.stdout


def compiled(program, source, folder):
    out = os.path.join(folder, 'out.obc')
    if os.path.exists(out):
        os.remove(out)
    status, _ = run(program, ['compile', source, out])
    if not os.path.exists(out):
        return status, None
    with open(out, encoding='utf-8') as file:
        return status, file.read()


def told(program, text, node, given, folder):
    source = os.path.join(folder, 'in.obc')
    with open(source, 'w', encoding='utf-8') as file:
        file.write(text)
    return run(program, ['exec', source, node], given)


class Counts:
    def __init__(self, differences):
        self.differences = differences
        self.texts = self.same_text = self.runs = self.wrong = 0
        self.cases = [0, 0]


def text_of(pieces):
    """A text of a row: a string, or a list of strings and of such that stand there some times."""
    if isinstance(pieces, str):
        return pieces
    return ''.join(it if isinstance(it, str) else it['text'] * it['times'] for it in pieces)


def compare(programs, row, counts, folder):
    for name, text in row.get('files', {}).items():
        source = os.path.join(folder, 'source')
        with open(source, 'wb') as file:
            file.write(text_of(text).encode('latin-1'))
        (old_status, old), (new_status, new) = (compiled(it, source, folder) for it in programs)
        if old is None or new is None:
            if (old_status, old is None) != (new_status, new is None):
                wrong(counts, row, name, 'only one is compiled')
            continue
        counts.texts += 1
        counts.same_text += old == new
        before, after = Reader(old).file(), Reader(new).file()
        for at, it in enumerate((before, after)):
            counts.cases[at] += sum(cases(machine['step']) for machine in it[1].values())
        for why in counts.differences(before, after):
            wrong(counts, row, name, why)
        for step in row.get('steps', []):
            if step['words'][:2] == ['run', name] and len(step['words']) > 2:
                counts.runs += 1
                if told(programs[0], old, step['words'][2], text_of(step.get('input', '')), folder) != told(programs[1], new, step['words'][2], text_of(step.get('input', '')), folder):
                    wrong(counts, row, name, 'what is said')


def wrong(counts, row, name, why):
    counts.wrong += 1
    print(f'{row["row"]} {name}: {why}')


def main():
    is_fewer = sys.argv[1:2] == ['fewer']
    words = sys.argv[1 + is_fewer:]
    programs, tables, counts = words[:2], words[2:], Counts(fewer if is_fewer else differences)
    with tempfile.TemporaryDirectory() as folder:
        for table in tables:
            with open(table, encoding='utf-8') as file:
                for row in json.load(file):
                    compare(programs, row, counts, folder)
    print(f'{counts.texts} texts, {counts.same_text} with the same machines word by word; {counts.runs} runs; cases {counts.cases[0]} and {counts.cases[1]}; {counts.wrong} differ')
    return 1 if counts.wrong else 0


if __name__ == '__main__':
    sys.exit(main())
