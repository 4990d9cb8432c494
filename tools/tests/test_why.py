"""What hept-why shows of a lost contract is run again by hept: the contract holds at each instant but the last, and fails there."""
import itertools
import os
import re
import subprocess
import tempfile
import unittest

from . import EXAMPLES, TOOLS, TOP, hept, program, surroundings, tool

WHY = os.path.join(TOP, 'crates', 'hp_why', 'out', 'hp_why')

DELAYABLE = '''node delayable(r, c, e : bool) returns (a, s : bool)
let
  automaton
    state Idle do a = false; s = r & c
      until r & c then Active | r & not c then Wait
    state Wait do a = false; s = c
      until c then Active
    state Active do a = true; s = false
      until e then Idle
  end
tel
'''
TASKS = DELAYABLE + '''node tasks(r1, e1, r2, e2 : bool) returns (a1, a2, s1, s2 : bool)
contract enforce not (a1 & a2)
let
  (a1, s1) = inlined delayable(r1, true, e1);
  (a2, s2) = inlined delayable(r2, true, e2)
tel
'''
CONTROLLED = TASKS.replace('enforce not (a1 & a2)', 'enforce not (a1 & a2) with (c1, c2 : bool)').replace('(r1, true,', '(r1, c1,').replace('(r2, true,', '(r2, c2,')
COMPARED = '''node f(x : int) returns (y : bool)
contract enforce y = (x > 3)
let y = x > 3 tel
'''
DELAYED = '''node h(x : bool) returns (y : bool)
contract enforce y
let y = true fby x tel
'''
LAST = '''node h(x : bool) returns (y : bool)
contract enforce y
var last z : bool = true;
let y = last z; z = x tel
'''
HEATED = '''type mode = Full | Half | Off
node heated(ask : mode; hot : bool) returns (m : mode)
contract enforce not (hot & m = Full)
let m = ask tel
'''


def chain(count):
    """A contract that is lost in so many instants: the input has to be true at each of them."""
    names = [f's{at}' for at in range(1, count)]
    before = dict(zip(names, ['go', *(f'{it} & go' for it in names)]))
    body = ' '.join(f'{it} = false fby ({before[it]});' for it in names)
    return f'''node ten(go : bool) returns (fine, other : bool)
contract enforce fine with (c : bool)
var {', '.join(names)} : bool;
let {body} fine = not ({names[-1]} & go); other = c tel
'''


# of each program: its text and node, and a program in which what the contract's game gives and chooses are inputs, by the names under which they are shown; its one
# output says whether the guarantee holds
PLAYS = {
    'tasks': (TASKS, 'tasks', ['r1', 'e1', 'r2', 'e2'], DELAYABLE + '''node plant(r1, e1, r2, e2 : bool) returns (fine : bool)
var a1, s1, a2, s2 : bool;
let (a1, s1) = delayable(r1, true, e1); (a2, s2) = delayable(r2, true, e2); fine = not (a1 & a2) tel
'''),
    'compared': (COMPARED, 'f', ['`x > 3`@2:23', '`x > 3`@3:9'], '''node plant(p, q : bool) returns (fine : bool)
var y : bool;
let y = q; fine = y = p tel
'''),
    'delayed': (DELAYED, 'h', ['x'], '''node plant(x : bool) returns (fine : bool)
let fine = true fby x tel
'''),
    'ten': (chain(10), 'ten', ['go', 'c'], chain(10).replace('node ten(go : bool) returns (fine, other : bool)', 'node plant(go, c : bool) returns (fine : bool)')
            .replace('contract enforce fine with (c : bool)\n', '').replace('; other = c', '')),
}
with open(os.path.join(EXAMPLES, 'alarm.ept'), encoding='utf-8') as file:
    PLAYS['alarm'] = (file.read(), 'alarms', ['fire', 'water'], '''node plant(fire, water : bool) returns (fine : bool)
var bell, siren : bool;
let bell = fire; siren = water; fine = not (bell & siren) tel
''')


VALVE = '''node valve(run : bool; pressure : int) returns (relief, alarm : bool)
contract enforce relief = alarm with (c : bool)
let relief = run & c; switch run | true do alarm = pressure > 80 | false do alarm = false end tel
'''
TANK = '''node pump(run : bool) returns (flow : bool)
contract var last was : bool = false; let was = flow tel assume not (run & last was) enforce flow = run
let flow = run tel
node tank(need : bool) returns (flow, dry : bool)
contract enforce not dry with (c : bool)
var go : bool; let go = need & c; flow = pump(go); dry = need & not go tel
'''
THREE = '''node three(f1, f2, f3 : bool) returns (a1, a2, a3 : bool)
contract enforce not (a1 & a2) & not (a2 & a3) & not (a1 & a3) & (not (f1 or f2 or f3) or a1 or a2 or a3) & (f1 => a1) & (f2 => a2) & (f3 => a3) with (c1, c2, c3 : bool)
let a1 = c1; a2 = c2; a3 = c3 tel
'''
# of each program: its text and node, the inputs of a plant in which what is given, chosen and answered are inputs, under the names that are shown, and the plant
CHOICES = {
    'valve': (VALVE, 'valve', ['run', 'c', '`pressure > 80`'], '''node plant(run, c, high : bool) returns (fine : bool)
var relief, alarm : bool;
let relief = run & c; switch run | true do alarm = high | false do alarm = false end; fine = relief = alarm tel
'''),
    'tank': (TANK, 'tank', ['need', 'c', 'flow'], '''node plant(need, c, flow : bool) returns (fine : bool)
var go, dry, kept : bool; last was : bool = false;
let go = need & c; was = flow; dry = need & not go; kept = go & last was or flow = go; fine = not dry & not (go & last was) or not kept tel
'''),
    'three': (THREE, 'three', ['f1', 'f2', 'f3', 'c1', 'c2', 'c3'], THREE.replace('node three(f1, f2, f3 : bool) returns (a1, a2, a3 : bool)', 'node plant(f1, f2, f3, c1, c2, c3 : bool) returns (fine : bool)\nvar a1, a2, a3 : bool;')
              .replace('contract enforce ', 'let fine = ').replace(' with (c1, c2, c3 : bool)\nlet ', ';\n')),
}


def values_of(text):
    """The values that are told in a text, by name."""
    found = (re.fullmatch(r'(.*) (?:=|taken as) (\w+)', it) for it in re.split('[,;] ', text))
    return {it[1]: it[2] for it in found if it}


def lines_of(text):
    """The lines of a text in which those that were broken are whole, each with its word and what it tells."""
    found = []
    for line in text.split('\n'):
        if line.startswith(' ' * 11) and found[-1][1].endswith((',', ';')):
            found[-1] = found[-1][0], f'{found[-1][1]} {line.strip()}'
        elif line.startswith('  '):
            found.append((line[2:11].strip() or found[-1][0], line[11:]))
        else:
            found.append(('', line))
    return found


def groups_of(text):
    """The groups of choices of each instant that is shown: the choices as they are told, the values of the answer, and whether it is the one that is shown."""
    found = []
    for word, line in lines_of(text):
        if line.startswith('instant '):
            found.append([])
        elif word == 'choice' and (told := re.match(r'(\*|-|whatever is chosen)(.*?)(?: \(then (.*?)\))?: ', line)):
            found[-1].append((told[2].strip(), values_of(told[3] or ''), told[1] != '-'))
    return found


def instants_of(text):
    """The values of each instant that is shown, by name."""
    found, at = [], -1
    for word, line in lines_of(text):
        if line.startswith('instant '):
            at += 1
            found.append({})
            for _, answer, is_shown in groups_of(text)[at]:
                found[at].update(answer if is_shown else {})
        elif told := re.match(r'\((?:\* is )?shown below: (.*?)(?: \(then (.*)\))?\)$', line):
            found[at].update(values_of(told[1]) | values_of(told[2] or ''))
        elif word in ('given', 'choice', 'then'):
            found[at].update(values_of(line.replace(' (no other choice helps)', '')))
    return found


class Why(unittest.TestCase):
    def setUp(self):
        program()
        if not os.access(WHY, os.X_OK):
            self.fail(f'{WHY} is not there: rt ci or ./build leaves it')
        folder = tempfile.TemporaryDirectory()
        self.addCleanup(folder.cleanup)
        self.folder = folder.name

    def write(self, name, text):
        path = os.path.join(self.folder, name)
        with open(path, 'wb') as file:
            file.write(text if isinstance(text, bytes) else text.encode())
        return path

    def why(self, text, node):
        return tool('hept-why', self.write('text.ept', text), node)

    def test_each_play_is_run_again_and_ends_in_the_violation(self):
        for name, (text, node, inputs, plant) in PLAYS.items():
            with self.subTest(name):
                done = self.why(text, node)
                self.assertEqual((done.returncode, done.stderr), (0, b''))
                said = done.stdout.decode()
                shown = instants_of(said)
                lost = hept('check', self.write('text.ept', text)).stderr.decode().split('\n')[0]
                self.assertEqual(lost, f'E11 {node} {len(shown)}')
                count = f'{len(shown)} instant' + ('s' if len(shown) > 1 else '')
                self.assertIn(f'{node}: a violation of the contract is forced in {count}, ', said.split('\n')[0])
                trace = ''.join(' '.join(it.get(word, 'false') for word in inputs) + '\n' for it in shown)
                run = hept('run', self.write('plant.ept', plant), 'plant', text=trace.encode())
                self.assertEqual(run.stdout.decode().split(), ['true'] * (len(shown) - 1) + ['false'], (said, trace, run.stderr))
                self.assertIn('  violated ', said)

    def test_each_group_of_choices_is_run_again(self):
        """At the instant of a group each choice of it, with its answer, breaks the guarantee, or what a called node assumes, or leads to an instant that is shown."""
        for name, (text, node, inputs, plant) in CHOICES.items():
            with self.subTest(name):
                said = self.why(text, node).stdout.decode()
                shown, groups = instants_of(said), groups_of(said)
                chosen = [it for it in inputs if re.fullmatch(r'c\d?', it)]
                self.write('plant.ept', plant)
                for place, told in enumerate(groups):
                    left = set(itertools.product(('false', 'true'), repeat=len(chosen)))
                    self.assertEqual(sum(is_shown for _, _, is_shown in told), 1, said)
                    for choices, answer, is_shown in told:
                        for choice in self.choices_of(choices, chosen):
                            left.discard(choice)
                            here = {**shown[place], **dict.fromkeys(set(inputs) - set(chosen) - set(shown[place]), 'false'), **answer, **dict(zip(chosen, choice))}
                            trace = [*shown[:place], here] + shown[place + 1:] * is_shown
                            run = hept('run', os.path.join(self.folder, 'plant.ept'), 'plant', text=''.join(' '.join(it.get(word, 'false') for word in inputs) + '\n' for it in trace).encode())
                            self.assertEqual(run.stdout.decode().split()[-1], 'false', (said, trace, run.stderr))
                    self.assertEqual(left, set(), said)

    def choices_of(self, told, chosen):
        """All choices that are among those that are told."""
        for cube in told.split(' or '):
            known = values_of(cube)
            yield from itertools.product(*([known[it]] if it in known else ('false', 'true') for it in chosen))

    def test_what_is_read_of_an_earlier_instant_is_no_cause(self):
        for right in ('true fby x', 'true -> pre x'):
            said = self.why(DELAYED.replace('true fby x', right), 'h').stdout.decode()
            self.assertEqual([line.split(' ')[0] for word, line in lines_of(said) if word == 'because'], ['y'], said)
        said = self.why(LAST, 'h').stdout.decode()
        self.assertEqual([line.split(' ')[0] for word, line in lines_of(said) if word == 'because'], ['y'], said)

    def test_it_is_told_by_which_condition_an_automaton_moves(self):
        said = self.why(TASKS, 'tasks').stdout.decode()
        moves = [line for word, line in lines_of(said) if word == 'moves']
        self.assertEqual(moves, [f'automaton 3:3 (a{it}) from Idle to Active by `r & c` (5:13)' for it in (1, 2)], said)

    def test_a_hint_that_was_tried_holds_of_the_program_that_is_changed_by_hand(self):
        alarm = PLAYS['alarm'][0]
        for text, node, hint, changed in (
                (alarm, 'alarms', '`assume not (fire & water)`. Tried: then the contract is kept.', alarm.replace('enforce', 'assume not (fire & water) enforce')),
                (COMPARED, 'f', '`x > 3` stands at 2:23 and 3:9: each occurrence is free by itself.', COMPARED.replace('y : bool', 'y, high : bool').replace('(x > 3)', 'high').replace('y = x > 3', 'high = x > 3; y = high')),
                (VALVE, 'valve', 'Tried: known before, the contract would be kept.', VALVE.replace('alarm = pressure > 80', 'alarm = hot').replace('let relief', 'var hot : bool; let hot = pressure > 80; relief'))):
            with self.subTest(node):
                said = self.why(text, node).stdout.decode()
                self.assertIn(hint, ' '.join(said.split('what may help')[1].split()), said)
                self.assertEqual(hept('check', self.write('changed.ept', changed)).returncode, 0)

    def test_an_assumption_that_is_told_is_enough(self):
        for text, node in ((PLAYS['alarm'][0], 'alarms'), (HEATED, 'heated'), (THREE, 'three'), (HEATED.replace('enforce', 'assume ask <> Off enforce'), 'heated')):
            with self.subTest(text):
                said = ' '.join(self.why(text, node).stdout.decode().split())
                told = re.search('It would be enough that the surroundings keep `assume (.*?)`. Tried: then the contract is kept.', said)
                self.assertIsNotNone(told, said)
                changed = text.replace('assume ', f'assume {told[1]} & ') if 'assume' in text else text.replace('enforce', f'assume {told[1]} enforce')
                self.assertEqual(hept('check', self.write('changed.ept', changed)).stderr, b'')
                self.assertNotEqual(hept('check', self.write('text.ept', text)).stderr, b'')

    def test_other_hints(self):
        for text, node, hint in (
                (COMPARED, 'f', 'No integer x does this: `x > 3` is taken as '),
                (PLAYS['alarm'][0], 'alarms', 'Nothing can be chosen: '),
                (TANK, 'tank', 'At the last instant no choice keeps all of: '),
                ('node echo(x : bool) returns (y : bool) let y = x tel\nnode f(x : bool) returns (y : bool) contract enforce y let y = echo(true) tel\n', 'f', 'echo has no contract'),
                (chain(10), 'ten', 'No choice changes anything on this play')):
            with self.subTest(hint):
                said = self.why(text, node).stdout.decode()
                self.assertIn(hint, ' '.join(said.split('what may help')[1].split()), said)
                self.assertLessEqual(said.count('\n  - '), 3)

    def test_a_long_play_is_told_whole_where_all_is_asked_for(self):
        text = self.write('text.ept', chain(24))
        short, whole = (tool('hept-why', text, 'ten', *words).stdout.decode() for words in ((), ('--all',)))
        self.assertEqual(short.count('\ninstant '), 6)
        self.assertIn('\n  4 to 21: go = true\n', short)
        self.assertEqual(whole.count('\ninstant '), 24)

    def test_what_is_permitted_is_told_line_by_line(self):
        """What is chosen is what the run shows; it is said to be the only way exactly where the other value breaks the guarantee, at this instant."""
        with open(os.path.join(EXAMPLES, 'airlock.ept'), 'rb') as file:
            path = self.write('airlock.ept', file.read())
        trace = [(enter, leave) for enter in ('false', 'true') for leave in ('false', 'true')]
        done = tool('hept-why', path, 'airlock', '--trace', text=''.join(' '.join(it) + '\n' for it in trace).encode())
        lines = [line for line in done.stdout.decode().split('\n') if line.startswith('  line ')]
        self.assertEqual(lines, [
            '  line 1: let_inner=true let_outer=true',
            '  line 2: let_inner=true let_outer=true',
            '  line 3: let_inner=true let_outer=true',
            '  line 4: let_inner=true let_outer=false!'])
        path = self.write('tasks.ept', CONTROLLED)
        trace = 'true false true false\nfalse false false true\nfalse true true true\nfalse false true false\n'.encode()
        done = tool('hept-why', path, 'tasks', '--trace', text=trace)
        run = hept('run', path, 'tasks', text=trace).stdout.decode().split('\n')
        told = [re.findall(r'c\d=(\w+)(!?)', line) for line in done.stdout.decode().split('\n') if line.startswith('  line ')]
        self.assertEqual(len(told), 4, done.stderr)
        self.assertEqual(told[0], [('true', ''), ('false', '!')])
        # (a task that is asked for and let go is started)
        self.assertEqual(run[0].split()[2:], [it[0] for it in told[0]])

    def test_a_trace_is_refused_in_one_line(self):
        path = self.write('text.ept', DELAYED)
        self.one_line(tool('hept-why', path, 'h', '--trace', text=b'true\n'), 1)
        with open(os.path.join(EXAMPLES, 'airlock.ept'), 'rb') as file:
            path = self.write('airlock.ept', file.read())
        done = tool('hept-why', path, 'airlock', '--trace', text=b'true false\ntrue\n')
        self.assertEqual(done.stdout.count(b'  line '), 1)
        self.assertNotEqual(done.returncode, 0)
        self.assertEqual(done.stderr.count(b'\n'), 1)

    def test_the_variables_of_a_certificate_are_told(self):
        said = self.why(CONTROLLED, 'tasks').stdout.decode()
        lines = said.split('\n')
        with open(self.prove(CONTROLLED, 'tasks'), encoding='utf-8') as file:
            counts = file.read().split('\n')[3]
        self.assertEqual(lines[0], f'tasks: the contract is kept. The variables of its certificate ({counts}):')
        told = [re.match(r'  (\d+)(?:-(\d+))?  (\w+) +\d+:\d+  (.*)', it) for it in lines[1:-1]]
        numbers = [at for it in told for at in range(int(it[1]), int(it[2] or it[1]) + 1)]
        self.assertEqual(numbers, list(range(sum(map(int, counts.split()[1:])))))
        self.assertEqual([it[4] for it in told if it[3] in ('early', 'control')], ['r1', 'e1', 'r2', 'e2', 'c1', 'c2'])
        self.assertIn('(a1)  00 Idle, 01 Wait, 10 Active', said)

    def prove(self, text, node):
        path = os.path.join(self.folder, 'cert')
        hept('prove', self.write('text.ept', text), node, path)
        return path

    def test_what_is_refused_is_told_as_by_hept(self):
        for text, node in ((b'node', 'f'), (b'\xff\xfe\0', 'f'), (COMPARED, 'g'), (COMPARED.replace('x > 3 tel', 'z tel'), 'f'), (DELAYABLE, 'delayable')):
            with self.subTest(text[:20], node=node):
                done = self.why(text, node)
                wanted = hept('prove', os.path.join(self.folder, 'text.ept'), node, os.path.join(self.folder, 'cert'))
                self.assertEqual((done.returncode, done.stdout, done.stderr), (wanted.returncode, b'', wanted.stderr))

    def one_line(self, done, status):
        self.assertEqual((done.returncode, done.stderr.count(b'\n')), (status, 1), done.stderr)
        self.assertNotIn(b'Traceback', done.stderr)

    def test_bad_input_is_one_line(self):
        self.one_line(tool('hept-why', 'no/file', 'f'), 4)
        self.one_line(tool('hept-why', self.folder, 'f'), 4)
        self.one_line(tool('hept-why', 'one'), 2)
        self.one_line(tool('hept-why', self.write('bytes', bytes(range(128, 256))), 'f'), 1)
        path = self.write('text.ept', DELAYED)
        with open('/dev/full', 'wb') as full:
            self.one_line(tool('hept-why', path, 'h', stdout=full, stderr=subprocess.PIPE), 4)
        line = ' '.join([os.path.join(TOOLS, 'hept-why'), path, 'h'])
        self.one_line(subprocess.run(['sh', '-c', f'{line} >&-'], capture_output=True, env=surroundings()), 5)

    def test_the_program_itself_ends_by_its_status(self):
        for words, status in (([], 2), (['no/file', 'f'], 4), ([self.write('text.ept', DELAYED), 'g'], 1)):
            done = subprocess.run([WHY, *words], capture_output=True)
            self.assertEqual((done.returncode, done.stdout, done.stderr), (status, b'', b''))
        with open('/dev/full', 'wb') as full:
            self.assertEqual(subprocess.run([WHY, self.write('text.ept', DELAYED), 'h'], stdout=full, stderr=subprocess.PIPE).returncode, 5)


if __name__ == '__main__':
    unittest.main()
