"""What is tried: the same inputs for the same seed, all inputs in order, and a violation that was planted."""
import itertools
import os
import tempfile
import unittest

from heptools import inputs
from heptools.ending import Wrong
from heptools.machines import Signal

from . import EXAMPLES, hept, program, tool

BOTH = [Signal('a', 'bool'), Signal('m', 'mode', ['Off', 'Low', 'High'])]

# the third a in a row opens the door while the lamp is lit
PLANTED = '''node door(a, b : bool) returns (safe, other : bool)
var n : int;
let
  n = if a & not b then (0 fby n) + 1 else 0;
  safe = n < 3;
  other = not (a & b)
tel
'''
RARE = '''type gear = Park | Drive | Back
node box(g : gear; speed : int) returns (moving : bool; fine : bool)
var before : gear;
let
  before = Park fby g;
  moving = speed <> 0;
  fine = not (before = Drive & g = Back & speed > 3)
tel
'''


class Inputs(unittest.TestCase):
    def test_all_runs_are_all(self):
        runs = [tuple(it) for it in inputs.all_runs(BOTH, 2)]
        lines = list(itertools.product(['false', 'true'], ['Off', 'Low', 'High']))
        self.assertEqual(runs, [(it,) for it in lines] + list(itertools.product(lines, lines)))
        self.assertEqual(inputs.line_count(BOTH, 2), sum(map(len, runs)))

    def test_integers_and_too_many_lines_are_refused(self):
        with self.assertRaisesRegex(Wrong, 'n is an int'):
            inputs.all_runs([Signal('n', 'int')], 1)
        with self.assertRaisesRegex(Wrong, 'more than 5000000 lines'):
            inputs.all_runs([Signal(f'a{at}', 'bool') for at in range(64)], 1)

    def test_a_node_without_inputs_has_one_run_of_each_length(self):
        self.assertEqual([len(it) for it in inputs.all_runs([], 3)], [1, 2, 3])

    def test_the_same_seed_makes_the_same_lines(self):
        given = BOTH + [Signal('n', 'int')]
        once, again, other = ([list(it) for it in inputs.random_runs(seed, given, 3, 20)] for seed in (5, 5, 6))
        self.assertEqual(once, again)
        self.assertNotEqual(once, other)
        for line in itertools.chain.from_iterable(once):
            self.assertIn(line[0], ('true', 'false'))
            self.assertIn(line[1], ('Off', 'Low', 'High'))
            self.assertTrue(-2**31 <= int(line[2]) < 2**31)


class OverTheProgram(unittest.TestCase):
    def setUp(self):
        program()
        self.folder = tempfile.TemporaryDirectory()
        self.addCleanup(self.folder.cleanup)
        for name, text in (('door.ept', PLANTED), ('box.ept', RARE)):
            with open(os.path.join(self.folder.name, name), 'w') as file:
                file.write(text)

    def tried(self, *words):
        return tool('hept-try', *words, folder=self.folder.name)

    def test_all_inputs_find_the_shortest_trace(self):
        done = self.tried('door.ept', 'door', '--all')
        self.assertEqual((done.returncode, done.stdout), (9, b'true false\n' * 3))
        self.assertIn(b'`safe` is false at instant 3', done.stderr)
        self.assertEqual(hept('run', 'door.ept', 'door', text=done.stdout, folder=self.folder.name).stdout.split(b'\n')[-2], b'false true')

    def test_a_planted_violation_is_found_at_random_and_again(self):
        done = self.tried('box.ept', 'box', '--false', 'fine', '--seed', '7')
        self.assertEqual(done.returncode, 9, done.stderr)
        answers = hept('run', 'box.ept', 'box', text=done.stdout, folder=self.folder.name).stdout.decode().split('\n')[:-1]
        self.assertEqual([it.split()[1] for it in answers], ['true'] * (len(answers) - 1) + ['false'])
        again = self.tried('box.ept', 'box', '--false', 'fine', '--seed', '7')
        self.assertEqual((again.stdout, again.stderr), (done.stdout, done.stderr))
        self.assertIn(b'seed 7,', done.stderr)

    def test_the_seed_is_printed_and_says_the_same_again(self):
        done = self.tried('box.ept', 'box', '--false', 'fine')
        seed = done.stderr.decode().split('seed ')[1].split(',')[0]
        again = self.tried('box.ept', 'box', '--false', 'fine', '--seed', seed)
        self.assertEqual((again.returncode, again.stdout), (done.returncode, done.stdout))

    def test_nothing_is_found_where_nothing_is(self):
        with open(os.path.join(self.folder.name, 'well.ept'), 'w') as file:
            file.write('node well(a : bool) returns (y : bool)\nlet y = a or not a tel\n')
        done = self.tried('well.ept', 'well', '--all', '--instants', '5')
        self.assertEqual((done.returncode, done.stdout), (0, b''))
        self.assertIn(b'`y` was never false', done.stderr)

    def test_a_text_of_machines_is_tried_alike(self):
        self.assertEqual(hept('compile', 'door.ept', 'door.obc', folder=self.folder.name).returncode, 0)
        done = self.tried('door.obc', 'door', '--all')
        self.assertEqual((done.returncode, done.stdout), (9, b'true false\n' * 3))

    def test_a_contract_is_kept(self):
        with open(os.path.join(self.folder.name, 'kept.ept'), 'w') as file:
            file.write('node kept(a : bool) returns (y : bool)\ncontract assume a enforce y\nlet y = a tel\n')
        done = self.tried('kept.ept', 'kept', '--runs', '5')
        self.assertEqual((done.returncode, done.stdout), (0, b''), done.stderr)
        self.assertIn(b'the contract was kept', done.stderr)


if __name__ == '__main__':
    unittest.main()
