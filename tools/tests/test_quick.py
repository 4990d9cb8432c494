"""What answers where nothing is built: which words are a call, and what is made of a quick run."""
import os
import stat
import subprocess
import tempfile
import unittest

from heptools import forms

from . import EXAMPLES, TOOLS, hept, program

# a quick run that says on its streams what the files beside it hold, and keeps its words
STANDS_IN = '''#!/bin/sh
here=$(dirname "$0")
printf '%s\\n' "$@" >"$here/words"
cat >"$here/input"
cat "$here/out"
cat "$here/err" >&2
exit 3
'''
ENDED = 'checked: ended status={0}\nrun=ended status={0} runners=1 proved=no\n'
CALLS = ['', 'check', 'check a', 'check a b', 'check a --print', 'check --print a', 'check --print --print a', 'check -a', 'check --', 'check -', 'run a', 'run a b', 'run a b c', 'run a -b',
         'run a b --print', 'compile a', 'compile a b', 'exec a b', 'exec a b --contract', 'prove a b', 'prove a b c', 'verify a b c', 'verify a b c d', 'sweep', 'sweep 0 1', 'sweep 9 1', 'sweep 1 1000001', 'sweep a 1',
         'sweep 1 -1', 'sweep 1', 'what', '--help', '-h', 'CHECK a', 'check --print', 'run a b --contract', 'run --contract a b', 'run a --contract b', 'run a b --contract --contract', 'sweep 01 002', 'sweep 2 6']


class Words(unittest.TestCase):
    def test_the_words_of_a_call_are_those_of_the_program(self):
        program()
        with tempfile.TemporaryDirectory() as folder:
            for call in CALLS:
                with self.subTest(call):
                    done = hept(*call.split(), folder=folder)
                    self.assertEqual(done.returncode == 2, forms.arguments(call.split()) is None)
                    self.assertEqual(done.returncode == 2, done.stderr.decode() == forms.USAGE + '\n')

    def test_options_and_arguments(self):
        self.assertEqual(forms.arguments(['run', '--contract', 'a', 'b']), ['a', 'b'])
        self.assertIsNone(forms.arguments(['run', 'a', 'b', '--contract', '--contract']))
        self.assertEqual(forms.arguments(['sweep', '08', '01000000']), ['08', '01000000'])
        self.assertEqual(forms.arguments(['sweep', '1', '0' * 9000]), ['1', '0' * 9000])
        self.assertIsNone(forms.arguments(['sweep', '1', '٣']))
        self.assertIsNone(forms.arguments(['sweep', '1', '9' * 9000]))
        self.assertIsNone(forms.arguments(['sweep', '', '']))
        self.assertIsNone(forms.arguments([]))


class Quick(unittest.TestCase):
    def setUp(self):
        self.folder = tempfile.TemporaryDirectory()
        self.addCleanup(self.folder.cleanup)
        self.path = os.path.join(self.folder.name, 'rt')
        with open(self.path, 'w') as file:
            file.write(STANDS_IN)
        os.chmod(self.path, stat.S_IRWXU)

    def call(self, *words, out='', err='', text=b'', **ways):
        for name, said in (('out', out), ('err', err)):
            with open(os.path.join(self.folder.name, name), 'w') as file:
                file.write(said)
        surroundings = {**os.environ, 'PATH': f'{self.folder.name}:{os.environ["PATH"]}', 'PYTHONDONTWRITEBYTECODE': '1'}
        ways = {'stdout': subprocess.PIPE, 'stderr': subprocess.PIPE, **ways}
        return subprocess.run([os.path.join(TOOLS, 'hept-quick'), *words], input=text, env=surroundings, cwd=EXAMPLES, **ways)

    def held(self, name):
        with open(os.path.join(self.folder.name, name)) as file:
            return file.read()

    def test_the_answer_and_the_status_are_those_of_the_program(self):
        for status, told in ((0, ''), (1, 'E12 g\n'), (3, 'L1 2 1\n'), (4, ''), (6, ''), (7, 'K1 1:11\n'), (8, 'O1 1:5\n')):
            with self.subTest(status):
                done = self.call('run', 'p1.ept', 'f', '--contract', out='false\n', err='rt: a check will refuse this: x\n' + told + 'interpreter: no-answer: 1\n' + ENDED.format(status), text=b'true\n')
                self.assertEqual((done.returncode, done.stdout), (status, b'false\n'))
                first, _, rest = done.stderr.decode().partition('\n')
                self.assertTrue(first.startswith('hept: nothing is built yet: an unproved build answers'), first)
                self.assertEqual(rest, told)
                self.assertEqual(self.held('input'), 'true\n')
        words = self.held('words').split('\n')
        self.assertEqual(words[:2], ['try', '--steps'])
        self.assertEqual(words[words.index('--data') + 1], f'hept-text={EXAMPLES}/p1.ept')
        self.assertEqual(words[words.index('--') + 1:-1], ['run', 'hept-text', 'f', '--contract'])

    def test_a_run_that_gave_no_answer(self):
        for err in ('', 'run=none proved=no\n', 'error: what\nrun=none proved=no\n', 'checked: no-answer: more than 1 MiB\nrun=no-answer proved=no\n', ENDED.format(0).replace('proved=no', 'x'),
                    'rt: standard input did not end, so the program gets its first 5 bytes\n' + ENDED.format(0)):
            with self.subTest(err):
                done = self.call('exec', 'delay.obc', 'f', out='false\n', err=err)
                self.assertEqual((done.returncode, done.stdout), (70, b''))
                self.assertEqual([it.split(':')[0] for it in done.stderr.decode().split('\n')], ['hept', 'hept', ''])

    def test_commands_that_write_want_the_program(self):
        for words in (('compile', 'p1.ept', 'out'), ('prove', 'p1.ept', 'f', 'out'), ('past', 'p1.ept', 'out')):
            done = self.call(*words)
            self.assertEqual((done.returncode, done.stdout, done.stderr.count(b'\n')), (70, b'', 1))
            self.assertIn(b'./build', done.stderr)

    def test_wrong_words_are_answered_at_once(self):
        done = self.call('run', 'p1.ept')
        self.assertEqual((done.returncode, done.stdout, done.stderr.decode()), (2, b'', forms.USAGE + '\n'))

    def test_a_file_that_is_not_there_is_left_to_the_program(self):
        self.call('verify', 'none', 'f', 'p1.ept', err=ENDED.format(4))
        words = self.held('words').split('\n')
        self.assertEqual([it for it in words if '=' in it], [f'hept-cert={EXAMPLES}/p1.ept'])
        self.assertEqual(words[words.index('--') + 1:-1], ['verify', 'hept-text', 'f', 'hept-cert'])

    def test_an_output_that_fails(self):
        with open('/dev/full', 'wb') as full:
            done = self.call('run', 'p1.ept', 'f', out='false\n', err=ENDED.format(0), stdout=full)
        self.assertEqual(done.returncode, 5)

    def test_without_the_kit(self):
        os.remove(self.path)
        surroundings = {**os.environ, 'PATH': '/usr/bin:/bin'}
        python = subprocess.run(['which', 'python3'], capture_output=True, text=True).stdout.strip()
        done = subprocess.run([python, os.path.join(TOOLS, 'hept-quick'), 'check', 'a'], capture_output=True, env=surroundings)
        self.assertEqual((done.returncode, done.stdout, done.stderr.count(b'\n')), (70, b'', 1))
        self.assertIn(b'`rt`', done.stderr)


if __name__ == '__main__':
    unittest.main()
