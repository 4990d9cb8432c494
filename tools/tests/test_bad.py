"""Bad input: one line on standard error, a status that is not 0, and no trace of Python."""
import os
import subprocess
import tempfile
import unittest

from . import EXAMPLES, TOOLS, program, surroundings, tool

P1 = os.path.join(EXAMPLES, 'p1.ept')
BYTES = bytes(range(128, 256)) * 4 + b'\0\xff\n'
STANDS_IN = '#!/bin/sh\nexit 0\n'


class Bad(unittest.TestCase):
    def one_line(self, done, *statuses):
        told = done.stderr.decode('utf-8', 'strict')
        self.assertEqual(told.count('\n'), 1, told)
        self.assertTrue(told.endswith('\n') and told.startswith('hept'), told)
        self.assertNotIn('Traceback', told)
        self.assertNotEqual(done.returncode, 0)
        if statuses:
            self.assertIn(done.returncode, statuses)

    def setUp(self):
        self.folder = tempfile.TemporaryDirectory()
        self.addCleanup(self.folder.cleanup)
        for name, text in (('bytes', BYTES), ('empty', b'')):
            with open(os.path.join(self.folder.name, name), 'wb') as file:
                file.write(text)

    def at(self, name):
        return os.path.join(self.folder.name, name)


class WithoutTheProgram(Bad):
    def test_files_that_are_not_there(self):
        self.one_line(tool('hept-explain', 'no/file', text=b'E1 1:1\n'))
        self.one_line(tool('hept-wave', 'no/file', 'f'))
        self.one_line(tool('hept-try', 'no/file', 'f'))

    def test_lines_that_are_no_diagnostics(self):
        for line in (b'E1\n', b'E99 1:1\n', b'E4 1:1 x perhaps\n', b'File "x", line 3\n', BYTES, b'E1 1:1 \n', b'K3 rank\n', b'x' * 100_000 + b'\n'):
            with self.subTest(line[:20]):
                self.one_line(tool('hept-explain', text=line), 1)
        done = tool('hept-explain', text=b'E12 f\nwhat\nE12 g\n')
        self.assertEqual(done.stdout.count(b'error[E12]'), 2)
        self.one_line(done, 1)

    def test_places_that_are_not_in_the_text(self):
        for line in (b'E1 1:1', b'E1 0:0', b'E2 99999:99999', b'E9 f x@3:1 y@999999999999:1 x@3:1', b'E7 f 5:5', b'E11 f 3', b'E3 f late 65 64'):
            for name in ('bytes', 'empty'):
                with self.subTest(line), self.subTest(name):
                    done = tool('hept-explain', self.at(name), text=line + b'\n')
                    self.assertEqual((done.returncode, done.stderr), (0, b''))

    def test_wrong_words(self):
        for name, words in (('hept-explain', ['a', 'b']), ('hept-explain', ['--what']), ('hept-explain', ['E77']), ('hept-wave', []), ('hept-wave', ['f']),
                            ('hept-wave', [P1, 'f', '--svg', '--vcd']), ('hept-wave', [P1, 'f', '--lines', '5-3']), ('hept-wave', [P1, 'f', '--lines', 'x']),
                            ('hept-try', [P1, 'f', '--instants', '0']), ('hept-try', [P1, 'f', '--seed', 'x']), ('hept-try', [])):
            with self.subTest(' '.join([name, *words])):
                self.one_line(tool(name, *words), 2, 4)

    def test_an_output_that_is_closed_or_full(self):
        for name, words in (('hept-explain', ['--all']), ('hept-explain', ['E4']), ('hept-explain', ['--help'])):
            with self.subTest(' '.join([name, *words])):
                with open('/dev/full', 'wb') as full:
                    self.one_line(tool(name, *words, stdout=full, stderr=subprocess.PIPE))
                line = ' '.join([os.path.join(TOOLS, name), *words])
                self.one_line(subprocess.run(['sh', '-c', f'{line} >&-'], capture_output=True, env=surroundings()), 5)
        reading, writing = os.pipe()
        os.close(reading)
        with os.fdopen(writing, 'wb') as closed:
            self.one_line(tool('hept-explain', '--all', stdout=closed, stderr=subprocess.PIPE), 5)

    def test_no_program(self):
        for name, words in (('hept-explain', ['check', P1]), ('hept-wave', [P1, 'f']), ('hept-try', [P1, 'f'])):
            with self.subTest(name):
                self.one_line(tool(name, *words, hept='/no/such/program'), 70)

    def test_a_program_that_answers_nothing_or_is_killed(self):
        for text in (STANDS_IN, '#!/bin/sh\nkill -9 $$\n'):
            with open(self.at('standsin'), 'w') as file:
                file.write(text)
            os.chmod(self.at('standsin'), 0o755)
            for name in ('hept-wave', 'hept-try'):
                with self.subTest(name):
                    self.one_line(tool(name, P1, 'f', text=b'true\n', hept=self.at('standsin')))


class OverTheProgram(Bad):
    def setUp(self):
        super().setUp()
        program()

    def test_bytes_that_are_no_text(self):
        for name in ('hept-wave', 'hept-try'):
            with self.subTest(name):
                self.one_line(tool(name, self.at('bytes'), 'f', text=b'true\n'), 1)
                self.one_line(tool(name, self.folder.name, 'f'), 4)
        self.one_line(tool('hept-wave', P1, 'f', text=BYTES), 3)
        self.one_line(tool('hept-wave', P1, 'f', text=b'x' * 3_000_000), 3)

    def test_nodes_and_outputs_that_are_not_there(self):
        self.one_line(tool('hept-wave', P1, 'g', text=b'true\n'), 1)
        self.one_line(tool('hept-try', P1, 'g'), 1)
        self.one_line(tool('hept-try', P1, 'f', '--false', 'z'), 2)

    def test_an_output_that_is_closed_or_full(self):
        for name, words in (('hept-wave', [P1, 'f']), ('hept-wave', [P1, 'f', '--vcd']), ('hept-wave', [P1, 'f', '--svg']), ('hept-try', [P1, 'f', '--all'])):
            with self.subTest(' '.join([name, *words])):
                with open('/dev/full', 'wb') as full:
                    self.one_line(tool(name, *words, text=b'true\nfalse\n' * 5000, stdout=full, stderr=subprocess.PIPE), 4, 5)
                line = ' '.join([os.path.join(TOOLS, name), *words])
                self.one_line(subprocess.run(['sh', '-c', f'{line} >&-'], input=b'true\n', capture_output=True, env=surroundings()), 5)

    def test_an_empty_trace(self):
        self.one_line(tool('hept-wave', P1, 'f', text=b''), 1)
        done = tool('hept-wave', P1, 'f', '--vcd', text=b'')
        self.assertEqual((done.returncode, done.stderr, done.stdout[-3:]), (0, b'', b'#0\n'))


if __name__ == '__main__':
    unittest.main()
