"""Each diagnostic from its own example: the program gives the line, the tool explains it, and the cure cures it."""
import os
import re
import tempfile
import unittest

from heptools import diagnostics, explain, reference
from heptools.diagnostics import text_of
from heptools.source import Source

from . import EXAMPLES, PROGRAM, hept, program, tool

DATA = diagnostics.load()
CASES = [(entry, example) for entry in DATA.entries for example in entry.data['example']]


def first_file(example):
    """The source text of an example that its places are in: of a certificate that text."""
    texts = example.get('files', {})
    name = example['words'].split()[3] if example['words'].startswith('verify') and example.get('line', '').startswith('K1') else example['words'].split()[1]
    is_short = 'untried' not in example and entry_word(example) != 'text'
    return Source(name, text_of(texts[name]).encode()) if name in texts and is_short else None


def entry_word(example):
    return (example.get('line', '').split() + ['', '', ''])[2]


def line_of(example):
    """The line, or of a line that is given by its beginning one that begins so."""
    if 'line' in example:
        return example['line']
    return example['begins'] + ('y@4:3 y@4:3' if example['begins'].startswith('E9') else '')


def fill(folder, texts):
    for name, text in texts.items():
        with open(os.path.join(folder, name), 'w', encoding='latin-1', newline='\n') as file:
            file.write(text_of(text))


class FromTheData(unittest.TestCase):
    def test_each_line_is_its_entry(self):
        for entry, example in CASES:
            with self.subTest(example['shows']):
                found = DATA.find(line_of(example))
                self.assertIs(found and found[0], entry)

    def test_each_example_is_explained(self):
        for entry, example in CASES:
            with self.subTest(example['shows']):
                source = first_file(example)
                told = explain.told(DATA, line_of(example), source)
                lines = explain.lines_of(told, source)
                self.assertTrue(lines[0].startswith(f'error[{entry.code.rstrip(":")}]: '), lines)
                self.assertTrue(any(it.startswith('  = cure: ') for it in lines), lines)
                self.assertNotRegex(''.join(lines), r'\{[A-Z]+\}')
                if re.search(r'\d+:\d+', line_of(example)) and source is not None:
                    self.assertTrue(any(set(it.split('|')[-1].split(' ')) & {'^' * n for n in range(1, 300)} for it in lines), lines)

    def test_what_other_languages_have_is_told_by_name(self):
        for missing in DATA.missing:
            with self.subTest(missing['name']):
                told = explain.told(DATA, missing['line'], Source('t', missing['text'].encode()))
                self.assertEqual(told.title, f'not in this language: {missing["name"]}')
                self.assertEqual(told.cure, missing['instead'])

    def test_every_code_word_and_limit_is_there(self):
        words = {(it.code, it.word) for it in DATA.entries}
        for code in [f'E{n}' for n in range(1, 13)] + ['L1', 'L2', 'L3', 'L4', 'K1', 'K2', 'K3', 'O1', 'O2', 'usage:']:
            self.assertTrue(any(it[0] == code for it in words), code)
        for number in range(9):
            self.assertIn(number, DATA.statuses)
        self.assertEqual([number for number, it in DATA.statuses.items() if it.get('silent')], [4, 5, 6])

    def test_the_caret_stands_below_its_token(self):
        source = Source('f.ept', 'node f(x : int) returns (z : int)\n\tlet z = (* é *) x when c tel\n'.encode())
        lines = explain.lines_of(explain.told(DATA, 'E7 f 2:19', source), source)
        shown = next(it for it in lines if 'let z' in it)
        caret = next(it for it in lines if '^' in it)
        self.assertEqual(shown[caret.index('^')], 'x')

    def test_the_name_that_is_meant_is_marked(self):
        source = Source('f.ept', b'type mode = Off | On\ntype lamp = Lit | Off\n')
        lines = explain.lines_of(explain.told(DATA, 'E4 2:6 Off twice', source), source)
        carets = [it.index('^') for it in lines if '^' in it]
        shown = next(it for it in lines if 'lamp' in it)
        self.assertEqual([shown[at:at + 3] for at in carets], ['lam', 'Off'])

    def test_a_constructor_is_told_as_one(self):
        self.assertEqual(self.title_of('switch x', 'E6 1:1 Back branch'), 'the constructor `Back` is missing, or stands there twice')
        self.assertEqual(self.title_of('node', 'E6 1:1 y branch'), '`y` is missing in a branch, or stands there twice')

    def title_of(self, text, line):
        return explain.told(DATA, line, Source('f.ept', text.encode())).title

    def test_what_is_missing_or_too_many_is_guessed(self):
        self.assertEqual(self.title_of('node f(on : bool) returns (y : bool) let y = on tel', 'E2 1:8'), '`on` is a keyword and no name')
        self.assertEqual(self.title_of('node f(x : bool) returns (y : bool) let y = x &\ntel', 'E2 2:1'), '`tel` cannot stand here')
        self.assertEqual(self.title_of('node f(x : bool) returns (y, z : bool) let y = x\n z = x tel', 'E2 2:2'), '`z` cannot stand here')
        self.assertEqual(self.title_of('node f(x : bool) returns (y : bool) let y = x (* end *)\n', 'E2 2:1'), 'the text ends too early')
        self.assertEqual(self.title_of('(* a comment', 'E1 1:1'), 'this comment is never closed')
        self.assertEqual(self.title_of('node f() returns (y : int) let y = 2147483648 tel', 'E1 1:36'), 'this number is above 2147483647')
        self.assertEqual(self.title_of("let y = x; -- it's", 'E1 1:17')[:33], 'not in this language: comments of')

    def test_the_reference_has_all(self):
        whole = '\n'.join(reference.all_lines(DATA))
        for entry in DATA.entries:
            self.assertIn(entry.data['form'], whole)
        for word in DATA.keywords:
            self.assertIn(f'\n{word:<10}', whole)
        self.assertTrue(all(len(it) <= 130 for it in whole.split('\n')))


class OverTheProgram(unittest.TestCase):
    def setUp(self):
        program()

    def said_of(self, example, folder, texts):
        fill(folder, texts)
        return hept(*example['words'].split(), text=text_of(example.get('input', '')).encode(), folder=folder)

    def test_each_example_gives_its_line_and_each_cure_cures(self):
        for entry, example in CASES:
            if 'untried' in example:
                continue
            with self.subTest(example['shows']), tempfile.TemporaryDirectory() as folder:
                done = self.said_of(example, folder, example.get('files', {}))
                self.assertEqual((done.returncode, done.stdout.decode()), (entry.data['status'], example.get('said', '')))
                told = done.stderr.decode()
                if 'line' in example:
                    self.assertEqual(told, example['line'] + '\n')
                self.assertTrue(told.startswith(line_of(example) if 'line' in example else example['begins']), told)
                self.assertIs(DATA.find(told.split('\n')[0])[0], entry)
                if 'cured' in example:
                    cured = self.said_of(example, folder, {**example['files'], **example['cured']})
                    self.assertEqual((cured.returncode, cured.stderr), (0, b''))

    def test_what_other_languages_have_gives_its_line(self):
        for missing in DATA.missing:
            with self.subTest(missing['name']), tempfile.TemporaryDirectory() as folder:
                fill(folder, {'t.ept': missing['text']})
                done = hept('check', 't.ept', folder=folder)
                self.assertEqual((done.returncode, done.stderr.decode()), (1, missing['line'] + '\n'))

    def test_it_runs_the_program_and_ends_as_it_does(self):
        done = tool('hept-explain', 'check', os.path.join(EXAMPLES, 'alarm.ept'))
        self.assertEqual((done.returncode, done.stdout), (1, b''))
        told = done.stderr.decode()
        self.assertTrue(told.startswith('error[E11]: the contract of `alarms` cannot be kept'), told)
        self.assertIn('| contract enforce not (bell & siren)', told)
        self.assertNotIn('hept-cert', told)
        done = tool('hept-explain', 'run', os.path.join(EXAMPLES, 'p1.ept'), 'f', text=b'true\nmaybe\n')
        self.assertEqual((done.returncode, done.stdout), (3, b'false\n'))
        self.assertTrue(done.stderr.startswith(b'error[L1]: word 1 of line 2 of the trace'), done.stderr)

    def test_silent_statuses_are_told(self):
        with tempfile.TemporaryDirectory() as folder:
            done = tool('hept-explain', 'check', 'nofile.ept', folder=folder)
            self.assertEqual(done.returncode, 4)
            self.assertIn(b'`nofile.ept` is not there', done.stderr)
            done = tool('hept-explain', 'compile', os.path.join(EXAMPLES, 'p1.ept'), 'no/where', folder=folder)
            self.assertEqual(done.returncode, 5)
            self.assertIn(b'The folder of `no/where` is not there', done.stderr)


if __name__ == '__main__':
    unittest.main()
