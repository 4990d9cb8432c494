"""Chronograms, pictures and value change dumps: of five examples against stored files, which were looked at, and at their edges.

A stored file is made by the call of its test, in examples/: `../tools/hept-wave updown.ept updown --svg < updown.trace`."""
import os
import random
import subprocess
import tempfile
import time
import unittest
import xml.etree.ElementTree as xml

from heptools import chart, svg, vcd
from heptools.machines import Signal, signature

from . import EXAMPLES, TOOLS, TOP, hept, program, surroundings, tool
from .read_vcd import read

STORED = {'txt': os.path.join(TOOLS, 'tests', 'expected'), 'vcd': os.path.join(TOOLS, 'tests', 'expected'), 'svg': os.path.join(TOP, 'docs', 'pictures')}
KINDS = {'txt': ['--width', '100'], 'svg': ['--svg'], 'vcd': ['--vcd']}
WORDS = {'updown': [], 'filter': [], 'lights': [], 'airlock': ['--contract'], 'tasks': ['--contract']}


def stored(name):
    with open(os.path.join(STORED[name.rpartition('.')[2]], name), 'rb') as file:
        return file.read()


def trace_of(name):
    with open(os.path.join(EXAMPLES, f'{name}.trace'), 'rb') as file:
        return file.read()


def shown(value):
    """A value of a trace as the reader of dumps gives it."""
    return value == 'true' if value in ('true', 'false') else int(value) if value.lstrip('-').isdigit() else value


class Parts(unittest.TestCase):
    def test_a_signature_is_read_from_any_layout(self):
        text = b'obc 1 type mode = Off | On machine g in ( ) out ( ) var ( ) mem ( ) inst ( ) step end\nmachine f in ( a : bool , m : mode )\nout ( n : int ) var ( x$1 : int ) mem ( ) inst ( ) step set n 1 end'
        inputs, outputs = signature(text, 'f')
        self.assertEqual(inputs, [Signal('a', 'bool'), Signal('m', 'mode', ['Off', 'On'])])
        self.assertEqual(outputs, [Signal('n', 'int')])
        self.assertEqual(signature(text, 'g'), ([], []))

    def test_a_chart_holds_its_width_and_its_values(self):
        signals = [Signal('go', 'bool'), Signal('n', 'int')]
        rows = [['true' if at % 3 else 'false', str(at // 2)] for at in range(40)]
        lines = chart.bands(signals, rows, 1, 40, True)
        self.assertTrue(all(len(it) <= 40 for it in lines), lines)
        self.assertEqual(sum(it.count('~') for it in lines), 3 * sum(row[0] == 'true' for row in rows))
        self.assertEqual([it for it in lines if it.startswith('      n')][0].split('|')[1].strip(), '0')

    def test_a_picture_is_xml_with_each_value(self):
        signals = [('inputs', [Signal('go', 'bool')]), ('outputs', [Signal('m', 'mode', ['Off', 'On'])]), ('contract', [])]
        text = svg.picture('a < b', signals, [['true', 'Off'], ['false', 'On']], 7)
        found = [it.text for it in xml.fromstring(text).iter('{http://www.w3.org/2000/svg}text')]
        self.assertEqual(found, ['7', '8', 'go', 'm', 'Off', 'On'])

    def test_a_dump_is_read_back(self):
        chance = random.Random(1)
        signals = [('inputs', [Signal(f'i{at}', 'int') for at in range(100)]), ('outputs', [Signal('b', 'bool'), Signal('m', 'mode', ['Off', 'On'])])]
        numbers = ['0', '1', '-1', '2147483647', '-2147483648', '17']
        rows = [[chance.choice(numbers) for _ in range(100)] + [chance.choice(['true', 'false']), chance.choice(['Off', 'On'])] for _ in range(50)]
        with tempfile.TemporaryFile('w+') as file:
            vcd.write(file, 'f', signals, ([it.encode() for it in row] for row in rows))
            file.seek(0)
            variables, found = read(file.read())
        self.assertEqual(len(variables), 102)
        self.assertEqual([list(row.values()) for row in found], [[shown(it) for it in row] for row in rows])


def most_memory(process):
    """The most memory that a process held until it ended, in KiB. (What `wait4` tells counts what this process held when it made the other.)"""
    most = 0
    while process.poll() is None:
        try:
            with open(f'/proc/{process.pid}/status') as status:
                held = [int(line.split()[1]) for line in status if line.startswith('VmHWM:')]
        except OSError:
            held = []
        most = max([most, *held])
        time.sleep(0.01)
    return most


class OverTheProgram(unittest.TestCase):
    maxDiff = None

    def setUp(self):
        program()

    def test_examples_are_drawn_as_stored(self):
        for name, asked in WORDS.items():
            for ending, words in KINDS.items():
                with self.subTest(f'{name}.{ending}'):
                    done = tool('hept-wave', f'{name}.ept', name, *asked, *words, text=trace_of(name), folder=EXAMPLES)
                    self.assertEqual((done.returncode, done.stderr), (0, b''))
                    self.assertEqual(done.stdout.decode(), stored(f'{name}.{ending}').decode())

    def test_dumps_say_what_the_program_says(self):
        for name, asked in WORDS.items():
            with self.subTest(name):
                answers = hept('run', os.path.join(EXAMPLES, f'{name}.ept'), name, *asked, text=trace_of(name)).stdout.decode().split('\n')[:-1]
                wanted = [[shown(it.rpartition('=')[2]) for it in f'{line} {answer}'.split()] for line, answer in zip(trace_of(name).decode().split('\n'), answers)]
                self.assertEqual([list(row.values()) for row in read(stored(f'{name}.vcd').decode())[1]], wanted)

    def test_the_words_of_a_contract_are_shown(self):
        done = tool('hept-wave', os.path.join(EXAMPLES, 'p1.ept'), 'f', '--contract', '--vcd', text=b'true\nfalse\n')
        self.assertEqual((done.returncode, done.stderr), (0, b''))
        rows = read(done.stdout.decode())[1]
        self.assertEqual(rows, [{'f.inputs.x': x, 'f.outputs.y': y, 'f.contract.assume': True, 'f.contract.enforce': True} for x, y in ((True, False), (False, True))])

    def test_a_text_of_machines_is_drawn_alike(self):
        with tempfile.TemporaryDirectory() as folder:
            made = os.path.join(folder, 'updown.obc')
            self.assertEqual(hept('compile', os.path.join(EXAMPLES, 'updown.ept'), made).returncode, 0)
            done = tool('hept-wave', made, 'updown', '--vcd', text=trace_of('updown'))
            self.assertEqual((done.returncode, done.stdout), (0, stored('updown.vcd')))

    def test_a_line_that_is_refused_is_told_behind_the_chart(self):
        done = tool('hept-wave', os.path.join(EXAMPLES, 'p1.ept'), 'f', '--ascii', text=b'true\nmaybe\n')
        self.assertEqual((done.returncode, done.stderr), (3, b'hept-wave: hept ended with status 3: L1 2 1\n'))
        self.assertEqual(done.stdout, b'instant 1\n      x ~~\n      y __\n')

    def test_a_range_of_lines(self):
        done = tool('hept-wave', os.path.join(EXAMPLES, 'updown.ept'), 'updown', '--lines', '3-5', '--ascii', text=trace_of('updown'))
        self.assertEqual((done.returncode, done.stderr), (0, b''))
        self.assertEqual(done.stdout.decode().split('\n')[0].split(), ['instant', '3', '4', '5'])

    def test_a_million_lines_in_one_pass_and_little_memory(self):
        with tempfile.TemporaryDirectory() as folder:
            with open(os.path.join(folder, 'trace'), 'w') as file:
                file.writelines('true false\n' if at % 7 else 'false true\n' for at in range(1_000_000))
            start = time.monotonic()
            with open(os.path.join(folder, 'trace'), 'rb') as trace, open(os.path.join(folder, 'vcd'), 'wb') as out:
                done = subprocess.Popen([os.path.join(TOOLS, 'hept-wave'), os.path.join(EXAMPLES, 'updown.ept'), 'updown', '--vcd'], stdin=trace, stdout=out, env=surroundings())
                most = most_memory(done)
            self.assertEqual(done.returncode, 0)
            self.assertLess(time.monotonic() - start, 60)
            self.assertLess(most, 100_000)
            with open(os.path.join(folder, 'vcd'), 'rb') as file:
                file.seek(-20, os.SEEK_END)
                self.assertEqual(file.read().split()[-1], b'#1000000')


if __name__ == '__main__':
    unittest.main()
