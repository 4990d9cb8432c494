"""./build over a repository of three crates, with an `rt` that stands in; ./hept over what it leaves; and what is installed."""
import json
import os
import shutil
import signal
import stat
import subprocess
import tempfile
import time
import unittest

from . import TOOLS, TOP, program

# proves each crate of the folder that it is called in, and makes a program that says its words
STANDS_IN = '''#!/bin/sh
[ "$1" = help ] && echo "rt ci [--anew]" && exit
[ "$1" = ci ] || exit 9
[ -f HANDLES ] && [ -d .git ] || exit 8
for name in $(sed 's/:.*//' crates.txt); do
    if [ -f "crates/$name/src/wrong" ]; then
        echo "rt: $name NOT PROVED"
        echo "0 passed, 1 failed"
        exit 1
    fi
    [ -d "crates/$name/must-fail" ] && exit 7
    echo "rt: $name proved"
done
mkdir -p crates/hp_main/out
printf '#!/bin/sh\\necho "$@"\\nexit 3\\n' >crates/hp_main/out/hp_main
chmod +x crates/hp_main/out/hp_main
echo "3 passed, 0 failed"
'''


class Repository(unittest.TestCase):
    def setUp(self):
        folder = tempfile.TemporaryDirectory()
        self.addCleanup(folder.cleanup)
        self.top, self.bin = os.path.join(folder.name, 'top'), os.path.join(folder.name, 'bin')
        for name in ('hp_low', 'hp_beside', 'hp_main'):
            os.makedirs(f'{self.top}/crates/{name}/src')
            os.makedirs(f'{self.top}/crates/{name}/must-fail')
            self.write(f'crates/{name}/src/main.rt', f'// {name}\n')
        self.write('crates.txt', '# the crates\nhp_low: thiserror\nhp_main: hp_low\nhp_beside: hp_low\n')
        self.write('HANDLES', 'Handles allowed: none.\n')
        for name in ('build', 'hept'):
            shutil.copy(os.path.join(TOP, name), f'{self.top}/{name}')
        for name in ('tools', 'docs'):
            shutil.copytree(os.path.join(TOP, name), f'{self.top}/{name}', ignore=shutil.ignore_patterns('__pycache__'))
        os.mkdir(self.bin)
        with open(f'{self.bin}/rt', 'w') as file:
            file.write(STANDS_IN)
        os.chmod(f'{self.bin}/rt', stat.S_IRWXU)

    def write(self, name, text):
        with open(f'{self.top}/{name}', 'w') as file:
            file.write(text)

    def run_in(self, *words):
        surroundings = {**os.environ, 'PATH': f'{self.bin}:{os.environ["PATH"]}', 'PYTHONDONTWRITEBYTECODE': '1'}
        return subprocess.run(words, capture_output=True, text=True, cwd=self.top, env=surroundings)

    def test_it_builds_what_the_program_stands_on_and_says_how_far_it_is(self):
        done = self.run_in('./build')
        self.assertEqual((done.returncode, done.stdout), (0, ''), done.stderr)
        self.assertIn('hept: 2 crates are to be proved', done.stderr)
        self.assertIn('hept: 2 of 2 crates are proved, hp_main last', done.stderr)
        called = self.run_in('./hept', 'a', 'b c')
        self.assertEqual((called.returncode, called.stdout, called.stderr), (3, 'a b c\n', ''))
        self.assertIn('built of these sources already', self.run_in('./build').stderr)

    def test_it_says_what_is_built_and_what_has_changed(self):
        self.assertEqual(self.run_in('./build', '--built').returncode, 1)
        self.run_in('./build')
        done = self.run_in('./build', '--built')
        self.assertEqual(done.returncode, 0)
        self.assertIn('the sources have not changed since', done.stdout)
        self.write('crates/hp_beside/src/main.rt', '// another\n')
        self.assertIn('the sources have not changed since', self.run_in('./build', '--built').stdout)
        self.write('crates/hp_low/src/main.rt', '// another\n')
        self.assertIn('the sources have changed since, of: hp_low\n', self.run_in('./build', '--built').stdout)
        self.assertIn('2 of 2 crates', self.run_in('./build').stderr)
        self.write('crates/hp_main/out/hp_main', 'of another hand')
        self.assertIn('not built by ./build', self.run_in('./build', '--built').stdout)

    def test_a_crate_that_is_not_proved_leaves_the_old_program(self):
        self.run_in('./build')
        self.write('crates/hp_low/src/wrong', '')
        done = self.run_in('./build')
        self.assertEqual(done.returncode, 70)
        self.assertTrue(done.stderr.endswith('hept: hp_low was not built\n'), done.stderr)
        self.assertEqual(self.run_in('./hept', 'x').stdout, 'x\n')
        with open(f'{self.top}/crates/hp_main/out/built.json') as file:
            self.assertEqual(sorted(json.load(file)['sources']), ['hp_low', 'hp_main'])

    def test_who_stops_it_stops_what_it_started(self):
        with open(f'{self.bin}/rt', 'w') as file:
            file.write('#!/bin/sh\n[ "$1" = help ] && echo --anew && exit\necho $$ >"$(dirname "$0")/number"\npwd >"$(dirname "$0")/room"\nexec sleep 100\n')
        started = subprocess.Popen([f'{self.top}/build'], stderr=subprocess.PIPE, text=True, env={**os.environ, 'PATH': f'{self.bin}:{os.environ["PATH"]}', 'PYTHONDONTWRITEBYTECODE': '1'})
        self.until(lambda: os.path.exists(f'{self.bin}/room') and os.path.getsize(f'{self.bin}/room'))
        started.send_signal(signal.SIGTERM)
        told = started.communicate(timeout=30)[1]
        self.assertEqual((started.returncode, told.split('\n')[-2]), (130, 'hept: stopped'))
        with open(f'{self.bin}/number') as number, open(f'{self.bin}/room') as room:
            self.assertFalse(os.path.exists(f'/proc/{number.read().strip()}'))
            self.assertFalse(os.path.exists(room.read().strip()))

    def until(self, holds):
        for _ in range(600):
            if holds():
                return
            time.sleep(0.05)
        self.fail('waited for half a minute')

    def test_without_the_kit_or_with_wrong_words(self):
        os.remove(f'{self.bin}/rt')
        python = shutil.which('python3')
        done = subprocess.run([python, f'{self.top}/build'], capture_output=True, text=True, env={**os.environ, 'PATH': '/usr/bin:/bin'})
        self.assertEqual((done.returncode, done.stderr.count('\n')), (70, 1))
        self.assertEqual(self.run_in('./build', '--what').returncode, 2)
        self.assertEqual(self.run_in('./build', '--install', 'prefix').returncode, 70)

    def test_what_is_installed_works_by_itself(self):
        self.run_in('./build')
        prefix = f'{os.path.dirname(self.top)}/prefix'
        self.assertEqual(self.run_in('./build', '--install', prefix).returncode, 0)
        self.assertEqual(self.run_in('./build', '--install', prefix).returncode, 0)
        shutil.rmtree(self.top)
        os.mkdir(self.top)
        free = {name: value for name, value in os.environ.items() if name != 'HEPT'}
        explained = subprocess.run([f'{prefix}/bin/hept-explain'], input='E12 g\n', capture_output=True, text=True, env=free)
        self.assertEqual(explained.returncode, 0, explained.stderr)
        self.assertIn('there is no node `g`', explained.stdout)
        done = subprocess.run([f'{prefix}/bin/hept-explain', 'check', 'x'], capture_output=True, text=True, env=free)
        self.assertEqual((done.returncode, done.stdout), (3, 'check x\n'))
        for name in ('share/man/man1/hept.1', 'share/bash-completion/completions/hept', 'share/zsh/site-functions/_hept', 'share/fish/vendor_completions.d/hept.fish',
                     'share/hept/editors/vscode/package.json', 'share/hept/editors/vim/syntax/hept.vim', 'bin/hept-wave', 'bin/hept-try', 'bin/hept-why'):
            self.assertTrue(os.path.isfile(f'{prefix}/{name}'), name)

    def test_hept_is_found_through_links_and_from_anywhere(self):
        self.run_in('./build')
        os.symlink(f'{self.top}/hept', f'{self.bin}/hept')
        self.assertEqual(self.run_in('hept', 'x').stdout, 'x\n')
        self.assertEqual(self.run_in('sh', 'hept', 'x').stdout, 'x\n')


class OverTheProgram(unittest.TestCase):
    def test_the_script_costs_little(self):
        calls = 40
        spent = {}
        for name in (program(), os.path.join(TOP, 'hept')) * 2:
            before = os.times()
            for _ in range(calls):
                subprocess.run([name], stderr=subprocess.DEVNULL)
            after = os.times()
            spent[name] = after.children_user + after.children_system - before.children_user - before.children_system
        first, second = spent.values()
        self.assertLess((second - first) / calls, 0.005)


class Made(unittest.TestCase):
    def test_the_files_are_made_of_the_data(self):
        done = subprocess.run([os.path.join(TOOLS, 'make-files'), '--check'], capture_output=True, text=True)
        self.assertEqual((done.returncode, done.stderr), (0, ''))

    def test_the_shells_read_their_completions(self):
        for shell, name in (('bash', 'hept.bash'), ('zsh', '_hept'), ('fish', 'hept.fish')):
            if shutil.which(shell):
                done = subprocess.run([shell, '-n', os.path.join(TOOLS, 'completions', name)], capture_output=True, text=True)
                self.assertEqual((done.returncode, done.stderr), (0, ''))

    def test_nodes_are_completed(self):
        line = 'source completions/hept.bash; COMP_WORDS=(hept run ../examples/filter.ept ""); COMP_CWORD=3; _hept; echo ${COMPREPLY[*]}'
        done = subprocess.run(['bash', '-c', line], capture_output=True, text=True, cwd=TOOLS)
        self.assertEqual(done.stdout, 'half filter\n')


if __name__ == '__main__':
    unittest.main()
