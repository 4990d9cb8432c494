#!/usr/bin/env python3
"""Tries the wrong bodies of docs/edits, which are too dear for the gate: the prover has to refuse each. Run it at the top of a clone, by hand.

    bench/edits/run.py [near] [LANES [CRATE ..]]      the edits of these crates, or of all, of so many crates at once (as many as there are processors)
    bench/edits/run.py --write                        writes what refused each edit, as it was kept, into the list of docs/edits/README.md, and says how many it knows

With `near` each edit is tried on the functions alone whose text it changes, which takes half a minute; where these are all proved, or it changes what stands in no function, on the whole crate.
What refused an edit is kept in the machine's folder for temporary files, by the checksums of the edit, of the crate and of all libraries below it: a later run, in any clone, says it again and tries the others. The last line says how many were kept.
The libraries below a crate are built first where they are not there (or taken: `bench/gate/kept.py CRATE`, `bench/gate/libraries.py take CLONE`). An edit costs a check of its crate from nothing, the next ones of
that crate less. The last line has the numbers; the status is 0 where each edit was refused."""
import hashlib
import importlib.machinery
import importlib.util
import os
import re
import shutil
import subprocess
import sys
import tempfile
from concurrent.futures import ThreadPoolExecutor

sys.dont_write_bytecode = True
TOP = os.path.dirname(os.path.dirname(os.path.dirname(os.path.abspath(__file__))))
EDITS = f'{TOP}/docs/edits'


def libraries():
    loader = importlib.machinery.SourceFileLoader('libraries', f'{TOP}/bench/gate/libraries.py')
    made = importlib.util.module_from_spec(importlib.util.spec_from_loader('libraries', loader))
    loader.exec_module(made)
    return made


def edits_of(name):
    return [f'{EDITS}/{name}/{it}' for it in sorted(os.listdir(f'{EDITS}/{name}')) if it.endswith('.edit')]


class Results:
    """What refused the edits of a crate, as earlier runs on this machine found it."""

    FOLDER = f'{tempfile.gettempdir()}/hept-edits'

    def __init__(self, rt, crates):
        self.kept, self.count = rt.Kept(crates), 0

    def path(self, crate, edit):
        for below in crate.below():
            if below.name not in self.kept.rlibs:
                self.kept.is_built(below)
        with open(edit, 'rb') as file:
            sums = [self.kept.key(crate), hashlib.sha256(file.read()).hexdigest()]
        return f'{self.FOLDER}/{hashlib.sha256(repr(sums).encode()).hexdigest()}'

    def of(self, crate, edit):
        """What an earlier run said of an edit that was refused; nothing where there was none."""
        try:
            with open(self.path(crate, edit), encoding='utf-8') as file:
                text = file.read()
        except OSError:
            return ''
        self.count += 1
        return text

    def keep(self, crate, edit, text):
        os.makedirs(self.FOLDER, exist_ok=True)
        with open(self.path(crate, edit), 'w', encoding='utf-8') as file:
            file.write(text)


def changed_functions(edit, folder):
    """The functions in whose text an edit changes something; none where it also changes what stands in no function."""
    found, path = [], ''
    for line in open(edit, encoding='utf-8'):
        if line.startswith('file: '):
            path = line[len('file: '):].strip()
        elif line.startswith('old: '):
            text = open(f'{folder}/{path}', encoding='utf-8').read()
            before = text[:max(text.find(line[len('old: '):].rstrip('\n')), 0) + 1]
            heads = list(re.finditer(r'^( *)(?:pub(?:\(crate\))? )?fn (\w+)', before, re.M))
            if not heads or f'\n{heads[-1][1]}}}\n' in before[heads[-1].end():]:
                return []
            found.append(f'{owner_of(before, heads[-1], path)}{heads[-1][2]}')
    return sorted(set(found))


def owner_of(before, head, path):
    """What stands in front of a function's name, so that no other has it: the type of its methods, with the trait that they are of, or its file."""
    impls = re.findall(r'^impl(?:<[^>]*>)? (?:(\w+)(?:<.*>)? for )?(\w+)', before, re.M)
    if head[1] and impls:
        return f'{impls[-1][1]}{impls[-1][0]}::'
    stem = os.path.basename(path).removesuffix('.rt')
    return '' if stem == 'lib' else f'{stem}::'


def tell_functions(rt):
    """A check of some functions alone counts them in its last line, in which `rt` looks for what became of the crate: where one is not proved, the crate is not."""
    plain = rt.checked

    def checked(*given):
        ran = plain(*given)
        if ran.returncode == 1 and re.search(r'\nonly=\d+ proved=\d+\s*$', ran.stdout):
            ran.stdout = f'{ran.stdout.rstrip()}\nlogic=not-proved\n'
        return ran

    rt.checked = checked


def near(rt, crate, edit):
    """What an edit comes to, tried on the functions that it changes, and on the whole crate where that shows nothing."""
    for name in changed_functions(edit, crate.folder):
        kind, text = rt.must_fail(crate, edit, ['--jobs', '1', '--only', name])
        if kind == rt.REFUSED:
            return kind, text
    kind, text = rt.must_fail(crate, edit, ['--jobs', '1'])
    return kind, text + ' (whole crate)'


class Whole:
    """Tries edits on a whole crate, over what a check of the crate as it stands proved, and from nothing where that fails."""

    def __init__(self, rt, crate):
        start = f'{crate.folder}/out/incremental'
        self.rt, self.crate = rt, crate
        self.room = rt.seeded(crate, ['--jobs', '1'], start if os.path.isdir(start) else None)

    def tries(self, edit):
        kept = self.room and f'{self.room}/edit'
        if kept:
            self.rt.linked(f'{self.room}/seed', kept)
        found = self.rt.must_fail(self.crate, edit, ['--jobs', '1'], kept)
        if kept:
            shutil.rmtree(kept)
        return found

    def end(self):
        if self.room:
            shutil.rmtree(self.room)


def tries(rt, crate, results, is_near):
    """Whether each edit of a crate is refused, and says it."""
    found, left = [], []
    for edit in edits_of(crate.name):
        text = results.of(crate, edit)
        if text:
            print(text, flush=True)
            found.append(True)
        else:
            left.append(edit)
    if not left:
        return found
    rt.adopt(crate, is_alone=False)
    whole = None if is_near else Whole(rt, crate)
    for edit in left:
        kind, text = near(rt, crate, edit) if is_near else whole.tries(edit)
        print(text, flush=True)
        found.append(kind in (rt.REFUSED, rt.AT_LIMIT))
        if kind == rt.REFUSED:
            results.keep(crate, edit, text)
    if whole:
        whole.end()
    return found


def shown(text):
    """What refused an edit, for the list: what could not be proved any more, by its name."""
    told = text.partition('refused, as it must be')[2]
    if 'proof file names' in told:
        return 'a proof file names a fact that is gone'
    # a long name is cut where the line is
    goal = re.search(r'`([^`]+)(`|$)', told)
    return f"`{goal[1]}{'' if goal[2] else '..'}`" if goal else re.sub(r'^: (note: )?(\S+:\d+:\d+: )?', '', told)


def write(results, crates):
    """Writes what refused each edit into the list. A row whose edit was not tried over these files stays as it is."""
    of_crate, lines, known = {crate.name: crate for crate in crates}, [], 0
    for line in open(f'{EDITS}/README.md', encoding='utf-8'):
        row = re.match(r'\| `((\w+)/\w+)` \| ([^|]*) \|', line)
        text = row and row[2] in of_crate and results.of(of_crate[row[2]], f'{EDITS}/{row[1]}.edit')
        if text:
            known += 1
            line = f'| `{row[1]}` | {row[3]} | {shown(text)} |\n'
        lines.append(line)
    with open(f'{EDITS}/README.md', 'w', encoding='utf-8') as file:
        file.writelines(lines)
    print(f'{known} of {sum(len(edits_of(crate.name)) for crate in crates)} are known')


def main(words):
    is_writing = words == ['--write']
    words = words[is_writing:]
    is_near = words[:1] == ['near']
    words = words[is_near:]
    lanes = int(words[0]) if words else len(os.sched_getaffinity(0))
    names = words[1:] or sorted(it for it in os.listdir(EDITS) if os.path.isdir(f'{EDITS}/{it}'))
    os.chdir(TOP)
    known = libraries()
    rt = known.kit()
    rt.rtlib.guarded()
    rt.rtlib.Crate = rt.Crate
    rt.Crate.cuts_libraries = True
    if is_near:
        tell_functions(rt)
    crates = [it for it in known.below(rt, TOP, names) if it.name in names]
    lacking = sorted({dep.name for crate in crates for dep in crate.below() if not dep.is_built()})
    if lacking and not is_writing:
        print(f'to be built first: {" ".join(lacking)}', flush=True)
        if subprocess.run([sys.executable, f'{TOP}/bench/gate/libraries.py', 'build', str(lanes), *lacking]).returncode:
            return 1
    results = Results(rt, list({it.name: it for crate in crates for it in [*crate.below(), crate]}.values()))
    if is_writing:
        write(results, [crate for crate in crates if all(dep.is_built() for dep in crate.below())])
        return 0
    with ThreadPoolExecutor(lanes) as pool:
        found = [well for of_crate in pool.map(lambda crate: tries(rt, crate, results, is_near), crates) for well in of_crate]
    print(f'{sum(found)} of {len(found)} wrong bodies are refused, in {len(crates)} crates; {results.count} of them by earlier runs of the same files')
    return 0 if all(found) else 1


if __name__ == '__main__':
    sys.exit(main(sys.argv[1:]))
