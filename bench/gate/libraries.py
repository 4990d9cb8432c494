#!/usr/bin/env python3
"""Libraries for several clones, where the kit's rt proves one crate at a time and keeps nothing between clones. Run it at the top of a clone.

libraries.py build LANES CRATE..   proves and builds, as the gate does, each library at or below these that is not built of its sources: so many at once, those with the
                                   longest chain above them first; a program is checked. A log of each stands in /tmp/libraries/CRATE
libraries.py program LANES CRATE   the same, and builds the program, which stands in its folder out/ then; it tells of each crate that is proved, and may be stopped and started
libraries.py judge CRATE..         proves, builds and runs programs, and the tests of crates that have some, with the gate's own calls, over the libraries that are built
libraries.py take CLONE            takes from another clone all libraries that are built of the same sources
libraries.py rt WORD..             the kit's rt in the current folder, with each crate's sources summed up once, and no lock on the libraries below
"""
import glob
import importlib.machinery
import importlib.util
import os
import re
import shutil
import subprocess
import sys
import time
from concurrent.futures import FIRST_COMPLETED, ThreadPoolExecutor, wait

sys.dont_write_bytecode = True
LOGS = '/tmp/libraries'
# seconds of a processor that the dearest proofs take
SECONDS = dict(
    hp_driver=1500, hp_rows=1200, hp_main=900, hp_expand=790, hp_abstract=700, hp_automata=633, hp_cause=628, hp_obctext=600, hp_parser=560, hp_complete=540, hp_exec=520, hp_typing=505, hp_clocks=458, hp_form=360, hp_init=317, hp_circuit=250, hp_tree=240, hp_cert=200, hp_names=190, law_judged=180, hp_toobc=180, hp_io=170, hp_print=164)


def kit():
    """The kit's rt, with sums of sources and lists of libraries computed once."""
    loader = importlib.machinery.SourceFileLoader('rtkit', shutil.which('rt'))
    made = importlib.util.module_from_spec(importlib.util.spec_from_loader('rtkit', loader))
    sys.modules['rtkit'] = made
    loader.exec_module(made)
    crate, lock, known = made.rtlib.Crate, made.rtlib.lock, {}

    def once(name):
        plain = getattr(crate, name)

        def answer(self):
            if (name, self.folder) not in known:
                known[name, self.folder] = plain(self)
            return known[name, self.folder]

        setattr(crate, name, answer)

    once('stamp')
    once('below')
    made.rtlib.lock = lambda crates: lock([*crates][-1:])
    init = crate.__init__

    def with_files(self, *given, **named):
        init(self, *given, **named)
        made.read_files(self)

    crate.__init__ = with_files
    return made


def below(rt, top, names):
    """The crates of these names and all below, lowest first."""
    known, found = {}, {}
    for name in names:
        folder = f'{top}/crates/{name}'
        crate = known.setdefault(folder, known.get(folder) or rt.rtlib.Crate(folder, top, known))
        found.update((it.name, it) for it in [*crate.below(), crate])
    return list(found.values())


def weight(crate):
    laws = sum(open(file, 'rb').read().count(b'\n') for file in glob.glob(f'{crate.folder}/*/**/*.antt', recursive=True))
    return SECONDS.get(crate.name, 20 + laws / 100 + crate.count(rb'\n') / 10)


def prove(rt, crate, jobs, makes=False):
    started = time.time()
    with open(f'{LOGS}/{crate.name}', 'w', encoding='utf-8') as crate.out:
        os.makedirs(f'{crate.folder}/out', exist_ok=True)
        status = 1 if rt.rtlib.fmt(crate.folder, '--check', crate.out) else 0
        if crate.is_program and makes:
            status = crate.ci(['--jobs', str(jobs)], False) or status
        elif crate.is_program:
            status = crate.prove(['check', *crate.words(['--jobs', str(jobs)], keeps=False)]) or status
        else:
            stamp = crate.stamp()
            status = crate.build_rlib(['--jobs', str(jobs)], anew=True) or status
            if not status:
                with open(f'{crate.folder}/out/rlib/stamp', 'w', encoding='utf-8') as file:
                    file.write(stamp)
    return status, round(time.time() - started)


def build(rt, lanes, names, makes=False):
    os.makedirs(LOGS, exist_ok=True)
    rt.rtlib.guarded()
    # the crates above a library load its statements, as in the gate
    rt.rtlib.Crate.cuts_libraries = True
    if makes:
        rt.rtlib.Crate = rt.Crate
        rt.Crate.allowed = rt.handles_of(os.getcwd())
    crates = below(rt, os.getcwd(), names)
    todo = [it for it in crates if it.is_program or not it.is_built()]
    if makes:
        for it in crates:
            if it not in todo:
                print(f'rt: {it.name} is kept: nothing has changed', flush=True)
    done, failed, running, chain = {it.name for it in crates} - {it.name for it in todo}, [], {}, {}
    for it in reversed(crates):
        chain[it.name] = chain.get(it.name, 0) + weight(it)
        for dep in it.below():
            chain[dep.name] = max(chain.get(dep.name, 0), chain[it.name])
    todo.sort(key=lambda it: -chain[it.name])
    print(f'{len(todo)} to build: {" ".join(it.name for it in todo)}', flush=True)
    with ThreadPoolExecutor(lanes) as pool:
        while todo or running:
            ready = [it for it in todo if all(dep.name in done for dep in it.below())]
            for at, it in enumerate(ready):
                free = lanes - sum(jobs for _, jobs in running.values())
                if free <= 0:
                    break
                jobs = max(1, min(4, free // (len(ready) - at))) if weight(it) > 800 else 1
                todo.remove(it)
                running[pool.submit(prove, rt, it, jobs, makes)] = it, jobs
            if not running:
                break
            for task in wait(running, return_when=FIRST_COMPLETED).done:
                it, _ = running.pop(task)
                status, seconds = task.result()
                if makes:
                    print(f'rt: {it.name} {"NOT PROVED" if status else "proved"}', flush=True)
                else:
                    print(time.strftime('%H:%M:%S'), 'NOT PROVED' if status else 'proved', it.name, f'{seconds} s', flush=True)
                (failed.append if status else done.add)(it.name)
    print(f'not proved: {failed}; not tried: {[it.name for it in todo]}' if failed else 'all are proved')
    return bool(failed)


def judge_one(rt, crate, tests):
    """Proves and builds a program or a crate's tests, and runs what each compiler made of it."""
    os.makedirs(f'{crate.folder}/out', exist_ok=True)
    with open(f'{LOGS}/{crate.name}', 'w', encoding='utf-8') as crate.out:
        status = crate.ci(['--jobs', '1'], tests)
    made = f'{crate.folder}/out/{crate.name}{"_tests" if tests else ""}'
    well = not status and all([rt.run(crate, tests, end) for end in rt.BACKENDS.values() if os.path.isfile(made + end)])
    print(f'{crate.name}{" (tests)" if tests else ""}: {"well" if well else "WRONG"}', flush=True)
    return well


def judge(rt, names):
    os.makedirs(LOGS, exist_ok=True)
    rt.rtlib.guarded()
    rt.rtlib.Crate = rt.Crate
    rt.Crate.cuts_libraries = True
    rt.Crate.allowed = rt.handles_of(os.getcwd())
    crates = [it for it in below(rt, os.getcwd(), names) if it.name in names]
    wanted = [(it, tests) for it in crates for tests in (False, True) if (it.has_tests() if tests else it.is_program)]
    return not all([judge_one(rt, it, tests) for it, tests in wanted])


def take(rt, other):
    top = os.getcwd()
    with open(f'{top}/crates.txt', encoding='utf-8') as file:
        names = re.findall(r'^(\w+)(?: \S+)*:', file.read(), re.M)
    taken = 0
    for crate in below(rt, top, names):
        held, mine = f'{other}/crates/{crate.name}/out/rlib', f'{crate.folder}/out/rlib'
        if not crate.is_built() and rt.rtlib.text_of(f'{held}/stamp') == crate.stamp():
            shutil.rmtree(mine, ignore_errors=True)
            os.makedirs(os.path.dirname(mine), exist_ok=True)
            subprocess.run(['cp', '-al', held, mine], check=True)
            taken += 1
    print(f'{taken} libraries taken')


def main(words):
    if words[:1] == ['build'] and len(words) > 2:
        return build(kit(), int(words[1]), words[2:])
    if words[:1] == ['program'] and len(words) == 3:
        return build(kit(), int(words[1]), words[2:], makes=True)
    if words[:1] == ['judge'] and len(words) > 1:
        return judge(kit(), words[1:])
    if words[:1] == ['take'] and len(words) == 2:
        return take(kit(), words[1])
    if words[:1] == ['rt']:
        return kit().main(words[1:])
    print(__doc__, file=sys.stderr)
    return 2


if __name__ == '__main__':
    sys.exit(main(sys.argv[1:]))
