#!/usr/bin/env python3
"""Gives this clone the libraries that `rt ci` proved on this machine, so that `rt check` in a high crate does not prove what lies below anew. Run it at the top of a clone.

kept.py             links each library that was proved of the same sources, with its stamp
kept.py CRATE       the same, and says which libraries below the crate are lacking

It only reads what the gate kept. A library that the clone built itself is replaced by the gate's, since others fit only over that. It takes a second."""
import importlib.machinery
import importlib.util
import json
import os
import re
import shutil
import sys

sys.dont_write_bytecode = True


def kit():
    """The kit's rt, which finds what lies below a crate once."""
    loader = importlib.machinery.SourceFileLoader('rtkit', shutil.which('rt'))
    made = importlib.util.module_from_spec(importlib.util.spec_from_loader('rtkit', loader))
    sys.modules['rtkit'] = made
    loader.exec_module(made)
    crate, known = made.rtlib.Crate, {}
    below, init = crate.below, crate.__init__

    def once(self):
        if self.folder not in known:
            known[self.folder] = below(self)
        return known[self.folder]

    def with_files(self, *given, **named):
        init(self, *given, **named)
        made.read_files(self)

    crate.below, crate.__init__ = once, with_files
    return made


def crates_of(rt, top):
    """The crates of the clone, lowest first."""
    with open(f'{top}/crates.txt', encoding='utf-8') as file:
        names = re.findall(r'^(\w+)(?: \S+)*:', file.read(), re.M)
    known, found = {}, {}
    for name in names:
        folder = f'{top}/crates/{name}'
        crate = known.setdefault(folder, known.get(folder) or rt.rtlib.Crate(folder, top, known))
        found.update((it.name, it) for it in [*crate.below(), crate])
    return found


def made_of(kept, crate):
    """What the gate kept of a library of these sources, over these libraries: its folder, and the names and sums of its files."""
    key = kept.key(crate)
    at = kept.place(crate, False, key)
    try:
        with open(f'{at}/made.json', encoding='utf-8') as file:
            made = json.load(file)
    except (OSError, ValueError):
        return None
    return (at, made['files']) if made.get('key') == key else None


def is_there(rt, crate, files):
    out = f'{crate.folder}/out'
    return rt.rtlib.text_of(f'{out}/rlib/stamp') == crate.stamp() and all(os.path.exists(f'{out}/{path}') and rt.rtlib.sum_of(f'{out}/{path}') == sum for path, sum in files)


def link(crate, at, files):
    out = f'{crate.folder}/out'
    shutil.rmtree(f'{out}/rlib', ignore_errors=True)
    for number, (path, _) in enumerate(files):
        os.makedirs(os.path.dirname(f'{out}/{path}'), exist_ok=True)
        try:
            os.link(f'{at}/{number}', f'{out}/{path}')
        except OSError:
            shutil.copyfile(f'{at}/{number}', f'{out}/{path}')
    with open(f'{out}/rlib/stamp', 'w', encoding='utf-8') as file:
        file.write(crate.stamp())


def main(words):
    rt, top = kit(), os.getcwd()
    crates = crates_of(rt, top)
    kept, lacking, given = rt.Kept(list(crates.values())), set(), 0
    for crate in crates.values():
        if crate.is_program:
            continue
        made = None if any(it.name in lacking for it in crate.below()) else made_of(kept, crate)
        if not made:
            lacking.add(crate.name)
            continue
        if not is_there(rt, crate, made[1]):
            link(crate, *made)
            given += 1
        kept.is_built(crate)
    print(f'{given} libraries given; {len(lacking)} were not proved of these sources')
    for name in words[:1]:
        print(f'lacking below {name}: {" ".join(it.name for it in crates[name].below() if it.name in lacking) or "none"}')


if __name__ == '__main__':
    sys.exit(main(sys.argv[1:]))
