#!/usr/bin/env python3
"""Says which crates import from crates that their line in crates.txt does not name, and which of these lines name what no file of the crate cites: `rt` walks each path from a crate down, so each such name costs all that stands above. And it says which lemmas a file takes that are not public where they stand, or from a file that another crate keeps to itself. Run it at the top of a clone: it takes some seconds. Its status is 1 where a name is lacking or private; the gate finds that after minutes. A line that changes has its crate, and all above, proved anew: for the first minutes of a day."""
import functools
import glob
import os
import re
import sys

LEMMAS = re.compile(r'^\s*(?:pub )?use Rattle\.((?:hp|law)_\w+)\.proofs((?:\.\w+)+)(?:\.\{([^}]*)\})?', re.M)
WORD = r'[^\s:(){}\[\],;.]+'


@functools.cache
def text_of(path):
    """A file's text; nothing where there is none."""
    if not os.path.exists(path):
        return ''
    with open(path, encoding='utf-8') as file:
        return file.read()


@functools.cache
def public_in(path):
    """What a file declares as public, or hands on."""
    text = text_of(path)
    found = set(re.findall(rf'^\s*(?:abbrev |unfoldable )*pub (?:abbrev |unfoldable |record |data |mod )*({WORD})', text, re.M))
    for names in re.findall(r'^pub use [\w.]+\.\{([^}]*)\}', text, re.M):
        found.update(name.split(' as ')[-1].strip() for name in names.split(','))
    for block in re.findall(r'^( *)pub data .* where\n((?:\1 .*\n|\n)+)', text, re.M):
        found.update(re.findall(rf'^ *({WORD}) :', block[1], re.M))
    for block in re.findall(r'^( *)(?:abbrev )?pub mutual\n((?:\1 .*\n|\n)+)', text, re.M):
        found.update(re.findall(rf'^ *(?:pub )?({WORD}) :', block[1], re.M))
    return found


def private_in(name):
    """The lemmas that a crate takes and may not, each with the file that takes it."""
    found = set()
    for path in glob.glob(f'crates/{name}/**/*.antt', recursive=True):
        if '/out/' in path:
            continue
        for other, modules, names in LEMMAS.findall(text_of(path)):
            at = f'crates/{other}/proofs'
            home = f'{at}/Lib.antt'
            for module in modules[1:].split('.'):
                if other != name and f'pub mod {module}\n' not in f'{text_of(home)}\n':
                    found.add(f'{path}: {other} keeps {module} to itself')
                    break
                at = f'{at}/{module}'
                home = f'{at}.antt'
            else:
                if not os.path.exists(home) or path.startswith(f'{at}/'):
                    # what stands below a file may name what it keeps to itself
                    continue
                lemmas = {it.split(' as ')[0].strip() for it in names.split(',') if it.strip()}
                found.update(f'{path}: {lemma} is not public in {home}' for lemma in lemmas - public_in(home))
    return sorted(found)


def main():
    named, lacking = {}, False
    for line in text_of('crates.txt').splitlines():
        if ':' in line and not line.startswith('#'):
            name, below = line.split(':', 1)
            named[name.split()[0]] = set(below.split())
    for name, below in named.items():
        used, cited = set(), set()
        for path in glob.glob(f'crates/{name}/**/*', recursive=True):
            if path.endswith(('.rt', '.antt')) and '/out/' not in path:
                text = text_of(path)
                used.update(re.findall(r'Rattle\.((?:hp|law)_\w+)\.', text), re.findall(r'^(?:pub )?use ((?:hp|law)_\w+)', text, re.M))
                cited.update(re.findall(r'\b((?:hp|law)_\w+)::', text))
        for other in sorted(used - below - {name}):
            print(f'{name} does not name {other}')
            lacking = True
        for other in sorted((below & named.keys()) - used - cited):
            print(f'{name} names {other}, which it does not cite')
        for line in private_in(name):
            print(line)
            lacking = True
    return lacking


if __name__ == '__main__':
    sys.exit(main())
