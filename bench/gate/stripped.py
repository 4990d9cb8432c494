#!/usr/bin/env python3
"""Strips a crate in a clone of all functions, so that its laws are checked over real libraries in a minute, before the gate comes to its functions. Never commit from that clone.

stripped.py CRATE LEMMA ..     at the top of a clone; a lemma is MODULE.name below the crate's proofs

What stays are declared types with their models, public constants, specs, and the files of proofs that are of no function. One function `checked` is added, whose answers cite the lemmas: `rt check --only checked` in the crate
checks these and all that they reach. (`kept.py CRATE` first.) What it does not see: answers and invariants of functions."""
import os
import re
import shutil
import sys

WORD = re.compile(r'\w+')
NOTE = ('#[', '//')
SEEN = r'(?:pub(?:\(crate\))? )?'
CHECKED = '''ghost use Rattle.std.specs.Prelude.{ℕ, ◌≡◌};

/// Does nothing: its answers cite the lemmas that are checked.
pub fn checked(n: u8) -> u8
    ensures { result ≡ n }
{
    n
}
'''


def text_of(block):
    """An item without its comments and attributes."""
    return '\n'.join(line for line in block if line.strip() and not line.strip().startswith(NOTE))


def items(text):
    """The items of a file: each is the lines from one at the margin to where its brackets close."""
    found, block, depth = [], [], 0
    for line in text.split('\n'):
        block.append(line)
        bare = re.sub(r'//.*|"(\\.|[^"])*"|b?\'(\\.|.)\'', '', line)
        depth += sum(bare.count(it) for it in '{(') - sum(bare.count(it) for it in '})')
        is_function = re.match(SEEN + r'(?:const )?fn ', text_of(block))
        ends = line in ('}', '{}') if is_function else line.strip().endswith((';', '}'))
        if depth == 0 and ends and not line.strip().startswith(NOTE):
            found.append(block)
            block = []
    return found


def stays(head):
    """Whether an item stays: a type, its model, or a public constant."""
    if head.startswith('impl'):
        return ' Model for' in head.split('\n')[0]
    return bool(re.match(SEEN + r'(struct|enum|trait) ', head)) or head.startswith('pub const ')


def thinned(line, words):
    """A `use` line with the names that are still used."""
    group = re.match(r'(?s)(.*(?:::|\.))\{(.*)\};', line)
    if not group:
        return line if WORD.findall(line)[-1] in words else ''
    names = [it.strip() for it in group[2].split(',') if it.strip()]
    used = [it for it in names if '◌' in it or WORD.findall(it)[-1:] and WORD.findall(it)[-1] in words]
    return f'{group[1]}{{{", ".join(used)}}};' if used else ''


def strip(path):
    """Strips a file of sources, and says whether anything is left."""
    with open(path, encoding='utf-8') as file:
        blocks = items(file.read())
    uses = [text_of(it) for it in blocks if re.match(r'(ghost |pub )?use ', text_of(it))]
    kept = ['\n'.join(it) for it in blocks if stays(text_of(it))]
    if not kept:
        os.remove(path)
        return False
    words = set(WORD.findall('\n'.join(kept)))
    with open(path, 'w', encoding='utf-8') as file:
        file.write('\n'.join([*(it for it in (thinned(use, words) for use in uses) if it), '', *kept, '']))
    return True


def main(words):
    crate, lemmas = words[0], words[1:]
    top = f'{os.getcwd()}/crates/{crate}'
    names = sorted(it[:-3] for it in os.listdir(f'{top}/src') if it.endswith('.rt') and it != 'lib.rt')
    kept = [name for name in names if strip(f'{top}/src/{name}.rt')]
    with open(f'{top}/src/lib.rt', 'w', encoding='utf-8') as file:
        file.write('#![tactic(auto)]\n\n' + ''.join(f'pub mod {name};\n' for name in [*kept, 'checked']))
    with open(f'{top}/src/checked.rt', 'w', encoding='utf-8') as file:
        file.write(CHECKED)
    for name in os.listdir(f'{top}/proofs'):
        folder = f'{top}/proofs/{name}'
        if os.path.isdir(folder) and not os.path.exists(f'{folder}.antt'):
            shutil.rmtree(folder)
    os.makedirs(f'{top}/proofs/checked/checked')
    with open(f'{top}/proofs/checked/checked/Answers.antt', 'w', encoding='utf-8') as file:
        for lemma in lemmas:
            module, name = lemma.rsplit('.', 1)
            file.write(f'use Rattle.{crate}.proofs.{module}.{{{name}}}\n')
        file.write(f'use Rattle.{crate}.proofs.checked.checked.Goals as goal\n\npub returns : goal.returns\nreturns c = λ i. c.args.n\n')


if __name__ == '__main__':
    main(sys.argv[1:])
