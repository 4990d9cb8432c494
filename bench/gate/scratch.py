#!/usr/bin/env python3
"""Makes one scratch crate of some modules and of what they name, so that laws are checked in a minute or two while the libraries below them are not built. Run it at the top of a clone.

scratch.py FOLDER PLAN      writes the crate `scratch` into the repository FOLDER, by the plan

The plan is JSON:
  "modules": the modules that are being written, which stay whole (`Rattle.law_choices.proofs.InTurnLemmas.Tells`);
  "real":    crates whose libraries are there (kept.py gives them); their modules are named as they are, and the crates are linked into FOLDER;
  "opaque":  names of definitions that no proof looks into: each is its type with a hole;
  "texts":   for a definition, by its name, another text: a record with fewer fields;
  "types":   for a declared type, as `hp_typing_Scope`, the module that stands for it; without one it is data of the variants that are named;
  "answer":  a lemma that is to be checked, with its module, as "Rattle.law_choices.proofs.X.lemma", or a list of some; of the other modules what these do not reach is loaded and not checked.

Names are followed word by word. Of proofs elsewhere a lemma is its signature with a hole, and abbreviations and records stay; of specs an item is what it is. Then `rt check --only checked --allow-holes` in FOLDER/crates/scratch.
What it does not see: that a name is private in its own crate, and operators that a copied file brings in."""
import json
import os
import re
import shutil
import sys

WORDS = re.compile(r'[\s(){}\[\],;.]+')
HEAD = re.compile(r'(?:abbrev )?(?:pub )?(?:unfoldable )?([^\s:(){}]+) : ')
TYPED = re.compile(r'(?:pub )?(record|data) ([^\s:]+)')
BLOCK = re.compile(r'module |(?:abbrev )?(?:pub )?mutual')


def words_of(text):
    return {word for word in WORDS.split(text) if word}


def turned(head):
    """`unfoldable` behind `pub`, as elsewhere."""
    return head.replace('unfoldable pub ', 'pub unfoldable ')


def chunks_of(lines, indent):
    """Lines cut where one begins at the indent; comments and blank lines are left out."""
    chunks = []
    for line in lines:
        if not line.strip() or line.lstrip().startswith('--'):
            continue
        if line[:indent].strip() == '' and line[indent] not in ' })':
            chunks.append([line])
        elif chunks:
            chunks[-1].append(line)
    return chunks


def split_block(lines):
    """The head of a block, and its chunks with their indent."""
    end = 0
    if lines[0].lstrip().startswith('module'):
        while not lines[end].rstrip().endswith('where'):
            end += 1
    rest = [line for line in lines[end + 1:] if line.strip() and not line.lstrip().startswith('--')]
    indent = len(rest[0]) - len(rest[0].lstrip()) if rest else 0
    return lines[:end + 1], chunks_of(rest, indent), indent


def rows_in(kind, lines):
    """The rows of a data type; a record has none."""
    return {name for line in lines[1:] if kind == 'data' and ':' in line for name in line.split(':')[0].split()}


def names_in(lines):
    """What a block declares."""
    found = set()
    for chunk in split_block(lines)[1]:
        head = turned(chunk[0].strip())
        if BLOCK.match(head):
            found |= names_in(chunk)
        elif TYPED.match(head):
            found |= {TYPED.match(head)[2]} | rows_in(TYPED.match(head)[1], chunk)
        elif HEAD.match(head + ' '):
            found.add(HEAD.match(head + ' ')[1])
    return found


class Item:
    """A declaration with its clauses, or a block."""

    def __init__(self, kind, name, names, lines):
        self.kind, self.name, self.names, self.lines, self.sign = kind, name, names, lines, list(lines)

    def text(self):
        return '\n'.join(self.lines)


def item_of(lines):
    head = turned(lines[0])
    if BLOCK.match(head):
        return Item('block', None, names_in(lines), lines)
    typed = TYPED.match(head)
    if typed:
        return Item(typed[1], typed[2], {typed[2]} | rows_in(typed[1], lines), lines)
    named = HEAD.match(head + ' ')
    if named:
        return Item('abbrev' if head.startswith('abbrev') else 'definition', named[1], {named[1]}, lines)
    return None


def rows_of(name):
    """The module of a name, where it is that of a data type, whose rows stand in the module too."""
    parts = name.split('.')
    folder = '/'.join(['crates', parts[1]] + parts[2:-1])
    return '.'.join(parts[:-1]) if os.path.exists(folder + '.antt') and not os.path.exists(f'{folder}/{parts[-1]}.antt') and not os.path.isdir(folder) else name


class Module:
    """The items of a file, and what its `use` lines bring in."""

    def __init__(self, name, path):
        self.name, self.uses, self.passed, self.aliases, self.items, self.by_name = name, [], {}, {}, [], {}
        with open(path, encoding='utf-8') as file:
            chunks = chunks_of(file.read().split('\n'), 0)
        for lines in chunks:
            if re.match(r'(pub )?use ', lines[0]):
                self.use(lines[0])
                continue
            item = item_of(lines)
            if item is None:
                self.items[-1].lines += lines
                continue
            self.items.append(item)
            for one in item.names:
                self.by_name.setdefault(one, item)

    def use(self, line):
        group = re.match(r'(pub )?use ([\w.]+)\.\{(.*)\}\s*$', line)
        if not group:
            alias = re.match(r'use ([\w.]+) as (\S+)', line)
            self.aliases[alias[2]] = alias[1]
            return
        source = group[2] if '.declared.' in group[2] else rows_of(group[2])
        for part in group[3].split(','):
            there, _, here = part.strip().partition(' as ')
            if group[1]:
                self.passed[there] = source
            else:
                self.uses.append((source, there, here or there))


class Scratch:
    """What is reached from the modules of the plan, and the text that is kept of it."""

    def __init__(self, top, plan):
        self.top, self.plan, self.modules, self.seen, self.asked, self.kept, self.declared, self.passed = top, plan, {}, set(), {}, {}, {}, {}
        self.whole, self.opaque = set(plan['modules']), set(plan.get('opaque', []))

    def is_real(self, name):
        crate = name.split('.')[1]
        return crate == 'std' or crate in self.plan['real'] or not os.path.isdir(f'{self.top}/crates/{crate}')

    def module(self, name):
        if name not in self.modules:
            parts = name.split('.')
            self.modules[name] = Module(name, f'{self.top}/crates/{parts[1]}/{"/".join(parts[2:])}.antt')
        return self.modules[name]

    def ask(self, name, word):
        """Reaches a name of a module."""
        if self.is_real(name):
            return
        if '.declared.' in name:
            self.declared.setdefault(name, set()).add(word)
            return
        if (name, word) in self.seen:
            return
        self.seen.add((name, word))
        self.asked.setdefault(name, set()).add(word)
        module = self.module(name)
        if word in module.by_name:
            self.keep(module, module.by_name[word])
        elif word in module.passed:
            self.passed.setdefault(name, set()).add(word)
            self.ask(module.passed[word], word)
        else:
            print(f'scratch: {name} has no {word}')

    def keep(self, module, item):
        text = self.text_of(module, item)
        if self.kept.get((module.name, id(item))) != text:
            self.kept[(module.name, id(item))] = text
            self.follow(module, text)

    def follow(self, module, text):
        words = words_of(text)
        for name, there, here in module.uses:
            if here in words:
                self.ask(name, there)
        for alias, name in module.aliases.items():
            for word in re.findall(rf'(?<![\w.]){re.escape(alias)}\.([^\s(){{}}\[\],;.]+)', text):
                self.ask(name, word)
        for word in words:
            if word in module.by_name or word in module.passed:
                self.ask(module.name, word)

    def text_of(self, module, item):
        """What is written of an item."""
        if module.name in self.whole:
            return item.text()
        if item.name in self.plan.get('texts', {}):
            return self.plan['texts'][item.name]
        is_proof = '.proofs.' in module.name
        if item.name in self.opaque:
            return opened(item)
        if item.kind == 'block' and is_proof and item.lines[0].startswith('abbrev'):
            return item.text()
        if item.kind == 'block' and is_proof:
            return '\n'.join(thinned(item.lines, self.asked[module.name]))
        if item.kind == 'definition' and is_proof:
            return opened(item)
        return item.text()

    def run(self):
        for name in self.plan['modules']:
            module = self.module(name)
            for item in module.items:
                for word in item.names:
                    self.ask(name, word)


def opened(item):
    """A definition, or a type, by its type alone."""
    if item.kind in ('record', 'data'):
        head = re.match(r'(?:pub )?\w+ (\S+)(.*) : (.*) where', item.lines[0])
        parts = re.findall(r'[({][^(){}]*(?:\([^()]*\)[^(){}]*)*[)}]', head[2])
        return f'pub {head[1]} : {" → ".join(parts + [head[3]])}\n{head[1]} = ?'
    sign = re.sub(r'^(unfoldable )?(abbrev )?(pub )?(unfoldable )?', '', '\n'.join(item.sign))
    return f'pub {sign}\n{item.name} = ?'


def thinned(lines, wanted):
    """Of a block its head, its abbreviations and records as far as they are read, and the signatures that are wanted."""
    if re.match(r'(pub )?mutual', lines[0]):
        return [line for _, part in mutual(lines, wanted, '') for line in part]
    head, chunks, indent = split_block(lines)
    pad, kept = ' ' * indent, []
    for chunk in chunks:
        first = turned(chunk[0].strip())
        named = HEAD.match(first + ' ')
        if first.startswith('module '):
            inner = thinned(chunk, wanted)
            if not inner[-1].rstrip().endswith('where'):
                kept.append((None, inner))
        elif BLOCK.match(first):
            kept += mutual(chunk, wanted, pad)
        elif TYPED.match(first) or (named and first.startswith('abbrev')):
            kept.append((TYPED.match(first)[2] if TYPED.match(first) else named[1], list(chunk)))
        elif named and named[1] in wanted:
            kept.append((None, [pad + 'pub ' + first.removeprefix('pub ')] + chunk[1:] + [f'{pad}{named[1]} = ?']))
        elif not named and kept and kept[-1][0] and chunk[0].split()[0] == kept[-1][0]:
            kept[-1][1].extend(chunk)
    return head + [line for _, part in read_parts(kept, wanted) for line in part]


def mutual(chunk, wanted, pad):
    """The signatures that are wanted of a block of lemmas that cite each other, which need no block without their proofs."""
    if chunk[0].strip().startswith('abbrev'):
        return [(None, chunk)]
    found = []
    for lines in split_block(chunk)[1]:
        first = turned(lines[0].strip())
        named = HEAD.match(first + ' ')
        if named and named[1] in wanted:
            found.append((None, [f"{pad}pub {first.removeprefix('pub ')}", *lines[1:], f'{pad}{named[1]} = ?']))
    return found


def read_parts(parts, wanted):
    """Without the abbreviations that no other part reads."""
    while True:
        for at, (name, _) in enumerate(parts):
            others = '\n'.join(line for other, (_, lines) in enumerate(parts) if other != at for line in lines)
            if name and name not in wanted and name not in words_of(others):
                del parts[at]
                break
        else:
            return parts


class Writer:
    """The files of the scratch crate."""

    def __init__(self, scratch, folder):
        self.scratch, self.crate, self.folders = scratch, f'{folder}/crates/scratch', {}

    def new_name(self, name):
        if self.scratch.is_real(name):
            return name
        parts = name.split('.')
        if '.declared.' in name:
            own = [part for part in parts if part not in ('Rattle', 'specs', 'declared', 'TheVariants')]
            return f'Rattle.scratch.specs.D.{own[0]}_{own[-1]}'
        return f'Rattle.scratch.{"proofs" if parts[2] == "proofs" else "specs"}.{".".join([parts[1]] + parts[3:])}'

    def write(self, name, text):
        parts = name.split('.')[2:]
        for at in range(1, len(parts)):
            self.folders.setdefault('/'.join(parts[:at]), set()).add(parts[at])
        self.put(f'{self.crate}/{"/".join(parts)}.antt', text)

    def put(self, path, text):
        os.makedirs(os.path.dirname(path), exist_ok=True)
        with open(path, 'w', encoding='utf-8') as file:
            file.write(text)

    def module(self, name, module):
        items = [self.scratch.kept[(name, id(item))] for item in module.items if (name, id(item)) in self.scratch.kept]
        passed = sorted(self.scratch.passed.get(name, ()))
        if not items and not passed:
            return
        body, lines = '\n\n'.join(items), []
        words, uses = words_of(body), {}
        for source, there, here in module.uses:
            if here in words or name in self.scratch.whole or self.scratch.is_real(source):
                uses.setdefault(self.new_name(source), []).append(there if there == here else f'{there} as {here}')
        lines += [f'use {source}.{{{", ".join(names)}}}' for source, names in uses.items()]
        lines += [f'pub use {self.new_name(module.passed[word])}.{{{word}}}' for word in passed]
        lines += [f'use {self.new_name(source)} as {alias}' for alias, source in module.aliases.items() if alias + '.' in body or name in self.scratch.whole]
        self.write(self.new_name(name), '\n'.join(lines) + '\n\n' + body + '\n')

    def types(self):
        found = {}
        for name, words in self.scratch.declared.items():
            found.setdefault(self.new_name(name), set()).update(words)
        for name, words in found.items():
            short = name.split('.')[-1]
            own = short.split('_')[-1]
            rows = ' '.join(sorted(words - {own})) or 'only'
            self.write(name, self.scratch.plan.get('types', {}).get(short, f'pub data {own} : Type 0 where\n  {rows} : {own}\n'))

    def check(self):
        """A function whose proof loads all that was written, with one answer."""
        asked = self.scratch.plan['answer']
        answers = [answer.rsplit('.', 1) for answer in ([asked] if isinstance(asked, str) else asked)]
        heads = {module for module, _ in answers}
        uses = [f'use {self.new_name(name)}.{{{named}}}' for name in self.scratch.plan['modules'] if '.proofs.' in name and name not in heads for named in self.public(name)]
        uses += [f'use {self.new_name(module)}.{{{lemma} as asked{at}}}' for at, (module, lemma) in enumerate(answers)]
        laws = ' '.join(f'let law{at} = asked{at} in' for at in range(len(answers)))
        self.put(f'{self.crate}/src/lib.rt', '//! Scratch.\n#![tactic(auto)]\n\nghost use Rattle.std.specs.Prelude.{◌≡◌, true};\n\n/// Loads the laws.\npub fn checked()\n    ensures { true ≡ true }\n{}\n')
        text = '\n'.join(uses + ['use Rattle.std.proofs.Common.{refl}', 'use Rattle.scratch.proofs.checked.Goals as goal', '', 'pub returns : goal.returns', f'returns c = {laws} refl', ''])
        self.put(f'{self.crate}/proofs/checked/Answers.antt', text)

    def public(self, name):
        """The first name of a module that others may use."""
        text = '\n'.join(item.text() for item in self.scratch.module(name).items)
        return re.findall(r'^\s*(?:abbrev )?pub (?:unfoldable |record |data )?([^\s:(){}]+)', text, re.M)[:1]

    def run(self):
        for part in ('specs', 'proofs'):
            shutil.rmtree(f'{self.crate}/{part}', ignore_errors=True)
        for name, module in list(self.scratch.modules.items()):
            self.module(name, module)
        self.types()
        for folder, names in self.folders.items():
            path = f'{self.crate}/{folder}.antt' if '/' in folder else f'{self.crate}/{folder}/Lib.antt'
            self.put(path, ''.join(f'pub mod {name}\n' for name in sorted(names)))
        self.check()


def link(top, folder, crates):
    """The crates whose libraries are there, and the list of all crates."""
    with open(f'{top}/crates.txt', encoding='utf-8') as file:
        listed = {line.split(':')[0].split()[0]: line for line in file if ':' in line and not line.startswith('#')}
    os.makedirs(f'{folder}/crates', exist_ok=True)
    for crate in crates:
        shutil.rmtree(f'{folder}/crates/{crate}', ignore_errors=True)
        shutil.copytree(f'{top}/crates/{crate}', f'{folder}/crates/{crate}', copy_function=os.link)
    with open(f'{folder}/crates.txt', 'w', encoding='utf-8') as file:
        file.write(''.join(listed[crate] for crate in crates) + f'scratch: {" ".join(crates)} indexmap\n')
    shutil.copy(f'{top}/HANDLES', folder)


def main():
    folder, path = sys.argv[1:]
    with open(path, encoding='utf-8') as file:
        plan = json.load(file)
    top = os.getcwd()
    scratch = Scratch(top, plan)
    scratch.run()
    link(top, folder, plan['real'])
    Writer(scratch, folder).run()


main()
