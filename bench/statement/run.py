#!/usr/bin/env python3
"""The definitions that the contracts of `run_tool` and of `run_in_memory` rest on, found by following names from their clauses, file by file with their lines.

    run.py            compares what it finds with docs/ARCHITECTURE.md: each file that is reached has to be listed there. Its status is 1 where one is not, where one is listed that is not reached, or where figures
                      of docs/ARCHITECTURE.md or docs/PROVED.md are not those of now
    run.py --list     prints the files below `run_tool` with the lines of definitions that are reached, without comments, and the sum
    run.py --claim    prints the same below `run_in_memory`
    run.py --write    writes the numbers of lines into the tables of docs/ARCHITECTURE.md, its last table, and the tables of docs/PROVED.md

Names are followed word by word, so a word that is also the name of a variable counts: it errs by too many. A field that is read of a value does not count. What stands in `declared` is read off the Rust types, and is counted as types."""
import glob
import json
import os
import re
import sys

TOP = os.path.dirname(os.path.dirname(os.path.dirname(os.path.abspath(__file__))))
PAGE = f'{TOP}/docs/ARCHITECTURE.md'
SHORT_PAGE = f'{TOP}/docs/PROVED.md'
MARK = '<!-- These two tables are written by bench/statement/run.py --write. -->\n'
# of each claim the tables of rows that show it, and the crates whose wrong bodies (must-fail/, docs/edits) are refused by what it rests on
CLAIMS = {
    '1 accepted, or the first refusal': ('tokens grammar names types definitions expansion front limits random checked', 'hp_arguments hp_base hp_parser hp_names hp_typing hp_compile hp_expand hp_clocks hp_init hp_cause'),
    '2 runs are right': ('run traces worked', 'hp_lines hp_meaning hp_obc hp_automata hp_complete hp_schedule hp_normal hp_toobc hp_fuse hp_exec'),
    '3 `E11` is exact': ('contracts', 'hp_diagram hp_quant hp_synth hp_drawing hp_abstract hp_circuit'),
    '4 `compile`, then `exec`': ('machines machine_forms run', 'hp_obc hp_toobc hp_fuse'),
    '5 `prove` and `verify`': ('contracts', 'hp_cert hp_quant'),
    '6 a stopped run goes on': ('checkpoints resumed', 'hp_exec hp_obctext'),
    'each status has its cause': ('words faults system', 'hp_io hp_driver'),
    'values that are chosen (proved where no contract compares integers, tested of others)': ('controlled worked', 'hp_control hp_watch hp_controlled'),
}
LAST_PART = '\n## For proofs alone'
START = 'crates/hp_driver/src/tool.rt', 'run_tool'
CLAIM = 'crates/hp_driver/src/memory.rt', 'run_in_memory'
CLAIM_MARK = '<!-- This table is written by bench/statement/run.py --write. -->\n'
WORD = re.compile(r"[^\s(){}\[\],;.λ:→×∷]+")
# a field that is read of a value: what has it is reached by the value's type
PROJECTED = re.compile(r'(?<=[^\s(λ.,])\.(?=[^\s\d.])[^\s(){}\[\],;.λ:→×∷]+')
HEAD = re.compile(r'^\s*(?:abbrev |unfoldable |irrelevant )*(?:pub )?(?:abbrev )?(?:(?:record|data|code_by|type) )?(?:pub )?([^\s:(]+)')
FIELD = re.compile(r'^\s+(?:pub )?([^\s:(]+)(?: [^:]*)? : ')


def names_of(clause):
    """The names that a `use` line brings in, with those that they have where they come from."""
    for part in clause.split(','):
        words = part.split()
        if words:
            yield words[-1], words[0]


class File:
    """A file of definitions: its items, and where the names that it uses come from."""

    def __init__(self, path):
        self.path, self.items, self.at, self.uses, self.modules, self.passes = path, [], {}, {}, {}, []
        block = []
        for line in open(f'{TOP}/{path}', encoding='utf-8'):
            line = line.rstrip('\n')
            if line.lstrip().startswith('--') or not line.strip():
                continue
            if line.startswith(('use ', 'pub use ')):
                self.use(line)
            elif not line[0].isspace() and self.begins(line, block):
                self.add(block)
                block = [line]
            else:
                block.append(line)
        self.add(block)

    @staticmethod
    def begins(line, block):
        """Whether a line at the margin begins an item: the equations of a function stand behind its type under the same name."""
        if not block:
            return True
        head, first = HEAD.match(block[0]), re.match(r'[^\s:(]+', line)
        return not (head and first and first.group(0) == head.group(1))

    def use(self, line):
        found = re.match(r'(?:pub )?use Rattle\.([\w.]+?)(?:\.\{(.*)\})?(?: as (\w+))?$', line)
        if not found:
            return
        module, names, own = found.groups()
        if names is None:
            self.modules[own or module.split('.')[-1]] = module
            return
        for name, origin in names_of(names):
            self.uses[name] = module, origin
        if line.startswith('pub '):
            self.passes.append(module)

    def add(self, block):
        if not block or block[0].startswith(('pub mod', 'mod ', 'open ')):
            return
        index = len(self.items)
        self.items.append(block)
        for line in block:
            inner = line[0].isspace()
            for pattern in (HEAD, FIELD) if inner else (HEAD,):
                head = pattern.match(line)
                if head and (not inner or ' : ' in line or line.lstrip().startswith(('pub', 'record', 'data'))):
                    self.at.setdefault(head.group(1), index)


class Search:
    def __init__(self):
        self.files, self.reached, self.types, self.ahead = {}, {}, set(), []

    def file(self, module):
        """The file of a module, or of the module around it; and whether it is one of the repository's definitions."""
        parts = module.split('.')
        if 'declared' in parts:
            self.types.add('.'.join(parts[:parts.index('declared')] + [it for it in parts[parts.index('declared'):] if it != 'TheVariants']))
            return None
        if len(parts) < 3 or parts[1] != 'specs':
            return None
        while len(parts) > 2:
            path = f'crates/{parts[0]}/specs/{"/".join(parts[2:])}.antt'
            if os.path.isfile(f'{TOP}/{path}'):
                if path not in self.files:
                    self.files[path] = File(path)
                return self.files[path]
            parts.pop()
        return None

    def reach(self, file, name):
        if name not in file.at:
            if name in file.uses:
                self.follow(*file.uses[name])
            return
        index = file.at[name]
        seen = self.reached.setdefault(file.path, set())
        if index not in seen:
            seen.add(index)
            self.ahead.append((file, '\n'.join(file.items[index])))

    def follow(self, module, name):
        file = self.file(module)
        if file:
            self.reach(file, name)

    def read(self, file, text):
        for own, name in re.findall(r'(\w+)\.([^\s(){}\[\],;.]+)', text):
            if own in file.modules:
                self.follow(file.modules[own], name)
        for word in set(WORD.findall(PROJECTED.sub('', text))):
            for name in (word, f'◌{word}◌', f'{word}◌'):
                if name in file.uses:
                    self.follow(*file.uses[name])
                elif name in file.at:
                    self.reach(file, name)

    def start(self, path, function):
        text = open(f'{TOP}/{path}', encoding='utf-8').read()
        uses = {name: (module, origin) for module, names in re.findall(r'^ghost use Rattle\.([\w.]+)\.\{(.*)\};', text, re.M) for name, origin in names_of(names)}
        clauses = re.search(rf'pub fn {function}[<(].*?^{{', text, re.M | re.S).group(0)
        for word in set(WORD.findall(clauses)):
            if word in uses:
                self.follow(*uses[word])
        while self.ahead:
            self.read(*self.ahead.pop())


def found(start):
    search = Search()
    search.start(*start)
    lines = {path: sum(len(search.files[path].items[it]) for it in items) for path, items in search.reached.items()}
    return lines, search.types


def files_of(cell):
    """The files that the first cell of a row names."""
    crate, *files = re.findall(r'`([^`]+)`', cell)
    return [f'crates/{crate}/specs/{it}.antt' for it in files]


def listed():
    """The files that docs/ARCHITECTURE.md lists above the part on what serves proofs alone."""
    text = open(PAGE, encoding='utf-8').read().split(LAST_PART)[0]
    return {file for cell in re.findall(r'^\| (`.*?) \|', text, re.M) for file in files_of(cell)}


def counted(text, lines):
    """docs/ARCHITECTURE.md with the lines that are reached now."""
    text, mark, rest = text.partition(LAST_PART)
    text = re.sub(r'^\| (`.*?) \| \d+ \|', lambda it: f'| {it.group(1)} | {sum(lines.get(file, 0) for file in files_of(it.group(1)))} |', text, flags=re.M)
    return text + mark + rest


def parts(lines):
    """The parts of docs/ARCHITECTURE.md with the lines that each has."""
    found, name = {}, None
    for line in open(PAGE, encoding='utf-8').read().split(LAST_PART)[0].split('\n'):
        if line.startswith('#'):
            name = line.lstrip('# ')
        elif line.startswith('| `'):
            files = files_of(line.split(' |')[0][2:])
            found.setdefault(name, []).append(sum(lines.get(it, 0) for it in files))
    return found


def listing(lines):
    """The last table of docs/ARCHITECTURE.md: the files below the claim, crate by crate."""
    files = {}
    for path in lines:
        _, crate, _, name = path.split('/', 3)
        files.setdefault(crate, []).append(name.removesuffix('.antt'))
    yield '| files | lines |'
    yield '|---|---|'
    for crate in sorted(files):
        names = ', '.join(f'`{it}`' for it in sorted(files[crate]))
        yield f'| `{crate}`: {names} | {sum(lines[f"crates/{crate}/specs/{it}.antt"] for it in files[crate])} |'
    yield f'| all, in {len(lines)} files | {sum(lines.values()):,} |'


def edits_of(crate):
    return len(glob.glob(f'{TOP}/crates/{crate}/must-fail/*.edit')), len(glob.glob(f'{TOP}/docs/edits/{crate}/*.edit'))


def tables(lines, types, claim):
    yield '| part of [ARCHITECTURE.md](ARCHITECTURE.md) | lines of definitions |'
    yield '|---|---|'
    for name, numbers in parts(lines).items():
        yield f'| {name} | {sum(numbers):,} |'
    yield f'| all, in {len(lines)} files, beside {len(types)} types of the code | {sum(lines.values()):,} |'
    yield f'| of these below `Claim`, with it, in {len(claim)} files | {sum(claim.values()):,} |'
    yield ''
    yield '## What shows it besides'
    yield ''
    yield 'Rows are calls with all that they have to do (`crates/hp_rows/data`; some show two claims). Wrong bodies are changes of the sources that the prover has to refuse: those of the gate (`must-fail/`), and those that are too dear for it (`docs/edits`, tried by `bench/edits/run.py`; its README names those that were not tried yet).'
    yield ''
    yield '| claim | rows | wrong bodies in the gate | by hand |'
    yield '|---|---|---|---|'
    for claim, (rows, crates) in CLAIMS.items():
        count = sum(len(json.load(open(f'{TOP}/crates/hp_rows/data/{it}.json', encoding='utf-8'))) for it in rows.split())
        gate, hand = (sum(it) for it in zip(*map(edits_of, crates.split())))
        yield f'| {claim} | {count} | {gate} | {hand} |'


def pages(lines, types, claim):
    """Each page that has figures: its path, its text, and the text with the figures of now."""
    text = open(PAGE, encoding='utf-8').read()
    yield PAGE, text, counted(text.split(CLAIM_MARK)[0], lines) + CLAIM_MARK + '\n'.join(listing(claim)) + '\n'
    text = open(SHORT_PAGE, encoding='utf-8').read()
    yield SHORT_PAGE, text, text.split(MARK)[0] + MARK + '\n'.join(tables(lines, types, claim)) + '\n'


def print_list(lines, types):
    for path in sorted(lines):
        print(f'{lines[path]:6} {path}')
    print(f'{sum(lines.values())} lines of definitions in {len(lines)} files, and {len(types)} types')


def main(words):
    lines, types = found(START)
    claim, claim_types = found(CLAIM)
    if words == ['--list']:
        print_list(lines, types)
        return 0
    if words == ['--claim']:
        print_list(claim, claim_types)
        return 0
    stale = []
    for path, text, now in pages(lines, types, claim):
        if text != now and words == ['--write']:
            with open(path, 'w', encoding='utf-8') as file:
                file.write(now)
        elif text != now:
            stale.append(path)
            print(f'{os.path.relpath(path, TOP)}: its figures are not those of now (--write)')
    lacking, more = sorted(set(lines) - listed()), sorted(listed() - set(lines))
    for path in lacking:
        print(f'{path}: reached from run_tool, and not listed in docs/ARCHITECTURE.md')
    for path in more:
        print(f'{path}: listed in docs/ARCHITECTURE.md, and not reached from run_tool')
    print(f'statement: {sum(lines.values())} lines in {len(lines)} files; the claim in memory: {sum(claim.values())} in {len(claim)}')
    return 1 if lacking or more or stale else 0


if __name__ == '__main__':
    sys.exit(main(sys.argv[1:]))
