#!/usr/bin/env python3
"""Writes the parts of docs/REFERENCE.md and docs/LANGUAGE.md that are data: everything between the lines `<!-- data NAME -->` and `<!-- end -->`, from docs/diagnostics.toml.
With the word `--check` it writes nothing, and fails where a document is not as the data say."""
import os
import re
import sys
import tomllib

TOP = os.path.realpath(os.path.join(os.path.dirname(os.path.realpath(__file__)), '..', '..'))
DOCUMENTS = ['docs/REFERENCE.md', 'docs/LANGUAGE.md']
GROUPS = [('E1', 'Tokens and grammar'), ('E3', 'Limits'), ('E4', 'Names'), ('E5', 'Types'), ('E6', 'Definitions'), ('E7', 'Clocks'), ('E8', 'First values'), ('E9', 'Causality'),
          ('E10', 'The form of contracts'), ('E11', 'Contracts that are lost'), ('E12', 'Nodes'), ('L1', 'Lines of a trace'), ('K1', 'Certificates'), ('O1', 'Texts of machines'), ('usage:', 'Words of a call')]


def plain(text):
    """A title or cause, with the words of the line in it as they stand in its form."""
    return re.sub(r'\{(\w+)\}', r'\1', text)


def filled(text, entry):
    return plain(text.replace('{LIMIT}', f'{entry["limit"]:,}') if 'limit' in entry else text)


def is_short(value):
    return isinstance(value, str)


def block(kind, text):
    return f'```{kind}\n{text.strip(chr(10))}\n```\n'


def is_shown(example):
    """Whether an example can stand in a document: its files and its input are short."""
    texts = [*example.get('files', {}).values(), example.get('input', '')]
    return all(is_short(text) for text in texts) and 'untried' not in example and not example.get('begins', '').endswith(' ')


def call(example, status):
    """A call and what it says, as a console block."""
    given = example.get('input', '')
    feed = f"printf '{given.encode('unicode_escape').decode()}' | " if given else ''
    if 'begins' in example:
        return block('console', f'$ {feed}./hept {example["words"]} 2>&1 | head -n 1\n{example["begins"]}')
    return block('console', f'$ {feed}./hept {example["words"]}\n{example.get("said", "")}{example["line"]}\n[{status}]')


def shown(example, status):
    out = [f'For example, {example["shows"]}:\n']
    if not is_shown(example):
        return f'For example, {example["shows"]}: `{example.get("line", example.get("begins", "").strip() + " ..")}`.\n'
    for name, text in example.get('files', {}).items():
        out.append(block(f'{name.rpartition(".")[2]} {name}', text))
    out.append(call(example, status))
    cured = example.get('cured')
    if cured:
        out.append('Mended:\n')
        for name, text in cured.items():
            out.append(block(f'{name.rpartition(".")[2]} {name}', text))
        said = {'check': 'accepted\n', 'prove': ''}[example['words'].split()[0]]
        out.append(block('console', f'$ ./hept {example["words"]}\n{said}'))
    return '\n'.join(out)


def diagnostics(data):
    heads, out = dict(GROUPS), []
    for entry in data['diagnostic']:
        if entry['code'] in heads:
            out.append(f'### {heads.pop(entry["code"])}\n')
        out.append(f'#### `{entry["form"]}`\n')
        title = filled(entry['title'], entry)
        out.append(f'{title[0].upper()}{title[1:]}. Status {entry["status"]}.\n')
        out.append(f'*Cause.* {filled(entry["cause"], entry)}\n')
        if 'limit' in entry:
            more = f' (`exec`: {entry["executed"]:,})' if 'executed' in entry else ''
            out.append(f'*Limit.* {entry["limit"]:,} {entry["counts"]}{more}.\n')
        if 'cure' in entry:
            out.append(f'*Cure.* {filled(entry["cure"], entry)}\n')
        out += [shown(example, entry['status']) for example in entry.get('example', [])]
    return '\n'.join(out)


def table(heads, rows):
    lines = ['| ' + ' | '.join(heads) + ' |', '|' + '---|' * len(heads)]
    return '\n'.join(lines + ['| ' + ' | '.join(cell.replace('|', '\\|') for cell in row) + ' |' for row in rows]) + '\n'


def statuses(data):
    rows = [(str(entry['number']), entry['title'], entry['cause'] + (' ' + entry['cure'] if 'cure' in entry else '')) for entry in data['status']]
    return table(['status', 'meaning', 'cause, and what to look at'], rows)


def commands(data):
    return table(['words', 'what it does'], [(f'`{entry["name"]} {entry["words"]}`', entry['does']) for entry in data['command']])


def keywords(data):
    return table(['word', 'meaning'], [(f'`{entry["word"]}`', entry['means']) for entry in data['keyword']])


def limits(data):
    rows = [(f'`{entry["word"]}`', f'{entry["limit"]:,}', entry['counts'] + (f' (`exec`: {entry["executed"]:,})' if 'executed' in entry else '')) for entry in data['diagnostic'] if 'limit' in entry]
    return table(['word', 'at most', 'of'], rows)


def missing(data):
    rows = [(entry['name'], ', '.join(entry['of']), f'`{entry["line"]}`', entry['instead']) for entry in data['missing']]
    return table(['what is not there', 'known from', 'message, for example', 'write'], rows)


PARTS = {'diagnostics': diagnostics, 'statuses': statuses, 'commands': commands, 'keywords': keywords, 'limits': limits, 'missing': missing}


def main():
    with open(os.path.join(TOP, 'docs', 'diagnostics.toml'), 'rb') as file:
        data = tomllib.load(file)
    stale = []
    for name in DOCUMENTS:
        path = os.path.join(TOP, name)
        with open(path, encoding='utf-8') as file:
            old = file.read()
        new = re.sub(r'<!-- data (\w+) -->\n.*?<!-- end -->\n', lambda m: f'<!-- data {m.group(1)} -->\n{PARTS[m.group(1)](data)}<!-- end -->\n', old, flags=re.S)
        if new != old:
            stale.append(name)
            if '--check' not in sys.argv:
                with open(path, 'w', encoding='utf-8') as file:
                    file.write(new)
    if '--check' in sys.argv and stale:
        raise SystemExit(f'{" ".join(stale)}: not as docs/diagnostics.toml says; run bench/guide/reference.py')


if __name__ == '__main__':
    main()
