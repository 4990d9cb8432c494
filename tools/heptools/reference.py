"""The reference of all diagnostics, as text."""
from .explain import wrapped


def entry_lines(entry):
    """An entry: its line, title, cause, cure and what of its examples is short."""
    data = entry.data
    lines = [data['form'], *wrapped('    ', data['title'].replace('{', '').replace('}', '') + '.')]
    if 'limit' in data:
        executed = f', of `exec` {data["executed"]}' if 'executed' in data else ''
        lines += wrapped('    limit: ', f'{data["limit"]}{executed}; counted are {data["counts"]}')
    lines += wrapped('    cause: ', data['cause'].replace('{', '').replace('}', ''))
    lines += wrapped('    cure: ', data['cure'].replace('{', '').replace('}', ''))
    for example in data['example']:
        lines += example_lines(example, data['status'])
    return lines + ['']


def example_lines(example, status):
    """A call, what it reads and what it says; nothing where the text is long."""
    texts = example.get('files', {})
    if not all(isinstance(it, str) and len(it) < 600 for it in [*texts.values(), example.get('input', '')]):
        return []
    lines = wrapped('    example: ', example['shows'])
    for name, text in texts.items():
        lines += [f'        {name}:', *('            ' + line for line in text.rstrip('\n').split('\n'))]
    said = example.get('line') or example['begins'] + ' ..'
    return lines + [f'        hept {example["words"]}    says `{said}`, status {status}']


def missing_lines(missing):
    return [*wrapped('', f'{missing["name"]} ({", ".join(missing["of"])})'), *wrapped('    ', missing['instead']), '']


def status_line(status):
    return [*wrapped(f'{status["number"]:>2}  ', f'{status["title"]}. {status["cause"]}{" " + status["cure"] if "cure" in status else ""}')]


def all_lines(data):
    """The whole reference."""
    lines = ['COMMANDS', '']
    for command in data.commands:
        lines += [f'hept {command["name"]} {command["words"]}', *wrapped('    ', command['does'] + '.'), '']
    lines += ['DIAGNOSTICS', '']
    for entry in data.entries:
        lines += entry_lines(entry)
    lines += ['STATUSES', '']
    for status in data.statuses.values():
        lines += status_line(status)
    lines += ['', 'KEYWORDS', '']
    for word, means in data.keywords.items():
        lines += wrapped(f'{word:<10}', means)
    lines += ['', 'NOT IN THIS LANGUAGE', '']
    for missing in data.missing:
        lines += missing_lines(missing)
    return lines[:-1]
