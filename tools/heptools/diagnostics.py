"""The data of docs/diagnostics.toml, and which of its entries a line of diagnostics is."""
import os
import re

from .ending import Wrong
from .program import HOME

try:
    import tomllib
except ImportError:
    tomllib = None

# what stands for a word of a line
WORDS = {'PLACE': r'\d+:\d+', 'WHERE': r'\d+:\d+|-|[a-z]\w*', 'POINTS': r'\S+@\d+:\d+(?: \S+@\d+:\d+)+', 'N': r'\d+', 'K': r'\d+',
         'FOUND': r'\d+', 'NUMBER': r'\d+', 'LIMIT': r'\d+', 'LINE': r'\d+', 'WORD': r'\d+', 'NAME': r'[A-Za-z]\w*', 'NODE': r'[a-z]\w*',
         'WANTED': r'row:\d+|[a-z]\w*', 'GOT': r'row:\d+|[a-z]\w*'}


class Entry:
    """A diagnostic: its data, and the pattern of its line."""

    def __init__(self, data):
        self.data = data
        self.code, self.word = data['code'], data.get('word', '')
        parts = [f'(?P<{part}>{WORDS[part]})' if part in WORDS else re.escape(part) for part in data['form'].split(' ')]
        # the node of E12 is a word of the call, and may be any text
        self.pattern = re.compile(r'E12 (?P<NAME>.*)' if self.code == 'E12' else ' '.join(parts))

    def filled(self, text, words):
        """The text with the words of the line in it."""
        return re.sub(r'\{([A-Z]+)\}', lambda it: words.get(it.group(1), it.group(1)), text)


class Data:
    """All entries of the file."""

    def __init__(self, data):
        self.entries = [Entry(it) for it in data['diagnostic']]
        self.statuses = {it['number']: it for it in data['status']}
        self.keywords = {it['word']: it['means'] for it in data['keyword']}
        self.missing = data['missing']
        self.commands = data['command']

    def find(self, line):
        """The entry of a line of diagnostics, and the words of the line; nothing where it is none."""
        for entry in self.entries:
            found = entry.pattern.fullmatch(line)
            if found:
                return entry, found.groupdict()
        return None

    def of_code(self, code):
        return [it for it in self.entries if it.code == code]


def places():
    yield os.path.join(HOME, 'diagnostics.toml')
    yield os.path.join(os.path.dirname(HOME), 'docs', 'diagnostics.toml')


def load():
    """The data, from beside the installed tools or from docs/."""
    if tomllib is None:
        raise Wrong('Python 3.11 or later is needed', 70)
    for place in places():
        if os.path.isfile(place):
            try:
                with open(place, 'rb') as file:
                    return Data(tomllib.load(file))
            except (tomllib.TOMLDecodeError, UnicodeDecodeError, KeyError) as error:
                raise Wrong(f'{place} is damaged: {error}', 70) from error
    raise Wrong('diagnostics.toml is not there', 70)


def text_of(value):
    """A text of an example: it, or its pieces behind each other."""
    if isinstance(value, str):
        return value
    return ''.join(piece_text(it) for it in value)


def piece_text(piece):
    if isinstance(piece, str):
        return piece
    if 'each' in piece:
        parts = (piece['each'].replace('{k}', str(k)).replace('{j}', str(k - 1)) for k in range(piece['from'], piece['to'] + 1))
        return piece.get('between', '').join(parts)
    return piece['text'] * piece['times']
