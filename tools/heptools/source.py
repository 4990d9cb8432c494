"""A source text as people see it: its lines, the tokens at a place, and what an equation holds."""
import bisect
import collections
import itertools
import re
import unicodedata

TOKEN = re.compile(rb'[A-Za-z_][A-Za-z0-9_]*|[0-9]+|<=|>=|<>|->|=>|&&|\|\||\S')
TOKEN_OR_COMMENT = re.compile(rb'\(\*|' + TOKEN.pattern)
COMMENT_SIGN = re.compile(rb'\(\*|\*\)')
# what stands before an equation, and what ends the one that stands at a place
FIRST = {b';', b'let', b'do', b'in', b'reset', b'then', b'else'}
ENDS = {b'tel', b'end', b'until', b'unless', b'every', b'state', b'|', b'else', b'enforce', b'with', b'let', b'var'}


class Source:
    """The bytes of a file; lines and columns count from 1, columns in bytes."""

    def __init__(self, path, text):
        self.path, self.text = path, text
        self.starts = [0, *(it.end() for it in re.finditer(b'\n', text))]
        self.known = {}

    def line(self, number):
        if not 0 < number <= len(self.starts):
            return b''
        return self.text[self.starts[number - 1]:self.offset(number + 1, 1)].rstrip(b'\n')

    def offset(self, line, column):
        """The offset of a place; that of the end, where there is no such line."""
        return self.starts[line - 1] + column - 1 if 0 < line <= len(self.starts) else len(self.text)

    def place(self, offset):
        """The line and the column of a byte."""
        line = bisect.bisect_right(self.starts, offset)
        return line, offset - self.starts[line - 1] + 1

    def all_tokens(self):
        """All tokens with their offsets, looked for once."""
        if 'tokens' not in self.known:
            self.known['tokens'] = list(tokens(self.text))
        return self.known['tokens']

    def token(self, line, column):
        """The token that begins at the place; none at the end of a line."""
        found = TOKEN.match(self.line(line), max(column - 1, 0))
        return found.group().decode('latin-1') if found else ''

    def before(self, line, column):
        """The tokens before the place, the last thousand, in the text without its comments."""
        found = collections.deque(tokens(self.text[:self.offset(line, column)]), 1000)
        return [word.decode('latin-1') for word, _ in found]

    def is_end(self, line, column):
        """Whether nothing but blanks stands from the place on."""
        return not self.text[self.offset(line, column):].strip()

    def is_first(self, line, column):
        """Whether nothing but blanks stands before the place on its line."""
        return not self.line(line)[:column - 1].strip()

    def rest(self, line, column):
        """The tokens of the equation at the place, each with its line and column."""
        found, deep, start = [], 0, self.offset(line, column)
        for word, at in tokens(self.text[start:start + 20000]):
            deep += (word == b'(') - (word == b')')
            if deep < 0 or (deep == 0 and found and (word == b';' or word in ENDS)):
                break
            found.append((word.decode('latin-1'), *self.place(start + at)))
        return found

    def behind(self, line, column, name):
        """The place of the first token behind the place that is the name, before what may begin another declaration or equation."""
        start = self.offset(line, column)
        for word, at in itertools.islice(tokens(self.text[start:start + 20000]), 1, 400):
            if word == name.encode('latin-1', 'replace'):
                return self.place(start + at)
            if word in (b';', b'type', b'node', b'tel', b'let'):
                return None
        return None

    def heading(self, node):
        """The tokens of the text from the word `node` of this node on, each with its offset."""
        found = self.all_tokens()
        for i in range(len(found) - 1):
            if found[i][0] in (b'node', b'machine') and found[i + 1][0] == node.encode('latin-1', 'replace'):
                return found[i:]
        return []

    def definitions(self, node):
        """Where the equation of each name of the node begins that stands alone on its left side, the first of each name."""
        key = 'definitions', node
        if key not in self.known:
            found, self.known[key] = self.heading(node), {}
            for i in range(2, len(found) - 1):
                if found[i][0] == b'node':
                    break
                if found[i + 1][0] == b'=' and found[i - 1][0] in FIRST:
                    self.known[key].setdefault(found[i][0].decode('latin-1'), found[i][1])
        return self.known[key]

    def contract(self, node):
        """The place of the words of the node's contract: that of `enforce`, else of `contract`, if it has one."""
        place = None
        for word, at in self.heading(node)[1:]:
            if word == b'contract':
                place = at
            elif word == b'enforce':
                return self.place(at)
            elif word == b'node' or word == b'with' or (word in (b'let', b'var') and place is None):
                break
        return None if place is None else self.place(place)

    def nodes(self):
        """The names of the nodes, or of the machines of a text of machines."""
        found = [word for word, _ in self.all_tokens()]
        return [found[i + 1].decode('latin-1') for i in range(len(found) - 1)
                if found[i] in (b'node', b'machine') and re.fullmatch(rb'[a-z]\w*', found[i + 1])]

    def shown(self, line, column, width):
        """The line as it is shown, the columns before the place and the columns of the part at it."""
        text = self.line(line)
        before, part = text[:column - 1], text[column - 1:column - 1 + width]
        return visible(text), columns(visible(before)), max(columns(visible(part)), 1)


def read_source(path):
    with open(path, 'rb') as file:
        return Source(path, file.read(70_000_000))


def tokens(text):
    """The tokens of a text with their offsets; comments are left out, and one that does not end is the last token."""
    at = 0
    while True:
        found = TOKEN_OR_COMMENT.search(text, at)
        if found is None:
            return
        if found.group() == b'(*':
            at = comment_end(text, found.start())
            if at is None:
                yield b'(*', found.start()
                return
        else:
            yield found.group(), found.start()
            at = found.end()


def comment_end(text, start):
    """The offset behind the comment that begins here, if it ends."""
    deep = 0
    for found in COMMENT_SIGN.finditer(text, start):
        deep += 1 if found.group() == b'(*' else -1
        if deep == 0:
            return found.end()
    return None


def visible(text):
    """Bytes as text that shows on any terminal: a blank for a tab, a mark for what does not print."""
    return ''.join(c if c.isprintable() else ' ' if c == '\t' else '\N{REPLACEMENT CHARACTER}'
                   for c in text.rstrip(b'\r').decode('utf-8', 'replace'))


def columns(text):
    """How many columns of a terminal the text takes."""
    return sum(0 if unicodedata.combining(c) else 2 if unicodedata.east_asian_width(c) in 'WF' else 1 for c in text)
