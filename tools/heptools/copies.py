"""Changed copies of a node, behind its program."""
import itertools
import os
import re
import subprocess
import time

from . import program
from .facts import Certificate

MOST_TRIES = 6


class Copy:
    """A node of a program, of which copies can be changed."""

    def __init__(self, source, node, seconds=5.0):
        self.source, self.node = source, node
        self.words = source.heading(node)
        behind = next((at for word, at in self.words[1:] if word in (b'node', b'type')), len(source.text))
        self.start, self.stop = (self.words[0][1] if self.words else 0), behind
        self.words = [it for it in self.words if it[1] < behind]
        # (no name of the text begins so)
        self.name = next(it for it in (f'tried{at}' for at in itertools.count(1)) if it.encode() not in source.text)
        self.tries, self.end = 0, time.monotonic() + seconds

    def span(self, text):
        """The offsets of an expression, if it stands in the node itself."""
        start = self.source.offset(text.line, text.column)
        return (start, text.end) if self.start <= start < text.end <= self.stop else None

    def inputs(self):
        """The names of the inputs."""
        found, names = [], []
        for word, _ in self.words[3:]:
            if word == b')':
                break
            found.append(word.decode('latin-1'))
        for at, word in enumerate(found):
            if re.fullmatch(r'[a-z]\w*', word) and (at == 0 or found[at - 1] in (',', ';')):
                names.append(word)
        return names

    def changed(self, changes, inputs=()):
        """The program with a copy of the node in which offsets have other texts, and which has further truth values as inputs."""
        changes = [(self.words[1][1], self.words[1][1] + len(self.words[1][0]), self.name), *changes]
        if inputs:
            more = ', '.join(inputs) + ' : bool' + ('' if self.words[3][0] == b')' else '; ')
            changes.append((self.words[3][1], self.words[3][1], more))
        text, at = [self.source.text, b'\n'], self.start
        for start, end, new in sorted(changes):
            text += [self.source.text[at:start], new.encode()]
            at = end
        return b''.join([*text, self.source.text[at:self.stop], b'\n'])

    def types(self):
        """The types of the names that are declared in the node, by name."""
        found, names = {}, []
        words = [it.decode('latin-1') for it, _ in self.words]
        for at, word in enumerate(words[:-1]):
            if word == ':' and names:
                found.update((it, words[at + 1]) for it in names if it not in found)
            if word not in (',', 'last') and not (re.fullmatch(r'[a-z]\w*', word) and word not in ('var', 'with', 'returns')):
                names = []
            elif word not in (',', 'last', 'var', 'with', 'returns'):
                names.append(word)
        return found

    def showing(self, shown):
        """The program with a copy of the node that has further outputs: of each its name, its type and what it is."""
        words = [it for it, _ in self.words]
        behind = words.index(b')', words.index(b'returns'))
        last = len(words) - 1 - words[::-1].index(b'tel')
        named = ''.join(f'; {name} : {kind}' for name, kind, _ in shown)
        equations = '' if words[last - 1] in (b';', b'let') else ';'
        equations += ''.join(f' {name} = {it};' for name, _, it in shown) + ' '
        return self.changed([(self.words[behind][1], self.words[behind][1], named), (self.words[last][1], self.words[last][1], equations)])

    def solved(self, text, folder):
        """The certificate of the copy and the file in which it stands; none where the copy is refused, or too much was tried."""
        self.tries += 1
        left = self.end - time.monotonic()
        if self.tries > MOST_TRIES or left <= 0:
            return None, None
        path, cert = os.path.join(folder, f'{self.tries}.ept'), os.path.join(folder, f'{self.tries}.cert')
        with open(path, 'wb') as file:
            file.write(text)
        try:
            done = program.call(['prove', path, self.name, cert], timeout=left)
        except subprocess.TimeoutExpired:
            return None, path
        if done.returncode or not os.path.exists(cert):
            return None, path
        with open(cert, encoding='ascii') as file:
            return Certificate(file.read()), path

    def is_kept(self, text, folder):
        found, _ = self.solved(text, folder)
        return found is not None and found.kind == 'win'
