"""Which choices are permitted at each line of a trace, of a contract that is kept. The run is that of `hept run`, over a copy of the node that shows what is chosen."""
import os
import re

from .copies import Copy
from .ending import Wrong
from .groups import MOST_OPEN
from .tables import Tables
from .traces import Run

PAST = re.compile(r'\b(?:fby|pre|last|inlined)\b|->|\w\s*\(')


class Choices:
    """A game that is won, line by line."""

    def __init__(self, facts, certificate, source, node):
        self.facts, self.certificate, self.copy = facts, certificate, Copy(source, node)
        self.controls = [it for it in facts.row('control') if it.width]
        if not self.controls:
            raise Wrong(f'nothing is chosen in {node}')
        self.answers = [at for it in facts.row('late') for at in it.variables]
        self.opened = self.answers + [at for it in self.controls for at in it.variables]
        if len(self.opened) > MOST_OPEN:
            raise Wrong(f'too much is open at an instant of {node}: {len(self.opened)} truth values, of at most {MOST_OPEN}')
        self.inputs = [it for it in facts.row('early') if it.kind == 'input']
        self.others = [it for it in facts.slots if it.kind in ('comparison', 'output')]

    def shown(self):
        """What the copy shows: a name of an output, its type, and what it is, of each slot that is no input."""
        types, found = self.copy.types(), []
        for it in self.controls + self.others:
            words = it.quoted[1:-1] if it.kind == 'comparison' else it.label
            if it.kind == 'comparison' and (PAST.search(words) or words.endswith('..')) or it.kind == 'output' and not re.fullmatch(r'[a-z]\w*', words):
                raise Wrong(f'the values of {it.label} are not known here')
            kind = 'bool' if it.values == ['false', 'true'] else types.get(words)
            if kind is None:
                raise Wrong(f'the type of {it.label} is not found')
            found.append((f'{self.copy.name}_{len(found)}', kind, words))
        return found

    def lines(self, stream, folder):
        """The lines that are told, one for each line of a trace."""
        path = os.path.join(folder, 'shown.ept')
        with open(path, 'wb') as file:
            file.write(self.copy.showing(self.shown()))
        try:
            run = Run(path, self.copy.name, False)
        except Wrong as wrong:
            raise Wrong(f'a value of {self.copy.node} is not known here: {wrong}', wrong.status) from None
        return self.told_of(run, stream)

    def told_of(self, run, stream):
        state = self.facts.init
        for number, words in enumerate(run.instants(stream), 1):
            words = [it.decode() if isinstance(it, bytes) else it for it in words]
            bits = [*state, *[False] * (sum(self.facts.counts) - len(state))]
            by_name = dict(zip([it.name for it in run.inputs], words))
            given = [(it, by_name[it.label]) for it in self.inputs if it.width]
            given += list(zip(self.controls + self.others, words[len(words) - len(self.controls + self.others):]))
            for slot, word in given:
                for at, bit in slot.bits(slot.values.index(word)).items():
                    bits[at] = bit
            told, state = self.told(bits)
            yield f'  line {number}: {told}\n'

    def told(self, bits):
        """What is chosen, and what of it was the only way; and the state behind."""
        tables = Tables(bits, self.opened)
        roots = self.facts.roots['valid'], self.facts.roots['hyp'], self.facts.roots['duty'], *self.facts.next
        valid, hyp, duty, *following = tables.gates(self.facts.gates, roots)
        bad = valid & hyp & ~(duty & tables.diagram(self.certificate, self.certificate.kept, following))
        left = tables.some(self.answers, valid) & ~tables.some(self.answers, bad)
        found = []
        for it in self.controls:
            ways = sum(1 for at in range(len(it.values)) if tables.where(it.bits(at), left))
            found.append(f'{it.label}={it.value(bits)}' + '!' * (ways == 1))
            left = tables.where(it.bits(it.number(bits)), left)
        index = sum(1 << at for at, it in enumerate(tables.opened) if bits[it])
        return ' '.join(found) + ('' if left else ' (nothing is permitted)'), [bool(it >> index & 1) for it in following]
