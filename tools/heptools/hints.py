"""What may help where a contract is lost. That something helps is said only where the changed program was solved: a copy of the node with the change stands behind
the program, under a name of its own."""
import re
import subprocess
import tempfile

from . import program
from .facts import Facts
from .plays import WHOLE

MOST, MOST_CLAUSES, MOST_LITERALS = 3, 4, 4
BOUND = re.compile(r'([a-z]\w*) ?(<=|>=|<>|<|>|=) ?(-?\d+)')
TURNED = {'<': '>=', '<=': '>', '>': '<=', '>=': '<', '=': '<>', '<>': '='}


class Hints:
    """The hints of a play."""

    def __init__(self, facts, play, copy):
        self.facts, self.play, self.copy = facts, play, copy
        self.may_try = len(facts.instants) <= WHOLE and bool(self.copy.words)
        self.found = []

    def text(self):
        with tempfile.TemporaryDirectory(prefix='hept-why-') as self.folder:
            for kind in (self.same, self.bounds, self.computed, self.callees, self.promises, self.late, self.both, self.nothing, self.assumed, self.choose):
                if len(self.found) < MOST:
                    kind()
        if not self.found:
            return ''
        lines = ['', 'what may help']
        for it in self.found[:MOST]:
            lines += broken(it)
        return ''.join(it + '\n' for it in lines)

    def comparisons(self):
        return [it for it in self.facts.slots if it.kind == 'comparison' and self.copy.span(it.text)]

    @staticmethod
    def words(slot):
        return slot.quoted[1:-1]

    def with_inputs(self, slots):
        """The program in which comparisons are inputs; those of one text are one."""
        names = {}
        for it in slots:
            names.setdefault(self.words(it), f'{self.copy.name}_{len(names) + 1}')
        return self.copy.changed([(*self.copy.span(it.text), names[self.words(it)]) for it in slots], list(names.values()))

    def same(self):
        """One text at several places."""
        for words in dict.fromkeys(self.words(it) for it in self.comparisons()):
            slots = [it for it in self.comparisons() if self.words(it) == words]
            if len({it.text.place for it in slots}) < 2 or not any(self.play.matters(it) for it in slots):
                continue
            kept = self.may_try and self.copy.is_kept(self.with_inputs(slots), self.folder)
            if not kept and not any(len({it.value(at.values) for it in slots if self.counts(it, at)}) > 1 for at in self.facts.instants):
                continue
            contract = [self.in_contract(it) for it in slots]
            how = ' (as an output, since the contract and the body both read it)' if any(contract) and not all(contract) else ''
            self.found.append(f'`{words}` stands at {" and ".join(dict.fromkeys(it.text.place for it in slots))}: each occurrence is free by itself. Write it once and name it{how}.'
                              + ' Tried with equal values: then it is kept.' * kept)

    def in_contract(self, slot):
        ends = [it.end for it in (self.facts.assume, self.facts.enforce) if it]
        return slot.text.end <= max(ends, default=0)

    def counts(self, slot, instant):
        """Whether the value of a slot matters at an instant."""
        return slot.row == 'late' or not instant.may_differ(slot)

    def bounds(self):
        """Comparisons of an input with constants that no integer meets."""
        inputs = self.copy.inputs()
        for place, instant in enumerate(self.facts.instants):
            found = {}
            for it in self.comparisons():
                told = BOUND.fullmatch(self.words(it))
                if told and told[1] in inputs and self.counts(it, instant):
                    sign = told[2] if it.number(instant.values) else TURNED[told[2]]
                    found.setdefault(told[1], []).append((sign, int(told[3]), f'`{self.words(it)}` is taken as {it.value(instant.values)}'))
            for name, signs in found.items():
                if not any(all(meets(value, sign, bound) for sign, bound, _ in signs) for value in near(signs)):
                    told = ', '.join(dict.fromkeys(it[2] for it in signs))
                    self.found.append(f'No integer {name} does this: {told}, at instant {place + 1}. The game keeps no relation between comparisons, so this play is none of the program.')
                    return

    def computed(self):
        """A part that compares what is computed."""
        inputs = self.copy.inputs()
        for part in self.facts.parts:
            for it in [] if part.holds else self.comparisons():
                if self.is_in(it.text, part.text) and any(name not in inputs for name in names_in(self.words(it))):
                    self.found.append(f'`{self.words(it)}` ({it.text.place}) compares an integer that is computed, and integers are not computed in the game: enforce a truth value that the node computes.')
                    return

    def is_in(self, inner, outer):
        """Whether an expression stands in another one of the node."""
        (start, end), (first, last) = self.copy.span(inner) or (0, 0), self.copy.span(outer) or (0, 0)
        return first <= start < end <= last

    def callees(self):
        """Nodes that promise nothing."""
        for node in dict.fromkeys(it.node for it in self.facts.slots if it.kind == 'output' and not it.has_contract and self.play.matters(it)):
            places = dict.fromkeys(it.text.place for it in self.facts.slots if it.node == node)
            self.found.append(f'{node} has no contract, so that it may give any value (called at {" and ".join(places)}): give it one, or write `inlined` before the call.')

    def promises(self):
        """A node whose contract allows what serves all choices at the last instant."""
        groups, is_whole = self.play.groups[len(self.facts.instants) - 1]
        if not is_whole or len(groups) != 1:
            return
        for it in groups[0].late:
            if it.has_contract:
                self.found.append(f'The contract of {it.node} allows {it.label} = {it.value(groups[0].answer)} whatever is chosen (call at {it.text.place}): it has to promise more.')
                return

    def late(self):
        """Comparisons that are known too late."""
        inputs = self.copy.inputs()
        slots = [it for it in self.comparisons() if it.row == 'late' and self.play.matters(it) and all(name in inputs for name in names_in(self.words(it)))]
        if slots and self.may_try and self.copy.is_kept(self.with_inputs(slots), self.folder):
            told = ' and '.join(dict.fromkeys(f'`{self.words(it)}` ({it.text.place})' for it in slots))
            self.found.append(f'{told}: known only after the choice. Tried: known before, the contract would be kept. Let an equation of the body itself define it.')

    def both(self):
        """Several reasons at the last instant, where no answer keeps the contract."""
        last = len(self.facts.instants) - 1
        groups, is_whole = self.play.groups[last]
        told = list(dict.fromkeys(it.reason.told.removesuffix(' is false') for it in groups))
        if is_whole and len(told) > 1 and self.play.games[last].all_violated:
            self.found.append(f'At the last instant no choice keeps all of: {"; ".join(told)}. One has to give way, or the surroundings must not ask for it.')

    def nothing(self):
        """No choice changes anything on the play."""
        if self.facts.row('control') and all(is_whole and len(groups) == 1 and not groups[0].late for groups, is_whole in self.play.groups.values()):
            self.found.append('No choice changes anything on this play: let what is chosen reach what is violated, at this instant or before.')

    def assumed(self):
        """An assumption on the inputs of one instant: the weakest with which the contract is kept."""
        if not self.may_try:
            return
        asked = [literals(self.facts, it) for it in self.facts.instants]
        for it in sorted(asked, key=len, reverse=True):
            if 2 <= len(it) <= MOST_LITERALS:
                clauses = self.clauses(it)
                if clauses:
                    told = ' & '.join(clauses)
                    self.found.append(f'It would be enough that the surroundings keep `assume {told}`. Tried: then the contract is kept.')
                    return

    def clauses(self, first):
        """Clauses of an assumption with which the contract is kept, the first one of these literals; none where they are not found."""
        asked, clauses, left = first, [], 1.0
        # (what is left is a part of all inputs, or more: some have to be possible)
        while 2 <= len(asked) <= MOST_LITERALS and clause(asked) not in clauses and len(clauses) < MOST_CLAUSES and left > 0.5 ** len(asked):
            clauses.append(clause(asked))
            left -= 0.5 ** len(asked)
            found, path = self.copy.solved(self.assuming(clauses), self.folder)
            if found is None or found.kind == 'win':
                return clauses if found else None
            if len(self.facts.instants) > 1:
                return None
            done = subprocess.run([program.find_why(), path, self.copy.name], stdin=subprocess.DEVNULL, stdout=subprocess.PIPE, stderr=subprocess.PIPE)
            facts = Facts(done.stdout.decode('utf-8', 'replace'))
            if done.returncode or len(facts.instants) != 1:
                return None
            asked = literals(facts, facts.instants[0])
        return None

    def assuming(self, clauses):
        """The program in which the node assumes clauses too."""
        more = ' & '.join(clauses)
        if self.facts.assume:
            start, end = self.copy.span(self.facts.assume)
            return self.copy.changed([(start, start, f'({more}) & ('), (end, end, ')')])
        at = next((at for word, at in self.copy.words if word in (b'enforce', b'with')), None)
        return self.copy.changed([(at, at, f'assume {more} ')] if at is not None else [])

    def choose(self):
        if not self.facts.row('control'):
            self.found.append('Nothing can be chosen: where the program may hold something back, declare a controllable variable after `with`.')


def literals(facts, instant):
    """The inputs that matter at an instant, as a source text says that they have these values."""
    return [literal(it, instant.values) for it in facts.row('early') if it.kind == 'input' and it.width and not instant.may_differ(it)]


def names_in(words):
    return re.findall(r'\b[a-z]\w*', words)


def literal(slot, bits):
    if slot.values == ['false', 'true']:
        return slot.label if slot.number(bits) else f'not {slot.label}'
    return f'{slot.label} = {slot.value(bits)}'


def clause(literals):
    return f'not ({" & ".join(f"({it})" if " = " in it else it for it in literals)})'


def meets(value, sign, bound):
    return {'<': value < bound, '<=': value <= bound, '>': value > bound, '>=': value >= bound, '=': value == bound, '<>': value != bound}[sign]


def near(signs):
    """Numbers of which one meets bounds, if any number does."""
    every = {bound + more for _, bound, _ in signs for more in (-1, 0, 1)}
    return every | {min(every) - len(signs), max(every) + len(signs)}


def broken(text, columns=100):
    """A hint in lines."""
    lines, line = [], '  -'
    for word in text.split(' '):
        if len(line) + len(word) >= columns:
            lines.append(line)
            line = '   '
        line += ' ' + word
    return [*lines, line]
