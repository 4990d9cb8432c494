"""What the program hp_why finds of a contract, as it writes it: lines of words between tabs; and what a certificate says."""
import dataclasses
import itertools

GATES = ('const', 'var', 'not', 'and', 'or', 'xor', 'ite')
ROWS = ('register', 'early', 'control', 'late')


@dataclasses.dataclass
class Text:
    """An expression of the source: its place, the offset behind it, and its words."""
    line: int
    column: int
    end: int
    words: str

    @property
    def place(self):
        return f'{self.line}:{self.column}'


@dataclasses.dataclass
class Slot:
    """A value of the game: the variables from `first` on are its bits."""
    row: str
    kind: str
    first: int
    width: int
    text: Text
    values: list
    # of an output of a call: the node, the name of the output there, whether the node has a contract, and what this assumes
    node: str = ''
    output: str = ''
    has_contract: bool = False
    assumes: Text = None
    # of what was at the instant before: whether there was such an instant
    past: object = None
    # of the state of an automaton: each transition with its kind, the state in which it stands, and the one to which it leads
    moves: list = dataclasses.field(default_factory=list)

    @property
    def label(self):
        return self.text.words

    @property
    def quoted(self):
        """The words of a comparison between quotes; of one in the contract of a called node all that it is called."""
        return f'{self.label.partition("`@")[0].rstrip("`")}`' if self.label.startswith('`') else self.label

    @property
    def variables(self):
        return range(self.first, self.first + self.width)

    def number(self, bits):
        """The number of the value, where the variables of the machine have these values."""
        return int(''.join('1' if bits[it] else '0' for it in self.variables) or '0', 2)

    def is_none_yet(self, bits):
        """Whether there was nothing before."""
        return self.past is not None and not self.past.number(bits)

    def value(self, bits):
        number = self.number(bits)
        return self.values[number] if number < len(self.values) else 'no value'

    def bits(self, number):
        """The bits of the value of this number, by variable."""
        return {it: bool(number >> (self.width - 1 - at) & 1) for at, it in enumerate(self.variables)}


@dataclasses.dataclass
class Part:
    """A part of the guarantee: gates of the same variables, of which one says whether it holds, and whether it does at the last instant."""
    text: Text
    holds: bool
    gates: list = dataclasses.field(default_factory=list)
    root: int = 0


@dataclasses.dataclass
class Instant:
    """The values of all variables, and of registers and early ones whether they may as well differ."""
    values: list
    free: list

    def may_differ(self, slot):
        return all(self.free[it] for it in slot.variables)


@dataclasses.dataclass
class Because:
    """A truth value that matters at the last instant, and its equation, if it has one."""
    name: str
    value: str
    text: Text = None


class Facts:
    """All that is found: the machine of the contract, its slots, and of a lost one a shortest play."""

    def __init__(self, text):
        self.gates, self.next, self.roots = [], [], {}
        self.slots, self.parts, self.instants, self.because = [], [], [], []
        self.init, self.assume, self.enforce = [], None, None
        for line in text.split('\n')[:-1]:
            self.add(*line.split('\t'))
        self.shorten()

    def shorten(self):
        """What is told of slots together: whether there was something before, of which automaton it is, and a comparison whose words stand once without its place."""
        for it, behind in itertools.pairwise(self.slots):
            if (it.kind, behind.kind) == ('previous', 'past') and it.text.place == behind.text.place:
                it.past = behind
            if (it.kind, behind.kind) == ('state', 'afresh'):
                behind.text.words = f'{it.label} to be entered afresh'
        found = [it for it in self.slots if it.kind == 'comparison']
        for it in found:
            if sum(it.quoted == other.quoted for other in found) == 1:
                it.text.words = it.quoted

    def add(self, kind, *words):
        if kind in GATES:
            (self.parts[-1].gates if self.parts else self.gates).append((kind, *map(int, words)))
        elif kind in ROWS:
            line, column, end = map(int, words[3:6])
            self.slots.append(Slot(kind, words[0], int(words[1]), int(words[2]), Text(line, column, end, words[6]), list(words[7:])))
        else:
            getattr(self, f'add_{kind}')(*words)

    def add_vars(self, *counts):
        self.counts = list(map(int, counts))

    def add_init(self, bits=''):
        self.init = truths(bits)

    def add_next(self, *gates):
        self.next = list(map(int, gates))

    def add_valid(self, gate):
        self.roots['valid'] = int(gate)

    def add_hyp(self, gate):
        self.roots['hyp'] = int(gate)

    def add_duty(self, gate):
        self.roots['duty'] = int(gate)

    def add_of(self, node, output, contract='', *assumes):
        it = self.slots[-1]
        it.node, it.output, it.has_contract, it.assumes = node, output, bool(contract), text_of(assumes)

    def add_strong(self, source, target, *text):
        self.slots[-1].moves.append(('strong', source, target, text_of(text)))

    def add_weak(self, source, target, *text):
        self.slots[-1].moves.append(('weak', source, target, text_of(text)))

    def add_assume(self, *text):
        self.assume = text_of(text)

    def add_enforce(self, *text):
        self.enforce = text_of(text)

    def add_instant(self, values='', free=''):
        self.instants.append(Instant(truths(values), truths(free)))

    def add_part(self, line, column, end, words, holds):
        self.parts.append(Part(text_of((line, column, end, words)), holds == '1'))

    def add_holds(self, gate):
        self.parts[-1].root = int(gate)

    def add_because(self, name, value, *text):
        self.because.append(Because(name, value, text_of(text)))

    def row(self, name):
        return [it for it in self.slots if it.row == name]


class Certificate:
    """The functions of a certificate: of each number above 1 its variable and the functions where this is false and where it is true."""

    def __init__(self, text):
        self.nodes, self.ranks, self.functions, self.kept, self.kind = {}, [], [], 0, ''
        for line in text.split('\n'):
            kind, *words = line.split(' ')
            if kind == 'd':
                number, *node = map(int, words)
                self.nodes[number] = tuple(node)
            elif kind == 'rank':
                self.ranks.append(int(words[1]))
            elif kind == 'fun':
                self.functions.append(int(words[0]))
            elif kind == 'inv':
                self.kept = int(words[0])
            elif kind == 'kind':
                self.kind = words[0]

    def below(self, root):
        """The numbers of the functions that a function is made of, children first."""
        wanted, todo = set(), [root]
        while todo:
            number = todo.pop()
            if number > 1 and number not in wanted:
                wanted.add(number)
                todo += self.nodes[number][1:]
        return sorted(wanted)


def truths(bits):
    return [it == '1' for it in bits]


def text_of(words):
    return Text(int(words[0]), int(words[1]), int(words[2]), words[3]) if words else None
