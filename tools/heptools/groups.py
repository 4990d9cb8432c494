"""Why no choice helps at an instant: the choices in groups, each with an answer of the surroundings that serves them all, and a reason."""
import dataclasses
import itertools

from .tables import Covering, Tables, first

# how many variables may be open, how many answers are tried one by one, how many groups are sought, and how many cubes of a group are told
MOST_OPEN, MOST_ANSWERS, MOST_GROUPS, MOST_CUBES, MOST_TRIES = 16, 64, 64, 4, 2000


@dataclasses.dataclass
class Reason:
    """Where a violation comes at once by what is told, or, where that is not said yet, a state comes from which it is forced."""
    told: str
    table: int


@dataclasses.dataclass
class Group:
    """Choices that an answer serves."""
    choices: int
    answer: dict
    reason: Reason
    # which slots of the answer matter
    late: list
    is_shown: bool = False


class Game:
    """The game at one instant: its state and what is known early have the values of the play, choices and answers are open."""

    def __init__(self, facts, certificate, place):
        self.facts, self.instant = facts, facts.instants[place]
        self.controls, self.lates, self.registers = facts.row('control'), facts.row('late'), facts.row('register')
        self.answers = [it for slot in self.lates for it in slot.variables]
        opened = self.answers + [it for slot in self.controls for it in slot.variables]
        self.tables = Tables(self.instant.values, opened)
        self.left = len(facts.instants) - 1 - place
        roots = facts.roots['valid'], facts.roots['hyp'], facts.roots['duty'], *facts.next
        valid, hyp, duty, *self.next = self.tables.gates(facts.gates, roots)
        self.certificate, self.rank = certificate, certificate.ranks[self.left - 1] if self.left else 0
        self.choices = self.tables.some(self.answers, valid)
        self.violated = valid & hyp & ~duty
        self.all_violated = not valid & hyp & duty
        self.led = valid & hyp & duty & self.tables.diagram(certificate, self.rank, self.next)
        self.reasons = self.violations()

    def violations(self):
        """Of each part of the guarantee where it is false, and where an assumption is that is owed."""
        if not self.violated:
            return []
        found, rest = [], self.violated
        for part in self.facts.parts:
            holds, = self.tables.gates(part.gates, [part.root])
            found.append(Reason(f'`{part.text.words}` is false', self.violated & ~holds))
            rest &= holds
        found.append(Reason(assumptions(self.facts), rest))
        return [it for it in found if it.table]

    def served(self, table, answer):
        """The choices that an answer serves."""
        return self.tables.where(answer, table) & self.choices

    def all_answers(self, left):
        """The answers that are tried while these choices are left."""
        if 1 << len(self.answers) <= MOST_ANSWERS:
            every = itertools.product([False, True], repeat=len(self.answers))
            yield from (dict(zip(reversed(self.answers), it)) for it in every)
            return
        table = (self.violated | self.led) & left
        for _ in range(MOST_ANSWERS):
            if not table:
                return
            place = self.tables.values_at(first(table))
            answer = {it: place[it] for it in self.answers}
            yield answer
            table &= ~self.tables.where(answer, table)

    def state_at(self, answer, place):
        """What matters of the state to which an answer and the choice at a place of the tables lead, and where such a state comes."""
        index = sum(1 << at for at, it in enumerate(self.tables.opened) if (answer[it] if it in answer else place >> at & 1))
        state = [bool(it >> index & 1) for it in self.next]
        covering = Covering(self.certificate, self.rank, self.registers)
        kept = [it for it in self.registers if it.width]
        for slot in sorted(kept, key=lambda it: (it.kind not in ('past', 'afresh'), it.first)):
            others = [it for it in kept if it is not slot]
            if covering.holds({at: state[at] for it in others for at in it.variables}):
                kept = others
        table = self.led
        for it in kept:
            for at in it.variables:
                table &= self.next[at] if state[at] else ~self.next[at]
        told = [valued(it, state) for it in kept if it.kind != 'past']
        return Reason('next ' + ', '.join(told) if told else 'so it is in every state that can come', table)

    def candidates(self, left):
        """Groups of which at least one choice is left."""
        for answer in self.all_answers(left):
            for reason in self.reasons:
                choices = self.served(reason.table, answer)
                if choices & left:
                    yield choices, answer, reason
            there = self.served(self.led, answer) & left
            if there:
                reason = self.state_at(answer, first(there))
                yield self.served(reason.table, answer), answer, reason

    def late_of(self, choices, answer, reason):
        """The slots of an answer that matter: by any other value of one that does not, with the others that do not, the choices are served too."""
        kept, table = [], reason.table
        for slot in reversed(self.lates):
            ways = [self.tables.where(slot.bits(it), table) for it in range(len(slot.values))]
            every = self.tables.full
            for it in ways:
                every &= it
            others = {at: answer[at] for it in self.lates if it is not slot and (it in kept or it.first < slot.first) for at in it.variables}
            if choices & ~self.tables.where(others, every):
                kept.append(slot)
            else:
                table = every
        return kept[::-1]

    def group(self, choices, answer, reason, is_shown=False):
        return Group(choices, answer, reason, self.late_of(choices, answer, reason), is_shown)

    def shown(self):
        """The group of the choice that the play takes, with its answer."""
        answer = {it: self.instant.values[it] for it in self.answers}
        here = self.tables.full
        for slot in self.controls:
            here &= self.cube({at: self.instant.values[at] for at in slot.variables})
        there = here & self.choices
        for reason in self.reasons:
            if self.served(reason.table, answer) & there:
                return self.group(self.served(reason.table, answer), answer, reason, True)
        if not self.served(self.led, answer) & there:
            return None
        reason = self.state_at(answer, first(there))
        return self.group(self.served(reason.table, answer), answer, reason, True)

    def groups(self):
        """The groups, that of the play first, and whether they are all."""
        shown = self.shown()
        if shown is None:
            return [], False
        found, left = [shown], self.choices & ~shown.choices
        while left and len(found) < MOST_GROUPS:
            best = max(self.candidates(left), key=lambda it: (it[0] & left).bit_count(), default=None)
            if best is None:
                return found, False
            found.append(self.group(*best))
            left &= ~best[0]
        return found, not left

    # --- words

    def cube(self, values):
        table = self.tables.full
        for at, value in values.items():
            table &= self.tables.literal(at, value)
        return table

    def widest(self, choices, place):
        """The slots that matter of the choice at a place: all with these values are among the choices."""
        values = self.tables.values_at(place)
        kept = list(self.controls)
        for slot in reversed(self.controls):
            others = [it for it in kept if it is not slot]
            if not self.cube({at: values[at] for it in others for at in it.variables}) & self.choices & ~choices:
                kept = others
        return kept, values

    def cubes(self, choices):
        """The choices in words: at most so many cubes, else one and how many more choices there are."""
        told, left = [], choices
        while left and len(told) < MOST_CUBES:
            kept, values = self.widest(choices, first(left))
            told.append(', '.join(valued(it, values) for it in kept))
            left &= ~self.cube({at: values[at] for it in kept for at in it.variables})
        if left:
            kept, values = self.widest(choices, first(choices))
            more = (choices & ~self.cube({at: values[at] for it in kept for at in it.variables})).bit_count() >> len(self.answers)
            return f'{told[0]} (and {more} choices more)'
        return ' or '.join(told)

    def by_rule(self):
        """Each answer as constant, as one control or as its opposite, so that all choices are served at once; none where that is not found."""
        if not all(it.width == 1 for it in self.lates + self.controls):
            return None
        tries = itertools.count()

        def found(table, slots):
            if self.choices & ~self.tables.some(self.answers, table) or next(tries) > MOST_TRIES:
                return None
            if not slots:
                return []
            late, *rest = slots
            ways = [('false', 0), ('true', self.tables.full)]
            for it in self.controls:
                ways += [(it.label, self.tables.variables[it.first]), (f'not {it.label}', self.tables.full & ~self.tables.variables[it.first])]
            for told, way in ways:
                here = table & ~(self.tables.variables[late.first] ^ way)
                behind = found(here, rest)
                if behind is not None:
                    return [f'{late.label} taken as {told}', *behind]
            return None

        return found(self.violated | self.led, self.lates)


def valued(slot, bits):
    """A slot with its value."""
    if slot.kind == 'afresh':
        return slot.label if slot.number(bits) else 'not ' + slot.label
    if slot.is_none_yet(bits):
        return f'{slot.label}: none yet'
    between = {'state': ' in ', 'comparison': ' taken as ', 'output': ' taken as '}.get(slot.kind, ' = ')
    return slot.label + between + slot.value(bits)


def assumptions(facts):
    """That the assumption of a node that is called is false; where several are called, of one of them."""
    told = {(it.node, it.text.place): f'`{it.assumes.words}` of {it.node} (call at {it.text.place})' for it in facts.slots if it.assumes}
    return f'the assumption {" or ".join(told.values())} is false' if told else 'the guarantee is false'


def game_at(facts, certificate, place):
    """The game at an instant; none where nothing is open, where too much is, or where nothing is known of what comes."""
    opened = sum(it.width for it in facts.row('control') + facts.row('late'))
    if not 0 < opened <= MOST_OPEN or certificate is None:
        return None
    return Game(facts, certificate, place)
