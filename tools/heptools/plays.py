"""A shortest play of a lost contract, and what the variables of a certificate stand for, in words."""
import re

from .groups import assumptions, game_at, valued

# columns of a line that can be broken, and where it goes on
COLUMNS, INDENT = 100, 11
# registers of an instant that are told; instants of a play that are told one by one, and how many at both ends of a longer one; groups of choices
SHOWN, WHOLE, ENDS, LINES = 8, 20, 3, 18


class Page:
    """Lines, of which those of an instant begin with a word."""

    def __init__(self):
        self.lines = []

    def add(self, line=''):
        self.lines.append(line)

    def entry(self, word, *items):
        """A line of an instant, broken behind commas where it is long."""
        line = '  ' + word.ljust(INDENT - 2)
        for at, piece in enumerate(re.split('(?<=[,;]) ', ', '.join(items))):
            if at and len(line) + len(piece) >= COLUMNS:
                self.add(line)
                line = ' ' * INDENT
            elif at:
                line += ' '
            line += piece
        self.add(line.rstrip())

    def text(self):
        return ''.join(it + '\n' for it in self.lines)


class Play:
    """A play; `all` tells all of it."""

    def __init__(self, facts, certificate, node, everything):
        self.facts, self.node, self.everything, self.page = facts, node, everything, Page()
        count = len(facts.instants)
        self.told = [it for it in range(count) if everything or count <= WHOLE or it < ENDS or it >= count - ENDS]
        self.games = {it: game_at(facts, certificate, it) for it in self.told}
        self.groups = {it: game.groups() if game else ([], False) for it, game in self.games.items()}

    def text(self):
        count, controls = len(self.facts.instants), self.facts.row('control')
        how = 'whatever is chosen' if controls else 'there being nothing to choose'
        self.page.add(f'{self.node}: a violation of the contract is forced in {count} instant{"s" * (count > 1)}, {how}.')
        self.add_free_places()
        for place in range(count):
            if place in self.told:
                self.add_instant(place)
            elif place == ENDS:
                self.add_between(place, count - ENDS)
        self.add_violated()
        if re.search(r'\w#\d', self.page.text()):
            self.page.add()
            self.page.add('(A name with # and a number is that of a variable of an inlined call.)')
        return self.page.text()

    # --- what is free

    def matters(self, slot):
        """Whether a value beside the inputs matters at an instant that is told."""
        if slot.row == 'early':
            return any(not self.is_free(slot, self.facts.instants[it]) for it in self.told)
        return any(slot in self.late_at(it) for it in self.told)

    def late_at(self, place):
        """The late values of an instant that matter."""
        found, is_whole = self.groups[place]
        if not is_whole or len(found) > LINES:
            return self.facts.row('late')
        return [it for it in self.facts.row('late') if any(it in group.late for group in found)]

    def add_free_places(self):
        places = [it for it in self.facts.row('early') + self.facts.row('late') if it.kind != 'input' and self.matters(it)]
        if not places:
            return
        self.page.add()
        self.page.add('free beside the inputs (each by itself, at every instant anew)')
        for it in places:
            name, what = it.quoted, f'a comparison at {it.text.place}; true or false, whatever the integers are'
            if it.kind == 'output':
                promise = '; any value that its contract allows' if it.has_contract else ', which promises nothing; any value'
                name, what = it.label, f'output {it.output} of {it.node} at {it.text.place}{promise}'
            self.page.add(f'  {name}: {what}' + '; known after the choice' * (it.row == 'late'))

    @staticmethod
    def is_free(slot, instant):
        """Whether an early value is the first one and may as well be any other."""
        return slot.number(instant.values) == 0 and instant.may_differ(slot)

    # --- one instant

    def add_instant(self, place):
        instant, is_last = self.facts.instants[place], place == len(self.facts.instants) - 1
        self.page.add()
        self.page.add(f'instant {place + 1}' + ' (the last)' * is_last)
        self.add_state(place, instant)
        given = self.given(instant)
        if given:
            self.page.entry('given', given)
        self.add_choice(place, instant)
        if not is_last:
            self.add_moves(instant, self.facts.instants[place + 1])

    def is_told(self, slot, instant):
        if slot.kind == 'past' or not slot.width:
            return False
        if instant is self.facts.instants[0] and (slot.is_none_yet(instant.values) or slot.kind == 'previous'):
            return False
        if self.everything:
            return slot.kind != 'afresh' or slot.number(instant.values) != 0
        return not instant.may_differ(slot) and (slot.kind != 'afresh' or slot.number(instant.values) != 0)

    def add_state(self, place, instant):
        registers = self.facts.row('register')
        told = [valued(it, instant.values) for it in registers if self.is_told(it, instant)]
        if told:
            more = len(told) - SHOWN
            if more > 0 and not self.everything:
                told[SHOWN:] = [f'and {more} more']
            told[0] = 'at the start: ' * (place == 0) + told[0]
            self.page.entry('state', *told)
        elif place and all(instant.may_differ(it) for it in registers):
            self.page.entry('state', 'any: this can begin at every instant')

    def given(self, instant):
        """What is given, in words."""
        early = [it for it in self.facts.row('early') if it.width]
        told = ', '.join(valued(it, instant.values) for it in early if not self.is_free(it, instant))
        free = ', '.join(it.label for it in early if self.is_free(it, instant))
        return '; '.join(it for it in (told, free + ' as you like' if free else '') if it)

    def add_choice(self, place, instant):
        controls = [it for it in self.facts.row('control') if it.width]
        found, is_whole = self.groups[place]
        chosen = ', '.join(valued(it, instant.values) for it in controls)
        if not controls:
            self.page.entry('choice', 'nothing is left to choose')
        elif is_whole and len(found) == 1:
            self.page.entry('choice', f'whatever is chosen{self.answer(found[0])}: {found[0].reason.told}')
            self.page.entry('', f'(shown below: {chosen})')
        elif is_whole:
            self.add_groups(place, found, chosen)
        else:
            self.page.entry('choice', f'{chosen} (no other choice helps)')
        late = [valued(it, instant.values) for it in self.late_at(place) if it.width]
        if late and not (is_whole and controls):
            self.page.entry('then', *late)

    def answer(self, group):
        told = ', '.join(valued(it, group.answer) for it in group.late)
        return f' (then {told})' if told else ''

    def add_groups(self, place, found, chosen):
        game = self.games[place]
        rule = game.by_rule() if len(found) > 4 and not self.everything else None
        if rule:
            self.page.entry('choice', f'whatever is chosen, {", ".join(rule)}')
            self.page.entry('', f'(shown below: {chosen}{self.answer(found[0])})')
            return
        for at, group in enumerate(found if self.everything else found[:LINES]):
            told = f'{game.cubes(group.choices)}{self.answer(group)}: {group.reason.told}'
            self.page.entry('' if at else 'choice', ('* ' if group.is_shown else '- ') + told)
        if len(found) > LINES and not self.everything:
            self.page.entry('', f'and {len(found) - LINES} groups more (--all)')
        self.page.entry('', f'(* is shown below: {chosen})')

    def add_moves(self, instant, following):
        states = [it for it in self.facts.row('register') if it.kind == 'state' and it.value(instant.values) != it.value(following.values)]
        for at, slot in enumerate(states):
            source, target = slot.value(instant.values), slot.value(following.values)
            self.page.entry('' if at else 'moves', f'{slot.label} from {source} to {target}{by(slot.moves, source, target)}')

    def add_between(self, start, end):
        """What is given at the instants between two, by runs of the same."""
        runs = []
        for place in range(start, end):
            given = self.given(self.facts.instants[place])
            if runs and runs[-1][2] == given:
                runs[-1][1] = place
            else:
                runs.append([place, place, given])
        self.page.add()
        for first, last, given in runs[:WHOLE]:
            self.page.add(f'  {first + 1}' + (f' to {last + 1}' if last > first else '') + f': {given}')
        if len(runs) > WHOLE:
            self.page.add('  and so on (--all)')

    # --- the end

    def add_violated(self):
        found = [it for it in self.facts.parts if not it.holds]
        for it in found:
            self.page.entry('violated', f'`{it.text.words}` ({it.text.place}) is false')
        if not found:
            self.page.entry('violated', assumptions(self.facts))
        for at, it in enumerate(self.facts.because):
            equation = f'   {it.name} = {it.text.words} ({it.text.place})' if it.text else ''
            self.page.entry('' if at else 'because', f'{it.name} = {it.value}{equation}')
        kept = ['the assumption holds'] if self.facts.assume else []
        nodes = dict.fromkeys(it.node for it in self.facts.slots if it.has_contract)
        # (a node whose assumption is false owes nothing)
        kept += [f'the guarantee of {it} holds' for it in nodes if found]
        if kept:
            self.page.entry('while', *kept)


def by(moves, source, target):
    """By which conditions an automaton goes from one state to another in one instant: by a strong transition, a weak one, or one after the other."""
    strong = [it for it in moves if it[:2] == ('strong', source)]
    ways = [[it] for it in moves if it[1:3] == (source, target)]
    ways += [[one, other] for one in strong for other in moves if other[:3] == ('weak', one[2], target)]
    told = [' and then '.join(f'`{it[3].words}` ({it[3].place})' for it in way) for way in ways]
    return f' by {" or ".join(told)}' if told else ''


def legend(facts, node):
    """What the variables of a certificate stand for."""
    page = Page()
    page.add(f'{node}: the contract is kept. The variables of its certificate (vars {" ".join(map(str, facts.counts))}):')
    for it in facts.slots:
        if it.width:
            numbers = str(it.first) if it.width == 1 else f'{it.first}-{it.first + it.width - 1}'
            codes = ', '.join(f'{at:0{it.width}b} {name}' for at, name in enumerate(it.values)) if it.values != ['false', 'true'] else ''
            page.add(f'  {numbers}  {it.row:8}  {it.text.place}  {it.label}' + (f'  {codes}' if codes else ''))
    return page.text()
