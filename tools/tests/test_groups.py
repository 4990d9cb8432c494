"""Groups of choices over small games, held against plain enumeration of all states, choices and answers."""
import itertools
import random
import unittest

from . import TOOLS  # noqa: F401 (no bytecode is written)
from heptools.facts import Certificate, Facts, Instant
from heptools.groups import Game
from heptools.tables import Covering

REGISTERS, EARLY, CONTROLS, LATES = 3, 2, 3, 2
COUNT = REGISTERS + EARLY + CONTROLS + LATES


class Small:
    """A machine of gates at random: what is supposed, two parts of a guarantee, and the next state. The first two controls are a value of three."""

    def __init__(self, seed):
        self.random = random.Random(seed)
        self.gates = [('var', it) for it in range(COUNT)] + [('const', 1)]
        for _ in range(30):
            self.gates.append(self.gate())
        self.late = len(self.gates)
        a, b = REGISTERS + EARLY, REGISTERS + EARLY + 1
        self.gates += [('and', a, b), ('not', self.late)]
        self.valid = len(self.gates) - 1
        pick = lambda: self.random.randrange(COUNT, self.late)
        self.next = [pick() for _ in range(REGISTERS)]
        self.gates += [('or', pick(), pick()), ('or', pick(), pick()), ('or', pick(), pick())]
        self.hyp, self.one, self.other = range(len(self.gates) - 3, len(self.gates))
        self.gates.append(('and', self.one, self.other))
        self.duty = len(self.gates) - 1

    def gate(self):
        kind = self.random.choice(['not', 'and', 'or', 'xor', 'ite'])
        return (kind, *(self.random.randrange(len(self.gates)) for _ in range({'not': 1, 'ite': 3}.get(kind, 2))))

    def values(self, bits):
        done = []
        for kind, i, *more in self.gates:
            read = [done[it] for it in ([i, *more] if kind not in ('var', 'const') else [])]
            done.append({'var': lambda: bits[i], 'const': lambda: bool(i), 'not': lambda: not read[0], 'and': lambda: read[0] and read[1], 'or': lambda: read[0] or read[1],
                         'xor': lambda: read[0] != read[1], 'ite': lambda: read[1] if read[0] else read[2]}[kind]())
        return done

    def solve(self):
        """Of each state and early values the outcomes of choices and answers; and the states from which a violation is forced, by rank."""
        truths = (False, True)
        self.outcomes = {}
        for state in itertools.product(truths, repeat=REGISTERS):
            for early in itertools.product(truths, repeat=EARLY):
                found = self.outcomes[state, early] = {}
                for choice in itertools.product(truths, repeat=CONTROLS):
                    for late in itertools.product(truths, repeat=LATES):
                        done = self.values([*state, *early, *choice, *late])
                        if done[self.valid]:
                            found.setdefault(choice, {})[late] = done[self.hyp], done[self.duty], tuple(done[it] for it in self.next)
        ranks = [set()]
        while True:
            more = {state for state, early in self.outcomes if self.forced(state, early, ranks[-1])}
            if more == ranks[-1]:
                return ranks
            ranks.append(more)

    def forced(self, state, early, below):
        return all(any(hyp and (not duty or after in below) for hyp, duty, after in answers.values()) for answers in self.outcomes[state, early].values())

    def facts(self, lines):
        rows = [f'register\tlast\t{it}\t1\t1\t1\t2\tr{it}\tfalse\ttrue' for it in range(REGISTERS)]
        rows += [f'early\tinput\t{REGISTERS + it}\t1\t1\t1\t2\tu{it}\tfalse\ttrue' for it in range(EARLY)]
        first = REGISTERS + EARLY
        rows += [f'control\tcontrol\t{first}\t2\t1\t1\t2\tc\tA\tB\tC', f'control\tcontrol\t{first + 2}\t1\t1\t1\t2\td\tfalse\ttrue']
        rows += [f'late\tcomparison\t{first + CONTROLS + it}\t1\t1\t1\t2\tw{it}\tfalse\ttrue' for it in range(LATES)]
        gates = ['\t'.join(map(str, it)) for it in self.gates]
        words = [f'vars\t{REGISTERS}\t{EARLY}\t{CONTROLS}\t{LATES}', *gates, 'next\t' + '\t'.join(map(str, self.next)),
                 f'valid\t{self.valid}', f'hyp\t{self.hyp}', f'duty\t{self.duty}', *rows, *lines]
        for name, root in (('one', self.one), ('other', self.other)):
            words += [f'part\t1\t1\t2\t{name}\t1', *gates, f'holds\t{root}']
        return Facts('\n'.join(words) + '\n')


def certificate_of(ranks):
    """A certificate with these ranks, as trees."""
    lines = []

    def tree(states, depth):
        if depth == REGISTERS:
            return int(bool(states))
        ways = [tree({it for it in states if it[depth] == value}, depth + 1) for value in (False, True)]
        if ways[0] == ways[1]:
            return ways[0]
        lines.append(f'd {len(lines) + 2} {depth} {ways[0]} {ways[1]}')
        return len(lines) + 1

    told = [f'rank {at} {tree(states, 0)}' for at, states in enumerate(ranks[1:], 1)]
    return Certificate('\n'.join(lines + told))


def bits_of(table, count):
    return [it for it in range(1 << count) if table >> it & 1]


class Groups(unittest.TestCase):
    def test_groups_are_whole_and_each_answer_serves(self):
        games = kinds = 0
        for seed in range(60):
            small = Small(seed)
            ranks = small.solve()
            certificate = certificate_of(ranks)
            for at in range(1, len(ranks)):
                state = min(ranks[at] - ranks[at - 1])
                early = next(it for it in itertools.product((False, True), repeat=EARLY) if small.forced(state, it, ranks[at - 1]))
                choice, answers = next(iter(small.outcomes[state, early].items()))
                late = next(it for it, (hyp, duty, after) in answers.items() if hyp and (not duty or after in ranks[at - 1]))
                facts = small.facts([])
                facts.instants = [Instant([*state, *early, *choice, *late], [False] * (REGISTERS + EARLY))] * at
                game = Game(facts, certificate, 0)
                groups, is_whole = game.groups()
                self.assertTrue(is_whole and groups[0].is_shown, seed)
                self.held_against(small, game, groups, state, early, ranks[at - 1])
                games, kinds = games + 1, kinds + len(groups)
        self.assertGreater(games, 30)
        self.assertGreater(kinds, games)

    def held_against(self, small, game, groups, state, early, below):
        seen = set()
        for group in groups:
            free = [it.first for it in game.lates if it not in group.late]
            for index in bits_of(group.choices, len(game.tables.opened)):
                values = game.tables.values_at(index)
                choice = tuple(values[REGISTERS + EARLY + it] for it in range(CONTROLS))
                late = tuple(values[it] if it in free else group.answer[it] for it in game.answers)
                hyp, duty, after = small.outcomes[state, early][choice][late]
                self.assertTrue(hyp and (not duty or after in below))
                done = small.values([*state, *early, *choice, *late])
                if group.reason.told.startswith('next') or 'every state' in group.reason.told:
                    self.assertTrue(duty)
                    for told in group.reason.told.removeprefix('next ').split(', ') if group.reason.told.startswith('next') else ():
                        name, value = told.split(' = ')
                        self.assertEqual(after[int(name[1:])], value == 'true')
                else:
                    self.assertFalse(done[small.one if group.reason.told == '`one` is false' else small.other])
                seen.add(choice)
        self.assertEqual(seen, set(small.outcomes[state, early]))

    def test_cubes_are_the_choices_of_a_group(self):
        for seed in range(40):
            small = Small(seed)
            ranks = small.solve()
            if len(ranks) < 2:
                continue
            state = min(ranks[1])
            early = next(it for it in itertools.product((False, True), repeat=EARLY) if small.forced(state, it, set()))
            facts = small.facts([])
            facts.instants = [Instant([*state, *early] + [False] * (CONTROLS + LATES), [False] * (REGISTERS + EARLY))]
            game = Game(facts, certificate_of(ranks), 0)
            choices = game.choices & game.tables.literal(REGISTERS + EARLY + 2, True)
            self.assertEqual(game.cubes(choices), 'd = true')
            self.assertEqual(game.cubes(game.choices & ~choices), 'd = false')

    def test_codes_that_are_no_values_do_not_count(self):
        """All states of three are in a set that has not the fourth code."""
        facts = Facts('register\tstate\t0\t2\t1\t1\t2\ta\tA\tB\tC\nregister\tlast\t2\t1\t1\t1\t2\tz\tfalse\ttrue\n')
        for lines, holds in (('d 2 1 1 0\nd 3 0 1 2\n', True), ('d 2 1 0 1\nd 3 0 1 2\n', False)):
            covering = Covering(Certificate(lines), 3, facts.slots)
            self.assertEqual(covering.holds({}), holds)
            self.assertTrue(covering.holds({0: False, 1: True}))


if __name__ == '__main__':
    unittest.main()
