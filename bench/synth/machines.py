#!/usr/bin/env python3
"""Writes Boolean machines as lines (crates/hp_games/data/README.md), and what is to be found of them, by enumeration of all valuations.

machines.py small COUNT SEED MACHINES ANSWERS    random machines of at most 12 variables in all, and their answers: a third of them wins, and half of the others lose in more
                                                 than one instant
"""
import random
import sys


class Machine:
    def __init__(self, name, counts, widths, prefer):
        self.name, self.counts, self.widths, self.prefer = name, counts, widths, prefer
        self.gates, self.init, self.next = [], [], []
        self.valid = self.hyp = self.duty = 0

    def gate(self, *gate):
        self.gates.append(gate)
        return len(self.gates) - 1

    def lines(self):
        def row(word, items):
            return ' '.join([word] + [str(int(i)) for i in items])
        yield f'machine {self.name}'
        yield row('counts', self.counts)
        yield row('widths', self.widths)
        yield row('prefer', self.prefer)
        for gate in self.gates:
            yield row(gate[0], gate[1:])
        yield row('init', self.init)
        yield row('next', self.next)
        yield row('ends', (self.valid, self.hyp, self.duty))

    def values(self, variables):
        done = []
        for gate in self.gates:
            kind, args = gate[0], gate[1:]
            if kind == 'c':
                value = bool(args[0])
            elif kind == 'v':
                value = variables[args[0]]
            elif kind == 'n':
                value = not done[args[0]]
            elif kind == 'a':
                value = done[args[0]] and done[args[1]]
            elif kind == 'o':
                value = done[args[0]] or done[args[1]]
            elif kind == 'x':
                value = done[args[0]] != done[args[1]]
            else:
                value = done[args[1]] if done[args[0]] else done[args[2]]
            done.append(value)
        return done


def lists(n):
    return [tuple(bool((i >> (n - 1 - k)) & 1) for k in range(n)) for i in range(1 << n)]


class Game:
    """The game, from its definition: what is valid, forced, permitted and preferred."""

    def __init__(self, m):
        self.m = m
        r, e, c, l = m.counts
        self.states, self.earlies, self.controls, self.lates = lists(r), lists(e), lists(c), lists(l)
        self.table = {}
        for s in self.states:
            for u in self.earlies:
                for k in self.controls:
                    for w in self.lates:
                        v = m.values(s + u + k + w)
                        self.table[s, u, k, w] = (v[m.valid], v[m.hyp], v[m.duty], tuple(v[g] for g in m.next))

    def late_values(self, s, u, k):
        return [self.table[s, u, k, w] for w in self.lates if self.table[s, u, k, w][0]]

    def choices(self, s, u):
        return [k for k in self.controls if self.late_values(s, u, k)]

    def forced_from(self, lost, s):
        for u in self.earlies:
            choices = self.choices(s, u)
            if choices and all(any(hyp and (not duty or nxt in lost) for _, hyp, duty, nxt in self.late_values(s, u, k)) for k in choices):
                return True
        return False

    def solve(self):
        """The ranks up to the one that has the initial state, or None and the safe states."""
        ranks, lost = [], set()
        while True:
            new = {s for s in self.states if self.forced_from(lost, s)}
            if new == lost:
                return None, set(self.states) - lost
            ranks.append(new)
            if tuple(self.m.init) in new:
                return ranks, None
            lost = new

    def choice(self, safe, s, u):
        permitted = [k for k in self.choices(s, u)
                     if all(not hyp or (duty and nxt in safe) for _, hyp, duty, nxt in self.late_values(s, u, k))]
        if not permitted:
            return tuple(self.m.prefer)
        return min(permitted, key=lambda k: [bit != wanted for bit, wanted in zip(k, self.m.prefer)])


def digits(bits):
    return ''.join('1' if b else '0' for b in bits)


def answer(m):
    game = Game(m)
    ranks, safe = game.solve()
    if ranks is None:
        yield 'win'
        yield 'safe ' + digits(s in safe for s in game.states)
        yield 'choices ' + digits(b for s in game.states for u in game.earlies for b in game.choice(safe, s, u))
    else:
        yield f'lose {len(ranks)}'
        for rank in ranks:
            yield 'rank ' + digits(s in rank for s in game.states)


def small(pick, number):
    while True:
        counts = [pick.randint(0, 4), pick.randint(0, 3), pick.randint(0, 3), pick.randint(0, 3)]
        if sum(counts) <= 12:
            break
    control = counts[2]
    widths = []
    while sum(widths) < control:
        widths.append(pick.randint(1, control - sum(widths)))
    m = Machine(f'm{number}', counts, widths, [pick.random() < 0.5 for _ in range(control)])
    for v in range(sum(counts)):
        m.gate('v', v)
    m.gate('c', 1)
    for _ in range(pick.randint(3, 24)):
        n = len(m.gates)
        kind = pick.choice('naaooxxic')
        if kind == 'c':
            m.gate('c', pick.randint(0, 1))
        elif kind == 'n':
            m.gate('n', pick.randrange(n))
        elif kind == 'i':
            m.gate('i', pick.randrange(n), pick.randrange(n), pick.randrange(n))
        else:
            m.gate(kind, pick.randrange(n), pick.randrange(n))
    n = len(m.gates)
    late = lambda: pick.randrange(max(0, n - 12), n)
    m.init = [pick.random() < 0.5 for _ in range(counts[0])]
    m.next = [pick.randrange(n) for _ in range(counts[0])]
    m.valid = sum(counts) if pick.random() < 0.5 else m.gate('o', late(), late())
    m.hyp = sum(counts) if pick.random() < 0.4 else late()
    m.duty = m.gate('o', late(), m.gate('o', late(), late())) if pick.random() < 0.8 else late()
    return m


def main():
    count, seed, machines, answers = int(sys.argv[2]), int(sys.argv[3]), sys.argv[4], sys.argv[5]
    pick = random.Random(seed)
    with open(machines, 'w') as out, open(answers, 'w') as said:
        left = {'win': count - 2 * (count // 3), 'lose 1': count // 3, 'lose': count // 3}
        number = 0
        while any(left.values()):
            m = small(pick, number)
            lines = list(answer(m))
            kind = lines[0] if lines[0] in left else 'lose'
            if left[kind] > 0:
                left[kind] -= 1
                number += 1
                out.write('\n'.join(m.lines()) + '\n')
                said.write('\n'.join(lines) + '\n')


if __name__ == '__main__':
    main()
