#!/usr/bin/env python3
"""Writes rows of certificates: machines and texts, and what is to be said of them, found here from the definitions alone.

rows.py ROWS ANSWERS

A text is read piece by piece (words, spaces, newlines): it is refused at its first piece with which it begins no certificate. A certificate is checked by enumeration of
all valuations of the machine. Near misses of each good text: a number one more or one less, a line dropped, doubled or swapped with the next, a blank more, a byte more
behind its end, and the end cut at every byte.
"""
import os
import re
import sys

sys.path.insert(0, os.path.join(os.path.dirname(os.path.abspath(__file__)), '..', 'synth'))
from machines import Game, Machine, lists  # noqa: E402

NAMES = re.compile(rb'[a-z][A-Za-z0-9_$]*\Z')


class Refused(Exception):
    def __init__(self, at):
        self.at = at


class Reader:
    """The pieces of a text, taken one by one."""

    def __init__(self, text):
        self.pieces = re.findall(rb'[^ \n]+|[ \n]', text)
        self.place, self.at = 0, 0

    def take(self, whole, begun):
        """The next piece, if it is one of those wanted; at the end of the text a piece may be cut off."""
        if self.place == len(self.pieces):
            raise Refused(self.at)
        piece = self.pieces[self.place]
        if not whole(piece):
            last = self.place + 1 == len(self.pieces)
            raise Refused(self.at + (len(piece) if last and begun(piece) else 0))
        self.place += 1
        self.at += len(piece)
        return piece

    def word(self, *words):
        return self.take(lambda p: p in words, lambda p: any(w.startswith(p) for w in words))

    def number(self, low, end):
        def whole(p):
            return re.fullmatch(rb'0|[1-9][0-9]*', p) and low <= int(p) < end
        return int(self.take(whole, lambda p: False))

    def name(self):
        return self.take(is_name, lambda p: p in RESERVED)

    def space(self):
        self.word(b' ')

    def line_end(self):
        self.word(b'\n')

    def field(self, end):
        self.space()
        return self.number(0, min(end, 2 ** 32))


RESERVED = {b'true', b'false', b'bool', b'int'}


def is_name(p):
    return bool(NAMES.match(p)) and p not in RESERVED and len(p) <= 270


def read(text):
    """The certificate of a text, or the place at which it is refused."""
    r = Reader(text)
    r.word(b'hept-cert')
    r.space()
    version = r.word(b'1', b'2')
    r.line_end()
    r.word(b'node')
    r.space()
    name = r.name()
    r.line_end()
    r.word(b'kind')
    r.space()
    kind = r.word(b'win', b'lose')
    r.line_end()
    r.word(b'vars')
    counts = [r.field(65536) for _ in range(4)]
    r.line_end()
    widths = None
    if version == b'2':
        widths = []
        r.word(b'controls')
        while r.word(b' ', b'\n') == b' ':
            widths.append(r.number(0, 65536))
    lines = []
    stop = b'inv' if kind == b'win' else b'least'
    while r.word(b'd', stop) == b'd':
        r.space()
        r.word(str(len(lines) + 2).encode())
        lines.append((r.field(65536), r.field(len(lines) + 2), r.field(len(lines) + 2)))
        r.line_end()
    end = len(lines) + 2
    if kind == b'win':
        proof = [r.field(end)]
        r.line_end()
        while r.word(b'fun', b'end') == b'fun':
            proof.append(r.field(end))
            r.line_end()
    else:
        r.space()
        count = r.number(1, 2 ** 32)
        r.line_end()
        proof = []
        for k in range(count):
            r.word(b'rank')
            r.space()
            r.word(str(k + 1).encode())
            proof.append(r.field(end))
            r.line_end()
        r.word(b'end')
    r.line_end()
    if r.place < len(r.pieces):
        raise Refused(r.at)
    return name, kind, counts, widths, lines, proof


def value(lines, ref, values):
    while ref >= 2:
        var, low, high = lines[ref - 2]
        ref = high if var < len(values) and values[var] else low
    return ref == 1


def reads_below(lines, ref, bound):
    seen, stack = set(), [ref]
    while stack:
        r = stack.pop()
        if r < 2 or r in seen:
            continue
        seen.add(r)
        var, low, high = lines[r - 2]
        if var >= bound:
            return False
        stack += [low, high]
    return True


def judged(machine, cert):
    """What a certificate proves of a machine, or the first test that fails."""
    name, kind, counts, widths, lines, proof = cert
    r, e, c, l = machine.counts
    if name.decode() != machine.name:
        return 'K2 node'
    total = r + e + c + l
    if tuple(counts) != tuple(machine.counts) or (widths is not None and widths != list(machine.widths)) or any(var >= total for var, _, _ in lines):
        return 'K2 vars'
    if kind == b'win' and len(proof) - 1 != c:
        return 'K2 count'
    bounds = [r] + [r + e] * c if kind == b'win' else [r] * len(proof)
    if not all(reads_below(lines, ref, bound) for ref, bound in zip(proof, bounds)):
        return 'K2 scope'
    game = Game(machine)
    init = tuple(bool(b) for b in machine.init)
    if kind == b'win':
        if not value(lines, proof[0], init):
            return 'K3 init'
        for s in game.states:
            if not value(lines, proof[0], s):
                continue
            for u in game.earlies:
                if not game.choices(s, u):
                    continue
                k = tuple(value(lines, f, s + u) for f in proof[1:])
                lates = game.late_values(s, u, k)
                if not lates or any(hyp and not (duty and value(lines, proof[0], after)) for _, hyp, duty, after in lates):
                    return 'K3 step'
        return 'win'
    if not value(lines, proof[-1], init):
        return 'K3 init'
    for n, rank in enumerate(proof):
        before = proof[n - 1] if n else 0
        for s in game.states:
            if not value(lines, rank, s):
                continue

            def is_forced(u):
                choices = game.choices(s, u)
                return choices and all(any(hyp and (not duty or value(lines, before, after)) for _, hyp, duty, after in game.late_values(s, u, k)) for k in choices)
            if not any(is_forced(u) for u in game.earlies):
                return f'K3 rank {n + 1}'
    return f'lose {len(proof)}'


def place(text, at):
    line = text.count(b'\n', 0, at) + 1
    return f'{line}:{at - (text.rfind(chr(10).encode(), 0, at) + 1) + 1}'


def answer(machine, text):
    try:
        cert = read(text)
    except Refused as refused:
        return 'K1 ' + place(text, refused.at)
    return judged(machine, cert)


def near_misses(text):
    for m in re.finditer(rb'[0-9]+', text):
        for n in (int(m.group()) + 1, int(m.group()) - 1):
            if n >= 0:
                yield text[:m.start()] + str(n).encode() + text[m.end():]
    lines = text.splitlines(keepends=True)
    for i in range(len(lines)):
        yield b''.join(lines[:i] + lines[i + 1:])
        yield b''.join(lines[:i + 1] + lines[i:])
        if i + 1 < len(lines):
            yield b''.join(lines[:i] + [lines[i + 1], lines[i]] + lines[i + 2:])
    for i in range(len(text)):
        if text[i:i + 1] == b' ':
            yield text[:i] + b' ' + text[i:]
    yield text + b'\n'
    yield text + b'x'
    for i in range(len(text)):
        yield text[:i]


def machine(name, counts, widths, gates, init, after, ends):
    m = Machine(name, counts, widths, [False] * counts[2])
    for gate in gates:
        m.gate(*gate)
    m.init, m.next = init, after
    m.valid, m.hyp, m.duty = ends
    return m


# the output has to be false now, whatever the input is
TOP = machine('top', (0, 1, 1, 1), (1,), [('c', 1), ('c', 0)], [], [], (0, 0, 1))
# what has to hold is the constant false, with two inputs
FAIL = machine('f', (0, 2, 0, 0), (), [('c', 1), ('c', 0)], [], [], (0, 0, 1))
# y = true fby x, and y has to hold: registers are the value of x that is remembered, and whether one is
HELD = machine('h', (2, 1, 0, 0), (), [('v', 0), ('v', 1), ('v', 2), ('c', 1), ('i', 1, 0, 3)], [False, False], [2, 3], (3, 3, 4))
# a mode of three is chosen, and where it is hot it may not be the first
HEAT = machine('heat', (0, 1, 2, 0), (2,), [('v', 0), ('v', 1), ('v', 2), ('a', 1, 2), ('n', 3), ('o', 1, 2), ('n', 5), ('a', 0, 6), ('n', 7), ('c', 1)], [], [], (4, 9, 8))

Q1 = b'hept-cert 1\nnode top\nkind lose\nvars 0 1 1 1\nleast 1\nrank 1 1\nend\n'
Q2 = b'hept-cert 1\nnode f\nkind lose\nvars 0 2 0 0\nleast 1\nrank 1 1\nend\n'
Q4 = b'hept-cert 1\nnode h\nkind lose\nvars 2 1 0 0\nd 2 1 0 1\nd 3 0 2 0\nleast 2\nrank 1 3\nrank 2 1\nend\n'
Q5 = b'hept-cert 2\nnode heat\nkind win\nvars 0 1 2 0\ncontrols 2\nd 2 0 0 1\ninv 1\nfun 0\nfun 2\nend\n'

OWN = [
    (HELD, Q4.replace(b'least', b'd 4 0 1 1\nleast').replace(b'rank 2 1', b'rank 2 4')),
    (HELD, Q4.replace(b'least 2', b'least 1').replace(b'rank 2 1\n', b'')),
    (HELD, Q4.replace(b'rank 2 1', b'rank 2 0')),
    (HELD, Q4.replace(b'vars 2 1', b'vars 2 2')),
    (HELD, b'hept-cert 9\n' + Q4[12:]),
    (HELD, Q4.replace(b'least', b'd 4 3 0 1\nleast')),
    (HELD, Q4.replace(b'least', b'd 4 2 0 1\nleast').replace(b'rank 2 1', b'rank 2 4')),
    (HEAT, Q5.replace(b'hept-cert 2', b'hept-cert 1').replace(b'controls 2\n', b'')),
    (HEAT, Q5.replace(b'controls 2', b'controls 1 1')),
    (HEAT, Q5.replace(b'fun 0\n', b'')),
    (HEAT, Q5.replace(b'fun 0', b'fun 1').replace(b'fun 2', b'fun 1')),
    (HEAT, Q5.replace(b'd 2 0 0 1', b'd 2 1 0 1')),
    (HEAT, Q5.replace(b'inv 1', b'inv 2')),
    (HEAT, Q5.replace(b'inv 1', b'inv 0')),
]


def certificate_of(m):
    return {'top': Q1, 'f': Q2, 'h': Q4, 'heat': Q5}[m.name]


def main(rows, answers):
    with open(rows, 'w') as out, open(answers, 'w') as said:
        for m in (TOP, FAIL, HELD, HEAT):
            good = certificate_of(m)
            out.write(''.join(line + '\n' for line in m.lines()))
            said.write(good.decode() + answer(m, good) + '\n')
            texts = [text for n, text in OWN if n is m] + list(near_misses(good))
            for text in dict.fromkeys(texts):
                out.write('text ' + text.decode().replace('\n', '\\n') + '\n')
                said.write(answer(m, text) + '\n')


if __name__ == '__main__':
    main(*sys.argv[1:])
