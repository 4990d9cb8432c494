#!/usr/bin/env python3
"""Writes a Boolean machine as lines (crates/hp_games/data/README.md): a family and its size.

families.py tasks N     N tasks that wait, are active, or idle; a controllable variable for each lets it begin; no two are active at once
families.py ring N      a token that N stations pass on when they are asked to and may; a station that is served holds the token; the token is never lost nor doubled
families.py lift N      a lift with N floors, whose motor is controlled: it never leaves the shaft, and a call is served within a number of instants that grows with N
families.py pool N      the tasks of `tasks`, of which at most N/2 are active at once
families.py heat N      N rooms, each with a heater that is controlled, a window, and the sun, which is known after the choice: no room is hot, and no heater is on at an open window
"""
import sys

from machines import Machine


class Builder:
    """Variables are numbered registers, early, control, late; gates are made once."""

    def __init__(self, name, registers, early, control, late=0):
        self.machine = Machine(name, (registers, early, control, late), [1] * control, [1] * control)
        self.kept = {}
        self.count = (registers, early, control, late)

    def gate(self, *gate):
        if gate not in self.kept:
            self.kept[gate] = self.machine.gate(*gate)
        return self.kept[gate]

    def constant(self, value):
        return self.gate('c', int(value))

    def register(self, k):
        return self.gate('v', k)

    def early(self, k):
        return self.gate('v', self.count[0] + k)

    def control(self, k):
        return self.gate('v', self.count[0] + self.count[1] + k)

    def no(self, a):
        return self.gate('n', a)

    def both(self, *gates):
        made = self.constant(True)
        for g in gates:
            made = g if made == self.constant(True) else self.gate('a', made, g)
        return made

    def either(self, *gates):
        made = self.constant(False)
        for g in gates:
            made = g if made == self.constant(False) else self.gate('o', made, g)
        return made

    def choose(self, test, a, b):
        return self.gate('i', test, a, b)

    def finish(self, init, next_, hyp, duty):
        m = self.machine
        m.init, m.next = init, next_
        m.valid, m.hyp, m.duty = self.constant(True), hyp, duty
        return m


def delayed_tasks(name, n):
    """A builder with the tasks of the program `tasks`: two bits for the state of each task, Idle, Wait and Active, and one for a pending restart. With it come the
    next values, and of each task whether it is active."""
    b = Builder(name, 3 * n, 2 * n, n)
    next_, active = [], []
    for k in range(n):
        high, low = b.register(3 * k), b.register(3 * k + 1)
        r, e, c = b.early(2 * k), b.early(2 * k + 1), b.control(k)
        idle, wait, busy = b.both(b.no(high), b.no(low)), b.both(b.no(high), low), b.both(high, b.no(low))
        begins = b.either(b.both(idle, r, c), b.both(wait, c))
        waits = b.both(idle, r, b.no(c))
        ends = b.both(busy, e)
        active.append(busy)
        next_ += [b.either(begins, b.both(busy, b.no(e))), b.either(waits, b.both(wait, b.no(c))), b.either(begins, waits, ends)]
    return b, next_, active


def tasks(n):
    """The circuits of the program `tasks`: no two tasks are active at once."""
    b, next_, active = delayed_tasks('tasks', n)
    clash = [b.both(active[i], active[j]) for i in range(n) for j in range(i)]
    return b.finish([0] * (3 * n), next_, b.constant(True), b.no(b.either(*clash)))


def pool(n):
    """Of the tasks at most half are active at once. They are counted in a row of numbers: behind each task, for each number up to that, whether as many are active so far."""
    b, next_, active = delayed_tasks('pool', n)
    most = n // 2
    so_far = [b.constant(k == 0) for k in range(most + 2)]
    for busy in active:
        so_far = [b.either(b.both(so_far[k], b.no(busy)), b.both(so_far[k - 1], busy) if k else b.constant(False)) for k in range(most + 1)] + [b.either(so_far[-1], b.both(so_far[most], busy))]
    return b.finish([0] * (3 * n), next_, b.constant(True), b.no(so_far[-1]))


def heat(n):
    """A room is cold, fair, warm or hot. Where its window is open it gets colder by one step; where it is closed, warmer by one if it is heated, and by one more in the sun, else colder
    by one. It is assumed that the sun shines into one room at most, and never through an open window."""
    b = Builder('heat', 2 * n, n, n, n)
    next_, hots, wasted = [], [], []
    sun = [b.gate('v', b.count[0] + b.count[1] + b.count[2] + k) for k in range(n)]
    for k in range(n):
        high, low = b.register(2 * k), b.register(2 * k + 1)
        window, on = b.early(k), b.control(k)
        heated = b.both(b.no(window), on)
        warmer = b.both(heated, b.no(sun[k]))
        much = b.both(heated, sun[k])
        still = b.both(b.no(window), b.no(on), sun[k])
        colder = b.both(b.no(still), b.no(heated))
        cold, fair, warm, hot = b.both(b.no(high), b.no(low)), b.both(b.no(high), low), b.both(high, b.no(low)), b.both(high, low)
        goes_high = b.either(b.both(warmer, b.no(cold)), much, b.both(still, high), b.both(colder, hot))
        goes_low = b.either(b.both(warmer, b.no(fair)), b.both(much, b.no(cold)), b.both(still, low), b.both(colder, warm))
        next_ += [goes_high, goes_low]
        hots.append(hot)
        wasted.append(b.both(window, on))
    two_suns = b.either(*[b.both(sun[k], b.either(*sun[:k])) for k in range(1, n)])
    through = b.either(*[b.both(sun[k], b.early(k)) for k in range(n)])
    return b.finish([0, 0] * n, next_, b.no(b.either(two_suns, through)), b.no(b.either(*hots, *wasted)))


def ring(n):
    """A station passes the token on where it is asked to and may; asked stations wait for it, at most one waits at a time; one is served where it waits and holds the token."""
    b = Builder('ring', 2 * n, n, n)
    token = [b.register(2 * k) for k in range(n)]
    waiting = [b.register(2 * k + 1) for k in range(n)]
    passes = [b.both(token[k], b.control(k)) for k in range(n)]
    next_ = []
    for k in range(n):
        gets = passes[k - 1]
        next_ += [b.either(gets, b.both(token[k], b.no(passes[k]))), b.both(b.either(b.early(k), waiting[k]), b.no(token[k]))]
    none = b.both(*[b.no(t) for t in token])
    two = b.either(*[b.both(token[i], token[j]) for i in range(n) for j in range(i)])
    asked = b.no(b.either(*[b.both(b.early(i), b.either(*[waiting[j] for j in range(n) if j != i], *[b.early(j) for j in range(i)])) for i in range(n)]))
    held = b.no(b.either(*[b.both(passes[k], waiting[k], token[k]) for k in range(n)]))
    return b.finish([1, 0] + [0] * (2 * n - 2), next_, asked, b.both(b.no(none), b.no(two), held))


def add_one(b, bits):
    made, carry = [], b.constant(True)
    for bit in reversed(bits):
        made.append(b.gate('x', bit, carry))
        carry = b.both(bit, carry)
    return made[::-1]


def take_one(b, bits):
    made, borrow = [], b.constant(True)
    for bit in reversed(bits):
        made.append(b.gate('x', bit, borrow))
        borrow = b.both(b.no(bit), borrow)
    return made[::-1]


def is_number(b, bits, number):
    return b.both(*[bit if (number >> (len(bits) - 1 - i)) & 1 else b.no(bit) for i, bit in enumerate(bits)])


def lift(n):
    """The floor and a patience in binary, and a call for each floor. The motor goes up or down by two control bits; patience runs out while a call is open, and begins anew where one is served."""
    width = max(1, (n - 1).bit_length())
    most = 2 * n
    patient = most.bit_length()
    b = Builder('lift', width + patient + n, n, 2)
    floor = [b.register(k) for k in range(width)]
    left = [b.register(width + k) for k in range(patient)]
    call = [b.register(width + patient + k) for k in range(n)]
    up, down = b.both(b.control(0), b.no(b.control(1))), b.both(b.control(1), b.no(b.control(0)))
    higher, lower = add_one(b, floor), take_one(b, floor)
    at = [is_number(b, floor, k) for k in range(n)]
    served = b.either(*[b.both(at[k], call[k]) for k in range(n)])
    some = b.either(*call)
    fewer = take_one(b, left)
    full = [b.constant((most >> (patient - 1 - i)) & 1) for i in range(patient)]
    waits = b.both(some, b.no(served))
    next_ = [b.choose(up, higher[k], b.choose(down, lower[k], floor[k])) for k in range(width)]
    next_ += [b.choose(waits, fewer[k], full[k]) for k in range(patient)]
    next_ += [b.both(b.either(call[k], b.early(k)), b.no(at[k])) for k in range(n)]
    inside = b.either(*at)
    out = is_number(b, left, 0)
    one_call = b.no(b.either(*[b.both(b.early(i), b.either(*[b.early(j) for j in range(i)], some)) for i in range(n)]))
    init = [0] * width + [(most >> (patient - 1 - i)) & 1 for i in range(patient)] + [0] * n
    return b.finish(init, next_, one_call, b.both(inside, b.no(b.both(out, some))))


if __name__ == '__main__':
    family = {'tasks': tasks, 'ring': ring, 'lift': lift, 'pool': pool, 'heat': heat}[sys.argv[1]]
    for line in family(int(sys.argv[2])).lines():
        print(line)
