"""Truth tables: a number whose bits are the values of a function for all values of some variables, the first of which changes fastest."""


def column(at, count):
    """The table of the variable at a place among so many."""
    size, table = 2 << at, ((1 << (1 << at)) - 1) << (1 << at)
    while size < 1 << count:
        table |= table << size
        size *= 2
    return table


class Tables:
    """Tables over the variables that are open, where all others have values."""

    def __init__(self, values, opened):
        self.opened = list(opened)
        self.full = (1 << (1 << len(self.opened))) - 1
        self.columns = {it: column(at, len(self.opened)) for at, it in enumerate(self.opened)}
        self.variables = [self.columns.get(it, self.full if value else 0) for it, value in enumerate(values)]

    def constant(self, value):
        return self.full if value else 0

    def literal(self, variable, value):
        table = self.variables[variable]
        return table if value else self.full & ~table

    def gate(self, gate, done):
        kind, i, *more = gate
        if kind == 'const':
            return self.constant(i)
        if kind == 'var':
            return self.variables[i]
        if kind == 'not':
            return self.full & ~done[i]
        if kind == 'and':
            return done[i] & done[more[0]]
        if kind == 'or':
            return done[i] | done[more[0]]
        if kind == 'xor':
            return done[i] ^ done[more[0]]
        return (done[i] & done[more[0]]) | (self.full & ~done[i] & done[more[1]])

    def gates(self, gates, roots):
        """The tables of gates, with those of all that they read."""
        wanted = bytearray(len(gates))
        for root in roots:
            wanted[root] = 1
        for at in range(len(gates) - 1, -1, -1):
            if wanted[at] and gates[at][0] not in ('const', 'var'):
                for it in gates[at][1:]:
                    wanted[it] = 1
        done = {}
        for at, gate in enumerate(gates):
            if wanted[at]:
                done[at] = self.gate(gate, done)
        return [done[root] for root in roots]

    def diagram(self, certificate, root, variables):
        """The table of a function of a certificate, where its variables have these tables."""
        done = {0: 0, 1: self.full}
        for number in certificate.below(root):
            at, low, high = certificate.nodes[number]
            done[number] = (variables[at] & done[high]) | (self.full & ~variables[at] & done[low])
        return done[root]

    def at(self, variable, value, table):
        """The table where an open variable has this value, as one that does not read it."""
        shift = 1 << self.opened.index(variable)
        if value:
            table &= self.columns[variable]
            return table | table >> shift
        table &= ~self.columns[variable]
        return table | table << shift

    def where(self, values, table):
        """The table where open variables have these values, as one that reads none of them."""
        for variable, value in values.items():
            table = self.at(variable, value, table)
        return table

    def some(self, variables, table):
        """Where by some values of these variables the function is true."""
        for it in variables:
            table = self.at(it, False, table) | self.at(it, True, table)
        return table

    def values_at(self, index):
        """The values of the open variables at a place of a table."""
        return {it: bool(index >> at & 1) for at, it in enumerate(self.opened)}


def first(table):
    """The first place at which the table is true."""
    return (table & -table).bit_length() - 1


class Covering:
    """Whether all states in which some slots have these values are in a set of a certificate. Codes that are no values do not count."""

    def __init__(self, certificate, root, registers):
        self.certificate, self.root = certificate, root
        self.slot_of = {it: slot for slot in registers for it in slot.variables}

    def leads_out(self, number, seen, given):
        """Whether the set is left below a function, where these bits were looked at on the way."""
        if number == 1:
            return False
        if number == 0:
            return True
        key = number, seen
        if key not in self.known:
            at, low, high = self.certificate.nodes[number]
            ways = [given[at]] if at in given else [False, True]
            self.known[key] = any(self.may_be(at, it, seen) and self.leads_out(high if it else low, self.with_bit(at, it, seen), given) for it in ways)
        return self.known[key]

    def with_bit(self, at, value, seen):
        slot = self.slot_of[at]
        return seen if len(slot.values) == 1 << slot.width else seen | {(at, value)}

    def may_be(self, at, value, seen):
        """Whether a value has such bits."""
        slot = self.slot_of[at]
        known = dict(seen)
        known[at] = value
        return any(all(known.get(it, bit) == bit for it, bit in slot.bits(number).items()) for number in range(len(slot.values)))

    def holds(self, given):
        self.known = {}
        return not self.leads_out(self.root, frozenset(), given)
