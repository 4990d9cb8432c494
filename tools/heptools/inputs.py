"""Inputs that are tried: at random from a seed, or all of them."""
import itertools
import random

from .ending import Wrong

LEAST, GREATEST = -2**31, 2**31 - 1
# lines of input that are tried at most, of all there are
MOST_LINES = 5_000_000


def values_of(signal):
    """All values of a truth value or an enumeration."""
    return ['false', 'true'] if signal.kind == 'bool' else list(signal.constructors)


def integer(chance):
    """An integer: mostly a small one, now and then any, or one at an end of the range."""
    kind = chance.random()
    if kind < 0.75:
        return int(chance.random() * 21) - 5
    if kind < 0.95:
        return int(chance.random() * 2001) - 1000
    return (LEAST, GREATEST, LEAST + 1, GREATEST - 1, int(chance.random() * 2**32) + LEAST)[int(chance.random() * 5)]


def random_run(chance, inputs, instants):
    """Lines of input; in each run a truth value is true as often as a share drawn for it says."""
    shares = [(0.05, 0.2, 0.5, 0.8, 0.95)[int(chance.random() * 5)] for _ in inputs]
    for _ in range(instants):
        line = []
        for signal, share in zip(inputs, shares):
            if signal.kind == 'int':
                line.append(str(integer(chance)))
            elif signal.kind == 'bool':
                line.append('true' if chance.random() < share else 'false')
            else:
                line.append(signal.constructors[int(chance.random() * len(signal.constructors))])
        yield line


def random_runs(seed, inputs, runs, instants):
    """Runs, each a list of lines; the same for the same seed."""
    chance = random.Random(seed)
    for _ in range(runs):
        yield random_run(chance, inputs, instants)


def line_count(inputs, instants):
    """How many lines all runs of at most so many instants have."""
    each = 1
    for signal in inputs:
        each *= len(values_of(signal))
    return sum(length * each ** length for length in range(1, instants + 1))


def all_runs(inputs, instants):
    """All runs of one instant, of two, and so on."""
    whole = [it.name for it in inputs if it.kind == 'int']
    if whole:
        raise Wrong(f'--all is for truth values and enumerations, and {whole[0]} is an int', 2)
    if line_count(inputs, min(instants, 64)) > MOST_LINES:
        raise Wrong(f'that is more than {MOST_LINES} lines of input: take fewer --instants, or no --all', 2)
    lines = list(itertools.product(*(values_of(it) for it in inputs)))
    return itertools.chain.from_iterable(itertools.product(lines, repeat=length) for length in range(1, instants + 1))


def most_instants(inputs, lines=200_000):
    """How many instants can be tried in all ways within so many lines; at least one, at most twelve."""
    found = 1
    while found < 12 and not any(it.kind == 'int' for it in inputs) and line_count(inputs, found + 1) <= lines:
        found += 1
    return found
