"""A run as a value change dump, which wave viewers read."""
import itertools

# the characters that a short name of a signal may have
LETTERS = [chr(it) for it in range(33, 127)]


def short_names():
    """Names for the changes, as short as they can be."""
    for length in itertools.count(1):
        for letters in itertools.product(LETTERS, repeat=length):
            yield ''.join(letters)


def declaration(signal, short):
    """A truth value is a wire, an integer one of 32 bits, and a value of an enumeration a string."""
    kind = {'bool': 'wire 1', 'int': 'integer 32'}.get(signal.kind, 'string 1')
    return f'$var {kind} {short} {signal.name} $end'


def header(node, groups, shorts):
    """The declarations, in a scope for each group of signals."""
    lines = ['$version hept-wave $end', '$timescale 1 ns $end', f'$scope module {node} $end']
    shorts = iter(shorts)
    for name, group in groups:
        if group:
            lines += [f'$scope module {name} $end', *(declaration(it, next(shorts)) for it in group), '$upscope $end']
    return '\n'.join([*lines, '$upscope $end', '$enddefinitions $end', ''])


def bits(value):
    """An integer as 32 bits of two's complement, without needless zeros."""
    return f'b{int(value) & 0xffffffff:b} '


def change_of(signal, short):
    """What writes the change of a signal to a value."""
    if signal.kind == 'bool':
        return lambda value: ('1' if value == b'true' else '0') + short
    if signal.kind == 'int':
        return lambda value: bits(value) + short
    return lambda value: f's{value.decode("latin-1")} {short}'


def write(out, node, groups, instants):
    """Writes the run: at time k what changed at instant k, from 0, and at the end the time behind the last one."""
    signals = [it for _, group in groups for it in group]
    shorts = list(itertools.islice(short_names(), len(signals)))
    out.write(header(node, groups, shorts))
    changes = [change_of(it, short) for it, short in zip(signals, shorts)]
    last, count = [None] * len(signals), 0
    for values in instants:
        if values != last:
            text = f'#{count}'
            for change, value, old in zip(changes, values, last):
                if value != old:
                    text += '\n' + change(value)
            out.write(text + '\n')
            last = values
        count += 1
    out.write(f'#{count}\n')
