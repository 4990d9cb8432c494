"""A few instants of a run as a chronogram in text."""

HIGH, LOW, SAME = '▔', '▁', ' '
ASCII = {HIGH: '~', LOW: '_', '│': '|', '·': '.'}


def cell_width(signals, instants):
    """How many columns an instant takes: what the longest value needs, with a line before it."""
    longest = max((len(row[at]) for row in instants for at, it in enumerate(signals) if it.kind != 'bool'), default=0)
    return max(2, longest + 1)


def wave(signal, values, before, width):
    """A signal over a band of instants; `before` is its value before the band."""
    if signal.kind == 'bool':
        return ''.join((HIGH if it == 'true' else LOW) * width for it in values)
    cells = []
    for value in values:
        cells.append(('│' + value if value != before else '').ljust(width, SAME))
        before = value
    return ''.join(cells)


def ruler(first, count, width):
    """The numbers of the instants, as many as have room."""
    every = next(it for it in (1, 2, 5, 10, 20, 50, 100) if it * width > len(str(first + count)))
    marks = [''] * count
    for at in range(count):
        if (first + at) % every == 0 or at == 0 and every == 1:
            marks[at] = str(first + at)
    text = ''
    for at, mark in enumerate(marks):
        text = text.ljust(at * width) + mark if len(text) <= at * width else text
    return text


def bands(signals, instants, first, columns, plain=False):
    """The lines of the chronogram: a part of the instants below the other, each as wide as the columns allow."""
    label = max([len(it.name) for it in signals] + [7])
    width = cell_width(signals, instants)
    most = max(1, (columns - label - 1) // width)
    lines, before = [], [None] * len(signals)
    for start in range(0, len(instants), most):
        band = instants[start:start + most]
        lines += [''] if lines else []
        lines.append(f'{"instant":>{label}} {ruler(first + start, len(band), width)}'.rstrip())
        for at, signal in enumerate(signals):
            shown = wave(signal, [row[at] for row in band], None, width)
            lines.append(f'{signal.name:>{label}} {shown}'.rstrip())
    return [it.translate(str.maketrans(ASCII)) for it in lines] if plain else lines
