"""A few instants of a run as a picture in SVG."""
from xml.sax.saxutils import escape

CELL, ROW, HEIGHT, TOP, LETTER = 36, 30, 18, 34, 7.3
COLOURS = {'inputs': '#1b5e9b', 'outputs': '#1d6b3a', 'contract': '#8a4b08'}


def text(x, y, said, anchor='start', fill='#222', size=12, weight='normal'):
    return f'<text x="{x:g}" y="{y:g}" text-anchor="{anchor}" font-size="{size}" font-weight="{weight}" fill="{fill}">{escape(said)}</text>'


def steps(values, left, low, cell):
    """The path of a truth value: high where it is true."""
    y = [low - (HEIGHT if it == 'true' else 0) for it in values]
    parts = [f'M{left:g} {y[0]:g}']
    for at, level in enumerate(y):
        if at and level != y[at - 1]:
            parts.append(f'V{level:g}')
        parts.append(f'H{left + (at + 1) * cell:g}')
    return ' '.join(parts)


def stretches(values):
    """The value of each stretch of equal ones, with its first instant and the one behind it."""
    found = []
    for at, value in enumerate(values):
        if found and found[-1][0] == value:
            found[-1][2] = at + 1
        else:
            found.append([value, at, at + 1])
    return found


def lens(first, behind, left, low, cell):
    """The shape of a stretch of one value: a box with pointed ends."""
    x, to, high, mid = left + first * cell, left + behind * cell, low - HEIGHT, low - HEIGHT / 2
    return f'M{x:g} {mid:g} L{x + 4:g} {high:g} H{to - 4:g} L{to:g} {mid:g} L{to - 4:g} {low:g} H{x + 4:g} Z'


def row_of(signal, values, left, low, cell, colour):
    """The shapes of one signal."""
    if not values:
        return []
    if signal.kind == 'bool':
        filled = f'{steps(values, left, low, cell)} V{low:g} H{left:g} Z'
        return [f'<path d="{filled}" fill="{colour}" fill-opacity="0.10" stroke="none"/>',
                f'<path d="{steps(values, left, low, cell)}" fill="none" stroke="{colour}" stroke-width="1.6"/>']
    shapes = []
    for value, first, behind in stretches(values):
        shapes.append(f'<path d="{lens(first, behind, left, low, cell)}" fill="#fff" stroke="{colour}" stroke-width="1.3"/>')
        shapes.append(text(left + (first + behind) / 2 * cell, low - HEIGHT / 2 + 4, value, 'middle', '#222', 11))
    return shapes


def grid(first, count, left, bottom, cell):
    """The lines between the instants, with their numbers."""
    every = next(it for it in (1, 2, 5, 10, 20, 50, 100, 1000, 10000) if it * cell >= LETTER * len(str(first + count)) + 6)
    shapes = []
    for at in range(count + 1):
        x = left + at * cell
        shapes.append(f'<path d="M{x:g} {TOP - 6:g} V{bottom:g}" stroke="#ddd" stroke-width="1"/>')
        if at < count and (first + at) % every == 0:
            shapes.append(text(x + cell / 2, TOP - 12, str(first + at), 'middle', '#777', 10))
    return shapes


def picture(title, groups, instants, first):
    """The whole picture; groups are pairs of a title and signals, in the order of the values of an instant."""
    signals = [it for _, group in groups for it in group]
    longest = max((len(row[at]) for row in instants for at, it in enumerate(signals) if it.kind != 'bool'), default=0)
    cell = max(CELL, round(LETTER * longest) + 12) if longest else 26
    left = 24 + round(LETTER * max((len(it.name) for it in signals), default=4)) + 10
    bottom = TOP + ROW * len(signals) + 8 * sum(bool(group) for _, group in groups)
    shapes, y, at = grid(first, len(instants), left, bottom, cell), TOP, 0
    for name, group in groups:
        for signal in group:
            low = y + ROW - 5
            shapes.append(text(left - 10, low - HEIGHT / 2 + 4, signal.name, 'end', COLOURS[name], 12))
            shapes += row_of(signal, [row[at] for row in instants], left, low, cell, COLOURS[name])
            y, at = y + ROW, at + 1
        y += 8 if group else 0
    width = left + cell * len(instants) + 24
    head = f'<svg xmlns="http://www.w3.org/2000/svg" width="{width}" height="{bottom + 14}" viewBox="0 0 {width} {bottom + 14}" font-family="DejaVu Sans Mono, Menlo, Consolas, monospace">'
    back = f'<rect width="{width}" height="{bottom + 14}" fill="#fff"/>'
    return '\n'.join([head, f'<title>{escape(title)}</title>', back, *shapes, '</svg>', ''])
