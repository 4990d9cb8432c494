"""The inputs and outputs of a machine, from a text of machines."""
import re

from .ending import Wrong

NAME = r'[a-z][A-Za-z0-9_$]*'


class Signal:
    """An input or output: its name, the name of its type, and the constructors of the type, if it has any."""

    def __init__(self, name, kind, constructors=()):
        self.name, self.kind, self.constructors = name, kind, tuple(constructors)

    def __repr__(self):
        return f'{self.name} : {self.kind}'

    def __eq__(self, other):
        return vars(self) == vars(other)


def types_of(text):
    """The enumerations of the text, each with its constructors."""
    found = {}
    for name, constructors in re.findall(rf'\btype\s+({NAME})\s*=\s*([A-Z]\w*(?:\s*\|\s*[A-Z]\w*)*)', text):
        found[name] = re.findall(r'\w+', constructors)
    return found


def signals(row, types):
    """The signals of a list `a : bool , b : int`."""
    found = []
    for name, kind in re.findall(rf'({NAME})\s*:\s*({NAME})', row):
        if kind not in ('bool', 'int') and kind not in types:
            raise Wrong(f'the text of machines declares no type {kind}')
        found.append(Signal(name, kind, types.get(kind, ())))
    return found


def signature(text, node):
    """The inputs and the outputs of the machine of this name, in a text of machines as bytes."""
    text = text.decode('latin-1')
    head = re.search(rf'\bmachine\s+{re.escape(node)}\s+in\s*\(([^()]*)\)\s*out\s*\(([^()]*)\)\s*var\s*\(', text)
    if head is None:
        raise Wrong(f'there is no node {node}')
    types = types_of(text)
    return signals(head.group(1), types), signals(head.group(2), types)
