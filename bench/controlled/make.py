"""Programs with contracts and controllable variables, made at random, and traces for their nodes."""
import random

TRUTH = 'bool'
NUMBER = 'int'


class Maker:
    """One program. Each node that it makes is typed and clocked right; whether its contract can be kept is left to the tool."""

    def __init__(self, seed):
        self.random = random.Random(seed)
        self.types = {f't{i}': [f'C{i}{k}' for k in range(self.random.randint(2, 5))] for i in range(self.random.randint(0, 2))}
        self.nodes = []
        self.count = 0

    def pick(self, items):
        return self.random.choice(items)

    def chance(self, of):
        return self.random.random() < of

    def name(self, letter):
        self.count += 1
        return f'{letter}{self.count}'

    def type(self, numbers=True):
        return self.pick([TRUTH, TRUTH, TRUTH, *([NUMBER] if numbers else []), *self.types])

    def constant(self, type):
        if type == TRUTH:
            return self.pick(['true', 'false'])
        if type == NUMBER:
            return str(self.random.randint(0, 5))
        return self.pick(self.types[type])

    def leaf(self, type, scope):
        names = [name for name, its in scope if its == type]
        return self.pick(names) if names and self.chance(0.8) else self.constant(type)

    def expression(self, type, scope, depth=2, past=True):
        """An expression that has a value always, also at the first instant."""
        if depth == 0 or self.chance(0.25):
            return self.leaf(type, scope)
        inner = lambda its=type: self.expression(its, scope, depth - 1, past)
        forms = [lambda: f'(if {inner(TRUTH)} then {inner()} else {inner()})']
        if past:
            forms.append(lambda: f'({self.constant(type)} fby {inner()})')
            forms.append(lambda: f'({self.constant(type)} -> pre {inner()})')
        if type == TRUTH:
            forms += [lambda: f'({inner()} {self.pick(["&", "or", "xor", "=>"])} {inner()})', lambda: f'(not {inner()})']
            other = self.type()
            signs = ['=', '<>'] if other != NUMBER else ['=', '<>', '<', '<=', '>', '>=']
            forms.append(lambda: f'({inner(other)} {self.pick(signs)} {inner(other)})')
        if type == NUMBER:
            forms.append(lambda: f'({inner()} {self.pick("+-*")} {inner()})')
        return self.pick(forms)()

    def declared(self, names):
        return '; '.join(f'{name} : {type}' for name, type in names)

    def automaton(self, name, type, scope):
        """An automaton that defines a name in each state."""
        states = [f'S{i}' for i in range(self.random.randint(2, 3))]
        lines = []
        for state in states:
            right = self.expression(type, scope, 2)
            text = f'    state {state} do {name} = {right}'
            if self.chance(0.8):
                text += f' until {self.expression(TRUTH, scope, 1, False)} {self.pick(["then", "continue"])} {self.pick(states)}'
            if self.chance(0.4):
                text += f' unless {self.expression(TRUTH, scope, 1, False)} {self.pick(["then", "continue"])} {self.pick(states)}'
            lines.append(text)
        return '  automaton\n' + '\n'.join(lines) + '\n  end'

    def equation(self, name, type, scope):
        """What defines a name: an expression, an automaton, a switch or a block that begins anew."""
        kind = self.random.random()
        if kind < 0.2:
            return self.automaton(name, type, scope)
        if kind < 0.3:
            yes, no = self.expression(type, scope), self.expression(type, scope)
            return f'  switch {self.expression(TRUTH, scope, 1)}\n  | true do {name} = {yes}\n  | false do {name} = {no}\n  end'
        if kind < 0.4:
            return f'  reset {name} = {self.expression(type, scope)} every {self.expression(TRUTH, scope, 1)}'
        return f'  {name} = {self.expression(type, scope)}'

    def task(self, name, scope, controls):
        """A truth value that is let hold by a control."""
        control = self.pick(controls)
        wanted = self.expression(TRUTH, scope, 2)
        if control[1] == TRUTH:
            return f'  {name} = {control[0]} & {wanted}'
        return f'  {name} = ({control[0]} = {self.constant(control[1])}) & {wanted}'

    def calls(self, scope, lines, inner):
        """Calls of earlier nodes, whose outputs are locals."""
        for node in self.nodes:
            if self.chance(0.5):
                args = ', '.join(self.expression(type, scope, 1) for _, type in node['inputs'])
                names = [(self.name('z'), type) for _, type in node['outputs']]
                left = names[0][0] if len(names) == 1 else '(' + ', '.join(name for name, _ in names) + ')'
                lines.append(f'  {left} = {node["name"]}({args})')
                inner += names

    def guarantee(self, tasks, scope):
        parts = []
        for i, one in enumerate(tasks):
            for other in tasks[i + 1:]:
                parts.append(f'not ({one} & {other})')
        if self.chance(0.3) or not parts:
            parts.append(f'({self.pick(tasks)} => {self.expression(TRUTH, scope, 1)})')
        return ' & '.join(parts)

    def node(self, name):
        inputs = [(self.name('x'), self.type()) for _ in range(self.random.randint(1, 3))]
        controls = [(self.name('c'), self.type(numbers=False)) for _ in range(self.random.randint(0, 3))]
        tasks = [(self.name('w'), TRUTH) for _ in range(self.random.randint(1, 3))] if controls else []
        outputs = tasks + [(self.name('y'), self.type()) for _ in range(self.random.randint(0 if tasks else 1, 2))]
        inner, lines = [], []
        scope = inputs + controls
        self.calls(inputs if self.chance(0.5) else scope, lines, inner)
        scope = scope + inner
        for task, _ in tasks:
            lines.append(self.task(task, scope, controls))
        for output, type in outputs[len(tasks):]:
            lines.append(self.equation(output, type, scope))
        text = f'node {name}({self.declared(inputs)}) returns ({self.declared(outputs)})\n'
        if controls:
            text += 'contract'
            if self.chance(0.3):
                text += f' assume {self.expression(TRUTH, inputs, 1)}'
            text += f' enforce {self.guarantee([name for name, _ in tasks], inputs + outputs)}\n  with ({self.declared(controls)})\n'
        elif self.chance(0.3):
            text += f'contract enforce {self.expression(TRUTH, inputs, 1)} => true\n'
        if inner:
            text += f'var {self.declared(inner)};\n'
        self.random.shuffle(lines)
        text += 'let\n' + ';\n'.join(lines) + '\ntel\n'
        self.nodes.append({'name': name, 'inputs': inputs, 'outputs': outputs})
        return text

    def program(self):
        text = ''.join(f'type {name} = {" | ".join(cons)}\n' for name, cons in self.types.items())
        for i in range(self.random.randint(1, 3)):
            text += self.node(f'n{i}')
        return text

    def trace(self, node, lines):
        """So many lines of inputs of a node."""
        value = lambda type: str(self.random.randint(-3, 6)) if type == NUMBER else self.constant(type)
        return ''.join(' '.join(value(type) for _, type in node['inputs']) + '\n' for _ in range(lines))
