"""A reader of value change dumps that shares nothing with their writer: from the words of the format, one token after the other."""


def tokens(text):
    return iter(text.split())


def section(words):
    """The words up to `$end`."""
    found = []
    for word in words:
        if word == '$end':
            return found
        found.append(word)
    raise ValueError('a section does not end')


def declared(words):
    """The variables by their short names, and the words behind the declarations."""
    scopes, found = [], {}
    for word in words:
        if word == '$scope':
            scopes.append(section(words)[1])
        elif word == '$upscope':
            section(words)
            scopes.pop()
        elif word == '$var':
            kind, size, short, name = section(words)
            if short in found:
                raise ValueError(f'{short} is declared twice')
            found[short] = ('.'.join([*scopes, name]), kind, int(size))
        elif word == '$enddefinitions':
            section(words)
            if scopes:
                raise ValueError('a scope is open')
            return found
        elif word.startswith('$'):
            section(words)
        else:
            raise ValueError(f'{word} in the declarations')
    raise ValueError('the declarations do not end')


def value_of(kind, size, text):
    """The value of a change: a truth value, an integer of that many bits with a sign, or a text."""
    if kind == 'string':
        return text
    number = int(text, 2)
    if kind == 'wire' and size == 1:
        return bool(number)
    if number >= 1 << size:
        raise ValueError(f'{text} has more than {size} bits')
    return number - (1 << size) if number >> (size - 1) else number


def read(text):
    """For each time of the dump, in order and with none left out, the value of each variable; the last time ends it."""
    words = tokens(text)
    variables, now, rows, time = declared(words), {}, [], None
    for word in words:
        if word[0] == '#':
            at = int(word[1:])
            if time is None and at != 0 or time is not None and at <= time:
                raise ValueError(f'time {at} stands behind {time}')
            rows += [dict(now) for _ in range(at - (time or 0))] if time is not None else []
            time = at
            continue
        if word[0] in '01':
            short, value = word[1:], word[0]
        elif word[0] in 'bs':
            short, value = next(words), word[1:]
        else:
            raise ValueError(f'{word} is no change')
        name, kind, size = variables[short]
        if (kind == 'string') != (word[0] == 's') or (size == 1 and kind == 'wire') != (word[0] in '01'):
            raise ValueError(f'{word} is of another kind than {kind}')
        now[name] = value_of(kind, size, value)
    return variables, rows
