"""What is shown of a line of diagnostics: a title, the source with carets, the cause and the cure."""
import re
import textwrap

WIDTH = 100
MOST_POINTS = 12
# keywords that end or divide what stands before them, and what may stand before a name that is declared or defined
CLOSING = {'tel', 'end', 'else', 'then', 'do', 'until', 'unless', 'every', 'state', 'continue'}
NAME_FOLLOWS = {'(', ',', ';', 'node', 'type', 'var', 'last', 'let'}
# words and lines that hept says on standard output, which may be mixed with its diagnostics
SAID = re.compile(r'accepted|win|lose \d+')


class Told:
    """What is told of a line; marks are places of the source, each with the width of its carets and a note."""

    def __init__(self, entry, words):
        self.entry, self.words = entry, words
        name = words.get('NAME', '')
        texts = entry.data.get('constructor', entry.data) if name[:1].isupper() or name in ('true', 'false') else entry.data
        self.title = entry.filled(texts['title'], words).replace('instant(s)', 'instant' if words.get('N') == '1' else 'instants')
        self.cause = entry.filled(texts['cause'], words)
        self.cure = entry.filled(texts['cure'], words)
        self.marks = []


def numbers(place):
    line, column = place.split(':')
    return int(line), int(column)


def told(data, line, source):
    """What is told of the line, with the places of the source text, where there is one; nothing of a line that is none."""
    found = data.find(line)
    if found is None:
        return None
    entry, words = found
    it = Told(entry, words)
    place = words.get('PLACE') or words.get('WHERE')
    if place and re.fullmatch(r'\d+:\d+', place):
        it.marks.append((*numbers(place), None, ''))
    if 'LIMIT' in words and int(words['LIMIT']) == entry.data.get('executed'):
        it.cause += ' Here it is the limit of `exec`.'
    if source is not None:
        look_closer(data, it, source)
    elif entry.code == 'E9':
        mark_points(it)
    return it


def look_closer(data, it, source):
    """What the source text tells beyond the line."""
    code = it.entry.code
    if code in ('E1', 'E2', 'E4') and it.marks:
        name_feature(data, it, source)
        mark_name(it, source)
    elif code == 'E7':
        mark_sampled(it, source)
    elif code == 'E8':
        mark_delays(it, source)
    elif code == 'E9':
        mark_points(it)
    elif code == 'E11':
        place = source.contract(it.words['NODE'])
        if place:
            it.marks.append((*place, None, 'this contract'))
    elif code == 'E3' and not it.marks:
        mark_node(it, source)
    elif code == 'E12':
        names = source.nodes()
        it.cure = f'There are: {", ".join(names[:40])}.' if names else 'There are none.'


def mark_node(it, source):
    """Marks the name of the node that passes a limit."""
    heading = source.heading(it.words.get('WHERE', '-'))
    if heading:
        it.marks.append((*source.place(heading[1][1]), None, ''))


def name_feature(data, it, source):
    """Of a token that is refused: whether it is a keyword, or belongs to what the language does not have."""
    line, column = it.marks[0][:2]
    word = it.words.get('NAME') or source.token(line, column)
    missing = missing_of(data, it.entry.code, word, source, line, column)
    if missing:
        it.title, it.cause, it.cure = f'not in this language: {missing["name"]}', '', missing['instead']
    elif it.entry.code == 'E1':
        name_bad_token(it, word)
    elif it.entry.code == 'E2':
        name_bad_syntax(data, it, source)


def mark_name(it, source):
    """Marks the name that is meant, where it stands behind the place, in the same declaration or equation."""
    line, column = it.marks[0][:2]
    name = it.words.get('NAME')
    if name is None or source.token(line, column) == name:
        return
    place = source.behind(line, column, name)
    if place is not None:
        it.marks.append((*place, None, f'`{name}`'))


def name_bad_syntax(data, it, source):
    """Of a token with which no program goes on: what it is, and what may be missing before it."""
    line, column = it.marks[0][:2]
    word, before = source.token(line, column), (source.before(line, column) or [''])[-1]
    if source.is_end(line, column):
        it.title, it.cause, it.cure = 'the text ends too early', '', 'Is a `tel` or an `end` missing, or a token after the last one?'
    elif word in data.keywords and word not in CLOSING and before in NAME_FOLLOWS:
        it.title, it.cause, it.cure = f'`{word}` is a keyword and no name', f'`{word}`: {data.keywords[word]}.', 'Choose another name.'
    elif word in data.keywords:
        it.title, it.cause = f'`{word}` cannot stand here', f'`{word}`: {data.keywords[word]}.'
        it.cure = 'Is something missing before it: a `;`, an operand, an `end`? Or is there a `;` or a word too many?'
    elif source.is_first(line, column) and re.fullmatch(r'[a-z]\w*|\(', word):
        it.title = f'`{word}` cannot stand here'
        it.cure = f'Is a `;` missing behind `{before}`?'


def name_bad_token(it, word):
    if word.startswith('('):
        it.title, it.cause, it.cure = 'this comment is never closed', 'Comments may stand in each other: each `(*` needs a `*)` of its own.', 'Close it with `*)`.'
    elif word.isdigit():
        it.title, it.cause, it.cure = 'this number is above 2147483647', 'Integers have 32 bits.', 'The least integer is written `-2147483647 - 1`.'


def missing_of(data, code, word, source, line, column):
    """What other languages have at this place, the entry that says most of it."""
    before = source.before(line, column)
    text = source.line(line).decode('latin-1')
    found = [(max(fit_sign(it, text, column), fit(it, code, word, before)), it) for it in data.missing if is_within(it, before)]
    best = max(found, key=lambda it: it[0], default=(0, None))
    return best[1] if best[0] else None


def is_within(missing, before):
    """Whether the part of the text that the place is in begins as the entry says."""
    if 'within' not in missing:
        return True
    begins = next((it for it in reversed(before) if it in ('until', 'unless', ';', '=', 'do', 'let', 'tel', 'end')), '')
    return begins in missing['within']


def fit_sign(missing, text, column):
    """How well a sign of the entry fits the place, or stands before it on the line as that of a comment may: 0 where it does not."""
    signs = [it for it in missing.get('at', []) if len(it) > 1 and not it[0].isalnum() and it != '->']
    if any(it in text[:column] for it in signs if it in ('--', '//', '/*')):
        return 5
    return 4 if any(text.startswith(it, column - 1) or text.startswith(it, column - 2) for it in signs) else 0


def fit(missing, code, word, before):
    """How well the words of the entry fit the place: 0 where they do not."""
    if code != missing['line'].split()[0]:
        return 0
    at, after = missing.get('at', []), missing.get('after', [])
    is_at = word in at or ('Capital' in at and word[:1].isupper()) or ('_' in at and word[:1] == '_')
    is_after = bool(before) and before[-1] in after
    if at and after:
        return 3 if is_at and is_after else 0
    if after:
        return 2 if is_after else 0
    return 1 if is_at else 0


def names_of(found):
    """The names that an equation reads, of the tokens of its right side."""
    right = found[next((i for i, it in enumerate(found) if it[0] == '='), -1) + 1:]
    return [it for i, it in enumerate(right) if re.fullmatch(r'[a-z]\w*', it[0]) and (i == 0 or right[i - 1][0] not in ('when', 'whenot', 'merge'))]


def defined(source, node, name):
    """The tokens of the equation of this name in the node."""
    at = source.definitions(node).get(name)
    return [] if at is None else source.rest(*source.place(at))


def mark_sampled(it, source):
    """Marks the samples of the equation, and each name that is defined by a sample."""
    found = source.rest(*it.marks[0][:2])
    for word, line, column in found:
        if word in ('when', 'whenot'):
            it.marks.append((line, column, None, 'sampled here'))
    for name, line, column in names_of(found):
        there = defined(source, it.words['NODE'], name)
        if any(word in ('when', 'whenot') for word, _, _ in there) and not any(word == 'merge' for word, _, _ in there):
            it.marks.append((line, column, None, f'`{name}` is sampled, in line {there[0][1]}'))


def mark_delays(it, source):
    """Marks each `pre` of the equation, or else each name that is defined by one."""
    found = source.rest(*it.marks[0][:2])
    delays = [(line, column) for word, line, column in found if word == 'pre']
    it.marks += [(line, column, None, 'no value at the first instant') for line, column in delays]
    for name, line, column in names_of(found) if not delays else []:
        there = defined(source, it.words['NODE'], name)
        if any(word == 'pre' for word, _, _ in there):
            it.marks.append((line, column, None, f'`{name}` is defined by `pre`, in line {there[0][1]}'))


def mark_points(it):
    points = [point.split('@') for point in it.words['POINTS'].split(' ')]
    for (name, place), (behind, _) in list(zip(points, points[1:]))[:MOST_POINTS]:
        it.marks.append((*numbers(place), None, f'`{name}` reads {"itself" if len(points) == 2 else f"`{behind}`"}'))
    if len(points) - 1 > MOST_POINTS:
        it.cause += f' The cycle has {len(points) - 1} points, of which the first {MOST_POINTS} are shown.'


def wrapped(head, text):
    """The text behind a word, in lines of at most WIDTH columns."""
    return textwrap.wrap(text, WIDTH, initial_indent=head, subsequent_indent=' ' * len(head), break_long_words=False, break_on_hyphens=False)


def shown_marks(it, source):
    """The lines of the source at the marks, with carets."""
    edge = max((len(str(line)) for line, *_ in it.marks), default=1)
    lines, last = [], None
    for line, column, width, note in dict.fromkeys(it.marks):
        if source is None:
            lines.append(f'{" " * edge}--> {line}:{column}{": " + note if note else ""}')
            continue
        text, before, part = source.shown(line, column, width or len(source.token(line, column)) or 1)
        if line != last:
            if last is None:
                lines.append(f'{" " * edge}--> {source.path}:{line}:{column}')
            lines.append(f'{line:>{edge}} | {cut(text, before)[0]}'.rstrip())
        before = cut(text, before)[1]
        lines.append(f'{" " * edge} | {" " * before}{"^" * part}{" " + note if note else ""}')
        last = line
    return lines


def cut(text, before):
    """A part of a long line, with where the carets begin in it."""
    if len(text) <= 200 or before <= 100:
        return text[:200] + (' ..' if len(text) > 200 else ''), before
    return '.. ' + text[before - 80:before + 80], 83


def lines_of(it, source):
    """All lines that are shown."""
    # editors read the title and the first place, so each is one line
    lines = [f'error[{it.entry.code.rstrip(":")}]: {it.title}', *shown_marks(it, source)]
    if it.cause:
        lines += wrapped('  = cause: ', it.cause)
    if it.cure:
        lines += wrapped('  = cure: ', it.cure)
    return lines


def status_lines(status, why=''):
    """What is shown of a status that comes without a line."""
    lines = wrapped(f'error[status {status["number"]}]: ', status['title'])
    if why:
        lines += wrapped('  = here: ', why)
    lines += wrapped('  = cause: ', status['cause'])
    if 'cure' in status:
        lines += wrapped('  = cure: ', status['cure'])
    return lines
