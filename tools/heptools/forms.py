"""Which words are a call of hept."""
import re

# the options that a command may have, and how many arguments it has
OPTIONS = {'check': ['--print'], 'run': ['--contract']}
ARGUMENTS = {'check': 1, 'run': 2, 'compile': 2, 'exec': 2, 'prove': 3, 'verify': 3, 'sweep': 2, 'past': 2, 'save': 3, 'resume': 4}
USAGE = 'usage: hept check run compile exec prove verify sweep past save resume'


def arguments(words):
    """The arguments of a call, without its option; nothing where the words are no call."""
    if not words or words[0] not in ARGUMENTS:
        return None
    behind = list(words[1:])
    for option in OPTIONS.get(words[0], []):
        if option in behind:
            behind.remove(option)
    if len(behind) != ARGUMENTS[words[0]] or any(it.startswith('-') for it in behind):
        return None
    if words[0] == 'sweep' and not is_sweep(*behind):
        return None
    return behind


def is_sweep(tasks, instants):
    """Whether these are 1 to 8 tasks and at most 1,000,000 instants."""
    counts = [it.lstrip('0') for it in (tasks, instants)]
    if not all(re.fullmatch(r'[0-9]+', it) for it in (tasks, instants)) or any(len(it) > 7 for it in counts):
        return False
    return 1 <= int(counts[0] or '0') <= 8 and int(counts[1] or '0') <= 1_000_000
