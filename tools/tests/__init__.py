"""Tests of the tools. Those over the real program take crates/hp_main/out/hp_main as `rt ci` or ./build left it, and fail where it is not there."""
import os
import subprocess
import sys

sys.dont_write_bytecode = True
TOOLS = os.path.dirname(os.path.dirname(os.path.abspath(__file__)))
TOP = os.path.dirname(TOOLS)
PROGRAM = os.path.join(TOP, 'crates', 'hp_main', 'out', 'hp_main')
EXAMPLES = os.path.join(TOP, 'examples')


def program():
    """The real program."""
    if not os.access(PROGRAM, os.X_OK):
        raise AssertionError(f'{PROGRAM} is not there: rt ci or ./build leaves it')
    return PROGRAM


def surroundings(hept=None):
    """The environment of a tool: over the real program, or another."""
    kept = {name: value for name, value in os.environ.items() if name not in ('HEPT', 'COLUMNS')}
    return {**kept, 'HEPT': hept or PROGRAM, 'PYTHONDONTWRITEBYTECODE': '1', 'LC_ALL': 'C.UTF-8'}


def tool(name, *words, text=b'', folder=None, hept=None, **ways):
    """Runs a tool, and gives how it ended and what it wrote."""
    ways = {'input': text, **ways} if 'stdin' not in ways else ways
    return subprocess.run([os.path.join(TOOLS, name), *words], capture_output='stdout' not in ways, cwd=folder, env=surroundings(hept), timeout=170, **ways)


def hept(*words, text=b'', folder=None):
    """Runs the real program."""
    return subprocess.run([program(), *words], input=text, capture_output=True, cwd=folder, timeout=170)
