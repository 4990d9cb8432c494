"""The program hept: where it stands, and calls of it."""
import os
import shutil
import subprocess
import tempfile

from .ending import Wrong

# the folder of the tools, as installed or in the repository
HOME = os.path.dirname(os.path.dirname(os.path.realpath(__file__)))


def places():
    """Where the program may stand: in the repository the built one before the script, and beside the installed tools."""
    top = os.path.dirname(HOME)
    yield os.path.join(top, 'crates', 'hp_main', 'out', 'hp_main')
    yield os.path.join(top, 'hept')
    yield os.path.join(os.path.dirname(top), 'bin', 'hept')


def why_places():
    """Where the program hp_why may stand: in the repository as it was built, and beside the installed tools."""
    yield os.path.join(os.path.dirname(HOME), 'crates', 'hp_why', 'out', 'hp_why')
    yield os.path.join(HOME, 'hp_why')


def find_why():
    """The program that explains contracts: $HEPT_WHY, else the one that belongs to the tools."""
    named = os.environ.get('HEPT_WHY')
    for place in [named] if named else why_places():
        if os.path.isfile(place) and os.access(place, os.X_OK):
            return place
    raise Wrong(f'$HEPT_WHY names no program: {named}' if named else 'there is no program hp_why; build it with ./build, or name it in $HEPT_WHY', 70)


def find():
    """The program that is called: $HEPT, else the one that belongs to the tools, else that of the search path."""
    named = os.environ.get('HEPT')
    if named:
        if not os.access(named, os.X_OK) or os.path.isdir(named):
            raise Wrong(f'$HEPT names no program: {named}', 70)
        return named
    for place in places():
        if os.path.isfile(place) and os.access(place, os.X_OK):
            return place
    found = shutil.which('hept')
    if found is None:
        raise Wrong('there is no program hept; build it with ./build, or name it in $HEPT', 70)
    return found


def told(status, diagnostics):
    """In one line why a call of hept ended so."""
    lines = diagnostics.decode('utf-8', 'replace').split('\n')
    first = next((line for line in lines if line), 'nothing was said')
    return f'hept ended with status {status}: {first.removeprefix("hept: ")}'


def call(words, text=b'', timeout=None):
    """A call of hept over a short input, for so many seconds at most."""
    done = subprocess.run([find(), *words], input=text, stdout=subprocess.PIPE, stderr=subprocess.PIPE, timeout=timeout)
    if done.returncode < 0:
        raise Wrong(f'hept was ended by signal {-done.returncode}', 70)
    return done


def is_machines(path):
    """Whether the file begins like a text of machines."""
    with open(path, 'rb') as file:
        return file.read(4096).lstrip(b' \t\r\n').startswith(b'obc')


def machines_of(path):
    """The text of machines of a file: its own, or that of the program in it."""
    if is_machines(path):
        with open(path, 'rb') as file:
            return file.read()
    with tempfile.TemporaryDirectory() as folder:
        out = os.path.join(folder, 'out.obc')
        done = call(['compile', path, out])
        if done.returncode:
            raise Wrong(told(done.returncode, done.stderr), done.returncode)
        with open(out, 'rb') as file:
            return file.read()
