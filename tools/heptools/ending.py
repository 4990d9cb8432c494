"""How a tool reads its words and how it ends: what goes wrong is one line on standard error and a status that is not 0."""
import argparse
import os
import sys


class Wrong(Exception):
    """What the user is told, and the status of the tool."""

    def __init__(self, message, status=1):
        super().__init__(message)
        self.status = status


class Words(argparse.ArgumentParser):
    """The words of a tool; wrong ones are told in one line."""

    def error(self, message):
        raise Wrong(f'{message}; --help says which words there are', 2)


def one_line(text):
    """The text as one line that shows on any terminal."""
    shown = ''.join(c if c.isprintable() else ' ' for c in str(text).replace('\n', '; '))
    return shown if len(shown) <= 400 else shown[:400] + ' ..'


def reason(error):
    """What an error of the system says."""
    said = error.strerror or type(error).__name__
    return f'{error.filename}: {said}' if error.filename is not None else said


def say(tool, text):
    """Writes a line on standard error, where there is one."""
    try:
        if sys.stderr is not None:
            sys.stderr.write(f'{tool}: {one_line(text)}\n')
            sys.stderr.flush()
    except OSError:
        pass


def status_of(tool, main, words):
    """What the tool ends with."""
    try:
        if sys.stdout is None:
            raise Wrong('standard output is closed', 5)
        status = main(words)
        sys.stdout.flush()
        return status
    except SystemExit as end:
        return end.code or 0
    except Wrong as wrong:
        say(tool, wrong)
        return wrong.status
    except BrokenPipeError:
        say(tool, 'standard output was closed before all was written')
        return 5
    except OSError as error:
        say(tool, reason(error))
        return 4
    except KeyboardInterrupt:
        say(tool, 'stopped')
        return 130
    except MemoryError:
        say(tool, 'there is not enough memory')
        return 6
    except Exception as error:
        say(tool, f'a fault of the tool itself: {type(error).__name__}: {error}')
        return 70


def end(tool, main):
    """Runs the tool and ends the process. What could not be flushed is not tried again."""
    status = status_of(tool, main, sys.argv[1:])
    try:
        if sys.stdout is not None:
            sys.stdout.flush()
    except OSError as error:
        if status == 0:
            say(tool, reason(error))
            status = 5
    os._exit(status)
