"""A trace and what hept answers to it, line by line."""
import queue
import subprocess
import threading

from . import program
from .ending import Wrong
from .machines import Signal, signature

BLOCK = 1 << 16
CONTRACT = [Signal('assume', 'bool'), Signal('enforce', 'bool')]


class Run:
    """A run of a node over the lines of a stream: `inputs`, `outputs` and `words` (of its contract) are its signals."""

    def __init__(self, path, node, contract):
        self.inputs, self.outputs = signature(program.machines_of(path), node)
        is_text = program.is_machines(path)
        if is_text and contract:
            raise Wrong('a text of machines has no contracts; name the source text', 2)
        self.words = list(CONTRACT) if contract else []
        self.call = ['exec' if is_text else 'run', path, node] + (['--contract'] if contract else [])
        self.signals = self.inputs + self.outputs + self.words

    def instants(self, stream):
        """The values of each instant, inputs and then outputs, as lists of words; lines are read on only as they are answered."""
        child = subprocess.Popen([program.find(), *self.call], stdin=subprocess.PIPE, stdout=subprocess.PIPE, stderr=subprocess.PIPE)
        blocks, told, stopped = queue.Queue(8), [], threading.Event()
        feeder = threading.Thread(target=feed, args=(stream, child.stdin, blocks, stopped), daemon=True)
        reader = threading.Thread(target=lambda: told.append(child.stderr.read(4096)) or child.stderr.read(), daemon=True)
        feeder.start()
        reader.start()
        try:
            yield from self.answers(child, blocks)
            status = child.wait()
            reader.join()
            if status:
                raise Wrong(program.told(status, told[0]), status if status > 0 else 70)
        finally:
            stopped.set()
            child.kill()
            child.wait()

    def answers(self, child, blocks):
        """The lines of each block of input, each with its answer, until one has none."""
        width = len(self.outputs)
        while True:
            block = blocks.get()
            if block is None:
                return
            if isinstance(block, BaseException):
                raise block
            for line in block:
                answer = child.stdout.readline()
                if not answer.endswith(b'\n'):
                    return
                found = answer.split()
                for at in range(width, len(found)):
                    found[at] = found[at].partition(b'=')[2]
                yield line.split() + found


def feed(stream, sink, blocks, stopped):
    """Hands on a stream in blocks of whole lines: first to who pairs them with their answers, and then to the program."""
    rest = b''
    try:
        while not stopped.is_set():
            more = stream.read1(BLOCK)
            text = rest + more
            cut = text.rfind(b'\n') + 1 if more else len(text)
            block, rest = text[:cut], text[cut:]
            if len(rest) > 1 << 20:
                block, rest = rest, b''
            if block:
                blocks.put(block.split(b'\n')[:-1] if block.endswith(b'\n') else block.split(b'\n'))
                sink.write(block)
                sink.flush()
            if not more:
                break
    except BrokenPipeError:
        pass
    except Exception as error:
        blocks.put(error)
    finally:
        try:
            sink.close()
        except OSError:
            pass
        blocks.put(None)
