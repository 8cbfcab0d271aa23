"""The corpus of the fuzzers: inputs that are kept, in corpus/KIND.txt. Each is a line, a literal of Python (bytes with escapes, or
a tuple, list or dict of them), below a comment that says what it is about."""
import ast
import os
from typing import Any, NamedTuple

from common import read, stop

FOLDER = f'{os.path.dirname(os.path.abspath(__file__))}/corpus'
FAULTS = (SyntaxError, ValueError)  # of a line that is no literal


class Failed(Exception):
    """An input that fails a check, and why."""


class Entry(NamedTuple):
    place: str  # its file and line
    title: str
    value: Any


def entries(kind):
    """The entries of a kind, in the order of its file."""
    title = ''
    for number, line in enumerate(read(f'{FOLDER}/{kind}.txt').split('\n'), 1):
        if line.startswith('#'):
            title = line[1:].strip()
        elif line:
            try:
                yield Entry(f'{kind}.txt:{number}', title, ast.literal_eval(line))
            except FAULTS as fault:
                stop(f'{kind}.txt:{number}: {fault}')


def values(kind):
    return [entry.value for entry in entries(kind)]


def stop_with(message, kind, *values):
    """Prints entries for the corpus, with the message as their comment, and stops with it."""
    print(f'To be appended to tools/fuzz_parts/corpus/{kind}.txt:')
    for value in values:
        print(f'# {message[:100]}\n{value!r}', flush=True)
    stop(message)


def stop_unless_built(path):
    """Stops if a program or a library is not built."""
    if not os.path.isfile(path):
        stop(f'{path} is not built: run rt ci, and tools/install --archive-only for the archive')
