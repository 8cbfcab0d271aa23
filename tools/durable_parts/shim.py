"""tools/file_calls.c and tools/fail_allocation.c: their variables, by which they make calls fail, and what the former recorded."""
import os
import shutil
import subprocess
from typing import NamedTuple

from common import ROOT, output, stop

SOURCES = ('tools/file_calls.c', 'tools/fail_allocation.c')


def compilers():
    """The C compilers of the machine, and the toolchain's, which has no C library."""
    yield from ([path] for path in map(shutil.which, ('clang', 'cc', 'gcc')) if path)
    yield [os.path.join(os.path.dirname(output('rt', 'doc')), 'toolchain/bin/clang'), '-fuse-ld=lld']


def compiled(folder):
    """The path of the library that they make."""
    path = f'{folder}/faults.so'
    for compiler in compilers():
        command = [*compiler, '-O2', '-shared', '-fPIC', '-nostdlib', '-o', path, *SOURCES]
        if subprocess.run(command, cwd=ROOT, stderr=subprocess.DEVNULL).returncode == 0:
            return path
    return stop(f'no C compiler compiles {" and ".join(SOURCES)}')


def preloaded(library, folder, **variables):
    """The variables of a run whose calls on the files of the folder count."""
    return {'LD_PRELOAD': library, 'CALLS_FOLDER': folder, **{name: str(value) for name, value in variables.items()}}


class Event(NamedTuple):
    """A call that succeeded: `write`, `cut`, `sync` or `print`; its offset or new length; what it wrote, and the file's name."""
    call: str
    place: int
    data: bytes
    name: str


def events(path):
    """What was recorded, in order."""
    with open(path, 'rb') as file:
        record = file.read()
    at = 0
    while at < len(record):
        end = record.index(b'\n', at)
        call, place, length, name = record[at:end].decode().split(' ', 3)
        at = end + 1 + int(length)
        yield Event(call, int(place), record[end + 1:at], name)
