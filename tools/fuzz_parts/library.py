"""What the fuzzers of the C library share: what they need of the machine, compiling their programs, and running them."""
import contextlib
import itertools
import os
import random
import subprocess
import time

from common import ARCHIVE, c_compiler, compile_c, install
from fuzz_parts.corpus_files import stop_unless_built


def add_archive(parser):
    parser.add_argument('--archive', metavar='FILE', default=ARCHIVE, help='another build of the C library (COOKIE_STORE_ARCHIVE)')


def add_run(parser, seconds=60):
    parser.add_argument('--seconds', type=float, default=seconds, help=f'how long it runs, by default {seconds}')
    parser.add_argument('--seed', type=int, default=random.SystemRandom().randrange(2**32), help='by default a random one')


def has_header(name):
    """Whether the C compiler finds a header."""
    command = [c_compiler(), '-fsyntax-only', '-x', 'c', '-']
    return subprocess.run(command, input=f'#include <{name}>\n'.encode(), capture_output=True).returncode == 0


def reason_to_skip(header=None):
    """What this machine lacks to compile a program, which may need a header, or None."""
    if not c_compiler() or not has_header('stdio.h'):
        return 'there is no C compiler'
    return None if header is None or has_header(header) else f'there is no header {header}'


def compile_part(name, folder, archive, *arguments):
    """Compiles a program of fuzz_parts with the C library, which is installed in the folder if it is not there. Returns its path."""
    stop_unless_built(archive)
    if not os.path.exists(f'{folder}/lib'):
        install(folder, os.path.realpath(archive))
    return compile_c(f'{folder}/{name}', '-std=gnu11', '-Wall', '-Wextra', '-Werror', f'tools/fuzz_parts/{name}.c', '-I',
                     f'{folder}/include', f'{folder}/lib/libcookie_store.a', *arguments)


def feed(command, pieces, folder):
    """Runs a command on pieces of input, up to its end or theirs. Returns its status, and what it printed on both outputs."""
    with open(f'{folder}/stdout', 'w+b') as out, open(f'{folder}/stderr', 'w+b') as errors:
        process = subprocess.Popen(command, stdin=subprocess.PIPE, stdout=out, stderr=errors)
        assert process.stdin
        with contextlib.suppress(BrokenPipeError):
            process.stdin.writelines(pieces)
        with contextlib.suppress(BrokenPipeError):
            process.stdin.close()
        process.wait()
        out.seek(0)
        errors.seek(0)
        return process.returncode, out.read(), errors.read()


def until(seconds):
    """Counts from 0 until the time, from the first number on, is over."""
    ends = time.monotonic() + seconds
    yield from itertools.takewhile(lambda _: time.monotonic() < ends, itertools.count())


def generator(seed, number):
    """The random numbers of one input of a run."""
    return random.Random(seed * 1_000_003 + number)
