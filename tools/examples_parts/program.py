"""Runs cookie_jar, and compares a run with what it must be."""
import subprocess
from typing import NamedTuple

SECONDS = 60  # that a run may take


class Failed(Exception):
    """A run that is not as it must be, and why."""


class Run(NamedTuple):
    """A run: its exit status, and what it printed on standard output and on standard error."""
    status: int
    output: bytes
    error: bytes


class Case(NamedTuple):
    """Arguments and input, and what the program prints for them: the output, or the message of an error, with its status."""
    title: str
    words: list
    input: bytes
    output: bytes = b''
    status: int = 0
    message: str = ''
    name: str = 'cookie_jar'  # by which the program is run


def succeeds(output):
    """The run that ends well and prints this."""
    return Run(0, output, b'')


def fails(status, message, output=b''):
    """The run that ends with this message, after this output."""
    return Run(status, output, f'cookie_jar: {message}\n'.encode())


def run(program, words, source, name='cookie_jar', **options):
    """Runs the program on bytes, or on an open file."""
    standard_input: dict = {'input': source} if isinstance(source, bytes) else {'stdin': source}
    try:
        done = subprocess.run([name, *words], executable=program, stdout=subprocess.PIPE, stderr=subprocess.PIPE,
                              timeout=SECONDS, **standard_input, **options)
    except subprocess.TimeoutExpired:
        raise Failed(f'a run took more than {SECONDS} seconds')
    return Run(done.returncode, done.stdout, done.stderr)


def shown(run):
    """A run in few characters."""
    return f'status {run.status}, {len(run.output)} bytes .. {run.output[-200:]!r}, {run.error[-200:]!r}'


def check_run(done, wanted):
    if done != wanted:
        raise Failed(f'{shown(done)}, and not {shown(wanted)}')


def check_case(program, case, folder):
    """Runs a case in a folder."""
    done = run(program, case.words, case.input, case.name, cwd=folder)
    check_run(done, fails(case.status, case.message) if case.message else succeeds(case.output))
