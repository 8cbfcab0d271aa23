"""Runs the program, and compares what it and Python's sqlite3 read of its file with the cookies after some calls."""
import itertools
import os
import shutil
import sqlite3
import subprocess
import tempfile
from contextlib import contextmanager
from typing import NamedTuple

from common import ROOT
from durable_parts.calls import listing

NAME = 'cookies.sqlite'
FILES = (NAME, f'{NAME}-wal')
COLUMNS = 'host, path, name, value, expiry'
NO_TABLE = ('no such table: cookies', 'file is not a database')  # the first byte of a new database is written last
SECONDS = 60  # that a run may take
AT_ONCE = 16  # files that are in memory at once
KEPT = f'{ROOT}/out/durable'  # the files of a failure


class Failed(Exception):
    """A file, or a run, that is not as it must be, and why."""


class Run(NamedTuple):
    """A run: its exit status, the lines that it printed for calls, those after them, and its error."""
    status: int
    replies: list
    cookies: list
    error: str


def file_of(folder):
    return os.path.join(folder, NAME)


def text_of(calls):
    return ''.join(f'{line}\n' for call in calls for line in call.lines()).encode()


def run_of(status, printed, errors, calls):
    """The run that printed this. A line without its line feed does not count."""
    lines = printed.decode().split('\n')[:-1]
    return Run(status, lines[:len(calls)], lines[len(calls):], errors.decode().strip())


def run(program, folder, calls, variables=None):
    """Runs the program to its end on the file in a folder."""
    try:
        done = subprocess.run([program, file_of(folder)], input=text_of(calls), capture_output=True, timeout=SECONDS,
                              env={**os.environ, **(variables or {})})
    except subprocess.TimeoutExpired:
        raise Failed(f'a run took more than {SECONDS} seconds')
    return run_of(done.returncode, done.stdout, done.stderr, calls)


@contextmanager
def opened(command, lines, count=1):
    """A process that has a file open once it has printed `count` lines, which it gives. It ends with its input."""
    with subprocess.Popen(command, stdin=subprocess.PIPE, stdout=subprocess.PIPE) as process:
        assert process.stdin and process.stdout
        process.stdin.write(lines)
        process.stdin.flush()
        yield b''.join(process.stdout.readline() for _ in range(count))
        process.communicate()


def copy_open(program, history, folder):
    """Makes a folder of the files as they are once the program has executed all calls, and has not closed them."""
    with tempfile.TemporaryDirectory(dir=os.path.dirname(folder)) as room:
        with opened([program, file_of(room)], text_of(history.calls), len(history.calls)) as printed:
            shutil.copytree(room, folder)
        if check_replies(history, run_of(0, printed, b'', history.calls)) < len(history.calls):
            raise Failed('the program ends before its input')


def check_replies(history, done):
    """The program printed what the model does, as far as it came. Returns how many calls it acknowledged."""
    for call, own, expected in zip(history.calls, done.replies, history.replies):
        if own != expected:
            raise Failed(f'{call.line()[:100]}: {own[:100]}, and not {expected}')
    return len(done.replies)


def check_whole(history, done):
    """The run executed all calls, and printed the cookies after them."""
    acknowledged = check_replies(history, done)
    if (done.status, done.error, acknowledged) != (0, '', len(history.calls)):
        raise Failed(f'status {done.status} after {acknowledged} of {len(history.calls)} calls: {done.error or "no error"}')
    if sorted(done.cookies) != listing(history.states[-1]):
        raise Failed('the program lists other cookies than the model')


def rows_by_sqlite(folder):
    """The rows of the file by Python's sqlite3, in creation order; an empty list without a table. The files may change."""
    if not os.path.exists(file_of(folder)):
        return []
    database = sqlite3.connect(file_of(folder))
    try:
        rows = database.execute(f'SELECT {COLUMNS} FROM cookies ORDER BY id').fetchall()
        faults = database.execute('PRAGMA integrity_check').fetchall()
    except sqlite3.DatabaseError as error:
        if str(error) in NO_TABLE:
            return []
        raise Failed(f'sqlite3: {error}')
    finally:
        database.close()
    if faults != [('ok',)]:
        raise Failed(f'sqlite3 finds the file damaged: {faults[0][0]}')
    return rows


def cookies_by_program(program, folder):
    """The lines by which the program lists the cookies of the file, sorted. The files may change."""
    done = run(program, folder, [])
    if (done.status, done.error) != (0, ''):
        raise Failed(f'the program does not open the file: status {done.status}, {done.error}')
    return sorted(done.cookies)


def calls_done(found, states, reader):
    """How many calls are done by what was found, if `states` is what may be found after 0, 1 .. calls."""
    if found not in states:
        raise Failed(f'{reader} finds {len(found)} cookies, which are not those after the first calls')
    return states.index(found)


def check_copies(program, folder, allowed, room):
    """Returns how many calls are done by the program, of those that the states are after. Copies the files into a room."""
    copied, opened = shutil.copytree(folder, f'{room}/copied'), shutil.copytree(folder, f'{room}/opened')
    calls_done(rows_by_sqlite(copied), allowed, 'sqlite3')
    done = calls_done(cookies_by_program(program, opened), [listing(state) for state in allowed], 'the program')
    if rows_by_sqlite(opened) != allowed[done]:
        raise Failed('sqlite3 finds other cookies once the program has opened the file')
    return done


def check_prefix(program, folder, history, acknowledged, is_stopped=False):
    """The file holds the cookies after the acknowledged calls, or those of the next commit too, as `may_hold` says: by sqlite3 and by
    the program, and by sqlite3 once the program has opened it. Returns how many calls it holds. The files of the folder stay as they
    are."""
    may_hold = history.may_hold(acknowledged, is_stopped)
    with tempfile.TemporaryDirectory(dir=os.path.dirname(folder)) as room:
        try:
            return may_hold[check_copies(program, folder, [history.states[count] for count in may_hold], room)]
        except Failed as why:
            shutil.copytree(folder, KEPT, dirs_exist_ok=True)
            raise Failed(f'after {acknowledged} acknowledged calls {why}; {KEPT} has the files')


def mapped(pool, function, items):
    """The results of a function for items of which few are in memory at once."""
    items = iter(items)
    for batch in iter(lambda: list(itertools.islice(items, AT_ONCE)), []):
        yield from pool.map(function, batch)
