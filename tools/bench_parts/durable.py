"""Times the calls of durable_session, which commits their changes, beside the same changes by Python's sqlite3.
Usage: tools/bench durable [--folder FOLDER] [CALLS]

Prints how many calls end in a second, by the clock, as they wait for the disk: cookies that are inserted, by default 2,000, and then
replaced, with 1, 10 and 100 calls a commit. Python's sqlite3 executes an INSERT OR REPLACE of the same rows by their ids, in WAL mode,
with synchronous=FULL. Both run in turn, and the best of five runs counts. A ratio is the time of sqlite3 divided by ours. Then it
prints the time to open a file with 100,000 cookies, and that in which sqlite3 fetches their rows. DURABLE_SESSION names another build.

Exit status: 0; 1 if the program fails, or with a commit for each call takes more than 1.5 times the time of sqlite3 on an idle
machine."""
import os
import sqlite3
import subprocess
import tempfile
import time
from contextlib import closing

from bench_parts import report
from common import ROOT, SESSION, first_match, machine, read, stop

OPTIONS: list = []
PEER = "Python's sqlite3"
RUNS, MANY = 5, 100_000
CALLS_PER_COMMIT = (1, 10, 100)
LEAST = 1 / 1.5  # the least ratio, with a commit for each call
INSERT = f'INSERT OR REPLACE INTO cookies VALUES ({", ".join("?" * 15)})'
NONE = 'remove none.example / none\n'  # a call that changes nothing


def add_arguments(parser):
    parser.add_argument('--folder', metavar='FOLDER', help='where the files are, by default in that of temporary files')
    parser.add_argument('CALLS', type=int, nargs='?', default=2000)


def cookie(number, value):
    """Host, name and value of a cookie: 20 a host."""
    return f'host{number // 20}.example', f'name{number % 20}', f'{value}{number:031d}'


def lines(count, value, per_commit=1):
    """The lines of these calls, with `per_commit` of them a commit."""
    for number, (host, name, text) in enumerate(cookie(number, value) for number in range(count)):
        if per_commit > 1 and number % per_commit == 0:
            yield 'begin\n'
        yield f'set http://{host}/ {name}={text}; Path=/; Max-Age=86400; HttpOnly\n'
        if per_commit > 1 and (number % per_commit == per_commit - 1 or number == count - 1):
            yield 'commit\n'


def rows(count, value):
    """The rows of the table `cookies` for these calls."""
    return [(number + 1, host, 0, '/', 1, name, text, '2026-01-02T00:00:00Z', None, 1, None, None, '/', 86400, None)
            for number in range(count) for host, name, text in [cookie(number, value)]]


def created(path):
    """A new database with the table."""
    database = sqlite3.connect(path, isolation_level=None)
    database.execute('PRAGMA journal_mode = WAL')
    database.execute('PRAGMA synchronous = FULL')
    database.execute(first_match(r'CREATE_TABLE: &str =\s*"(.*)";', read(f'{ROOT}/crates/cookie_table/src/writing.rt'))[1])
    return database


def own_seconds(path, input_lines, count):
    """When each of `count` calls has its reply, from the start of the program on."""
    with tempfile.TemporaryFile('w+') as file:
        file.writelines(input_lines)
        file.seek(0)
        begun = time.perf_counter()
        with subprocess.Popen([SESSION, path], stdin=file, stdout=subprocess.PIPE) as program:
            assert program.stdout
            times = [time.perf_counter() - begun for _ in range(count) if program.stdout.readline()]
            program.stdout.read()
    if program.returncode or len(times) != count:
        stop(f'{SESSION} failed with status {program.returncode}')
    return times


def own_calls(path, count, per_commit):
    """The seconds of `count` insertions, and of as many replacements."""
    times = own_seconds(path, [NONE, *lines(count, 'a', per_commit), *lines(count, 'b', per_commit)], 1 + 2 * count)
    return times[count] - times[0], times[-1] - times[count]


def execute_each(database, changes, per_commit):
    begun = time.perf_counter()
    for first in range(0, len(changes), per_commit):
        if per_commit > 1:
            database.execute('BEGIN')
        for row in changes[first:first + per_commit]:
            database.execute(INSERT, row)
        if per_commit > 1:
            database.execute('COMMIT')
    return time.perf_counter() - begun


def peer_calls(path, count, per_commit):
    with closing(created(path)) as database:
        return execute_each(database, rows(count, 'a'), per_commit), execute_each(database, rows(count, 'b'), per_commit)


def fetched(path):
    begun = time.perf_counter()
    with closing(sqlite3.connect(path)) as database:
        database.execute('SELECT * FROM cookies').fetchall()
        return time.perf_counter() - begun


def on_new_file(folder, measure, *arguments):
    with tempfile.TemporaryDirectory(dir=folder) as room:
        return measure(f'{room}/cookies.sqlite', *arguments)


def calls(folder, count, per_commit):
    """Prints how many calls end in a second, with `per_commit` of them a commit. Returns the warnings."""
    taken = [[on_new_file(folder, each, count, per_commit) for each in (own_calls, peer_calls)] for _ in range(RUNS)]
    ours, theirs = ([min(each) for each in zip(*side)] for side in zip(*taken))
    warnings: list = []
    for title, own, peer in zip(('insert', 'replace'), ours, theirs):
        title = f'{title} {count:,} cookies, {per_commit} a commit'
        print(title.ljust(48) + f'{count / own:18,.0f}{count / peer:18,.0f}{peer / own:8.2f}')
        if per_commit == 1:
            warnings += report.behind(title, PEER, peer / own, LEAST)
    return warnings


def opening(folder):
    """The seconds to open a file of many cookies, and to fetch its rows, the least of some."""
    path = f'{folder}/many.sqlite'
    with closing(created(path)) as database:
        database.execute('BEGIN')
        database.executemany(INSERT, rows(MANY, 'a'))
        database.execute('COMMIT')
    times = [(own_seconds(path, [NONE], 1)[0], fetched(path)) for _ in range(RUNS)]
    return tuple(min(each) for each in zip(*times))


def run(options):
    if not os.access(SESSION, os.X_OK):
        stop(f'{SESSION} is not built: run rt ci')
    load = os.getloadavg()[0]
    warnings: list = []
    print(f'{machine()}, load {load:.2f}')
    with tempfile.TemporaryDirectory(dir=options.folder) as folder:
        print('calls a second'.ljust(48) + 'durable_session'.rjust(18) + PEER.rjust(18) + 'ratio'.rjust(8))
        for per_commit in CALLS_PER_COMMIT:
            warnings += calls(folder, options.CALLS, per_commit)
        own, peer = opening(folder)
        print(f'open a file of {MANY:,} cookies, seconds'.ljust(48) + f'{own:18.2f}')
        print('fetch their rows, seconds'.ljust(48) + f'{"":18}{peer:18.2f}')
    report.exit_after(warnings, load)
