#!/usr/bin/env -S python3 -B
"""Stands for durable_session in tools/test_tools: keeps the cookies of the model by sqlite3. Usage: stand_in.py FILE

STAND_IN names a fault: `early` acknowledges a call before its commit, `apart` commits each call of a batch on its own, `idle` syncs
nothing, `careless` passes over errors."""
import os
import sqlite3
import sys
import time

sys.path.append(os.path.dirname(os.path.dirname(os.path.abspath(__file__))))
from durable_parts.calls import Call, cookies_of, listing  # noqa: E402
from durable_parts.session import COLUMNS  # noqa: E402

FAULT = os.environ.get('STAND_IN')
ROWS = f'SELECT {COLUMNS} FROM cookies ORDER BY id'


def call_of(line):
    kind, _, rest = line.partition(' ')
    if kind != 'set':
        return Call(kind, tuple(rest.split(' ')) if rest else ())
    url, pair, path, *age = rest.replace(' ', '; ', 1).split('; ')
    name, value = pair.split('=')
    return Call(kind, (url.split('/')[2], path.partition('=')[2], name), value, int(age[0].partition('=')[2]) if age else None)


def commit(database, rows):
    """Replaces all rows."""
    try:
        with database:
            database.execute('DELETE FROM cookies')
            database.executemany(f'INSERT INTO cookies ({COLUMNS}) VALUES (?, ?, ?, ?, ?)', rows)
    except sqlite3.Error:
        if FAULT != 'careless':
            raise


def main():
    database = sqlite3.connect(sys.argv[1])
    database.execute('PRAGMA journal_mode = WAL')
    database.execute('PRAGMA wal_autocheckpoint = 16')
    database.execute(f'PRAGMA synchronous = {"OFF" if FAULT == "idle" else "FULL"}')
    database.execute(f'CREATE TABLE IF NOT EXISTS cookies (id INTEGER PRIMARY KEY, {COLUMNS})')
    cookies = cookies_of(database.execute(ROWS).fetchall())
    is_begun, replies = False, []
    for line in map(str.rstrip, sys.stdin):
        if line in ('begin', 'commit'):
            is_begun = line == 'begin'
        else:
            replies.append(cookies.execute(call_of(line)))
        if is_begun:
            if FAULT == 'apart':
                commit(database, cookies.rows())
            continue
        if FAULT == 'early':
            print(*replies, sep='\n', flush=True)
            time.sleep(0.002)
        commit(database, cookies.rows())
        if FAULT != 'early':
            print(*replies, sep='\n', flush=True)
        replies = []
    for line in listing(database.execute(ROWS).fetchall()):
        print(line)


try:
    main()
except sqlite3.Error as error:
    print(f'error: {error}', file=sys.stderr)
    FAULT = 'failed'
sys.stdout.flush()
sys.stderr.flush()
os._exit(FAULT == 'failed')  # does not close the database, so that its log stays
