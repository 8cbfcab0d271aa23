"""Profiles of Firefox that tests make."""
import contextlib
import sqlite3

LATER = 4102444800  # 2100-01-01T00:00:00


@contextlib.contextmanager
def profile(folder, version, rows):
    """Yield the database of a new profile, as a connection that keeps its changes in the -wal, and the database locked."""
    with contextlib.closing(sqlite3.connect(f'{folder}/cookies.sqlite', isolation_level=None)) as database:
        for words in (f'user_version = {version}', 'journal_mode = wal', 'wal_autocheckpoint = 0', 'locking_mode = exclusive'):
            database.execute(f'pragma {words}')
        database.execute("create table moz_cookies (id integer primary key, originAttributes text not null default '', name text, "
                         'value text, host text, path text, expiry integer, lastAccessed integer, creationTime integer, '
                         'isSecure integer, isHttpOnly integer, inBrowserElement integer default 0, sameSite integer default 256, '
                         'schemeMap integer default 0)')
        insert(database, version, rows)
        yield database


def insert(database, version, rows):
    """Insert cookies: name, value, host, path, expiry in seconds, isSecure, isHttpOnly, sameSite and originAttributes of each."""
    for name, value, host, path, expiry, *flags, attributes in rows:
        number = database.execute('select count(*) from moz_cookies').fetchone()[0]
        database.execute('insert into moz_cookies (name, value, host, path, expiry, isSecure, isHttpOnly, sameSite, originAttributes, '
                         'creationTime) values (?, cast(? as text), ?, ?, ?, ?, ?, ?, ?, ?)',
                         (name, value, host, path, expiry * (1000 if version >= 16 else 1), *flags, attributes, number))
