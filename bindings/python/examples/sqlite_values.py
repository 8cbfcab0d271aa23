"""Values in SQLite: an engine of one's own for cookie_store.sites.

    from cookie_store.sites import SiteStore
    from sqlite_values import SqliteValues

    sites = SiteStore(SqliteValues('cookies.sqlite'))
"""
import sqlite3


class SqliteValues:
    """Values in a table, which processes of one machine may share. It is used by one thread."""

    def __init__(self, path):
        self.database = sqlite3.connect(path, timeout=60, isolation_level=None)  # each statement is a transaction
        self.database.execute('CREATE TABLE IF NOT EXISTS cookies (root TEXT PRIMARY KEY, list BLOB NOT NULL)')

    def get(self, key):
        """Return the value of a key, or None if it has none."""
        row = self.database.execute('SELECT list FROM cookies WHERE root = ?', (key,)).fetchone()
        return row and row[0]

    def swap(self, key, old, new):
        """If the value of a key is old, replace it by new, and return whether it was. None stands for no value."""
        if old is None and new is None:
            return self.get(key) is None
        if old is None:
            done = self.database.execute('INSERT OR IGNORE INTO cookies VALUES (?, ?)', (key, new))
        elif new is None:
            done = self.database.execute('DELETE FROM cookies WHERE root = ? AND list = ?', (key, old))
        else:
            done = self.database.execute('UPDATE cookies SET list = ? WHERE root = ? AND list = ?', (new, key, old))
        return done.rowcount == 1

    def keys(self):
        """Return the keys that have a value, each once."""
        return [root for root, in self.database.execute('SELECT root FROM cookies')]
