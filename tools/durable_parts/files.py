"""Files that the program must not open, damaged files, a file that it has closed, and the mode of a new one."""
import os
import random
import re
import shutil
import sqlite3
import sys
import tempfile
from contextlib import closing

from durable_parts.calls import Call, Cookies, History, listing, random_batches
from durable_parts.session import (
    FILES, NAME, Failed, calls_done, check_whole, copy_open, file_of, mapped, opened, rows_by_sqlite, run, text_of)

CALLS = 60
ONE = [Call('set', ('a.example', '/', 'another'), '1')]
TWO = [*ONE, Call('set', ('b.example', '/', 'another'), '2')]  # so that a file has two rows, also after `clear`
PAGE = 4096
# Reads a file by sqlite3, in a process of its own: one that closes a file loses its locks on it.
READER = """import sqlite3, sys
database = sqlite3.connect(sys.argv[1])
print(database.execute('SELECT * FROM cookies').fetchall(), flush=True)
sys.stdin.read()"""
DAMAGE = r'Foreign|Damaged|Full|File\((Io|Full)\)'


def sql(*statements):
    """A change of the database by sqlite3."""
    def change(folder):
        with closing(sqlite3.connect(file_of(folder), isolation_level=None)) as database:
            for statement in statements:
                database.execute(statement)
    return change


def overwritten(at, new):
    """A change of bytes of the database file."""
    def change(folder):
        with open(file_of(folder), 'r+b') as file:
            file.seek(at)
            file.write(new)
    return change


def cut(length):
    return lambda folder: os.truncate(file_of(folder), length)


def whole(content):
    """Another file in place of the database."""
    def change(folder):
        with open(file_of(folder), 'wb') as file:
            file.write(content)
    return change


def journal(folder):
    with open(f'{file_of(folder)}-journal', 'wb') as file:
        file.write(b'\xd9\xd5\x05\xf9\x20\xa1\x63\xd7')


def linked(folder):
    os.link(file_of(folder), f'{folder}/another')


def directory(folder):
    os.remove(file_of(folder))
    os.mkdir(file_of(folder))


# What is done to a database file of cookies without a log, and the error of the program then.
ERRORS: dict = {
    'no folder': (shutil.rmtree, r'System\(NotFound\)'),
    'a folder': (directory, r'System\(\w+\)'),
    'a second name': (linked, r'System\(\w+\)'),
    'a rollback journal': (journal, 'Journal'),
    'another file': (whole(b'Set-Cookie: a=1\n' * 1000), 'Foreign'),
    'a short file': (whole(b'Set-Cookie'), 'Foreign'),
    'another table': (sql('CREATE TABLE other (id INTEGER PRIMARY KEY)'), 'Foreign'),
    'a table of another text': (sql('ALTER TABLE cookies ADD COLUMN partition TEXT'), 'Foreign'),
    'an index': (sql('CREATE INDEX hosts ON cookies (host)'), 'Foreign'),
    'a view': (sql('CREATE VIEW hosts AS SELECT host FROM cookies'), 'Foreign'),
    'a trigger': (sql('CREATE TRIGGER added AFTER INSERT ON cookies BEGIN SELECT 1; END'), 'Foreign'),
    'a row of no cookie': (sql('UPDATE cookies SET kind = 9 WHERE id = (SELECT min(id) FROM cookies)'), 'Damaged'),
    'an expiry that is no time': (sql("UPDATE cookies SET expiry = 'never' WHERE id = (SELECT max(id) FROM cookies)"), 'Damaged'),
    'two rows of a cookie': (sql('UPDATE cookies SET (host, path, name) = (SELECT host, path, name FROM cookies LIMIT 1)'), 'Damaged'),
    'the last rowid': (sql('UPDATE cookies SET id = 9223372036854775807 WHERE id = (SELECT max(id) FROM cookies)'), 'Full'),
    'another magic number': (overwritten(0, b'sqlite'), 'Foreign'),
    'a page of zeros': (overwritten(PAGE, bytes(PAGE)), 'Damaged'),
    'half a file': (cut(PAGE + PAGE // 2), 'Damaged'),
}


def contents(folder):
    """The files of a folder with their bytes."""
    found = {}
    for path, _, names in os.walk(folder):
        for name in names:
            with open(os.path.join(path, name), 'rb') as file:
                found[name] = file.read()
    return found


def check_error(program, folder, error):
    """The program ends with the error, and the files are as they were. It may create a log."""
    before = contents(folder)
    done = run(program, folder, ONE)
    if done.status != 1 or done.replies or not re.fullmatch(f'error: ({error})', done.error):
        raise Failed(f'status {done.status}, {done.error or "no error"}, and not {error}')
    if not before.items() <= contents(folder).items():
        raise Failed('the program changed a file')


def is_locked(folder):
    with closing(sqlite3.connect(file_of(folder), timeout=0)) as database:
        try:
            database.execute('SELECT * FROM cookies')
        except sqlite3.OperationalError as error:
            return str(error) == 'database is locked'
    return False


def damage(rng, path):
    """Overwrites some bytes of a file, or cuts it."""
    length = os.path.getsize(path)
    if rng.random() < 0.2:
        os.truncate(path, rng.randrange(length))
    with open(path, 'r+b') as file:
        for _ in range(rng.randrange(4)):
            file.seek(rng.randrange(length))
            file.write(rng.choice([rng.getrandbits(8 * 8).to_bytes(8, 'big'), bytes([rng.randrange(256)]), bytes(rng.randrange(600))]))


class Files:
    """Files of a program with cookies: `log` has all of them in the log, `database` in the database file."""

    def __init__(self, program, folder, rng):
        self.program, self.folder, self.rng = program, folder, rng
        self.log, self.database = f'{folder}/log', f'{folder}/database'
        self.history = History(Cookies(), [*random_batches(rng, CALLS), *TWO])
        copy_open(program, self.history, self.log)
        shutil.copytree(self.log, self.database)
        rows_by_sqlite(self.database)  # it copies the log into the database file

    def check_errors(self):
        for title, (change, error) in ERRORS.items():
            with tempfile.TemporaryDirectory(dir=self.folder) as room:
                files = shutil.copytree(self.database, f'{room}/files')
                change(files)
                try:
                    check_error(self.program, files, error)
                except Failed as why:
                    raise Failed(f'{title}: {why}')

    def check_locks(self):
        """Neither sqlite3 nor a second program opens the file of a first one, and no program that of sqlite3."""
        with tempfile.TemporaryDirectory(dir=self.folder) as room:
            with opened([self.program, file_of(room)], text_of(ONE)):
                check_error(self.program, room, 'Locked')
                if not is_locked(room):
                    raise Failed('sqlite3 opens the file of a program that has it open')
            with opened([sys.executable, '-c', READER, file_of(room)], b''):
                check_error(self.program, room, 'Locked')

    def check_closed(self):
        """The program closes its file, which then has all cookies without the log."""
        with tempfile.TemporaryDirectory(dir=self.folder) as room:
            check_whole(self.history, run(self.program, room, self.history.calls))
            os.remove(f'{file_of(room)}-wal')
            calls_done(rows_by_sqlite(room), self.history.states[-1:], 'sqlite3')

    def check_modes(self):
        """The files that the program creates are its owner's alone."""
        with tempfile.TemporaryDirectory(dir=self.folder) as room:
            mask = os.umask(0)
            try:
                run(self.program, room, ONE)
            finally:
                os.umask(mask)
            modes = {name: oct(os.stat(f'{room}/{name}').st_mode & 0o777) for name in FILES}
            if set(modes.values()) != {'0o600'}:
                raise Failed(f'new files have the modes {modes}')

    def check_damage(self, pool, count):
        """Files with bytes that are overwritten or cut off, so many of each kind."""
        seeds = [(name, self.rng.getrandbits(32)) for name in FILES for _ in range(count)]
        for _ in mapped(pool, lambda each: self.check_damaged(*each), seeds):
            pass

    def check_damaged(self, name, seed):
        """The program reports an error, and the database file is as it was; or it finds what sqlite3 finds. That is the cookies after
        the first calls, if the log is damaged."""
        with tempfile.TemporaryDirectory(dir=self.folder) as room:
            files = shutil.copytree(self.database if name == NAME else self.log, f'{room}/files')
            damage(random.Random(seed), f'{files}/{name}')
            before = contents(files)[NAME]
            copied = shutil.copytree(files, f'{room}/copied')
            done = run(self.program, files, [])
            try:
                if done.status == 1 and re.fullmatch(f'error: ({DAMAGE})', done.error):
                    if contents(files)[NAME] != before:
                        raise Failed('the program changed a file')
                elif (done.status, done.error) != (0, ''):
                    raise Failed(f'status {done.status}, {done.error}')
                elif sorted(done.cookies) != listing(rows_by_sqlite(copied)):
                    raise Failed('the program finds other cookies than sqlite3')
                elif name != NAME:
                    calls_done(sorted(done.cookies), [listing(self.history.states[count]) for count in self.history.commits], 'the program')
            except Failed as why:
                raise Failed(f'{name}, damaged by seed {seed}: {why}')


def check(program, folder, pool, rng, count):
    files = Files(program, folder, rng)
    files.check_modes()
    files.check_closed()
    files.check_locks()
    files.check_errors()
    files.check_damage(pool, count)
