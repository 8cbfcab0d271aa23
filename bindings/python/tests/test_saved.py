"""Tests of saved stores: which cookies a format has, and the files of CookieStore.open() and save()."""
import logging
import os
import pathlib
import stat
import tempfile
import unittest
from unittest import mock

from support import NOW, PAGE, filled, names

from cookie_store import BadLine, CookieStore, CookieStoreError, Format, Status, StoreJar, Which
from cookie_store._library import LIBRARY

# Which cookies are saved or loaded at a time: of `a`, which expires at NOW + 60, the session cookie `b`, and `c`, which expires
# at NOW + 90.
SELECTIONS = [
    (Which.ALL, NOW, 'abc'), (Which.ALL, NOW + 60, 'abc'), (Which.ALL, NOW + 90, 'abc'),
    (Which.UNEXPIRED, NOW, 'abc'), (Which.UNEXPIRED, NOW + 60, 'bc'), (Which.UNEXPIRED, NOW + 90, 'b'),
    (Which.PERSISTENT, NOW, 'ac'), (Which.PERSISTENT, NOW + 60, 'c'), (Which.PERSISTENT, NOW + 90, ''),
]

# By the name of a file, what it begins with.
FORMATS = [('cookies.json', '['), ('COOKIES.JSON', '['), ('cookies', '['), ('cookies.ron', '['), ('cookies.txt', '# Netscape'),
           ('a.json.txt', '# Netscape')]

# The content of a file that cannot be loaded, with the status and the message.
MALFORMED = [
    ('cookies.json', '', Status.BAD_JSON, 'not JSON'),
    ('cookies.json', '# Netscape HTTP Cookie File\n', Status.BAD_JSON, 'not JSON'),
    ('cookies.json', '{}', Status.BAD_SHAPE, 'JSON, but not a list of cookies'),
    ('cookies.ron', '{}', Status.BAD_RON, 'not a list of cookies in RON'),
    ('cookies.txt', 'a=1\n', Status.BAD_LINE, 'a line of the file is not a cookie (line 1)'),
    ('cookies.txt', b'\xff', Status.NOT_UTF8, 'not UTF-8'),
]


class SelectionTests(unittest.TestCase):
    """Which cookies are saved and loaded."""

    def test_many_cookies_are_saved_by_one_call(self):
        store = CookieStore()
        for number in range(1000):
            store.parse(PAGE, f'name{number}=value of the cookie {number}; Path=/a/{number}', NOW)
        for form in Format:
            with mock.patch.object(LIBRARY, 'cookie_store_save', side_effect=LIBRARY.cookie_store_save) as save:
                self.assertEqual(len(CookieStore.loads(store.dumps(form, Which.ALL, NOW), form)), 1000, form)
            save.assert_called_once()

    def test_escaped_characters(self):
        """A list that is longer than expected is written twice."""
        store = filled('a=' + '\x01' * 4000)
        with mock.patch.object(LIBRARY, 'cookie_store_save', side_effect=LIBRARY.cookie_store_save) as save:
            self.assertEqual(CookieStore.loads(store.dumps(which=Which.ALL, now=NOW), now=NOW).cookies(), store.cookies())
        self.assertEqual(save.call_count, 2)

    def test_selections(self):
        store = filled('a=1; Max-Age=60', 'b=2', 'c=3; Max-Age=90')
        for form in Format:
            whole = store.dumps(form, Which.ALL, NOW)
            self.assertTrue(whole.endswith('\n'), form)
            for which, now, wanted in SELECTIONS:
                text = store.dumps(form, which, now)
                self.assertEqual(names(CookieStore.loads(text, form, Which.ALL, now)), wanted, (form, which, now))
                self.assertEqual(store.dumps(int(form), int(which), now), text, (form, which, now))
                self.assertEqual(names(CookieStore.loads(whole, form, which, now)), wanted, (form, which, now))
        for form in (Format.JSON, Format.RON):
            self.assertEqual(CookieStore.loads(store.dumps(form, Which.ALL, NOW), form, now=NOW).cookies(), store.cookies(), form)

    def test_lenient_selections(self):
        store = filled('a=1; Max-Age=60', 'b=2', 'c=3; Max-Age=90')
        whole = store.dumps(Format.NETSCAPE, Which.ALL, NOW)
        for which, now, wanted in SELECTIONS:
            text, left_out = store.dumps_lenient(which, now)
            self.assertEqual((names(CookieStore.loads(text, Format.NETSCAPE, Which.ALL)), left_out), (wanted, 0), (which, now))
            loaded, malformed = CookieStore.loads_lenient(whole, which, now)
            self.assertEqual((names(loaded), malformed), (wanted, []), (which, now))

    def test_default_selections(self):
        """Session cookies are saved and loaded too, and expired ones are not. The format is JSON."""
        store = filled('a=1; Max-Age=60', 'b=2', 'c=3; Max-Age=90')
        self.assertEqual(store.dumps(now=NOW), store.dumps(Format.JSON, Which.UNEXPIRED, NOW))
        self.assertEqual(store.dumps_lenient(now=NOW), store.dumps_lenient(Which.UNEXPIRED, NOW))
        text, lines = store.dumps(which=Which.ALL, now=NOW), store.dumps(Format.NETSCAPE, Which.ALL, NOW)
        self.assertEqual(names(CookieStore.loads(text, now=NOW + 60)), 'bc')
        self.assertEqual(names(CookieStore.loads_lenient(lines, now=NOW + 60)[0]), 'bc')


class FileTests(unittest.TestCase):
    """Files in a temporary folder."""

    def setUp(self):
        folder = tempfile.TemporaryDirectory()
        self.addCleanup(folder.cleanup)
        self.folder = pathlib.Path(folder.name)

    def mode(self, path):
        return stat.S_IMODE(os.stat(path).st_mode)

    def test_formats(self):
        """A session cookie, such as a login, is saved and loaded, and an expired one is not."""
        store = filled('session=1; Secure', 'lasting=2; Max-Age=3600', now=None)
        store.parse(PAGE, 'old=3; Max-Age=60', NOW - 60)
        for name, wanted in FORMATS:
            path = self.folder / name
            store.save(path)
            self.assertTrue(path.read_text(encoding='utf-8').startswith(wanted), name)
            loaded = CookieStore.open(path)
            wanted = [(*row[:6], name.endswith('txt')) for row in store if row.name != 'old']
            self.assertEqual([row[:7] for row in loaded], wanted, name)
            self.assertEqual(loaded.header('https://a.example/d/'), 'session=1; lasting=2', name)

    def test_names(self):
        """A name is a string, bytes or a path."""
        store = filled('a=1', now=None)
        for name in (str(self.folder / 'cookies.json'), os.fsencode(self.folder / 'cookies.json'), self.folder / 'cookies.json'):
            store.save(name)
            self.assertEqual(names(CookieStore.open(name)), 'a', name)
        for name in ('cookies.sqlite', 'cookies.json.part', 'cookies.'):
            for call in (CookieStore.open, store.save):
                with self.subTest(name), self.assertRaisesRegex(ValueError, r'\.json.*\.ron.*\.txt'):
                    call(self.folder / name)
        self.assertEqual(os.listdir(self.folder), ['cookies.json'])

    def test_no_file(self):
        """A file that is not there is an empty store, and a folder that is not there is an error before any request."""
        store = CookieStore.open(self.folder / 'none.json', strict=True)
        self.assertEqual((len(store), store.strict), (0, True))
        for call, kind in [(lambda: CookieStore.open(self.folder / 'none' / 'cookies.json'), FileNotFoundError),
                           (lambda: store.save(self.folder / 'none' / 'cookies.json'), FileNotFoundError),
                           (lambda: CookieStore.open(f'{self.folder}/none/'), FileNotFoundError),
                           (lambda: CookieStore.open(''), FileNotFoundError),
                           (lambda: CookieStore.open(self.folder), IsADirectoryError)]:
            with self.assertRaises(kind):
                call()
        self.assertEqual(os.listdir(self.folder), [])

    def test_strict(self):
        path = self.folder / 'cookies.json'
        filled('a=1', now=None).save(path)
        self.assertEqual([CookieStore.open(path).strict, CookieStore.open(path, strict=True).strict], [False, True])

    def test_malformed(self):
        for name, content, status, message in MALFORMED:
            path = self.folder / name
            path.write_bytes(content if isinstance(content, bytes) else content.encode())
            with self.subTest(f'{name} {content}'), self.assertRaises(CookieStoreError) as raised:
                CookieStore.open(path)
            self.assertEqual((raised.exception.status, str(raised.exception)), (status, f'{path}: {message}'))
        self.assertIsNone(CookieStoreError(Status.BAD_JSON).filename)
        self.assertEqual(str(BadLine(1)), 'a line of the file is not a cookie (line 1)')

    def test_modes(self):
        """A new file is its owner's, and another one keeps its mode. jar.save() makes each its owner's."""
        path = self.folder / 'cookies.txt'
        for mode in (0o644, 0o660, 0o400, None):
            path.unlink() if path.exists() else None
            if mode is not None:
                path.write_text('')
                path.chmod(mode)
            filled('a=1', now=None).save(path)
            self.assertEqual(self.mode(path), mode or 0o600)
        path.chmod(0o644)
        StoreJar().save(path)
        self.assertEqual(self.mode(path), 0o600)

    def test_file_is_replaced_whole(self):
        path = self.folder / 'cookies.json'
        path.write_text('old')
        for name in ('os.fsync', 'os.fchmod', 'os.replace'):
            with mock.patch(name, side_effect=OSError(name)), self.assertRaises(OSError):
                filled('a=1', now=None).save(path)
            self.assertEqual((path.read_text(), os.listdir(self.folder)), ('old', ['cookies.json']), name)

    def test_link(self):
        """The file that a symbolic link names is replaced, and not the link."""
        path, link = self.folder / 'cookies.json', self.folder / 'link.json'
        link.symlink_to(path)
        filled('a=1', now=None).save(link)
        self.assertEqual((link.is_symlink(), names(CookieStore.open(path))), (True, 'a'))

    def test_left_out(self):
        """A cookie that a cookies.txt file cannot represent does not keep the others from being saved."""
        store, path = filled('a=1', 'b=2\t3', 'c=4\t5; Max-Age=60'), self.folder / 'cookies.txt'
        with self.assertLogs('cookie_store', logging.DEBUG) as logged:
            store.save(path, NOW + 60)
        self.assertEqual(logged.output, ["DEBUG:cookie_store:cookie 'b' of host 'a.example' is not saved: "
                                         'the format cannot represent a cookie'])
        self.assertEqual(names(CookieStore.open(path)), 'a')


if __name__ == '__main__':
    unittest.main()
