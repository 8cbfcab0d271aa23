"""Tests of cookies of browsers: what each format means, what is left out, and that nothing of a profile is changed."""
import contextlib
import json
import pathlib
import re
import shutil
import sqlite3
import time
import unittest
from unittest import mock

from profiles import LATER, insert, profile
from programs import make_folder

from cookie_store import CookieStore, CookieStoreError, Status
from cookie_store.browsers import (from_extension, from_firefox, from_playwright, from_selenium, to_extension, to_playwright,
                                   to_selenium)

SOON = int(time.time()) + 86400  # a browser keeps no cookie for more than 400 days


def cookie(name, value='1', domain='a.example', path='/', expires=None, host_only=True, secure=False, http_only=False, same_site=None):
    """Return the fields of a stored cookie."""
    return domain, path, name, value, expires, host_only, True, secure, http_only, same_site


def from_state(cookies):
    return from_playwright({'cookies': cookies, 'origins': []})


# Cookies as Selenium returns them for a driver of Chromium or Firefox, and what they are.
SELENIUM = [
    ({'domain': 'a.example', 'httpOnly': False, 'name': 'a', 'path': '/', 'sameSite': 'Lax', 'secure': False, 'value': '1'},
     cookie('a', same_site='Lax')),
    ({'domain': '.a.example', 'expiry': LATER, 'httpOnly': True, 'name': 'b', 'path': '/d', 'sameSite': 'Strict', 'secure': True,
      'value': '"2 3"'}, cookie('b', '"2 3"', path='/d', expires=LATER, host_only=False, secure=True, http_only=True, same_site='Strict')),
    ({'domain': 'a.example', 'name': 'c', 'path': '/', 'sameSite': 'None', 'secure': True, 'value': ''},
     cookie('c', '', secure=True, same_site='None')),
    ({'domain': 'a.example', 'name': 'd', 'path': '/', 'sameSite': 'None', 'secure': False, 'value': '1'}, cookie('d')),
    ({'domain': 'A.Example', 'name': 'e', 'value': 'gr\u00fcn=\u20ac'}, cookie('e', 'gr\u00fcn=\u20ac')),
    ({'domain': '127.0.0.1', 'name': 'f', 'value': '1'}, cookie('f', domain='127.0.0.1')),
    ({'domain': '[::1]', 'name': 'g', 'value': '1'}, cookie('g', domain='[::1]')),
    ({'domain': 'localhost', 'name': 'h', 'value': '1'}, cookie('h', domain='localhost')),
]

# Cookies of a storage state of Playwright.
PLAYWRIGHT = [
    ({'name': 'a', 'value': '1', 'domain': 'a.example', 'path': '/', 'expires': -1, 'httpOnly': False, 'secure': False,
      'sameSite': 'Lax'}, cookie('a', same_site='Lax')),
    ({'name': 'b', 'value': '2', 'domain': '.a.example', 'path': '/d', 'expires': LATER + 0.987654, 'httpOnly': True, 'secure': True,
      'sameSite': 'None'}, cookie('b', '2', path='/d', expires=LATER, host_only=False, secure=True, http_only=True, same_site='None')),
    ({'name': 'c', 'value': '3', 'domain': 'a.example', 'path': '/', 'expires': 1e300, 'httpOnly': False, 'secure': False,
      'sameSite': 'Strict'}, cookie('c', '3', expires=253402300799, same_site='Strict')),
]

# Cookies that extensions export: of Chromium, and of Firefox.
EXTENSION = [
    ({'domain': 'a.example', 'hostOnly': True, 'httpOnly': False, 'name': 'a', 'path': '/', 'sameSite': None, 'secure': False,
      'session': True, 'storeId': None, 'value': '1'}, cookie('a')),
    ({'domain': '.a.example', 'expirationDate': LATER + 0.5, 'hostOnly': False, 'httpOnly': True, 'name': 'b', 'path': '/d',
      'sameSite': 'no_restriction', 'secure': True, 'session': False, 'storeId': '0', 'value': '2', 'id': 1},
     cookie('b', '2', path='/d', expires=LATER, host_only=False, secure=True, http_only=True, same_site='None')),
    ({'domain': 'a.example', 'expirationDate': LATER, 'hostOnly': False, 'name': 'c', 'path': '/', 'sameSite': 'lax', 'value': '3'},
     cookie('c', '3', expires=LATER, host_only=False, same_site='Lax')),
    ({'domain': 'a.example', 'hostOnly': True, 'name': 'd', 'path': '/', 'sameSite': 'strict', 'value': '4',
      'storeId': 'firefox-default', 'firstPartyDomain': '', 'partitionKey': None}, cookie('d', '4', same_site='Strict')),
    ({'domain': 'a.example', 'hostOnly': True, 'name': 'e', 'path': '/', 'sameSite': 'unspecified', 'value': '5'}, cookie('e', '5')),
    ({'domain': 'a.example', 'hostOnly': None, 'name': 'f', 'value': '6'}, cookie('f', '6')),
]

# Cookies that are left out, with the reason that is logged.
LEFT_OUT = [
    ({'domain': 'a.example', 'name': 'x', 'value': 'VALUE', 'expires': 0}, 'the cookie has expired'),
    ({'domain': 'a.example', 'name': 'x', 'value': 'VALUE', 'expires': -1e300}, 'the cookie has expired'),
    ({'domain': 'a.example', 'name': 'x', 'value': 'VALUE', 'expires': 'soon'}, 'not a cookie'),
    ({'domain': 'a.example', 'name': 'x', 'value': 'VALUE', 'expires': float('nan')}, 'not a cookie'),
    ({'domain': 'a.example', 'name': 'x', 'value': 'VALUE; Domain=example'}, 'not a cookie'),
    ({'domain': 'a.example', 'name': 'x', 'value': 'VALUE\ud800'}, 'not a cookie'),
    ({'domain': 'a.example', 'name': 'x', 'value': '\u00a0VALUE'}, 'not a cookie'),
    ({'domain': 'a.example', 'name': 'x', 'value': 'VALUE', 'path': 'd'}, 'not a cookie'),
    ({'domain': 'a.example', 'name': 'x', 'value': None}, 'not a cookie'),
    ({'domain': 'a.example', 'name': 'x=y', 'value': 'VALUE'}, 'not a cookie'),
    ({'domain': 'a.example', 'name': '', 'value': 'VALUE'}, 'not a cookie'),
    ({'domain': 'a.example', 'value': 'VALUE'}, 'not a cookie'),
    ({'name': 'x', 'value': 'VALUE'}, 'not a cookie'),
    ({'domain': '', 'name': 'x', 'value': 'VALUE'}, 'not a valid URL'),
    ({'domain': '..a.example', 'name': 'x', 'value': 'VALUE'}, 'not a valid URL'),
    ({'domain': 'gr\u00fcn.example', 'name': 'x', 'value': 'VALUE'}, 'not a valid URL'),
    ({'domain': 'a\ud800.example', 'name': 'x', 'value': 'VALUE'}, 'not a valid URL'),
    ({'domain': '1.2.3.300', 'name': 'x', 'value': 'VALUE'}, 'not a valid URL'),
    ({'domain': 'a.example', 'name': 'x', 'value': 'VALUE', 'partitionKey': 'https://b.example'},
     'it is of a partition or another container'),
    ({'domain': 'a.example', 'name': 'x', 'value': 'VALUE', 'partitionKey': {}}, 'it is of a partition or another container'),
    ({'domain': 'a.example', 'name': 'x', 'value': 'VALUE', 'firstPartyDomain': 'b.example'},
     'it is of a partition or another container'),
    ({'domain': '.a.example', 'name': 'x', 'value': 'VALUE'}, 'a later cookie replaces it'),
]

# Header values from https://a.example/, with the cookies that are written for it. `expiry` is the field that each format has.
WRITTEN = [
    ('a=1', {'name': 'a', 'value': '1', 'domain': 'a.example'}),
    ('b=gr\u00fcn; Domain=a.example; Path=/d; Secure; HttpOnly; SameSite=None',
     {'name': 'b', 'value': 'gr\u00fcn', 'domain': '.a.example', 'path': '/d', 'secure': True, 'httpOnly': True, 'sameSite': 'None'}),
    ('c=3; Max-Age=86400; SameSite=Strict', {'name': 'c', 'value': '3', 'domain': 'a.example', 'sameSite': 'Strict', 'expiry': SOON}),
    ('d=4; SameSite=Lax', {'name': 'd', 'value': '4', 'domain': 'a.example', 'sameSite': 'Lax'}),
]

# Cookies of a loaded list, as a Set-Cookie header value, path and domain, that no browser accepts, with the reason that is logged.
NOT_WRITTEN = [
    ('x=VALUE\x01', '/', {'HostOnly': 'a.example'}, 'a control character in the header value'),
    ('__Host-x=VALUE', '/', {'Suffix': 'a.example'}, 'lacks what the prefix of its name demands'),
    ('x=' + 5000 * 'VALUE', '/', {'HostOnly': 'a.example'}, 'name and value are longer than 4,096 bytes'),
    ('x=VALUE', 'd', {'HostOnly': 'a.example'}, 'not a cookie'),
    ('x=VALUE', '/', {'HostOnly': '1.2.3.300'}, 'not a valid URL'),
    ('x=VALUE', '/', {'HostOnly': ''}, 'not a valid URL'),
    ('x=VALUE', '/', 'NotPresent', 'not a valid URL'),
]

# The fields of moz_cookies that are read: name, value, host, path, expiry in seconds, isSecure, isHttpOnly, sameSite, originAttributes.
FIREFOX = [
    (('a', '1', 'a.example', '/', LATER, 0, 0, 256, ''), cookie('a', expires=LATER)),
    (('b', '2', '.a.example', '/d', LATER, 1, 1, 0, ''),
     cookie('b', '2', path='/d', expires=LATER, host_only=False, secure=True, http_only=True, same_site='None')),
    (('c', '3', 'a.example', '/', LATER, 0, 0, 1, ''), cookie('c', '3', expires=LATER, same_site='Lax')),
    (('d', '4', 'a.example', '/', LATER, 0, 0, 2, ''), cookie('d', '4', expires=LATER, same_site='Strict')),
    (('e', '5', 'a.example', '/', LATER, 0, 0, 0, ''), cookie('e', '5', expires=LATER)),
    (('f', '6', '[::1]', '/', LATER, 0, 0, 256, ''), cookie('f', '6', '[::1]', expires=LATER)),
]
CONTAINER = ('g', '7', 'a.example', '/', LATER, 0, 0, 256, '^userContextId=1')
NOT_UTF8 = ('h', b'VALUE\xff', 'a.example', '/', LATER, 0, 0, 256, '')


def rows_of(store):
    """Return the fields of the cookies of a store, in the order of their names."""
    return sorted((tuple(row) for row in store), key=lambda row: row[2])


def by_name(cookies):
    return sorted(cookies, key=lambda fields: fields['name'])


def contents(folder):
    return {path.name: path.read_bytes() for path in pathlib.Path(folder).iterdir()}


class BrowserTests(unittest.TestCase):

    @contextlib.contextmanager
    def logs(self, *wanted):
        with self.assertLogs('cookie_store', 'DEBUG') as logged:
            yield
        self.assertEqual(logged.output, [f'DEBUG:cookie_store:{text}' for text in wanted])
        self.assertNotIn('VALUE', ''.join(logged.output))

    def test_read(self):
        for name, read, table in [('Selenium', from_selenium, SELENIUM), ('Playwright', from_state, PLAYWRIGHT),
                                  ('extension', from_extension, EXTENSION)]:
            self.assertEqual(rows_of(read([fields for fields, _ in table])), [row for _, row in table], name)

    def test_left_out(self):
        """One that cannot be stored is logged, and the others are stored."""
        for fields, reason in LEFT_OUT:
            last = {'domain': 'a.example', 'name': 'x', 'value': 'last'}
            host = re.sub(r'^\.(?=\w)', '', str(fields.get('domain')))
            with self.subTest(fields), self.logs(f'cookie {str(fields.get("name"))!r} of host {host!r} is not stored: {reason}'):
                self.assertEqual([(row.name, row.value) for row in from_state([fields, last])], [('x', 'last')])

    def test_not_a_list(self):
        for cookies in ({'cookies': []}, ['a=1'], [None]):
            with self.assertRaises(CookieStoreError, msg=cookies) as raised:
                from_selenium(cookies)
            self.assertEqual(raised.exception.status, Status.BAD_SHAPE, cookies)

    def test_written(self):
        store = CookieStore()
        for text, _ in WRITTEN:
            store.parse('https://a.example/', text, SOON - 86400)
        store.parse('https://b.example/', 'other=1')
        common = {'path': '/', 'secure': False, 'httpOnly': False}
        page = 'https://a.example/d/page'
        words = {'Strict': 'strict', 'Lax': 'lax', 'None': 'no_restriction'}
        selenium, playwright, extension = [], [], []
        for _, fields in WRITTEN:
            fields = {**common, **fields}
            is_domain_cookie = fields['domain'].startswith('.')
            selenium.append({name: field for name, field in fields.items() if name != 'domain' or is_domain_cookie})
            same_site, expiry = fields.pop('sameSite', None), fields.pop('expiry', None)
            playwright.append({**fields, 'expires': expiry or -1, 'sameSite': same_site or 'Lax'})
            extension.append({**fields, 'hostOnly': not is_domain_cookie, 'sameSite': words.get(same_site, 'unspecified'),
                              'session': expiry is None, **({'expirationDate': expiry} if expiry else {})})
        self.assertEqual(by_name(to_selenium(store, page)), selenium)
        self.assertEqual(by_name(to_extension(store, page)), extension)
        other = {**common, 'name': 'other', 'value': '1', 'domain': 'b.example', 'expires': -1, 'sameSite': 'Lax'}
        state = to_playwright(store)
        self.assertEqual({**state, 'cookies': by_name(state['cookies'])}, {'cookies': [*playwright, other], 'origins': []})

    def test_read_again(self):
        """What is written is read as it was, without the SameSite that Playwright cannot leave out."""
        store = from_selenium([{**fields, 'expiry': SOON} for fields, _ in SELENIUM])
        wanted = rows_of(store)
        state = json.loads(json.dumps(to_playwright(store)))
        self.assertEqual(rows_of(from_playwright(state)), [(*row[:-1], row[-1] or 'Lax') for row in wanted])
        again = CookieStore()
        for host in {row.domain for row in store}:
            again.merge(from_extension(json.loads(json.dumps(to_extension(store, f'https://{host}/')))))
        self.assertEqual(rows_of(again), wanted)

    def test_hosts_of_pages(self):
        """A page gets the cookies of its host, for all paths, and domain cookies of the domains above it."""
        store = from_selenium([{'domain': domain, 'name': name, 'value': '1', 'path': '/d'} for domain, name in [
            ('a.example', 'a'), ('.a.example', 'b'), ('b.a.example', 'c'), ('.example', 'd'), ('xa.example', 'e'), ('[::1]', 'f')]])
        for url, names in [('http://a.example/', 'abd'), ('https://B.a.example:8000/x?y', 'bcd'), ('http://xa.example/', 'de'),
                           ('http://[::1]:80/', 'f'), ('about:blank', '')]:
            for write in (to_selenium, to_extension):
                self.assertEqual(''.join(sorted(fields['name'] for fields in write(store, url))), names, (write.__name__, url))
        for url in ('a.example', 'http://a\\@b.example/', ''):
            for write in (to_selenium, to_extension):
                with self.assertRaises(CookieStoreError, msg=(write.__name__, url)):
                    write(store, url)

    def test_not_written(self):
        for text, path, domain, reason in NOT_WRITTEN:
            store = CookieStore.loads(json.dumps([{'raw_cookie': text, 'path': [path, True], 'domain': domain, 'expires': 'SessionEnd'}]))
            row, = store
            with self.subTest((text[:20], path, domain)), self.logs(f'cookie {row.name!r} of host {row.domain!r} is not saved: {reason}'):
                self.assertEqual(to_playwright(store)['cookies'], [])
        store = CookieStore()
        store.parse('https://a.example/', 'x=VALUE; SameSite=None')
        store.parse('https://a.example/', 'y=VALUE; Max-Age=1', SOON - 10**6)
        with self.logs("cookie 'x' of host 'a.example' is not saved: SameSite=None, and not Secure"):
            self.assertEqual(to_playwright(store)['cookies'], [])

    def test_firefox(self):
        """The expiry is in seconds before version 16 of the schema, and in milliseconds from then on."""
        for version in (10, 15, 16, 17):
            folder = make_folder(self)
            with profile(folder, version, [row for row, _ in FIREFOX]):
                before = contents(folder)
                store = from_firefox(f'{folder}/cookies.sqlite')
                self.assertEqual(rows_of(store), [row for _, row in FIREFOX], version)
                self.assertEqual(contents(folder), before, version)
            self.assertEqual(len(from_firefox(pathlib.Path(folder, 'cookies.sqlite'))), len(FIREFOX), 'closed')

    def test_firefox_left_out(self):
        folder = make_folder(self)
        with profile(folder, 16, [FIREFOX[0][0], CONTAINER, NOT_UTF8]):
            with self.logs("cookie 'g' of host 'a.example' is not stored: it is of a partition or another container",
                           "cookie 'h' of host 'a.example' is not stored: not a cookie"):
                self.assertEqual([row.name for row in from_firefox(f'{folder}/cookies.sqlite')], ['a'])
            store = from_firefox(f'{folder}/cookies.sqlite', '^userContextId=1')
            self.assertEqual([row.name for row in store], ['g'])

    def test_firefox_changes(self):
        """A database that changes while it is copied is copied again."""
        folder = make_folder(self)
        copy = shutil.copyfile
        with profile(folder, 16, [FIREFOX[0][0]]) as database:
            changes = iter([[FIREFOX[1][0]], [FIREFOX[2][0]]])

            def copy_and_change(source, target):
                copy(source, target)
                insert(database, 16, next(changes, []))

            with mock.patch('shutil.copyfile', copy_and_change):
                self.assertEqual([row[2] for row in rows_of(from_firefox(f'{folder}/cookies.sqlite'))], ['a', 'b', 'c'])

    def test_firefox_errors(self):
        folder = make_folder(self)
        pathlib.Path(folder, 'cookies.txt').write_text('a.example\tFALSE\t/\tFALSE\t0\ta\t1\n' * 100, encoding='utf-8')
        for name, error in [('missing.sqlite', FileNotFoundError), ('', IsADirectoryError), ('cookies.txt', sqlite3.Error)]:
            with self.assertRaises(error, msg=name):
                from_firefox(f'{folder}/{name}')


if __name__ == '__main__':
    unittest.main()
