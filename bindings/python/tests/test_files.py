"""Tests for the cookies.txt files of the package.

    COOKIE_STORE_LIBRARY=FILE python3 -m unittest test_files

Files that curl and http.cookiejar.MozillaCookieJar write are loaded, and both load files that are
written here. A server on 127.0.0.1 sets the cookies that curl stores, and records those that it sends.
"""
import email.message
import http.cookiejar
import http.server
import os
import pathlib
import shutil
import stat
import subprocess
import tempfile
import threading
import unittest
import urllib.request
from unittest import mock

from support import names, sent

from cookie_store import BadLine, CookieStore, CookieStoreError, Format, Status, StoreJar, Which

HOST, PATH = 'shop.a.example', '/d/page'
NOW = 1767225600  # 2026-01-01T00:00:00
SECONDS = 20  # the longest that a test waits for a client

# Header values received from HOST and PATH that curl, Python and RFC 6265 store alike. Without Path, the default path of curl
# and Python ends in a slash.
TEXTS = [
    'a=1; Path=/d', 'b=2; Path=/', 'c=3; Path=/d', 'd=4; Path=/d/', 'e=5; Path=/other', 'f=; Path=/d', 'g="7"; Path=/d',
    'h=a=b; Path=/d', 'i=9; Path=/d; Domain=a.example', 'j=10; Domain=.a.example; Path=/',
    'k=11; Path=/d; Domain=shop.a.example', 'l=12; Path=/d; HttpOnly',
    'm=13; Path=/; HttpOnly; Domain=a.example', 'n=14; Path=/d; Expires=Tue, 03 Aug 2100 00:38:37 GMT',
    'o=15; Expires=Fri, 31 Dec 2100 23:59:59 GMT; Path=/; Domain=a.example', 'p=16; Path=/d; SameSite=Lax',
    'q.r_s-t=17; Path=/d',
    'u=%2F; Path=/d', 'v=1|2; Path=/d', 'w=x y z; Path=/d',
]

# The arguments ignore_discard and ignore_expires.
FLAGS = [(False, False), (True, False), (False, True), (True, True)]

# Lines of a file, and the cookies that a jar has of them.
LOADED = [
    ('', ''),
    ('a b.example\tFALSE\t/\tFALSE\t0\tc\t3\n', ''),
    ('a.example/x\tFALSE\t/\tFALSE\t0\tc\t3\n', ''),
    ('u@a.example\tFALSE\t/\tFALSE\t0\tc\t3\n', ''),
    ('$a.example\tFALSE\t/\tFALSE\t0\tc\t3\n', ''),
    ('a.example:8\tFALSE\t/\tFALSE\t0\tc\t3\n', 'c a.example/'),
    ('[::1]\tFALSE\t/\tFALSE\t0\tc\t3\n', 'c [::1]/'),
    ('::1\tFALSE\t/\tFALSE\t0\tc\t3\n', 'c [::1]/'),
    ('0:0:0:0:0:0:0:1\tFALSE\t/\tFALSE\t0\tc\t3\n', ''),
    ('[::1].local\tFALSE\t/\tFALSE\t0\tc\t3\n', 'c [::1]/'),
    ('[::1]:8\tFALSE\t/\tFALSE\t0\tc\t3\n', ''),
    ('localhost.local\tFALSE\t/\tFALSE\t0\tc\t3\n', 'c localhost/'),
    ('vm.local\tFALSE\t/\tFALSE\t0\tc\t3\n', 'c vm.local/'),
    ('127.0.0.1\tFALSE\t/\tFALSE\t0\tc\t3\n', 'c 127.0.0.1/'),
    ('a.example\tFALSE\t"/d"\tFALSE\t0\tc\t3\n', 'c a.example/d'),
    ('a.example\tFALSE\t\tFALSE\t0\tc\t3\n', 'c a.example/'),
    ('a.example\tFALSE\tfoo\tFALSE\t0\tc\t3\n', 'c a.examplefoo'),
    ('a.example\tFALSE\t /\tFALSE\t0\tc\t3\n', 'c a.example /'),
    ('a.example\tFALSE\t/d \tFALSE\t0\tc\t3\n', 'c a.example/d '),
    ('a.example\tFALSE\t/d\u00a0\tFALSE\t0\tc\t3\n', 'c a.example/d\u00a0'),
    ('a.example\tFALSE\t/;x\tFALSE\t0\tc\t3\n', 'c a.example/;x'),
    ('a.example\tFALSE\t/\tFALSE\t0\t\u00a0c\t3\n', '\u00a0c a.example/'),
    ('a.example\tFALSE\t/\tFALSE\t0\tc\u2003\t3\n', 'c\u2003 a.example/'),
    ('a.example\tFALSE\t/\tFALSE\t0\tc\t\u30003\n', 'c a.example/'),
    ('a.example\tFALSE\t/\tFALSE\t0\tc\t3\u00a0\n', 'c a.example/'),
    ('a.example\tFALSE\t/\tFALSE\t0\tc\u00a0c\t3\u00a03\n', 'c\u00a0c a.example/'),
    ('shop.a.example\tFALSE\t/d\tFALSE\t1\ta\t3\n', ''),
    ('Set-Cookie: c=3; Domain=a.example; Path=/d\n', 'c a.example/d'),
    ('Set-Cookie: c=3; Domain=a.example; Path=d\n', 'c a.example/'),
]

FILE = ('# Netscape HTTP Cookie File\n'
        'shop.a.example\tFALSE\t/d\tFALSE\t0\ta\t1\n'
        '#HttpOnly_.a.example\tTRUE\t/\tTRUE\t4121282317\tb\t2\n')
LAST = 4121282317  # when its cookie `b` expires; `a` is a session cookie

# Which cookies are saved at a time, of FILE and of two that no line can represent, the session cookie `c` and `d`, which expires
# at NOW + 60; and how many are left out.
UNREPRESENTABLE = [
    (Which.ALL, NOW, 'ab', 2), (Which.ALL, LAST, 'ab', 2),
    (Which.UNEXPIRED, NOW, 'ab', 2), (Which.UNEXPIRED, NOW + 60, 'ab', 1), (Which.UNEXPIRED, LAST, 'a', 1),
    (Which.PERSISTENT, NOW, 'b', 1), (Which.PERSISTENT, NOW + 60, 'b', 0), (Which.PERSISTENT, LAST, '', 0),
]

# Which cookies of FILE are loaded at a time.
MALFORMED = [
    (Which.ALL, NOW, 'ab'), (Which.ALL, LAST, 'ab'), (Which.UNEXPIRED, NOW, 'ab'), (Which.UNEXPIRED, LAST, 'a'),
    (Which.PERSISTENT, NOW, 'b'), (Which.PERSISTENT, LAST, ''),
]


class Response:
    """A response with these Set-Cookie header values, as jars take it."""

    def __init__(self, *texts):
        self.message = email.message.Message()
        for text in texts:
            self.message['Set-Cookie'] = text

    def info(self):
        return self.message


def rows_of(store):
    """Return what a file says of the cookies of a store."""
    return sorted((row.domain, row.host_only, row.path, row.name, row.value, row.expires, row.secure, row.http_only)
                  for row in store)


class Page(http.server.BaseHTTPRequestHandler):
    """Sets the cookies of TEXTS, and records the Cookie header."""

    def do_GET(self):
        self.server.headers.append(self.headers['Cookie'])
        self.send_response(200)
        for text in TEXTS:
            self.send_header('Set-Cookie', text)
        self.send_header('Content-Length', '0')
        self.end_headers()

    def log_message(self, *_):
        pass


class FileTests(unittest.TestCase):
    """Files in a temporary folder."""

    def setUp(self):
        folder = tempfile.TemporaryDirectory()
        self.addCleanup(folder.cleanup)
        self.path = os.path.join(folder.name, 'cookies.txt')

    def write(self, text):
        with open(self.path, 'w', encoding='utf-8') as file:
            file.write(text)

    def read(self):
        with open(self.path, encoding='utf-8') as file:
            return file.read()

    def test_store(self):
        store = CookieStore.loads(FILE, Format.NETSCAPE, now=NOW)
        self.assertEqual([(row.name, row.host_only, row.has_path, row.expires) for row in store],
                         [('a', True, True, None), ('b', False, True, LAST)])
        self.assertEqual(store.dumps(Format.NETSCAPE, Which.ALL, NOW), FILE)
        self.assertEqual(store.dumps(Format.NETSCAPE, Which.PERSISTENT, LAST), '# Netscape HTTP Cookie File\n')
        store.parse(f'http://{HOST}/', 'c=3\t4', NOW)
        with self.assertRaises(CookieStoreError) as raised:
            store.dumps(Format.NETSCAPE, Which.ALL)
        self.assertEqual(raised.exception.status, Status.UNREPRESENTABLE)

    def test_lenient_dumps(self):
        store = CookieStore.loads(FILE, Format.NETSCAPE, now=NOW)
        for text in ('c=3\t4', 'd=5\t6; Max-Age=60'):
            store.parse(f'http://{HOST}/', text, NOW)
        for which, now, *wanted in UNREPRESENTABLE:
            text, left_out = store.dumps_lenient(which, now)
            self.assertEqual([names(CookieStore.loads(text, Format.NETSCAPE, Which.ALL)), left_out], wanted, (which, now))
        self.assertEqual(store.dumps_lenient(Which.UNEXPIRED, NOW), (FILE, 2))

    def test_lenient_loads(self):
        first, *others = FILE.splitlines(keepends=True)
        file = first + 'a\tb\n' + others[0] + 'c=3\n' + others[1]
        for text in (file, file.encode()):
            for which, now, wanted in MALFORMED:
                store, malformed = CookieStore.loads_lenient(text, which, now)
                self.assertEqual((names(store), store.strict, malformed), (wanted, False, [2, 4]), (which, now))
        for text, wanted in [('', []), ('x', [1]), ('x\n', [1]), ('x\nx\r\nx', [1, 2, 3]), (FILE, [])]:
            store, malformed = CookieStore.loads_lenient(text, Which.PERSISTENT, LAST, strict=True)
            self.assertEqual((len(store), store.strict, malformed), (0, True, wanted), text)

    def test_malformed_line(self):
        with self.assertRaises(BadLine) as raised:
            CookieStore.loads(FILE + 'a\tb\n', Format.NETSCAPE)
        self.assertEqual((raised.exception.line, str(raised.exception)), (4, 'a line of the file is not a cookie (line 4)'))
        self.write(FILE + 'a\tb\n')
        jar = StoreJar()
        with self.assertRaises(http.cookiejar.LoadError):
            jar.load(self.path)
        self.assertEqual(len(jar), 0)

    def test_jar(self):
        """ignore_discard and ignore_expires select the cookies as MozillaCookieJar does."""
        expired = f'{HOST}\tFALSE\t/d\tFALSE\t1\tc\t3\n'
        for words, wanted in zip(FLAGS, ['b', 'ab', 'bc', 'abc']):
            jar = StoreJar(CookieStore.loads(FILE + expired, Format.NETSCAPE, Which.ALL))
            jar.save(self.path, *words)
            saved = CookieStore.loads(self.read(), Format.NETSCAPE, Which.ALL)
            self.assertEqual(''.join(sorted(row.name for row in saved)), wanted, words)
            self.write(FILE + expired)
            jar = StoreJar()
            jar.load(self.path, *words)
            self.assertEqual(''.join(sorted(row.name for row in jar.store)), wanted.replace('c', ''), words)

    def test_line_that_is_left_out_replaces_none(self):
        """What ignore_discard leaves out leaves an earlier line as it is, as in MozillaCookieJar."""
        line = f'{HOST}\tFALSE\t/d\tFALSE\t%s\ta\t%s\n'
        self.write('# Netscape HTTP Cookie File\n' + line % (LAST, 'persistent') + line % ('', 'session') + line % (1, 'expired'))
        for ignore_discard, wanted in [(False, 'persistent'), (True, 'session')]:
            for jar in (StoreJar(), http.cookiejar.MozillaCookieJar()):
                jar.load(self.path, ignore_discard)
                self.assertEqual([cookie.value for cookie in jar], [wanted], (type(jar), ignore_discard))

    def test_loaded_cookies(self):
        for lines, wanted in LOADED:
            jar = StoreJar()
            self.assertEqual(list(jar), [])
            self.write(FILE + lines)
            jar.load(self.path, ignore_discard=True, ignore_expires=True)
            names = [f'{row.name} {row.domain}{row.path}' for row in jar.store]
            self.assertEqual(names, ['a shop.a.example/d', 'b a.example/', *filter(None, [wanted])], lines)

    def test_cookies_that_are_no_line_are_left_out(self):
        jar = StoreJar()
        for text in ('a=1\t2', 'b=2', 'c=3; Path=/\x7f', 'f=6; Path=/"q"'):
            jar.store.parse(f'http://{HOST}/', text + '; Max-Age=3600')
        jar.store.parse('http://.a.example/', 'd=4; Max-Age=3600')
        jar.store.parse(f'http://{HOST}/', 'e=5; Max-Age=60', -100)
        jar.store.parse('http://localhost.local/', 'g=7; Max-Age=3600')
        for words in FLAGS:
            jar.save(self.path, *words)
            self.assertEqual([row.name for row in CookieStore.loads(self.read(), Format.NETSCAPE, Which.ALL)], ['b'], words)

    def test_lines_are_those_of_the_store(self):
        """Also if some are left out: SameSite=None does not make a cookie Secure, and no line is divided."""
        jar = StoreJar()
        for text, now in [('a=1; SameSite=None', None), ('b=2\u2028\x85\u00a02; SameSite=None; Max-Age=3600', None),
                          ('c=3; SameSite=None; Max-Age=3600', NOW - 3600), ('d=4; Secure', None)]:
            jar.store.parse(f'https://{HOST}/', text, now)
        first, *lines, last = jar.store.dumps(Format.NETSCAPE, Which.ALL).split('\n')
        for words, saved in zip(FLAGS, ['b', 'abd', 'bc', 'abcd']):
            jar.save(self.path, *words)
            wanted = [line for line, name in zip(lines, 'abcd') if name in saved]
            self.assertEqual(self.read().split('\n'), [first, *wanted, last], words)

    def test_domain_of_a_list_that_is_no_field_is_left_out(self):
        """A domain of a list may begin with `#`, as a comment does, and no host does."""
        list_ = ('[{"raw_cookie":"f=6","path":["/",true],"domain":{"HostOnly":"#a.example"},"expires":"SessionEnd"},'
                 '{"raw_cookie":"g=7","path":["/",true],"domain":{"HostOnly":"a.example"},"expires":"SessionEnd"}]')
        jar = StoreJar(CookieStore.loads(list_))
        jar.save(self.path, ignore_discard=True)
        self.assertEqual([row.name for row in CookieStore.loads(self.read(), Format.NETSCAPE, Which.ALL)], ['g'])

    def test_file_names(self):
        jar = StoreJar(CookieStore.loads(FILE, Format.NETSCAPE, now=NOW))
        with self.assertRaises(ValueError):
            jar.save()
        with self.assertRaises(ValueError):
            jar.load()
        for name in (self.path, os.fsencode(self.path), pathlib.Path(self.path)):
            jar.filename = name
            jar.save(ignore_discard=True)
            jar.clear()
            jar.load(ignore_discard=True)
            self.assertEqual((len(jar), self.read()), (2, FILE), name)
        with self.assertRaises(FileNotFoundError):
            jar.save(os.path.join(self.path + '.d', 'cookies.txt'))
        link = self.path + '.link'
        os.symlink(self.path, link)
        jar.clear()
        jar.save(link)
        self.assertTrue(os.path.islink(link))
        self.assertEqual(self.read(), '# Netscape HTTP Cookie File\n')
        jar.save('/dev/null')
        self.assertFalse(os.path.isfile('/dev/null'))

    def test_rejected_cookies_are_left_out(self):
        jar = StoreJar(CookieStore(strict=True))
        self.write(FILE + f'{HOST}\tFALSE\t/\tFALSE\t0\t__Secure-c\t3\n')
        jar.load(self.path, ignore_discard=True)
        self.assertEqual([cookie.name for cookie in jar], ['a', 'b'])

    def test_cookie_of_a_public_suffix_becomes_host_only(self):
        jar = StoreJar()
        jar.store.set_suffix_list('example\na.example\n')
        self.write(FILE)
        jar.load(self.path, ignore_discard=True)
        self.assertEqual([(row.name, row.host_only) for row in jar.store], [('a', True), ('b', True)])

    def test_file_is_replaced_whole(self):
        self.write('old')
        jar = StoreJar(CookieStore.loads(FILE, Format.NETSCAPE, now=NOW))
        for name in ('os.fsync', 'os.replace'):
            with mock.patch(name, side_effect=OSError(name)), self.assertRaises(OSError):
                jar.save(self.path)
            self.assertEqual((self.read(), os.listdir(os.path.dirname(self.path))), ('old', ['cookies.txt']), name)
        jar.save(self.path, ignore_discard=True)
        self.assertEqual((self.read(), stat.S_IMODE(os.stat(self.path).st_mode)), (FILE, 0o600))

    def test_python(self):
        """MozillaCookieJar's files are loaded, and it loads ours: 0, a session cookie here, has expired there."""
        theirs, ours = http.cookiejar.MozillaCookieJar(), CookieStore()
        request = urllib.request.Request(f'https://{HOST}{PATH}')
        for text in [*TEXTS, 's=1; Path=/d; Secure']:
            theirs.extract_cookies(Response(text), request)
            ours.parse(request.full_url, text)
        # A cookie without `=`, which RFC 6265 rejects, has no value there.
        theirs.extract_cookies(Response('x; Path=/d'), request)
        ours.parse(request.full_url, 'x=; Path=/d')
        theirs.save(self.path, ignore_discard=True)
        jar = StoreJar()
        jar.load(self.path, ignore_discard=True)
        # Python saves HttpOnly only under the name HTTPOnly.
        self.assertEqual([row[:-1] for row in rows_of(jar.store)], [row[:-1] for row in rows_of(ours)])
        jar.save(self.path, ignore_discard=True)
        again = http.cookiejar.MozillaCookieJar()
        again.load(self.path, ignore_discard=True, ignore_expires=True)
        self.assertEqual(sorted((cookie.domain, cookie.path, cookie.name, cookie.value, cookie.secure) for cookie in again),
                         sorted((cookie.domain, cookie.path, cookie.name, cookie.value, cookie.secure) for cookie in jar))

    def test_localhost_of_python(self):
        """Python's jars write `localhost.local` for `localhost`, and their cookies are sent to it, loaded or copied."""
        request = urllib.request.Request('http://localhost/d/page')
        for kind in (http.cookiejar.MozillaCookieJar, http.cookiejar.LWPCookieJar):
            theirs, jar = kind(), StoreJar()
            for text in ('a=1', 'b=2; Path=/; Max-Age=3600'):
                theirs.extract_cookies(Response(text), request)
            theirs.save(self.path, ignore_discard=True)
            self.assertIn('localhost.local', self.read())
            if kind is http.cookiejar.MozillaCookieJar:
                jar.load(self.path, ignore_discard=True)
                store = CookieStore.open(self.path)
            else:
                jar.update(theirs)
                store = jar.store.copy()
            for header in (sent(jar, request.full_url), store.header(request.full_url)):
                self.assertEqual(header, 'a=1; b=2', kind)
            self.assertEqual((jar.get('a', domain='localhost'), jar.get('a', domain='localhost.local')), ('1', '1'), kind)

    def test_curl(self):
        """curl's files are loaded, and it sends the cookies of ours."""
        curl = shutil.which('curl')
        if curl is None:
            self.skipTest('curl is not installed')
        server = http.server.ThreadingHTTPServer(('127.0.0.1', 0), Page)
        server.headers = []
        self.addCleanup(server.server_close)
        thread = threading.Thread(target=server.serve_forever, kwargs={'poll_interval': 0.05}, daemon=True)
        thread.start()
        self.addCleanup(thread.join, SECONDS)
        self.addCleanup(server.shutdown)
        port, ours = server.server_port, CookieStore()
        command = [curl, '-sS', '--noproxy', '*', '--resolve', f'{HOST}:{port}:127.0.0.1', f'http://{HOST}:{port}{PATH}']
        subprocess.run([*command, '-c', self.path], check=True, timeout=SECONDS)
        for text in TEXTS:
            ours.parse(f'http://{HOST}{PATH}', text)
        jar = StoreJar()
        jar.load(self.path, ignore_discard=True)
        self.assertEqual(rows_of(jar.store), rows_of(ours))
        jar.save(self.path, ignore_discard=True)
        subprocess.run([*command, '-b', self.path], check=True, timeout=SECONDS)
        # Of equally long paths curl sends the cookie first that was created last.
        self.assertEqual([sorted((header or '').split('; ')) for header in server.headers],
                         [[''], sorted(ours.header(f'http://{HOST}{PATH}').split('; '))])


if __name__ == '__main__':
    unittest.main()
