"""Tests of StoreJar as a http.cookiejar.CookieJar."""
import contextlib
import copy
import http.cookiejar
import itertools
import time
import unittest
import urllib.request
from unittest import mock

from support import PAGE, SECONDS, Response, jar_of, keys, python_cookie, sent

from cookie_store import CookieStore, CookieStoreError, Status, StoreJar
from cookie_store._library import LIBRARY


class NoCookies(http.cookiejar.CookiePolicy):
    """A policy that rejects everything."""
    netscape, rfc2965, hide_cookie2 = True, False, False

    def set_ok(self, cookie, request):
        return False

    def return_ok(self, cookie, request):
        return False

    def domain_return_ok(self, domain, request):
        return False

    def path_return_ok(self, path, request):
        return False


class NoSession(CookieStore):
    """A store that rejects session cookies."""

    def parse(self, url, value, now=None):
        return super().parse(url, value, now) if b'Max-Age' in value else Status.EXPIRED


# Cookies for set_cookie, a URL with the Cookie header of its request, and a URL without one.
TAKEN = [
    (python_cookie('a.example'), 'http://a.example/', 'a=1', 'http://b.a.example/'),
    (python_cookie('.a.example'), 'http://b.a.example/', 'a=1', 'http://example/'),
    (python_cookie('localhost.local'), 'http://localhost/', 'a=1', 'http://a.example/'),
    (python_cookie('[::1].local'), 'http://[::1]/', 'a=1', 'http://localhost/'),
    (python_cookie('127.0.0.1', '/d'), 'http://127.0.0.1/d/x', 'a=1', 'http://127.0.0.1/e'),
    (python_cookie('a.example', '/d', path_specified=False), 'http://a.example/d/x', 'a=1', 'http://a.example/dx'),
    (python_cookie('a.example', '/d;x', path_specified=False), 'http://a.example/d;x/y', 'a=1', 'http://a.example/d'),
    (python_cookie('a.example', '/d e', path_specified=False), 'http://a.example/', None, 'http://a.example/d'),
    (python_cookie('a.example', ''), 'http://a.example/', 'a=1', 'http://b.example/'),
    (python_cookie('a.example', '/\xc3\xa0'), 'http://a.example/', None, 'http://a.example/\xc3'),
    (python_cookie('a.example', secure=True, rest={'HttpOnly': None}), 'https://a.example/', 'a=1', 'http://a.example/'),
    (python_cookie('a.example', value=None), 'http://a.example/', 'a=', 'http://b.example/'),
    (python_cookie('a.example', expires=4102444800), 'http://a.example/', 'a=1', 'http://b.example/'),
    (python_cookie('a.example', expires=1), 'http://a.example/', None, 'http://b.example/'),
]

NOT_TAKEN = [
    (python_cookie(''), Status.BAD_URL),
    *((python_cookie(domain), Status.BAD_URL) for domain in (
        'a b', 'a.example/x', 'a.example#x', 'a.example?x', 'u@a.example', 'localhost\\@a.example', 'a.example:80',
        '%61.example', 'a.example\n', '[::1', '1.2.3.300')),
    (python_cookie('a.example', name=''), Status.PARSE),
    (python_cookie('a.example', name='a=b'), Status.PARSE),
    (python_cookie('a.example', value='1; Domain=example'), Status.PARSE),
    (python_cookie('a.example', path='/;'), Status.PARSE),
    *((python_cookie('a.example', path, path_specified=specified), Status.PARSE)
      for path in ('foo', ' /d', '/d ', '/d\xc2\xa0', '/d\u2003') for specified in (True, False)),
]


class JarTests(unittest.TestCase):
    """Tests of each public method of http.cookiejar.CookieJar on a StoreJar."""

    def test_strict(self):
        jar, request = StoreJar(CookieStore(strict=True)), urllib.request.Request(PAGE)
        self.assertEqual(jar.make_cookies(Response('s=1; Secure'), request), [])
        jar.extract_cookies(Response('s=1; Secure', 'a=1'), request)
        self.assertEqual([cookie.name for cookie in jar], ['a'])

    def test_strict_and_a_long_path(self):
        """A strict store ignores a Path attribute that is longer than 1,024 bytes: the cookie would be sent everywhere."""
        calls = [StoreJar.set_cookie, lambda jar, cookie: jar.set_cookie_if_ok(cookie, urllib.request.Request(PAGE))]
        rows = [(True, 1024, True), (True, 1025, False), (False, 1025, True)]
        for (is_strict, length, is_set), call in itertools.product(rows, calls):
            jar, path = StoreJar(CookieStore(strict=is_strict)), '/' + (length - 1) * 'x'
            with contextlib.nullcontext() if is_set else self.assertRaises(CookieStoreError):
                call(jar, python_cookie('a.example', path))
            self.assertEqual([row.path for row in jar.store], [path] * is_set, (is_strict, length))

    def test_same_site(self):
        """A cookie that is set keeps its SameSite attribute."""
        for same_site, wanted in [('Strict', None), ('Lax', None), ('None', 'a=1'), ('?;', 'a=1')]:
            jar = StoreJar()
            jar.set_cookie(python_cookie('a.example', rest={'SameSite': same_site}))
            self.assertEqual(jar.store.header(PAGE, same_site=False, lax_by_default=False), wanted, same_site)

    def test_shown(self):
        jar = jar_of('a=1', 'b=2; Domain=a.example; Path=/; Secure; HttpOnly; SameSite=Lax; Max-Age=3600', 'c=3; Max-Age=0')
        first, second = jar
        self.assertEqual((first.domain, first.domain_specified, first.path, first.path_specified, first.expires, first.discard),
                         ('a.example', False, '/d', False, None, True))
        self.assertEqual((second.domain, second.domain_specified, second.path, second.path_specified, second.discard),
                         ('.a.example', True, '/', True, False))
        self.assertEqual((first.secure, second.secure), (False, True))
        self.assertLess(abs(second.expires - time.time() - 3600), SECONDS)
        self.assertEqual((first.has_nonstandard_attr('HttpOnly'), second.has_nonstandard_attr('HttpOnly')), (False, True))
        self.assertEqual([cookie.get_nonstandard_attr('SameSite') for cookie in jar], [None, 'Lax'])
        self.assertEqual((len(jar), bool(jar), bool(StoreJar())), (2, True, False))
        self.assertEqual(str(jar), '<StoreJar[<Cookie a=1 for a.example/d>, <Cookie b=2 for .a.example/>]>')
        self.assertIn("name='a'", repr(jar))

    def test_header(self):
        jar = jar_of('a=1', 'b=2; Path=/')
        self.assertEqual(sent(jar, PAGE), 'a=1; b=2')
        self.assertIsNone(sent(jar, 'http://b.example/'))
        request = urllib.request.Request(PAGE, headers={'Cookie': 'own=1'})
        jar.add_cookie_header(request)
        self.assertEqual(request.get_header('Cookie'), 'own=1')

    def test_bad_headers(self):
        """They raise nothing."""
        jar = jar_of('v=\xff', 'a=1', 'no pair')
        self.assertEqual(sent(jar, PAGE), 'a=1')
        bad = urllib.request.Request('http://a b/')
        jar.extract_cookies(Response('c=3'), bad)
        jar.add_cookie_header(bad)
        self.assertIsNone(bad.get_header('Cookie'))
        self.assertEqual(len(jar), 1)

    def test_closed(self):
        jar = StoreJar()
        jar.store.close()
        with self.assertRaises(CookieStoreError) as raised:
            jar.extract_cookies(Response('a=1'), urllib.request.Request(PAGE))
        self.assertEqual(raised.exception.status, Status.NO_STORE)

    def test_subclass(self):
        """A jar calls the method parse() of a subclass for each header."""
        jar = StoreJar(NoSession())
        jar.extract_cookies(Response('a=1', 'b=2; Max-Age=60', 'v=\xff; Max-Age=60'), urllib.request.Request(PAGE))
        self.assertEqual(sent(jar, PAGE), 'b=2')

    def test_bytes(self):
        """Strings of http.client, one byte a character, are sent as they were received."""
        wire = 'n=gr\u00fcn'.encode().decode('latin-1')
        jar = jar_of(wire)
        self.assertEqual(jar.store.header(PAGE), 'n=gr\u00fcn')
        self.assertEqual(sent(jar, PAGE), wire)
        self.assertEqual([cookie.value for cookie in jar], [wire[2:]])
        jar.clear('a.example', '/d', 'n')
        self.assertEqual(len(jar), 0)

    def test_strings(self):
        """A string of a program stands for itself, and a cookie that is returned has those of http.client."""
        rows = [('n', '\u20ac', '/d'), ('n', '\xfc', '/d'), ('\u20ac', '\xfc', '/\u0117'), ('\xfc', '\u20ac', '/\xe9'),
                ('\u65e5', 'a', '/\u672c')]
        for name, value, path in rows:
            jar, other = StoreJar(), StoreJar()
            jar.set(name, value, domain='a.example', path=path)
            self.assertEqual([row[:4] for row in jar.store], [('a.example', path, name, value)])
            wire = value.encode().decode('latin-1')
            self.assertEqual((jar[name], jar.get(name, path=path), name in jar, jar.get_dict(path=path)),
                             (wire, wire, True, {next(iter(jar)).name: wire}), (name, value))
            other.update(jar)
            self.assertEqual(other.store.cookies(), jar.store.cookies())
            other.clear('a.example', path, name)
            jar.clear('.a.example', path)
            self.assertEqual((len(jar), len(other)), (0, 0), (name, value))

    def test_make_cookies(self):
        jar = StoreJar()
        response = Response('a=1', 'b=2; Domain=b.example', 'c=3; Path=/', 'd=4', 'd=; Max-Age=0')
        made = jar.make_cookies(response, urllib.request.Request(PAGE))
        self.assertEqual([(cookie.name, cookie.path) for cookie in made], [('a', '/d'), ('c', '/')])
        self.assertEqual(len(jar), 0)

    def test_set_cookie(self):
        for cookie, url, wanted, without in TAKEN:
            with self.subTest(repr(cookie)):
                jar = StoreJar()
                jar.set_cookie(cookie)
                self.assertEqual((sent(jar, url), sent(jar, without)), (wanted, None))
        for cookie, status in NOT_TAKEN:
            with self.subTest(repr(cookie)), self.assertRaises(CookieStoreError) as raised:
                StoreJar().set_cookie(cookie)
            self.assertEqual(raised.exception.status, status, repr(cookie))

    def test_set_again(self):
        """Setting the cookies of a jar in another one gives the same jar."""
        jar = jar_of('a=1', 'b=2; Domain=a.example; Path=/; Secure; HttpOnly; SameSite=Lax; Max-Age=3600', 'c=3; Path=/d.e')
        jar.extract_cookies(Response('d=4'), urllib.request.Request('http://web/'))
        other = StoreJar()
        for cookie in jar:
            other.set_cookie(copy.copy(cookie))
        self.assertEqual(other.store.cookies(), jar.store.cookies())

    def test_set_cookie_if_ok(self):
        rows = [('its own', python_cookie('a.example'), 1), ('of its domain', python_cookie('.a.example'), 1),
                ('of another host', python_cookie('b.example'), 0), ('of another domain', python_cookie('.b.example'), 0),
                ('of a path', python_cookie('a.example', '/x', path_specified=False), 1)]
        for name, cookie, count in rows:
            jar = StoreJar()
            jar.set_cookie_if_ok(cookie, urllib.request.Request(PAGE))
            self.assertEqual(keys(jar), [(cookie.domain, cookie.path, 'a')] * count, name)

    def test_clear(self):
        texts = ['a=1', 'b=2', 'c=3; Path=/', 'd=4; Domain=a.example', 'e=5; Max-Age=0']
        rows = [((), ''), (('a.example',), 'd'), (('.a.example',), 'abc'), (('a.example', '/d'), 'cd'),
                (('a.example', '/d', 'b'), 'acd'), (('.a.example', '/d', 'd'), 'abc'), (('a.example', '/d', 'd'), 'abc')]
        for words, wanted in rows:
            jar = jar_of(*texts)
            jar.clear(*words)
            self.assertEqual(''.join(sorted(cookie.name for cookie in jar)), wanted, words)
        for words in [('a.example',), ('a.example', '/')]:
            jar = jar_of('d=4; Domain=a.example; Path=/', 'e=5; Domain=example; Path=/')
            jar.clear(*words)
            self.assertEqual(jar.keys(), ['e'], words)
        jar = jar_of(*texts)
        for words in [('b.example',), ('a.example', '/x'), ('a.example', '/d', 'e'), ('.b.example', '/d', 'a')]:
            with self.subTest(words), self.assertRaises(KeyError):
                jar.clear(*words)
        for words in [(None, '/d'), (None, None, 'a'), ('a.example', None, 'a')]:
            with self.subTest(words), self.assertRaises(ValueError):
                jar.clear(*words)
        self.assertEqual(len(jar), 4)

    def test_clear_without_a_dot(self):
        """A host without a dot is found with '.local' and without, and a host of '.local' by its own name."""
        for url, domains in [('http://web/', ['web', 'web.local', '.web.local']), ('http://vm.local/', ['vm.local', '.vm.local'])]:
            for domain in domains:
                jar = jar_of('a=1', url=url)
                jar.clear(domain, '/', 'a')
                self.assertEqual(len(jar), 0, domain)

    def test_clear_reads_no_cookies(self):
        """One cookie is removed by one call of the library, however many there are."""
        jar = jar_of(*(f'c{number}=1' for number in range(100)))
        cookies = list(jar)
        with mock.patch.object(CookieStore, '_read_rows', side_effect=AssertionError('cookies are read')), \
                mock.patch.object(LIBRARY, 'cookie_store_remove', side_effect=LIBRARY.cookie_store_remove) as remove:
            for cookie in cookies:
                jar.clear(cookie.domain, cookie.path, cookie.name)
        self.assertEqual((remove.call_count, len(jar)), (100, 0))

    def test_attributes(self):
        """HttpOnly and SameSite are nonstandard attributes, whose names and values ignore case."""
        rows = [(None, (False, None)), ({}, (False, None)), ({'HttpOnly': None}, (True, None)), ({'httponly': True}, (True, None)),
                ({'HttpOnly': False}, (False, None)), ({'HttpOnly': ''}, (False, None)), ({'HttpOnly': 'None'}, (True, None)),
                ({'HttpOnly': False, 'SameSite': 'lax'}, (False, 'Lax')), ({'samesite': 'STRICT'}, (False, 'Strict')),
                ({'SameSite': 'none'}, (False, 'None')), ({'SameSite': None}, (False, None)), ({'SameSite': 'other'}, (False, None)),
                ({'SameSite': 'Lax; Domain=example'}, (False, None)), ({'other': 1}, (False, None))]
        for rest, wanted in rows:
            jar = StoreJar()
            jar.set_cookie(python_cookie('a.example', rest=rest))
            jar.set('b', '2', domain='a.example', rest=rest)
            self.assertEqual([(row.http_only, row.same_site) for row in jar.store], [wanted] * 2, rest)

    def test_clear_some(self):
        jar = jar_of('a=1', 'b=2; Max-Age=3600', 'c=3', 'c=3; Max-Age=0')
        self.assertEqual(len(jar.store), 3)
        jar.clear_expired_cookies()
        self.assertEqual((len(jar.store), len(jar)), (2, 2))
        jar.clear_session_cookies()
        self.assertEqual([cookie.name for cookie in jar], ['b'])

    def test_copy(self):
        jar = jar_of('a=1', 'b=2; Max-Age=3600')
        for other in (jar.copy(), copy.copy(jar)):
            self.assertEqual(keys(other), keys(jar))
            other.clear()
            self.assertEqual(len(jar), 2)

    def test_policy(self):
        jar = jar_of('a=1')
        jar.set_policy(NoCookies())
        jar.extract_cookies(Response('b=2'), urllib.request.Request(PAGE))
        self.assertEqual((keys(jar), sent(jar, PAGE)), ([('a.example', '/d', 'a')], None))
        jar = StoreJar(policy=http.cookiejar.DefaultCookiePolicy(blocked_domains=['b.example']))
        for url in (PAGE, 'http://b.example/'):
            jar.extract_cookies(Response('a=1; Path=/', 'b=2'), urllib.request.Request(url))
        self.assertEqual((sent(jar, PAGE), sent(jar, 'http://b.example/')), ('b=2; a=1', None))
        self.assertEqual(len(jar.copy()), 2)
        jar.extract_cookies(Response('a=1; Path=/; Max-Age=0'), urllib.request.Request(PAGE))
        with mock.patch.object(CookieStore, 'cookies', side_effect=AssertionError('all cookies are read')):
            self.assertEqual(sent(jar, PAGE), 'b=2')


if __name__ == '__main__':
    unittest.main()
