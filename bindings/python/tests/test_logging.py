"""Tests that cookies that are not stored or not sent are logged, with the host, the name and the reason, and without values."""
import asyncio
import contextlib
import http.cookiejar
import json
import logging
import pathlib
import tempfile
import unittest
import urllib.request

from clients import CLIENTS, aiohttp
from support import Echo, Response, jar_of, python_cookie, query, resolve_to_server, start_server

from cookie_store import CookieStore, StoreJar

if aiohttp is not None:
    import yarl

    from cookie_store.aiohttp import StoreCookieJar

# Cookies that a strict store with the list `example` rejects from http://a.example/, with what is logged.
REJECTED = [
    ('a=VALUE; Domain=b.example', "'a' of host 'a.example' is not stored: the host does not match the cookie's domain"),
    ('a=VALUE; Domain=example', "'a' of host 'a.example' is not stored: the domain is a public suffix"),
    ('a=VALUE; Max-Age=0', "'a' of host 'a.example' is not stored: the cookie has expired"),
    ('a=VALUE; Secure', "'a' of host 'a.example' is not stored: Secure, and the URL is not secure"),
    ('a=VALUE\x01', "'a' of host 'a.example' is not stored: a control character in the header value"),
    ('__Host-a=VALUE', "'__Host-a' of host 'a.example' is not stored: lacks what the prefix of its name demands"),
    ('VALUE; Path=/; x=1', "'' of host 'a.example' is not stored: not a cookie"),
    ('=VALUE', "'' of host 'a.example' is not stored: not a cookie"),
    ('a=VALUE\xff', "'a' of host 'a.example' is not stored: not UTF-8"),
    ('\xff=VALUE', "'\\\\xff' of host 'a.example' is not stored: not UTF-8"),
    ('a\n=VALUE\x01', "'a' of host 'a.example' is not stored: a control character in the header value"),
    ('a\nb=VALUE\x01', "'a\\nb' of host 'a.example' is not stored: a control character in the header value"),
]

# Hosts that clients take and the store does not.
HOSTS = ['web.1', '1.2.3.300']


def new_jar_of_aiohttp():
    async def run():
        return StoreCookieJar(CookieStore())

    return asyncio.run(run())


class LoggingTests(unittest.TestCase):

    def setUp(self):
        folder = tempfile.TemporaryDirectory()
        self.addCleanup(folder.cleanup)
        self.path = pathlib.Path(folder.name, 'cookies.txt')

    @contextlib.contextmanager
    def logs(self, *wanted):
        """Check what is logged, in any order."""
        with self.assertLogs('cookie_store', logging.DEBUG) as logged:
            yield
        self.assertEqual(sorted(logged.output), sorted(f'DEBUG:cookie_store:{text}' for text in wanted))
        self.assertNotIn('VALUE', ''.join(logged.output))

    def test_rejected(self):
        for text, wanted in REJECTED:
            jar = StoreJar(CookieStore(strict=True))
            jar.store.set_suffix_list('example\n')
            with self.logs(f'cookie {wanted}'):
                jar.extract_cookies(Response(text), urllib.request.Request('http://a.example/?VALUE'))

    def test_stored(self):
        with self.assertRaises(AssertionError), self.assertLogs('cookie_store', logging.DEBUG):  # there are none
            jar = jar_of('a=1; Max-Age=60', 'a=2', 'a=; Max-Age=0', 'b=3', url='http://a.example/')
            jar.add_cookie_header(urllib.request.Request('http://a.example/'))
            jar.add_cookie_header(urllib.request.Request('http://b.example/'))

    def test_hosts_of_urllib(self):
        jar = jar_of()
        for host in [*HOSTS, '[fe80::1%25eth0]', 'a%2fb', 'localhost\\@a.example']:
            request = urllib.request.Request(f'http://{host}:80/VALUE')
            shown = repr(request.host.rpartition(':')[0])
            with self.logs(f"cookie 'a' of host {shown} is not stored: not a valid URL"):
                jar.extract_cookies(Response('a=VALUE'), request)
            with self.logs(f'no cookie is sent to host {shown}: not a valid URL'):
                jar.add_cookie_header(request)

    @unittest.skipIf(aiohttp is None, 'aiohttp is not installed')
    def test_hosts_of_aiohttp(self):
        jar = new_jar_of_aiohttp()
        for host, part in [*((host, host) for host in HOSTS), ('[fe80::1%eth0]', 'fe80::1%eth0')]:
            url = yarl.URL.build(scheme='http', host=part, path='/VALUE')
            with self.logs(f"cookie 'a' of host {host!r} is not stored: not a valid URL"):
                jar.update_cookies_from_headers(['a=VALUE'], url)
            with self.logs(f'no cookie is sent to host {host!r}: not a valid URL'):
                self.assertEqual(len(jar.filter_cookies(url)), 0)

    def test_clients(self):
        """Each client passes what it sends and receives to the store, also for hosts that the store does not take."""
        resolve_to_server(self)
        server = start_server(self, Echo)
        for client, fetch in CLIENTS:
            # httpx rejects addresses that are not valid, and aiohttp asks another resolver.
            for host in {'httpx': HOSTS[:1], 'aiohttp': []}.get(client, HOSTS):
                with self.subTest(f'{client} {host}'), self.logs(
                        f'no cookie is sent to host {host!r}: not a valid URL',
                        f"cookie 'a' of host {host!r} is not stored: not a valid URL"):
                    fetch(CookieStore(), query(f'http://{host}:{server.server_port}/x', c='a=VALUE'))

    def test_policy(self):
        jar = StoreJar(policy=http.cookiejar.DefaultCookiePolicy(blocked_domains=['a.example']))
        with self.logs("cookie 'a' of host 'a.example' is not stored: rejected by the policy"):
            jar.extract_cookies(Response('a=VALUE'), urllib.request.Request('http://a.example/'))

    def test_set_cookie_if_ok(self):
        jar, request = StoreJar(), urllib.request.Request('http://a.example/')
        with self.logs("cookie 'a' of host 'a.example' is not stored: a response from the host may not set it"):
            jar.set_cookie_if_ok(python_cookie('b.example', value='VALUE'), request)
        jar.set_policy(http.cookiejar.DefaultCookiePolicy(blocked_domains=['a.example']))
        with self.logs("cookie 'a' of host 'a.example' is not stored: rejected by the policy"):
            jar.set_cookie_if_ok(python_cookie('a.example', value='VALUE'), request)

    def test_not_sent(self):
        jar = StoreJar(CookieStore.loads(json.dumps([
            {'raw_cookie': text, 'path': ['/', False], 'domain': {'HostOnly': 'a.example'}, 'expires': 'SessionEnd'}
            for text in ('a=VALUE\n', 'b=VALUE', 'c=\x00VALUE')])))
        with self.logs("cookie 'c' is not sent to host 'a.example': a control character"):
            jar.add_cookie_header(urllib.request.Request('http://a.example/VALUE'))

    @unittest.skipIf(aiohttp is None, 'aiohttp is not installed')
    def test_not_sent_by_aiohttp(self):
        jar = new_jar_of_aiohttp()
        url = yarl.URL('https://a.example/d/x')
        jar.update_cookies_from_headers(['a=VALUE', 'a=VALUE; Path=/', 'b[]=VALUE', 'secure=VALUE'], url)
        with self.logs("cookie 'a' is not sent to host 'a.example': another cookie has this name",
                       "cookie 'b[]' is not sent to host 'a.example': http.cookies does not allow it",
                       "cookie 'secure' is not sent to host 'a.example': http.cookies does not allow it"):
            jar.filter_cookies(url)

    def test_loaded_files(self):
        lines = ['a.example\tFALSE\t/\tFALSE\t0\ta\tVALUE', 'a.example\tFALSE\t/\tFALSE\t0\t__Secure-b\tVALUE',
                 '1.2.3.300\tFALSE\t/\tFALSE\t0\tc\tVALUE', 'a b\tFALSE\t/\tFALSE\t0\td\tVALUE',
                 '0:0:0:0:0:0:0:1\tFALSE\t/\tFALSE\t0\te\tVALUE']
        self.path.write_text('\n'.join(lines) + '\n', encoding='utf-8')
        with self.logs("cookie '__Secure-b' of host 'a.example' is not stored: lacks what the prefix of its name demands",
                       "cookie 'c' of host '1.2.3.300' is not stored: not a valid URL",
                       "cookie 'd' of host 'a b' is not stored: no header value can express it",
                       "cookie 'e' of host '[0:0:0:0:0:0:0:1]' is not stored: the host does not match the cookie's domain"):
            StoreJar(CookieStore(strict=True)).load(self.path, ignore_discard=True)

    def test_saved_files(self):
        """What the flags leave out is not logged."""
        texts = [('http://a.example/', 'a=VALUE'), ('http://a.example/', 'b=VALUE\t2'), ('http://localhost.local/', 'c=VALUE'),
                 ('http://a.example/', 'd=VALUE; Path=/"q"; Max-Age=60'), ('http://a.example/', 'e=VALUE; Max-Age=60')]
        jar, names = StoreJar(), {'b': 'a.example', 'c': 'localhost.local', 'd': 'a.example', 'f': 'a.example'}
        for url, text in texts:
            jar.store.parse(url, text)
        for text in ('f=VALUE\t2; Max-Age=60', 'g=VALUE; Max-Age=60'):
            jar.store.parse('http://a.example/', text, 1)
        for words, wanted in [((False, False), 'd'), ((True, False), 'bcd'), ((False, True), 'df'), ((True, True), 'bcdf')]:
            with self.subTest(words), self.logs(*(f'cookie {name!r} of host {names[name]!r} is not saved: the format '
                                                  'cannot represent a cookie' for name in wanted)):
                jar.save(self.path, *words)

    def test_saved_domains_of_a_list(self):
        """A domain of a list may be in upper case, and a line is read in lower case."""
        jar = StoreJar(CookieStore.loads(json.dumps([
            {'raw_cookie': text, 'path': ['/', False], 'domain': {'HostOnly': 'A.example'}, 'expires': 'SessionEnd'}
            for text in ('a=VALUE', 'b=VALUE\t2')])))
        with self.logs("cookie 'b' of host 'A.example' is not saved: the format cannot represent a cookie"):
            jar.save(self.path, ignore_discard=True)


if __name__ == '__main__':
    unittest.main()
