"""Tests of what stands for a store, and of wrong objects, which are found before a request."""
import asyncio
import http.cookiejar
import pathlib
import tempfile
import unittest

from clients import aiohttp, httpx, requests
from support import NOW, PAGE, filled, python_cookie

from cookie_store import CookieStore, CookieStoreError, NoDomain, Status, StoreJar

if requests is not None:
    from cookie_store.requests import StoreSession
    from cookie_store.requests import use_store as use_in_session
if httpx is not None:
    from cookie_store.httpx import use_store as use_in_client
if aiohttp is not None:
    from cookie_store.aiohttp import StoreCookieJar


def merged(given):
    store = CookieStore()
    store.merge(given, NOW)
    return store


def jar_of_aiohttp(given):
    async def run():
        return StoreCookieJar(given).store

    return asyncio.run(run())


# By a name, calls that take what stands for a store and return a store with its cookies.
TAKES = [('StoreJar', lambda given: StoreJar(given).store), ('merge', merged)]
if requests is not None:
    TAKES.append(('requests', lambda given: use_in_session(requests.Session(), given).cookies.store))
if httpx is not None:
    TAKES.append(('httpx', lambda given: use_in_client(httpx.Client(), given).cookies.jar.store))
    TAKES.append(('httpx, asynchronous', lambda given: use_in_client(httpx.AsyncClient(), given).cookies.jar.store))
if aiohttp is not None:
    TAKES.append(('aiohttp', jar_of_aiohttp))


class StoreArgumentTests(unittest.TestCase):

    def test_taken(self):
        store = filled('a=1', now=None)
        with tempfile.TemporaryDirectory() as folder:
            path = pathlib.Path(folder, 'cookies.json')
            store.save(path)
            for name, call in TAKES:
                for given in (store, StoreJar(store), path, str(path), str(path).encode()):
                    self.assertEqual(call(given).header(PAGE), 'a=1', (name, given))
        for name, call in TAKES:
            if name != 'merge':
                self.assertIs(call(StoreJar(store)), store, name)

    def test_wrong(self):
        for name, call in TAKES:
            for given in (5, object(), ['a'], CookieStore, http.cookiejar.CookieJar(), http.cookiejar.DefaultCookiePolicy()):
                with self.subTest(f'{name}, {given}'), self.assertRaisesRegex(TypeError, 'expected a CookieStore'):
                    call(given)
            with self.subTest(name), self.assertRaisesRegex(ValueError, 'sqlite'):
                call('cookies.sqlite')

    def test_file_of_a_jar(self):
        """The name of a cookies.txt file is also that of load() and save()."""
        with tempfile.TemporaryDirectory() as folder:
            path = pathlib.Path(folder, 'cookies.txt')
            jar = StoreJar(path)
            jar.set('a', '1', domain='a.example')
            jar.save(ignore_discard=True)
            self.assertEqual((StoreJar(path).get_dict(), StoreJar(path).filename), ({'a': '1'}, path))
            self.assertIsNone(StoreJar(pathlib.Path(folder, 'cookies.json')).filename)


@unittest.skipIf(requests is None, 'requests is not installed')
class SessionArgumentTests(unittest.TestCase):

    def test_wrong(self):
        """Also if the arguments are in the other order."""
        session, store = requests.Session(), CookieStore()
        for given in (store, requests, None, StoreJar()):
            with self.subTest(repr(given)), self.assertRaisesRegex(TypeError, 'expected a requests.Session'):
                use_in_session(given, session)
        self.assertIs(use_in_session(session, store), session)
        self.assertIsInstance(session, StoreSession)

    def test_cookies_of_before(self):
        """The cookies that a session has are inserted into the store, unless they have no domain."""
        session, store = requests.Session(), CookieStore()
        session.cookies.set('a', '1', domain='a.example', rest={})
        session.cookies.set_cookie(python_cookie('localhost.local', name='b'))
        session.cookies.set_cookie(python_cookie('a.example', path='foo', name='rejected'))
        with self.assertLogs('cookie_store', 'DEBUG') as logged:
            use_in_session(session, store)
        self.assertEqual([row[:6] for row in store],
                         [('a.example', '/', 'a', '1', None, False), ('localhost', '/', 'b', '1', None, True)])
        self.assertEqual(logged.output, ["DEBUG:cookie_store:cookie 'rejected' of host 'a.example' is not stored: not a cookie"])
        use_in_session(session, CookieStore())
        self.assertEqual((len(session.cookies), len(store)), (0, 2))

    def test_cookies_without_a_domain(self):
        session, store = requests.Session(), CookieStore()
        session.cookies.update({'a': '1'})
        session.cookies.set('b', '2', domain='a.example')
        before = session.cookies
        with self.assertRaises(NoDomain):
            use_in_session(session, store)
        self.assertIs(session.cookies, before)
        self.assertEqual((type(session), len(store)), (requests.Session, 0))

    def test_closed_store(self):
        session, store = requests.Session(), CookieStore()
        session.cookies.set('a', '1', domain='a.example')
        store.close()
        with self.assertRaises(CookieStoreError) as raised:
            use_in_session(session, store)
        self.assertIs(raised.exception.status, Status.NO_STORE)

    def test_jar_with_a_policy(self):
        """A StoreJar is then session.cookies itself."""
        jar = StoreJar(filled('a=1', now=None), http.cookiejar.DefaultCookiePolicy(blocked_domains=['a.example']))
        session = use_in_session(requests.Session(), jar)
        self.assertIs(session.cookies, jar)
        self.assertNotIn('Cookie', session.prepare_request(requests.Request('GET', PAGE)).headers)


@unittest.skipIf(httpx is None, 'httpx is not installed')
class ClientArgumentTests(unittest.TestCase):

    def test_wrong(self):
        client, store = httpx.Client(), CookieStore()
        for given in (store, httpx, None, StoreJar()):
            with self.subTest(repr(given)), self.assertRaisesRegex(TypeError, 'expected a httpx.Client'):
                use_in_client(given, client)


if __name__ == '__main__':
    unittest.main()
