"""Tests of clients that follow the redirects of a server, which records the cookies that it receives."""
import asyncio
import copy
import pathlib
import pickle
import tempfile
import unittest
import urllib.request

from clients import run_fetch
from support import LEFT, SECONDS, VISITS, in_threads, jar_of, keys, sorted_cookies, start_server

from cookie_store import CookieStore, NoDomain, StoreJar

try:
    import requests

    from cookie_store.requests import use_store as use_in_session
except ImportError:
    requests = None
try:
    import httpx

    from cookie_store.httpx import use_store as use_in_client
except ImportError:
    httpx = None
try:
    import aiohttp
    import yarl

    from cookie_store.aiohttp import StoreCookieJar
except ImportError:
    aiohttp = None
try:
    import webtest
except ImportError:
    webtest = None


class ServerTests(unittest.TestCase):
    """What the tests of clients share."""

    def setUp(self):
        self.server = start_server(self)
        self.begin = self.url('localhost', '/begin/page')

    def url(self, host, path):
        return f'http://{host}:{self.server.server_port}{path}'

    def assert_followed(self, jar):
        self.assertEqual(self.server.visits, VISITS)
        self.assertEqual(keys(jar), LEFT)


class UrllibTests(ServerTests):

    @staticmethod
    def opener(jar):
        return urllib.request.build_opener(urllib.request.ProxyHandler({}), urllib.request.HTTPCookieProcessor(jar))

    def test_opener(self):
        jar = StoreJar()
        self.opener(jar).open(self.begin, timeout=SECONDS).close()
        self.assert_followed(jar)

    def test_threads(self):
        """Openers in several threads share a jar."""
        jar, rounds = StoreJar(), 10

        def work(number):
            opener = self.opener(jar)
            for at in range(rounds):
                for _ in range(2):
                    opener.open(self.url('127.0.0.1', f'/own/c{number}x{at}'), timeout=SECONDS).close()

        self.assertEqual(in_threads(8, work), [])
        names = [f'c{number}x{at}' for number in range(8) for at in range(rounds)]
        wanted = [('127.0.0.1', f'/own/{name}', cookie) for name in names for cookie in (None, f'{name}=1')]
        self.assertEqual(sorted(self.server.visits, key=str), sorted(wanted, key=str))
        self.assertEqual(len(jar), 8 * rounds)


@unittest.skipIf(requests is None, 'requests is not installed')
class FetchTests(ServerTests):

    def test_login(self):
        """examples/fetch.py has the session cookie of its first run in the second one, in each format."""
        with tempfile.TemporaryDirectory() as folder:
            for name in ('cookies.json', 'cookies.txt', 'cookies'):
                for _ in range(2):
                    run_fetch(pathlib.Path(folder, name), self.url('127.0.0.1', '/own/login'))
                self.assertEqual([cookie for _, _, cookie in self.server.visits], [None, 'login=1'], name)
                self.server.visits.clear()


@unittest.skipIf(requests is None, 'requests is not installed')
class RequestsTests(ServerTests):

    def setUp(self):
        super().setUp()
        self.session = requests.Session()
        self.session.trust_env = False
        self.addCleanup(self.session.close)

    def test_jar(self):
        """requests chooses among the store's cookies by the rules of http.cookiejar."""
        self.session.cookies = jar = StoreJar()
        answer = self.session.get(self.begin, timeout=SECONDS)
        self.assertEqual(answer.status_code, 200)
        self.assertEqual(sorted_cookies(self.server.visits), sorted_cookies(VISITS))
        self.assertEqual(keys(jar), LEFT)

    def test_use_store(self):
        """The store's header is sent, also if http.cookiejar would choose other cookies."""
        store = CookieStore()
        use_in_session(self.session, store)
        self.session.get(self.begin, timeout=SECONDS)
        self.assert_followed(self.session.cookies)
        self.assertIs(self.session.cookies.store, store)
        self.server.visits.clear()
        store.parse(self.url('localhost', '/'), 's=1; Secure')
        self.session.get(self.url('localhost', '/own/x'), timeout=SECONDS)
        self.assertEqual(self.server.visits, [('localhost', '/own/x', 'c=3; s=1')])

    def test_copies(self):
        """A copy of a session by copy.copy() has the same jar; other copies have their own."""
        use_in_session(self.session, jar_of('a=1; Path=/', url=self.begin).store)
        for name, make, count in [('copy', copy.copy, 2), ('deepcopy', copy.deepcopy, 1),
                                  ('pickle', lambda session: pickle.loads(pickle.dumps(session)), 1)]:
            self.server.visits.clear()
            other = make(self.session)
            self.addCleanup(other.close)
            other.cookies.set(name, '2', domain='localhost')
            other.get(self.url('localhost', '/none'), timeout=SECONDS)
            self.assertEqual(self.server.visits, [('localhost', '/none', f'a=1; {name}=2')], name)
            other.cookies.clear('localhost.local', '/none', 'none')
            self.assertEqual(len(self.session.cookies), count, name)
            self.session.cookies.set(name, None)

    def test_functions_of_requests(self):
        """Functions of requests on the cookies of a session."""
        self.session.cookies = jar = jar_of('a=1', url='http://localhost/')
        self.assertEqual(requests.utils.dict_from_cookiejar(self.session.cookies), {'a': '1'})
        requests.cookies.merge_cookies(jar, requests.cookies.cookiejar_from_dict({}))
        with self.assertRaises(NoDomain):
            requests.utils.add_dict_to_cookiejar(jar, {'b': '2'})
        jar.set_cookie(requests.cookies.create_cookie('b', '2', domain='localhost.local'))
        prepared = requests.Request('GET', self.url('localhost', '/own/x'), cookies=jar).prepare()
        self.assertEqual(prepared.headers['Cookie'], 'a=1; b=2')
        self.assertEqual(prepared.copy().headers['Cookie'], 'a=1; b=2')
        self.assertEqual(len(jar), 2)


@unittest.skipIf(httpx is None, 'httpx is not installed')
class HttpxTests(ServerTests):

    def test_client(self):
        """The store's header is sent, also if http.cookiejar would choose other cookies."""
        store = CookieStore()
        with httpx.Client(follow_redirects=True, trust_env=False, timeout=SECONDS) as client:
            use_in_client(client, store)
            client.get(self.begin)
            self.assert_followed(StoreJar(store))
            self.server.visits.clear()
            store.parse(self.url('localhost', '/'), 's=1; Secure')
            client.get(self.url('localhost', '/own/x'))
            self.assertEqual(self.server.visits, [('localhost', '/own/x', 'c=3; s=1')])

    def test_async_client(self):
        store = CookieStore()

        async def run():
            async with httpx.AsyncClient(follow_redirects=True, trust_env=False, timeout=SECONDS) as client:
                use_in_client(client, store)
                await client.get(self.begin)

        asyncio.run(run())
        self.assert_followed(StoreJar(store))


@unittest.skipIf(aiohttp is None, 'aiohttp is not installed')
class AiohttpTests(ServerTests):

    def run_with_jar(self, work):
        """Run a coroutine function with a jar and a session that has it."""
        async def run():
            jar = StoreCookieJar(CookieStore())
            async with aiohttp.ClientSession(cookie_jar=jar, timeout=aiohttp.ClientTimeout(SECONDS)) as session:
                await work(jar, session)

        asyncio.run(run())

    def test_session(self):
        async def work(jar, session):
            await (await session.get(self.begin)).read()
            # aiohttp sorts the cookies of a request by their names. Older versions drop cookies that are not ASCII.
            drops = not hasattr(aiohttp.abc.AbstractCookieJar, 'update_cookies_from_headers')
            visits = []
            for host, path, cookie in VISITS:
                pairs = sorted(pair for pair in (cookie or '').split('; ') if pair.isascii() or not drops)
                visits.append((host, path, '; '.join(pairs) or None))
            self.assertEqual(self.server.visits, visits)
            self.assertEqual(keys(StoreJar(jar.store)), LEFT[:-1] if drops else LEFT)

        self.run_with_jar(work)

    def test_own_cookies(self):
        """Cookies and a header of a single request are sent with those of the store, and not stored."""
        async def work(jar, session):
            jar.store.parse(self.begin, 'a=1; Path=/')
            await (await session.get(self.url('localhost', '/first'), cookies={'mine': '2'})).read()
            await (await session.get(self.url('localhost', '/second'), headers={'Cookie': 'own=3'})).read()
            await (await session.get(self.url('localhost', '/third'))).read()
            self.assertEqual([cookie for _, _, cookie in self.server.visits], ['a=1; mine=2', 'a=1; own=3', 'a=1'])

        self.run_with_jar(work)

    def test_cookies_without_a_host(self):
        """aiohttp would send them to every host."""
        async def work(jar, session):
            with self.assertRaisesRegex(ValueError, 'host'):
                aiohttp.ClientSession(cookies={'mine': '1'}, cookie_jar=jar, connector=session.connector, connector_owner=False)
            self.assertEqual(len(jar), 0)

        self.run_with_jar(work)

    def test_jar(self):
        async def work(jar, _):
            url = yarl.URL('https://a.example/d/page')
            texts = ['a=1; Domain=a.example; Path=/', 'a="2 3"', 'b=gr\u00fcn; HttpOnly; SameSite=Lax; Max-Age=60', 'c=\udcff', 'd[]=5']
            jar.update_cookies_from_headers(texts, url)
            attributes = 'domain', 'path', 'httponly', 'expires'
            morsels = [(morsel.key, morsel.value, *(bool(morsel[name]) for name in attributes)) for morsel in jar]
            self.assertEqual(sorted(morsels), [('a', '"2 3"', True, True, False, False), ('a', '1', True, True, False, False),
                                               ('b', 'gr\u00fcn', True, True, True, True)])
            self.assertEqual(sorted(morsel['samesite'] for morsel in jar), ['', '', 'Lax'])
            sent = {name: morsel.coded_value for name, morsel in jar.filter_cookies(url).items()}
            self.assertEqual(sent, {'a': '"2 3"', 'b': 'gr\u00fcn'})
            with self.assertRaises(ValueError):
                jar.update_cookies({'e': '6'})
            jar.update_cookies({'e': '6'}, yarl.URL('https://b.a.example'))
            jar.clear(lambda morsel: morsel.key == 'b')
            self.assertEqual((len(jar), jar.store.header('https://b.a.example/')), (4, 'a=1; e=6'))
            jar.clear_domain('b.a.example')
            self.assertEqual(jar.store.header('https://b.a.example/'), 'a=1')
            jar.update_cookies({'f': '7'}, yarl.URL('https://xa.example'))
            jar.clear_domain('a.example')
            self.assertEqual(jar.store.header('https://a.example/d/'), 'd[]=5')
            self.assertEqual(jar.store.header('https://xa.example/'), 'f=7')
            jar.clear()
            self.assertEqual(len(jar), 0)

        self.run_with_jar(work)


@unittest.skipIf(webtest is None, 'webtest is not installed')
class WebTestTests(unittest.TestCase):
    """The jar of a webtest.TestApp, which sets cookies without other attributes."""

    @staticmethod
    def application(environ, start_response):
        body = environ.get('HTTP_COOKIE', '').encode('latin-1')
        cookies = [('Set-Cookie', 'session=1; Path=/')] if environ['PATH_INFO'] == '/login' else []
        start_response('200 OK', [('Content-Type', 'text/plain'), ('Content-Length', str(len(body))), *cookies])
        return [body]

    def test_jar(self):
        """The jar does what the one of webtest does."""
        for jar in (None, StoreJar()):
            app = webtest.TestApp(self.application, cookiejar=jar)
            app.get('/login')
            app.set_cookie('theme', 'dark')
            self.assertEqual(sorted(app.get('/').text.split('; ')), ['session=1', 'theme="dark"'], jar)
            self.assertEqual(app.cookies, {'session': '1', 'theme': '"dark"'}, jar)
            app.reset()
            self.assertEqual(app.get('/').text, '', jar)


if __name__ == '__main__':
    unittest.main()
