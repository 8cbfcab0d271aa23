"""Tests of clients of httpx with a store: what a server receives, compared with a client without a store."""
import asyncio
import http.cookiejar
import unittest
import warnings
from unittest import mock

from clients import httpx
from support import SECONDS, Echo, Response, filled, jar_of, python_cookie, query, resolve_to_server, sorted_cookies, start_server

from cookie_store import CookieStore, NoDomain, StoreJar

if httpx is not None:
    from cookie_store.httpx import StoreAsyncClient, StoreClient, StoreCookies, use_store

    class Signed(httpx.Client):
        """A client that signs the Cookie header of the requests that it builds, as programs write it."""

        def build_request(self, method, url, **words):
            request = super().build_request(method, url, **words)
            request.headers['X-Signed'] = request.headers.get('Cookie', '')
            return request


def jar_with(name, domain):
    jar = http.cookiejar.CookieJar()
    jar.set_cookie(python_cookie('.' + domain, name=name))
    return jar


def cookies_of(name, domain):
    cookies = httpx.Cookies()
    cookies.set(name, '1', domain=domain)
    return cookies


# The cookies of a client, and calls on it. Without a store the server receives the same cookies.
STORED = [('stored', 'a.example', '/'), ('stored', 'b.example', '/'), ('stay', 'a.example', '/here')]
SAME = [
    ('get', lambda client, url: client.get(url('a.example', '/x'))),
    ('a path', lambda client, url: client.get(url('a.example', '/here/x'))),
    ('another host', lambda client, url: client.get(url('c.example', '/x'))),
    ('a host below', lambda client, url: client.get(url('b.a.example', '/x'))),
    ('cookies', lambda client, url: client.get(url('a.example', '/x'), cookies={'mine': '1'})),
    ('cookies, none stored', lambda client, url: client.get(url('c.example', '/x'), cookies={'mine': '1'})),
    ('cookies, then without', lambda client, url: (client.get(url('a.example', '/x'), cookies={'mine': '1'}),
                                                   client.get(url('a.example', '/x')))),
    ('cookies of the same name', lambda client, url: client.get(url('a.example', '/x'), cookies={'stored': '2'})),
    ('cookies in a list', lambda client, url: client.get(url('a.example', '/x'), cookies=[('mine', '1'), ('other', '2')])),
    ('cookies in a jar', lambda client, url: client.get(url('a.example', '/x'), cookies=jar_with('mine', 'a.example'))),
    ('cookies for another host', lambda client, url: client.get(url('a.example', '/x'), cookies=cookies_of('mine', 'b.example'))),
    ('cookies for the host', lambda client, url: client.get(url('a.example', '/x'), cookies=cookies_of('mine', 'a.example'))),
    ('the cookies of the client', lambda client, url: client.get(url('a.example', '/x'), cookies=client.cookies)),
    ('no cookies', lambda client, url: client.get(url('a.example', '/x'), cookies={})),
    ('cookies, redirect', lambda client, url: client.get(query(url('a.example', '/x'), to='/y'), cookies={'mine': '1'})),
    ('header', lambda client, url: client.get(url('a.example', '/x'), headers={'Cookie': 'own=1'})),
    ('header in lower case', lambda client, url: client.get(url('a.example', '/x'), headers={'cookie': 'own=1'})),
    ('header and cookies', lambda client, url: client.get(url('a.example', '/x'), headers={'Cookie': 'own=1'},
                                                          cookies={'mine': '1'})),
    ('header, redirect', lambda client, url: client.get(query(url('a.example', '/x'), to='/y'), headers={'Cookie': 'own=1'})),
    ('header of the client', lambda client, url: (client.headers.update({'Cookie': 'own=1'}), client.get(url('a.example', '/x')))),
    ('redirect', lambda client, url: client.get(query(url('a.example', '/x'), to='/here/x', c=['a=1; Path=/', 'b=2; Path=/x']))),
    ('redirect to another host', lambda client, url: client.get(query(url('a.example', '/x'), to=url('b.example', '/y'), c='a=1'))),
    ('redirect of a POST', lambda client, url: client.post(query(url('a.example', '/x'), to='/y', code=303), content=b'body')),
    ('redirect, followed by hand', lambda client, url: client.send(
        client.get(query(url('a.example', '/x'), to=url('b.example', '/y')), follow_redirects=False).next_request)),
    ('set by a response', lambda client, url: (client.get(query(url('a.example', '/x'), c=['a=1; Path=/', 'b=2; Path=/y'])),
                                               client.get(url('a.example', '/x')))),
    ('built', lambda client, url: client.send(client.build_request('GET', url('a.example', '/x'), cookies={'mine': '1'}))),
    ('built without the client', lambda client, url: client.send(httpx.Request('GET', url('a.example', '/x')))),
    ('parameters', lambda client, url: client.get(url('a.example', '/x'), params={'c': 'a=1'})),
    ('authentication', lambda client, url: client.get(url('a.example', '/x'), auth=('user', 'word'))),
    ('cookies.set', lambda client, url: (client.cookies.set('new', '2', domain='a.example'), client.get(url('a.example', '/x')))),
    ('cookies.set, a path', lambda client, url: (client.cookies.set('new', '2', domain='a.example', path='/z'),
                                                 client.get(url('a.example', '/x')))),
    ('cookies.update', lambda client, url: (client.cookies.update(cookies_of('new', 'a.example')),
                                            client.get(url('a.example', '/x')))),
    ('cookies.delete', lambda client, url: (client.cookies.delete('stored'), client.get(url('a.example', '/x')))),
    ('cookies.delete, a domain', lambda client, url: (client.cookies.delete('stored', domain='b.example'),
                                                      client.get(url('a.example', '/x')))),
    ('cookies.delete, all of it', lambda client, url: (client.cookies.delete('stored', 'a.example', '/'),
                                                       client.get(url('a.example', '/here/x')))),
    ('del', lambda client, url: (client.cookies.__delitem__('stay'), client.get(url('a.example', '/here/x')))),
    ('cookies.clear', lambda client, url: (client.cookies.clear(), client.get(url('a.example', '/x')))),
    ('cookies.clear, a domain', lambda client, url: (client.cookies.clear('a.example'), client.get(url('a.example', '/here/x')),
                                                     client.get(url('b.example', '/x')))),
    ('cookies.clear, a path', lambda client, url: (client.cookies.clear('a.example', '/'), client.get(url('a.example', '/here/x')))),
    ('event_hooks', lambda client, url: (setattr(client, 'event_hooks', {'request': []}), client.get(url('a.example', '/x')))),
    ('headers', lambda client, url: (setattr(client, 'headers', {'X-Own': '1'}), client.get(url('a.example', '/x')))),
]

# Calls on the cookies of such a client, and what they return, with a store as without.
RETURNS = [
    ('item', lambda cookies: cookies['stay'], '1'),
    ('get', lambda cookies: cookies.get('stay'), '1'),
    ('get, a default', lambda cookies: cookies.get('none', '2'), '2'),
    ('get, none', lambda cookies: cookies.get('none'), None),
    ('get, a domain', lambda cookies: cookies.get('stored', domain='b.example'), '1'),
    ('get, another domain', lambda cookies: cookies.get('stay', domain='b.example'), None),
    ('get, a path', lambda cookies: cookies.get('stored', domain='a.example', path='/'), '1'),
    ('get, another path', lambda cookies: cookies.get('stored', path='/here'), None),
    ('in', lambda cookies: ('stay' in cookies, 'none' in cookies), (True, False)),
    ('len', len, 3),
    ('bool', bool, True),
    ('names', sorted, ['stay', 'stored', 'stored']),
    ('pop', lambda cookies: (cookies.pop('stay'), len(cookies)), ('1', 2)),
    ('pop, a default', lambda cookies: cookies.pop('none', '2'), '2'),
    ('the jar', lambda cookies: sorted(cookie.name for cookie in cookies.jar), ['stay', 'stored', 'stored']),
]


@unittest.skipIf(httpx is None, 'httpx is not installed')
class ClientTests(unittest.TestCase):

    def setUp(self):
        resolve_to_server(self)
        self.server = start_server(self, Echo)

    def url(self, host, path):
        return f'http://{host}:{self.server.server_port}{path}'

    def client(self, has_store=False, kind=None, **words):
        """Return a client with the cookies of STORED."""
        client = (kind or httpx.Client)(trust_env=False, verify=False, timeout=SECONDS, follow_redirects=True, **words)
        self.addCleanup(client.close)
        if has_store:
            use_store(client, CookieStore())
        for name, domain, path in STORED:
            client.cookies.set(name, '1', domain=domain, path=path)
        return client

    def visits(self):
        visits = self.server.visits[:]
        self.server.visits.clear()
        return visits

    def assert_host_only(self, cookie):
        """Check that of two requests the one for a.example has this cookie beside the stored one, and the host below has not."""
        wanted = [('a.example', '/x', [cookie, 'stored=1']), ('b.a.example', '/x', ['stored=1'])]
        self.assertEqual(sorted_cookies(self.visits()), wanted)

    def test_as_without_a_store(self):
        """Cookies and headers of single requests and of the client, redirects and client.cookies work as in httpx."""
        for name, call in SAME:
            seen = []
            for has_store in (False, True):
                with warnings.catch_warnings():
                    warnings.simplefilter('ignore', DeprecationWarning)  # of cookies that are passed to a single request
                    call(self.client(has_store), self.url)
                seen.append(sorted_cookies(self.visits()))
            with self.subTest(name):
                self.assertEqual(seen[1], seen[0])
                self.assertTrue(seen[0])

    def test_cookies(self):
        """client.cookies is a view of the store."""
        for name, call, wanted in RETURNS:
            for has_store in (False, True):
                self.assertEqual(call(self.client(has_store).cookies), wanted, (name, has_store))
        client = self.client(has_store=True)
        self.assertIsInstance(client.cookies, StoreCookies)
        client.cookies.jar.store.parse('https://c.example/', 'session=2')
        self.assertEqual((client.cookies['session'], client.cookies.get('session', domain='c.example')), ('2', '2'))

    def test_errors_of_cookies(self):
        rows = [('item', lambda cookies: cookies['none'], KeyError),
                ('get, several', lambda cookies: cookies.get('stored'), httpx.CookieConflict),
                ('delete', lambda cookies: cookies.delete('none', 'a.example', '/'), KeyError),
                ('clear', lambda cookies: cookies.clear('none.example'), KeyError)]
        for name, call, kind in rows:
            for has_store in (False, True):
                with self.subTest(name, has_store=has_store), self.assertRaises(kind):
                    call(self.client(has_store).cookies)

    def test_no_domain(self):
        """httpx would send the cookie to every host."""
        client = self.client(has_store=True)
        for name, call in [('set', lambda: client.cookies.set('a', '1')), ('update', lambda: client.cookies.update({'a': '1'})),
                           ('item', lambda: client.cookies.__setitem__('a', '1'))]:
            with self.subTest(name), self.assertRaises(NoDomain):
                call()
        self.assertEqual(len(client.cookies), len(STORED))

    def test_assigned_cookies(self):
        """The cookies of the store are not replaced unnoticed, and a host-only cookie still goes to its host alone."""
        client = self.client(has_store=True)
        client.cookies.jar.store.parse('http://a.example/', 'only=1')
        for cookies in ({}, None, httpx.Cookies(), StoreJar()):
            with self.subTest(repr(cookies)), self.assertRaisesRegex(AttributeError, 'use_store'):
                client.cookies = cookies
        for host in ('a.example', 'b.a.example'):
            client.get(self.url(host, '/x'))
        self.assert_host_only('only=1')

    def test_cookies_of_before(self):
        """The cookies that a client has are inserted into the store, unless they have no domain."""
        client, store = self.client(), CookieStore()
        client.cookies.jar.extract_cookies(Response('host=2; Path=/'), httpx.Cookies._CookieCompatRequest(
            httpx.Request('GET', 'http://a.example/')))
        use_store(client, store)
        for host in ('a.example', 'b.a.example'):
            client.get(self.url(host, '/x'))
        self.assert_host_only('host=2')
        client = self.client(cookies={'mine': '1'})
        with self.assertRaises(NoDomain):
            use_store(client, CookieStore())
        client.get(self.url('a.example', '/x'))
        self.assertEqual(sorted_cookies(self.visits()), [('a.example', '/x', ['mine=1', 'stored=1'])])

    def test_another_store(self):
        """Cookies stay in the store that they are in."""
        client, first, second = self.client(), CookieStore(), filled('second=2; Path=/', now=None)
        for store, wanted in [(first, ['stored=1']), (second, ['second=2']), (first, ['stored=1'])]:
            self.assertIs(use_store(client, store), client)
            client.get(self.url('a.example', '/x'))
            self.assertEqual(sorted_cookies(self.visits()), [('a.example', '/x', wanted)])
        self.assertEqual((len(first), len(second)), (3, 1))

    def test_a_jar_of_another_store(self):
        """The other store decides too: its host-only cookie goes to its host alone."""
        other = jar_of('other=1; Path=/', url='http://a.example/')
        with warnings.catch_warnings():
            warnings.simplefilter('ignore', DeprecationWarning)
            for cookies in (other, StoreCookies(other)):
                client = self.client(has_store=True)
                for host in ('a.example', 'b.a.example'):
                    client.get(self.url(host, '/x'), cookies=cookies)
                self.assert_host_only('other=1')

    def test_subclass(self):
        client = self.client(has_store=True, kind=Signed)
        client.get(self.url('a.example', '/x'))
        self.assertEqual((self.server.headers[0]['X-Signed'], type(client).__name__), ('stored=1', 'Signed'))
        self.assertIsInstance(client, StoreClient)
        self.assertIsInstance(client, Signed)

    def test_requests_do_not_read_all_cookies(self):
        client = self.client(has_store=True)
        with mock.patch.object(CookieStore, '_read_rows', side_effect=AssertionError('all cookies are read')):
            client.get(query(self.url('a.example', '/x'), to=self.url('b.example', '/y'), c='b=2'))
        self.assertEqual(sorted_cookies(self.visits()), [('a.example', '/x', ['stored=1']), ('b.example', '/y', ['stored=1'])])

    def test_async_client(self):
        async def run():
            async with httpx.AsyncClient(trust_env=False, timeout=SECONDS, follow_redirects=True) as client:
                self.assertIs(use_store(client, CookieStore()), client)
                self.assertIsInstance(client, StoreAsyncClient)
                await client.get(query(self.url('a.example', '/x'), to='/y', c='a=1; Path=/'), headers={'X-Own': '1'})
                client.event_hooks = {}
                await client.send(client.build_request('GET', self.url('a.example', '/x'), cookies={'mine': '2'}))
                return dict(client.cookies)

        self.assertEqual(asyncio.run(run()), {'a': '1'})
        self.assertEqual(self.visits(), [('a.example', '/x', None), ('a.example', '/y', 'a=1'), ('a.example', '/x', 'a=1; mine=2')])


if __name__ == '__main__':
    unittest.main()
