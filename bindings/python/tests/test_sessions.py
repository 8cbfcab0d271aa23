"""Tests of requests.Session with a store: what a server receives, compared with a session without a store."""
import copy
import pickle
import unittest
import unittest.mock

from support import SECONDS, Echo, make_certificate, query, resolve_to_server, server_context, sorted_cookies, start_server

from cookie_store import CookieStore, StoreJar

try:
    import requests

    from cookie_store.requests import StoreSession, use_store
except ImportError:
    requests = None

if requests is not None:
    class Base(requests.Session):
        """A session with a base URL, as programs write it."""
        base = 'http://a.example'

        def __init__(self):
            super().__init__()
            self.names = []

        def prepare_request(self, request):
            self.names = sorted(self.cookies.keys())
            request.url = request.url.replace('base:', self.base)
            return super().prepare_request(request)

    class Reduced(requests.Session):
        """A session with a pickle of its own."""

        def __init__(self, word):
            super().__init__()
            self.word = word

        def __reduce__(self):
            return Reduced, (self.word,), self.__getstate__()


class Digest(Echo):
    """Asks for a digest at /digest, and sets a cookie."""

    def do_GET(self):
        if not self.path.startswith('/digest') or self.headers['Authorization']:
            super().do_GET()
            return
        self.server.visits.append(('', '/digest', self.headers['Cookie']))
        self.send_response(401)
        for name, value in [('WWW-Authenticate', 'Digest realm="r", nonce="n", qop="auth"'), ('Set-Cookie', 'nonce=1; Path=/'),
                            ('Content-Length', '0')]:
            self.send_header(name, value)
        self.end_headers()


class CookieSigner:
    """An authentication that signs the Cookie header."""

    def __call__(self, request):
        request.headers['X-Signed'] = request.headers.get('Cookie', '')
        return request


# The cookies of a session, and calls on it. Without a store the server receives the same cookies.
STORED = [('stored', 'a.example', '/'), ('stored', 'b.example', '/'), ('stay', 'a.example', '/here')]
SAME = [
    ('get', lambda session, url: session.get(url('a.example', '/x'))),
    ('a path', lambda session, url: session.get(url('a.example', '/here/x'))),
    ('another host', lambda session, url: session.get(url('c.example', '/x'))),
    ('cookies', lambda session, url: session.get(url('a.example', '/x'), cookies={'mine': '1'})),
    ('cookies, then without', lambda session, url: (session.get(url('a.example', '/x'), cookies={'mine': '1'}),
                                                    session.get(url('a.example', '/x')))),
    ('cookies of the same name', lambda session, url: session.get(url('a.example', '/x'), cookies={'stored': '2'})),
    ('cookies in a jar', lambda session, url: session.get(url('a.example', '/x'), cookies=jar_of('mine', 'a.example'))),
    ('cookies for another host', lambda session, url: session.get(url('a.example', '/x'), cookies=jar_of('mine', 'b.example'))),
    ('the cookies of the session', lambda session, url: session.get(url('a.example', '/x'), cookies=session.cookies)),
    ('cookies, redirect', lambda session, url: session.get(query(url('a.example', '/x'), to='/y'), cookies={'mine': '1'})),
    ('cookies, redirect to another host',
     lambda session, url: session.get(query(url('a.example', '/x'), to=url('b.example', '/y')), cookies={'mine': '1'})),
    ('header', lambda session, url: session.get(url('a.example', '/x'), headers={'Cookie': 'own=1'})),
    ('header in lower case', lambda session, url: session.get(url('a.example', '/x'), headers={'cookie': 'own=1'})),
    ('header and cookies', lambda session, url: session.get(url('a.example', '/x'), headers={'Cookie': 'own=1'},
                                                            cookies={'mine': '1'})),
    ('header, redirect', lambda session, url: session.get(query(url('a.example', '/x'), to='/y'), headers={'Cookie': 'own=1'})),
    ('header, redirect to another host',
     lambda session, url: session.get(query(url('a.example', '/x'), to=url('b.example', '/y')), headers={'Cookie': 'own=1'})),
    ('header of the session', lambda session, url: (session.headers.update(Cookie='own=1'),
                                                    session.get(url('a.example', '/x')))),
    ('header of the session, without', lambda session, url: (session.headers.update(Cookie='own=1'),
                                                             session.get(url('a.example', '/x'), headers={'Cookie': None}))),
    ('redirect', lambda session, url: session.get(query(url('a.example', '/x'), to='/here/x', c=['a=1', 'b=2; Path=/']))),
    ('redirect to another host',
     lambda session, url: session.get(query(url('a.example', '/x'), to=url('b.example', '/y'), c='a=1'))),
    ('redirect, not followed', lambda session, url: session.get(query(url('a.example', '/x'), to=url('b.example', '/y')),
                                                                allow_redirects=False)),
    ('redirect, followed by hand',
     lambda session, url: session.send(session.get(query(url('a.example', '/x'), to=url('b.example', '/y')),
                                                   cookies={'mine': '1'}, allow_redirects=False).next)),
    ('set', lambda session, url: (session.get(query(url('a.example', '/x'), c=['a=1; Path=/', 'stored=; Max-Age=0; Path=/'])),
                                  session.get(url('a.example', '/x')))),
    ('prepared', lambda session, url: session.send(session.prepare_request(
        requests.Request('GET', query(url('a.example', '/x'), to='/here/y'), cookies={'mine': '1'})))),
    ('prepared without the session', lambda session, url: session.send(requests.Request(
        'GET', query(url('a.example', '/x'), to='/here/y'), cookies={'mine': '1'}).prepare())),
    ('prepared by hand', lambda session, url: session.send(by_hand(url('a.example', '/x')))),
    ('parameters', lambda session, url: session.get(url('a.example', '/x'), params={'c': 'a=1'})),
    ('cookies.set', lambda session, url: (session.cookies.set('new', '2', domain='a.example', path='/'),
                                          session.get(url('a.example', '/x')))),
    ('cookies.clear', lambda session, url: (session.cookies.clear(), session.get(url('a.example', '/x')))),
    ('cookies.clear, a domain', lambda session, url: (session.cookies.clear('a.example'), session.get(url('a.example', '/here/x')),
                                                      session.get(url('b.example', '/x')))),
    ('cookies.clear, one', lambda session, url: (session.cookies.clear('a.example', '/', 'stored'),
                                                 session.get(url('a.example', '/here/x')))),
    ('other cookies', lambda session, url: (setattr(session, 'cookies', jar_of('other', 'a.example')),
                                            session.get(url('a.example', '/x')))),
    ('authentication', lambda session, url: session.get(url('a.example', '/x'), auth=CookieSigner())),
    ('authentication by digest', lambda session, url: session.get(query(url('a.example', '/digest'), c='a=1'),
                                                                  auth=requests.auth.HTTPDigestAuth('user', 'word'))),
    ('authentication by digest, redirect', lambda session, url: session.get(
        query(url('a.example', '/digest'), c='a=1', to='/y'), auth=requests.auth.HTTPDigestAuth('user', 'word'))),
]

# Calls that mount adapters after use_store().
MOUNTS = [
    ('http', lambda session: session.mount('http://', requests.adapters.HTTPAdapter())),
    ('a host', lambda session: session.mount('http://b.a.example', requests.adapters.HTTPAdapter())),
    ('both', lambda session: [session.mount(prefix, requests.adapters.HTTPAdapter(max_retries=2))
                              for prefix in ('https://', 'http://', 'http://b.a.example')]),
    ('nothing', lambda session: None),
]


def jar_of(name, domain):
    jar = requests.cookies.RequestsCookieJar()
    jar.set(name, '1', domain=domain)
    return jar


def by_hand(url):
    request = requests.PreparedRequest()
    request.prepare_method('GET')
    request.prepare_url(url, None)
    request.prepare_headers({})
    return request


@unittest.skipIf(requests is None, 'requests is not installed')
class SessionTests(unittest.TestCase):

    def setUp(self):
        resolve_to_server(self)
        self.server = start_server(self, Digest)

    def url(self, host, path):
        return f'http://{host}:{self.server.server_port}{path}'

    def session(self, kind=None, *arguments):
        """Return a session of a class."""
        session = (kind or requests.Session)(*arguments)
        session.trust_env = False
        self.addCleanup(session.close)
        return session

    def with_store(self, *texts, kind=None):
        """Return a session with a store that has these cookies of a.example."""
        session, store = self.session(kind), CookieStore()
        for text in texts:
            store.parse('http://a.example/', text)
        use_store(session, store)
        return session

    def visits(self):
        visits = self.server.visits[:]
        self.server.visits.clear()
        return visits

    def test_as_without_a_store(self):
        """The cookies of single requests, headers, redirects and authentication work as in requests."""
        for name, call in SAME:
            seen = []
            for has_store in (False, True):
                session = self.session()
                if has_store:
                    use_store(session, CookieStore())
                for cookie, domain, path in STORED:
                    session.cookies.set(cookie, '1', domain=domain, path=path)
                call(session, self.url)
                signed = [headers['X-Signed'] for headers in self.server.headers]
                self.server.headers.clear()
                seen.append((sorted_cookies(self.visits()), [text and sorted(text.split('; ')) for text in signed]))
            with self.subTest(name):
                self.assertEqual(seen[1], seen[0])
                self.assertTrue(seen[0][0])

    def test_mount(self):
        """A host-only cookie goes to its host alone, whatever is mounted later."""
        for name, mount in MOUNTS:
            session = self.with_store('only=1')
            mount(session)
            for host in ('a.example', 'b.a.example'):
                session.get(self.url(host, '/x'), timeout=SECONDS)
            self.assertEqual(self.visits(), [('a.example', '/x', 'only=1'), ('b.a.example', '/x', None)], name)

    def test_mount_https(self):
        files = make_certificate(self)
        server = start_server(self, Echo, server_context(files))
        session = self.with_store('only=1; Secure')
        session.verify = files[0]
        session.mount('https://', requests.adapters.HTTPAdapter())
        for host in ('a.example', 'b.a.example'):
            session.get(f'https://{host}:{server.server_port}/x', timeout=SECONDS)
        session.get(self.url('a.example', '/x'), timeout=SECONDS)
        self.assertEqual(server.visits, [('a.example', '/x', 'only=1'), ('b.a.example', '/x', None)])
        self.assertEqual(self.visits(), [('a.example', '/x', None)])

    def test_adapters_stay(self):
        session = self.session()
        adapter = requests.adapters.HTTPAdapter()
        session.mount('http://a.example', adapter)
        before = dict(session.adapters)
        use_store(session, CookieStore())
        self.assertEqual(session.adapters, before)
        self.assertIs(session.get_adapter(self.url('a.example', '/')), adapter)

    def test_redirects(self):
        """A host-only cookie does not follow a redirect, also of a request that was prepared without the session."""
        to = self.url('b.a.example', '/y')
        rows = [('get', lambda session, url: session.get(url)),
                ('prepared', lambda session, url: session.send(session.prepare_request(requests.Request('GET', url)))),
                ('prepared without the session', lambda session, url: session.send(requests.Request('GET', url).prepare())),
                ('by hand', lambda session, url: session.send(by_hand(url))),
                ('next', lambda session, url: session.send(session.get(url, allow_redirects=False).next)),
                ('of another session', lambda session, url: session.send(self.session().prepare_request(
                    requests.Request('GET', url))))]
        for name, call in rows:
            session = self.with_store('only=1')
            call(session, query(self.url('a.example', '/x'), to=to, c=['set=1', 'wide=1; Domain=a.example; Path=/']))
            self.assertEqual(self.visits()[1], ('b.a.example', '/y', 'wide=1'), name)
            self.assertEqual(session.cookies.store.header('http://a.example/'), 'only=1; set=1; wide=1', name)

    def test_own_cookies_are_not_stored(self):
        session, own = self.with_store('a=1'), jar_of('mine', 'a.example')
        session.get(query(self.url('a.example', '/x'), to='/y', c='b=2'), cookies=own, timeout=SECONDS)
        self.assertEqual(session.cookies.get_dict(), {'a': '1', 'b': '2'})
        self.assertEqual(own.get_dict(), {'mine': '1'})

    def test_host_header(self):
        """A request has the cookies of the host that it goes to."""
        session = self.with_store('a=1')
        session.get(query(self.url('b.example', '/x'), c='b=2'), headers={'Host': 'a.example:80'}, timeout=SECONDS)
        self.assertEqual(self.visits(), [('a.example', '/x', None)])
        self.assertEqual(session.cookies.store.header('http://a.example/'), 'a=1')

    def test_user_in_the_url(self):
        session = self.with_store('a=1')
        session.get(self.url('b.example@a.example', '/x'), timeout=SECONDS)
        self.assertEqual(self.visits(), [('a.example', '/x', 'a=1')])

    def test_copies(self):
        for kind in (requests.Session, Base, StoreSession):
            session = self.with_store('only=1', kind=kind)
            ways = [copy.copy, copy.deepcopy, *(lambda one, number=number: pickle.loads(pickle.dumps(one, number))
                                                for number in range(pickle.HIGHEST_PROTOCOL + 1))]
            for number, make in enumerate(ways):
                other = make(make(session))
                self.addCleanup(other.close)
                self.assertIs(type(other), type(session))
                for host in ('a.example', 'b.a.example'):
                    other.get(self.url(host, '/x'), timeout=SECONDS)
                self.assertEqual(self.visits(), [('a.example', '/x', 'only=1'), ('b.a.example', '/x', None)], (kind, number))

    def test_subclass(self):
        session = self.with_store('only=1', kind=Base)
        session.base = f'http://a.example:{self.server.server_port}'
        session.get('base:/x', timeout=SECONDS)
        self.assertEqual((self.visits(), session.names), ([('a.example', '/x', 'only=1')], ['only']))
        self.assertIsInstance(session, Base)
        self.assertIsInstance(session, StoreSession)
        self.assertIs(type(self.with_store(kind=Base)), type(session))
        use_store(session, CookieStore())
        self.assertIs(type(self.with_store(kind=Base)), type(session))

    def test_pickle_of_a_subclass(self):
        session = self.session(Reduced, 'word')
        use_store(session, CookieStore())
        session.cookies.set('a', '1', domain='a.example')
        for other in (pickle.loads(pickle.dumps(session)), copy.deepcopy(session)):
            self.assertEqual((other.word, other.cookies.get_dict()), ('word', {'a': '1'}))
            self.assertIs(type(other), type(session))

    def test_responses_are_pickled_without_the_store(self):
        session = self.with_store('secret=1; Path=/other')
        response = session.get(self.url('a.example', '/x'), cookies={'mine': '1'}, timeout=SECONDS)
        saved = pickle.dumps(response)
        self.assertNotIn(b'secret', saved)
        again = pickle.loads(saved)
        self.assertEqual(again.request.headers['Cookie'], 'mine=1')
        session.send(again.request)
        self.assertEqual(self.visits(), [('a.example', '/x', 'mine=1')] * 2)

    def test_requests_do_not_read_all_cookies(self):
        session = self.with_store('a=1')
        with unittest.mock.patch.object(CookieStore, 'cookies', side_effect=AssertionError('all cookies are read')):
            session.get(query(self.url('a.example', '/x'), to=self.url('b.example', '/y'), c='b=2'), cookies={'mine': '1'},
                        timeout=SECONDS)
        self.assertEqual(self.visits(), [('a.example', '/x', 'a=1; mine=1'), ('b.example', '/y', 'mine=1')])

    def test_a_jar_of_another_store(self):
        """The other store decides too: its host-only cookie goes to its host alone."""
        session, other = self.with_store('a=1'), StoreJar()
        other.store.parse('http://a.example/', 'other=1')
        for host in ('a.example', 'b.a.example'):
            session.get(self.url(host, '/x'), cookies=other, timeout=SECONDS)
        self.assertEqual(self.visits(), [('a.example', '/x', 'a=1; other=1'), ('b.a.example', '/x', None)])


if __name__ == '__main__':
    unittest.main()
