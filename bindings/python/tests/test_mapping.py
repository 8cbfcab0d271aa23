"""Tests of StoreJar as a requests.cookies.RequestsCookieJar, which passes the same tests."""
import http.cookies
import pickle
import unittest
from unittest import mock

from support import jar_with

from cookie_store import CookieStore, NoDomain, StoreJar
from cookie_store._cookies import JarCookie

try:
    from requests.cookies import CookieConflictError, RequestsCookieJar
except ImportError:
    CookieConflictError, RequestsCookieJar = RuntimeError, None

A, B = 'a.example', 'b.example'

# Calls on a jar with a=1 of A and /, b=2 of A and /d, b=3 of B and /, and what they return.
RETURNS = [
    ('get', lambda jar: jar.get('a'), '1'),
    ('get, a domain', lambda jar: jar.get('b', domain=B), '3'),
    ('get, a path', lambda jar: jar.get('b', path='/d'), '2'),
    ('get, another domain', lambda jar: jar.get('a', domain=B), None),
    ('get, a default', lambda jar: jar.get('c', '4'), '4'),
    ('item', lambda jar: jar['a'], '1'),
    ('in', lambda jar: ('a' in jar, 'b' in jar, 'c' in jar), (True, True, False)),
    ('get_dict', lambda jar: jar.get_dict(), {'a': '1', 'b': '3'}),
    ('get_dict, a domain', lambda jar: jar.get_dict(domain=A), {'a': '1', 'b': '2'}),
    ('get_dict, a domain and a path', lambda jar: jar.get_dict(A, '/'), {'a': '1'}),
    ('keys', lambda jar: sorted(jar.keys()), ['a', 'b', 'b']),
    ('values', lambda jar: sorted(jar.values()), ['1', '2', '3']),
    ('items', lambda jar: sorted(jar.items()), [('a', '1'), ('b', '2'), ('b', '3')]),
    ('iterators', lambda jar: list(jar.iteritems()) == list(zip(jar.iterkeys(), jar.itervalues())) == jar.items(), True),
    ('list_domains', lambda jar: sorted(domain.lstrip('.') for domain in jar.list_domains()), [A, B]),
    ('list_paths', lambda jar: sorted(jar.list_paths()), ['/', '/d']),
    ('multiple_domains', lambda jar: jar.multiple_domains(), True),
]

# Calls that change such a jar, and the values that are then left.
CHANGES = [
    ('set', lambda jar: jar.set('a', '9', domain=A), '239'),
    ('set, another path', lambda jar: jar.set('a', '9', domain=A, path='/e'), '1239'),
    ('set None', lambda jar: jar.set('b', None), '1'),
    ('set None, a domain', lambda jar: jar.set('b', None, domain=A), '13'),
    ('item None', lambda jar: jar.__setitem__('a', None), '23'),
    ('pop', lambda jar: jar.pop('a'), '23'),
    ('pop, a default', lambda jar: jar.pop('c', None), '123'),
    ('del', lambda jar: jar.__delitem__('b'), '1'),
    ('del, no such name', lambda jar: jar.__delitem__('c'), '123'),
    ('update, a jar', lambda jar: jar.update(jar_with(type(jar), [('c', '4', A, '/'), ('a', '5', A, '/')])), '2345'),
    ('update, Morsels', lambda jar: jar.update({'c': morsel('c=4; Domain=a.example; Path=/')}), '1234'),
    ('update, pairs', lambda jar: jar.update([('c', morsel('c=4; Domain=a.example; Max-Age=60; Secure'))]), '1234'),
    ('update, expired', lambda jar: jar.update({'c': morsel('c=4; Domain=a.example; Max-Age=-1')}), '123'),
]


def morsel(text):
    return next(iter(http.cookies.SimpleCookie(text).values()))


class MappingTests(unittest.TestCase):

    def jars(self):
        """Yield a jar of each class."""
        for kind in filter(None, (StoreJar, RequestsCookieJar)):
            yield jar_with(kind, [('a', '1', A, '/'), ('b', '2', A, '/d'), ('b', '3', B, '/')])

    def test_returns(self):
        for name, call, wanted in RETURNS:
            for jar in self.jars():
                self.assertEqual(call(jar), wanted, f'{name} of {type(jar).__name__}')

    def test_changes(self):
        for name, call, wanted in CHANGES:
            for jar in self.jars():
                if name == 'update, expired' and not isinstance(jar, StoreJar):
                    continue  # it keeps the cookie, and does not send it
                call(jar)
                self.assertEqual(''.join(sorted(jar.values())), wanted, f'{name} of {type(jar).__name__}')

    def test_raises(self):
        for jar in self.jars():
            rows = [('get', CookieConflictError, lambda: jar.get('b')), ('item', CookieConflictError, lambda: jar['b']),
                    ('no item', KeyError, lambda: jar['c']),
                    ('pop', KeyError, lambda: jar.pop('c')), ('pop, several', CookieConflictError, lambda: jar.pop('b')),
                    ('set, an unknown word', TypeError, lambda: jar.set('c', '4', colour='red'))]
            for name, kind, call in rows:
                with self.subTest(f'{name} of {type(jar).__name__}'), self.assertRaises(kind):
                    call()

    def test_no_domain(self):
        """requests would send the cookie to every host."""
        jar = StoreJar()
        rows = [('set', lambda: jar.set('a', '1')), ('item', lambda: jar.__setitem__('a', '1')),
                ('update', lambda: jar.update({'a': '1'}))]
        for name, call in rows:
            with self.subTest(name), self.assertRaisesRegex(NoDomain, 'domain=') as raised:
                call()
            self.assertIsInstance(raised.exception, ValueError)
            self.assertEqual(str(pickle.loads(pickle.dumps(raised.exception))), str(raised.exception))
        self.assertEqual(len(jar), 0)

    def test_attributes(self):
        jar = StoreJar()
        cookie = jar.set('a', '1', domain=A, path='/d', secure=True, expires=4102444800, rest={'SameSite': 'Lax'})
        self.assertEqual((cookie.name, cookie.value), ('a', '1'))
        self.assertEqual(list(jar.store), [(A, '/d', 'a', '1', 4102444800, False, True, True, False, 'Lax')])
        self.assertIsNone(jar.store.header(f'https://{A}/d', same_site=False))
        jar.set('a', morsel('a=2; Domain=b.example; Path=/; HttpOnly; SameSite=strict; Expires=Fri, 01 Jan 2100 00:00:00 GMT'))
        self.assertEqual(jar.store.cookies()[1], (B, '/', 'a', '2', 4102444800, False, True, False, True, 'Strict'))

    def test_host_only(self):
        rows = [({}, False), ({'domain_specified': True}, False), ({'domain_specified': None}, False),
                ({'domain_specified': False}, True)]
        for words, wanted in rows:
            jar = StoreJar()
            cookie = jar.set('a', '1', domain=A, **words)
            self.assertEqual((cookie.domain_specified, [row.host_only for row in jar.store]), (not wanted, [wanted]), words)

    def test_a_dict_is_made_in_one_pass(self):
        """All cookies are read once and indexed by their names once, however many there are."""
        jar = jar_with(StoreJar, [(f'c{number}', str(number), A, '/') for number in range(100)])
        with mock.patch.object(CookieStore, '_read_rows', autospec=True, side_effect=CookieStore._read_rows) as rows, \
                mock.patch.object(JarCookie, '__init__', autospec=True, side_effect=JarCookie.__init__) as made:
            self.assertEqual(dict(jar), {f'c{number}': str(number) for number in range(100)})
        self.assertEqual((rows.call_count, made.call_count), (1, 200))
        jar.set('c0', 'other', domain=A)
        self.assertEqual((jar['c0'], jar.get('c100')), ('other', None))
        jar.set('c0', None)
        self.assertNotIn('c0', jar)

    def test_local_hosts(self):
        """The domain vm.local of a jar is that of the hosts vm and vm.local."""
        for domain, left in [('vm', ['vm.local']), ('vm.local', [])]:
            jar = StoreJar()
            for host in ('vm', 'vm.local'):
                jar.store.parse(f'http://{host}/', 'a=1')
            self.assertEqual(jar.list_domains(), ['vm.local'])
            jar.set('a', None, domain=domain)
            self.assertEqual([row.domain for row in jar.store], left, domain)

    def test_expired_cookies_are_not_found(self):
        jar = jar_with(StoreJar, [('a', '1', A, '/')])
        jar.store.parse(f'http://{A}/', 'b=2; Max-Age=60', 0)
        jar.store.parse(f'http://{A}/x/y', 'a=3; Max-Age=60', 0)
        self.assertEqual((jar['a'], jar.get('b'), 'b' in jar, 1 in jar), ('1', None, False, False))

    def test_domains(self):
        """A domain cookie is found with and without the leading dot, and a host without a dot with and without .local."""
        jar = StoreJar()
        jar.store.parse(f'http://{A}/', 'a=1; Domain=a.example')
        jar.store.parse('http://localhost/', 'b=2')
        rows = [('a', A, '1'), ('a', '.' + A, '1'), ('a', B, None), ('b', 'localhost', '2'), ('b', 'localhost.local', '2'),
                ('b', '.localhost', None)]
        for name, domain, wanted in rows:
            self.assertEqual(jar.get(name, domain=domain), wanted, domain)
        self.assertFalse(jar_with(StoreJar, [('a', '1', A, '/'), ('b', '2', A, '/')]).multiple_domains())


if __name__ == '__main__':
    unittest.main()
