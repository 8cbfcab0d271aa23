"""Tests of roots and shards, and that stores which are split by them do what one store does."""
import unittest

import cookie_store
from cookie_store import CookieStore, CookieStoreError, Status

LIST = 'com\njp\n*.kobe.jp\nuk\nco.uk\n'
# A host and its root.
ROOTS = {
    'www.example.com': 'example.com', 'com': 'com', 'a.b.example.co.uk': 'example.co.uk', 'a.b.kobe.jp': 'kobe.jp', 'b.kobe.jp': 'kobe.jp',
    'localhost': 'localhost', 'b.a.localhost': 'a.localhost', '127.0.0.1': '127.0.0.1', '[::1]': '[::1]', f'{"l." * 500}a.com': 'a.com',
    f'a.{"l" * 63}{"." + "l" * 63}.com': f'{"l" * 63}.com',
}
VALUES = ['a=1', 'b=2; Domain=example.com', 'c=3; Domain=kobe.jp', 'd=4; Domain=com', 'a=5; Max-Age=0', 'e=6']


def strict_store():
    store = CookieStore(strict=True)
    store.set_suffix_list(LIST)
    store.set_domain_limit(2)
    return store


class RootTests(unittest.TestCase):

    def assert_status(self, status, call, *arguments):
        with self.assertRaises(CookieStoreError) as raised:
            call(*arguments)
        self.assertEqual(raised.exception.status, status)

    def test_roots(self):
        store = strict_store()
        for host, root in ROOTS.items():
            self.assertEqual(store.root(f'https://{host}:8080/x'), root)
            self.assertEqual(store.root_of_domain(host), root)
        self.assertEqual(store.root(b'https://www.example.com/'), 'example.com')
        self.assertEqual(store.root('data:x'), '')
        self.assertEqual(store.root_of_domain('l' * 300), 'l' * 300)

    def test_errors(self):
        store = CookieStore()
        self.assert_status(Status.NO_LIST, store.root, 'no url')
        self.assert_status(Status.NO_LIST, store.root_of_domain, b'\xff')
        store.set_suffix_list(LIST)
        self.assert_status(Status.BAD_URL, store.root, 'no url')
        self.assert_status(Status.NOT_UTF8, store.root, b'\xff')
        self.assert_status(Status.NOT_UTF8, store.root_of_domain, '\ud800')
        store.close()
        self.assert_status(Status.NO_STORE, store.root, 'no url')

    def test_shards(self):
        """The hashes are those that the authors of FNV publish."""
        for root, hashed in [('', 0xcbf29ce484222325), ('a', 0xaf63dc4c8601ec8c), (b'foobar', 0x85944171f73967e8)]:
            for shards in (1, 2, 16, 2**31, 2**32 - 1):
                self.assertEqual(cookie_store.shard(root, shards), hashed % shards)
        for shards in (0, -1, 2**32):
            self.assert_status(Status.BAD_LIMIT, cookie_store.shard, 'a', shards)
        self.assert_status(Status.NOT_UTF8, cookie_store.shard, b'\xff', 2)
        self.assertRaises(TypeError, cookie_store.shard, 'a', 1.0)

    def test_split(self):
        one, stores = strict_store(), [strict_store() for _ in range(4)]

        def store_of(url):
            return stores[cookie_store.shard(stores[0].root(url), len(stores))]

        urls = [f'http://{host}/' for host in ROOTS]
        for url in urls:
            for value in VALUES:
                self.assertEqual(store_of(url).parse(url, value), one.parse(url, value), (url, value))
        for url in urls:
            self.assertEqual(store_of(url).header(url), one.header(url), url)
        self.assertEqual(sum(map(len, stores)), len(one))
        self.assertLess(max(map(len, stores)), len(one))
        for cookie in one:
            store = stores[cookie_store.shard(one.root_of_domain(cookie.domain), len(stores))]
            self.assertTrue(store.remove(cookie.domain, cookie.path, cookie.name), cookie)
        self.assertEqual(sum(map(len, stores)), 0)


if __name__ == '__main__':
    unittest.main()
