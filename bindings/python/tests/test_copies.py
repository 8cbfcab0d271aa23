"""Tests of copies and pickles of stores and jars, and of merged stores."""
import copy
import pickle
import unittest

from support import FIRST, NOW, PAGE, filled, jar_with, names

from cookie_store import CookieStore, CookieStoreError, Format, Status, StoreJar

A = 'a.example'


class CopyTests(unittest.TestCase):
    """Copies and pickles of stores and jars."""

    WAYS = [('copy()', lambda one: one.copy()), ('copy', copy.copy), ('deepcopy', copy.deepcopy),
            ('pickle', lambda one: pickle.loads(pickle.dumps(one)))]

    def test_store(self):
        store = CookieStore(strict=True)
        store.set_suffix_list('example\n')
        store.set_domain_limit(2)
        for text in ('a=1', 'b=gr\u00fcn; Max-Age=60'):
            store.parse(f'https://{A}/', text)
        for name, make in self.WAYS:
            other = make(store)
            self.assertEqual((other.cookies(), other.strict, other.domain_limit), (store.cookies(), True, 2), name)
            statuses = [other.parse(f'http://{A}/', text).name for text in ('c=3; Secure', 'c=3; Domain=example', 'c=3')]
            self.assertEqual(statuses, ['INSECURE_URL', 'PUBLIC_SUFFIX', 'INSERTED'], name)
            self.assertEqual((other.header(f'https://{A}/'), len(store)), ('b=gr\u00fcn; c=3', 2), name)

    def test_jar(self):
        jar = jar_with(StoreJar, [('a', '1', A, '/')])
        jar.filename = 'cookies.txt'
        for name, make in self.WAYS:
            other = make(jar)
            other.set('b', '2', domain=A)
            self.assertEqual((other.get_dict(), other.filename), ({'a': '1', 'b': '2'}, 'cookies.txt'), name)
            self.assertEqual(jar.get_dict(), {'a': '1'}, name)
            self.assertEqual(vars(other).keys(), vars(jar).keys(), name)

    def test_cookies(self):
        """The cookies of a jar are ordinary objects, and changing one changes neither the jar nor the next one."""
        jar = jar_with(StoreJar, [('a', '1', A, '/')])
        for name, make in self.WAYS[1:]:
            cookie = make(next(iter(jar)))
            cookie.value = '2'
            self.assertEqual((repr(cookie), jar['a']), (repr(next(iter(jar))).replace("value='1'", "value='2'"), '1'), name)

    def test_copy(self):
        store = filled('a=1; Max-Age=1', 'b=2')
        store.set_suffix_list('example\n')
        other = store.copy()
        self.assertEqual(other.cookies(), store.cookies())
        self.assertIs(other.parse(PAGE, 'c=3; Domain=example'), Status.PUBLIC_SUFFIX)
        other.clear()
        self.assertEqual(len(store), 2)

    def test_merge(self):
        store, other = filled('a=1', 'b=2; Path=/'), filled('b=3; Path=/', '__Host-c=4', 'd=5; Domain=a.example')
        store.set_suffix_list('a.example\n')
        self.assertEqual(store.merge(other, NOW), 0)
        self.assertEqual([(row.name, row.value, row.host_only) for row in store],
                         [('a', '1', True), ('__Host-c', '4', True), ('d', '5', True), ('b', '3', True)])
        strict = CookieStore(strict=True)
        self.assertEqual(strict.merge(other, NOW), 1)
        self.assertEqual([row.name for row in strict], ['b', 'd'])
        self.assertEqual(strict.merge(CookieStore.loads('a b\tFALSE\t/\tFALSE\t0\tc\t3\n', Format.NETSCAPE), NOW), 1)
        self.assertEqual(len(other), 3)
        self.assertEqual((strict.merge(strict, NOW), len(strict)), (0, 2))
        self.assertEqual((strict.merge(StoreJar(strict), NOW), strict.merge(StoreJar(filled('e=6')), NOW), len(strict)), (0, 0, 3))
        other.close()
        with self.assertRaises(CookieStoreError) as caught:
            store.merge(other, NOW)
        self.assertIs(caught.exception.status, Status.NO_STORE)

    def test_copy_is_whole(self):
        """What no saved list has survives a copy; a pickle has what a list has."""
        store = filled('a=1; Path=/x', 'b=2; Path=/y', 'c=3; Path=/x')
        store.parse('http://b.example/', 'n=1; SameSite=None', NOW)
        store.set_domain_limit(2)
        for make in (CookieStore.copy, copy.copy, copy.deepcopy):
            other = make(store)
            self.assertEqual(other.cookies(), store.cookies())
            self.assertEqual([(row.secure, row.same_site) for row in other if row.name == 'n'], [(False, 'None')])
            # The limit evicts in creation order, which is not that of the store.
            other.parse(PAGE, 'd=4; Path=/z', NOW)
            self.assertEqual(names(other), 'cdn')
        pickled = pickle.loads(pickle.dumps(store))
        self.assertEqual([row.secure for row in pickled if row.name == 'n'], [True])
        self.assertEqual(len(filled('a=1; Max-Age=1', now=FIRST).copy()), 1)


if __name__ == '__main__':
    unittest.main()
