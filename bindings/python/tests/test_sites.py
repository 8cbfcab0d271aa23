"""Tests of stores over values by key: they do what one store does, also for several processes, of which some are killed."""
import collections
import json
import logging
import os
import pathlib
import random
import runpy
import stat
import time
import unittest
from unittest import mock

from programs import end, make_folder
from support import NOW, in_threads
from values import Recorded, Workers, folder_values, in_commit_order, redis, redis_values, start_redis

from cookie_store import CookieStore, CookieStoreError, Status, Which
from cookie_store.sites import BadList, FolderValues, MemoryValues, RedisValues, SiteStore, WriteConflict

EXAMPLES = pathlib.Path(__file__).resolve().parent.parent / 'examples'
SUFFIXES = 'com\nco.uk\njp\n*.kobe.jp\n!city.kobe.jp\nexample\ns3.cloud.example\ninvalid\n'

# Hosts with sites that nest, and hosts without a site. None is a public suffix and its own root, as co.uk is: there a Secure cookie of
# one store would count for hosts below, which have other roots.
HOSTS = ['a.example', 'b.a.example', 'c.b.a.example', 'www.x.co.uk', 'x.co.uk', 'kobe.jp', 'a.b.kobe.jp', 'b.kobe.jp', 'city.kobe.jp',
         'www.city.kobe.jp', 'cloud.example', 's3.cloud.example', 'a.s3.cloud.example', 'localhost', '127.0.0.1', '[::1]', 'a.example.']
DOMAINS = [None, None, '', '.a.example', 'a.example', 'b.a.example', 'x.co.uk', 'co.uk', 'kobe.jp', 'b.kobe.jp', 's3.cloud.example',
           'cloud.example', 'example', 'localhost', '127.0.0.1', 'other.example', '\u00fc.example']
PATHS = ['/', '/', '/d', '/d/e', '/other']
NAMES = ['a', 'b', 'c', 'd', '__Host-a', '__Secure-b', '__Http-c']
ATTRIBUTES = ['Secure', 'HttpOnly', 'SameSite=Lax', 'SameSite=None', 'Path=/', 'Path=/d', 'Path=d', 'Max-Age=0', 'Max-Age=20',
              'Max-Age=300', 'Expires=Thu, 01 Jan 1970 00:00:01 GMT', 'Max-Age=99999999']

# Values that are not a list of cookies.
MALFORMED = [
    (b'', Status.BAD_JSON), (b'[', Status.BAD_JSON), (b'\xff', Status.NOT_UTF8), (b'{}', Status.BAD_SHAPE),
    (b'["secret"]', Status.BAD_SHAPE),
    (b'[{"raw_cookie":"secret","path":["/",true],"domain":{"HostOnly":"a.example"},"expires":"SessionEnd"}]', Status.PARSE),
    (b'[{"raw_cookie":"a=1","path":["/",true],"domain":{"HostOnly":"a.example"},"expires":{"AtUtc":"soon"}}]', Status.BAD_EXPIRY),
]


def stores(values, **words):
    return SiteStore(values, suffixes=SUFFIXES, **words)


def one_store(domain_limit=None, only_listed=False):
    """Return the store that a SiteStore with these words must do the same as."""
    store = CookieStore(strict=True)
    store.set_suffix_list(SUFFIXES, only_listed=only_listed)
    if domain_limit is not None:
        store.set_domain_limit(domain_limit)
    return store


def random_url(source):
    return f'{source.choice(["http", "https"])}://{source.choice(HOSTS)}{source.choice(PATHS)}'


def random_value(source, number):
    """Return a Set-Cookie header value, whose value is that of no other number."""
    words = [f'{source.choice(NAMES)}={number}', *source.sample(ATTRIBUTES, source.choice([0, 0, 1, 2, 3]))]
    domain = source.choice(DOMAINS)
    if domain is not None:
        words.append(f'Domain={domain}')
    return source.choice(['; ', ';'] * 20 + ['; \x01']).join(words)


def random_parts(source, number):
    """Return the arguments of insert()."""
    return dict(name=source.choice(NAMES), value=source.choice([str(number)] * 9 + ['a;b']), domain=source.choice(HOSTS + ['A.example']),
                path=source.choice(PATHS), host_only=source.random() < 0.5, secure=source.random() < 0.5, http_only=source.random() < 0.2,
                same_site=source.choice([None, 'Lax', 'None']), expires=source.choice([None, 0, NOW + 300, NOW + 10**9]))


class OneStoreTests(unittest.TestCase):
    """What is returned is what one store with the same list returns, from which expired cookies are removed before each call."""

    def same_calls(self, seed, **rules):
        """Make random calls of both, and compare what they return."""
        source, now = random.Random(seed), NOW
        sites, one = stores(MemoryValues(), **rules), one_store(**rules)
        for number in range(400):
            now += source.choice([0, 0, 0, 1, 10])
            one.remove_expired(now)
            url, page, is_top = random_url(source), source.choice([None, None, random_url(source)]), source.random() < 0.5
            words = dict(page=page, top_level=is_top, lax_by_default=source.random() < 0.8)
            value = random_value(source, number)
            with self.subTest(seed=seed, number=number, url=url, value=value, **words):
                self.assertEqual(sites.parse(url, value, now, **words), one.parse(url, value, now, **words))
                stored = [cookie for cookie in one if cookie.expires is None or cookie.expires > now]
                if source.random() < 0.1 and stored:
                    key = source.choice(stored)[:3]
                    self.assertEqual([sites.remove(*key, now), sites.remove(*key, now)], [one.remove(*key), False], key)
                parts = random_parts(source, number)
                self.assertEqual(sites.insert(**parts, now=now), one.insert(**parts, now=now), parts)
                url, words['same_site'] = random_url(source), source.random() < 0.8
                self.assertEqual(sites.header(url, now, **words), one.header(url, now, **words), url)
                self.assertEqual(sites.cookies_for(url, now), one.cookies_for(url, now), url)
        one.remove_expired(now)
        left = [cookie for root in sites.roots() for cookie in sites.store_of(root, now)]
        self.assertEqual(sorted(left), sorted(one.cookies()))

    def test_calls(self):
        for seed in range(8):
            self.same_calls(seed)

    def test_calls_of_listed_suffixes(self):
        for seed in range(4):
            self.same_calls(seed, only_listed=True)

    def test_domain_limit(self):
        for seed in range(8):
            self.same_calls(seed, domain_limit=2)

    def test_responses(self):
        """The cookies of a response are inserted in order, and what is rejected is logged."""
        sites, one = stores(MemoryValues(), domain_limit=3), one_store(3)
        for number in range(100):
            source = random.Random(number)
            url, values = random_url(source), [random_value(source, 10 * number + at) for at in range(source.randrange(8))]
            with self.subTest(url=url, values=values):
                one.remove_expired(NOW + number)
                logged = []
                for store in (sites, one):
                    with self.assertLogs('cookie_store', logging.DEBUG) as log:
                        logging.getLogger('cookie_store').debug('begin')
                        count = store.receive(url, values, NOW + number)
                    logged.append((count, log.output))
                self.assertEqual(*logged)
                self.assertEqual(sites.cookies_for(url, NOW + number), one.cookies_for(url, NOW + number))

    def test_creation_order(self):
        """It is kept across hosts of a root, whose cookies are beside one another in a saved list, and paths."""
        sites = stores(MemoryValues())
        values = ['a=1; Domain=a.example', 'b=2', 'c=3; Domain=a.example', 'd=4; Path=/', 'e=5; Domain=a.example; Path=/', 'f=6']
        for value in values:
            sites.parse('https://b.a.example/d/e', value, NOW)
        sites.parse('https://b.a.example/d/e', 'b=7', NOW)
        self.assertEqual(sites.header('https://b.a.example/d/e', NOW), 'a=1; b=7; c=3; f=6; d=4; e=5')
        sites.remove('b.a.example', '/d', 'b')
        sites.receive('https://b.a.example/d/e', ['b=8', 'g=9; Domain=a.example'], NOW)
        self.assertEqual(sites.header('https://b.a.example/d/e', NOW), 'a=1; c=3; f=6; b=8; g=9; d=4; e=5')

    def test_evicted_in_the_same_response(self):
        """A cookie that is evicted and then created again is behind the others."""
        sites = stores(MemoryValues(), domain_limit=2)
        sites.receive('https://a.example/', ['a=1', 'b=2'], NOW)
        sites.receive('https://a.example/', ['c=3', 'a=4'], NOW)
        self.assertEqual(sites.header('https://a.example/', NOW), 'c=3; a=4')

    def test_domain_that_is_a_public_suffix(self):
        """The cookie is host-only, and its value is kept as it is."""
        for host in ('co.uk', 's3.cloud.example', 'localhost'):
            sites = stores(MemoryValues())
            for value in (f'a=1; Domain={host}', f'b=2; Domain={host}; Max-Age=60'.encode(), 'c=3'):
                self.assertEqual(sites.parse(f'https://{host}/', value, NOW), Status.INSERTED)
            self.assertEqual(sites.header(f'https://{host}/', NOW), 'a=1; b=2; c=3')
            self.assertEqual(sites.cookies_for(f'https://a.{host}/', NOW), [])

    def test_urls(self):
        """A URL without a host has no cookies, and one that is not valid is an error of parse() and header() alone."""
        sites, one = stores(MemoryValues()), one_store()
        for url in ('data:text/plain,', 'about:blank', 'file:///etc/hosts'):
            for value in ('a=1', 'a=1; Domain=a.example', ''):
                self.assertEqual(sites.parse(url, value, NOW), one.parse(url, value, NOW), (url, value))
            self.assertEqual(sites.header(url, NOW), None)
        self.assertEqual(list(sites.roots()), [])
        for store in (sites, one):  # of a scheme that browsers do not know, a host is kept as it is
            self.assertEqual(store.parse('foo://H%41st/', 'a=1', NOW), Status.INSERTED)
            self.assertEqual(store.parse('foo://H%41st/', 'b=2', NOW), Status.INSERTED)
            self.assertEqual(store.header('foo://H%41st/', NOW), 'a=1; b=2')
        sites.clear()
        for url, value in [('http://a\\@b/', 'a=1'), ('a', 'a=1'), ('', 'a=1'), (b'http://\xff/', 'a=1'), ('http://a.example/', b'a=\xff')]:
            statuses = []
            for store in (sites, one):
                with self.assertRaises(CookieStoreError) as caught:
                    store.parse(url, value, NOW)
                statuses.append(caught.exception.status)
                self.assertEqual(store.receive(url, [value], NOW), 0)
            self.assertEqual(*statuses)
        with self.assertRaises(CookieStoreError):
            sites.header('a', NOW)
        self.assertEqual(sites.receive('http://a.example/', None), 0)
        self.assertRaises(TypeError, sites.receive, 'http://a.example/', 'a=1')
        self.assertEqual(list(sites), [])


class CallTests(unittest.TestCase):
    """The calls on all cookies, and on those of a root."""

    def setUp(self):
        self.values = MemoryValues()
        self.sites = stores(self.values)
        for host in ('a.example', 'b.a.example', 'x.co.uk', 'kobe.jp', 'a.b.kobe.jp', '127.0.0.1'):
            self.sites.receive(f'https://{host}/', ['a=1', 'b=2; Max-Age=60'], NOW)

    def test_roots(self):
        self.assertEqual(sorted(self.sites.roots()), ['127.0.0.1', 'a.example', 'kobe.jp', 'x.co.uk'])
        self.assertEqual([(cookie.domain, cookie.name) for cookie in self.sites.store_of('kobe.jp', NOW)],
                         [('kobe.jp', 'a'), ('kobe.jp', 'b'), ('a.b.kobe.jp', 'a'), ('a.b.kobe.jp', 'b')])
        self.assertEqual(len(self.sites.store_of('other.example', NOW)), 0)

    def test_all_cookies(self):
        """Iteration is over those that have not expired."""
        self.assertEqual(sorted((cookie.domain, cookie.name) for cookie in self.sites), sorted((host, 'a') for host in (
            'a.example', 'b.a.example', 'x.co.uk', 'kobe.jp', 'a.b.kobe.jp', '127.0.0.1')))

    def test_list(self):
        """A value is a list that CookieStore.loads() reads, in creation order."""
        self.sites.parse('https://b.a.example/', 'c=\u00fc; Domain=a.example', NOW)
        items = json.loads(self.values.get('a.example'))
        self.assertEqual([item['raw_cookie'].partition(';')[0] for item in items], ['a=1', 'b=2', 'a=1', 'b=2', 'c=\u00fc'])
        self.assertEqual(CookieStore.loads(self.values.get('a.example'), now=NOW).header('https://b.a.example/', NOW), 'a=1; b=2; c=\u00fc')

    def test_removal(self):
        self.assertTrue(self.sites.remove('x.co.uk', '/', 'a', NOW))
        self.assertFalse(self.sites.remove('x.co.uk', '/', 'a', NOW))
        self.assertFalse(self.sites.remove('x.co.uk', '/', 'b', NOW + 60))
        self.assertTrue(self.sites.remove('x.co.uk', '/', 'b', NOW))
        self.assertNotIn('x.co.uk', self.sites.roots())
        self.assertTrue(self.sites.remove_root('kobe.jp'))
        self.assertFalse(self.sites.remove_root('kobe.jp'))
        self.assertEqual(sorted(self.sites.roots()), ['127.0.0.1', 'a.example'])
        for name in ('a', 'b'):
            self.assertEqual(self.sites.parse('https://127.0.0.1/', f'{name}=1; Max-Age=0', NOW), Status.EXPIRED_EXISTING)
        self.assertEqual(list(self.sites.roots()), ['a.example'])
        self.assertEqual([self.sites.remove_expired(NOW + seconds) for seconds in (59, 60, 60)], [0, 2, 0])
        self.sites.clear()
        self.assertEqual(list(self.sites.roots()), [])

    def test_representation(self):
        self.assertEqual(repr(self.sites), '<SiteStore over MemoryValues>')

    def test_threads(self):
        """They may share it."""
        def work(number):
            for at in range(50):
                self.assertEqual(self.sites.receive('https://a.example/', [f'n{number}_{at}=1']), 1)

        self.assertEqual(in_threads(8, work), [])
        self.assertEqual(len(self.sites.cookies_for('https://a.example/')), 401)


class Overtaken(MemoryValues):
    """Values of which another writes the cookie x before each of the next writes."""

    def __init__(self, conflicts):
        super().__init__()
        self.conflicts, self.cookies = conflicts, 0

    def swap(self, key, old, new):
        if self.conflicts:
            self.conflicts, self.cookies = self.conflicts - 1, self.cookies + 1
            other = one_store()
            other.parse(f'https://{key}/', f'x={self.cookies}')
            super().swap(key, self.get(key), other.dumps(which=Which.ALL).encode())
        return super().swap(key, old, new)


class ErrorTests(unittest.TestCase):

    def setUp(self):
        self.values = MemoryValues()
        self.sites = stores(self.values, attempts=3)

    def test_malformed_values(self):
        """A value that is not a list of cookies is left alone. The message has none of it."""
        for value, status in MALFORMED:
            self.values.swap('a.example', self.values.get('a.example'), value)
            for call in (lambda: self.sites.header('https://a.example/'), lambda: self.sites.parse('https://a.example/', 'a=1'),
                         lambda: self.sites.receive('https://a.example/', ['a=1']), lambda: list(self.sites), self.sites.remove_expired):
                with self.assertRaises(BadList) as caught:
                    call()
                self.assertEqual((caught.exception.status, caught.exception.root), (status, 'a.example'), value)
                self.assertTrue(str(caught.exception).startswith('the cookies of a.example: '), caught.exception)
                self.assertNotIn('secret', str(caught.exception))
            self.assertEqual(self.values.get('a.example'), value)
        self.assertEqual(self.sites.parse('https://x.co.uk/', 'a=1'), Status.INSERTED)
        self.sites.remove_root('a.example')
        self.assertEqual(self.sites.parse('https://a.example/', 'a=1'), Status.INSERTED)

    def test_conflicts(self):
        """A call that others overtake is made again, at most as often as attempts says."""
        for conflicts, header in [(2, 'x=2; a=1'), (3, 'x=3')]:
            values = Overtaken(conflicts)
            sites = stores(values, attempts=3)
            if conflicts < 3:
                self.assertEqual(sites.parse('https://a.example/', 'a=1'), Status.INSERTED)
            else:
                with self.assertRaises(WriteConflict) as caught:
                    sites.parse('https://a.example/', 'a=1')
                self.assertEqual(str(caught.exception), 'the cookies of a.example: others wrote them at each of 3 attempts')
                self.assertEqual(caught.exception.root, 'a.example')
            self.assertEqual(sites.header('https://a.example/'), header)
            values.conflicts = 2
            self.assertTrue(sites.remove_root('a.example'))
            self.assertEqual(list(sites), [])

    def test_values_that_fail(self):
        """What the values raise passes, and the next call goes on."""
        for name in ('get', 'swap'):
            kept = getattr(self.values, name)
            setattr(self.values, name, lambda *_: 1 / 0)
            self.assertRaises(ZeroDivisionError, self.sites.parse, 'https://a.example/', 'a=1')
            setattr(self.values, name, kept)
            self.assertEqual(self.sites.header('https://a.example/'), None)
        self.assertEqual(self.sites.parse('https://a.example/', 'a=1'), Status.INSERTED)

    def test_arguments(self):
        for words, error in [(dict(suffixes=''), CookieStoreError), (dict(path='no such file'), OSError),
                             (dict(suffixes='com', path='list.dat'), TypeError), (dict(suffixes='com', domain_limit=0), CookieStoreError)]:
            self.assertRaises(error, SiteStore, self.values, **words)
        for call, *arguments in [(self.sites.parse, 'https://a.example/', 'a=1'), (self.sites.header, 'https://a.example/')]:
            with self.assertRaises(CookieStoreError) as caught:
                call(*arguments, now=2**62)
            self.assertEqual(caught.exception.status, Status.BAD_TIME)

    def test_redis_that_ended(self):
        connect, program = start_redis(self)
        sites = stores(RedisValues(connect()))
        sites.parse('https://a.example/', 'a=1')
        end(program)
        self.assertRaises(redis.ConnectionError, sites.header, 'https://a.example/')
        self.assertRaises(redis.ConnectionError, sites.parse, 'https://a.example/', 'b=1')


class ValuesTests(unittest.TestCase):
    """What each store of values does."""

    KEYS = ['a.example', '[::1]', '', '.', '..', 'a/b', '../a', 'a+b', 'a%b', 'A.example', '\u00fc', 'a\nb', 'a*', 'x.json', 'x.new',
            '1.lock', 'n' * 195, 'n' * 195 + '.json', 'n' * 195 + '.json2', 'n' * 200, 'n' * 201, 'n' * 1000, '\u00fc' * 300]

    def check(self, values):
        for key in self.KEYS:
            with self.subTest(key):
                self.assertIsNone(values.get(key))
                self.assertTrue(values.swap(key, None, None))
                self.assertFalse(values.swap(key, b'[]', b'[1]'))
                self.assertTrue(values.swap(key, None, key.encode()))
                self.assertFalse(values.swap(key, None, b'[]'))
                self.assertEqual(values.get(key), key.encode())
        self.assertEqual(sorted(values.keys()), sorted(self.KEYS))
        for key in self.KEYS:
            self.assertTrue(values.swap(key, key.encode(), b'[2]'))
            self.assertTrue(values.swap(key, b'[2]', None))
        self.assertEqual(list(values.keys()), [])

    def test_memory(self):
        self.check(MemoryValues())

    def test_redis(self):
        connect, _ = start_redis(self)
        for words in ({}, {'decode_responses': True}):
            for prefix in ('cookies:', '', 'a*?[b]\\^:'):
                self.check(RedisValues(connect(**words), prefix))
        values = [RedisValues(connect(), prefix) for prefix in ('a*', 'ab', 'b')]
        for number, each in enumerate(values):
            each.swap(f'key{number}', None, b'[]')
        self.assertEqual([list(each.keys()) for each in values], [['key0'], ['key1'], ['key2']])

    def test_keys_that_redis_returns_twice(self):
        values = RedisValues(mock.Mock(scan_iter=lambda **_: [b'a:1', 'a:2', b'a:1', b'a:3']), 'a:')
        self.assertEqual(list(values.keys()), ['1', '2', '3'])

    def test_folder(self):
        folder = pathlib.Path(make_folder(self), 'a', 'sites')
        values = FolderValues(folder)
        self.check(values)
        self.check(FolderValues(os.fsencode(folder)))
        values.swap('a.example', None, b'[]')
        self.assertEqual(stat.S_IMODE(folder.stat().st_mode), 0o700)
        self.assertEqual(stat.S_IMODE((folder / 'a.example.json').stat().st_mode), 0o600)

    def test_example(self):
        """The engine of examples/ is one."""
        example = runpy.run_path(str(EXAMPLES / 'sqlite_values.py'))
        values = example['SqliteValues'](':memory:')
        self.addCleanup(values.database.close)
        self.check(values)
        sites = stores(values)
        self.assertEqual(sites.receive('https://a.example/', ['a=1', 'b=2'], NOW), 2)
        self.assertEqual(sites.header('https://a.example/', NOW), 'a=1; b=2')

    def test_file_that_was_begun(self):
        """What a writer left that was killed is not a value, and is replaced."""
        folder = pathlib.Path(make_folder(self))
        (folder / 'a.example.json.new').write_bytes(b'[{"raw_cookie":"a lo')
        values = FolderValues(folder)
        self.assertEqual((values.get('a.example'), list(values.keys())), (None, []))
        self.assertTrue(values.swap('a.example', None, b'[]'))
        self.assertEqual((values.get('a.example'), list(folder.glob('*.new'))), (b'[]', []))

    def test_folder_that_cannot_be_written(self):
        path = pathlib.Path(make_folder(self), 'file')
        path.write_text('')
        self.assertRaises(OSError, FolderValues, path)


class ProcessTests(unittest.TestCase):
    """Processes that share values."""

    WORKERS, SITES = 8, 1000

    def site_url(self, source, site):
        return f'https://{source.choice(["", "www.", "a.b."])}site{site}.com{source.choice(["/", "/d/e"])}'

    def make_calls(self, values, number, calls, log):
        """Insert cookies of responses of random sites, and log each call that has returned, and its write.

        Half of the calls are for site 0, whose cookies replace one another. Those of the others have names that no other call has.
        """
        source, recorded = random.Random(number), Recorded(values)
        sites = stores(recorded)
        for call in range(calls):
            site = source.choice([0, source.randrange(1, self.SITES)])
            name, domain = source.choice(['a', 'b', 'c']) if site == 0 else f'{number}_{call}_', f'; Domain=site{site}.com'
            cookies = [f'{name}{at}={number}_{call}_{at}{source.choice(["", "; Path=/"])}{source.choice(["", domain])}'
                       for at in range(source.randrange(1, 4))]
            url = self.site_url(source, site)
            stored = sites.receive(url, cookies, NOW)
            log(*recorded.write, url, cookies, stored)

    def share(self, new_values, calls):
        """Compare what is stored after the calls of all workers with a store that took them in the order of their writes."""
        workers = Workers(self)
        children = [workers.start(number, lambda log, number=number: self.make_calls(new_values(), number, calls, log))
                    for number in range(self.WORKERS)]
        self.assertEqual([workers.wait(child) for child in children], [0] * self.WORKERS)
        writes, one, sites = collections.defaultdict(list), one_store(), stores(new_values())
        for root, *write in workers.lines():
            writes[root].append(write)
        self.assertEqual(sum(map(len, writes.values())), self.WORKERS * calls)
        for each in writes.values():
            for _, _, url, cookies, stored in in_commit_order(each):
                self.assertEqual(one.receive(url, cookies, NOW), stored)
        self.assertEqual(sorted(sites.roots()), sorted(writes))
        self.assertEqual(sorted(cookie for root in writes for cookie in sites.store_of(root, NOW)), sorted(one.cookies()))
        for root in writes:
            for url in (f'https://{root}/', f'https://www.{root}/d/e', f'https://a.b.{root}/d/e'):
                self.assertEqual(sites.header(url, NOW), one.header(url, NOW), url)

    def test_redis(self):
        self.share(redis_values(self), 150)

    def test_folder(self):
        self.share(folder_values(self), 50)

    def insert(self, values, name, log):
        """Insert cookies with names that no other worker has, and log each before and after."""
        source, sites = random.Random(name), stores(values)
        while True:
            site, cookie = source.choice([0, source.randrange(self.SITES)]), f'{name}_{source.getrandbits(64)}'
            log('begun', site, cookie)
            if sites.parse(f'https://site{site}.com/', f'{cookie}=1', NOW) is Status.INSERTED:
                log('stored', site, cookie)

    def kill(self, new_values, kills):
        """Kill workers at random times. Each cookie that was stored is there, once, and no other but one of each worker."""
        source, workers, children = random.Random(0), Workers(self), collections.deque()
        for number in range(kills):
            children.append(workers.start(number, lambda log, number=number: self.insert(new_values(), number, log)))
            if len(children) > 4:
                time.sleep(source.uniform(0.02, 0.1))
                workers.kill(children.popleft())
        while children:
            workers.kill(children.popleft())
        lines = collections.defaultdict(set)
        for kind, site, cookie in workers.lines():
            lines[kind].add((f'site{site}.com', cookie))
        sites = stores(new_values())
        found = [(cookie.domain, cookie.name) for root in sites.roots() for cookie in sites.store_of(root, NOW)]
        self.assertEqual(len(found), len(set(found)))
        self.assertGreater(len(lines['stored']), kills)
        self.assertEqual((lines['stored'] - set(found), set(found) - lines['begun']), (set(), set()))
        self.assertLessEqual(len(found) - len(lines['stored']), kills)
        self.assertEqual(sites.parse('https://site0.com/', 'last=1', NOW), Status.INSERTED)

    def test_kills_with_redis(self):
        self.kill(redis_values(self), 48)

    def test_kills_with_folder(self):
        self.kill(folder_values(self), 48)


if __name__ == '__main__':
    unittest.main()
