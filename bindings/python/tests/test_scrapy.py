"""Tests of the middleware for Scrapy: what a request has after it, and a spider against a server."""
import importlib.util
import logging
import pathlib
import sys
import unittest
from unittest import mock

from programs import make_folder, run, variables
from support import Echo, query, start_server
from values import start_redis

from cookie_store import CookieStore, CookieStoreError
from cookie_store.sites import FolderValues, MemoryValues, SiteStore

HAS_SCRAPY = importlib.util.find_spec('scrapy') is not None
if HAS_SCRAPY:
    from scrapy.exceptions import NotConfigured
    from scrapy.http import Request, Response
    from scrapy.utils.test import get_crawler

    from cookie_store.scrapy import StoreCookiesMiddleware

PAGE = 'http://a.example/d/page'
EXAMPLES = pathlib.Path(__file__).resolve().parent.parent / 'examples'

# Requests for PAGE after the response to one, with what they have: the Set-Cookie header values, the next request, its Cookie header.
REQUESTS = [
    (['a=1', 'b=2; Path=/'], {}, 'a=1; b=2'),
    (['a=1; Domain=b.example', 'b=\xff', 'c=3'], {}, 'c=3'),
    (['a=1; Path=/other'], {}, None),
    (['a=1'], {'url': 'http://b.a.example/d/page'}, None),
    (['a=1; Domain=a.example'], {'url': 'http://b.a.example/d/page'}, 'a=1'),
    (['a=1; Secure'], {}, None),
    (['a=1; Secure'], {'url': 'https://a.example/d/page'}, 'a=1'),
    (['a=1'], {'headers': {'Cookie': 'own=1'}}, 'a=1'),
    ([], {'headers': {'Cookie': 'own=1'}}, None),
    (['a=1'], {'meta': {'cookiejar': 1}}, None),
    (['a=1'], {'meta': {'dont_merge_cookies': True}}, None),
    (['a=1'], {'headers': {'Cookie': 'own=1'}, 'meta': {'dont_merge_cookies': True}}, 'own=1'),
    (['a=1'], {'cookies': {'b': '2'}}, 'a=1; b=2'),
    (['a=1'], {'cookies': {'a': '2'}}, 'a=2'),
    ([], {'cookies': {'a': 1, 'b': True, 'c': 1.5, b'd': b'4', 'e': 'gr\u00fcn'}}, 'a=1; b=True; c=1.5; d=4; e=gr\u00fcn'),
    ([], {'cookies': [{'name': 'a', 'value': '1'}, {'name': 'b', 'value': '2', 'domain': 'a.example', 'path': '/d'}]}, 'a=1; b=2'),
    ([], {'cookies': [{'name': 'a', 'value': '1', 'path': '/other'}, {'name': 'b', 'value': '2', 'domain': 'b.example'}]}, None),
    ([], {'cookies': [{'name': 'a', 'value': '1', 'secure': True}, {'name': 'b', 'value': ''}]}, 'b='),
    ([], {'cookies': [{'name': 'a', 'value': None}, {'value': '1'}, {'name': 'b', 'value': '2'}]}, 'b=2'),
    ([], {'cookies': {'a': '1; Domain=example', 'b; c': '2', 'd=e': '3', 'f': b'\xff', 'g': '\ud800', 'h': '8'}}, 'h=8'),
    ([], {'cookies': {'a': '1\r\nX: y', 'b': '2'}}, 'b=2'),
    ([], {'url': 'http://a%62.example/', 'cookies': {'a': '1'}}, None),
    ([], {'url': 'data:text/plain,', 'cookies': {'a': '1'}}, None),
]

SPIDER = '''
import scrapy


class Spider(scrapy.Spider):
    name = 'spider'
    custom_settings = {
        'DOWNLOADER_MIDDLEWARES': {
            'scrapy.downloadermiddlewares.cookies.CookiesMiddleware': None,
            'cookie_store.scrapy.StoreCookiesMiddleware': 700,
        },
        'TELNETCONSOLE_ENABLED': False,
    }

    def __init__(self, begin, **words):
        super().__init__(**words)
        self.start_urls = [begin]

    def parse(self, response):
        yield response.follow('/last', self.stop)
        yield response.follow('/key', self.stop, meta={'cookiejar': 1}, cookies={'mine': '1'})

    def stop(self, response):
        pass
'''


@unittest.skipUnless(HAS_SCRAPY, 'Scrapy is not installed')
class ScrapyTests(unittest.TestCase):

    def setUp(self):
        self.path = pathlib.Path(make_folder(self), 'cookies.json')

    def middleware(self, **settings):
        return StoreCookiesMiddleware.from_crawler(get_crawler(settings_dict=settings))

    def request(self, middleware, url=PAGE, **words):
        """Return a request as it leaves the middleware."""
        request = Request(url, **words)
        self.assertIsNone(middleware.process_request(request, None))
        return request

    def receive(self, middleware, request, *texts):
        response = Response(request.url, headers={'Set-Cookie': [text.encode('latin-1') for text in texts]})
        self.assertIs(middleware.process_response(request, response, None), response)

    def test_requests(self):
        for texts, words, header in REQUESTS:
            middleware = self.middleware()
            self.receive(middleware, self.request(middleware), *texts)
            with self.subTest((texts, words)):
                values = self.request(middleware, **words).headers.getlist('Cookie')
                self.assertEqual(values, [] if header is None else [header.encode()])

    def test_cookies_of_https(self):
        """The cookies of a request for https are Secure, unless they say otherwise."""
        for cookie, header in [({}, []), ({'secure': False}, [b'a=1']), ({'secure': True}, [])]:
            middleware = self.middleware()
            self.request(middleware, 'https://a.example/d/page', cookies=[{'name': 'a', 'value': '1', **cookie}])
            self.assertEqual(self.request(middleware).headers.getlist('Cookie'), header, cookie)

    def test_responses(self):
        """A response to a request with dont_merge_cookies is not stored, and each key has its own store."""
        middleware = self.middleware()
        for meta in ({'dont_merge_cookies': True}, {'cookiejar': 'k'}):
            self.receive(middleware, self.request(middleware, meta=meta), 'a=1')
        self.assertEqual([(key, store.header(PAGE)) for key, store in middleware.stores.items()], [('k', 'a=1')])

    def test_settings(self):
        with self.assertRaises(NotConfigured):
            self.middleware(COOKIES_ENABLED=False)
        wanted = [f'Received cookies from: <200 {PAGE}>\nSet-Cookie: a=1\n\nSet-Cookie: b=\ufffd\n',
                  f'Sending cookies to: <GET {PAGE}>\nCookie: a=1\n']
        for is_logged in (False, True):
            middleware = self.middleware(COOKIES_DEBUG=is_logged)
            with mock.patch.object(logging.getLogger('scrapy.downloadermiddlewares.cookies'), 'debug') as debug:
                self.receive(middleware, self.request(middleware), 'a=1', 'b=\xfc')
                self.request(middleware)
                self.request(middleware, meta={'cookiejar': 1})
            messages = [call[0][0] % call[0][1:] for call in debug.call_args_list]
            self.assertEqual(messages, wanted if is_logged else [], is_logged)

    def test_suffix_list(self):
        """Each key has the list; a file that is not a list is an error at the start."""
        path = self.path.with_name('list.dat')
        path.write_text('example\n', encoding='utf-8')
        for words, header in [({}, [b'a=1']), ({'COOKIES_SUFFIX_LIST': str(path)}, [])]:
            middleware = self.middleware(**words)
            for key in (None, 1, 2):
                self.receive(middleware, self.request(middleware, meta={'cookiejar': key}), 'a=1; Domain=example; Path=/')
                request = self.request(middleware, 'http://b.example/', meta={'cookiejar': key})
                self.assertEqual(request.headers.getlist('Cookie'), header, (words, key))
        path.write_text('<html>', encoding='utf-8')
        with self.assertRaises(CookieStoreError):
            self.middleware(COOKIES_SUFFIX_LIST=str(path))

    def test_file(self):
        """The store of requests without a key is loaded from the file, if it is there, and saved to it."""
        middleware = self.middleware(COOKIES_FILE=str(self.path))
        self.receive(middleware, self.request(middleware), 'a=1')
        self.receive(middleware, self.request(middleware, meta={'cookiejar': 1}), 'b=2')
        self.assertFalse(self.path.exists())
        middleware.save()
        self.assertEqual(CookieStore.open(self.path).header(PAGE), 'a=1')
        other = self.middleware(COOKIES_FILE=self.path)
        self.assertEqual(self.request(other).headers['Cookie'], b'a=1')

    def test_requests_of_another_store(self):
        """The requests of the table have the same cookies if these are in values by key, but no Secure one of a URL that is not secure."""
        for texts, words, header in REQUESTS:
            middleware = self.middleware(COOKIES_STORE=lambda key: SiteStore(MemoryValues(), suffixes='example'))
            self.receive(middleware, self.request(middleware), *texts)
            with self.subTest((texts, words)):
                values = self.request(middleware, **words).headers.getlist('Cookie')
                self.assertEqual(values, [] if header is None or 'a=1; Secure' in texts else [header.encode()])

    def test_other_stores(self):
        """The function is called once for each key. Its stores are shared by what shares their values, and no file is read."""
        keys = []

        def new_store(key):
            keys.append(key)
            return SiteStore(FolderValues(self.path.with_name(str(key))), suffixes='example')

        for header in ([], [b'a=1']):
            middleware = self.middleware(COOKIES_STORE=new_store, COOKIES_FILE='no/such/folder', COOKIES_SUFFIX_LIST='no such file')
            for key in (None, 1, None):
                self.assertEqual(self.request(middleware, meta={'cookiejar': key}).headers.getlist('Cookie'), header)
            for key in (None, 1):
                self.receive(middleware, self.request(middleware, meta={'cookiejar': key}), 'a=1')
        self.assertEqual(keys, [None, 1] * 2)
        for setting, error in [('no_such_module.function', ImportError), ('os.no_such_function', NameError)]:
            self.assertRaises(error, self.middleware, COOKIES_STORE=setting)
        self.assertEqual(self.middleware(COOKIES_STORE='cookie_store.sites.MemoryValues').stores, {})

    def test_spiders_that_share_a_login(self):
        """Of two spiders, the second has the cookies that the first received."""
        connect, _ = start_redis(self)
        server = start_server(self, Echo)
        url = f'http://127.0.0.1:{server.server_port}'
        path = connect().connection_pool.connection_kwargs['path']
        for name, page, printed in [('visit', '/', ''), ('login', '/login', 'logged in'), ('visit', '/', 'session=1')]:
            begin = query(f'{url}{page}', c=['session=1; Path=/']) if name == 'login' else f'{url}{page}'
            status, lines, messages = run(self, self.path.parent, sys.executable, str(EXAMPLES / 'spiders.py'), name, begin,
                                          env=variables(REDIS_URL=f'unix://{path}'))
            self.assertEqual((status, lines), (0, f'{printed}\n'), messages)

    def test_spider(self):
        """Two runs of a spider that is redirected: the second has the cookies of the first."""
        server = start_server(self, Echo)
        begin = query(f'http://127.0.0.1:{server.server_port}/first', c=['a=1; Path=/', 'b=2; Path=/first'], to='/second')
        program = self.path.with_name('spider.py')
        program.write_text(SPIDER, encoding='utf-8')
        for first in (None, 'b=2; a=1'):
            status, _, messages = run(self, self.path.parent, sys.executable, '-m', 'scrapy', 'runspider', str(program),
                                      '-s', f'COOKIES_FILE={self.path}', '-a', f'begin={begin}', env=variables())
            self.assertEqual(status, 0, messages)
            visits = [(path, cookie) for _, path, cookie in server.visits]
            server.visits.clear()
            self.assertEqual(visits[:2], [('/first', first), ('/second', 'a=1')], messages)
            self.assertEqual(sorted(visits[2:]), [('/key', 'mine=1'), ('/last', 'a=1')], messages)


if __name__ == '__main__':
    unittest.main()
