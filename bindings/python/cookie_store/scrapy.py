"""A cookie store for the spiders of Scrapy."""
from __future__ import annotations

import logging
from typing import Any, Callable, Dict, Iterator

from scrapy import signals
from scrapy.crawler import Crawler
from scrapy.exceptions import NotConfigured
from scrapy.http import Request, Response
from scrapy.utils.httpobj import urlparse_cached
from scrapy.utils.misc import load_object

from ._log import log_not_stored
from ._merging import merge_file
from ._messages import header_for
from ._store import CookieStore
from ._urls import Target, target_of_parts

# That of Scrapy's own middleware: the logger cookie_store logs no values.
_DEBUG_LOGGER = logging.getLogger('scrapy.downloadermiddlewares.cookies')


class _Stores(Dict[Any, Any]):
    """Stores by the keys `cookiejar` of requests. The first use of a key creates its store, by a function."""

    def __init__(self, new: Callable[[Any], Any]) -> None:
        super().__init__()
        self._new = new

    def __missing__(self, key: Any) -> Any:
        self[key] = store = self._new(key)
        return store


class StoreCookiesMiddleware:
    """Stores the cookies of responses, and sends those of a store with each request, in place of Scrapy's CookiesMiddleware.

        DOWNLOADER_MIDDLEWARES = {
            'scrapy.downloadermiddlewares.cookies.CookiesMiddleware': None,
            'cookie_store.scrapy.StoreCookiesMiddleware': 700,
        }
        COOKIES_FILE = 'cookies.json'

    It follows the settings COOKIES_ENABLED and COOKIES_DEBUG, the keys `cookiejar` and
    `dont_merge_cookies` of Request.meta, and Request.cookies, as Scrapy documents them. The attribute
    stores has the store of each key `cookiejar`, and that of the requests without one by the key None.
    Three settings of its own name files and a function:

    COOKIES_FILE -- the cookies of the requests without a key `cookiejar` are loaded from it, if it is
        there, and saved to it when the spider closes, session cookies included, in the format of its
        suffix
    COOKIES_SUFFIX_LIST -- a public suffix list, of which each store has a copy, of two megabytes
    COOKIES_STORE -- a function, or its import path, that takes a key `cookiejar`, or None, and returns
        its store: a CookieStore, or a cookie_store.sites.SiteStore, whose cookies spiders share. With it,
        the other two have no effect
    """

    def __init__(self, crawler: Crawler) -> None:
        settings = crawler.settings
        if not settings.getbool('COOKIES_ENABLED'):
            raise NotConfigured
        self._crawler, self._is_logged, self._file = crawler, settings.getbool('COOKIES_DEBUG'), settings.get('COOKIES_FILE')
        self._empty = CookieStore()
        if settings.get('COOKIES_STORE'):
            self.stores = _Stores(load_object(settings.get('COOKIES_STORE')))
            return
        if settings.get('COOKIES_SUFFIX_LIST'):
            self._empty.set_suffix_list(path=settings.get('COOKIES_SUFFIX_LIST'))
        self.stores = _Stores(lambda _: self.new_store())
        if self._file:
            merge_file(self.stores[None], self._file)
            crawler.signals.connect(self.save, signals.spider_closed)

    @classmethod
    def from_crawler(cls, crawler: Crawler) -> StoreCookiesMiddleware:
        """Return the middleware of a crawler. Raises NotConfigured if COOKIES_ENABLED is false."""
        return cls(crawler)

    def new_store(self) -> CookieStore:
        """Return an empty store for a new key `cookiejar`. A subclass may return one with other rules, such as a strict one."""
        return self._empty.copy()

    def save(self) -> None:
        """Save the cookies of requests without a key `cookiejar` to the file of COOKIES_FILE."""
        self.stores[None].save(self._file)

    # Older versions of Scrapy pass the spider.
    def process_request(self, request: Request, spider: Any = None) -> None:
        """Store the cookies of a request, and set its Cookie header to that of the store."""
        if request.meta.get('dont_merge_cookies', False):
            return
        store, target = self.stores[request.meta.get('cookiejar')], _target(request)
        store.receive(target.url, _header_values(request, target))
        request.headers.pop('Cookie', None)
        header = header_for(store, target)
        if header:
            request.headers['Cookie'] = header
            self._log('Sending cookies to', request, 'Cookie')

    def process_response(self, request: Request, response: Response, spider: Any = None) -> Response:
        """Store the cookies of a response."""
        if not request.meta.get('dont_merge_cookies', False):
            self.stores[request.meta.get('cookiejar')].receive(_target(request).url, response.headers.getlist('Set-Cookie'))
            self._log('Received cookies from', response, 'Set-Cookie')
        return response

    def _log(self, what: str, message: Any, name: str) -> None:
        """Log the headers of this name of a request or a response, if COOKIES_DEBUG is true, as Scrapy does."""
        values = message.headers.getlist(name) if self._is_logged else []
        if values:
            lines = '\n'.join(f'{name}: {value.decode("utf-8", "replace")}\n' for value in values)
            _DEBUG_LOGGER.debug('%s: %s\n%s', what, message, lines, extra={'spider': self._crawler.spider})


def _target(request: Request) -> Target:
    url = urlparse_cached(request)
    return target_of_parts(url.scheme, url.hostname or '', url.path)


def _header_values(request: Request, target: Target) -> Iterator[bytes]:
    """Yield the cookies of Request.cookies as values of Set-Cookie headers. Those for https are Secure by default."""
    cookies = request.cookies
    if isinstance(cookies, dict):
        cookies = [{'name': name, 'value': value} for name, value in cookies.items()]
    for cookie in cookies:
        parts = {key: _bytes(cookie[key]) for key in ('name', 'value', 'path', 'domain') if cookie.get(key) is not None}
        name, value = parts.pop('name', b''), parts.pop('value', None)
        if value is None or b'=' in name or any(b';' in part for part in (name, value, *parts.values())):
            log_not_stored(target.host, str(cookie.get('name')), 'no header value can express it')
            continue
        words = [b'%s=%s' % (name, value), *(b'%s=%s' % (key.encode(), part) for key, part in parts.items())]
        if cookie.get('secure', target.scheme == 'https'):
            words.append(b'Secure')
        yield b'; '.join(words)


def _bytes(part: Any) -> bytes:
    """Return a part of a cookie, which may be a number. A lone surrogate becomes bytes that are not UTF-8."""
    return part if isinstance(part, bytes) else str(part).encode('utf-8', 'surrogatepass')
