"""HTTP cookie handling for web clients, after RFC 6265, with the C library cookie_store.

    import cookie_store

    with cookie_store.CookieStore() as store:
        store.parse('http://example.com/foo/bar', 'cookie1=value1')
        print(store.header('http://example.com/foo/x'))

Class CookieStore is the store of cookie_store.h. CookieStore.open(path) and store.save(path) keep its
cookies in a file, session cookies such as logins included. Class StoreJar is a
http.cookiejar.CookieJar over a CookieStore, for urllib.request and requests. With a store

    cookie_store.requests.use_store() sends its header with each request of a requests.Session,
    cookie_store.httpx.use_store() does so for a httpx.Client or httpx.AsyncClient, and
    cookie_store.aiohttp.StoreCookieJar is a cookie jar for an aiohttp.ClientSession,
    cookie_store.scrapy.StoreCookiesMiddleware is a middleware for Scrapy, and
    cookie_store.mitmproxy.StoreAddon is an addon for mitmproxy.

These five modules are imported by their names. Each needs the package that it is named after.

cookie_store.sites has stores whose cookies are in Redis or in the files of a folder, which processes
share. It needs no other package.

cookie_store.browsers reads and writes the cookies of Selenium, Playwright and extensions of browsers,
and reads those of Firefox. It needs no other package.

Cookies that these modules do not store or send are logged at level DEBUG by the logger cookie_store,
with the host, the name and the reason, and without the value.

String arguments are str, or bytes in UTF-8. Times are seconds since 1970-01-01T00:00:00 UTC, as
time.time() returns them: of an argument `now` a fraction is ignored, and None stands for the current
time.

Threads may share stores and jars. os.fork() waits until no thread is in a call of a store, so that
the child may use its copies of them. No call may be made in a signal handler.

The C library is loaded from the file named by the environment variable COOKIE_STORE_LIBRARY; else
from the folder of this package or the folder three above it, where it is installed; else from where
the system finds it.
"""
from __future__ import annotations

from ._files import replace_file
from ._formats import Format, Which
from ._jar import StoreJar
from ._listing import Cookie
from ._sharding import shard
from ._status import BadLine, BadRule, CookieStoreError, NoDomain, NoMemory, Status
from ._store import CookieStore

__version__ = '0.1.0'
__all__ = ['BadLine', 'BadRule', 'Cookie', 'CookieStore', 'CookieStoreError', 'Format', 'NoDomain', 'NoMemory', 'Status',
           'StoreJar', 'Which', 'replace_file', 'shard']
