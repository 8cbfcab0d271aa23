"""Cookies of browsers: of Selenium, Playwright, extensions such as Cookie-Editor, and Firefox's profiles.

    from cookie_store.browsers import from_firefox, to_playwright

    store = from_firefox('/home/me/.mozilla/firefox/PROFILE/cookies.sqlite')
    context = browser.new_context(storage_state=to_playwright(store))

Each function from_... returns a new store; CookieStore.merge() adds its cookies to another one. Left out
are expired cookies, partitioned ones, which a store would send with requests from every site, and those
that a Set-Cookie header cannot express. Of cookies with the same domain, path and name the last is
kept, also if one is host-only and the other is not. SameSite=None without Secure counts as no SameSite:
browsers reject such cookies, and older versions of Firefox write None for cookies without the attribute.

Each function to_... leaves out what browsers do not accept: the cookies that a strict store rejects. A
cookie expires at most 400 days from now.

Expiry is in whole seconds; a fraction is dropped. Cookies that are left out are logged at level DEBUG by
the logger cookie_store, with the host, the name and the reason, and without the value.
"""
from __future__ import annotations

import contextlib
import errno
import os
import shutil
import sqlite3
import tempfile
import urllib.parse
from typing import Any, Dict, Iterable, Iterator, List, Mapping, Tuple

from ._browser_cookies import accepted, fields_of, store_from
from ._files import Path
from ._listing import Cookie
from ._store import CookieStore
from ._urls import target_of_parts

# The words of extensions for SameSite.
_EXTENSION_SAME_SITES = {'Strict': 'strict', 'Lax': 'lax', 'None': 'no_restriction', None: 'unspecified'}
# The rows of Firefox. Since version 16 of the schema, of Firefox 142, the expiry is in milliseconds, and before in seconds.
_FIREFOX_ROWS = '''
    select name, value, host as domain, path, isSecure as secure, isHttpOnly as httpOnly,
           case when (select user_version from pragma_user_version) < 16 then expiry else expiry / 1000 end as expiry,
           case sameSite when 0 then 'None' when 1 then 'Lax' when 2 then 'Strict' end as sameSite,
           originAttributes <> ? as partitionKey
    from moz_cookies order by creationTime'''


def from_selenium(cookies: Iterable[Mapping[str, Any]]) -> CookieStore:
    """Return a store with the cookies of a driver: driver.get_cookies(), which are those of the current page.

    The driver of Chromium returns SameSite=Lax for a cookie without SameSite.
    """
    return store_from(cookies, 'expiry')


def to_selenium(store: CookieStore, url: str) -> List[Dict[str, Any]]:
    """Return the cookies for driver.add_cookie() while the driver is on the page of a URL.

        driver.get('https://example.com/')
        for cookie in to_selenium(store, driver.current_url):
            driver.add_cookie(cookie)

    They are the cookies of the host of the page, for all paths: a driver sets no others. A host-only
    cookie has no field domain, and so it stays host-only. Raises BAD_URL.
    """
    return [_without_none({**fields_of(cookie), **({'domain': None} if cookie.host_only else {}), 'expiry': cookie.expires,
                           'sameSite': cookie.same_site}) for cookie in _of_host(store, url)]


def _of_host(store: CookieStore, url: str) -> Iterator[Cookie]:
    """Yield the cookies that browsers accept for the host of a URL, for all paths."""
    store.cookies_for(url)  # raises BAD_URL, also if the browser may read another host from it
    host = target_of_parts('', urllib.parse.urlsplit(url).hostname or '', '').host
    for cookie in accepted(store):
        if cookie.domain == host or not cookie.host_only and host.endswith(f'.{cookie.domain}'):
            yield cookie


def _without_none(fields: Dict[str, Any]) -> Dict[str, Any]:
    return {name: field for name, field in fields.items() if field is not None}


def from_playwright(state: Mapping[str, Any]) -> CookieStore:
    """Return a store with the cookies of a storage state: context.storage_state(), or its file read as JSON."""
    return store_from(state['cookies'], 'expires')


def to_playwright(store: CookieStore) -> Dict[str, Any]:
    """Return a storage state with the cookies, and without local storage, for browser.new_context().

    A cookie without SameSite is written with Lax: the format has no word for it.
    """
    return {'cookies': [{**fields_of(cookie), 'expires': -1 if cookie.expires is None else cookie.expires,
                         'sameSite': cookie.same_site or 'Lax'} for cookie in accepted(store)], 'origins': []}


def from_extension(cookies: Iterable[Mapping[str, Any]]) -> CookieStore:
    """Return a store with the cookies that an extension exported as JSON, such as Cookie-Editor.

        with open('exported.json', encoding='utf-8') as file:
            store = from_extension(json.load(file))
    """
    return store_from(cookies, 'expirationDate')


def to_extension(store: CookieStore, url: str) -> List[Dict[str, Any]]:
    """Return the cookies as extensions import them from JSON, such as Cookie-Editor, on the page of a URL.

        replace_file('cookies.json', json.dumps(to_extension(store, 'https://example.com/')))

    They are the cookies of the host of the page, for all paths: an extension may set host-only cookies
    for the page that is open, whatever their domain. Raises BAD_URL.
    """
    return [_without_none({**fields_of(cookie), 'expirationDate': cookie.expires, 'hostOnly': cookie.host_only,
                           'sameSite': _EXTENSION_SAME_SITES[cookie.same_site], 'session': cookie.expires is None})
            for cookie in _of_host(store, url)]


def from_firefox(path: Path, origin_attributes: str = '') -> CookieStore:
    """Return a store with the cookies of a profile of Firefox 60 or later, by its file cookies.sqlite.

    Firefox may run. It locks the database: this one and the file with the suffix -wal beside it, which
    has the latest changes, are copied to a temporary folder and read there, and nothing of the profile
    is changed. The database has no session cookies, which Firefox keeps elsewhere. With
    origin_attributes, such as '^userContextId=1' for the first container, they are the cookies that have
    just these. Raises OSError if a file cannot be read, and sqlite3.Error if it is not such a database.
    """
    with tempfile.TemporaryDirectory() as folder:
        copy = _copied(os.fsdecode(path), folder)
        with contextlib.closing(sqlite3.connect(copy)) as database:
            database.row_factory = sqlite3.Row
            database.text_factory = lambda text: text.decode('utf-8', 'surrogateescape')  # what is not UTF-8 is left out later
            return store_from(map(dict, database.execute(_FIREFOX_ROWS, [origin_attributes])), 'expiry')


def _copied(path: str, folder: str) -> str:
    """Copy a database and its -wal to a folder, both as they are at one time, and return the path of the copy."""
    for attempt in range(100):
        copy, before = os.path.join(folder, str(attempt)), _versions(path)
        with contextlib.suppress(FileNotFoundError):  # Firefox removes the -wal at its end
            for name in before:
                shutil.copyfile(name, copy + name[len(path):])
        if _versions(path) == before:
            return copy
    raise OSError(errno.EBUSY, 'the database changes all the time', path)


def _versions(path: str) -> Dict[str, Tuple[int, int]]:
    """Return, by their names, what changes with the contents of a database and of its -wal, if there is one."""
    states = {path: os.stat(path)}
    with contextlib.suppress(FileNotFoundError):
        states[f'{path}-wal'] = os.stat(f'{path}-wal')
    return {name: (state.st_mtime_ns, state.st_size) for name, state in states.items()}
