"""The cookies of a store for sessions of aiohttp."""
from __future__ import annotations

import email.utils
from http.cookies import BaseCookie, CookieError, Morsel, SimpleCookie
from typing import Any, Callable, Dict, Iterable, Iterator, Mapping, Optional, Tuple, Union

import yarl
from aiohttp.abc import AbstractCookieJar

from ._cookies import unexpired
from ._listing import Cookie
from ._log import log_not_sent
from ._messages import header_for
from ._store import StoreLike, store_of
from ._urls import Target, target_of_parts


def _morsel(name: str, value: str) -> Optional[Morsel[str]]:
    """Return a cookie whose value is sent as it is, or None if http.cookies does not allow it."""
    morsel: Morsel[str] = Morsel()
    try:
        morsel.set(name, value, value)
    except CookieError:
        return None
    return morsel


def _target(url: yarl.URL) -> Target:
    return target_of_parts(url.scheme, url.raw_host or '', url.raw_path)


class StoreCookieJar(AbstractCookieJar):
    """A cookie jar for an aiohttp.ClientSession that keeps its cookies in a store, the attribute store.

        async with aiohttp.ClientSession(cookie_jar=StoreCookieJar(CookieStore())) as session:

    The store decides which cookies of a response are stored and which are sent with a request. A
    StoreJar stands for its store, and the name of a file for CookieStore.open().

    aiohttp sorts the cookies of a request by their names, and sends one of each name: that with
    the longest path. Cookies that http.cookies does not allow are not sent, such as those with a
    `[` in the name. Before version 3.12 aiohttp passes the cookies of a response through
    http.cookies, which also drops those that are not ASCII, and all but one of a name.
    """

    def __init__(self, store: StoreLike) -> None:
        super().__init__()
        self.store = store_of(store)

    def __repr__(self) -> str:
        return f'<{type(self).__name__} over {self.store!r}>'

    @property
    def quote_cookie(self) -> bool:
        """Whether aiohttp quotes the values of cookies that are passed to a single request."""
        return True

    def update_cookies(self, cookies: Union[Mapping[str, Any], Iterable[Tuple[str, Any]]],
                       response_url: yarl.URL = yarl.URL()) -> None:
        """Store the cookies of a response from response_url.

        Raises ValueError without response_url.
        """
        if not response_url.host:
            raise ValueError('a cookie needs the host that it is sent to: pass response_url, or set it in the store')
        own: BaseCookie[str] = SimpleCookie()
        for name, value in cookies.items() if isinstance(cookies, Mapping) else cookies:
            own[name] = value
        self.update_cookies_from_headers([morsel.OutputString() for morsel in own.values()], response_url)

    def update_cookies_from_headers(self, headers: Iterable[str], response_url: yarl.URL) -> None:
        """Store the cookies of Set-Cookie headers, which newer versions of aiohttp pass."""
        target, values = _target(response_url), (header.encode('utf-8', 'surrogateescape') for header in headers)
        self.store._receive(target.host, target.url, values)

    def filter_cookies(self, request_url: yarl.URL) -> BaseCookie[str]:
        """Return the cookies of a request for request_url."""
        cookies: BaseCookie[str] = SimpleCookie()
        target = _target(request_url)
        for pair in filter(None, header_for(self.store, target).split('; ')):
            name, _, value = pair.partition('=')
            morsel = _morsel(name, value)
            if morsel is None:
                log_not_sent(target.host, name, 'http.cookies does not allow it')
            elif name in cookies:
                log_not_sent(target.host, name, 'another cookie has this name')
            else:
                cookies[name] = morsel
        return cookies

    def clear(self, predicate: Optional[Callable[[Morsel[str]], bool]] = None) -> None:
        """Remove all cookies, or those for which predicate is true."""
        if predicate is None:
            self.store.clear()
            return
        for row, morsel in self._morsels():
            if predicate(morsel):
                self.store.remove(row.domain, row.path, row.name)

    def clear_domain(self, domain: str) -> None:
        """Remove the cookies of a domain and of the hosts below it."""
        self.clear(lambda morsel: f'.{morsel["domain"]}'.endswith(f'.{domain}'))

    def _morsels(self) -> Iterator[Tuple[Cookie, Morsel[str]]]:
        for row in unexpired(self.store):
            morsel = _morsel(row.name, row.value)
            if morsel is not None:
                expires = '' if row.expires is None else email.utils.formatdate(row.expires, usegmt=True)
                words: Dict[str, Any] = {'secure': row.secure, 'httponly': row.http_only, 'samesite': row.same_site or ''}
                morsel.update({'domain': row.domain, 'path': row.path, 'expires': expires, **words})
                yield row, morsel

    def __iter__(self) -> Iterator[Morsel[str]]:
        return (morsel for _, morsel in self._morsels())

    def __len__(self) -> int:
        return self.store.count_unexpired()
