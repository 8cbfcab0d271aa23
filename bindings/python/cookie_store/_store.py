"""The cookie store."""
from __future__ import annotations

import ctypes
import os
import re
from typing import Any, Callable, Dict, Iterable, Iterator, List, Optional, Protocol, Tuple, Type, Union

from . import _fork
from ._arguments import Text, Time, bytes_of, seconds_of
from ._files import Path
from ._formats import Format, Which
from ._handle import Suffixes
from ._library import LIBRARY, NONE_BY_DEFAULT, ROW, SAME_SITES, TOP_LEVEL, Row
from ._listing import Cookie, cookies_of
from ._log import log_not_stored, name_of
from ._saved import SavedStore
from ._status import NOT_VALID, STATUSES, CookieStoreError, Status, check, is_reply, text_of

# What a pickle of a store has: its class, list, strictness, public suffix list and limit.
_State = Tuple[Type['CookieStore'], str, bool, Optional[Suffixes], Optional[int]]

# The numbers of the statuses of a cookie that is stored: comparing numbers takes a fraction of the time.
_STORED = frozenset((int(Status.INSERTED), int(Status.UPDATED)))

# Where the authority of a URL is, with a user and a port.
_AUTHORITY = re.compile(r'[a-zA-Z][-+.a-zA-Z0-9]*://([^/?#]*)')


def host_of(url: Text) -> str:
    """Return the host of a URL for the log, valid or not, without a user and a path, which may be secret."""
    text = url if isinstance(url, str) else url.decode('utf-8', 'backslashreplace')
    authority = _AUTHORITY.match(text)
    return re.sub(r':[0-9]*$', '', authority[1].rpartition('@')[2]) if authority else ''


def _flags_of(top_level: bool, lax_by_default: bool) -> int:
    """Return the flags of a cross-site request."""
    return (TOP_LEVEL if top_level else 0) | (0 if lax_by_default else NONE_BY_DEFAULT)


class CookieStore(SavedStore):
    """A cookie store.

    Threads may share a store: a lock lets one call at a time in. Its hash tables use a random key.
    A store without cookies is false, as an empty list is.

    A method that fails raises CookieStoreError with the status of the library in its attribute
    status: NOT_UTF8 for a string that is not UTF-8, BAD_TIME for a time that is not in the years
    -9999 to 9999, NO_STORE after close(); or NoMemory. "Raises X" below means that the method can
    also raise a CookieStoreError with status X. On any of these errors the store is unchanged, except by
    merge().
    """

    def __init__(self, *, strict: bool = False) -> None:
        """Create a store without cookies, public suffix list and limit.

        If strict is true, it follows the rules of set_strict().
        """
        super().__init__(strict=strict)
        self._buffer = ctypes.create_string_buffer(4096)

    def __repr__(self) -> str:
        """Return the class and the number of cookies, without a cookie: values may be secret."""
        return f'<{type(self).__name__} of {len(self)} cookies>'

    def parse(self, url: Text, value: Text, now: Optional[Time] = None, *, page: Optional[Text] = None,
              top_level: bool = False, lax_by_default: bool = True) -> Status:
        """Parse a Set-Cookie header value received from url and insert the cookie.

        Return INSERTED, UPDATED or EXPIRED_EXISTING, or the reason why the cookie was rejected,
        such as DOMAIN_MISMATCH.

        If page is not None, it is the URL of the page that made the request, and the rules of
        browsers apply, see set_strict(), whether the store is strict or not. If it is not same-site
        with url, as in header(), a cookie that is not SameSite=None is rejected: CROSS_SITE_RESPONSE.
        If top_level is true, for a top-level navigation with any method, no cookie is rejected for
        its SameSite attribute, and if lax_by_default is false none that has no such attribute.
        Without page, and for a same-site request, these two arguments have no effect.

        Raises BAD_URL.
        """
        target, cookie, seconds = bytes_of(url), bytes_of(value), seconds_of(now)
        source = None if page is None else bytes_of(page)
        with self._lock:
            self._cookies = None
            if source is None:
                number = LIBRARY.cookie_store_parse(self._store, target, len(target), cookie, len(cookie), seconds)
            else:
                number = LIBRARY.cookie_store_parse_for(self._store, target, len(target), source, len(source), cookie, len(cookie),
                                                        seconds, _flags_of(top_level, lax_by_default))
        if not is_reply(number):
            check(number)
        return STATUSES.get(number) or Status(number)

    def insert(self, name: Text, value: Text, domain: Text, *, path: Text = '/', host_only: bool = False, secure: bool = False,
               http_only: bool = False, same_site: Optional[str] = None, expires: Optional[Time] = None,
               now: Optional[Time] = None) -> Status:
        """Insert a cookie by its parts, as if its own domain had sent it.

            store.insert('id', '7', 'example.com', secure=True, expires=time.time() + 3600)

        The domain is in lower case, without a leading dot. The cookie is also sent to the hosts below
        it, unless host_only is true. same_site is 'Strict', 'Lax' or 'None', or None without a SameSite
        attribute. Without expires it is a session cookie.

        Return what parse() returns: PARSE if no server can set the cookie, as with a `;` in its name
        or a path that does not begin with `/`, and DOMAIN_MISMATCH if the domain is not the host of a
        URL. Raises BAD_OPTION for another same_site.
        """
        strings = [bytes_of(domain), bytes_of(path), bytes_of(name), bytes_of(value)]
        words = [word for string in strings for word in (string, len(string))]
        number_of_same_site = SAME_SITES.index(same_site) if same_site in SAME_SITES else len(SAME_SITES)
        row = Row(0, 0, 0, 0, 0 if expires is None else seconds_of(expires), expires is not None, bool(host_only), True, bool(secure),
                  bool(http_only), number_of_same_site)
        seconds = seconds_of(now)
        with self._lock:
            self._cookies = None
            number = LIBRARY.cookie_store_insert(self._store, *words, row, seconds)
        if not is_reply(number):
            check(number)
        return STATUSES.get(number) or Status(number)

    def receive(self, url: Text, header_values: Optional[Iterable[Text]], now: Optional[Time] = None) -> int:
        """Insert the cookies of the Set-Cookie headers of a response from url, and return how many are stored.

            store.receive(url, response.headers.get_all('Set-Cookie'))

        These are new or replace a stored one. A cookie that parse() would reject is left out and logged, and
        so is one whose header value is not UTF-8, and all if url is not a valid URL. If header_values is None
        there are none. Raises TypeError if it is a str or bytes: that is one header value.
        """
        if isinstance(header_values, (str, bytes)):
            raise TypeError('expected a list of header values, not one: pass [header_value]')
        return self._receive(host_of(url), url, () if header_values is None else header_values, now)

    def _receive(self, host: str, url: Text, header_values: Iterable[Text], now: Optional[Time] = None) -> int:
        """Insert as receive() does. The host is that of the log."""
        count = 0
        for header_value, number in self._parse_all(url, header_values, now):
            if number in _STORED:
                count += 1
            elif number >= 10:
                log_not_stored(host, name_of(header_value), text_of(Status(number)))
        return count

    def _parse_all(self, url: Text, header_values: Iterable[Text], now: Optional[Time]) -> Iterable[Tuple[Text, int]]:
        """Parse header values as parse() does, in one call, and return each one with the number of its status.

        BAD_URL and NOT_UTF8 are statuses too, and not raised.
        """
        if type(self).parse is not CookieStore.parse:
            return self._parse_each(url, header_values, now)
        values = list(header_values)
        if not values:
            return ()
        number, statuses = self._parse_response(bytes_of(url), [bytes_of(value) for value in values], seconds_of(now))
        if number in NOT_VALID:
            return self._parse_each(url, values, now)  # a header value that is not UTF-8 has that status
        check(number)
        for number in statuses:
            if number >= 20 and not is_reply(number) and number not in NOT_VALID:
                check(number)
        return zip(values, statuses)

    def _parse_response(self, url: bytes, values: List[bytes], seconds: int) -> Tuple[int, List[int]]:
        """Parse header values, and return the status of the call and those of the values."""
        joined, count = b''.join(values), len(values)
        lengths, statuses = (ctypes.c_size_t * count)(*map(len, values)), (ctypes.c_uint32 * count)()
        with self._lock:
            self._cookies = None
            number = LIBRARY.cookie_store_parse_each(self._store, url, len(url), joined, len(joined), lengths, count, seconds, statuses,
                                                     count)
        return number, statuses[:]

    def _parse_each(self, url: Text, header_values: Iterable[Text], now: Optional[Time]) -> Iterator[Tuple[Text, int]]:
        """Yield what _parse_all() returns, by calls of the method parse(), which may be that of a subclass."""
        for header_value in header_values:
            try:
                status = self.parse(url, header_value, now)
            except CookieStoreError as error:
                if error.status not in NOT_VALID:
                    raise
                status = error.status
            yield header_value, int(status)

    def header(self, url: Text, now: Optional[Time] = None, *, page: Optional[Text] = None, same_site: bool = True,
               top_level: bool = False, lax_by_default: bool = True) -> Optional[str]:
        """Return the value of the Cookie header of a request for url, or None if none is to be sent.

        The cookies are in the order of RFC 6265 5.4: longer paths first, then in creation order.
        The value may have control characters if a cookie did not come as a line of an HTTP header: check
        it before you write it to a connection. The jars and clients of this package leave such cookies
        out.

        If page is not None, it is the URL of the page that made the request, which is cross-site
        unless the two URLs are same-site: they have the same scheme, and under the public suffix
        list of the store the same registrable domain, or the same host if that has none or there is
        no list. A same-site request has the cookies that a strict store gives it.

        If same_site is false, the request is cross-site whatever page is: pass that for a page in a
        frame of a page of another site, and for a request that a page of another site redirected.

        A cross-site request has no cookies with SameSite=Strict, and those with SameSite=Lax only if
        top_level is true, for a top-level navigation with a safe method. A cookie without a
        SameSite attribute is treated as SameSite=Lax, or as None if lax_by_default is false. For
        another request these two arguments have no effect.

        Raises BAD_URL.
        """
        target, seconds, needed = bytes_of(url), seconds_of(now), ctypes.c_size_t()
        call = LIBRARY.cookie_store_header
        request: Tuple[Any, ...] = (seconds,)
        if not same_site:
            call, request = LIBRARY.cookie_store_header_cross_site, (seconds, _flags_of(top_level, lax_by_default))
        elif page is not None:
            source = bytes_of(page)
            call, request = LIBRARY.cookie_store_header_for, (source, len(source), seconds, _flags_of(top_level, lax_by_default))
        with self._lock:
            number = call(self._store, target, len(target), *request, self._buffer, len(self._buffer), needed)
            if number == Status.NO_ROOM:
                self._buffer = ctypes.create_string_buffer(needed.value)
                number = call(self._store, target, len(target), *request, self._buffer, len(self._buffer), needed)
            check(number)
            return ctypes.string_at(self._buffer, needed.value).decode('utf-8') or None

    def remove(self, domain: Text, path: Text, name: Text) -> bool:
        """Remove the cookie with this domain, path and name, expired or not.

        The domain is without a leading dot. Return False if there is no such cookie.
        """
        key = [bytes_of(domain), bytes_of(path), bytes_of(name)]
        with self._lock:
            self._cookies = None
            number = LIBRARY.cookie_store_remove(self._store, key[0], len(key[0]), key[1], len(key[1]), key[2], len(key[2]))
        if number != Status.NOT_FOUND:
            check(number)
        return bool(number == Status.OK)

    def remove_domain(self, domain: Text) -> int:
        """Remove the cookies of this domain, host-only ones and domain cookies, and return how many.

        The domain is without a leading dot. The others keep their order.
        """
        name, removed = bytes_of(domain), ctypes.c_size_t()
        with self._lock:
            self._cookies = None
            check(LIBRARY.cookie_store_remove_domain(self._store, name, len(name), removed))
        return removed.value

    def clear(self) -> None:
        """Remove all cookies. The public suffix list and the limit stay, and a strict store stays strict."""
        with self._lock:
            self._cookies = None
            check(LIBRARY.cookie_store_clear(self._store))

    def remove_expired(self, now: Optional[Time] = None) -> int:
        """Remove the cookies that have expired at now, and return how many.

        The others keep their order. For now and later times header() returns the same cookies as
        before: it never returns an expired one.
        """
        seconds, removed = seconds_of(now), ctypes.c_size_t()
        with self._lock:
            self._cookies = None
            check(LIBRARY.cookie_store_remove_expired(self._store, seconds, removed))
        return removed.value

    def count_unexpired(self, now: Optional[Time] = None) -> int:
        """Return the number of stored cookies that have not expired at now."""
        seconds = seconds_of(now)
        with self._lock:
            rows, _ = self._read_rows()
        return sum(1 for row in ROW.iter_unpack(rows) if not row[5] or row[4] > seconds)

    def __iter__(self) -> Iterator[Cookie]:
        return iter(self.cookies())

    def cookies_for(self, url: Text, now: Optional[Time] = None) -> List[Cookie]:
        """Return a list of the cookies of a request for url, in the order of header().

        Raises BAD_URL.
        """
        page, seconds = bytes_of(url), seconds_of(now)
        with self._lock:
            return cookies_of(*self._read_rows(LIBRARY.cookie_store_cookies_for, page, len(page), seconds))[0]

    def root(self, url: Text) -> str:
        """Return the root of the host of url: its outermost site under the public suffix list.

        It is '' if the URL has no host. In a strict store, a cookie that a host sets is sent only to
        hosts of the same root, so that each root, or each shard of roots, may have a store of its own:
        see shard().

        Raises NO_LIST if the store has no public suffix list, and BAD_URL.
        """
        return self._root(LIBRARY.cookie_store_root, bytes_of(url))

    def root_of_domain(self, domain: Text) -> str:
        """Return the root of the domain of a cookie, as cookies() returns it. Raises NO_LIST."""
        return self._root(LIBRARY.cookie_store_root_of_domain, bytes_of(domain))

    def _root(self, call: Any, text: bytes) -> str:
        """Return the root that a call writes."""
        room, needed = ctypes.create_string_buffer(256), ctypes.c_size_t()
        with self._lock:
            number = call(self._store, text, len(text), room, len(room), needed)
            if number == Status.NO_ROOM:
                room = ctypes.create_string_buffer(needed.value)
                number = call(self._store, text, len(text), room, len(room), needed)
        check(number)
        return ctypes.string_at(room, needed.value).decode('utf-8')

    def merge(self, other: StoreLike, now: Optional[Time] = None) -> int:
        """Insert the cookies of another store, each as if its own domain had sent it, and return how many are left out.

            store.merge('cookies.json')           # adds the cookies of a file, see open()
            store.merge(CookieStore.loads(text))  # adds those of a list

        Left out are cookies that parse() would reject, and those whose domain is not the host of a URL.
        A domain cookie of a public suffix on the list of this store becomes host-only. An expired cookie
        expires the stored one. The other store is unchanged, and so is one that is merged into itself.

        If it raises NoMemory, some of the cookies are inserted.
        """
        source, seconds, left_out = store_of(other), seconds_of(now), ctypes.c_size_t()
        if source is self:
            return 0
        with _fork.LOCK:
            self._lock.acquire()
            source._lock.acquire()
        try:
            self._cookies = None
            check(LIBRARY.cookie_store_merge(self._store, source._store, seconds, left_out))
        finally:
            source._lock.release()
            self._lock.release()
        return left_out.value

    def copy(self) -> CookieStore:
        """Return a copy of the store.

        It has the same cookies in the same order and creation order, the public suffix list, the limit
        and the hash key, and is strict if the store is. copy.copy() and copy.deepcopy() return the same.

        pickle saves and loads the store in RON instead, and may raise BAD_EXPIRY, see dumps(). Its
        cookies count as created in the order of the store.
        """
        store = type(self)()
        LIBRARY.cookie_store_free(store._store)
        with self._lock:
            check(LIBRARY.cookie_store_clone(self._store, store._store))
            store._suffixes = self._suffixes
        return store

    def __copy__(self) -> CookieStore:
        return self.copy()

    def __deepcopy__(self, memo: Dict[int, Any]) -> CookieStore:
        return self.copy()

    def __reduce__(self) -> Tuple[Callable[..., CookieStore], _State]:
        return _restore, self._state()

    def _state(self) -> _State:
        return type(self), self.dumps(Format.RON, Which.ALL), self.strict, self._suffixes, self.domain_limit


def _restore(cls: Type[CookieStore], text: str, strict: bool, suffixes: Optional[Suffixes],
             limit: Optional[int]) -> CookieStore:
    store = cls.loads(text, Format.RON, Which.ALL, strict=strict)
    if suffixes is not None:
        rules, only_listed = suffixes
        store.set_suffix_list(rules, only_listed=only_listed)
    if limit is not None:
        store.set_domain_limit(limit)
    return store


class HasStore(Protocol):
    """A jar over a store."""
    store: CookieStore


#: What stands for a store: a store, a jar over one, or the name of a file that CookieStore.open() reads.
StoreLike = Union[CookieStore, HasStore, Path]


def store_of(given: StoreLike) -> CookieStore:
    """Return the store that an argument stands for."""
    store = getattr(given, 'store', given)
    if isinstance(store, CookieStore):
        return store
    if isinstance(store, (str, bytes, os.PathLike)):
        return CookieStore.open(store)
    raise TypeError(f'expected a CookieStore, a StoreJar or the name of a file, not {type(given).__name__}')
