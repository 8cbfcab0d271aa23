"""A cookie store over a store of values by key, such as Redis, which processes and machines may share.

    import redis
    from cookie_store.sites import RedisValues, SiteStore

    sites = SiteStore(RedisValues(redis.Redis()))
    sites.receive(url, response.headers.get_all('Set-Cookie'))
    print(sites.header(url))

Under the rules of browsers and a public suffix list no cookie leaves its outermost site, the root of its host, see
CookieStore.root(). So the cookies of a root are a value of their own: a list in JSON, as CookieStore.loads() reads it. A
call reads the list of one root, and writes it by a compare-and-set if it has changed. docs/SCALE.md says how far that goes.
"""
from __future__ import annotations

import contextlib
import json
import random
import time
from typing import Any, Callable, Dict, Iterable, Iterator, List, Optional, Tuple, TypeVar

from ._arguments import Text, Time, bytes_of, seconds_of
from ._files import Path
from ._formats import Which
from ._listing import Cookie
from ._log import log_not_stored, name_of
from ._status import NOT_VALID, CookieStoreError, Status, is_reply, text_of
from ._store import CookieStore, host_of
from ._values import FolderValues, KeyValueStore, MemoryValues, RedisValues

__all__ = ['BadList', 'FolderValues', 'KeyValueStore', 'MemoryValues', 'RedisValues', 'SiteStore', 'WriteConflict']

_Result = TypeVar('_Result')
# What is unique to a cookie: its domain, path and name.
_Key = Tuple[str, str, str]

_COMPACT = json.JSONEncoder(ensure_ascii=False, separators=(',', ':'))

# The pause after a conflict, in seconds, is random, and may be this much longer after each of them.
_MORE_PAUSE, _LONGEST_PAUSE = 0.001, 0.01

# The statuses that depend on the public suffix list and on the page, and not on what is stored.
_OF_RULES = (Status.PUBLIC_SUFFIX, Status.CROSS_SITE_RESPONSE)

# Those of a value that is not a list of cookies.
_BAD_LISTS = (Status.NOT_UTF8, Status.BAD_JSON, Status.BAD_SHAPE, Status.BAD_EXPIRY, Status.PARSE)


class BadList(CookieStoreError):
    """Raised for a value that is not a list of cookies. root is its key, and status that of CookieStore.loads()."""

    def __init__(self, status: Status, root: str) -> None:
        super().__init__(status)
        self.args, self.root = (status, root), root

    def _text(self) -> str:
        return f'the cookies of {self.root}: {text_of(self.status)}'


class WriteConflict(Exception):
    """Raised if others wrote the cookies of a root at each attempt of a call. root is its key. Nothing is written."""

    def __init__(self, root: str, attempts: int) -> None:
        super().__init__(root, attempts)
        self.root, self.attempts = root, attempts

    def __str__(self) -> str:
        return f'the cookies of {self.root}: others wrote them at each of {self.attempts} attempts'


class _Site:
    """The cookies of a root: a strict store without a public suffix list, and the order in which they were created."""

    def __init__(self, root: str, value: Optional[bytes], now: int, limit: Optional[int]) -> None:
        """Load a value, or none. Raises BadList."""
        self.value, self.is_changed = value, False
        self._list = b'[]' if value is None else value
        self._created: List[_Key] = []
        try:
            self.store = CookieStore.loads(self._list, which=Which.UNEXPIRED, now=now, strict=True)
        except CookieStoreError as error:
            if error.status not in _BAD_LISTS:
                raise
            raise BadList(error.status, root) from None
        if limit is not None:
            self.store.set_domain_limit(limit)

    def parse(self, rules: CookieStore, url: Text, value: Text, now: int, request: Dict[str, Any]) -> Status:
        """Parse a header value and insert the cookie. BAD_URL and NOT_UTF8 are statuses too. rules is empty, and has the list."""
        try:
            status = rules.parse(url, value, now, **request)
            accepted = rules.cookies()
            rules.clear()
            if status in _OF_RULES:
                return status
            if accepted and accepted[0].host_only:
                value = bytes_of(value) + b'; Domain='  # as without a Domain attribute, which may be a public suffix
            status = self.store.parse(url, value, now)
        except CookieStoreError as error:
            if error.status not in NOT_VALID:
                raise
            return error.status
        return self._changed_by(status, accepted)

    def insert(self, rules: CookieStore, name: Text, value: Text, domain: Text, words: Dict[str, Any]) -> Status:
        """Insert a cookie by its parts. rules is empty, and has the list."""
        status = rules.insert(name, value, domain, **words)
        accepted = rules.cookies()
        rules.clear()
        if status in _OF_RULES:
            return status
        words = {**words, 'host_only': words['host_only'] or any(cookie.host_only for cookie in accepted)}
        return self._changed_by(self.store.insert(name, value, domain, **words), accepted)

    def _changed_by(self, status: Status, accepted: List[Cookie]) -> Status:
        """Note what an insertion changed, of a cookie that an empty store accepted, and return its status."""
        self.is_changed |= status.is_success
        if status is Status.INSERTED:
            self._created += [(cookie.domain, cookie.path, cookie.name) for cookie in accepted]
        return status

    def remove_expired(self) -> int:
        """Remove the cookies that had expired when the list was loaded, and return how many."""
        removed = len(json.loads(self._list)) - len(self.store)
        self.is_changed |= removed > 0
        return removed

    def dumps(self, now: int) -> Optional[bytes]:
        """Return the list of the unexpired cookies in their creation order, or None if there are none."""
        items = json.loads(self.store.dumps(which=Which.UNEXPIRED, now=now))  # by domain and path
        order: Dict[_Key, int] = {}
        for item in json.loads(self._list):
            order.setdefault(_key(item), len(order))
        for number, key in enumerate(self._created, len(order)):
            order[key] = number
        items.sort(key=lambda item: order.get(_key(item), len(order)))
        return _COMPACT.encode(items).encode('utf-8') if items else None


def _key(item: Any) -> _Key:
    """Return what is unique to a cookie of a list."""
    domain, path, name = item['domain'], item['path'][0], item['raw_cookie'].partition('=')[0]
    return domain if isinstance(domain, str) else next(iter(domain.values())), path, name


class SiteStore:
    """A strict cookie store with a public suffix list, whose cookies are in a store of values by key.

    Threads may share it, and so may processes that use the same values and the same list. Their clocks
    should agree.

    Its calls do what those of a CookieStore do. Each happens at once, before or after the calls of others.
    Before it, the cookies that have expired are removed.

    Besides the errors of a CookieStore a call raises BadList for a value that is not a list of cookies,
    WriteConflict if others wrote the list at each attempt, and what the store of values raises: if that
    fails while it writes, the call may have happened or not.
    """

    def __init__(self, values: KeyValueStore, *, suffixes: Optional[Text] = None, path: Optional[Path] = None,
                 only_listed: bool = False, domain_limit: Optional[int] = None, attempts: int = 100) -> None:
        """Create a store over a store of values, with the public suffix list of the system, or another one.

            SiteStore(RedisValues(redis.Redis()))
            SiteStore(FolderValues('sites'), path='list.dat')

        suffixes, path and only_listed are those of CookieStore.set_suffix_list(), and domain_limit is that of
        set_domain_limit(). A call tries to write a list at most attempts times.
        """
        self._values, self._limit, self._attempts = values, domain_limit, attempts
        self._rules = CookieStore(strict=True)
        self._rules.set_suffix_list(suffixes, path=path, only_listed=only_listed)
        if domain_limit is not None:
            self._rules.set_domain_limit(domain_limit)  # raises BAD_LIMIT
        self._idle: List[CookieStore] = []  # empty copies of it, which no call uses

    def __repr__(self) -> str:
        """Return the class and that of the values, without a cookie: values may be secret."""
        return f'<{type(self).__name__} over {type(self._values).__name__}>'

    def parse(self, url: Text, value: Text, now: Optional[Time] = None, *, page: Optional[Text] = None,
              top_level: bool = False, lax_by_default: bool = True) -> Status:
        """Parse a Set-Cookie header value received from url and insert the cookie, as CookieStore.parse() does."""
        request = {'page': page, 'top_level': top_level, 'lax_by_default': lax_by_default}
        status = self._parse_all(url, [value], seconds_of(now), request)[0]
        if not is_reply(status):
            raise CookieStoreError(status)
        return status

    def receive(self, url: Text, header_values: Optional[Iterable[Text]], now: Optional[Time] = None) -> int:
        """Insert the cookies of the Set-Cookie headers of a response from url, as CookieStore.receive() does.

        Return how many are stored. The others are logged. All are inserted at once.
        """
        if isinstance(header_values, (str, bytes)):
            raise TypeError('expected a list of header values, not one: pass [header_value]')
        values = [] if header_values is None else list(header_values)
        statuses = self._parse_all(url, values, seconds_of(now), {}) if values else []
        for value, status in zip(values, statuses):
            if not status.is_success:
                log_not_stored(host_of(url), name_of(value), text_of(status))
        return sum(status in (Status.INSERTED, Status.UPDATED) for status in statuses)

    def insert(self, name: Text, value: Text, domain: Text, *, path: Text = '/', host_only: bool = False, secure: bool = False,
               http_only: bool = False, same_site: Optional[str] = None, expires: Optional[Time] = None,
               now: Optional[Time] = None) -> Status:
        """Insert a cookie by its parts, as if its own domain had sent it, as CookieStore.insert() does."""
        seconds = seconds_of(now)
        words = {'path': path, 'host_only': host_only, 'secure': secure, 'http_only': http_only, 'same_site': same_site,
                 'expires': expires, 'now': seconds}

        def insert(site: _Site) -> Status:
            with self._empty_store() as rules:
                return site.insert(rules, name, value, domain, words)

        return self._change(self._rules.root_of_domain(domain), seconds, insert)

    def _parse_all(self, url: Text, values: List[Text], now: int, request: Dict[str, Any]) -> List[Status]:
        """Parse header values at once, and return their statuses. BAD_URL and NOT_UTF8 are statuses too."""
        def parse_all(site: _Site) -> List[Status]:
            with self._empty_store() as rules:
                return [site.parse(rules, url, value, now, request) for value in values]

        try:
            root = self._rules.root(url)
        except CookieStoreError as error:
            if error.status not in NOT_VALID:
                raise
            return [error.status] * len(values)
        return self._change(root, now, parse_all)

    def header(self, url: Text, now: Optional[Time] = None, *, page: Optional[Text] = None, same_site: bool = True,
               top_level: bool = False, lax_by_default: bool = True) -> Optional[str]:
        """Return the value of the Cookie header of a request for url, as CookieStore.header() does."""
        seconds = seconds_of(now)
        if same_site and page is not None:
            with self._empty_store() as rules:
                same_site = rules.parse(url, 'a=1', seconds, page=page) is not Status.CROSS_SITE_RESPONSE
        store = self._read(self._rules.root(url), seconds).store
        return store.header(url, seconds, same_site=same_site, top_level=top_level, lax_by_default=lax_by_default)

    def cookies_for(self, url: Text, now: Optional[Time] = None) -> List[Cookie]:
        """Return a list of the cookies of a request for url, in the order of header(). Raises BAD_URL."""
        seconds = seconds_of(now)
        return self._read(self._rules.root(url), seconds).store.cookies_for(url, seconds)

    def remove(self, domain: Text, path: Text, name: Text, now: Optional[Time] = None) -> bool:
        """Remove the cookie with this domain, path and name. Return False if there is no such cookie, or it has expired."""
        def remove(site: _Site) -> bool:
            site.is_changed = site.store.remove(domain, path, name)
            return site.is_changed

        return self._change(self._rules.root_of_domain(domain), seconds_of(now), remove)

    def roots(self) -> Iterator[str]:
        """Yield the roots that have cookies, expired ones included, in any order."""
        return iter(self._values.keys())

    def store_of(self, root: str, now: Optional[Time] = None) -> CookieStore:
        """Return a new strict store, without a public suffix list, with the cookies of a root that have not expired."""
        return self._read(root, seconds_of(now)).store

    def __iter__(self) -> Iterator[Cookie]:
        """Yield the cookies that have not expired, by their roots. Those of a root are read at once, and of others later."""
        for root in self.roots():
            yield from self.store_of(root)

    def remove_root(self, root: str) -> bool:
        """Remove the cookies of a root, or what else is its value. Return False if there is none."""
        for _ in self._tries(root):
            value = self._values.get(root)
            if value is None or self._values.swap(root, value, None):
                break
        return value is not None

    def clear(self) -> None:
        """Remove all cookies, those of a root at a time."""
        for root in list(self.roots()):
            self.remove_root(root)

    def remove_expired(self, now: Optional[Time] = None) -> int:
        """Remove the cookies that have expired at now, and return how many, those of a root at a time.

        No call returns them. Without this call they are removed when a cookie of their root is inserted or removed.
        """
        seconds = seconds_of(now)
        return sum(self._change(root, seconds, _Site.remove_expired) for root in list(self.roots()))

    def _read(self, root: str, now: int) -> _Site:
        """Return the cookies of a root that have not expired. That of a URL without a host is '', and has none."""
        return _Site(root, self._values.get(root) if root else None, now, self._limit)

    def _change(self, root: str, now: int, change: Callable[[_Site], _Result]) -> _Result:
        """Read the cookies of a root, change them and write them, until no other wrote them in between. Return what change returns."""
        for _ in self._tries(root):
            site = self._read(root, now)
            result = change(site)
            if not site.is_changed or self._values.swap(root, site.value, site.dumps(now)):
                break
        return result

    def _tries(self, root: str) -> Iterator[None]:
        """Yield for each attempt to write, with a pause between two. Raises WriteConflict after the last one."""
        for attempt in range(self._attempts):
            if attempt:
                time.sleep(random.uniform(0, min(attempt * _MORE_PAUSE, _LONGEST_PAUSE)))
            yield
        raise WriteConflict(root, self._attempts)

    @contextlib.contextmanager
    def _empty_store(self) -> Iterator[CookieStore]:
        """Return an empty store with the public suffix list, which no other call uses meanwhile."""
        try:
            store = self._idle.pop()
        except IndexError:
            store = self._rules.copy()
        yield store
        store.clear()
        self._idle.append(store)
