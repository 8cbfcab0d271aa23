"""A http.cookiejar.CookieJar over a cookie store."""
from __future__ import annotations

import http.cookiejar
import os
import threading
import time
import urllib.request
from typing import Any, Dict, Iterable, Iterator, List, Optional

from ._cookies import JarCookie, decoded, from_wire, insert, reason_of, set_cookie_text, to_wire, unexpired
from ._files import Path, replace_file
from ._formats import Format, Which, format_of
from ._listing import Cookie
from ._log import log_not_stored, name_of
from ._mapping import MappingJar
from ._messages import header_for
from ._status import CookieStoreError, Status
from ._store import CookieStore, StoreLike, store_of
from ._urls import target_of


def _which_unexpired(ignore_discard: bool) -> Which:
    """Return which of the cookies that have not expired are loaded or saved."""
    return Which.UNEXPIRED if ignore_discard else Which.PERSISTENT


def _store_domains(domain: str) -> List[str]:
    """Return the domains in a store that a domain of a jar may stand for: '.local' is appended to one without a dot."""
    own = decoded(domain[1:] if domain.startswith('.') else domain)
    bare = own[:-len('.local')]
    return [own, bare] if own.endswith('.local') and '.' not in bare else [own]


class StoreJar(MappingJar):
    """A http.cookiejar.CookieJar that keeps its cookies in a CookieStore, the attribute store.

        opener = urllib.request.build_opener(urllib.request.HTTPCookieProcessor(StoreJar()))

    The store decides which cookies of a response are stored and which are sent with a request. If a
    policy is passed, cookies that it rejects are neither stored nor sent either. The jar does not
    close its store. Each request counts as same-site. A request for ws: or wss: has the cookies of
    http: or https:.

    Iteration and len() leave out expired cookies; they stay in the store until
    clear_expired_cookies(). Cookies look as in http.cookiejar: the domain of a domain cookie has a
    leading dot, '.local' is appended to a host without a dot, and each character of a string is one
    byte of the header. HttpOnly and SameSite are nonstandard attributes.

    The jar has the methods of requests.cookies.RequestsCookieJar, such as get(), set() and
    get_dict(). As the cookies of a requests.Session it stores what responses set, but requests
    chooses by its own rules what to send: before each request it copies the cookies to a jar of its
    own. After cookie_store.requests.use_store() it sends the header of the store.

    Threads may share a jar. A copy of a jar, also by pickle, has a copy of its store.
    """

    #: The file of load() and save() without a filename.
    filename: Optional[Path] = None

    def __init__(self, store: Optional[StoreLike] = None, policy: Optional[http.cookiejar.CookiePolicy] = None) -> None:
        """Create a jar over this store, or over a new one.

        Another jar stands for its store, and the name of a file for CookieStore.open(): that of a
        cookies.txt file is then the attribute filename too.
        """
        super().__init__(policy)
        self.store = CookieStore() if store is None else store_of(store)
        self._has_policy = policy is not None
        if isinstance(store, (str, bytes, os.PathLike)) and format_of(store) is Format.NETSCAPE:
            self.filename = store

    def set_policy(self, policy: http.cookiejar.CookiePolicy) -> None:
        """Set the policy that is asked besides the store from now on."""
        super().set_policy(policy)
        self._has_policy = True

    def add_cookie_header(self, request: urllib.request.Request) -> None:
        """Add the store's Cookie header to request, if there is one and request has none.

        A cookie with a control character other than HTAB, which a loaded list may have, is not sent.
        """
        if request.has_header('Cookie'):
            return
        target = target_of(request)
        header = to_wire(header_for(self.store, target))
        if header and self._has_policy:
            header = self._approved(header, target.url, request)
        if header:
            request.add_unredirected_header('Cookie', header)

    def _approved(self, header: str, url: str, request: urllib.request.Request) -> str:
        """Return the cookies of a header for a URL that the policy accepts. No name or value has a ';'."""
        self._set_policy_time()
        policy = self._policy
        approved = {f'{cookie.name}={cookie.value}' for cookie in map(JarCookie, self.store.cookies_for(url))
                    if policy.domain_return_ok(cookie.domain, request) and policy.path_return_ok(cookie.path, request)
                    and policy.return_ok(cookie, request)}
        return '; '.join(pair for pair in header.split('; ') if pair in approved)

    def _set_policy_time(self) -> int:
        """Pass the current time to the policy, which takes it from its jar, and return it."""
        self._policy._now = self._now = now = int(time.time())  # type: ignore[attr-defined]
        return now

    def extract_cookies(self, response: Any, request: urllib.request.Request) -> None:
        """Store the cookies of response, except rejected ones and headers that are not UTF-8."""
        target, now = target_of(request), self._set_policy_time()
        texts = response.info().get_all('Set-Cookie', [])
        if self._has_policy:
            texts = self._approved_texts(texts, target.host, request, now)
        self.store._receive(target.host, target.url, map(from_wire, texts), now)

    def _approved_texts(self, texts: List[str], host: str, request: urllib.request.Request, now: int) -> Iterator[str]:
        """Yield the header values whose cookies the policy accepts, and log the others."""
        for text in texts:
            if all(self._policy.set_ok(cookie, request) for cookie in self._cookies_made([text], request, now)):
                yield text
            else:
                log_not_stored(host, name_of(from_wire(text)), 'rejected by the policy')

    def make_cookies(self, response: Any, request: urllib.request.Request) -> List[http.cookiejar.Cookie]:
        """Return the cookies of response that a store without a public suffix list accepts.

        The jar is unchanged.
        """
        return self._cookies_made(response.info().get_all('Set-Cookie', []), request, self._set_policy_time())

    def _cookies_made(self, texts: List[str], request: urllib.request.Request, now: int) -> List[http.cookiejar.Cookie]:
        url = target_of(request).url
        with CookieStore(strict=self.store.strict) as store:
            for _ in store._parse_all(url, map(from_wire, texts), now):
                pass  # what is not stored is left out
            return [JarCookie(row) for row in unexpired(store)]

    def set_cookie(self, cookie: http.cookiejar.Cookie) -> None:
        """Set a cookie, without a request. A cookie that has expired expires the stored one.

        Raises NoDomain, a ValueError, if it has no domain, and CookieStoreError with the reason if the
        store rejects it: PARSE if no header can express it, as a path that does not begin with `/`.
        """
        status = insert(self.store, cookie)
        if status not in (Status.INSERTED, Status.UPDATED, Status.EXPIRED_EXISTING, Status.EXPIRED):
            raise CookieStoreError(status)

    def set_cookie_if_ok(self, cookie: http.cookiejar.Cookie, request: urllib.request.Request) -> None:
        """Set a cookie that has not expired, if a response to request may set it."""
        target, now = target_of(request), self._set_policy_time()
        text = to_wire(set_cookie_text(cookie, True, now, self.store.strict))
        if not any(made.domain == cookie.domain for made in self._cookies_made([text], request, now)):
            log_not_stored(target.host, cookie.name, 'a response from the host may not set it')
        elif self._has_policy and not self._policy.set_ok(cookie, request):
            log_not_stored(target.host, cookie.name, 'rejected by the policy')
        else:
            self.store._receive(target.host, target.url, [from_wire(text)], now)

    def __iter__(self) -> Iterator[http.cookiejar.Cookie]:
        return (JarCookie(row) for row in unexpired(self.store))

    def __len__(self) -> int:
        return self.store.count_unexpired()

    def _with_name(self, name: str) -> Iterable[http.cookiejar.Cookie]:
        return (JarCookie(row) for row in unexpired(self.store._named(decoded(name))))

    def clear(self, domain: Optional[str] = None, path: Optional[str] = None, name: Optional[str] = None) -> None:
        """Remove all cookies, or those of a domain, of a domain and path, or one by its name.

        The domain of a domain cookie has a leading dot. Without one it is found too, unless no name is
        passed and host-only cookies match: then these alone are removed. Raises KeyError if no cookie
        matches, and ValueError if name or path is passed without the arguments before it.
        """
        if domain is None:
            if path is not None or name is not None:
                raise ValueError('a path or a name is of a domain')
            self.store.clear()
            return
        if name is None:
            is_found = self._remove(self._rows_at(domain, path)) > 0
        elif path is None:
            raise ValueError('a name is of a domain and a path')
        else:
            is_found = any(self.store.remove(each, decoded(path), decoded(name)) for each in _store_domains(domain))
        if not is_found:
            raise KeyError(next(word for word in (name, path, domain) if word is not None))

    def _rows_at(self, domain: str, path: Optional[str]) -> List[Cookie]:
        """Return the cookies that the jar has with this domain and path, or else those that the store has with it."""
        wanted = None if path is None else decoded(path)
        rows = [row for row in unexpired(self.store) if wanted in (None, row.path)]
        return [row for row in rows if JarCookie(row).domain == domain] or [row for row in rows if row.domain == decoded(domain)]

    def _remove(self, rows: List[Cookie]) -> int:
        """Remove cookies, and return how many."""
        return sum(self.store.remove(row.domain, row.path, row.name) for row in rows)

    def clear_session_cookies(self) -> None:
        """Remove all session cookies."""
        self._remove([row for row in self.store if row.expires is None])

    def clear_expired_cookies(self) -> None:
        """Remove all expired cookies."""
        self.store.remove_expired()

    def load(self, filename: Optional[Path] = None, ignore_discard: bool = False, ignore_expires: bool = False) -> None:
        """Set the cookies of a cookies.txt file, which curl, wget or MozillaCookieJar wrote.

        Without filename the file is that of the attribute filename. Session cookies are left out unless
        ignore_discard is true. Expired cookies are left out, whatever ignore_expires is: no request gets
        them. The others are inserted as CookieStore.merge() does: what the store rejects is left out and
        logged, and a domain cookie of a public suffix on its list becomes host-only. The other cookies of
        the jar stay. No request gets a cookie whose path does not begin with `/`, as MozillaCookieJar
        writes it after Path=foo.

        A first line such as MozillaCookieJar demands need not be there, and an expiry of 0 is that of a
        session cookie. Raises http.cookiejar.LoadError, an OSError, if the file is not UTF-8 or has a
        malformed line.
        """
        name, now = self._filename(filename), int(time.time())
        with open(name, 'rb') as file:
            text = file.read()
        try:
            loaded = CookieStore.loads(text, Format.NETSCAPE, _which_unexpired(ignore_discard), now)
        except CookieStoreError as error:
            if error.status not in (Status.BAD_LINE, Status.NOT_UTF8):
                raise
            raise http.cookiejar.LoadError(f'{name}: {error}') from error
        with loaded:
            if self.store.merge(loaded, now):
                self._log_rejected(loaded.cookies(), now)

    def _log_rejected(self, rows: List[Cookie], now: int) -> None:
        """Log those of the cookies that are not in the store, with the reasons why it rejects them."""
        stored = {row[:4] for row in self.store.cookies()}
        with self.store.copy() as other:
            for row in rows:
                if row[:4] not in stored:
                    log_not_stored(row.domain, row.name, reason_of(other, row, now))

    def _filename(self, filename: Optional[Path]) -> str:
        name = self.filename if filename is None else filename
        if name is None:
            raise ValueError('a jar without the attribute filename needs the argument')
        return os.fsdecode(name)

    def save(self, filename: Optional[Path] = None, ignore_discard: bool = False, ignore_expires: bool = False) -> None:
        """Save the cookies as a cookies.txt file, which curl, wget and MozillaCookieJar read.

        Without filename the file is that of the attribute filename. Session cookies are left out unless
        ignore_discard is true, and expired ones unless ignore_expires is true. Cookies that the format
        cannot represent are left out and logged: see CookieStore.dumps(). The expiry of a session
        cookie is written as 0, as curl does, and MozillaCookieJar reads that as expired.

        The file is written as replace_file() does.
        """
        replace_file(self._filename(filename), self._netscape(ignore_discard, ignore_expires))

    def _netscape(self, ignore_discard: bool, ignore_expires: bool) -> str:
        now = int(time.time())

        def is_chosen(expires: Optional[int]) -> bool:
            return ignore_discard if expires is None else ignore_expires or expires > now

        which = Which.ALL if ignore_expires else _which_unexpired(ignore_discard)
        text, left_out = self.store.dumps_lenient(which, now)
        if left_out:
            self.store._log_left_out([row for row in self.store.cookies() if is_chosen(row.expires)], text)
        if ignore_discard or not ignore_expires:
            return text
        first, *lines, last = text.split('\n')
        return '\n'.join([first, *(line for line in lines if is_chosen(int(line.split('\t')[4]) or None)), last])

    def copy(self) -> StoreJar:
        """Return a copy of the jar, over a copy of its store, with the same policy."""
        other = type(self)(self.store.copy(), self._policy if self._has_policy else None)
        other.filename = self.filename
        return other

    __copy__ = copy

    def __getstate__(self) -> Dict[str, Any]:
        state = self.__dict__.copy()
        state.pop('_cookies_lock')  # of http.cookiejar, which cannot be pickled
        return state

    def __setstate__(self, state: Dict[str, Any]) -> None:
        self.__dict__.update(state)
        self._cookies_lock = threading.RLock()
