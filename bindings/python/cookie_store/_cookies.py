"""Cookies of the store as those of http.cookiejar, and the other way round."""
from __future__ import annotations

import email.utils
import http.cookiejar
import http.cookies
import re
import time
from typing import Any, Dict, Iterable, List, Mapping, Optional

from . import _listing
from ._arguments import Text
from ._library import SAME_SITES
from ._listing import Cookie
from ._log import log_not_stored
from ._status import NOT_VALID, CookieStoreError, NoDomain, Status, text_of
from ._store import CookieStore
from ._urls import is_plain_host

# The attributes of a cookie of requests, unless others are passed.
_HTTP_ONLY: Mapping[str, Any] = {'HttpOnly': None}

# A path that needs no escaping in a URL.
_PLAIN_PATH = re.compile(r"/[-a-zA-Z0-9_~!$&'()*+,;=:@/]*")
# A domain that is the same as the host of a URL.
_PLAIN_HOST = re.compile(r'[-a-zA-Z0-9_.\u0080-\U0010ffff]+|\[[0-9a-fA-F:.]+\]')
# The longest Path attribute, in bytes, that a strict store does not ignore.
_LONGEST_PATH = 1024


def from_wire(text: str) -> Text:
    """Return a string of http.client, which has one byte of the header in each character."""
    try:
        return text.encode('latin-1')
    except UnicodeEncodeError:
        return text


def decoded(text: str) -> str:
    """Return what a string of a cookie stands for: itself, unless it is one of http.client in UTF-8."""
    try:
        return text if text.isascii() else text.encode('latin-1').decode('utf-8')
    except UnicodeError:
        return text


def to_wire(text: str) -> str:
    """Return a string as http.client has it."""
    return text if text.isascii() else text.encode('utf-8').decode('latin-1')


class JarCookie(http.cookiejar.Cookie):
    """A cookie of the store as a http.cookiejar.Cookie. Its domain in the store is in store_domain."""
    version, port, port_specified, domain_initial_dot = 0, None, False, False
    comment, comment_url, rfc2109 = None, None, False

    def __init__(self, row: Cookie) -> None:  # pylint: disable=super-init-not-called
        # What is the same for all cookies is in the class: iteration is twice as fast as with the constructor of Cookie.
        domain, self.path, self.name, self.value, self.expires, host_only, self.path_specified, self.secure, http_only, same_site = row
        if not (domain.isascii() and self.path.isascii() and self.name.isascii() and self.value.isascii()):
            domain, self.path, self.name, self.value = map(to_wire, (domain, self.path, self.name, self.value))
        self.store_domain = domain
        if '.' not in domain:
            domain += '.local'
        self.domain = domain if host_only else '.' + domain
        self.domain_specified, self.discard = not host_only, self.expires is None
        self._rest: Dict[str, Any] = {'HttpOnly': None} if http_only else {}
        if same_site is not None:
            self._rest['SameSite'] = same_site


def unexpired(rows: Iterable[Cookie]) -> List[Cookie]:
    """Return those of the cookies that have not expired, at the current time."""
    return _listing.unexpired(rows, int(time.time()))


def new_cookie(name: str, value: str, *, domain: str = '', domain_specified: Optional[bool] = None, path: str = '/',
               secure: bool = False, expires: Optional[int] = None, rest: Optional[Mapping[str, Any]] = _HTTP_ONLY,
               version: int = 0, port: Optional[str] = None, discard: bool = True, comment: Optional[str] = None,
               comment_url: Optional[str] = None, rfc2109: bool = False) -> http.cookiejar.Cookie:
    """Return a cookie as requests.cookies.create_cookie() does: it is HttpOnly unless rest is passed.

    It is host-only if domain_specified is false.
    """
    is_specified = bool(domain) if domain_specified is None else domain_specified
    return http.cookiejar.Cookie(version, name, value, port, bool(port), domain, is_specified, domain.startswith('.'), path,
                                 bool(path), secure, expires, discard, comment, comment_url, dict(rest or {}), rfc2109)


def cookie_of_morsel(morsel: http.cookies.Morsel[str]) -> http.cookiejar.Cookie:
    """Return a cookie of http.cookies as one of http.cookiejar."""
    expires = None
    if morsel['max-age']:
        expires = int(time.time()) + int(morsel['max-age'])
    elif morsel['expires']:
        expires = int(email.utils.parsedate_to_datetime(morsel['expires']).timestamp())
    return new_cookie(morsel.key, morsel.value, domain=morsel['domain'], path=morsel['path'], secure=bool(morsel['secure']),
                      expires=expires, rest={'HttpOnly': bool(morsel['httponly']), 'SameSite': morsel['samesite']})


def _host(cookie: http.cookiejar.Cookie) -> str:
    """Return the domain of a http.cookiejar.Cookie as a host for a URL.

    '.local' is removed if it is known to be appended: from a cookie that the store returned, from
    localhost, and from an address in brackets.
    """
    domain = decoded(cookie.domain[1:] if cookie.domain.startswith('.') else cookie.domain)
    own = decoded(getattr(cookie, 'store_domain', ''))
    if own and domain in (own, own + '.local'):
        return own
    is_bare = domain == 'localhost.local' or domain.endswith('].local')
    return domain[:-len('.local')] if is_bare else domain


def _is_path_attribute(path: str, is_strict: bool) -> bool:
    """Return whether a cookie that is received with this Path attribute has this path.

    With any other the store would send the cookie to more pages.
    """
    return (path.startswith('/') and ';' not in path and path == path.strip()
            and not (is_strict and len(path.encode('utf-8', 'surrogatepass')) > _LONGEST_PATH))


def _flags(cookie: http.cookiejar.Cookie) -> List[str]:
    """Return HttpOnly and SameSite of a cookie. http.cookiejar has them among the nonstandard attributes, HttpOnly with None."""
    rest = {str(name).lower(): value for name, value in (getattr(cookie, '_rest', None) or {}).items()}
    flags = [] if rest.get('httponly', False) in (False, '') else ['HttpOnly']
    same_site = str(rest.get('samesite') or '').capitalize()
    if same_site in SAME_SITES:
        flags.append(f'SameSite={same_site}')
    return flags


def set_cookie_text(cookie: http.cookiejar.Cookie, has_path: bool, now: int, is_strict: bool) -> str:
    """Return a Set-Cookie header value for this cookie, with or without its path.

    Raises CookieStoreError with status PARSE if no header value can express the cookie.
    """
    name, value = decoded(cookie.name), '' if cookie.value is None else decoded(f'{cookie.value}')
    domain = _host(cookie) if cookie.domain_specified or cookie.domain.startswith('.') else ''
    path = decoded(cookie.path) if has_path else ''
    is_same_path = not path or _is_path_attribute(path, is_strict)
    if not is_same_path or '=' in name or ';' in f'{name}{value}{domain}':
        raise CookieStoreError(Status.PARSE)
    words = [f'{name}={value}']
    if domain:
        words.append(f'Domain={domain}')
    if has_path:
        words.append(f'Path={path}')
    if cookie.expires is not None:
        words.append(f'Max-Age={int(cookie.expires) - now}')
    if cookie.secure:
        words.append('Secure')
    return '; '.join([*words, *_flags(cookie)])


def insert(store: CookieStore, cookie: http.cookiejar.Cookie) -> Status:
    """Insert a cookie, without a request, and return the status of the store."""
    if not cookie.domain:
        raise NoDomain()
    host, now = _host(cookie), int(time.time())
    if not is_plain_host(host):
        raise CookieStoreError(Status.BAD_URL)
    has_path = cookie.path_specified or not _PLAIN_PATH.fullmatch(cookie.path)
    path = '/' if has_path or cookie.path == '/' else cookie.path + '/'
    text = set_cookie_text(cookie, has_path, now, store.strict)
    return store.parse(f'https://{host}{path}', text, now)


def insert_all(store: CookieStore, cookies: Iterable[http.cookiejar.Cookie]) -> None:
    """Insert the cookies that a client has already. Those that the store rejects are logged.

    Raises NoDomain, and inserts none, if one has no domain.
    """
    cookies = list(cookies)
    if not all(cookie.domain for cookie in cookies):
        raise NoDomain()
    for cookie in cookies:
        try:
            status = insert(store, cookie)
        except CookieStoreError as error:
            if error.status not in (*NOT_VALID, Status.PARSE):
                raise
            status = error.status
        if not status.is_success:
            log_not_stored(cookie.domain, cookie.name, text_of(status))


def reason_of(store: CookieStore, row: Cookie, now: int) -> str:
    """Return why a store left out this cookie of a store that was merged into it. The cookie may be inserted."""
    domain, path, name, value, expires, host_only, _, secure, http_only, _ = row
    if not (_PLAIN_HOST.fullmatch(domain) and _is_path_attribute(path, store.strict) and name == name.strip() and value == value.strip()):
        return 'no header value can express it'
    text = (f'{name}={value}; Path={path}{"" if host_only else "; Domain=" + domain}'
            f'{"" if expires is None else f"; Max-Age={expires - now}"}'
            f'{"; Secure" if secure else ""}{"; HttpOnly" if http_only else ""}')
    try:
        status = store.parse(f'https://{domain}/', text, now)
    except CookieStoreError as error:
        status = error.status
    # A host may be written in several ways, as 0:0:0:0:0:0:0:1, and a cookie has the shortest.
    return text_of(Status.DOMAIN_MISMATCH if status < 10 else status)
