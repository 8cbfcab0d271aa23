"""Cookies by the fields that browsers, their drivers and their extensions have in common."""
from __future__ import annotations

import datetime
import json
import re
import time
from typing import Any, Dict, Iterable, Iterator, List, Mapping, Optional, Tuple

from ._cookies import JarCookie, insert, unexpired
from ._listing import Cookie
from ._log import log_not_saved, log_not_stored
from ._merging import merge_logged
from ._status import CookieStoreError, Status, text_of
from ._store import CookieStore

# Any other value, such as 'unspecified' or null, stands for a cookie without a SameSite attribute.
_SAME_SITES = {'strict': 'Strict', 'lax': 'Lax', 'none': 'None', 'no_restriction': 'None'}
# What a list in JSON can have, but for white space at the ends of a name and a value.
_NAME, _VALUE, _PATH = (re.compile(form) for form in (r'[^=;\ud800-\udfff]+', r'[^;\ud800-\udfff]*', r'/[^\ud800-\udfff]*'))
_LATEST = 253402300799  # 9999-12-31T23:59:59


def store_from(cookies: Iterable[Mapping[str, Any]], expiry: str) -> CookieStore:
    """Return a store with the cookies of a browser, whose expiry is in the field of this name.

    Those that it cannot have are logged. Raises BAD_SHAPE if one of them is not a mapping.
    """
    found: Dict[Tuple[str, ...], Cookie] = {}
    for cookie in _readable(cookies, expiry):
        key = cookie.domain, cookie.path, cookie.name
        if key in found:
            log_not_stored(cookie.domain, cookie.name, 'a later cookie replaces it')
        found[key] = cookie
    store = CookieStore()
    with CookieStore.loads(json.dumps([_entry(cookie) for cookie in found.values()])) as loaded:
        merge_logged(store, loaded)
    return store


def _readable(cookies: Iterable[Mapping[str, Any]], expiry: str) -> Iterator[Cookie]:
    """Yield the cookies that a list in JSON can have, and log the others."""
    now = int(time.time())
    for fields in cookies:
        if not isinstance(fields, Mapping):
            raise CookieStoreError(Status.BAD_SHAPE)
        try:
            cookie = _cookie_of(fields, fields.get(expiry))
            _check(cookie, now)
            is_partitioned = any(fields.get(key) not in (None, '', 0) for key in ('partitionKey', 'firstPartyDomain'))
            reason = 'it is of a partition or another container' if is_partitioned else ''
        except CookieStoreError as error:
            reason = str(error)
        if reason:
            log_not_stored(str(fields.get('domain')), str(fields.get('name')), reason)
        else:
            yield cookie


def _cookie_of(fields: Mapping[str, Any], expiry: Any) -> Cookie:
    """Return the cookie of these fields. Raises PARSE if one of them has another type."""
    strings: List[Any] = [fields.get('domain'), fields.get('path') or '/', fields.get('name'), fields.get('value')]
    if not all(isinstance(string, str) for string in strings):
        raise CookieStoreError(Status.PARSE)
    domain, path, name, value = strings
    secure, same_site = bool(fields.get('secure')), _SAME_SITES.get(str(fields.get('sameSite') or '').lower())
    host_only = fields.get('hostOnly')
    return Cookie(
        domain[domain.startswith('.'):].lower(), path, name, value, _seconds(expiry),
        host_only=not domain.startswith('.') if host_only is None else bool(host_only), has_path=True, secure=secure,
        http_only=bool(fields.get('httpOnly')), same_site=None if same_site == 'None' and not secure else same_site)


def _seconds(expiry: Any) -> Optional[int]:
    """Return an expiry in whole seconds, or None for a session cookie. Raises PARSE if it is not a number."""
    if expiry in (None, -1):
        return None
    if not isinstance(expiry, (int, float)) or expiry != expiry:  # NaN is not equal to itself
        raise CookieStoreError(Status.PARSE)
    return int(min(max(expiry, 0), _LATEST))


def _check(cookie: Cookie, now: int) -> None:
    """Raise EXPIRED, BAD_URL or PARSE if the cookie has expired, has no valid domain, or cannot be in a list as it is."""
    if cookie.expires is not None and cookie.expires <= now:
        raise CookieStoreError(Status.EXPIRED)
    if cookie.domain[:1] in ('', '.') or not cookie.domain.isascii():
        raise CookieStoreError(Status.BAD_URL)
    is_trimmed = cookie.name == cookie.name.strip() and cookie.value == cookie.value.strip()
    if not (is_trimmed and _NAME.fullmatch(cookie.name) and _VALUE.fullmatch(cookie.value) and _PATH.fullmatch(cookie.path)):
        raise CookieStoreError(Status.PARSE)


def _entry(cookie: Cookie) -> Dict[str, Any]:
    """Return a cookie as an entry of a list in JSON, as CookieStore.loads() reads it."""
    text = f'{cookie.name}={cookie.value}{"; Secure" if cookie.secure else ""}{"; HttpOnly" if cookie.http_only else ""}'
    if cookie.same_site:
        text += f'; SameSite={cookie.same_site}'
    expires: Any = 'SessionEnd'
    if cookie.expires is not None:
        time_of = datetime.datetime.fromtimestamp(cookie.expires, datetime.timezone.utc)
        expires = {'AtUtc': time_of.strftime('%Y-%m-%dT%H:%M:%SZ')}
    return {'raw_cookie': text, 'path': [cookie.path, True], 'expires': expires,
            'domain': {'HostOnly' if cookie.host_only else 'Suffix': cookie.domain}}


def accepted(store: CookieStore) -> Iterator[Cookie]:
    """Yield the unexpired cookies of a store that browsers accept, as a strict store does. The others are logged."""
    with CookieStore(strict=True) as browser:
        for cookie in unexpired(store):
            try:
                status = insert(browser, JarCookie(cookie)) if cookie.domain else Status.BAD_URL
            except CookieStoreError as error:
                status = error.status
            if not status.is_success:
                log_not_saved(cookie.domain, cookie.name, text_of(status))
        yield from browser.cookies()


def fields_of(cookie: Cookie) -> Dict[str, Any]:
    """Return the fields of a cookie that the formats have in common."""
    return {'name': cookie.name, 'value': cookie.value, 'domain': cookie.domain if cookie.host_only else f'.{cookie.domain}',
            'path': cookie.path, 'secure': cookie.secure, 'httpOnly': cookie.http_only}
