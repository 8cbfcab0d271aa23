"""The Cookie header of a request, whatever its URL and the stored cookies are. What is left out is logged, without values."""
from __future__ import annotations

import re
from typing import Optional, Protocol

from ._log import LOGGER, log_not_sent
from ._status import NOT_VALID, CookieStoreError
from ._urls import Target

# What no header value may have: RFC 9110 5.5.
_CONTROL = re.compile(r'[\x00-\x08\x0a-\x1f\x7f]')


class HasHeader(Protocol):
    """A store that returns the Cookie header of a request for a URL, as CookieStore.header() does."""

    def header(self, url: str) -> Optional[str]:
        """Return the value, or None if no cookie is to be sent."""


def header_for(store: HasHeader, target: Target) -> str:
    """Return the value of the Cookie header of a request, or '' if none is to be sent.

    It has no control characters other than HTAB: a cookie that has one, as a loaded list may, is left out.
    """
    try:
        header = store.header(target.url) or ''
    except CookieStoreError as error:
        if error.status not in NOT_VALID:
            raise
        LOGGER.debug('no cookie is sent to host %r: %s', target.host, error)
        return ''
    return header if _CONTROL.search(header) is None else _without_controls(header, target.host)


def _without_controls(header: str, host: str) -> str:
    """Return a header without the cookies that have a control character. No name or value has a ';'."""
    pairs = []
    for pair in header.split('; '):
        if _CONTROL.search(pair):
            log_not_sent(host, pair.partition('=')[0], 'a control character')
        else:
            pairs.append(pair)
    return '; '.join(pairs)
