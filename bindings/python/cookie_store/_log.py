"""What is logged of a cookie: the host, the name and the reason, and never the value."""
from __future__ import annotations

import logging

from ._arguments import Text

LOGGER = logging.getLogger('cookie_store')


def log_not_sent(host: str, name: str, reason: str) -> None:
    """Log that a cookie is not sent to a host."""
    LOGGER.debug('cookie %r is not sent to host %r: %s', name, host, reason)


def log_not_stored(host: str, name: str, reason: str) -> None:
    """Log that a cookie from a host is not stored."""
    LOGGER.debug('cookie %r of host %r is not stored: %s', name, host, reason)


def log_not_saved(host: str, name: str, reason: str) -> None:
    """Log that a cookie of a host is left out of a file."""
    LOGGER.debug('cookie %r of host %r is not saved: %s', name, host, reason)


def name_of(header_value: Text) -> str:
    """Return the name of the cookie of a Set-Cookie header, or '' if it has none: then the string may be a value."""
    text = header_value if isinstance(header_value, str) else header_value.decode('utf-8', 'backslashreplace')
    name, separator, _ = text.partition(';')[0].partition('=')
    return name.strip() if separator else ''
