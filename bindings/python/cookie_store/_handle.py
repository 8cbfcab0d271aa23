"""A store of the C library, and its settings."""
from __future__ import annotations

import ctypes
import errno
import operator
import os
import threading
import weakref
from typing import Any, List, Optional, Tuple, TypeVar

from . import _fork
from ._arguments import Text, bytes_of
from ._files import Path
from ._library import LIBRARY, Row, ROW, Store
from ._listing import Cookie, Listing
from ._status import BadRule, CookieStoreError, Status, check

# A public suffix list, and whether only the listed domains are public suffixes.
Suffixes = Tuple[bytes, bool]
_Handle = TypeVar('_Handle', bound='Handle')

#: The public suffix list of Debian's package publicsuffix.
SYSTEM_SUFFIXES = '/usr/share/publicsuffix/public_suffix_list.dat'


def _suffix_list(path: Optional[Path]) -> bytes:
    """Return the public suffix list of a file, or that of the system."""
    if path is None and not os.path.exists(SYSTEM_SUFFIXES):
        words = 'no public suffix list: install the package publicsuffix, or pass suffixes or path'
        raise FileNotFoundError(errno.ENOENT, words, SYSTEM_SUFFIXES)
    with open(SYSTEM_SUFFIXES if path is None else path, 'rb') as file:
        return file.read()


def random_key() -> Tuple[bytes, int]:
    """Return a random hash key and its length."""
    return os.urandom(16), 16


class Handle:
    """A store of the C library, which is freed with this object. A lock lets one call at a time in."""

    def __init__(self) -> None:
        self._store = Store()  # ctypes passes it by reference
        self._lock = threading.Lock()
        self._suffixes: Optional[Suffixes] = None
        self._cookies: Optional[List[Cookie]] = None  # what cookies() returns, until the store changes
        self._listing = Listing()
        check(LIBRARY.cookie_store_new(self._store, *random_key()))
        self._finalizer = weakref.finalize(self, LIBRARY.cookie_store_free, self._store)
        # Another thread may still be in a call when the program ends.
        self._finalizer.atexit = False
        _fork.add(self)

    def close(self) -> None:
        """Free the store. From then on len() is 0, and other calls raise NO_STORE."""
        with self._lock:
            self._cookies = None
            self._finalizer()

    def __enter__(self: _Handle) -> _Handle:
        return self

    def __exit__(self, *_: object) -> None:
        self.close()

    def set_suffix_list(self, suffixes: Optional[Text] = None, *, path: Optional[Path] = None, only_listed: bool = False) -> None:
        """Set the public suffix list: domains such as co.uk, for all of which no server may set a cookie.

            store.set_suffix_list()                 # that of the system: Debian's package publicsuffix
            store.set_suffix_list(path='list.dat')  # a file
            store.set_suffix_list('com\nco.uk\n')   # a string

        The list is in the format of publicsuffix.org. A domain that no rule matches is a public
        suffix if it has one label, as by the rule *, which is added to the list unless only_listed is
        true. Stored cookies stay.

        Raises TypeError if both suffixes and path are passed, OSError if the file cannot be read, BadRule
        with the number of the first line that cannot be a rule, and NO_RULES for a list without rules.
        """
        if suffixes is not None and path is not None:
            raise TypeError('set_suffix_list() takes suffixes or path, not both')
        rules, line = _suffix_list(path) if suffixes is None else bytes_of(suffixes), ctypes.c_size_t()
        only_listed = bool(only_listed)
        with self._lock:
            number = LIBRARY.cookie_store_set_suffix_list(self._store, rules, len(rules), only_listed, line)
            if number == Status.BAD_RULE:
                raise BadRule(line.value)
            check(number)
            self._suffixes = rules, only_listed

    def set_domain_limit(self, limit: int) -> None:
        """Limit each domain to at most limit cookies.

        From now on, before a cookie is inserted, cookies of its domain are evicted until it fits:
        first the expired ones, then the others, both in creation order. A strict store evicts Secure
        cookies that have not expired last.

        Raises BAD_LIMIT if limit is less than 1.
        """
        limit = operator.index(limit)
        if limit < 0:
            raise CookieStoreError(Status.BAD_LIMIT)
        limit = min(limit, 2**64 - 1)
        with self._lock:
            check(LIBRARY.cookie_store_set_domain_limit(self._store, limit))

    @property
    def domain_limit(self) -> Optional[int]:
        """How many cookies a domain may have, or None without a limit and after close()."""
        with self._lock:
            return int(LIBRARY.cookie_store_domain_limit(self._store)) or None

    @property
    def strict(self) -> bool:
        """Whether the store is strict, see set_strict(). False after close()."""
        with self._lock:
            return bool(LIBRARY.cookie_store_is_strict(self._store))

    def set_strict(self, strict: bool) -> None:
        """Set whether parse() inserts by the rules that the revision of RFC 6265 adds.

        Browsers follow them. A strict store rejects more cookies, as class Status lists, ignores
        attributes whose value is longer than 1,024 bytes, and lets a cookie expire at most 400 days
        after it was received. With a public suffix list, the domain of a cookie may not be above the
        site of the host that sets it. Stored cookies stay. docs/STRICT.md has the rules, and which
        ones are left out.
        """
        strict = bool(strict)
        with self._lock:
            check(LIBRARY.cookie_store_set_strict(self._store, strict))

    def __len__(self) -> int:
        """Return the number of stored cookies, expired ones included."""
        with self._lock:
            return int(LIBRARY.cookie_store_count(self._store))

    def cookies(self) -> List[Cookie]:
        """Return a list of all cookies, expired ones included, in the order of the store.

        The store keeps the cookies of the list until it changes, so that the next call is faster.
        """
        with self._lock:
            return list(self._all())

    def _all(self) -> List[Cookie]:
        """Return all cookies, while the lock is held."""
        if self._cookies is None:
            self._cookies = self._listing.read(*self._read_rows())
        return self._cookies

    def _named(self, name: str) -> List[Cookie]:
        """Return the cookies with this name, in the order of the store."""
        with self._lock:
            self._all()
            return self._listing.named(name)

    def _sizes(self, call: Any = LIBRARY.cookie_store_rows, *request: Any) -> Tuple[int, int]:
        """Return the number of cookies that a call writes, and the bytes of their strings."""
        rows, strings = ctypes.c_size_t(), ctypes.c_size_t()
        number = call(self._store, *request, (Row * 1)(), 0, ctypes.create_string_buffer(1), 0, rows, strings)
        if number != Status.NO_ROOM:
            check(number)
        return rows.value, strings.value

    def _read_rows(self, call: Any = LIBRARY.cookie_store_rows, *request: Any) -> Tuple[bytes, bytes]:
        """Return the rows as a call writes them, and their strings."""
        count, length = self._sizes(call, *request)
        rows, strings = (Row * max(1, count))(), ctypes.create_string_buffer(max(1, length))
        check(call(self._store, *request, rows, count, strings, length, ctypes.c_size_t(), ctypes.c_size_t()))
        return ctypes.string_at(rows, count * ROW.size), ctypes.string_at(strings, length)
