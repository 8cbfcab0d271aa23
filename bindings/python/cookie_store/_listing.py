"""The cookies of a store as Python objects, which are kept from one reading to the next."""
from __future__ import annotations

import bisect
from typing import Dict, Iterable, List, NamedTuple, Optional, Tuple

from ._library import ROW, SAME_SITES


class Cookie(NamedTuple):
    """A stored cookie. Read its fields by their names: later versions may have more of them."""
    domain: str
    path: str
    name: str
    value: str
    #: Expiry time, or None for a session cookie.
    expires: Optional[int]
    #: True for a host-only cookie, False if it is also sent to the hosts below its domain.
    host_only: bool
    #: True if the path comes from a Path attribute.
    has_path: bool
    secure: bool
    http_only: bool
    #: 'Strict', 'Lax' or 'None', or None without a SameSite attribute.
    same_site: Optional[str]


def unexpired(cookies: Iterable[Cookie], now: int) -> List[Cookie]:
    """Return those of the cookies that have not expired."""
    return [cookie for cookie in cookies if cookie.expires is None or cookie.expires > now]


def _decoded(cookie: Cookie) -> Cookie:
    """Return a cookie whose strings are in Latin-1, each byte a character, with their strings in UTF-8."""
    return Cookie._make([*(string.encode('latin-1').decode('utf-8') for string in cookie[:4]), *cookie[4:]])


def cookies_of(rows: bytes, strings: bytes) -> Tuple[List[Cookie], List[int]]:
    """Return the cookies of the rows and strings that the library writes, and where the strings of each end."""
    # Lengths are in bytes, and so are those of a string in Latin-1.
    text, cookies, ends, at = strings.decode('latin-1'), [], [], 0
    for domain, path, name, value, expires, persistent, host_only, has_path, secure, http_only, same_site in ROW.iter_unpack(rows):
        path_at = at + domain
        name_at = path_at + path
        value_at = name_at + name
        end = value_at + value
        fields = (text[at:path_at], text[path_at:name_at], text[name_at:value_at], text[value_at:end],
                  expires if persistent else None, host_only, has_path, secure, http_only, SAME_SITES[same_site])
        cookies.append(tuple.__new__(Cookie, fields))  # Cookie._make() takes longer
        ends.append(end)
        at = end
    return (cookies if strings.isascii() else [_decoded(cookie) for cookie in cookies]), ends


def _common(first: bytes, second: bytes, is_at_end: bool = False) -> int:
    """Return how many bytes the two have in common at the start, or at the end."""
    def part(text: bytes, low: int, high: int) -> bytes:
        return text[len(text) - high:len(text) - low] if is_at_end else text[low:high]

    low, high = 0, min(len(first), len(second))
    if part(first, 0, high) == part(second, 0, high):
        return high
    while high - low > 1:  # the first `low` bytes are the same, and not all of the first `high`
        middle = (low + high) // 2
        if part(first, low, middle) == part(second, low, middle):
            low = middle
        else:
            high = middle
    return low


class Listing:
    """All cookies of a store, as they were read last."""

    def __init__(self) -> None:
        self._rows, self._strings = b'', b''
        self._cookies: List[Cookie] = []
        self._ends: List[int] = []  # where the strings of each cookie end
        self._by_name: Optional[Dict[str, List[Cookie]]] = None

    def read(self, rows: bytes, strings: bytes) -> List[Cookie]:
        """Return the cookies of the rows and strings that the library writes.

        Those before and after what has changed since the last time are not created again: mostly one cookie changes.
        """
        front = self._front(rows, strings)
        back = self._back(rows, strings, min(len(self._cookies), len(rows) // ROW.size) - front)
        kept = len(self._cookies) - back
        begin, end = self._end(front), len(strings) - (len(self._strings) - self._end(kept))
        cookies, ends = cookies_of(rows[front * ROW.size:len(rows) - back * ROW.size], strings[begin:end])
        moved = len(strings) - len(self._strings)
        self._cookies[front:kept] = cookies
        self._ends = [*self._ends[:front], *(begin + end for end in ends), *(end + moved for end in self._ends[kept:])]
        self._rows, self._strings, self._by_name = rows, strings, None
        return self._cookies

    def named(self, name: str) -> List[Cookie]:
        """Return the cookies with this name. Those that were read are indexed by their names once."""
        if self._by_name is None:
            self._by_name = {}
            for cookie in self._cookies:
                self._by_name.setdefault(cookie.name, []).append(cookie)
        return list(self._by_name.get(name, ()))

    def _end(self, count: int) -> int:
        """Return where the strings of the first cookies end."""
        return self._ends[count - 1] if count else 0

    def _front(self, rows: bytes, strings: bytes) -> int:
        """Return how many cookies at the start are the same."""
        count = _common(self._rows, rows) // ROW.size
        if self._strings[:self._end(count)] != strings[:self._end(count)]:
            count = bisect.bisect_right(self._ends, _common(self._strings, strings), 0, count)
        return count

    def _back(self, rows: bytes, strings: bytes, most: int) -> int:
        """Return how many cookies at the end are the same, at most `most`."""
        count = min(_common(self._rows, rows, True) // ROW.size, most)
        length = len(self._strings) - self._end(len(self._cookies) - count)
        if self._strings[len(self._strings) - length:] != strings[len(strings) - length:]:
            begin = len(self._strings) - _common(self._strings, strings, True)
            count = min(count, len(self._cookies) - 1 - bisect.bisect_left(self._ends, begin))
        return count
