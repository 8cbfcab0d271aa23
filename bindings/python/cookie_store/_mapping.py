"""The part of a jar that programs with requests use: cookies by their names."""
from __future__ import annotations

import contextlib
import copy
import http.cookiejar
import http.cookies
import sys
from typing import Any, Dict, Iterable, Iterator, List, Mapping, Optional, Tuple, Union

from ._cookies import cookie_of_morsel, decoded, new_cookie, to_wire

Value = Union[str, None, 'http.cookies.Morsel[str]']


def _conflict(name: str) -> RuntimeError:
    """Return requests.cookies.CookieConflictError, or a RuntimeError if requests is not loaded."""
    module = sys.modules.get('requests.cookies')
    kind = RuntimeError if module is None else module.CookieConflictError
    error: RuntimeError = kind(f'several cookies have the name {name!r}: pass domain or path')
    return error


def _at(cookies: Iterable[http.cookiejar.Cookie], domain: Optional[str], path: Optional[str]) -> Iterator[http.cookiejar.Cookie]:
    """Yield those of the cookies with this domain and this path. None stands for any."""
    wire_path = None if path is None else to_wire(decoded(path))
    for cookie in cookies:
        if domain in (None, cookie.domain, getattr(cookie, 'store_domain', None)) and wire_path in (None, cookie.path):
            yield cookie


class MappingJar(http.cookiejar.CookieJar):
    """A jar with the methods of requests.cookies.RequestsCookieJar, except popitem() and setdefault().

    A cookie is found by its name, and if they are passed also by its domain, with or without a
    leading dot, and its path.
    """
    _policy: http.cookiejar.CookiePolicy

    def get_policy(self) -> http.cookiejar.CookiePolicy:
        """Return the policy of the jar."""
        return self._policy

    def _with_name(self, name: str) -> Iterable[http.cookiejar.Cookie]:
        """Return the cookies with this name."""
        raise NotImplementedError

    def _named(self, name: str, domain: Optional[str] = None, path: Optional[str] = None) -> List[http.cookiejar.Cookie]:
        """Return the cookies with this name, and if they are passed with this domain and this path."""
        return list(_at(self._with_name(name), domain, path))

    def _value(self, name: str, domain: Optional[str] = None, path: Optional[str] = None) -> Optional[str]:
        cookies = self._named(name, domain, path)
        if not cookies:
            raise KeyError(name)
        if len(cookies) > 1:
            raise _conflict(name)
        return cookies[0].value

    def get(self, name: str, default: Optional[str] = None, domain: Optional[str] = None,
            path: Optional[str] = None) -> Optional[str]:
        """Return the value of a cookie, or default if there is none.

        Raises requests.cookies.CookieConflictError, a RuntimeError, if there are several.
        """
        try:
            return self._value(name, domain, path)
        except KeyError:
            return default

    def set(self, name: str, value: Value, **attributes: Any) -> Optional[http.cookiejar.Cookie]:
        """Set a cookie and return it. If value is None, remove the cookies with this name instead.

        The attributes are those of requests.cookies.create_cookie(): domain, path, secure, expires,
        rest and so on; with domain_specified=False the cookie is host-only. rest has the others, such as
        {'HttpOnly': False, 'SameSite': 'Lax'}. Without a domain requests would send the cookie to every
        host; here the error is NoDomain, a ValueError. value may also be a Morsel, which has its own
        attributes.
        """
        if value is None:
            self._remove_named(name, attributes.get('domain'), attributes.get('path'))
            return None
        if isinstance(value, http.cookies.Morsel):
            cookie = cookie_of_morsel(value)
        else:
            cookie = new_cookie(name, value, **attributes)
        self.set_cookie(cookie)
        return cookie

    def _remove_named(self, name: str, domain: Optional[str], path: Optional[str]) -> None:
        for cookie in self._named(name, domain, path):
            with contextlib.suppress(KeyError):  # another thread removed it
                self.clear(getattr(cookie, 'store_domain', cookie.domain), cookie.path, cookie.name)

    def pop(self, name: str, *default: Optional[str]) -> Optional[str]:
        """Remove the cookie with this name and return its value, or default if there is none."""
        try:
            value = self._value(name)
        except KeyError:
            if not default:
                raise
            return default[0]
        self._remove_named(name, None, None)
        return value

    def update(self, other: Union[http.cookiejar.CookieJar, Mapping[str, Value], Iterable[Tuple[str, Value]]]) -> None:
        """Set the cookies of another jar, or of a mapping from names to Morsels."""
        if isinstance(other, http.cookiejar.CookieJar):
            for cookie in other:
                self.set_cookie(copy.copy(cookie))
            return
        for name, value in other.items() if isinstance(other, Mapping) else other:
            self.set(name, value)

    def keys(self) -> List[str]:
        """Return the names of the cookies."""
        return [cookie.name for cookie in self]

    def values(self) -> List[Optional[str]]:
        """Return the values of the cookies."""
        return [cookie.value for cookie in self]

    def items(self) -> List[Tuple[str, Optional[str]]]:
        """Return pairs of the names and values of the cookies."""
        return [(cookie.name, cookie.value) for cookie in self]

    def iterkeys(self) -> Iterator[str]:
        """Return an iterator over keys()."""
        return iter(self.keys())

    def itervalues(self) -> Iterator[Optional[str]]:
        """Return an iterator over values()."""
        return iter(self.values())

    def iteritems(self) -> Iterator[Tuple[str, Optional[str]]]:
        """Return an iterator over items()."""
        return iter(self.items())

    def get_dict(self, domain: Optional[str] = None, path: Optional[str] = None) -> Dict[str, Optional[str]]:
        """Return the values of the cookies by their names. Of several with one name the last one counts."""
        return {cookie.name: cookie.value for cookie in _at(self, domain, path)}

    def list_domains(self) -> List[str]:
        """Return the domains of the cookies, each once."""
        return list(dict.fromkeys(cookie.domain for cookie in self))

    def list_paths(self) -> List[str]:
        """Return the paths of the cookies, each once."""
        return list(dict.fromkeys(cookie.path for cookie in self))

    def multiple_domains(self) -> bool:
        """Return whether the cookies have more than one domain."""
        return len(self.list_domains()) > 1

    def __contains__(self, name: object) -> bool:
        return isinstance(name, str) and len(self._named(name)) > 0

    def __getitem__(self, name: str) -> Optional[str]:
        return self._value(name)

    def __setitem__(self, name: str, value: Value) -> None:
        self.set(name, value)

    def __delitem__(self, name: str) -> None:
        self._remove_named(name, None, None)
