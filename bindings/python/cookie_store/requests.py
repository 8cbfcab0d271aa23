"""A cookie store for sessions of requests."""
from __future__ import annotations

import copy
import functools
import http.cookiejar
import itertools
import types
import urllib.request
from typing import Any, Callable, Iterator, Mapping, Optional, Tuple, Type, Union, cast

from requests.cookies import RequestsCookieJar, cookiejar_from_dict, merge_cookies
from requests.models import PreparedRequest, Request, Response
from requests.sessions import Session, merge_hooks, merge_setting
from requests.structures import CaseInsensitiveDict
from requests.utils import get_netrc_auth

from ._cookies import insert_all
from ._jar import StoreJar
from ._store import StoreLike

_Cookies = Union[http.cookiejar.CookieJar, Mapping[str, str], None]  # of a request


def use_store(session: Session, store: StoreLike) -> StoreSession:
    """Let a session store the cookies of responses in this store, and send its Cookie header. Return the session.

        session = use_store(requests.Session(), CookieStore())

    session.cookies is then a StoreJar over the store, and the session a StoreSession. The cookies that
    the session has, unless they are those of another store, are inserted into the store: one without a
    domain raises NoDomain, and one that the store rejects is logged. The adapters stay, and others may be
    mounted. A StoreJar is then session.cookies itself, and the name of a file stands for
    CookieStore.open().
    """
    if not isinstance(session, Session):
        raise TypeError(f'expected a requests.Session, not {type(session).__name__}')
    jar = store if isinstance(store, StoreJar) else StoreJar(store)
    if not isinstance(session.cookies, StoreJar):
        insert_all(jar.store, merge_cookies(RequestsCookieJar(), session.cookies))
    session.cookies = jar  # type: ignore[assignment]
    session.__class__ = _class_with_store(type(session))  # type: ignore[arg-type]
    return cast(StoreSession, session)


class _RequestJar(http.cookiejar.CookieJar):
    """The cookies of a request and of its redirects: those of the session, and its own, which are not stored."""

    def __init__(self, of_session: StoreJar, own: http.cookiejar.CookieJar) -> None:
        super().__init__()
        self.of_session, self.own = of_session, own

    def add_cookie_header(self, request: urllib.request.Request) -> None:
        """Add the Cookie header, if there is one and request has none."""
        if not request.has_header('Cookie'):
            header = '; '.join(filter(None, (_header(jar, request) for jar in (self.of_session, self.own))))
            if header:
                request.add_unredirected_header('Cookie', header)

    def extract_cookies(self, response: Any, request: urllib.request.Request) -> None:
        """Called by requests for a response that a redirect or an authentication follows."""
        self.of_session.extract_cookies(response, request)

    def update(self, other: http.cookiejar.CookieJar) -> None:
        """Add cookies. requests adds those of the session, which are here already."""
        if other is not self.of_session:
            self.own = merge_cookies(merge_cookies(RequestsCookieJar(), self.own), other)

    def __iter__(self) -> Iterator[http.cookiejar.Cookie]:
        return itertools.chain(self.of_session, self.own)

    def copy(self) -> _RequestJar:
        """Return a jar of the same cookies."""
        return _RequestJar(self.of_session, self.own)

    __copy__ = copy

    def __reduce__(self) -> Tuple[Callable[..., Any], Tuple[Any, ...]]:
        """Leave out the cookies of the session: a response that is saved must not have them."""
        return copy.copy, (self.own,)


def _header(jar: http.cookiejar.CookieJar, request: Any) -> Optional[str]:
    """Return the Cookie header that a jar adds to a requests.cookies.MockRequest, and remove it again."""
    jar.add_cookie_header(request)
    header: Optional[str] = request.get_new_headers().pop('Cookie', None)
    return header


def _request_jar(of_session: StoreJar, cookies: _Cookies) -> _RequestJar:
    """Return the jar of a request that has these cookies of its own."""
    own: http.cookiejar.CookieJar
    if not isinstance(cookies, http.cookiejar.CookieJar):
        own = cookiejar_from_dict(cookies or {})
    elif isinstance(cookies, StoreJar) and cookies.store is of_session.store:
        own = RequestsCookieJar()  # they are sent anyway
    elif isinstance(cookies, (StoreJar, _RequestJar)):
        own = cookies
    else:
        own = merge_cookies(RequestsCookieJar(), cookies)
    return _RequestJar(of_session, own)


class StoreSession(Session):
    """A requests.Session after use_store(): the store decides which of its cookies each request has.

    A session of another class gets a subclass of both.
    """
    cookies: StoreJar  # type: ignore[assignment]
    _session_class: Optional[Type[Session]] = None  # the other class

    def prepare_request(self, request: Request) -> PreparedRequest:
        """Prepare a request as requests.Session does, with the Cookie header of the store.

        requests.Session would copy all cookies to a jar that chooses by its own rules what to send.
        """
        if not isinstance(self.cookies, StoreJar):
            return super().prepare_request(request)
        auth = request.auth
        if self.trust_env and not auth and not self.auth:
            auth = get_netrc_auth(request.url)
        prepared = PreparedRequest()
        prepared.prepare(
            method=request.method.upper(), url=request.url, files=request.files, data=request.data, json=request.json,
            headers=merge_setting(request.headers, self.headers, dict_class=CaseInsensitiveDict),
            params=merge_setting(request.params, self.params), auth=merge_setting(auth, self.auth),
            cookies=_request_jar(self.cookies, request.cookies), hooks=merge_hooks(request.hooks, self.hooks))
        return prepared

    def resolve_redirects(self, resp: Response, req: PreparedRequest, *args: Any, **kwargs: Any) -> Any:
        """Follow redirects as requests.Session does, also of a request that was prepared without the session."""
        cookies = req._cookies  # type: ignore[attr-defined]
        if isinstance(self.cookies, StoreJar) and getattr(cookies, 'of_session', None) is not self.cookies:
            req = req.copy()
            req._cookies = _request_jar(self.cookies, cookies)  # type: ignore[attr-defined]
        return super().resolve_redirects(resp, req, *args, **kwargs)

    def __reduce_ex__(self, protocol: Any) -> Any:
        """Pickle and copy a session whose class use_store() made as one of the class that it had."""
        make, arguments, *rest = cast(Tuple[Any, ...], super().__reduce_ex__(protocol))
        if self._session_class is None:
            return (make, arguments, *rest)
        named = tuple(self._session_class if argument is type(self) else argument for argument in arguments)
        return (_restore, (make, *named), *rest)


def _restore(make: Callable[..., Session], *arguments: Any) -> Session:
    session = make(*arguments)
    session.__class__ = _class_with_store(type(session))  # type: ignore[arg-type]
    return session


@functools.lru_cache(maxsize=None)
def _class_with_store(kind: Type[Session]) -> Type[Session]:
    """Return the class that use_store() gives to a session of this one."""
    if issubclass(kind, StoreSession):
        return kind
    if kind is Session:
        return StoreSession
    names = {'__module__': kind.__module__, '__doc__': kind.__doc__, '_session_class': kind}
    return types.new_class(kind.__name__, (kind, StoreSession), exec_body=lambda namespace: namespace.update(names))
