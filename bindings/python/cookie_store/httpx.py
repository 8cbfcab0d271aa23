"""A cookie store for clients of httpx."""
from __future__ import annotations

import functools
import types
from typing import Any, Optional, Type, Union, cast, overload

import httpx

from ._cookies import insert_all
from ._jar import StoreJar
from ._messages import header_for
from ._store import StoreLike
from ._urls import Target, target_of_parts

_Client = Union[httpx.Client, httpx.AsyncClient]


@overload
def use_store(client: httpx.Client, store: StoreLike) -> StoreClient: ...


@overload
def use_store(client: httpx.AsyncClient, store: StoreLike) -> StoreAsyncClient: ...


def use_store(client: _Client, store: StoreLike) -> Union[StoreClient, StoreAsyncClient]:
    """Let a client store the cookies of responses in this store, and send its Cookie header. Return the client.

        with use_store(httpx.Client(follow_redirects=True), CookieStore()) as client:

    client.cookies are then the StoreCookies of the store, and the client a StoreClient or a
    StoreAsyncClient. The cookies that the client has, unless they are those of another store, are inserted
    into the store: one without a domain raises NoDomain, and one that the store rejects is logged. A
    StoreJar stands for its store, and the name of a file for CookieStore.open().
    """
    if not isinstance(client, (httpx.Client, httpx.AsyncClient)):
        raise TypeError(f'expected a httpx.Client or httpx.AsyncClient, not {type(client).__name__}')
    cookies = StoreCookies(store)
    if not isinstance(client.cookies.jar, StoreJar):
        insert_all(cookies.jar.store, client.cookies.jar)
    if not isinstance(client, _WithStore):
        client.__class__ = _class_with_store(type(client))  # type: ignore[arg-type]
    with_store = cast(Union[StoreClient, StoreAsyncClient], client)
    with_store._store_cookies = cookies
    return with_store


def _target(url: httpx.URL) -> Target:
    return target_of_parts(url.scheme, url.raw_host.decode('ascii'), url.raw_path.decode('ascii').partition('?')[0])


class StoreCookies(httpx.Cookies):
    """The cookies of a store, as those of a client: what is changed here is changed in the store.

    The attribute jar is a StoreJar. set() needs a domain: without one it raises NoDomain, a ValueError,
    where httpx would send the cookie to every host.
    """
    jar: StoreJar

    def __init__(self, store: StoreLike) -> None:
        super().__init__(StoreJar(store))

    def get(self, name: str, default: Optional[str] = None, domain: Optional[str] = None,  # type: ignore[override]
            path: Optional[str] = None) -> Optional[str]:
        """Return the value of a cookie, or default if there is none. Raises httpx.CookieConflict if there are several."""
        cookies = self.jar._named(name, domain, path)
        if len(cookies) > 1:
            raise httpx.CookieConflict(f'several cookies have the name {name!r}: pass domain or path')
        return cookies[0].value if cookies else default

    def delete(self, name: str, domain: Optional[str] = None, path: Optional[str] = None) -> None:
        """Remove the cookies with this name, and if they are passed with this domain and this path.

        Raises KeyError if all three are passed and there is none.
        """
        if domain is not None and path is not None:
            self.jar.clear(domain, path, name)
        else:
            self.jar.set(name, None, domain=domain, path=path)

    def extract_cookies(self, response: httpx.Response) -> None:
        """Store the cookies of a response."""
        values = [value for name, value in response.headers.raw if name.lower() == b'set-cookie']
        target = _target(response.request.url)
        self.jar.store._receive(target.host, target.url, values)


def _own_header(request: httpx.Request, cookies: Any) -> str:
    """Return the Cookie header of cookies that were passed to a request, or ''."""
    jar = getattr(cookies, 'jar', cookies)
    if isinstance(jar, StoreJar):
        return header_for(jar.store, _target(request.url))  # httpx would choose by the rules of http.cookiejar
    header: str = httpx.Request('GET', request.url, cookies=cookies).headers.get('Cookie', '')
    return header


class _WithStore:
    """What a client does differently with a store. httpx would copy all cookies to a jar that chooses what to send."""
    _store_cookies: StoreCookies

    @property
    def cookies(self) -> StoreCookies:
        """The cookies of the store."""
        return self._store_cookies

    @cookies.setter
    def cookies(self, cookies: object) -> None:
        raise AttributeError('the cookies of this client are those of its store: change them, or call use_store() again')

    def build_request(self, *arguments: Any, cookies: Any = None, **words: Any) -> httpx.Request:
        """Build a request as httpx does, with the Cookie header of the store and the cookies of the request."""
        request: httpx.Request = super().build_request(*arguments, **words)  # type: ignore[misc]
        self._add_header(request, cookies)
        return request

    def _merge_cookies(self, cookies: Any = None) -> None:
        """Return no cookies: build_request() adds them."""

    def _build_redirect_request(self, request: Any, response: Any) -> httpx.Request:
        """Build the request that follows a redirect as httpx does, with the Cookie header of the store."""
        client = cast(Any, self)
        method, url = client._redirect_method(request, response), client._redirect_url(request, response)
        headers, stream = client._redirect_headers(request, url, method), client._redirect_stream(request, method)
        redirected = httpx.Request(method, url, headers=headers, stream=stream, extensions=request.extensions)
        self._add_header(redirected)
        return redirected

    def _add_header(self, request: httpx.Request, cookies: Any = None) -> None:
        """Add the Cookie header of the store and of the cookies of a request, unless it has one."""
        if 'Cookie' in request.headers:
            return
        store = self.cookies.jar.store
        headers = [header_for(store, _target(request.url))]
        if cookies is not None and getattr(getattr(cookies, 'jar', cookies), 'store', None) is not store:
            headers.append(_own_header(request, cookies))
        header = '; '.join(filter(None, headers))
        if header:
            request.headers.encoding = 'utf-8'  # it may be that of earlier headers, ASCII
            request.headers['Cookie'] = header


class StoreClient(_WithStore, httpx.Client):
    """A httpx.Client after use_store()."""


class StoreAsyncClient(_WithStore, httpx.AsyncClient):
    """A httpx.AsyncClient after use_store()."""


@functools.lru_cache(maxsize=None)
def _class_with_store(kind: Type[_Client]) -> Type[_Client]:
    """Return the class that use_store() gives to a client of this one: a subclass of it has its methods first."""
    base: Type[_Client] = StoreAsyncClient if issubclass(kind, httpx.AsyncClient) else StoreClient
    if kind in (httpx.Client, httpx.AsyncClient):
        return base
    names = {'__module__': kind.__module__, '__doc__': kind.__doc__}
    return types.new_class(kind.__name__, (kind, base), exec_body=lambda namespace: namespace.update(names))
