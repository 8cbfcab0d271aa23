"""Where a client sends a request, in the client's own reading of its URL.

Parsers differ: of `http://a\\@b/` some read the host a, others b. The store gets a URL that is made from what the client
connects to, so that the two never mean different hosts.
"""
from __future__ import annotations

import re
import urllib.request
from typing import NamedTuple

# A host without a character that ends or encodes a host.
_HOST = re.compile(r'[^\x00-\x20#%/:<>?@\[\\\]^|\x7f]+|\[[0-9a-fA-F:.]+\]')
# A user before a host, without what some parsers end the host at, and a port after it.
_USER, _PORT = re.compile(r'^[^#/?\\]*@'), re.compile(r':[0-9]*$')
_PATH = re.compile(r'[^/?#]*//[^/?#]*([^?#]*)')
# The handshake of a WebSocket is a request of HTTP.
_SCHEMES = {'ws': 'http', 'wss': 'https'}


def is_plain_host(host: str) -> bool:
    """Return whether a URL with this host, without a port, has no other host."""
    return _HOST.fullmatch(host) is not None


class Target(NamedTuple):
    """Where a client sends a request: a scheme, a host as in a URL, and a path. The port has no effect on cookies."""
    scheme: str
    host: str
    path: str

    @property
    def url(self) -> str:
        """The URL for the store, or an empty string, which is not a valid URL, if parsers may read another host."""
        if not (self.host.isascii() and is_plain_host(self.host)):
            return ''
        path = self.path if self.path.startswith('/') else '/' + self.path
        return f'{_SCHEMES.get(self.scheme, self.scheme)}://{self.host}{path}'


def target_of_parts(scheme: str, host: str, path: str) -> Target:
    """Return the target of a client that has IPv6 addresses without brackets."""
    return Target(scheme, f'[{host}]' if ':' in host else host, path)


def target_of(request: urllib.request.Request) -> Target:
    """Return the target of a request of urllib, or of what requests passes to a jar in its place.

    A Host header has no effect: after a redirect the request may go to another host.
    """
    url = request.get_full_url()
    if isinstance(request, urllib.request.Request):
        # The scheme and host of the given one may be those of a proxy.
        request = urllib.request.Request(url, origin_req_host=request.origin_req_host)
        host = _in_ascii(_PORT.sub('', request.host or ''))  # with a user it is not a host: urllib connects to it as it is
    else:
        host = _PORT.sub('', _USER.sub('', request.host))
    path = _PATH.match(url)
    return Target(request.type, host, path[1] if path else '')


def _in_ascii(host: str) -> str:
    """Return a host as http.client and socket encode it, or as it is if they reject it."""
    try:
        return host if host.isascii() else host.encode('idna').decode('ascii')
    except UnicodeError:
        return host
