"""A cookie store for mitmproxy."""
from __future__ import annotations

import os
from typing import Set

from mitmproxy import ctx, exceptions, http
from mitmproxy.addonmanager import Loader

from ._merging import merge_file
from ._messages import header_for
from ._status import CookieStoreError
from ._store import CookieStore
from ._urls import Target, target_of_parts

# The modes in which the proxy learns the name of a host from the Host header alone.
_BY_ADDRESS = ('transparent', 'wireguard', 'local', 'tun')


class StoreAddon:
    """An addon that stores the cookies of all responses, and sends those of the store with requests that have none.

        addons = [StoreAddon(CookieStore())]  # in a file for mitmdump -s

    A request that has a Cookie header stays as it is. The clients of the proxy share the store: each of
    them gets the logins of the others. The host of a request is the one that the proxy connects to,
    whatever its Host header is; in the transparent modes, where that is an address, it is the Host header.

    The option cookie_file names a file, from which cookies are loaded, if it is there, and to which they
    are saved at the end, session cookies included, in the format of its suffix.
    """

    def __init__(self, store: CookieStore) -> None:
        self.store = store

    def load(self, loader: Loader) -> None:
        """Add the option cookie_file."""
        loader.add_option('cookie_file', str, '', 'Load cookies from this file, and save them to it.')

    def configure(self, updated: Set[str]) -> None:
        """Load the file of the option cookie_file, if it is new. Raises OptionsError if that fails."""
        if 'cookie_file' in updated and ctx.options.cookie_file:
            try:
                merge_file(self.store, os.path.expanduser(ctx.options.cookie_file))
            except (OSError, ValueError, CookieStoreError) as error:
                raise exceptions.OptionsError(f'cookie_file: {error}') from error

    def requestheaders(self, flow: http.HTTPFlow) -> None:
        """Set the Cookie header of a request that has none."""
        if 'Cookie' not in flow.request.headers:
            header = header_for(self.store, _target(flow))
            if header:
                flow.request.headers['Cookie'] = header

    def responseheaders(self, flow: http.HTTPFlow) -> None:
        """Store the cookies of a response."""
        if flow.response is not None:
            values = (value for name, value in flow.response.headers.fields if name.lower() == b'set-cookie')
            self.store.receive(_target(flow).url, values)

    def done(self) -> None:
        """Save the cookies to the file of the option cookie_file."""
        if ctx.options.cookie_file:
            self.store.save(os.path.expanduser(ctx.options.cookie_file))


def _target(flow: http.HTTPFlow) -> Target:
    request = flow.request
    # Of mitmproxy 9 and later, and of older versions.
    mode = getattr(flow.client_conn, 'proxy_mode', ctx.options.mode)
    host = request.pretty_host if getattr(mode, 'full_spec', mode).startswith(_BY_ADDRESS) else request.host
    return target_of_parts(request.scheme, host, request.path.partition('?')[0])
