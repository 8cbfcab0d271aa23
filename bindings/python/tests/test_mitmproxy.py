"""Tests of the addon for mitmproxy: what it sends by mode and host, and mitmdump with a client and a server."""
import contextlib
import http.client
import importlib.util
import pathlib
import re
import shutil
import unittest
from unittest import mock

from programs import end, make_folder, start, variables, wait_for
from support import SECONDS, Echo, query, start_server

from cookie_store import CookieStore

HAS_MITMPROXY = importlib.util.find_spec('mitmproxy') is not None
if HAS_MITMPROXY:
    from mitmproxy import exceptions
    from mitmproxy.test import taddons, tflow

    from cookie_store.mitmproxy import StoreAddon

SCRIPT = '''
from cookie_store import CookieStore
from cookie_store.mitmproxy import StoreAddon

addons = [StoreAddon(CookieStore())]
'''

# Requests to a host of the proxy's connection, with a Host header, in a mode, and the cookies that they get.
HOSTS = [
    ('regular', 'a.example', 'a.example', 'a=1'),
    ('regular', 'a.example', 'b.example', 'a=1'),
    ('regular', 'b.example', 'a.example', 'b=2'),
    ('regular', '10.0.0.1', 'a.example', 'c=3'),
    ('regular', '::1', 'a.example', 'd=4'),
    ('reverse:http://localhost:80', 'a.example', 'b.example', 'a=1'),
    ('transparent', '10.0.0.1', 'a.example', 'a=1'),
    ('transparent', '10.0.0.1', 'b.example:8080', 'b=2'),
    ('transparent@9000', '10.0.0.1', '[::1]', 'd=4'),
    ('transparent', '10.0.0.1', 'a\\@b.example', None),
    ('transparent', '10.0.0.1', '', 'c=3'),
    ('wireguard', '10.0.0.1', 'a.example', 'a=1'),
    ('local:curl', '10.0.0.1', 'a.example', 'a=1'),
]
STORED = [('http://a.example/', 'a=1'), ('http://b.example/', 'b=2'), ('http://10.0.0.1/', 'c=3'), ('http://[::1]/', 'd=4')]


# Requests to a.example by their own headers, and the Cookie header that they have then.
HEADERS = [({}, 'a=1'), ({'Cookie': 'own=1'}, 'own=1'), ({'cookie': ''}, '')]


@unittest.skipUnless(HAS_MITMPROXY, 'mitmproxy is not installed')
class AddonTests(unittest.IsolatedAsyncioTestCase):

    def flow(self, host, host_header, *texts, **headers):
        """Return a flow to a host, with these headers of the request, and these Set-Cookie headers of the response."""
        flow = tflow.tflow(resp=True)
        flow.request.scheme, flow.request.host, flow.request.path = 'http', host, '/d/page?query'
        flow.request.headers.clear()
        flow.request.headers.update({**({'Host': host_header} if host_header else {}), **headers})
        flow.response.headers.clear()
        for text in texts:
            flow.response.headers.add('Set-Cookie', text)
        return flow

    def addon(self):
        store = CookieStore()
        for url, text in STORED:
            store.parse(url, text)
        return StoreAddon(store)

    def test_hosts(self):
        """The mode is that of the client, since mitmproxy 9, or else of the proxy."""
        for is_of_client in (False, True):
            for mode, host, host_header, cookie in HOSTS:
                flow = self.flow(host, host_header)
                flow.client_conn = mock.Mock(spec=['proxy_mode'] if is_of_client else [])
                if is_of_client:
                    flow.client_conn.proxy_mode.full_spec = mode
                with mock.patch('cookie_store.mitmproxy.ctx') as context:
                    context.options.mode = 'regular' if is_of_client else mode
                    self.addon().requestheaders(flow)
                self.assertEqual(flow.request.headers.get('Cookie'), cookie, (is_of_client, mode, host, host_header))

    async def test_flows(self):
        addon = self.addon()
        with taddons.context(addon):
            for headers, cookie in HEADERS:
                flow = self.flow('a.example', 'a.example', **headers)
                addon.requestheaders(flow)
                self.assertEqual(flow.request.headers.get('Cookie'), cookie, headers)
            flow = self.flow('a.example', 'b.example', 'a=5; Path=/', 'b=6; Domain=b.example', b'c=\xff', 'd=7; Path=/', 'e=8')
            addon.responseheaders(flow)
            addon.requestheaders(flow)
        self.assertEqual(flow.request.headers['Cookie'], 'e=8; a=5; d=7')
        self.assertEqual(addon.store.header('http://a.example/'), 'a=5; d=7')
        self.assertEqual(addon.store.header('http://b.example/'), 'b=2')

    async def test_option(self):
        path = pathlib.Path(make_folder(self), 'cookies.json')
        for count in (1, 2):
            addon = StoreAddon(CookieStore())
            with taddons.context(addon) as context:
                context.configure(addon, cookie_file=str(path))
                addon.responseheaders(self.flow('a.example', '', f'{"ab"[count - 1]}=1; Path=/'))
                addon.done()
            self.assertEqual(len(CookieStore.open(path)), count)
        path.write_text('[', encoding='utf-8')
        with taddons.context(addon) as context:
            with self.assertRaises(exceptions.OptionsError):
                context.configure(addon, cookie_file=str(path))
            addon.done()
        self.assertEqual(path.read_text(encoding='utf-8'), '[')


@unittest.skipIf(shutil.which('mitmdump') is None, 'there is no mitmdump')
class ProxyTests(unittest.TestCase):

    def setUp(self):
        self.folder = pathlib.Path(make_folder(self))
        self.folder.joinpath('script.py').write_text(SCRIPT, encoding='utf-8')
        self.server = start_server(self, Echo)

    def url(self, host, path):
        return f'http://{host}:{self.server.server_port}{path}'

    def start_proxy(self):
        """Return the program and its port."""
        log = self.folder / 'log'
        with log.open('wb') as file:
            proxy = start(self, 'mitmdump', '-s', 'script.py', '--listen-host', '127.0.0.1', '--listen-port', '0', '--set', 'confdir=.',
                          '--set', 'cookie_file=cookies.json', stdout=file, cwd=self.folder, env=variables(PYTHONUNBUFFERED='1'))
        return proxy, int(wait_for(lambda: re.search(r'listening at \S*:([0-9]+)', log.read_text(encoding='utf-8')), proxy)[1])

    def fetch(self, port, url, **headers):
        """Request a URL from the proxy, and return the Set-Cookie headers of the response."""
        with contextlib.closing(http.client.HTTPConnection('127.0.0.1', port, timeout=SECONDS)) as connection:
            connection.request('GET', url, headers=headers)
            return connection.getresponse().headers.get_all('Set-Cookie')

    def test_mitmdump(self):
        """A client without cookies gets those of the host that the proxy connects to, also in the next run."""
        proxy, port = self.start_proxy()
        texts = ['session=1; Path=/', 'b=2; Path=/b']
        self.assertEqual(self.fetch(port, query(self.url('127.0.0.1', '/login'), c=texts)), texts)
        for host, headers in [('127.0.0.1', {}), ('127.0.0.1', {'Cookie': 'own=3'}), ('localhost', {}),
                              ('localhost', {'Host': f'127.0.0.1:{self.server.server_port}'})]:
            self.fetch(port, self.url(host, '/page'), **headers)
        self.assertEqual([cookie for _, _, cookie in self.server.visits], [None, 'session=1', 'own=3', None, None])
        self.assertEqual(end(proxy), 0)
        self.assertEqual(CookieStore.open(self.folder / 'cookies.json').header(self.url('127.0.0.1', '/b')), 'b=2; session=1')
        _, port = self.start_proxy()
        self.fetch(port, self.url('127.0.0.1', '/again'))
        self.assertEqual(self.server.visits[-1], ('127.0.0.1', '/again', 'session=1'))


if __name__ == '__main__':
    unittest.main()
