"""Tests that the handshake of a WebSocket has the cookies of a request of HTTP."""
import asyncio
import contextlib
import socket
import ssl
import unittest
import urllib.request

from clients import aiohttp, httpx, requests
from support import SECONDS, Response, jar_of, make_certificate, sent, server_context

from cookie_store import CookieStore

if requests is not None:
    from cookie_store.requests import use_store as use_in_session
if httpx is not None:
    from cookie_store.httpx import use_store as use_in_client
if aiohttp is not None:
    from aiohttp import web
    from aiohttp.abc import AbstractResolver

    from cookie_store.aiohttp import StoreCookieJar

    class OnThisMachine(AbstractResolver):
        """Every host is 127.0.0.1."""

        async def resolve(self, host, port=0, family=socket.AF_INET):
            return [{'hostname': host, 'host': '127.0.0.1', 'port': port, 'family': socket.AF_INET, 'proto': 0, 'flags': 0}]

        async def close(self):
            pass

# The cookies of a store, and by scheme and host those of a handshake. A Secure cookie is also sent to this machine.
COOKIES = ['plain=1', 'safe=1; Secure', 'http=1; HttpOnly']
HANDSHAKES = [('ws', 'a.example', 'http=1; plain=1'), ('wss', 'a.example', 'http=1; plain=1; safe=1'),
              ('ws', 'localhost', 'http=1; plain=1; safe=1'), ('ws', 'b.a.example', None), ('wss', 'b.a.example', None)]

# By scheme, which of COOKIES a strict store takes from a handshake with a.example.
RECEIVED = [('ws', 'http=1; plain=1'), ('wss', 'http=1; plain=1; safe=1')]


def store_of_hosts():
    store = CookieStore()
    for host in ('a.example', 'localhost'):
        for text in COOKIES:
            store.parse(f'https://{host}/', text)
    return store


def in_order(header):
    return header and '; '.join(sorted(header.split('; ')))


class SchemeTests(unittest.TestCase):
    """Tests of clients that leave the handshake to another package."""

    def test_jar(self):
        jar = jar_of()
        jar.store = store_of_hosts()
        for scheme, host, wanted in HANDSHAKES:
            self.assertEqual(in_order(sent(jar, f'{scheme}://{host}/chat')), wanted, (scheme, host))
        for scheme, wanted in RECEIVED:
            jar.store = CookieStore(strict=True)
            jar.extract_cookies(Response(*COOKIES), urllib.request.Request(f'{scheme}://a.example/chat'))
            self.assertEqual(in_order(jar.store.header('https://a.example/')), wanted, scheme)

    @unittest.skipIf(requests is None, 'requests is not installed')
    def test_requests(self):
        with requests.Session() as session:
            use_in_session(session, store_of_hosts())
            for scheme, host, wanted in HANDSHAKES:
                prepared = session.prepare_request(requests.Request('GET', f'{scheme}://{host}:80/chat'))
                self.assertEqual(in_order(prepared.headers.get('Cookie')), wanted, (scheme, host))

    @unittest.skipIf(httpx is None, 'httpx is not installed')
    def test_httpx(self):
        requests_seen = []

        def respond(request):
            requests_seen.append(request)
            return httpx.Response(200, headers=[('Set-Cookie', text) for text in COOKIES])

        for scheme, host, wanted in HANDSHAKES:
            with httpx.Client(transport=httpx.MockTransport(respond)) as client:
                use_in_client(client, store_of_hosts())
                client.get(f'{scheme}://{host}/chat')
            self.assertEqual(in_order(requests_seen.pop().headers.get('Cookie')), wanted, (scheme, host))
        for scheme, wanted in RECEIVED:
            with httpx.Client(transport=httpx.MockTransport(respond)) as client:
                store = CookieStore(strict=True)
                use_in_client(client, store)
                client.get(f'{scheme}://a.example/chat')
            self.assertEqual(in_order(store.header('https://a.example/')), wanted, scheme)


@unittest.skipIf(aiohttp is None, 'aiohttp is not installed')
class AiohttpTests(unittest.TestCase):
    """Tests with a server of WebSockets."""

    def setUp(self):
        self.headers = []
        self.files = make_certificate(self)

    async def respond(self, request):
        self.headers.append(request.headers.get('Cookie'))
        response = web.WebSocketResponse()
        response.headers.extend([('Set-Cookie', text) for text in COOKIES])
        await response.prepare(request)
        await response.send_str('hello')
        await response.close()
        return response

    @contextlib.asynccontextmanager
    async def servers(self):
        """Yield the ports of a server for each scheme."""
        application = web.Application()
        application.router.add_get('/chat', self.respond)
        runner = web.AppRunner(application)
        await runner.setup()
        ports = {}
        try:
            for scheme, context in [('ws', None), ('wss', server_context(self.files))]:
                site = web.TCPSite(runner, '127.0.0.1', 0, ssl_context=context)
                await site.start()
                ports[scheme] = site._server.sockets[0].getsockname()[1]
            yield ports
        finally:
            await runner.cleanup()

    async def talk(self, store, scheme, host, ports):
        """Return the Cookie header of a handshake."""
        connector = aiohttp.TCPConnector(resolver=OnThisMachine(), ssl=ssl.create_default_context(cafile=self.files[0]))
        async with aiohttp.ClientSession(cookie_jar=StoreCookieJar(store), connector=connector) as session:
            async with session.ws_connect(f'{scheme}://{host}:{ports[scheme]}/chat', timeout=SECONDS) as websocket:
                self.assertEqual((await websocket.receive()).data, 'hello')
        return self.headers.pop()

    def test_sent(self):
        async def run():
            async with self.servers() as ports:
                for scheme, host, wanted in HANDSHAKES:
                    self.assertEqual(await self.talk(store_of_hosts(), scheme, host, ports), wanted, (scheme, host))

        asyncio.run(run())

    def test_received(self):
        async def run():
            async with self.servers() as ports:
                for scheme, wanted in RECEIVED:
                    store = CookieStore(strict=True)
                    await self.talk(store, scheme, 'a.example', ports)
                    self.assertEqual(in_order(store.header('https://a.example/')), wanted, scheme)

        asyncio.run(run())


if __name__ == '__main__':
    unittest.main()
