"""Tests that no cookie of a loaded list adds a header to a request, or breaks it."""
import json
import pathlib
import tempfile
import unittest

from clients import CLIENTS, requests, run_fetch
from support import Echo, start_server

from cookie_store import CookieStore

CONTROLS = [*map(chr, range(0x20)), '\x7f']

# Cookies of a list that are not sent.
BAD = [
    'a=1\r\nX-Injected: y', 'a=1\nX-Injected: y', 'a=1\rX-Injected: y', 'a=1\r\n X-Injected: y', 'a=1\r\n\tX-Injected: y',
    'a=1\r\n\r\nGET /injected HTTP/1.1\r\nHost: x\r\n\r\nx', 'a\r\nX-Injected: y=1', 'a\x00b=1',
    *(f'a=1{control}2' for control in CONTROLS if control != '\t'),
]


def list_of(*cookies):
    """Return a list in JSON with these cookies of localhost."""
    rest = {'path': ['/', False], 'domain': {'HostOnly': 'localhost'}, 'expires': 'SessionEnd'}
    return json.dumps([{'raw_cookie': cookie, **rest} for cookie in cookies])


class HeaderTests(unittest.TestCase):

    def setUp(self):
        self.server = start_server(self, Echo)
        self.page = f'http://localhost:{self.server.server_port}/x'

    def assert_received(self, cookie, name):
        self.assertEqual(self.server.visits, [('localhost', '/x', cookie)], name)
        self.assertNotIn('X-Injected', self.server.headers[0], name)
        self.server.visits.clear()
        self.server.headers.clear()

    def test_controls(self):
        """A cookie with a control character is left out, and the others are sent."""
        for client, fetch in CLIENTS:
            for bad in BAD:
                store = CookieStore.loads(list_of('first=1', bad, 'last=2'))
                self.assertEqual(len(store), 3, bad)
                fetch(store, self.page)
                self.assert_received('first=1; last=2', (client, bad))
            fetch(CookieStore.loads(list_of(BAD[0])), self.page)
            self.assert_received(None, client)

    @unittest.skipIf(requests is None, 'requests is not installed')
    def test_fetch(self):
        for bad in BAD[:6]:
            with tempfile.TemporaryDirectory() as folder:
                path = pathlib.Path(folder, 'cookies')
                path.write_text(list_of('first=1', bad, 'last=2'))
                run_fetch(path, self.page)
            self.assert_received('first=1; last=2', bad)

    def test_tab(self):
        for client, fetch in CLIENTS:
            fetch(CookieStore.loads(list_of('a=1\t2')), self.page)
            self.assert_received('a=1\t2', client)


if __name__ == '__main__':
    unittest.main()
