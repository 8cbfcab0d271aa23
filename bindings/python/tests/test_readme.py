"""Runs the programs of README.md. A comment after print() is what it must print. A server stands for example.com."""
import contextlib
import http.server
import io
import os
import pathlib
import re
import socket
import tempfile
import unittest
from unittest import mock

from support import start_server

FOLDER = pathlib.Path(__file__).resolve().parent.parent
RESOLVE = socket.getaddrinfo


class Example(http.server.BaseHTTPRequestHandler):
    """Sends the Cookie header that it receives, and a cookie for `/login`."""

    def do_GET(self):
        body = self.headers.get('Cookie', '').encode('latin-1')
        self.send_response(200)
        if self.path == '/login':
            self.send_header('Set-Cookie', 'session=1; Path=/')
        self.send_header('Content-Length', str(len(body)))
        self.end_headers()
        self.wfile.write(body)

    def log_message(self, *_):
        pass


class ReadmeTests(unittest.TestCase):

    def setUp(self):
        folder = tempfile.TemporaryDirectory()
        self.addCleanup(folder.cleanup)
        self.addCleanup(os.chdir, os.getcwd())
        os.chdir(folder.name)
        port = start_server(self, Example).server_port

        def resolve(host, _, *arguments, **words):
            self.assertIn(host, ('example.com', b'example.com'))
            return RESOLVE('127.0.0.1', port, *arguments, **words)

        pathlib.Path('list.dat').write_text('co.uk\n')
        patches = [mock.patch('socket.getaddrinfo', resolve), mock.patch.dict(os.environ, no_proxy='*'),
                   mock.patch('cookie_store._handle.SYSTEM_SUFFIXES', 'list.dat')]
        with contextlib.suppress(ImportError):
            import aiohttp
            patches.append(mock.patch('aiohttp.connector.DefaultResolver', aiohttp.ThreadedResolver))
        for patch in patches:
            patch.start()
            self.addCleanup(patch.stop)

    def test_programs(self):
        programs = re.findall(r'```python\n(.*?)```', (FOLDER / 'README.md').read_text(), re.S)
        *programs, fetch = programs
        self.assertEqual(fetch, (FOLDER / 'examples' / 'fetch.py').read_text())
        for program in programs:
            with self.subTest(program):
                printed = io.StringIO()
                try:
                    with contextlib.redirect_stdout(printed):
                        exec(compile(program, 'README.md', 'exec'), {'__name__': 'readme'})
                except ModuleNotFoundError as error:
                    if error.name not in ('requests', 'httpx', 'aiohttp'):
                        raise
                    continue
                self.assertEqual(printed.getvalue().splitlines(), re.findall(r'^ *print\(.*\)  # (.*)$', program, re.M))


if __name__ == '__main__':
    unittest.main()
