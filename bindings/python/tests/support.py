"""What the tests share: cookies, responses, threads, and a server on 127.0.0.1."""
import email.message
import http.cookiejar
import http.server
import shutil
import socket
import ssl
import subprocess
import tempfile
import threading
import unittest
import urllib.parse
import urllib.request
from unittest import mock

from cookie_store import CookieStore, StoreJar

PAGE = 'http://a.example/d/page'
NOW = 1767225600  # 2026-01-01T00:00:00
FIRST, LAST = -377705116800, 253402300799  # the years -9999 and 9999
SECONDS = 20  # the longest that a test waits for a client or a thread


def in_threads(count, work):
    """Run work in count threads at once, and return what was raised."""
    raised = []

    def run(number):
        try:
            work(number)
        except Exception as error:  # pylint: disable=broad-except
            raised.append(error)

    threads = [threading.Thread(target=run, args=(number,), daemon=True) for number in range(count)]
    for thread in threads:
        thread.start()
    for thread in threads:
        thread.join(SECONDS)
    return raised + [f'{thread.name} goes on' for thread in threads if thread.is_alive()]


class Response:
    """A response with these Set-Cookie headers."""

    def __init__(self, *texts):
        self.headers = email.message.Message()
        for text in texts:
            self.headers['Set-Cookie'] = text

    def info(self):
        return self.headers


def python_cookie(domain, path='/', name='a', value='1', **changes):
    """Return a http.cookiejar.Cookie."""
    parts = dict(version=0, name=name, value=value, port=None, port_specified=False, domain=domain,
                 domain_specified=domain.startswith('.'), domain_initial_dot=False, path=path, path_specified=True,
                 secure=False, expires=None, discard=True, comment=None, comment_url=None, rest={})
    return http.cookiejar.Cookie(**{**parts, **changes})


def jar_of(*texts, url=PAGE):
    jar = StoreJar()
    jar.extract_cookies(Response(*texts), urllib.request.Request(url))
    return jar


def jar_with(kind, cookies):
    """Return a jar of a class with cookies, each a name, a value, a domain and a path."""
    jar = kind()
    for name, value, domain, path in cookies:
        jar.set(name, value, domain=domain, path=path)
    return jar


def sent(jar, url):
    """Return the Cookie header that a jar adds to a request for the URL."""
    request = urllib.request.Request(url)
    jar.add_cookie_header(request)
    return request.get_header('Cookie')


def filled(*texts, url=PAGE, now=NOW):
    """Return a store with the cookies of these header values."""
    store = CookieStore()
    for text in texts:
        store.parse(url, text, now)
    return store


def names(store):
    """Return the names of the cookies of a store, each a letter, as one string."""
    return ''.join(row.name for row in store)


def keys(jar):
    return [(cookie.domain, cookie.path, cookie.name) for cookie in jar]


# By host and path, what the server returns: where it redirects to, or None, and the cookies.
PAGES = {
    ('localhost', '/begin/page'): (('127.0.0.1', '/middle'), [
        'a=1', 'b=2; Path=/; HttpOnly', 'c=3; Domain=localhost; Path=/', 'd=4; Domain=127.0.0.1; Path=/',
        'e=5; Path=/; Max-Age=0']),
    ('127.0.0.1', '/middle'): (('localhost', '/begin/end'), ['f=7; Path=/other', 'a=6; Path=/', 'g=8; Domain=localhost']),
    ('localhost', '/begin/end'): (('127.0.0.1', '/other/last'), ['b=; Path=/; Expires=Thu, 01 Jan 1970 00:00:01 GMT', 'a=9']),
    ('127.0.0.1', '/other/last'): (('localhost', '/begin/check'), ['n=gr\u00fcn; Path=/']),
    ('localhost', '/begin/check'): (('127.0.0.1', '/n'), []),
    ('127.0.0.1', '/n'): (None, []),
}

# The requests of a client that starts at the first page, with the cookies that RFC 6265 requires.
VISITS = [
    ('localhost', '/begin/page', None),
    ('127.0.0.1', '/middle', None),
    ('localhost', '/begin/end', 'a=1; b=2; c=3'),
    ('127.0.0.1', '/other/last', 'f=7; a=6'),
    ('localhost', '/begin/check', 'a=9; c=3'),
    ('127.0.0.1', '/n', 'a=6; n=gr\u00fcn'),
]

# The cookies that a jar has afterwards.
LEFT = [('localhost.local', '/begin', 'a'), ('.localhost.local', '/', 'c'), ('127.0.0.1', '/other', 'f'),
        ('127.0.0.1', '/', 'a'), ('127.0.0.1', '/', 'n')]


class Page(http.server.BaseHTTPRequestHandler):
    """Redirects, sets cookies and records what it receives. `/own/NAME` sets the cookie NAME."""

    def do_GET(self):
        host, port = self.headers['Host'].rsplit(':', 1)
        cookie = self.headers['Cookie']
        self.server.visits.append((host, self.path, cookie and cookie.encode('latin-1').decode()))
        own = self.path.rsplit('/', 1)[-1]
        target, texts = PAGES.get((host, self.path), (None, [f'{own}=1; Path={self.path}']))
        self.send_response(302 if target else 200)
        if target:
            self.send_header('Location', f'http://{target[0]}:{port}{target[1]}')
        for text in texts:
            self.send_header('Set-Cookie', text.encode().decode('latin-1'))
        self.send_header('Content-Length', '0')
        self.end_headers()

    def log_message(self, *_):
        pass


class Echo(http.server.BaseHTTPRequestHandler):
    """Sends the Cookie header back, and records it. `?c=VALUE` sets a cookie, `?to=URL` redirects, by the status `?code=NUMBER`."""

    def do_POST(self):
        self.rfile.read(int(self.headers['Content-Length']))
        self.do_GET()

    def do_GET(self):
        url = urllib.parse.urlsplit(self.path)
        arguments = urllib.parse.parse_qs(url.query)
        cookie = self.headers['Cookie']
        self.server.visits.append((self.headers['Host'].rsplit(':', 1)[0], url.path, cookie))
        self.server.headers.append(self.headers)
        body = (cookie or '').encode('latin-1')
        self.send_response(int(arguments.get('code', ['302'])[0]) if 'to' in arguments else 200)
        for text in arguments.get('c', []):
            self.send_header('Set-Cookie', text)
        for text in arguments.get('to', []):
            self.send_header('Location', text)
        self.send_header('Content-Length', str(len(body)))
        self.end_headers()
        self.wfile.write(body)

    def log_message(self, *_):
        pass


def sorted_cookies(visits):
    """Return the visits with sorted cookies: without a store clients send cookies of equal paths in the order of their domains."""
    return [(host, path, cookie and sorted(cookie.split('; '))) for host, path, cookie in visits]


def query(url, **arguments):
    """Return a URL with arguments. A list stands for several of the same name."""
    return f'{url}?{urllib.parse.urlencode(arguments, doseq=True)}'


def resolve_to_server(test):
    """Let every host name be 127.0.0.1 until the test ends."""
    resolve = socket.getaddrinfo

    def on_this_machine(_, *arguments, **words):
        return resolve('127.0.0.1', *arguments, **words)

    patch = mock.patch('socket.getaddrinfo', on_this_machine)
    patch.start()
    test.addCleanup(patch.stop)


def make_certificate(test):
    """Return the files of a certificate of a.example and the hosts below it, and of its key."""
    if shutil.which('openssl') is None:
        raise unittest.SkipTest('there is no openssl')
    folder = tempfile.TemporaryDirectory()
    test.addCleanup(folder.cleanup)
    files = f'{folder.name}/certificate.pem', f'{folder.name}/key.pem'
    subprocess.run(['openssl', 'req', '-x509', '-newkey', 'ec', '-pkeyopt', 'ec_paramgen_curve:P-256', '-nodes', '-days', '2',
                    '-subj', '/CN=a.example', '-addext', 'subjectAltName=DNS:a.example,DNS:*.a.example',
                    '-out', files[0], '-keyout', files[1]], check=True, capture_output=True)
    return files


def server_context(files):
    """Return the TLS context of a server with this certificate and key."""
    context = ssl.SSLContext(ssl.PROTOCOL_TLS_SERVER)
    context.load_cert_chain(*files)
    return context


def start_server(test, handler=Page, context=None):
    """Return a server that is stopped when the test ends, with what it received in visits and headers."""
    server = http.server.ThreadingHTTPServer(('127.0.0.1', 0), handler)
    server.daemon_threads = True
    server.visits, server.headers = [], []
    if context is not None:
        server.socket = context.wrap_socket(server.socket, server_side=True)
    test.addCleanup(server.server_close)
    thread = threading.Thread(target=server.serve_forever, kwargs={'poll_interval': 0.05}, daemon=True)
    thread.start()
    test.addCleanup(thread.join, SECONDS)
    test.addCleanup(server.shutdown)
    return server
