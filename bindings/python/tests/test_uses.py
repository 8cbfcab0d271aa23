"""Runs the programs of docs/USES.md. A comment behind a print, `cookies` or `curl` is what it must print. A proxy stands for example.com."""
import http.server
import importlib.util
import json
import os
import pathlib
import re
import shlex
import shutil
import sys
import unittest
import urllib.parse

from profiles import LATER, profile
from programs import make_folder, run, start, start_site, variables, wait_for

from cookie_store import CookieStore

REPOSITORY = pathlib.Path(__file__).resolve().parents[3]
COOKIES = pathlib.Path(os.environ.get('COOKIES') or REPOSITORY / 'crates' / 'cookies' / 'out' / 'cookies')

# The options of a browser that a test starts, for `webdriver.Chrome()`.
HEADLESS = '''
import functools
import os
from selenium import webdriver
from selenium.webdriver.chrome.service import Service

options = webdriver.ChromeOptions()
options.binary_location = os.environ['CHROMIUM']
for word in ('headless=new', 'no-sandbox', 'disable-gpu', 'disable-dev-shm-usage', 'proxy-server=' + os.environ['http_proxy'],
             'user-data-dir=' + os.path.abspath('chromium')):
    options.add_argument('--' + word)
webdriver.Chrome = functools.partial(webdriver.Chrome, options=options, service=Service(os.environ['CHROMEDRIVER']))
'''


class Example(http.server.BaseHTTPRequestHandler):
    """What a client receives from example.com: the Cookie header that it sends, and a cookie for `/login`."""

    def do_GET(self):
        body = self.headers.get('Cookie', '').encode('latin-1')
        self.send_response(200)
        if urllib.parse.urlsplit(self.path).path == '/login':
            self.send_header('Set-Cookie', 'session=1; Path=/')
        self.send_header('Content-Type', 'text/html')
        self.send_header('Content-Length', str(len(body)))
        self.end_headers()
        self.wfile.write(body)

    def log_message(self, *_):
        pass


class UsesTests(unittest.TestCase):

    def setUp(self):
        self.folder = pathlib.Path(make_folder(self))
        self.port = start_site(self, Example).server_port
        self.variables = variables(HOME=str(self.folder), http_proxy=f'http://127.0.0.1:{self.port}', no_proxy='127.0.0.1,localhost')

    def programs(self, heading, language):
        """Return the programs of a section of the page."""
        page = (REPOSITORY / 'docs' / 'USES.md').read_text(encoding='utf-8')
        section = re.search(rf'^## {heading}\n(.*?)(?=^## |\Z)', page, re.M | re.S)[1]
        return re.findall(rf'```{language}\n(.*?)```', section, re.S)

    def needs(self, *modules):
        for module in modules:
            if importlib.util.find_spec(module) is None:
                self.skipTest(f'{module} is not installed')

    def find(self, name):
        """Return the path of a program."""
        return shutil.which(name) or self.skipTest(f'there is no {name}')

    def assert_prints(self, wanted, *command):
        status, text, messages = run(self, self.folder, *command, env=self.variables)
        self.assertEqual((status, text.splitlines()), (0, wanted), messages)

    def assert_runs(self, program, before=''):
        """Run a program in Python, after some lines that are not on the page."""
        self.assert_prints(printed(program), sys.executable, '-c', before + program)

    def test_clients(self):
        self.needs('requests')
        program, = self.programs('HTTP clients with sessions', 'python')
        self.assert_runs(program)
        self.assertEqual(CookieStore.open(self.folder / 'cookies.json').header('http://example.com/'), 'session=1')

    def test_crawlers(self):
        self.needs('scrapy')
        program, = self.programs('Crawlers', 'python')
        self.folder.joinpath('spider.py').write_text(program, encoding='utf-8')
        self.assert_prints(printed(program), sys.executable, '-m', 'scrapy', 'runspider', 'spider.py')
        self.assertEqual(CookieStore.open(self.folder / 'cookies.json').header('http://example.com/'), 'session=1')

    def test_harnesses(self):
        self.needs('webtest')
        self.assert_runs(self.programs('Test harnesses', 'python')[0])

    def test_harnesses_with_a_browser(self):
        self.needs('requests', 'selenium')
        self.variables.update(CHROMIUM=self.find('chromium'), CHROMEDRIVER=self.find('chromedriver'))
        self.assert_runs(self.programs('Test harnesses', 'python')[1], HEADLESS)

    def test_proxies(self):
        program, = self.programs('Proxies', 'python')
        command, requests = self.programs('Proxies', 'sh')
        name, *words = shlex.split(command)
        self.folder.joinpath(words[words.index('-s') + 1]).write_text(program, encoding='utf-8')
        log = self.folder / 'log'
        with log.open('wb') as file:
            proxy = start(self, self.find(name), *words, '--listen-host', '127.0.0.1', '--listen-port', '0', '--mode',
                          f'upstream:http://127.0.0.1:{self.port}', cwd=self.folder, stdout=file,
                          env={**self.variables, 'PYTHONUNBUFFERED': '1'})
        port = wait_for(lambda: re.search(r'listening at \S*:([0-9]+)', log.read_text(encoding='utf-8')), proxy)[1]
        self.find('curl')
        self.assert_prints(printed(requests), 'sh', '-ec', requests.replace(':8080', f':{port}'))

    def test_editors(self):
        if not COOKIES.exists():
            self.skipTest('the program cookies is not built')
        program, = self.programs('Cookie editors', 'sh')
        self.variables['PATH'] = os.pathsep.join([str(COOKIES.parent), os.environ['PATH']])
        self.assert_prints(printed(program), 'sh', '-ec', program)

    def test_editors_of_browsers(self):
        exported = [{'domain': 'example.com', 'hostOnly': True, 'httpOnly': False, 'name': name, 'path': '/', 'sameSite': None,
                     'secure': False, 'session': True, 'storeId': None, 'value': '1'} for name in ('session', 'tracker')]
        self.folder.joinpath('exported.json').write_text(json.dumps(exported), encoding='utf-8')
        with profile(self.folder, 16, [('session', '1', 'example.com', '/', LATER, 0, 0, 256, '')]):
            for program in self.programs('Cookie editors', 'python'):
                self.assert_runs(program)
        edited = json.loads(self.folder.joinpath('edited.json').read_text(encoding='utf-8'))
        self.assertEqual([(cookie['name'], cookie['value']) for cookie in edited], [('session', '1'), ('theme', 'dark')])
        self.assertEqual(CookieStore.open(self.folder / 'firefox.json').header('http://example.com/'), 'session=1')


def printed(program):
    """Return what a program must print: of Python the comments after print(), and of the shell all comments."""
    return re.findall(r'^(?: *print\(.*\)|(?:cookies|curl) .*)  # (.*)$', program, re.M)


if __name__ == '__main__':
    unittest.main()
