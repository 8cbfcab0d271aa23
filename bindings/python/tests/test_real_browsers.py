"""Tests with the browsers of this machine: what Firefox writes to its profile, and Chromium with a driver of Selenium."""
import importlib.util
import pathlib
import shutil
import sqlite3
import time
import unittest

from programs import LIMIT, end, make_folder, start, start_site, variables, wait_for
from support import SECONDS, query

from cookie_store.browsers import from_firefox, from_selenium, to_selenium

FIREFOX = next(filter(None, map(shutil.which, ('firefox-esr', 'firefox'))), None)
DRIVER, CHROMIUM = shutil.which('chromedriver'), shutil.which('chromium')
HAS_SELENIUM = importlib.util.find_spec('selenium') is not None and DRIVER is not None and CHROMIUM is not None
if HAS_SELENIUM:
    from selenium import webdriver
    from selenium.webdriver.chrome.service import Service

# Set-Cookie header values from http://a.example/d/page, and the cookies that a browser stores for them: domain, path, name, value,
# whether it is host-only and HttpOnly, and SameSite. A cookie expires after a day, or at the end of the session.
DAY = 86400
SET = [
    (f'a=1; Max-Age={DAY}', ('a.example', '/d', 'a', '1', True, False, None)),
    (f'b="2 3"; Max-Age={DAY}; Domain=a.example; Path=/; HttpOnly', ('a.example', '/', 'b', '"2 3"', False, True, None)),
    (f'c=; Max-Age={DAY}; Path=/; SameSite=Strict', ('a.example', '/', 'c', '', True, False, 'Strict')),
    (f'd=4; Max-Age={DAY}; Path=/; SameSite=Lax', ('a.example', '/', 'd', '4', True, False, 'Lax')),
    ('session=5; Path=/', ('a.example', '/', 'session', '5', True, False, None)),
]
TEXTS = [text for text, _ in SET]
# The same of an IPv6 address.
ADDRESS = 'http://[2001:db8::1]/'
OF_ADDRESS = f'six=6; Max-Age={DAY}', ('[2001:db8::1]', '/', 'six', '6', True, False, None)


def parts(store):
    """Return the fields of the cookies of a store, as in SET, in the order of their names."""
    return sorted((row.domain, row.path, row.name, row.value, row.host_only, row.http_only, row.same_site) for row in store)


# The preferences of a profile that takes the server for a proxy, and that asks for nothing by itself.
PREFERENCES = '''
user_pref("network.proxy.type", 1);
user_pref("network.proxy.http", "127.0.0.1");
user_pref("network.proxy.http_port", %(port)d);
user_pref("network.proxy.ssl", "127.0.0.1");
user_pref("network.proxy.ssl_port", %(port)d);
user_pref("browser.shell.checkDefaultBrowser", false);
user_pref("browser.aboutwelcome.enabled", false);
user_pref("datareporting.policy.dataSubmissionEnabled", false);
user_pref("dom.security.https_first", false);
'''


class BrowserTests(unittest.TestCase):
    """What the tests of browsers share."""

    def setUp(self):
        self.server, self.folder = start_site(self), make_folder(self)

    def visits(self, path):
        """Return the hosts and the Cookie headers of the requests for a path."""
        return [(host, cookie) for host, visited, cookie in list(self.server.visits) if visited == path]


@unittest.skipIf(FIREFOX is None, 'there is no Firefox')
class FirefoxTests(BrowserTests):

    def test_profile(self):
        """The cookies of a profile are read while Firefox runs, and after it has ended."""
        profile = pathlib.Path(self.folder, 'profile')
        profile.mkdir()
        profile.joinpath('user.js').write_text(PREFERENCES % {'port': self.server.server_port}, encoding='utf-8')
        begin = query('http://a.example/d/page', c=TEXTS, to=query(ADDRESS, c=OF_ADDRESS[0]))
        firefox = start(self, FIREFOX, '--headless', '--no-remote', '--profile', str(profile), begin, env=variables(HOME=self.folder))
        wanted = sorted(row for _, row in [*SET, OF_ADDRESS] if row[2] != 'session')
        path = profile / 'cookies.sqlite'
        now = int(time.time())
        store = wait_for(lambda: path.exists() and self.read(path, wanted), firefox)
        self.assertEqual(parts(store), wanted)
        for row in store:
            self.assertLess(abs(row.expires - DAY - now), 10 * SECONDS, row)
        end(firefox)
        self.assertEqual(parts(from_firefox(path)), wanted)

    def read(self, path, wanted):
        """Return a store with the cookies, or None if Firefox has not written all of them yet."""
        try:
            store = from_firefox(path)
        except sqlite3.OperationalError:  # there is no table yet
            return None
        return store if len(store) == len(wanted) else None


@unittest.skipUnless(HAS_SELENIUM, 'there is no Selenium with Chromium and its driver')
class SeleniumTests(BrowserTests):

    def driver(self, name):
        """Return a driver with a new profile, which takes the server for a proxy."""
        options = webdriver.ChromeOptions()
        options.binary_location = CHROMIUM
        for word in ('headless=new', 'no-sandbox', 'disable-gpu', 'disable-dev-shm-usage', f'user-data-dir={self.folder}/{name}',
                     f'proxy-server=127.0.0.1:{self.server.server_port}'):
            options.add_argument(f'--{word}')
        driver = webdriver.Chrome(service=Service(DRIVER, env=variables(HOME=self.folder)), options=options)
        self.addCleanup(driver.quit)
        driver.set_page_load_timeout(LIMIT)
        return driver

    def test_driver(self):
        """A second driver gets the cookies of a first one by a store, and host-only cookies stay host-only.

        A driver of Chromium returns Lax for a cookie without SameSite.
        """
        first, second = self.driver('first'), self.driver('second')
        first.get(query(ADDRESS, c=OF_ADDRESS[0]))
        self.assertEqual(parts(from_selenium(first.get_cookies())), [(*OF_ADDRESS[1][:-1], 'Lax')])
        first.get(query('http://a.example/d/page', c=TEXTS))
        store = from_selenium(first.get_cookies())
        self.assertEqual(parts(store), sorted((*row[:-1], row[-1] or 'Lax') for _, row in SET))
        second.get('http://a.example/d/begin')
        for cookie in to_selenium(store, second.current_url):
            second.add_cookie(cookie)
        for host in ('a.example', 'b.a.example'):
            second.get(f'http://{host}/d/check')
        self.assertEqual([(host, sorted(cookie.split('; '))) for host, cookie in self.visits('/d/check')],
                         [('a.example', ['a=1', 'b="2 3"', 'c=', 'd=4', 'session=5']), ('b.a.example', ['b="2 3"'])])


if __name__ == '__main__':
    unittest.main()
