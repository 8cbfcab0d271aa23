"""Runs the tests of http.cookiejar that Python comes with over StoreJar, in place of CookieJar."""
import importlib
import os
import tempfile
import unittest
from unittest import mock

from cookie_store import StoreJar

try:
    facts = importlib.import_module('test.test_http_cookiejar')
except ImportError:
    facts = None

# What fails, and why. The differences are those of the page, 'What differs'.
COOKIE2 = 'Set-Cookie2, Cookie2 and Version, RFC 2965, which RFC 6265 replaces'
FAILS = {
    'test_Cookie_iterator': COOKIE2,
    'test_default_path': COOKIE2,
    'test_domain_block': COOKIE2,
    'test_domain_mirror': COOKIE2,
    'test_empty_path': COOKIE2,
    'test_ietf_example_1': COOKIE2,
    'test_ietf_example_2': COOKIE2,
    'test_intranet_domains_2965': COOKIE2,
    'test_missing_final_slash': COOKIE2,
    'test_netscape_example_1': COOKIE2,
    'test_path_mirror': COOKIE2,
    'test_port_mirror': COOKIE2,
    'test_quote_cookie_value': COOKIE2,
    'test_rfc2109_handling': COOKIE2,
    'test_secure': COOKIE2,
    'test_two_component_domain_rfc2965': COOKIE2,
    'test_url_encoding': COOKIE2,
    'test_bad_cookie_header': 'an attribute that is not valid is ignored, and not its cookie',
    'test_custom_secure_protocols': 'a Secure cookie is for https, whatever a policy says',
    'test_intranet_domains_ns': 'the domain .local does not cover a host without a dot',
    'test_localhost_domain_contents': '.local is appended to localhost with a Domain attribute too',
    'test_ns_parser': 'Port and other attributes are not kept',
    'test_two_component_domain_ns': 'a cookie without a Domain attribute is host-only',
}


class Jar(StoreJar):
    """A StoreJar with the constructor of CookieJar, and with the cookies where its tests look for them."""

    def __init__(self, policy=None):
        super().__init__(policy=policy)

    @property
    def _cookies(self):
        tree = {}
        for cookie in self:
            tree.setdefault(cookie.domain, {}).setdefault(cookie.path, {})[cookie.name] = cookie
        return tree

    @_cookies.setter
    def _cookies(self, _):
        pass  # the constructor of CookieJar sets it


@unittest.skipIf(facts is None, 'Python is installed without its own tests')
class StandardLibraryTests(unittest.TestCase):

    def setUp(self):
        folder = tempfile.TemporaryDirectory()
        self.addCleanup(folder.cleanup)
        self.addCleanup(os.chdir, os.getcwd())
        os.chdir(folder.name)  # some of the tests write files

    def test_cookiejar(self):
        suite, result = unittest.defaultTestLoader.loadTestsFromModule(facts), unittest.TestResult()
        names = {test.id().rpartition('.')[2] for group in suite for test in group}
        with mock.patch.object(facts, 'CookieJar', Jar):
            suite.run(result)
        failed = {test.id().partition(' ')[0].rpartition('.')[2]: trace for test, trace in result.failures + result.errors}
        self.assertGreater(result.testsRun, 60)
        for name in sorted(names):
            with self.subTest(name, why=FAILS.get(name)):
                self.assertEqual(name in failed, name in FAILS, failed.get(name))


if __name__ == '__main__':
    unittest.main()
