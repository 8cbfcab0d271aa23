"""Tests of a jar in WebTest: the cookies of an application under test."""
import importlib.util
import unittest

from cookie_store import CookieStore, StoreJar

HAS_WEBTEST = importlib.util.find_spec('webtest') is not None
if HAS_WEBTEST:
    from webtest import TestApp

# What the application sets for a path.
SET = {
    '/login': ['session=1; Path=/; HttpOnly', 'secure=2; Path=/; Secure', 'other=3; Domain=other.example'],
    '/d/page': ['deep=4'],
    '/logout': ['session=; Path=/; Max-Age=0'],
}

# Requests in their order, with the words of TestApp.get(), and the Cookie header that the application receives.
REQUESTS = [
    ('/', {}, ''),
    ('/login', {}, ''),
    ('/', {}, 'session=1; secure=2'),
    ('/d/page', {}, 'session=1; secure=2'),
    ('/d/', {}, 'deep=4; session=1; secure=2'),
    ('/', {'extra_environ': {'HTTP_HOST': 'other.example:80'}}, ''),
    ('/', {'headers': {'Cookie': 'own=5'}}, 'own=5'),
    ('/logout', {}, 'session=1; secure=2'),
    ('/', {}, 'secure=2'),
]


def application(environ, start_response):
    headers = [('Set-Cookie', text) for text in SET.get(environ['PATH_INFO'], [])]
    start_response('200 OK', [('Content-Type', 'text/plain'), *headers])
    return [environ.get('HTTP_COOKIE', '').encode()]


@unittest.skipUnless(HAS_WEBTEST, 'WebTest is not installed')
class WebTestTests(unittest.TestCase):

    def test_requests(self):
        """WebTest sends requests to localhost, which is this machine, and so it gets Secure cookies."""
        store = CookieStore()
        app = TestApp(application, cookiejar=StoreJar(store))
        for path, words, cookie in REQUESTS:
            self.assertEqual(app.get(path, **words).text, cookie, (path, words))
        self.assertEqual(app.cookies, {'secure': '2', 'deep': '4'})
        app.reset()
        self.assertEqual((app.get('/').text, len(store)), ('', 0))

    def test_set_cookie(self):
        """What a test sets is sent as with WebTest's own jar."""
        texts = []
        for app in (TestApp(application), TestApp(application, cookiejar=StoreJar())):
            app.set_cookie('theme', 'dark')
            app.set_cookie('words', 'a "b"')
            texts.append(app.get('/').text)
        self.assertEqual(sorted(texts[1].split('; ')), sorted(texts[0].split('; ')))
        self.assertIn('theme', texts[0])


if __name__ == '__main__':
    unittest.main()
