"""Tests of CookieStore.insert(): tables list the parts of a cookie with its status, or with what is stored and sent."""
import unittest

from support import FIRST, LAST, NOW

from cookie_store import Cookie, CookieStore, CookieStoreError, Status

# Each in a store of its own: what is stored, a URL, and the header that is sent to it.
STORED = [
    (('a', '1', 'a.example'), {}, Cookie('a.example', '/', 'a', '1', None, False, True, False, False, None),
     'http://b.a.example/', 'a=1'),
    (('a', '1', 'a.example'), {'host_only': True}, Cookie('a.example', '/', 'a', '1', None, True, True, False, False, None),
     'http://b.a.example/', None),
    ((b'k\xc3\xbc', '', b'a.example'),
     {'path': b'/d', 'secure': True, 'http_only': True, 'same_site': 'Strict', 'expires': NOW + 60.5},
     Cookie('a.example', '/d', 'k\u00fc', '', NOW + 60, False, True, True, True, 'Strict'), 'https://a.example/d/x', 'k\u00fc='),
    (('l', 'a=1', '[::1]'), {'same_site': 'Lax', 'expires': LAST},
     Cookie('[::1]', '/', 'l', 'a=1', LAST, False, True, False, False, 'Lax'), 'http://[::1]/', 'l=a=1'),
    (('n', '1', 'example'), {'same_site': 'None'}, Cookie('example', '/', 'n', '1', None, True, True, False, False, 'None'),
     'http://example/', 'n=1'),
    (('t\x01', '1', 'a.example'), {}, Cookie('a.example', '/', 't\x01', '1', None, False, True, False, False, None),
     'http://a.example/', 't\x01=1'),
]

# One after the other in one store, with the status in one that is not strict, and in a strict one.
STATUSES = [
    (('a', '1', 'a.example'), {'expires': NOW}, Status.EXPIRED, Status.EXPIRED),
    (('a', '1', 'a.example'), {'expires': NOW + 1}, Status.INSERTED, Status.INSERTED),
    (('a', '2', 'a.example'), {'host_only': True}, Status.UPDATED, Status.UPDATED),
    (('a', '2', 'a.example'), {'expires': FIRST}, Status.EXPIRED_EXISTING, Status.EXPIRED_EXISTING),
    (('', '1', 'a.example'), {}, Status.PARSE, Status.PARSE),
    (('a;b', '1', 'a.example'), {}, Status.PARSE, Status.PARSE),
    (('a=b', '1', 'a.example'), {}, Status.PARSE, Status.PARSE),
    (('a', ' 1', 'a.example'), {}, Status.PARSE, Status.PARSE),
    (('a', '1', 'a.example'), {'path': 'd'}, Status.PARSE, Status.PARSE),
    (('a', '1', 'a.example'), {'path': ''}, Status.PARSE, Status.PARSE),
    (('a', '1', ''), {}, Status.DOMAIN_MISMATCH, Status.DOMAIN_MISMATCH),
    (('a', '1', '.a.example'), {}, Status.DOMAIN_MISMATCH, Status.DOMAIN_MISMATCH),
    (('a', '1', 'A.example'), {}, Status.DOMAIN_MISMATCH, Status.DOMAIN_MISMATCH),
    (('a', '1', 'a.example:80'), {}, Status.DOMAIN_MISMATCH, Status.DOMAIN_MISMATCH),
    (('a', '1', 'b\u00fccher.example'), {}, Status.DOMAIN_MISMATCH, Status.DOMAIN_MISMATCH),
    (('t\x01', '1', 'a.example'), {}, Status.INSERTED, Status.CONTROL_CHARACTER),
    (('l', 'v' * 4096, 'a.example'), {}, Status.INSERTED, Status.TOO_LONG),
    (('n', '1', 'a.example'), {'same_site': 'None'}, Status.INSERTED, Status.INSECURE_SAME_SITE_NONE),
    (('__Host-p', '1', 'a.example'), {'secure': True}, Status.INSERTED, Status.PREFIX),
    (('__Host-h', '1', 'a.example'), {'secure': True, 'host_only': True}, Status.INSERTED, Status.INSERTED),
]

# The status that is raised. The time of the call is in the argument now.
RAISES = [
    ((b'\xff', '1', 'a.example'), {}, Status.NOT_UTF8),
    (('a', b'\xff', 'a.example'), {}, Status.NOT_UTF8),
    (('a', '\udcff', 'a.example'), {}, Status.NOT_UTF8),
    (('a', '1', b'\xff'), {}, Status.NOT_UTF8),
    (('a', '1', 'a.example'), {'path': b'\xff'}, Status.NOT_UTF8),
    (('a', '1', 'a.example'), {'expires': LAST + 1}, Status.BAD_TIME),
    (('a', '1', 'a.example'), {'expires': float('inf')}, Status.BAD_TIME),
    (('a', '1', 'a.example'), {'now': FIRST - 1}, Status.BAD_TIME),
    (('a', '1', 'a.example'), {'same_site': 'strict'}, Status.BAD_OPTION),
    (('a', '1', 'a.example'), {'same_site': 1}, Status.BAD_OPTION),
]


class InsertTests(unittest.TestCase):
    """Tests of CookieStore.insert()."""

    def test_stored(self):
        for words, attributes, wanted, url, header in STORED:
            with self.subTest(words), CookieStore() as store:
                store.set_suffix_list('example', only_listed=True)
                self.assertIs(store.insert(*words, now=NOW, **attributes), Status.INSERTED)
                self.assertEqual(list(store), [wanted])
                self.assertEqual(store.header(url, NOW), header)

    def test_statuses(self):
        for is_strict in (False, True):
            with CookieStore(strict=is_strict) as store:
                for words, attributes, plain, strict in STATUSES:
                    status = store.insert(*words, now=NOW, **attributes)
                    self.assertIs(status, strict if is_strict else plain, f'{words} {attributes} {is_strict}')

    def test_raises(self):
        with CookieStore() as store:
            for words, attributes, wanted in RAISES:
                with self.subTest(words, **attributes), self.assertRaises(CookieStoreError) as raised:
                    store.insert(*words, **{'now': NOW, **attributes})
                self.assertEqual(raised.exception.status, wanted, f'{words} {attributes}')
            self.assertEqual(len(store), 0)
            for words in [('a', '1', None), ('a', 1, 'a.example')]:
                with self.subTest(words), self.assertRaises(TypeError):
                    store.insert(*words)

    def test_now(self):
        """Without a time it is the current one."""
        with CookieStore() as store:
            self.assertIs(store.insert('a', '1', 'a.example', expires=NOW), Status.EXPIRED)
            self.assertIs(store.insert('a', '1', 'a.example', expires=LAST), Status.INSERTED)

    def test_cookies_of_another_store(self):
        with CookieStore() as store, CookieStore() as other:
            for words, attributes, *_ in STORED:
                store.insert(*words, now=NOW, **attributes)
            for cookie in store:
                other.insert(cookie.name, cookie.value, cookie.domain, path=cookie.path, host_only=cookie.host_only, secure=cookie.secure,
                             http_only=cookie.http_only, same_site=cookie.same_site, expires=cookie.expires, now=NOW)
            self.assertEqual(other.cookies(), store.cookies())


if __name__ == '__main__':
    unittest.main()
