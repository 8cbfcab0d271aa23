"""Tests of CookieStore: tables list the calls with their statuses."""
import gc
import math
import os
import pathlib
import pickle
import tempfile
import time
import unittest
from unittest import mock

from support import FIRST, LAST, NOW, PAGE, SECONDS, filled, in_threads, names

from cookie_store import BadRule, Cookie, CookieStore, CookieStoreError, Format, Status, Which
from cookie_store._handle import SYSTEM_SUFFIXES
from cookie_store._library import LIBRARY

SECURE_PAGE = 'https://a.example/d/page'

# Set one after the other in one store, with a public suffix list of the one rule `example`.
SETS = [
    ('http://a.example/d/page', 'a=1', Status.INSERTED),
    ('http://a.example/d/page', 'a=2', Status.UPDATED),
    ('http://a.example/d/page', 'a=3; Max-Age=0', Status.EXPIRED_EXISTING),
    ('http://a.example/d/page', 'new=1; Max-Age=0', Status.EXPIRED),
    ('http://a.example/d/page', 'h=1; HttpOnly', Status.INSERTED),
    ('ftp://a.example/d/page', 'h=2', Status.NON_HTTP_SCHEME),
    ('ftp://a.example/d/page', 'i=1; HttpOnly', Status.NON_HTTP_SCHEME),
    ('data:x', 'a=1', Status.NON_RELATIVE_SCHEME),
    ('http://a.example/', 'a=1; Domain=b.example', Status.DOMAIN_MISMATCH),
    ('http://a.example/', 'no pair', Status.PARSE),
    (b'http://a.example/', b'', Status.PARSE),
    ('http://a.example/', 'a=1; Domain=example', Status.PUBLIC_SUFFIX),
    ('http://example/', 'a=1; Domain=example', Status.INSERTED),
]

# Public suffix lists, with the status of a cookie for all of co.uk, of unlisted, and of example, each from a host below.
LISTS = [
    ({'suffixes': 'co.uk\n'}, 'PUBLIC_SUFFIX', 'PUBLIC_SUFFIX', 'PUBLIC_SUFFIX'),
    ({'suffixes': b'co.uk\n'}, 'PUBLIC_SUFFIX', 'PUBLIC_SUFFIX', 'PUBLIC_SUFFIX'),
    ({'suffixes': 'co.uk\n', 'only_listed': True}, 'PUBLIC_SUFFIX', 'INSERTED', 'INSERTED'),
    ({'suffixes': 'example\n', 'only_listed': True}, 'INSERTED', 'INSERTED', 'PUBLIC_SUFFIX'),
    ({'suffixes': 'example\n'}, 'INSERTED', 'PUBLIC_SUFFIX', 'PUBLIC_SUFFIX'),
]

# What is no public suffix list, with the status and the line.
NO_LISTS = [
    ('/usr/share/publicsuffix/public_suffix_list.dat', Status.BAD_RULE, 1),
    ('public_suffix_list.dat:1', Status.BAD_RULE, 1),
    ('<!DOCTYPE html>\n<html><body>Not found</body></html>\n', Status.BAD_RULE, 1),
    ('com\n<p>Not found</p>\n', Status.BAD_RULE, 2),
    ('{"error": 1}', Status.BAD_RULE, 1),
    ('error=1', Status.BAD_RULE, 1),
    ('user@a.example', Status.BAD_RULE, 1),
    ('a..b', Status.BAD_RULE, 1),
    ('', Status.NO_RULES, None),
    (b'', Status.NO_RULES, None),
    ('\n// a comment\n', Status.NO_RULES, None),
]

# Set one after the other in one strict store.
STRICT_SETS = [
    (PAGE, 'a=1', Status.INSERTED),
    (PAGE, 'a=2; Max-Age=0', Status.EXPIRED_EXISTING),
    (PAGE, 'c=\x01', Status.CONTROL_CHARACTER),
    (PAGE, 'c=' + 'v' * 4095, Status.INSERTED),
    (PAGE, 'c=' + 'v' * 4096, Status.TOO_LONG),
    (PAGE, 'no pair', Status.PARSE),
    (PAGE, 's=1; Secure', Status.INSECURE_URL),
    ('https://a.example/d/page', 'n=1; SameSite=None', Status.INSECURE_SAME_SITE_NONE),
    ('https://a.example/d/page', '__Host-p=1; Secure', Status.PREFIX),
    ('https://a.example/d/page', 's=1; Secure', Status.INSERTED),
    (PAGE, 's=2', Status.SECURE_STORED),
    ('https://a.example/d/page', 'd=1; Domain=a.example\xa0', Status.DOMAIN_MISMATCH),
    ('https://a.example/d/page', 'd=1; Domain=. a.example', Status.DOMAIN_MISMATCH),
    ('https://a.example/d/page', 'd=1; Domain=a.example; Domain=b.example', Status.DOMAIN_MISMATCH),
    ('https://a.example/d/page', '__Http-h=1; Secure', Status.PREFIX),
    ('https://a.example/d/page', '__Http-h=1; Secure; HttpOnly', Status.INSERTED),
    ('https://a.example/d/page', '__Host-Http-h=1; Secure; HttpOnly', Status.PREFIX),
    ('https://a.example/d/page', '__Host-Http-h=1; Secure; HttpOnly; Path=/', Status.INSERTED),
    ('http://a.localhost/', 's=1; Secure', Status.INSERTED),
]

# The header of a URL after a value was received from it, without and with the rules of browsers.
READ = [
    ('http://a.example/', 'a=1\xa0', 'a=1', 'a=1\xa0'),
    ('http://a.example/', '\u3000a=1', 'a=1', '\u3000a=1'),
    ('http://a.example/', 'a=1; Max-Age=60; Max-Age=-', '', 'a=1'),
    ('http://a.example/x', 'a=1; Path=/x\xa0', 'a=1', ''),
    ('http://a.localhost/', 'a=1; Secure', '', 'a=1'),
    ('http://localhost./', 'a=1; Secure', '', 'a=1'),
]

# Arguments of header() for a request from another site, and the cookies that it has: with SameSite
# None, without, with Lax, and with Strict.
CROSS_SITE = [
    ({}, 'n'),
    ({'lax_by_default': False}, 'nu'),
    ({'top_level': True}, 'nul'),
    ({'top_level': True, 'lax_by_default': False}, 'nul'),
    ({'same_site': True}, 'nuls'),
]

SITE, OTHER_SITE = 'https://www.a.co.example/', 'https://b.co.example/'

# The page of a request for https://a.co.example/d/page and other arguments of header(), and the cookies that it has, named as
# above: with the public suffix co.example, and without a list.
PAGES = [
    ({'page': SITE}, 'nuls', 'n'),
    ({'page': SITE.encode()}, 'nuls', 'n'),
    ({'page': SITE, 'top_level': True, 'lax_by_default': False}, 'nuls', 'nul'),
    ({'page': SITE, 'same_site': False}, 'n', 'n'),
    ({'page': 'https://a.co.example:8443/'}, 'nuls', 'nuls'),
    ({'page': 'http://a.co.example/'}, 'n', 'n'),
    ({'page': OTHER_SITE}, 'n', 'n'),
    ({'page': OTHER_SITE, 'lax_by_default': False}, 'nu', 'nu'),
    ({'page': OTHER_SITE, 'top_level': True}, 'nul', 'nul'),
    ({'page': 'data:text/html,'}, 'n', 'n'),
]

# A header value of a response from https://a.co.example/, arguments of parse(), and the status.
RESPONSES = [
    ('a=1; SameSite=Strict', {'page': SITE}, Status.INSERTED),
    ('a=1', {'page': SITE}, Status.INSERTED),
    ('__Host-a=1', {'page': SITE}, Status.PREFIX),
    ('a=1; SameSite=Lax', {'page': OTHER_SITE}, Status.CROSS_SITE_RESPONSE),
    ('a=1', {'page': OTHER_SITE}, Status.CROSS_SITE_RESPONSE),
    ('a=1; SameSite=None; Secure', {'page': OTHER_SITE}, Status.INSERTED),
    ('a=1; SameSite=None', {'page': OTHER_SITE}, Status.INSECURE_SAME_SITE_NONE),
    ('a=1; SameSite=Strict', {'page': OTHER_SITE, 'top_level': True}, Status.INSERTED),
    ('a=1', {'page': OTHER_SITE, 'lax_by_default': False}, Status.INSERTED),
    ('a=1; SameSite=Lax', {'page': OTHER_SITE, 'lax_by_default': False}, Status.CROSS_SITE_RESPONSE),
    ('a=1; SameSite=Lax', {'lax_by_default': False}, Status.INSERTED),
    ('a=1\x01', {'page': OTHER_SITE}, Status.CONTROL_CHARACTER),
]

JSON = '[{"raw_cookie":"%s","path":["/",false],"domain":{"HostOnly":"a.example"},"expires":%s}]'
RON = '[(raw_cookie: "%s", path: ("/", false), domain: HostOnly("a.example"), expires: %s)]'

# Calls with invalid arguments, and the status that they raise.
RAISES = [
    ('parse, no URL', lambda store: store.parse('no url', 'a=1'), Status.BAD_URL),
    ('parse, an empty URL', lambda store: store.parse('', 'a=1'), Status.BAD_URL),
    ('parse, URL not UTF-8', lambda store: store.parse(b'\xff', 'a=1'), Status.NOT_UTF8),
    ('parse, text not UTF-8', lambda store: store.parse(PAGE, b'a=\xff'), Status.NOT_UTF8),
    ('parse, a lone surrogate', lambda store: store.parse(PAGE, 'a=\udcff'), Status.NOT_UTF8),
    ('parse, before the years', lambda store: store.parse(PAGE, 'a=1', FIRST - 1), Status.BAD_TIME),
    ('parse, after the years', lambda store: store.parse(PAGE, 'a=1', LAST + 1), Status.BAD_TIME),
    ('parse, a time of more than 64 bits', lambda store: store.parse(PAGE, 'a=1', 2**64), Status.BAD_TIME),
    *((f'parse, {now}', lambda store, now=now: store.parse(PAGE, 'a=1', now), Status.BAD_TIME)
      for now in (math.nan, math.inf, -math.inf, 1e300)),
    ('header, no URL', lambda store: store.header('no url'), Status.BAD_URL),
    ('header, not UTF-8', lambda store: store.header(b'\xff'), Status.NOT_UTF8),
    ('header, after the years', lambda store: store.header(PAGE, LAST + 1), Status.BAD_TIME),
    ('header, no page', lambda store: store.header(PAGE, page='no url'), Status.BAD_URL),
    ('header, an empty page', lambda store: store.header(PAGE, page=''), Status.BAD_URL),
    ('header, page not UTF-8', lambda store: store.header(PAGE, page=b'\xff'), Status.NOT_UTF8),
    ('parse, no page', lambda store: store.parse(PAGE, 'a=2', page='no url'), Status.BAD_URL),
    ('parse, page not UTF-8', lambda store: store.parse(PAGE, 'a=2', page=b'\xff'), Status.NOT_UTF8),
    ('parse with a page, after the years', lambda store: store.parse(PAGE, 'a=2', LAST + 1, page=PAGE), Status.BAD_TIME),
    ('remove, domain not UTF-8', lambda store: store.remove(b'\xff', '/', 'a'), Status.NOT_UTF8),
    ('remove_domain, not UTF-8', lambda store: store.remove_domain(b'\xff'), Status.NOT_UTF8),
    ('remove, path not UTF-8', lambda store: store.remove('a.example', b'\xff', 'a'), Status.NOT_UTF8),
    ('remove, name not UTF-8', lambda store: store.remove('a.example', '/', b'\xff'), Status.NOT_UTF8),
    ('remove_expired, before the years', lambda store: store.remove_expired(FIRST - 1), Status.BAD_TIME),
    ('remove_expired, after the years', lambda store: store.remove_expired(LAST + 1), Status.BAD_TIME),
    ('suffix list, not UTF-8', lambda store: store.set_suffix_list(b'\xff'), Status.NOT_UTF8),
    ('suffix list, no rule', lambda store: store.set_suffix_list('example\na..b\n'), Status.BAD_RULE),
    ('dumps, a format below those', lambda store: store.dumps(-1), Status.BAD_OPTION),
    ('dumps, a format above those', lambda store: store.dumps(3), Status.BAD_OPTION),
    ('dumps, a format of more than 32 bits', lambda store: store.dumps(2**32), Status.BAD_OPTION),
    ('dumps, a time as format', lambda store: store.dumps(NOW), Status.BAD_OPTION),
    ('dumps, which below those', lambda store: store.dumps(which=-1), Status.BAD_OPTION),
    ('dumps, which above those', lambda store: store.dumps(which=3), Status.BAD_OPTION),
    ('dumps, which of more than 32 bits', lambda store: store.dumps(which=2**32), Status.BAD_OPTION),
    ('dumps, no option before no time', lambda store: store.dumps(Format.RON, 3, 2**64), Status.BAD_OPTION),
    ('dumps_lenient, which above those', lambda store: store.dumps_lenient(3), Status.BAD_OPTION),
    ('dumps_lenient, after the years', lambda store: store.dumps_lenient(now=LAST + 1), Status.BAD_TIME),
    ('loads, a format above those', lambda store: CookieStore.loads('', 3), Status.BAD_OPTION),
    ('loads, which above those', lambda store: CookieStore.loads('[]', which=3), Status.BAD_OPTION),
    ('loads, no option before no time', lambda store: CookieStore.loads('[]', 3, now=2**64), Status.BAD_OPTION),
    ('loads, no time before not UTF-8', lambda store: CookieStore.loads(b'\xff', now=LAST + 1), Status.BAD_TIME),
    ('loads_lenient, which above those', lambda store: CookieStore.loads_lenient('', 3), Status.BAD_OPTION),
    ('loads_lenient, not UTF-8', lambda store: CookieStore.loads_lenient(b'\xff'), Status.NOT_UTF8),
    ('loads_lenient, after the years', lambda store: CookieStore.loads_lenient('', now=LAST + 1), Status.BAD_TIME),
    *((f'dumps, {form.name} {which.name}, after the years',
       lambda store, form=form, which=which: store.dumps(form, which, LAST + 1), Status.BAD_TIME)
      for form in Format for which in Which),
    *((f'loads, {form.name}, not UTF-8', lambda store, form=form: CookieStore.loads(b'\xff', form), Status.NOT_UTF8)
      for form in Format),
    *((f'loads, {form.name} {which.name}, after the years',
       lambda store, form=form, which=which: CookieStore.loads('[]', form, which, LAST + 1), Status.BAD_TIME)
      for form in Format for which in Which),
    ('load no JSON', lambda store: CookieStore.loads('['), Status.BAD_JSON),
    ('load JSON that is no list', lambda store: CookieStore.loads('{}'), Status.BAD_SHAPE),
    ('load JSON with a bad expiry', lambda store: CookieStore.loads(JSON % ('a=1', '{"AtUtc":"soon"}')), Status.BAD_EXPIRY),
    ('load JSON with no cookie', lambda store: CookieStore.loads(JSON % ('a', '"SessionEnd"')), Status.PARSE),
    ('load no RON', lambda store: CookieStore.loads('{}', Format.RON), Status.BAD_RON),
    ('load RON with a bad expiry', lambda store: CookieStore.loads(RON % ('a=1', 'AtUtc("soon")'), Format.RON), Status.BAD_EXPIRY),
    ('load RON with no cookie', lambda store: CookieStore.loads(RON % ('a', 'SessionEnd'), Format.RON), Status.PARSE),
    ('load cookies.txt with no cookie', lambda store: CookieStore.loads('\na=1\n', Format.NETSCAPE), Status.BAD_LINE),
]

# Calls that raise NO_STORE after close().
CLOSED = [
    ('parse', lambda store: store.parse(PAGE, 'a=1')),
    ('insert', lambda store: store.insert('', '', '')),
    ('header', lambda store: store.header(PAGE)),
    ('set_suffix_list', lambda store: store.set_suffix_list('com')),
    ('header, cross-site', lambda store: store.header(PAGE, same_site=False)),
    ('header, with a page', lambda store: store.header(PAGE, page=PAGE)),
    ('parse, with a page', lambda store: store.parse(PAGE, 'a=1', page=PAGE)),
    ('set_domain_limit', lambda store: store.set_domain_limit(1)),
    ('set_strict', lambda store: store.set_strict(True)),
    ('remove', lambda store: store.remove('', '', '')),
    ('remove_domain', lambda store: store.remove_domain('')),
    ('clear', lambda store: store.clear()),
    ('remove_expired', lambda store: store.remove_expired()),
    ('cookies', lambda store: store.cookies()),
    ('cookies_for', lambda store: store.cookies_for(PAGE)),
    *((f'dumps, {form.name}', lambda store, form=form: store.dumps(form)) for form in Format),
    ('dumps_lenient', lambda store: store.dumps_lenient()),
    ('copy', lambda store: store.copy()),
]


class StoreTests(unittest.TestCase):
    """Tests of each method of CookieStore."""

    def assert_raises(self, name, status, call, *handed):
        with self.subTest(name), self.assertRaises(CookieStoreError) as raised:
            call(*handed)
        self.assertEqual(raised.exception.status, status, name)
        self.assertEqual(pickle.loads(pickle.dumps(raised.exception)).status, status, name)

    def test_parse(self):
        with CookieStore() as store:
            store.set_suffix_list('// a comment\nexample\n')
            for url, text, wanted in SETS:
                self.assertIs(store.parse(url, text, NOW), wanted, f'{url} {text}')
            self.assertEqual(store.header(PAGE, NOW), 'h=1')

    def test_raises(self):
        with filled('a=1') as store:
            for name, call, status in RAISES:
                self.assert_raises(name, status, call, store)
            self.assertEqual(store.header(PAGE, NOW), 'a=1')

    def test_strict(self):
        with CookieStore(strict=True) as store:
            for url, text, wanted in STRICT_SETS:
                self.assertIs(store.parse(url, text, NOW), wanted, f'{url} {text[:20]}')
            self.assertIs(store.copy().parse(PAGE, 's=2', NOW), Status.SECURE_STORED)
            self.assertTrue(store.strict and store.copy().strict)
            self.assertIs(CookieStore.loads('[]', strict=True).parse(PAGE, 's=1; Secure', NOW), Status.INSECURE_URL)
            store.set_strict(False)
            self.assertIs(store.parse(PAGE, 's=2', NOW), Status.UPDATED)
        self.assertIs(CookieStore().parse(PAGE, 's=1; Secure', NOW), Status.INSERTED)

    def test_strict_reading(self):
        for url, text, plain, strict in READ:
            for is_strict, wanted in ((False, plain), (True, strict)):
                store = CookieStore(strict=is_strict)
                store.parse(url, text, NOW)
                self.assertEqual(store.header(url, NOW) or '', wanted, (url, text, is_strict))

    def test_cross_site(self):
        store = filled('n=1; SameSite=None; Path=/d', 'u=1; Path=/d', 'l=1; SameSite=Lax', 's=1; SameSite=Strict')
        for words, wanted in CROSS_SITE:
            header = store.header(PAGE, NOW, **{'same_site': False, **words})
            self.assertEqual(header, '; '.join(f'{name}=1' for name in wanted), words)
        store.parse(PAGE, 'n=' + 'v' * 5000 + '; SameSite=None', NOW)
        self.assertEqual(store.header(PAGE, NOW, same_site=False), 'n=' + 'v' * 5000)

    def test_pages(self):
        for suffixes in ('co.example\n', None):
            store = CookieStore()
            if suffixes:
                store.set_suffix_list(suffixes)
            for text in ('n=1; SameSite=None; Path=/d', 'u=1; Path=/d', 'l=1; SameSite=Lax; Path=/', 's=1; SameSite=Strict; Path=/'):
                store.parse('https://a.co.example/d/page', text, NOW)
            for words, listed, unlisted in PAGES:
                header = store.header('https://a.co.example/d/page', NOW, **words)
                self.assertEqual(header, '; '.join(f'{name}=1' for name in (listed if suffixes else unlisted)), (words, suffixes))
            store.parse('https://a.co.example/d/page', 'n=' + 'v' * 5000 + '; SameSite=None', NOW)
            self.assertEqual(store.header('https://a.co.example/d/page', NOW, page=OTHER_SITE), 'n=' + 'v' * 5000)

    def test_responses_to_pages(self):
        for text, words, wanted in RESPONSES:
            store = CookieStore()
            store.set_suffix_list('co.example\n')
            self.assertIs(store.parse('https://a.co.example/', text, NOW, **words), wanted, (text, words))
            self.assertEqual(len(store), wanted.is_success, (text, words))

    def test_types(self):
        with CookieStore() as store:
            for name, call in [('a time', lambda: store.parse(PAGE, 'a=1', '1')), ('None', lambda: store.parse(PAGE, None)),
                               ('number', lambda: store.header(1)), ('another store', lambda: store.merge(1))]:
                with self.subTest(name), self.assertRaises((TypeError, AttributeError)):
                    call()

    def assert_suffixes(self, store, *wanted):
        """Check the statuses of cookies for co.uk, unlisted and example."""
        names = [store.parse(f'http://a.{domain}/', f'a=1; Domain={domain}', NOW).name
                 for domain in ('co.uk', 'unlisted', 'example')]
        self.assertEqual(names, list(wanted))

    def test_suffixes(self):
        for words, *wanted in LISTS:
            store = CookieStore()
            self.assertIsNone(store.set_suffix_list(**words))
            copied = store.copy()
            for one in (store, copied, pickle.loads(pickle.dumps(copied))):
                with self.subTest(words):
                    self.assert_suffixes(one, *wanted)

    def test_no_suffixes(self):
        """What is no list raises, and the list before stays."""
        for text, status, line in NO_LISTS:
            store = CookieStore()
            store.set_suffix_list('co.uk\n', only_listed=True)
            with self.subTest(text), self.assertRaises(CookieStoreError) as raised:
                store.set_suffix_list(text)
            self.assertEqual((raised.exception.status, getattr(raised.exception, 'line', None)), (status, line), text)
            self.assert_suffixes(store, 'PUBLIC_SUFFIX', 'INSERTED', 'INSERTED')

    def test_bad_rule(self):
        with CookieStore() as store, self.assertRaises(BadRule) as raised:
            store.set_suffix_list('example\na..b\n')
        self.assertEqual((raised.exception.line, str(raised.exception)), (2, 'a line of the list is not a rule (line 2)'))

    def test_suffixes_of_a_file(self):
        with tempfile.TemporaryDirectory() as folder:
            path = pathlib.Path(folder, 'list.dat')
            path.write_bytes(b'// gr\xc3\xbcn\nco.uk\n')
            for name in (path, str(path), os.fsencode(path)):
                store = CookieStore()
                store.set_suffix_list(path=name, only_listed=True)
                self.assert_suffixes(store, 'PUBLIC_SUFFIX', 'INSERTED', 'INSERTED')
            path.write_bytes(b'com\n<p>')
            with self.assertRaises(BadRule):
                store.set_suffix_list(path=path)
            for call, kind in [(lambda: store.set_suffix_list(path=path.with_name('none')), FileNotFoundError),
                               (lambda: store.set_suffix_list('com', path=path), TypeError),
                               (lambda: store.set_suffix_list('', path=path), TypeError),
                               (lambda: store.set_suffix_list(path), TypeError),
                               (lambda: store.set_suffix_list(['com']), TypeError)]:
                with self.assertRaises(kind):
                    call()
            self.assert_suffixes(store, 'PUBLIC_SUFFIX', 'UPDATED', 'UPDATED')

    @unittest.skipUnless(os.path.exists(SYSTEM_SUFFIXES), 'publicsuffix is not installed')
    def test_suffixes_of_the_system(self):
        store = CookieStore()
        store.set_suffix_list()
        self.assert_suffixes(store, 'PUBLIC_SUFFIX', 'PUBLIC_SUFFIX', 'PUBLIC_SUFFIX')
        store.set_suffix_list(only_listed=True)
        self.assert_suffixes(store, 'PUBLIC_SUFFIX', 'INSERTED', 'INSERTED')

    def test_no_suffixes_of_the_system(self):
        with mock.patch('cookie_store._handle.SYSTEM_SUFFIXES', '/none/list.dat'):
            with self.assertRaisesRegex(FileNotFoundError, 'publicsuffix.*/none/list.dat'):
                CookieStore().set_suffix_list()

    def test_hash_keys(self):
        """New and loaded stores hash by random keys."""
        with mock.patch('os.urandom', side_effect=os.urandom) as urandom:
            CookieStore()
        urandom.assert_called_once_with(16)
        with mock.patch('os.urandom', side_effect=os.urandom) as urandom:
            CookieStore.loads('[]')
        urandom.assert_called_with(16)

    def test_newer_statuses(self):
        """A status that only a newer library has means what its range means."""
        for number, is_error in [(4, False), (19, False), (39, True), (48, False)]:
            with self.subTest(number), mock.patch.object(LIBRARY, 'cookie_store_parse', lambda *_: number), CookieStore() as store:
                if is_error:
                    with self.assertRaises(CookieStoreError) as raised:
                        store.parse(PAGE, 'a=1')
                    self.assertEqual((raised.exception.status, str(raised.exception)), (number, 'unknown status'))
                else:
                    self.assertEqual(store.parse(PAGE, 'a=1').name, f'UNKNOWN_{number}')

    def test_no_memory(self):
        no_memory = mock.patch.object(LIBRARY, 'cookie_store_parse', lambda *_: Status.NO_MEMORY)
        with CookieStore() as store, no_memory, self.assertRaises(MemoryError) as raised:
            store.parse(PAGE, 'a=1')
        self.assertIs(raised.exception.status, Status.NO_MEMORY)

    def test_closed(self):
        store = filled('a=1')
        store.set_strict(True)
        store.set_domain_limit(2)
        self.assertEqual(len(store.cookies()), 1)
        store.close()
        store.close()
        self.assertEqual((len(store), store.strict, store.domain_limit), (0, False, None))
        for name, call in CLOSED:
            self.assert_raises(name, Status.NO_STORE, call, store)
        self.assertEqual(str(CookieStoreError(Status.NO_STORE)), 'the store is closed')

    def test_freed(self):
        store = filled('a=1')
        finalizer = store._finalizer
        del store
        gc.collect()
        self.assertFalse(finalizer.alive)

    def test_rows(self):
        store = filled('a=1', 'g=gr\u00fcn; Domain=.A.example; Path=/; Max-Age=60; Secure; HttpOnly; SameSite=Lax',
                       'b=; Expires=Thu, 01 Jan 2026 00:00:05 GMT')
        self.assertEqual(list(store), [
            Cookie('a.example', '/d', 'a', '1', None, True, False, False, False, None),
            Cookie('a.example', '/d', 'b', '', NOW + 5, True, False, False, False, None),
            Cookie('a.example', '/', 'g', 'gr\u00fcn', NOW + 60, False, True, True, True, 'Lax'),
        ])
        self.assertEqual(store.header('https://a.example/d/page', NOW + 4), 'a=1; b=; g=gr\u00fcn')
        self.assertEqual(store.header('https://a.example/d/page', NOW + 5), 'a=1; g=gr\u00fcn')
        self.assertEqual(store.header('https://b.a.example/', NOW), 'g=gr\u00fcn')
        self.assertIsNone(store.header('http://b.a.example/', NOW))
        self.assertEqual(CookieStore().cookies(), [])

    def test_same_site(self):
        for attribute, wanted in [('', None), ('; SameSite=Strict', 'Strict'), ('; samesite=LAX', 'Lax'), ('; SameSite=None', 'None'),
                                  ('; SameSite=other', None)]:
            self.assertEqual([row.same_site for row in filled(f'a=1{attribute}')], [wanted], attribute)

    def test_cookies_after_changes(self):
        """cookies() keeps its list until the store changes."""
        rows = [('parse', lambda store: store.parse(PAGE, 'c=3', NOW), 'a1 b2 c3'),
                ('update', lambda store: store.parse(PAGE, 'b=4', NOW), 'a1 b4'),
                ('remove', lambda store: store.remove('a.example', '/d', 'a'), 'b2'),
                ('remove_domain', lambda store: store.remove_domain('a.example'), ''),
                ('remove_expired', lambda store: store.remove_expired(NOW + 60), 'b2'),
                ('clear', lambda store: store.clear(), ''),
                ('list', lambda store: store.cookies().clear(), 'a1 b2')]
        for name, change, wanted in rows:
            store = filled('a=1; Max-Age=60', 'b=2')
            self.assertEqual(len(store.cookies()), 2)
            change(store)
            self.assertEqual(' '.join(f'{row.name}{row.value}' for row in store), wanted, name)

    def test_order(self):
        """Longer paths come first, then creation order counts."""
        store = filled('b=2; Path=/', 'a=1', 'd=4; Domain=example', 'c=3; Path=/')
        self.assertEqual(store.header(PAGE, NOW), 'a=1; d=4; b=2; c=3')

    def test_domain_limit(self):
        store = CookieStore()
        for limit in (0, -1):
            self.assert_raises(f'limit {limit}', Status.BAD_LIMIT, store.set_domain_limit, limit)
        self.assertIsNone(store.domain_limit)
        store.set_domain_limit(2**70)
        self.assertEqual(store.domain_limit, 2**64 - 1)
        store.set_domain_limit(2)
        self.assertEqual((store.domain_limit, store.copy().domain_limit), (2, 2))
        self.assertIsNone(CookieStore.loads(store.dumps()).domain_limit)
        for text in ('a=1', 'b=2', 'a=3', 'c=4'):
            store.parse(PAGE, text, NOW)
        self.assertEqual(store.header(PAGE, NOW), 'b=2; c=4')
        other = store.copy()
        other.parse(PAGE, 'd=5', NOW)
        self.assertEqual((other.header(PAGE, NOW), store.header(PAGE, NOW)), ('c=4; d=5', 'b=2; c=4'))

    def test_remove(self):
        store = filled('a=1', 'b=2', 'c=3')
        self.assertIs(store.remove('a.example', '/d', 'a'), True)
        self.assertIs(store.remove('a.example', '/d', 'a'), False)
        self.assertEqual((len(store), store.header(PAGE, NOW)), (2, 'b=2; c=3'))
        store.clear()
        self.assertEqual((len(store), store.cookies()), (0, []))

    def test_remove_domain(self):
        store = filled('a=1', 'w=2; Domain=a.example')
        store.parse('https://w.a.example/', 'x=3', NOW)
        self.assertEqual((store.remove_domain('example'), len(store)), (0, 3))
        self.assertEqual((store.remove_domain('a.example'), names(store)), (2, 'x'))

    def test_remove_expired(self):
        store = filled('a=1; Max-Age=60', 's=2', 'b=3; Path=/; Max-Age=60', 'c=4; Max-Age=61', 'd=5', 'd=6; Max-Age=0')
        rows = [(NOW - 1, 1, 'ascb'), (NOW + 59, 0, 'ascb'), (NOW + 60, 2, 'sc'), (NOW + 60, 0, 'sc'), (LAST, 1, 's')]
        for now, removed, left in rows:
            self.assertEqual(store.count_unexpired(now), len(left), now)
            self.assertEqual((store.remove_expired(now), names(store)), (removed, left), now)
        store.parse(PAGE, 'e=7; Max-Age=1', int(time.time()) - 1)
        self.assertEqual((store.remove_expired(), store.header(PAGE)), (1, 's=2'))

    def test_long(self):
        """Results that are longer than the initial buffers."""
        store = filled(*(f'c{number}={"v" * 200}' for number in range(100)))
        wanted = '; '.join(f'c{number}={"v" * 200}' for number in range(100))
        self.assertEqual(store.header(PAGE, NOW), wanted)
        self.assertEqual('; '.join(f'{row.name}={row.value}' for row in store), wanted)
        self.assertEqual(CookieStore.loads(store.dumps(which=Which.ALL, now=NOW), now=NOW).header(PAGE, NOW), wanted)

    def test_expiry_of_a_list(self):
        early = filled('a=1; Max-Age=1', now=FIRST)
        for form in (Format.JSON, Format.RON):
            self.assert_raises(form.name, Status.BAD_EXPIRY, early.dumps, form, Which.ALL, NOW)

    def test_clock(self):
        """Calls without `now` use the current time."""
        store = CookieStore()
        self.assertIs(store.parse(PAGE, 'a=1; Max-Age=3600'), Status.INSERTED)
        self.assertEqual(store.header(PAGE), 'a=1')
        self.assertLess(abs(store.cookies()[0].expires - time.time() - 3600), SECONDS)
        self.assertEqual(len(CookieStore.loads(store.dumps())), 1)

    def test_fractions(self):
        """A cookie that expires in a second has expired from that second on, and not before."""
        store = filled('a=1; Max-Age=60')
        for now, wanted in [(NOW + 59.999, 'a=1'), (NOW + 60.0, None), (NOW + 60.5, None), (-0.5, 'a=1')]:
            self.assertEqual((store.header(PAGE, now), store.copy().remove_expired(now)), (wanted, int(wanted is None)), now)
        store.parse(PAGE, 'b=2; Max-Age=60', NOW + 0.9)
        self.assertEqual(store.cookies()[1].expires, NOW + 60)

    def test_repr(self):
        store = filled('secret=1', 'b=2')
        self.assertEqual(repr(store), '<CookieStore of 2 cookies>')
        store.close()
        self.assertEqual(repr(store), '<CookieStore of 0 cookies>')

    def test_cookies_for(self):
        store = filled('b=2; Path=/; HttpOnly', 'gr\u00fcn=1; Max-Age=60', 'c=3')
        store.parse(SECURE_PAGE, 's=4; Secure', NOW)
        for url, now in [(PAGE, NOW), (PAGE, NOW + 60), (SECURE_PAGE, NOW), ('ftp://a.example/d/page', NOW), ('http://b.example/', NOW)]:
            with self.subTest(url=url, now=now):
                cookies = store.cookies_for(url, now)
                self.assertEqual('; '.join(f'{row.name}={row.value}' for row in cookies) or None, store.header(url, now))
                self.assertLessEqual(set(cookies), set(store.cookies()))
        self.assertEqual([row.name for row in store.cookies_for(SECURE_PAGE, NOW)], ['gr\u00fcn', 'c', 's', 'b'])
        self.assertEqual(store.cookies_for(PAGE.encode())[-1].name, 'b')
        for status, url, now in [(Status.BAD_URL, 'no url', NOW), (Status.BAD_TIME, 'no url', LAST + 1),
                                 (Status.NOT_UTF8, b'\xff', LAST + 1)]:
            self.assert_raises(status.name, status, store.cookies_for, url, now)

    def test_threads(self):
        store, rounds = CookieStore(), 200

        def work(number):
            for at in range(rounds):
                store.parse(f'http://h{number}.example/', f'c{at}={number}', NOW)
                self.assertIn(f'c{at}={number}', store.header(f'http://h{number}.example/', NOW))
                if at % 50 == 0:
                    self.assertGreater(len(store.cookies()), 0)

        self.assertEqual(in_threads(8, work), [])
        self.assertEqual(len(store), 8 * rounds)
        self.assertEqual({(row.domain, row.name, row.value) for row in store},
                         {(f'h{number}.example', f'c{at}', f'{number}') for number in range(8) for at in range(rounds)})


if __name__ == '__main__':
    unittest.main()
