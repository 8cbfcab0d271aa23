"""Statuses of the C library, and the exceptions that stand for them."""
from __future__ import annotations

import enum
from typing import Optional


class Status(enum.IntEnum):
    """Status of a call, with the numbers of cookie_store.h. Values below 10 are success.

    The cookie was accepted:
    INSERTED -- no cookie with its domain, path and name was stored
    UPDATED -- it replaced the stored one with the same domain, path and name
    EXPIRED_EXISTING -- it has expired, and so the stored one was expired

    The cookie was rejected:
    NON_HTTP_SCHEME -- it, or the unexpired stored one, is HttpOnly, and the scheme is not HTTP
    NON_RELATIVE_SCHEME -- it has no Domain attribute or an empty one, and the URL has no host
    DOMAIN_MISMATCH -- the host of the URL does not domain-match its Domain attribute
    EXPIRED -- it has expired, and no unexpired one is stored
    PARSE -- the string is not a cookie, or its Domain attribute is not a domain name
    PUBLIC_SUFFIX -- its domain is a public suffix on the list, and not the host of the URL; in a
        strict store also a domain above the site of the host

    The cookie was rejected by a strict store:
    CONTROL_CHARACTER -- the header value has a control character other than HTAB
    TOO_LONG -- its name and value together are longer than 4,096 bytes
    INSECURE_URL -- it is Secure, and the URL is not secure
    INSECURE_SAME_SITE_NONE -- it has SameSite=None and is not Secure
    PREFIX -- its name begins with __Secure-, __Host-, __Http- or __Host-Http-, and it lacks what
        the prefix demands
    SECURE_STORED -- it is not Secure, nor is the URL, and it would overlay a stored Secure cookie
    SECURE_LIMIT -- it is not Secure, and its domain has its limit of unexpired Secure cookies

    The cookie was rejected by a call of parse() with a page, besides:
    CROSS_SITE_RESPONSE -- the request was cross-site and no top-level navigation, and the cookie is
        not SameSite=None

    An argument is not valid:
    BAD_URL -- not a URL, or one from which parsers read different hosts
    NOT_UTF8 -- not UTF-8
    BAD_TIME -- a time that is not in the years -9999 to 9999
    BAD_LIMIT -- a limit or a number of shards below 1
    BAD_OPTION -- a number that is not one of Format or Which, or a same_site that is no SameSite attribute
    BAD_RULE -- a line of a public suffix list is not a rule
    NO_RULES -- a public suffix list has no rules
    BAD_JSON, BAD_SHAPE -- not JSON; JSON, but not a list of cookies
    BAD_RON -- not a list of cookies in RON
    BAD_EXPIRY -- an expiry is not a date and time; or a cookie to save expires before the year 0
    BAD_LINE -- a line of a cookies.txt file is not a cookie
    UNREPRESENTABLE -- a cookies.txt file cannot represent a cookie to save

    Other errors:
    NO_MEMORY -- out of memory
    NO_STORE -- the store is closed
    NO_LIST -- the store has no public suffix list

    The other values are not returned or raised.
    """
    OK = 0
    INSERTED = 1
    UPDATED = 2
    EXPIRED_EXISTING = 3
    NON_HTTP_SCHEME = 10
    NON_RELATIVE_SCHEME = 11
    DOMAIN_MISMATCH = 12
    EXPIRED = 13
    PARSE = 14
    PUBLIC_SUFFIX = 15
    UNSPECIFIED_DOMAIN = 16
    NO_MEMORY = 20
    BAD_URL = 21
    NOT_UTF8 = 22
    BAD_TIME = 23
    NO_STORE = 24
    HAS_STORE = 25
    NO_ROOM = 26
    NOT_FOUND = 27
    BAD_LIMIT = 28
    BAD_OPTION = 29
    BAD_RULE = 30
    BAD_JSON = 31
    BAD_SHAPE = 32
    BAD_RON = 33
    BAD_EXPIRY = 34
    BAD_LINE = 35
    UNREPRESENTABLE = 36
    NO_RULES = 37
    NO_LIST = 38
    CONTROL_CHARACTER = 40
    TOO_LONG = 41
    INSECURE_URL = 42
    INSECURE_SAME_SITE_NONE = 43
    PREFIX = 44
    SECURE_STORED = 45
    SECURE_LIMIT = 46
    CROSS_SITE_RESPONSE = 47

    @property
    def is_success(self) -> bool:
        """Whether the call succeeded: the cookie is neither rejected nor an argument invalid."""
        return self < 10

    @property
    def is_rejection(self) -> bool:
        """Whether the cookie was rejected. It holds of statuses that only a newer library has too."""
        return is_reply(self) and not self.is_success

    @classmethod
    def _missing_(cls, value: object) -> Optional[Status]:
        """Return a status that only a newer library has: its meaning is that of its range, see cookie_store.h."""
        if not isinstance(value, int):
            return None
        status = int.__new__(cls, value)
        status._name_, status._value_ = f'UNKNOWN_{value}', value
        return status


#: What each status means, in the words of cookie_store.h.
TEXTS = {
    Status.OK: 'success',
    Status.INSERTED: 'inserted',
    Status.UPDATED: 'replaced the stored cookie',
    Status.EXPIRED_EXISTING: 'expired the stored cookie',
    Status.NON_HTTP_SCHEME: 'HttpOnly, and the URL is not HTTP',
    Status.NON_RELATIVE_SCHEME: 'no Domain attribute, and no host in the URL',
    Status.DOMAIN_MISMATCH: "the host does not match the cookie's domain",
    Status.EXPIRED: 'the cookie has expired',
    Status.PARSE: 'not a cookie',
    Status.PUBLIC_SUFFIX: 'the domain is a public suffix',
    Status.UNSPECIFIED_DOMAIN: 'unspecified domain',
    Status.NO_MEMORY: 'out of memory',
    Status.BAD_URL: 'not a valid URL',
    Status.NOT_UTF8: 'not UTF-8',
    Status.BAD_TIME: 'the time is out of range',
    Status.NO_STORE: 'the handle is empty',
    Status.HAS_STORE: 'the handle holds a store already',
    Status.NO_ROOM: 'the buffer is too short',
    Status.NOT_FOUND: 'no such cookie',
    Status.BAD_LIMIT: 'not a valid limit or number of shards',
    Status.BAD_OPTION: 'an unknown option',
    Status.BAD_RULE: 'a line of the list is not a rule',
    Status.BAD_JSON: 'not JSON',
    Status.BAD_SHAPE: 'JSON, but not a list of cookies',
    Status.BAD_RON: 'not a list of cookies in RON',
    Status.BAD_EXPIRY: 'an expiry is not valid or not representable',
    Status.BAD_LINE: 'a line of the file is not a cookie',
    Status.UNREPRESENTABLE: 'the format cannot represent a cookie',
    Status.NO_RULES: 'the public suffix list has no rules',
    Status.NO_LIST: 'the store has no public suffix list',
    Status.CONTROL_CHARACTER: 'a control character in the header value',
    Status.TOO_LONG: 'name and value are longer than 4,096 bytes',
    Status.INSECURE_URL: 'Secure, and the URL is not secure',
    Status.INSECURE_SAME_SITE_NONE: 'SameSite=None, and not Secure',
    Status.PREFIX: 'lacks what the prefix of its name demands',
    Status.SECURE_STORED: 'a Secure cookie with its name is stored',
    Status.SECURE_LIMIT: 'the domain has its limit of Secure cookies',
    Status.CROSS_SITE_RESPONSE: 'not SameSite=None, of a cross-site response',
}


def text_of(status: Status) -> str:
    """Return what a status means, in a few words."""
    return 'the store is closed' if status is Status.NO_STORE else TEXTS.get(status, 'unknown status')


#: The known statuses by their numbers: finding one here takes a fraction of the time of Status(number).
STATUSES = {int(status): status for status in Status}


def is_reply(number: int) -> bool:
    """Return whether a status of an insertion is that the cookie was accepted, or why it was rejected."""
    return number < 20 or 40 <= number < 100


#: The statuses of a URL or a header value that a client takes and the store does not.
NOT_VALID = (Status.BAD_URL, Status.NOT_UTF8)


class CookieStoreError(Exception):
    """Raised when a call fails. The reason is in the attribute status, a Status."""

    #: The file that CookieStore.open() could not load, or None.
    filename: Optional[str] = None

    def __init__(self, status: Status) -> None:
        super().__init__(status)
        self.status = status

    def __str__(self) -> str:
        return self._text() if self.filename is None else f'{self.filename}: {self._text()}'

    def _text(self) -> str:
        return text_of(self.status)


class NoMemory(CookieStoreError, MemoryError):
    """Raised when memory runs out."""


class BadRule(CookieStoreError):
    """Raised for a malformed line of a public suffix list. line is its number, from 1."""

    def __init__(self, line: int) -> None:
        super().__init__(Status.BAD_RULE)
        self.args, self.line = (line,), line

    def _text(self) -> str:
        return f'{text_of(self.status)} (line {self.line})'


class BadLine(CookieStoreError):
    """Raised for a malformed line of a cookies.txt file. line is its number, from 1."""

    def __init__(self, line: int) -> None:
        super().__init__(Status.BAD_LINE)
        self.args, self.line = (line,), line

    def _text(self) -> str:
        return f'{text_of(self.status)} (line {self.line})'


class NoDomain(CookieStoreError, ValueError):
    """Raised for a cookie without a domain, which requests would send to every host."""

    def __init__(self) -> None:
        super().__init__(Status.BAD_URL)
        self.args = ()

    def _text(self) -> str:
        return 'a cookie needs the domain that it is sent to: pass domain='


def check(number: int) -> None:
    """Raise the exception for a status, unless it is OK."""
    if number == Status.NO_MEMORY:
        raise NoMemory(Status.NO_MEMORY)
    if number != Status.OK:
        raise CookieStoreError(Status(number))
