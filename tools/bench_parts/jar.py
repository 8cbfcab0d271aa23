"""Runs a script in Python's http.cookiejar: prints the Cookie header of each `get`, as cookie_jar does."""
import http.cookiejar
import sys
import urllib.request
from email.message import Message


class Response:
    """A response with these Set-Cookie headers."""

    def __init__(self, headers):
        self.headers = Message()
        for header in headers:
            self.headers['Set-Cookie'] = header

    def info(self):
        return self.headers


def main():
    jar = http.cookiejar.CookieJar(http.cookiejar.DefaultCookiePolicy())
    for line in sys.stdin:
        word, rest = line.rstrip('\n').split(' ', 1)
        if word == 'set':
            url, header = rest.split(' ', 1)
            jar.extract_cookies(Response([header]), urllib.request.Request(url))  # type: ignore[arg-type]
        elif word == 'get':
            request = urllib.request.Request(rest)
            jar.add_cookie_header(request)
            print(f'Cookie: {request.get_header("Cookie") or ""}')


if __name__ == '__main__':
    main()
