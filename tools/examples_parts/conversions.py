"""Conversions: lines of JSON become a list in RON, and the first line that is not a saved cookie is named."""
from examples_parts.program import Case

COOKIE = b'{"raw_cookie":"a=1","path":["/",false],"domain":{"HostOnly":"a.com"},"expires":"SessionEnd"}'

# The same cookie twice, and no line feed at the end.
TWICE = COOKIE + b'\n' + COOKIE

LIST = b'''\
[
    (
        raw_cookie: "a=1",
        path: ("/", false),
        domain: HostOnly("a.com"),
        expires: SessionEnd,
    ),
]
'''

# Lines and their list.
LISTS = {'a line': (COOKIE + b'\n', LIST), 'a cookie twice': (TWICE, LIST), 'no line': (b'', b'[]\n')}

# Lines of which the second is malformed.
MALFORMED = {'a part of a line': COOKIE + b'\n{', 'an empty line': COOKIE + b'\n\n' + COOKIE + b'\n'}


def cases():
    for title, (lines, output) in LISTS.items():
        yield Case(f'conversion, {title}', ['--convert'], lines, output)
    for title, lines in MALFORMED.items():
        yield Case(f'conversion, {title}', ['--convert'], lines, status=2, message='bad line 2')
