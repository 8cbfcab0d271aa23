"""Scripts and their output: lines that are no command, limits, public suffix lists, and a long list."""
from examples_parts.program import Case

# Scripts with their output: what the program prints is after `> `.
SCRIPTS = {
    'nothing': '',
    'one line': '''\
get http://example.com/
> Cookie:
''',
    'another domain': '''\
set http://foo.example.com/ cookie1=value1; Domain=oo.example.com
> refused: request-uri does not domain-match the cookie
''',
    'a host of an unknown scheme': '''\
now 2026-01-01T00:00:00Z
set foo://EXAMPLE/ a=1
> inserted
get foo://EXAMPLE/
> Cookie: a=1
get foo://example/
> Cookie:
''',
    'bad lines, and a URL without a host': '''\
fly
> bad line
set http://example.com/
> bad line
now 2026-13-01T00:00:00Z
> bad line
get data:x
> Cookie:
set data:x a=1
> refused: request-uri is not a relative scheme; cannot determine host
''',
    'an HttpOnly cookie until it has expired': '''\
now 2026-01-01T00:00:00Z
set http://example.com/ a=1; HttpOnly; Max-Age=60
> inserted
set ftp://example.com/ a=2
> refused: request-uri is not an http scheme but HttpOnly attribute set
now 2026-01-01T00:01:00Z
set ftp://example.com/ a=2
> updated
get ftp://example.com/
> Cookie: a=2
''',
    'an age of zero before the epoch': '''\
now 1969-12-31T23:59:00Z
set http://example.com/ a=1
> inserted
set http://example.com/ a=2; Max-Age=0
> updated
get http://example.com/
> Cookie: a=2
now 1970-01-01T00:00:00Z
get http://example.com/
> Cookie:
''',
    'Secure cookies': '''\
now 2026-01-01T00:00:00Z
set http://localhost/ s=1; Secure
> inserted
get http://localhost/
> Cookie: s=1
set http://example.com/ t=1; Secure
> inserted
get http://example.com/
> Cookie:
get https://example.com/
> Cookie: t=1
''',
    'all that is cleared, and a name with a space': '''\
set http://a.com/ x y=1
> inserted
remove a.com / x y
> removed
list
set http://a.com/ z=1
> inserted
clear
> cleared
list
get http://a.com/
> Cookie:
''',
}

# What a transcript does not show: how a line ends, and a value that is empty.
BYTES = {
    'no line feed': (b'get http://example.com/', b'Cookie:\n'),
    'a carriage return': (b'get http://example.com/\r\n', b'Cookie:\n'),
    'an empty value': (b'set http://example.com/ \n', b'refused: unable to parse string as cookie::Cookie\n'),
}

BAD_LINES = {
    'empty': b'\n',
    'a word too many': b'get http://a.com/ x\n',
    'get alone': b'get\n',
    'two spaces': b'get  http://a.com/\n',
    'a URL without a scheme': b'get a\n',
    'a URL without a scheme to set': b'set a x=1\n',
    'a host without its closing bracket': b'get http://[\n',
    'a URL that a space cuts': b'get http://a b/\n',
    'now alone': b'now\n',
    'a word after the time': b'now 2026-01-01T00:00:00Z x\n',
    'a capital letter': b'Get http://a.com/\n',
    'a space after list': b'list \n',
    'a word after list': b'list a.com\n',
    'a word after clear': b'clear a.com\n',
    'remove alone': b'remove\n',
    'a domain alone': b'remove a.com\n',
    'a name too few': b'remove a.com /\n',
    'not UTF-8': b'\xff\n',
    'a value that is not UTF-8': b'set http://a.com/ a=\xff\n',
}

# A limit, and a script under it.
LIMITED = {
    'a cookie that replaces another has its creation-time': (2, '''\
now 2026-01-01T00:00:00Z
set http://a.com/ x=1
> inserted
set http://a.com/ y=1; Path=/p
> inserted
set http://b.com/ k=1
> inserted
set http://a.com/ x=2
> updated
set http://a.com/ z=1
> inserted
list
> a.com /p y
> a.com / z
> b.com / k
'''),
    'an expired one is evicted first': (2, '''\
now 2026-01-01T00:00:00Z
set http://a.com/ x=1
> inserted
set http://a.com/ y=1; Max-Age=60
> inserted
now 2026-01-01T00:01:00Z
set http://a.com/ z=1
> inserted
list
> a.com / x
> a.com / z
'''),
    'with the only one its domain goes last': (1, '''\
now 2026-01-01T00:00:00Z
set http://a.com/ x=1
> inserted
set http://b.com/ y=1
> inserted
set http://a.com/ z=1
> inserted
list
> b.com / y
> a.com / z
'''),
}

# Public suffix lists by the names of their files: one with each kind of rule, and malformed ones.
LIST_FILES = {
    'rules.dat': b'// a comment\ncom\n*.ck\n!www.ck\n\n*.www.ck\n',
    'negated.dat': b'com\n!com\n',
    'late.dat': b'com\n' * 16 + b'a..b\n',
    'not_utf8.dat': b'com\n\xff\n',
    'malformed_not_utf8.dat': b'a..b\n\xff\n',
}

UNDER_RULES = '''\
now 2026-01-01T00:00:00Z
set http://a.com/ x=1; Domain=com
> refused: domain-attribute value is a public suffix
set http://a.com./ x=1; Domain=com.
> refused: domain-attribute value is a public suffix
set http://com/ x=1; Domain=com
> inserted
get http://a.com/
> Cookie:
get http://com/
> Cookie: x=1
'''

BAD_LISTS = {
    'negated.dat': 'bad rule in line 2',
    'late.dat': 'bad rule in line 17',
    'not_utf8.dat': 'cannot read list',
    'malformed_not_utf8.dat': 'cannot read list',
}

ROWS = 1000  # of a list whose output is longer than what is buffered


def parted(transcript):
    """The script of a transcript, and its output."""
    lines = transcript.splitlines(keepends=True)
    script = ''.join(line for line in lines if not line.startswith('> '))
    return script.encode(), ''.join(line[2:] for line in lines if line.startswith('> ')).encode()


def long_list():
    """A script that lists many rows, and its output."""
    names = [f'{number:0>100}' for number in range(ROWS)]
    script = ''.join(f'set http://a.com/ {name}=1\n' for name in names) + 'list\n'
    return script.encode(), ('inserted\n' * ROWS + ''.join(f'a.com / {name}\n' for name in names)).encode()


def cases():
    for title, transcript in SCRIPTS.items():
        yield Case(title, [], *parted(transcript))
    for title, (script, output) in BYTES.items():
        yield Case(title, [], script, output)
    for title, line in BAD_LINES.items():
        yield Case(f'a bad line, {title}', [], line, b'bad line\n')
    for title, (limit, transcript) in LIMITED.items():
        yield Case(title, ['--limit', str(limit)], *parted(transcript))
    yield Case('a public suffix list', ['--suffixes', 'rules.dat'], *parted(UNDER_RULES))
    for name, message in BAD_LISTS.items():
        yield Case(name, ['--suffixes', name], b'list\n', status=2, message=message)
    yield Case('a long list', [], *long_list())
