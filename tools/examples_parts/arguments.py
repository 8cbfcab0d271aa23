"""Arguments: the list, the limit and the conversion are the only options, and the name that the program is run by is none."""
from typing import NamedTuple, Optional

from examples_parts.program import Case

FILES = ('list.dat', 'a', '--suffixes', '--limit', '--convert')  # each a public suffix list
LIST = b'com\n'
MOST = 2**64 - 1
COOKIES = 60  # of one domain


class Options(NamedTuple):
    """What arguments ask for."""
    has_list: bool = False
    limit: Optional[int] = None
    converts: bool = False


# Arguments and their options, or None if they are bad.
ARGUMENTS: list = [
    ([], Options()),
    (['--suffixes', 'list.dat'], Options(has_list=True)),
    (['--suffixes', '--suffixes'], Options(has_list=True)),
    (['--suffixes'], None),
    (['--suffixes', 'a', 'b'], None),
    (['--suffixes=a'], None),
    (['--help'], None),
    (['--limit', '1'], Options(limit=1)),
    (['--limit', '050'], Options(limit=50)),
    (['--limit', '18446744073709551615'], Options(limit=MOST)),
    (['--limit', '7', '--suffixes', 'a'], Options(has_list=True, limit=7)),
    (['--suffixes', '--limit', '--limit', '7'], Options(has_list=True, limit=7)),
    (['--limit'], None),
    (['--limit', ''], None),
    (['--limit', '0'], None),
    (['--limit', '00'], None),
    (['--limit', '+1'], None),
    (['--limit', '-1'], None),
    (['--limit', ' 1'], None),
    (['--limit', '1 '], None),
    (['--limit', '0x1'], None),
    (['--limit', '\u0661'], None),
    (['--limit', '18446744073709551616'], None),
    (['--limit=1'], None),
    (['--Limit', '1'], None),
    (['--limit', '1', '--limit', '1'], None),
    (['--suffixes', 'a', '--suffixes', 'a'], None),
    (['--limit', '1', '--suffixes'], None),
    (['--limit', '1', '--suffixes', 'a', 'b'], None),
    (['--convert'], Options(converts=True)),
    (['--suffixes', '--convert'], Options(has_list=True)),
    (['--Convert'], None),
    (['--convert='], None),
    (['--convert', 'a'], None),
    (['--convert', '--convert'], None),
    (['--convert', '--limit', '1'], None),
    (['--limit', '1', '--convert'], None),
    (['--suffixes', 'a', '--convert', '--convert'], None),
]

# The name that the program is run by, the words after it, and their options.
NAMES: list = [
    ('cookie_jar', ['--suffixes', 'a'], Options(has_list=True)),
    ('--suffixes', ['a'], None),
    ('x', [], Options()),
    ('', [], Options()),
]

# A script whose output shows the list and the limit; its first line is not a saved cookie.
SCRIPT = 'now 2026-01-01T00:00:00Z\n' + ''.join(f'set http://a.com/ {number}=1\n' for number in range(COOKIES)) + \
    'set http://www.b.com/ x=1; Domain=com\nlist\n'


def output(options):
    """What the script prints under these options."""
    stored = range(COOKIES)[-options.limit:] if options.limit else range(COOKIES)
    lines = ['inserted'] * COOKIES
    lines += ['refused: domain-attribute value is a public suffix' if options.has_list else 'inserted']
    lines += [f'a.com / {number}' for number in stored] + ([] if options.has_list else ['com / x'])
    return ''.join(f'{line}\n' for line in lines).encode()


def case(name, words, options):
    title = f'{[name, *words]}'
    if options is None:
        return Case(title, words, SCRIPT.encode(), status=2, message='bad arguments', name=name)
    if options.converts:
        return Case(title, words, SCRIPT.encode(), status=2, message='bad line 1', name=name)
    return Case(title, words, SCRIPT.encode(), output(options), name=name)


def cases():
    for words, options in ARGUMENTS:
        yield case('cookie_jar', words, options)
    for row in NAMES:
        yield case(*row)
