"""Runs the program on random scripts.
Usage: tools/fuzz scripts [--seconds N] [--seed N] [--program FILE]

Lines come from the grammar of scripts, their parts from those of Set-Cookie header values and of public suffix lists, and
some bytes are changed, left out or inserted twice. It stops at the first failure: an exit status that the program may not
have, output that is not that of the line, a run of more than 20 seconds, or twice the input that takes more than three times
as long. The script that failed is printed as an entry of the corpus, tools/fuzz_parts/corpus/scripts.txt. The seed is printed:
the same one makes the same scripts. The last line is 'fuzz: N scripts, M bytes, passed'.

Exit status: 0; 1 after a failure; 2 for a wrong argument."""
import collections
import random
import re
import subprocess
import tempfile
from typing import NamedTuple, Optional

from common import PROGRAM, Parser, stop, timed
from fuzz_parts import corpus_files
from fuzz_parts.corpus_files import Failed, stop_unless_built
from fuzz_parts.library import add_run, generator, until

HOSTS = ['a.com', 'b.a.com', 'c.b.a.com', 'example.com', 'EXAMPLE.com', 'localhost', '127.0.0.1', '[::1]', '[::ffff:1.2.3.4]',
         'b\u00fccher.example', 'xn--bcher-kva.example', 'a.com.', 'co.uk', 'x.co.uk', 'a..b', '0x7f.1', '']
SCHEMES = ['http', 'https', 'ftp', 'foo', 'ws', 'data', 'HTTP']
PATHS = ['', '/', '/a', '/a/', '/a/b', '/a/b/', '//', '/a//b', '/%2e/x', '/\u00e9', '/a?q', '/a#f', 'a']
NAMES = ['a', 'b', 'c', ' a ', '', 'a b', '"q"', '\u00a0a', '\ta', 'n\u00e9', '\U0001f36a', '=']
ATTRIBUTES = ['Domain', 'Path', 'Max-Age', 'Expires', 'Secure', 'HttpOnly', 'SameSite', 'domain', 'PATH', 'max-age', 'expires', 'x', '']
AGES = ['0', '-1', '60', '+5', '1x', '', '9223372036854775807', '9223372036854775808', '0' * 200 + '5', '9' * 400]
DATES = ['Tue, 03 Aug 2100 00:38:37 GMT', 'Sunday, 06-Nov-94 08:49:37 GMT', 'Sun Nov  6 08:49:37 1994', '01 Jan 1601 00:00:00',
         '29 Feb 2100 00:00:00', '1:2:3 1 jan 70', '12 11 10:00:00 Feb', '24:00:00 1 Jan 2020', '0', '']
TIMES = ['2026-01-01T00:00:00Z', '1969-12-31T23:59:59Z', '0000-01-01T00:00:00Z', '9999-12-31T23:59:59Z', '2026-01-01T00:00:00.5Z',
         '2026-13-01T00:00:00Z', '2026-01-01', '']
RULES = ['com', '*.ck', '!www.ck', 'co.uk', 'uk', '// a comment', '', ' net', 'b\u00fccher.example', 'a..b', '!com', '.', 'com.', '*',
         '*.*.x', 'COM']
MARK = 'remove mark.invalid / mark'  # prints 'none', which no other line but another `remove` does
SET = re.compile(rb'inserted|updated|expired existing|refused: [ -~]+')
OUTPUTS = {'set': SET, 'get': re.compile(rb'Cookie:( .*)?', re.S), 'remove': re.compile(rb'removed|none'), 'clear': re.compile(rb'cleared')}
BAD = b'bad line'


def url(rng):
    host = rng.choice(HOSTS)
    user, port = rng.choice(['', '', '', 'u@', 'u:p@']), rng.choice(['', '', '', ':80', ':8080', ':99999'])
    if rng.random() < 0.05:
        return rng.choice(['data:x', 'about:blank', 'http:', '//', 'no url', 'foo:bar/baz'])
    return f'{rng.choice(SCHEMES)}://{user}{host}{port}{rng.choice(PATHS)}'.replace(' ', '')


def attribute(rng):
    name = rng.choice(ATTRIBUTES)
    values = {'domain': HOSTS + ['.a.com', '..', '.'], 'path': PATHS, 'max-age': AGES, 'expires': DATES,
              'samesite': ['Lax', 'strict', 'None', 'x']}
    value = rng.choice(values.get(name.lower(), ['', 'x']))
    return rng.choice([f'; {name}={value}', f';{name} = {value} ', f'; {name}'])


def header_value(rng):
    value = rng.choice(['1', '', 'v;', 'x' * rng.randrange(50), '"two words"', 'a=b', '\u00e9'])
    return rng.choice(NAMES) + rng.choice(['=', '=', '=', '']) + value + ''.join(attribute(rng) for _ in range(rng.randrange(5)))


def line(rng):
    kind = rng.choices(['now', 'set', 'get', 'list', 'remove', 'clear'], [2, 9, 6, 1, 2, 0.2])[0]
    words = {'now': lambda: [rng.choice(TIMES)], 'set': lambda: [url(rng), header_value(rng)], 'get': lambda: [url(rng)],
             'list': list, 'clear': list, 'remove': lambda: [rng.choice(HOSTS), rng.choice(PATHS), rng.choice(NAMES)]}[kind]()
    return ' '.join([kind, *words])


def changed(rng, line):
    """The line with some of its bytes changed, left out or inserted twice, and no line feed added."""
    line = bytearray(line)
    for _ in range(rng.randrange(1, 5)):
        at = rng.randrange(len(line) + 1)
        twice = bytes(line[at:at + rng.randrange(20)]) * 2
        new = rng.choice([b'', bytes([rng.randrange(256)]), twice, b';' * 5, b' ', b'=', b'\0', b'\xff', b'.'])
        line[at:at + rng.randrange(3)] = new.replace(b'\n', b'')
    return bytes(line)


class Script(NamedTuple):
    """Lines with the kind of each, or None if the line may print anything; what ends the last one; and the text of a public
    suffix list and a limit, or None."""
    lines: list
    end: bytes
    rules: Optional[bytes]
    limit: Optional[int]

    def text(self):
        return b'\n'.join(whole for _, whole in self.lines) + self.end

    def entry(self):
        """The entry of the corpus for this script."""
        options = {'rules': self.rules, 'limit': self.limit}
        return {'script': self.text(), **{name: value for name, value in options.items() if value is not None}}


def marked(lines):
    """The lines, and the mark after each `list` and each line without a kind."""
    for kind, whole in lines:
        yield kind, whole
        if kind in (None, 'list'):
            yield 'mark', MARK.encode()


def random_line(rng):
    own = line(rng)
    if rng.random() < 0.15:
        return None, changed(rng, own.encode())
    return own.split(' ', 1)[0], own.encode()


def random_script(rng):
    lines = list(marked(random_line(rng) for _ in range(rng.randrange(1, 400))))
    end, rules = rng.choice([b'', b'\n']), None
    if rng.random() < 0.3:
        rules = '\n'.join(rng.choice(RULES) for _ in range(rng.randrange(20))).encode()
        rules = changed(rng, rules) if rng.random() < 0.2 else rules
    return Script(lines, end, rules, rng.randrange(1, 5) if rng.random() < 0.3 else None)


def kind_of(whole):
    """The kind of a line by its first word, or None."""
    word, space, _ = whole.partition(b' ')
    kinds = ('set', 'get', 'remove') if space else ('list', 'clear')
    return next((kind for kind in kinds if kind.encode() == word), None)


def script_of(entry):
    """The script of an entry of the corpus."""
    text = entry['script']
    lines = text.split(b'\n') if text else []
    end = b'\n' if lines and not lines[-1] else b''
    lines = marked((kind_of(whole), whole) for whole in (lines[:-1] if end else lines))
    return Script(list(lines), end, entry.get('rules'), entry.get('limit'))


def timed_run(program, given, words=()):
    """What it printed, the status, and the processor time."""
    try:
        return timed([program, *words], input=given, capture_output=True, timeout=20)
    except subprocess.TimeoutExpired:
        raise Failed('it was still running after 20 seconds') from None


def is_row(output):
    return output.count(b' ') >= 2


def is_any(output):
    return output == BAD or is_row(output) or any(form.fullmatch(output) for form in OUTPUTS.values())


def count(rows, limit):
    """No domain has more rows than the limit, if there is one."""
    domains = collections.Counter(row.split(b' ')[0] for row in rows)
    if limit and domains and max(domains.values()) > limit:
        raise Failed(f'more than {limit} cookies of a domain are stored')


def printed_before_mark(outputs, whole):
    """What a line printed before the `none` of the mark; a line `remove` may print one of its own."""
    printed: list = []
    for output in outputs:
        if output == b'none' and (printed or not whole.startswith(b'remove ')):
            return printed
        printed.append(output)
    raise Failed(f'{whole!r} prints too little')


def check_marked(outputs, kind, whole, limit):
    """A line before the mark prints rows, or anything."""
    printed = printed_before_mark(outputs, whole)
    wrong = next((output for output in printed if not (is_row if kind == 'list' else is_any)(output)), None)
    if wrong is not None:
        raise Failed(f'{whole!r} prints {wrong!r}')
    if kind == 'list':
        count(printed, limit)


def check_line(outputs, kind, whole):
    """A line of a kind prints what this kind may print."""
    output = next(outputs, None)
    if output is None or not (output == BAD or OUTPUTS[kind].fullmatch(output)):
        raise Failed(f'{whole!r} prints {output!r}')


def check(lines, printed, limit):
    """Each line prints what it may print."""
    if printed and not printed.endswith(b'\n'):
        raise Failed('the output does not end with a line feed')
    outputs = iter(printed.split(b'\n')[:-1])
    behind = [kind for kind, _ in lines[1:]] + ['']
    for (kind, whole), next_kind in zip(lines, behind):
        if next_kind == 'mark':
            check_marked(outputs, kind, whole, limit)
        elif kind == 'now':
            check_now(outputs, whole)
        elif kind != 'mark':
            check_line(outputs, kind, whole)
    if next(outputs, None) is not None:
        raise Failed('it prints more than its lines may')


def is_time(word):
    return re.fullmatch(rb'\d{4}-(0[1-9]|1[0-2])-\d\dT\d\d:\d\d:\d\d(\.\d{1,9})?Z', word) is not None


def check_now(outputs, whole):
    """A line `now` prints nothing, or that it is a bad line if its time is malformed."""
    if not is_time(whole[4:]) and next(outputs, None) != BAD:
        raise Failed(f'{whole!r} is not reported as a bad line')


def play(program, folder, script):
    """Runs the program on a script, and checks what it prints."""
    words = [] if script.limit is None else ['--limit', str(script.limit)]
    if script.rules is not None:
        words += ['--suffixes', f'{folder}/rules']
        with open(f'{folder}/rules', 'wb') as out:
            out.write(script.rules)
    ended, _ = timed_run(program, script.text(), words)
    if script.rules is not None and ended.returncode == 2:
        if not re.fullmatch(rb'cookie_jar: (bad rule in line \d+|cannot read list)\n', ended.stderr) or ended.stdout:
            raise Failed(f'a malformed list is reported as {ended.stderr!r}')
    elif ended.returncode or ended.stderr:
        raise Failed(f'status {ended.returncode}, {ended.stderr!r}')
    else:
        check(script.lines, ended.stdout, script.limit)


def long_inputs(rng, size):
    """Inputs of about `size` bytes, or a tenth, each with how many times as long one of twice the size may take."""
    many = (f'set http://h{n // 10}.com/ c{n % 10}={n}; Max-Age=60\nget http://h{n // 10}.com/a' for n in range(size // 70))
    attributes = ''.join(attribute(rng) for _ in range(size // 15)).encode().replace(b'\n', b'')
    return [
        ('many lines', 3, '\n'.join(many).encode()),
        ('a long text', 3, b'set http://a.com/ a=1' + attributes[:size]),
        ('a long name', 3, b'set http://a.com/ ' + b'a' * size + b'=1\nget http://a.com/'),
        ('random bytes', 3, bytes(rng.randrange(256) for _ in range(size))),
        ('many labels', 3, b'set http://a.com/ a=1\nget http://' + b'a.' * (size // 20) + b'com/'),
        ('many slashes', 3, b'set http://a.com/ a=1\nget http://a.com' + b'/a' * (size // 20)),
    ]


def try_lengths(seed, program):
    """Stops if twice the input takes more than the allowed times as long."""
    for once, twice in zip(long_inputs(random.Random(seed), 200_000), long_inputs(random.Random(seed), 400_000)):
        name, most, _ = once
        first, second = (min(timed_run(program, given)[1] for _ in range(3)) for _, _, given in (once, twice))
        print(f'  {name}: {first:.3f} s, and twice as many bytes {second:.3f} s')
        if second > most * first + 0.02:
            stop(f'{name}: more than {most} times as long')


def run(words):
    parser = Parser(__doc__, 'tools/fuzz scripts')
    add_run(parser)
    parser.add_argument('--program', metavar='FILE', default=PROGRAM, help='another build of cookie_jar (COOKIE_JAR)')
    options = parser.parse_args(words)
    stop_unless_built(options.program)
    print(f'seed {options.seed}', flush=True)
    try_lengths(options.seed, options.program)
    tried = size = 0
    with tempfile.TemporaryDirectory() as folder:
        for number in until(options.seconds):
            script = random_script(generator(options.seed, number))
            try:
                play(options.program, folder, script)
            except Failed as fault:
                corpus_files.stop_with(f'script {number} of seed {options.seed}: {fault}', 'scripts', script.entry())
            tried, size = number + 1, size + len(script.text())
    print(f'fuzz: {tried} scripts, {size} bytes, passed')
