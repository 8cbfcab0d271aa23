"""Compares the hosts that the store and libcurl's URL parser find in random URLs.
Usage: tools/fuzz urls [--count N] [--seconds N] [--seed N] [--archive FILE]

A client must not find another host in a URL than the store, or it sends a host the cookies of another one. The URLs are built
to provoke that: backslashes, `@`, `%`, dots, numbers, ports, brackets, control bytes, characters beyond ASCII, missing slashes,
odd schemes. Libcurl's host is CURLUPART_HOST, with all that CURLOPT_URL and a redirect let pass. The store's host is the domain
of a host-only cookie that the URL sets. A URL in which they differ, though both accept it, is printed with the two hosts, and as an
entry of the corpus, tools/fuzz_parts/corpus/urls.txt. Each URL that libcurl accepts is also compared as libcurl writes it, without
user and password.

Hosts are compared ignoring case, and addresses as inet_aton and inet_pton read them: 127.1 and 127.0.0.1 are the same. Both
convert hosts to ASCII; libcurl does since 7.88, and before that each host beyond ASCII counts as different. URLs with other
schemes than http, https, ws, wss and ftp are only counted: the store takes their hosts as they are, and libcurl converts them.

The library is made from --archive, which `rt ci` and `tools/install --archive-only` build. Without a C compiler or the header
of libcurl the tool prints that it is skipped. The same seed makes the same URLs, and without one they are always the same. The
last line is 'fuzz urls: N URLs, passed'.

Exit status: 0; 1 if a host differs; 2 for a wrong argument."""
import random
import tempfile

from common import Parser, stop
from fuzz_parts import corpus_files
from fuzz_parts.corpus_files import stop_unless_built
from fuzz_parts.library import add_archive, compile_part, feed, reason_to_skip, until

SCHEMES = ['http', 'https', 'ws', 'wss', 'ftp', 'HTTP', 'hTTpS', 'ftps', 'foo', 'file', 'mailto', 'a+b', 'http\u017f', 'h ttp', '']
COMPARED = 5  # the first ones, which half the URLs have
SLASHES = [':', ':/', ':///', ':////', ':\\\\', ':/\\', ':\\/', ':\\', '//', '', '::', '://\\', '://@', ':// ', ':\t//', '/:/']
HOSTS = [
    'a', 'b', 'a.example', 'B.A.example', 'localhost', 'a.example.', 'a..b', '.a', 'a_b', '-a', '',
    'xn--bcher-kva.example', 'xn--a', 'b\u00fccher.example', 'fa\u00df.example', 'x_.fa\u00df.example', '\U0001f36a.fa\u00df.example',
    'a\u3002example', 'a\uff0eb', 'a\u00adb', 'a\u200db', 'a\u200cb.example', '\u212a.example', '\u03c2.gr', '\u2460.a',
    '127.0.0.1', '127.0.0.1.', '127.1', '127.1.', '0x7f.1', '0x7F000001', '017700000001', '2130706433', '4294967296', '1.2.3.256',
    '1.2.3.4.5', '09.1', '0x', '0', '1', 'a.1', 'a.1.', 'a.0x1', 'a.0xg', '1.a', '\uff11\uff12\uff17.0.0.1',
    '[::1]', '[::1', '::1', '[::ffff:1.2.3.4]', '[0:0:0:0:0:0:0:1]', '[::1%25eth0]', '[::1%eth0]', '[v1.a]', '[1::2::3]',
]
PORTS = ['', '', '', ':80', ':443', ':8080', ':', ':0', ':65536', ':a', ':080', ':+80', ': 80', ':80:90', ':\u0661']
USERS = [
    '', '', '', 'u@', 'u:p@', '@', ':@', 'u@v@', 'a.example@', 'a.example:80@', '%40@', 'u\\@', 'u#@', 'u?@', 'u/@', 'u;@', '[@',
    ':p@', 'u::@',
]
TAILS = [
    '', '/', '/p', '?q', '#f', '/@b', '\\@b/', '?@b', '#@b', '/..//b', '\\b', ';@b', '\\', '/\\b', '//b', '#\\@b', '?/@b/',
]
PIECES = [
    *'\\@.01:[]/?# aB-_!"$&\'()*+,;<=>^`{|}~\t\n\r\v\x01\x1f\x7f\x80',
    '%', '%2e', '%2E', '%41', '%00', '%40', '%2f', '%5c', '%25', '%3a', '%c3%bc', '%ff', '..', '0x', ':80', '//', 'xn--',
    *'\u00a0\u00df\u00fc\u200b\u2100\u2488\u3002\ufeff\uff0e\uff0f\uff1a\uff20\U0001f36a',
]
FAILED = 3  # the status if a URL makes the program fail, which urls.c prints
LEADING = [' ', '\t', '\n', '\x01', '\x1f', '/', '\\', '\u00a0', '\ufeff']


def url(rng):
    """A URL, mostly a valid one with a few pieces inserted or replaced."""
    scheme = rng.choice(SCHEMES[:COMPARED] if rng.random() < 0.5 else SCHEMES)
    slashes = '://' if rng.random() < 0.8 else rng.choice(SLASHES)
    host = rng.choice(HOSTS)
    if rng.random() < 0.2:
        host += rng.choice(['.', '\\', '@', '']) + rng.choice(HOSTS)
    made = scheme + slashes + rng.choice(USERS) + host + rng.choice(PORTS) + rng.choice(TAILS)
    for _ in range(rng.choice([0, 0, 1, 1, 2, 3])):
        at = rng.randrange(len(made) + 1)
        made = made[:at] + rng.choice(PIECES) + made[at + rng.choice([0, 0, 1]):]
    if rng.random() < 0.03:
        made = rng.choice(LEADING) + made
    encoded = made.encode()
    if rng.random() < 0.03:
        at = rng.randrange(len(encoded) + 1)
        encoded = encoded[:at] + bytes([rng.randrange(1, 256)]) + encoded[at:]
    return encoded


def compare(given, folder, archive):
    """Prints how many hosts the store and libcurl find in URLs. Returns the number of URLs, and a line for each one in which they
    differ, with the hosts."""
    program = compile_part('urls', folder, archive, '-lcurl')
    status, printed, errors = feed([program], (each + b'\0' for each in given), folder)
    if status == FAILED:
        failing, _, why = errors.partition(b'\0')
        corpus_files.stop_with(why.decode(), 'urls', failing)
    if status not in (0, 1) or errors:
        stop(f'urls: status {status}: {errors.decode()}')
    *lines, as_given, as_written = printed.decode('ascii').splitlines()
    print(as_given, as_written, sep='\n', flush=True)
    return int(as_given.split(' ')[2]), lines


def url_of(line):
    """The URL of a line that `compare` returns."""
    return line.split(' ')[0].encode().decode('unicode_escape').encode('latin-1')


def run(words):
    parser = Parser(__doc__, 'tools/fuzz urls')
    parser.add_argument('--count', type=int, default=500_000, help='how many URLs, by default 500000')
    parser.add_argument('--seconds', type=float, help='how long it runs, instead of --count')
    parser.add_argument('--seed', type=int, default=1, help='by default 1')
    add_archive(parser)
    options = parser.parse_args(words)
    stop_unless_built(options.archive)
    reason = reason_to_skip('curl/curl.h')
    if reason:
        print(f'fuzz urls: skipped: {reason}')
        return
    rng = random.Random(options.seed)
    steps = until(options.seconds) if options.seconds else range(options.count)
    with tempfile.TemporaryDirectory() as folder:
        tried, lines = compare((url(rng) for _ in steps), folder, options.archive)
    if lines:
        print(*lines, sep='\n')
        corpus_files.stop_with(f'the hosts differ in URLs of seed {options.seed}', 'urls', *map(url_of, lines))
    print(f'fuzz urls: {tried} URLs, passed')
