"""Compares the cookies that the store, libcurl and Python read from random cookies.txt files.
Usage: tools/fuzz cookies_txt [--seconds N] [--seed N] [--archive FILE] [--program FILE]

A line has the fields of a cookie, few of them odd, or is a header, a comment or blank; some bytes are changed. For each file

- each line alone is read by the store, by libcurl and by Python's MozillaCookieJar, which must find the same cookie, or none; the
  store must find it also in what they then write. A line that the table in docs/USING.md says is read differently is not compared.
- The store must read of the file what it reads of its lines, and `cookies convert` must read and write the same.
- What the store writes of the file, the store must read and write again as it is, and libcurl and Python must read the same
  cookies from it.

Libcurl drops cookies that have expired; no expiry is near the present. A file that fails is printed as an entry of the corpus,
tools/fuzz_parts/corpus/cookies_txt.txt. The seed is printed: the same one makes the same files. The library is made from --archive,
which `rt ci` and `tools/install --archive-only` build. Without a C compiler the tool prints that it is skipped, and without the
header of libcurl that libcurl is. The last line is 'fuzz cookies_txt: N files, M comparisons of lines, passed'.

Exit status: 0; 1 after a failure; 2 for a wrong argument."""
import http.cookiejar
import re
import subprocess
import tempfile
import time
import warnings
from typing import Any, Callable, List, NamedTuple, Tuple

from common import COOKIES, ROOT, Parser, read, stop
from fuzz_parts import corpus_files
from fuzz_parts.cookie_lines import HTTP_ONLY, Line, random_file
from fuzz_parts.corpus_files import Failed, stop_unless_built
from fuzz_parts.library import add_archive, add_run, compile_part, generator, has_header, reason_to_skip, until

OK, NOT_UTF8 = 0, 22  # statuses of the C library
FORMATS = {'json': 0, 'ron': 1, 'txt': 3}  # its formats, of which the last one leaves out malformed lines
FIRST_LINE = b'# Netscape HTTP Cookie File\n'
LAST_EXPIRY = 253402300799  # 9999-12-31T23:59:59
CURL, PYTHON = 'libcurl', 'Python'
BOTH = (CURL, PYTHON)

# The rows of the table in docs/USING.md by which a program reads a line differently, and whether a line is concerned.
Row = Tuple[str, Tuple[str, ...], Callable[[Line], Any]]
FIELDS = 'a control character, `=` in a name, `;` in a value, a space around a name or before a value'
ROWS: List[Row] = [
    ('white space before a line', (CURL,), lambda line: line.before.strip(' \t')),
    ('white space before a line', (PYTHON,), lambda line: line.before),
    ('white space behind a line', (CURL,), lambda line: line.behind.strip('\r\t')),
    ('white space behind a line', (PYTHON,), lambda line: line.behind.rstrip('\r') not in ('', '\t' * (line.value == ''))),
    ('a line that begins with `$`', (CURL,), lambda line: re.match(r'(#HttpOnly_)?\$', line.content)),
    ('a line that begins with `Set-Cookie:`', (CURL,), lambda line: line.is_header and not is_plain(line.content)),
    ('an address as the Domain of a header', (CURL,), lambda line: line.is_header and re.search(r'domain *= *[0-9]', line.text, re.I)),
    ('a line that begins with `Set-Cookie:`', (PYTHON,), lambda line: line.is_header),
    ('white space before `Set-Cookie:`, a port in its Domain', (CURL,),
     lambda line: line.is_header and (line.before or re.search('=.*:[0-9]', line.text))),
    ('a path without `/` first', (CURL,), lambda line: line.is_header and re.search('path *=[^/]', line.text, re.I)),
    ('a path that is TRUE or FALSE', (CURL,), lambda line: line.flag and not line.flag.isupper()),
    ('a path that is TRUE or FALSE', (PYTHON,), lambda line: line.flag),
    ('an empty field', (CURL,), lambda line: re.search('^#HttpOnly_\t|\t\t', line.content) and not line.has_fields),
    ('a line of 5,000 bytes or more', (CURL,), lambda line: len(line.whole) > 4990),
    (FIELDS, BOTH, lambda line: re.search('[\x00-\x08\x0a-\x1f\x7f]', line.content)),
    ('bytes that are not UTF-8', BOTH, lambda line: not line.is_utf8),
]
# The same for lines that have the fields of a cookie.
FIELD_ROWS: List[Row] = [
    ('session cookie', (CURL,), lambda line: not line.expiry),
    ('domain cookie', (PYTHON,), lambda line: line.domain.startswith('.') != (line.subdomains == 'TRUE')),
    ('TRUE and FALSE', (CURL,), lambda line: not {line.subdomains.upper(), line.secure.upper()} <= {'TRUE', 'FALSE'}),
    ('TRUE and FALSE', (PYTHON,), lambda line: not {line.subdomains, line.secure} <= {'TRUE', 'FALSE'}),
    ('a path or an empty value that is missing', (PYTHON,), lambda line: line.text.count('\t') != 6),
    ('`localhost`', BOTH, lambda line: line.domain.lower() == 'localhost.local'),
    ('IPv6 address', BOTH, lambda line: '[' in line.domain),
    ('a port behind the domain, which wget writes', BOTH, lambda line: re.fullmatch('[^:]*:[0-9]+', line.domain)),
    ('a domain that is empty or a dot, or begins with two dots or a space', BOTH, lambda line: re.match(r'\.?($| )|\.\.', line.domain)),
    ('an empty path, quotation marks around a path', BOTH, lambda line: not line.path or '"' in (line.path[0], line.path[-1])),
    ('a path that ends in `/`', (CURL,), lambda line: line.path.endswith('/') and line.path != '/'),
    ('an expiry of -1', BOTH, lambda line: line.expiry == '-1'),
    ('an expiry after 9999', BOTH, lambda line: int(re.sub(r'\D.*', '', line.expiry) or 0) > LAST_EXPIRY),
    ('an expiry in another form, such as `+5`, `5e3` or `5x`', BOTH,
     lambda line: not re.fullmatch(r'(-1|[0-9]+(\.[0-9]*)?)?', line.expiry)),
    ('a name that begins with `__Host-` or `__Secure-`', (CURL,), lambda line: re.match('__(host|secure)-', line.name, re.I)),
    (FIELDS, BOTH, lambda line: '=' in (line.name or line.value) or re.search('(^|\t) | (\t|$)|;', f'{line.name}\t{line.value}')),
]


class Reading(NamedTuple):
    """What the store and libcurl make of a file: the status, how many lines are malformed, the cookies as the store writes them,
    and as libcurl lists them."""
    status: int
    malformed: int
    saved: bytes
    listed: bytes


class Cookie(NamedTuple):
    """The fields of a line, and whether it begins with HTTP_ONLY."""
    is_http_only: bool
    domain: str
    subdomains: str
    path: str
    secure: str
    expiry: str
    name: str
    value: str

    def key(self):
        return re.sub(r'^\.', '', self.domain), self.path, self.name


def is_plain(header):
    """Whether a header has a name, Domain and no Max-Age."""
    return re.match(r'set-cookie:\s*[^\s=;].*;\s*domain\s*=\s*[^\s;]', header, re.I) and not re.search('max-age', header, re.I)


def cookie_of(line):
    """The cookie of a line that a program wrote; Python writes no expiry for a session cookie, and no name if there was no `=`."""
    is_http_only = line.startswith(HTTP_ONLY)
    domain, subdomains, path, secure, expiry, name, value = line[len(HTTP_ONLY) * is_http_only:].split('\t', 6)
    return Cookie(is_http_only, domain.lower(), subdomains, path, secure, expiry or '0', name or value, value if name else '')


def cookies_of(text):
    """The cookies of a file that a program wrote."""
    lines = text.decode(errors='surrogateescape').split('\n')
    return {cookie_of(line) for line in lines if line.count('\t') >= 6}


def unexpired(cookies):
    return {cookie for cookie in cookies if cookie.expiry == '0' or int(cookie.expiry) > time.time()}


class Readers:
    """The programs that read files of cookies."""

    def __init__(self, folder, archive, program):
        self.folder, self.program, self.compared = folder, program, 0
        has_curl = has_header('curl/curl.h')
        self.names = BOTH if has_curl else (PYTHON,)
        command = compile_part('cookies_txt', folder, archive, *(['-lcurl'] if has_curl else []))
        process = subprocess.Popen([command], cwd=folder, stdin=subprocess.PIPE, stdout=subprocess.PIPE)
        assert process.stdin and process.stdout
        self.given, self.made = process.stdin, process.stdout

    def read(self, file, form='txt'):
        """What the store and libcurl make of a file."""
        self.given.write(b'%d %d\n%b' % (FORMATS[form], len(file), file))
        self.given.flush()
        answer = self.made.readline().split()
        if not answer:
            raise Failed('the C library ended')
        status, malformed = answer
        return Reading(int(status), int(malformed), *(self.made.read(int(self.made.readline())) for _ in range(2)))

    def written_by_python(self, file):
        """What Python writes of the cookies that it reads from a file; nothing if it cannot read it."""
        with tempfile.TemporaryDirectory(dir=self.folder) as folder:
            with open(f'{folder}/given', 'wb') as out:
                out.write(FIRST_LINE + file)
            jar = http.cookiejar.MozillaCookieJar()
            try:
                jar.load(f'{folder}/given', ignore_discard=True, ignore_expires=True)
            except (http.cookiejar.LoadError, UnicodeDecodeError):
                return b''
            jar.save(f'{folder}/written', ignore_discard=True, ignore_expires=True)
            with open(f'{folder}/written', 'rb') as made:
                return made.read()

    def convert(self, file, form='txt'):
        """The result of `cookies convert` on a file."""
        words = ['convert', '--skip-malformed', '--from', form, '--to', form, '-', '-']
        try:
            return subprocess.run([self.program, *words], input=file, capture_output=True, timeout=20)
        except subprocess.TimeoutExpired as late:
            raise Failed('cookies convert does not end') from late


def is_excepted(name, line):
    """Whether a program reads a line differently by the table in docs/USING.md."""
    rows = ROWS + FIELD_ROWS if line.has_fields else ROWS
    return any(name in names and concerns(line) for _, names, concerns in rows)


def compare(readers, lines):
    """Each program reads the same cookies of the lines that are not excepted for it, and the store reads what it writes of them."""
    for name in readers.names:
        compared = [line.whole for line in lines if not is_excepted(name, line)]
        if not compared:
            continue
        readers.compared += len(compared)
        file = b'\n'.join(compared)
        reading = readers.read(file)
        written = reading.listed if name == CURL else readers.written_by_python(file)
        ours, theirs = cookies_of(reading.saved), cookies_of(written)
        ours = unexpired(ours) if name == CURL else ours
        if theirs != ours:
            raise Failed(f'of {file!r} {name} reads {sorted(theirs - ours)}, and the store {sorted(ours - theirs)}')
        again = cookies_of(readers.read(written).saved)
        if again != theirs:
            raise Failed(f'{name} writes {written!r}, and the store reads {sorted(again)}')


def compare_lines(readers, lines, whole):
    """The cookies of the file are the last ones of its lines."""
    readings = [readers.read(line.whole) for line in lines]
    cookies = {cookie.key(): cookie for reading in readings for cookie in cookies_of(reading.saved)}
    if set(cookies.values()) != cookies_of(whole.saved) or whole.malformed != sum(reading.malformed for reading in readings):
        raise Failed('the store reads other cookies of the file than of its lines')


def check_list(readers, content, form):
    """The C library and `cookies convert` read and write the same of a file, and the C library that as it is. Returns the reading."""
    reading, converted = readers.read(content, form), readers.convert(content, form)
    if (converted.returncode == 0) != (reading.status == OK) or converted.stdout != reading.saved:
        raise Failed(f'cookies convert writes {converted.stdout!r} and {converted.stderr!r}, and the C library {reading.saved!r}')
    if reading.status == OK:
        again = readers.read(reading.saved, form)
        if (again.status, again.malformed, again.saved) != (OK, 0, reading.saved):
            raise Failed(f'the store writes {reading.saved!r}, and reads it as {again.saved!r}')
    return reading


def check(readers, file):
    """Reads a cookies.txt file by all programs."""
    lines, whole = [Line(line) for line in file.split(b'\n')], check_list(readers, file, 'txt')
    is_utf8 = all(line.is_utf8 for line in lines)
    if whole.status != (OK if is_utf8 else NOT_UTF8):
        raise Failed(f'the status of cookie_store_load is {whole.status}')
    for line in lines:
        compare(readers, [line])
    if is_utf8:
        compare_lines(readers, lines, whole)
        compare(readers, [Line(line) for line in whole.saved.split(b'\n')])


def check_names():
    """The table in docs/USING.md has the rows that are named here."""
    names = re.findall(r'^\| ([^|]+) \|', read(f'{ROOT}/docs/USING.md'), re.M)
    missing = {name for name, *_ in ROWS + FIELD_ROWS} - set(names)
    if missing:
        stop(f'docs/USING.md has no row {sorted(missing)[0]}')


def open_readers(folder, archive, program):
    """The programs, or None if this machine lacks what they need, which is printed."""
    stop_unless_built(archive)
    stop_unless_built(program)
    check_names()
    warnings.simplefilter('ignore')  # http.cookiejar warns of each malformed line
    reason = reason_to_skip()
    if reason:
        print(f'fuzz cookies_txt: skipped: {reason}')
        return None
    if not has_header('curl/curl.h'):
        print('fuzz cookies_txt: libcurl: skipped: there is no header curl/curl.h')
    return Readers(folder, archive, program)


def run(words):
    parser = Parser(__doc__, 'tools/fuzz cookies_txt')
    add_run(parser)
    parser.add_argument('--program', metavar='FILE', default=COOKIES, help='another build of cookies (COOKIES)')
    add_archive(parser)
    options = parser.parse_args(words)
    print(f'seed {options.seed}', flush=True)
    files = 0
    with tempfile.TemporaryDirectory() as folder:
        readers = open_readers(folder, options.archive, options.program)
        for number in until(options.seconds) if readers else ():
            file = random_file(generator(options.seed, number))
            try:
                check(readers, file)
            except Failed as fault:
                corpus_files.stop_with(f'file {number} of seed {options.seed}: {fault}', 'cookies_txt', file)
            files = number + 1
    if readers:
        print(f'fuzz cookies_txt: {files} files, {readers.compared} comparisons of lines, passed')
