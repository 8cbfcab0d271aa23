"""Lines of cookies.txt files: random ones, and those that programs read differently."""
import re

from fuzz_parts.scripts import changed

WHITE = ' \t\n\f\r'  # what is dropped around a line
HTTP_ONLY = '#HttpOnly_'

DOMAINS = ['', '.', '..a.example', '.A.Example', 'localhost', 'localhost.local', 'LOCALHOST.local', 'vm', 'vm.local', '127.0.0.1',
           '.127.0.0.1', '::1', '[::1]', '[::1].local', '::1.local', '0:0::1', 'a.example:8080', 'a.example:', '[::1]:80', '::1:80',
           ' a.example', 'a.example ', 'a example', 'b\u00fccher.example', 'B\u00dcCHER.example', '#a', '$a', '\ufeffa.example',
           'a.example.', 'a..b', 'a' * 63 + '.example', '.'.join(['abc'] * 63)]
FLAGS = ['TRUE', 'FALSE', 'true', 'False', 'yes', '0', '1', '', ' TRUE']
PATHS = ['/', '/a/b/', '', '"/q"', '"', '""', '"/q', 'a', '/\u00e9', '/a b', ' /', '/ ', '%22/q%22', 'TRUE', 'false', '/' + 'a' * 300]
EXPIRIES = ['0', '1', '4102444800', '', '-1', '-2', '00', '253402300799', '253402300800', '9223372036854775807', '9223372036854775808',
            '99999999999999999999999', '4102444800.5', '0.5', '.5', '5.', '4102444800x', '+4102444800', ' 4102444800', '4e9', '0x10', 'x',
            'nan', '4_102_444_800']
NAMES = ['', 'a b', ' a', 'a ', 'a=b', '=', 'a;b', '"q"', '\u00e9', '\u00a0a', '__Secure-a', '__Host-a', '__host-a', '12', 'n' * 300,
         '#a', '\U0001f36a']
VALUES = ['', 'x y', ' x', 'x ', 'x;y', 'x=y', '"v"', '"', '\u00e9', 'x\u00a0', '\u2028', 'TRUE', '0', 'v' * 300, 'v' * 5000]
HEADERS = ['a=1; Domain=a.example', 'a=1', 'a=1; Domain=.A.example; Path=/p; Secure; HttpOnly', 'a=1; Domain=a.example; Path=p',
           'a=1; Domain=a.example; Max-Age=60', ' a = 1 ; domain = a.example', 'a=1; Domain=127.0.0.1', 'a=1; Domain=a.example:80',
           'a; Domain=a.example', '=1; Domain=a.example', 'a="1"; Domain=a.example; Path="/q"', 'a=1; Domain=']
OTHERS = ['', ' ', '\t', '# Netscape HTTP Cookie File', '# a comment', ' # a comment', '#HttpOnly_', '$Version=1', ' $a', '\ufeff# first',
          'a cookie', '\u00a0', '#HttpOnly_# a comment', '\t\t\t\t\t\t']


def either(rng, usual, odd):
    """One of the usual ones, or sometimes an odd one."""
    return rng.choice(usual if rng.random() < 0.95 else odd)


def cookie_line(rng):
    """The fields of a cookie; few of them are odd."""
    names = rng.choice([['.a.example', '.b.example'], ['a.example', 'shop.a.example', 'localhost', '127.0.0.1', '::1']])
    domain = rng.choice(names)
    fields = [
        either(rng, [domain], DOMAINS), either(rng, ['TRUE' if domain[0] == '.' else 'FALSE'], FLAGS),
        either(rng, ['/', '/a', '/a/b'], PATHS), either(rng, ['TRUE', 'FALSE'], FLAGS), either(rng, ['0', '1', '4102444800'], EXPIRIES),
        either(rng, ['a', 'b', 'c', 'id'], NAMES), either(rng, ['1', 'x y', 'a=b', ''], VALUES),
    ]
    if rng.random() < 0.05:
        del fields[rng.randrange(len(fields))]
    if rng.random() < 0.02:
        fields.insert(rng.randrange(len(fields)), rng.choice(['', 'x']))
    return rng.choice(['', '', '', HTTP_ONLY]) + '\t'.join(fields)


def random_line(rng):
    made = rng.random()
    if made < 0.85:
        return cookie_line(rng)
    if made < 0.93:
        return rng.choice(['Set-Cookie:', 'set-cookie: ', ' Set-Cookie:', 'Set-Cookie :']) + rng.choice(HEADERS)
    return rng.choice(OTHERS)


def random_file(rng):
    lines = [random_line(rng).encode() for _ in range(rng.randrange(1, 12))]
    lines = [changed(rng, line) if rng.random() < 0.1 else line for line in lines]
    lines = [rng.choice([b' ', b'\t', b'\f', b'\r']) + line if rng.random() < 0.02 else line for line in lines]
    lines = [line + rng.choice([b' ', b'\t', b'\r']) if rng.random() < 0.03 else line for line in lines]
    line_end = rng.choice([b'\n', b'\n', b'\n', b'\r\n'])
    return line_end.join(lines) + rng.choice([line_end, b''])


class Line:
    """A line and its fields, which are empty if there are too few or too many. `flag` is TRUE or FALSE in place of the path."""

    def __init__(self, whole):
        self.whole = whole
        self.text = whole.decode(errors='surrogateescape')
        self.is_utf8 = self.text.encode(errors='replace') == whole
        self.content = self.text.strip(WHITE)
        self.before = self.text[:len(self.text) - len(self.text.lstrip(WHITE))]
        self.behind = self.text[len(self.text.rstrip(WHITE)):]
        self.is_header = re.match('set-cookie:', self.content, re.I) is not None
        fields = (self.content[len(HTTP_ONLY):] if self.content.startswith(HTTP_ONLY) else self.content).split('\t')
        self.flag = ''.join(re.findall('^(?:true|false)$', ''.join(fields[2:3]), re.I))
        fields[2:2] = ['/'] if self.flag else []
        fields += [''] if len(fields) == 6 else []
        self.has_fields = len(fields) == 7
        self.domain, self.subdomains, self.path, self.secure, self.expiry, self.name, self.value = fields if self.has_fields else [''] * 7
