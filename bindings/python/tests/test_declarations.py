"""Compares numbers, structs and signatures with cookie_store.h and with the proved functions."""
import ctypes
import pathlib
import re
import unittest

from cookie_store import Format, Status, Which
from cookie_store._formats import NETSCAPE_LENIENT
from cookie_store._library import NONE_BY_DEFAULT, ROW, SAME_SITES, SIGNATURES, TOP_LEVEL, Row, Store
from cookie_store._status import TEXTS

REPOSITORY = pathlib.Path(__file__).resolve().parents[3]
HEADER = REPOSITORY / 'bindings' / 'c' / 'cookie_store.h'
PROVED = REPOSITORY / 'crates' / 'cookie_store_c' / 'src'


class DeclarationTests(unittest.TestCase):
    """cookie_store.h agrees with the module, and with the proved functions."""

    TYPES = {'cookie_store *': ctypes.POINTER(Store), 'cookie_store_row *': ctypes.POINTER(Row),
             'const cookie_store_row *': ctypes.POINTER(Row), 'const char *': ctypes.c_char_p,
             'char *': ctypes.POINTER(ctypes.c_char), 'size_t': ctypes.c_size_t, 'size_t *': ctypes.POINTER(ctypes.c_size_t),
             'const size_t *': ctypes.POINTER(ctypes.c_size_t), 'int64_t': ctypes.c_int64, 'bool': ctypes.c_bool,
             'void *': ctypes.c_void_p, 'void': None, 'uint32_t': ctypes.c_uint32, 'uint32_t *': ctypes.POINTER(ctypes.c_uint32),
             'enum cookie_store_status *': ctypes.POINTER(ctypes.c_uint32),
             **{f'enum cookie_store_{name}': ctypes.c_uint32 for name in ('status', 'same_site', 'format', 'which')}}

    def setUp(self):
        self.text = re.sub(r'/\*.*?\*/', '', HEADER.read_text(), flags=re.S)

    def declaration(self, text):
        """Return name and type of a declaration."""
        kind, star, name = re.fullmatch(r'\s*([\w ]+?)\s*(\*?)(\w+)\s*', text).groups()
        return name, self.TYPES[f'{kind} {star}'.strip()]

    def enum(self, name):
        """Return the numbers of an enum by their names."""
        body = re.search(r'enum %s \{(.*?)\};' % name, self.text, re.S).group(1)
        return {constant: int(number) for constant, number in re.findall(r'COOKIE_STORE_(\w+) = (\d+)', body)}

    def test_statuses(self):
        self.assertEqual(self.enum('cookie_store_status'), {status.name: status.value for status in Status})

    def test_same_sites(self):
        names = {f'SAME_SITE_{name or "absent"}'.upper(): number for number, name in enumerate(SAME_SITES)}
        self.assertEqual(self.enum('cookie_store_same_site'), names)

    def test_options(self):
        self.assertEqual(self.enum('cookie_store_format'), {**Format.__members__, 'NETSCAPE_LENIENT': NETSCAPE_LENIENT})
        self.assertEqual(self.enum('cookie_store_which'), {**Which.__members__})
        flags = {'CROSS_SITE': 0, 'TOP_LEVEL': TOP_LEVEL, 'NONE_BY_DEFAULT': NONE_BY_DEFAULT}
        self.assertEqual(self.enum('cookie_store_cross_site'), flags)

    def test_texts(self):
        texts = dict(re.findall(r'case COOKIE_STORE_(\w+): return "(.*)";', self.text))
        self.assertEqual(texts, {status.name: text for status, text in TEXTS.items()})

    def test_ranges(self):
        for number, is_rejection in [(9, False), (10, True), (19, True), (20, False), (39, False), (40, True), (99, True), (100, False)]:
            self.assertIs(Status(number).is_rejection, is_rejection, number)

    def test_structs(self):
        for name, own in [('cookie_store', Store), ('cookie_store_row', Row)]:
            body = re.search(r'typedef struct %s \{(.*?)\}' % name, self.text, re.S).group(1)
            self.assertEqual([self.declaration(line) for line in body.split(';')[:-1]], own._fields_, name)
        self.assertEqual((ctypes.sizeof(Store), ctypes.sizeof(Row)), (16, 56))

    def test_layout(self):
        """ROW reads the fields of Row."""
        for flag in range(5):
            fields = (1, 2**32, 3, 2**63, -5, *(at == flag for at in range(5)), flag)
            self.assertEqual(list(ROW.iter_unpack(bytes(Row(*fields)))), [fields])

    def test_signatures(self):
        calls = re.findall(r'^(enum cookie_store_status|void|size_t|bool) (cookie_store_\w+)\((.*?)\);', self.text, re.M | re.S)
        declared = {name: (self.TYPES[result], [self.declaration(word)[1] for word in arguments.split(',')])
                    for result, name, arguments in calls}
        self.assertEqual({name: declared[name] for name in SIGNATURES}, SIGNATURES)

    # The C types of each Rattle type. C functions have no parameter for the allocator.
    IN_C = {'Global': [], '&mut StoreHandle': ['cookie_store *'], '&[u8]': ['const char *', 'size_t'],
            '&mut [u8]': ['char *', 'size_t'], '&mut [CookieRow]': ['cookie_store_row *', 'size_t'],
            '&mut [usize]': ['size_t *', 'size_t'], '&[usize]': ['const size_t *', 'size_t'],
            '&mut [u32]': ['enum cookie_store_status *', 'size_t'], '&CookieRow': ['const cookie_store_row *'],
            '&mut usize': ['size_t *'], '&mut u32': ['uint32_t *'], 'usize': ['size_t'], 'i64': ['int64_t'],
            'bool': ['bool'], 'u8': ['bool'], 'u32': ['uint32_t'], '': ['void']}

    def in_c(self, words):
        return [self.TYPES[kind] for word in words for kind in self.IN_C[word.strip()]]

    def test_proved_signatures(self):
        text = ''.join(path.read_text() for path in PROVED.glob('*.rt'))
        exports = re.findall(r'#\[unsafe\(no_mangle\)\]\npub extern "C" fn (\w+)\((.*?)\)(?: -> (\w+))?\n', text, re.S)
        proved = {name: (self.in_c([result])[0], self.in_c(re.findall(r'\w+: ([^,]+)', arguments)))
                  for name, arguments, result in exports}
        self.assertEqual({name: proved[name] for name in SIGNATURES}, SIGNATURES)

    def test_proved_statuses(self):
        declared = re.findall(r'Status::(\w+) => (\d+),', (PROVED / 'status.rt').read_text())
        numbers = {re.sub(r'(?<=[a-z])(?=[A-Z])', '_', name).upper(): int(number) for name, number in declared}
        numbers['OK'] = numbers.pop('DONE')
        self.assertEqual(numbers, {status.name: status.value for status in Status})

    def test_proved_same_sites(self):
        declared = re.findall(r'Some\(SameSite::(\w+)\) => (\d+),', (PROVED / 'cookie_row.rt').read_text())
        self.assertEqual([(name, int(number)) for name, number in declared],
                         [(name, number) for number, name in enumerate(SAME_SITES) if name])

    def test_proved_structs(self):
        body = re.search(r'pub struct CookieRow \{(.*?)\}', (PROVED / 'cookie_row.rt').read_text(), re.S).group(1)
        fields = [(name, self.in_c([kind])[0]) for name, kind in re.findall(r'pub (\w+): (\w+),', body)]
        self.assertEqual(fields, Row._fields_)
        self.assertRegex((PROVED / 'handle.rt').read_text(),
                         r'#\[repr\(C\)\]\npub struct StoreHandle \{\n    live: bool,\n(?: *///.*\n)*    pub is_strict: bool,\n'
                         r'    pub store_ptr: StorePtr,')
        self.assertRegex((PROVED / 'store_ptr.rt').read_text(), r'#\[repr\(C\)\]\npub struct StorePtr \{\n    at: \*mut u8,')


if __name__ == '__main__':
    unittest.main()
