"""Makes random calls of the C library, with allocations that fail at random.
Usage: tools/fuzz calls [--seconds N] [--seed N] [--archive FILE]

A case has up to 60 calls over three handles; each function that the header declares is called, with any strings, times, numbers of
formats and lengths of buffers. In half of the calls one allocation is to fail, or all from one on.

- A call returns a status that the comment of the function lists: NO_MEMORY only if an allocation failed, NO_STORE and HAS_STORE
  exactly if a handle is empty or is not, BAD_TIME only for a time out of range, which is an error.
- It writes to a buffer as much as it says, and nothing if it fails.
- If it fails, the cookies, the limit and whether the store is strict are as before, but for a merge that is out of memory. No call
  changes a store that it is not passed, and a copy is as its original.
- One call for all header values of a response does what a call for each does: the statuses and the cookies are the same.
- Once the stores are freed, the library holds no memory.

The calls run under valgrind, and without it plain. Without a C compiler the tool prints that it is skipped. A case that fails is
printed, up to the call that fails, as an entry of the corpus, tools/fuzz_parts/corpus/calls.txt. The seed is printed: the same one
makes the same calls. The library is made from --archive, which `rt ci` and `tools/install --archive-only` build. The last line is
'fuzz calls: N cases, passed'.

Exit status: 0; 1 after a failure; 2 for a wrong argument."""
import re
import shutil
import tempfile
from typing import Dict, List, Tuple

from common import ROOT, Parser, first_match, read, stop
from fuzz_parts import cookies_txt, corpus_files, scripts, urls
from fuzz_parts.cookie_lines import either, random_file
from fuzz_parts.corpus_files import stop_unless_built
from fuzz_parts.library import add_archive, add_run, compile_part, feed, generator, reason_to_skip, until

HANDLES, ROOM, ITEMS, STRINGS = 3, 1 << 14, 64, 4  # as in calls.c
NUMBERS = ('handle', 'other', 'now', 'room', 'items', 'option', 'which')  # of a call, in the order of calls.c
VALGRIND = ['valgrind', '-q', '--leak-check=full', '--error-exitcode=9', '--exit-on-first-error=yes']
NOW = 1767225600  # 2026-01-01T00:00:00
# Each call that the header declares: how often it is made, and its arguments.
CALLS: Dict[str, Tuple[float, List[str]]] = {
    'new': (2, ['key']),
    'clone': (2, []),
    'free': (1, []),
    'set_suffix_list': (1, ['flag', 'suffixes']),
    'set_domain_limit': (0.7, ['limit']),
    'domain_limit': (0.3, []),
    'set_strict': (1, ['flag']),
    'is_strict': (0.3, []),
    'set_hash_key': (0.5, ['key']),
    'parse': (16, ['now', 'url', 'value']),
    'parse_each': (6, ['now', 'lengths', 'url', 'value', 'value', 'value']),
    'parse_for': (4, ['now', 'request', 'url', 'page', 'value']),
    'insert': (6, ['now', 'expires', 'flags', 'same_site', 'domain', 'path', 'name', 'content']),
    'header': (3, ['now', 'room', 'url']),
    'header_cross_site': (2, ['now', 'room', 'request', 'url']),
    'header_for': (2, ['now', 'room', 'request', 'url', 'page']),
    'remove': (2, ['domain', 'path', 'name']),
    'remove_domain': (0.5, ['domain']),
    'clear': (0.2, []),
    'remove_expired': (0.5, ['now']),
    'count': (0.3, []),
    'rows': (1, ['room', 'items']),
    'cookies_for': (2, ['now', 'room', 'items', 'url']),
    'save': (3, ['now', 'room', 'format', 'which']),
    'load': (3, ['now', 'items', 'format', 'which', 'key', 'list']),
    'merge': (2, ['now']),
    'root': (1, ['room', 'url']),
    'root_of_domain': (1, ['room', 'domain']),
    'shard': (0.3, ['shards', 'domain']),
}
# The numbers of a call: usual ones, and odd ones.
NUMBERS_OF: Dict[str, Tuple[List[int], List[int]]] = {
    'now': ([NOW, NOW, NOW + 61], [0, -1, 4102444800, -377705116800, -377705116801, 253402300799, 253402300800, 2**63 - 1, -2**63]),
    'room': ([ROOM, ROOM, ROOM, 100], [0, 1, 20, 1000]),
    'items': ([ITEMS, ITEMS, ITEMS, 2], [0, 1, 10]),
    'flag': ([0, 1], [0, 1]),
    'limit': ([2, 3, 5, 1000], [0, 1, 2**64 - 1]),
    'shards': ([1, 2, 16], [0, 3, 2**32 - 1]),
    'lengths': ([0], [1, 2]),
    'request': ([0, 1, 2, 3], [4, 2**32 - 1]),
    'format': ([0, 1, 2, 3], [4, 2**32 - 1]),
    'which': ([0, 0, 1, 2], [3, 2**32 - 1]),
    'expires': ([NOW + 60, 4102444800], [0, NOW, 253402300799]),
    'flags': (list(range(32)), [0, 31]),
    'same_site': ([0, 1, 2, 3], [4, 2**32 - 1]),
}
# Those that are another number of a call than their name says.
NUMBER_OF = {**dict.fromkeys(('flag', 'limit', 'shards', 'lengths', 'request', 'format', 'same_site'), 'option'),
             'expires': 'which', 'flags': 'items'}
CONTENTS, ODD_CONTENTS = ['1', ''], ['a=1', 'v' * 4096, 'x\ty', 'x;y', ' x', 'k\u00fc']
HOSTS, PATHS, NAMES = ['a.com', 'b.a.com', 'localhost', 'example.com'], ['/', '/a'], ['a', 'b', 'c', 's', 'h']
VALUES = ['a=1', 'b=2; Path=/', 'c=3; Domain=a.com; Max-Age=60', 's=4; Secure', 'h=5; HttpOnly', 'a=; Max-Age=0', 'l=6; SameSite=Lax',
          '__Host-a=1; Secure; Path=/', 'n=7; SameSite=None', 't=x\ty', 'e=8; Expires=Thu, 01 Jan 1970 00:00:00 GMT', 's=9; Path=/',
          'p=10; Domain=com', '__Host-a=2', 'a=1; Max-Age=0; Path=/', f'v={"v" * 4096}']
# A cookie in each format, by its name, path and host, and what stands before, between and after cookies.
LINE = ('{2}\tFALSE\t{1}\tFALSE\t0\t{0}\t1', '', '\n', '\n')
COOKIES = [
    ('{{"raw_cookie":"{0}=1","path":["{1}",false],"domain":{{"HostOnly":"{2}"}},"expires":"SessionEnd"}}', '[', ',', ']'),
    ('(raw_cookie:"{0}=1",path:("{1}",false),domain:HostOnly("{2}"),expires:SessionEnd)', '[', ',', ']'),
    LINE, LINE,
]


def any_url(rng):
    made = rng.random()
    if made < 0.8:
        return f'{rng.choice(["http", "https", "https", "ftp"])}://{rng.choice(HOSTS)}{rng.choice(PATHS)}'.encode()
    return scripts.url(rng).encode() if made < 0.9 else urls.url(rng)


def any_list(rng, form, lists):
    """A list in a format, or one of those in others."""
    made = rng.random()
    if made < 0.6 and form < len(COOKIES):
        cookie, before, between, after = COOKIES[form]
        cookies = (cookie.format(*map(rng.choice, (NAMES, PATHS, HOSTS))) for _ in range(rng.randrange(6)))
        return (before + between.join(cookies) + after).encode()
    return random_file(rng) if made < 0.8 else rng.choice(lists)


def string_makers():
    """What makes a string of each kind for a call; some come from the corpus."""
    lists, suffixes = [entry['list'] for entry in corpus_files.values('cookie_lists')], corpus_files.values('suffix_lists')
    return {
        'key': lambda rng, call: bytes(rng.randrange(256) for _ in range(rng.choice([0, 1, 16, 20]))),
        'url': lambda rng, call: any_url(rng),
        'page': lambda rng, call: any_url(rng),
        'value': lambda rng, call: (rng.choice(VALUES) if rng.random() < 0.7 else scripts.header_value(rng)).encode(),
        'domain': lambda rng, call: either(rng, HOSTS, scripts.HOSTS).encode(),
        'path': lambda rng, call: either(rng, PATHS, scripts.PATHS).encode(),
        'name': lambda rng, call: either(rng, NAMES, scripts.NAMES).encode(),
        'content': lambda rng, call: either(rng, CONTENTS, ODD_CONTENTS).encode(),
        'suffixes': lambda rng, call: rng.choice([*suffixes, '\n'.join(rng.choices(scripts.RULES, k=5)).encode()]),
        'list': lambda rng, call: any_list(rng, call['option'], lists),
    }


def random_handles(rng, name, begun):
    """Two handles for a call, mostly ones with a store, or empty ones where it begins one."""
    every, empty = list(range(HANDLES)), sorted(set(range(HANDLES)) - begun)
    handle = either(rng, (empty if name in ('new', 'load') else sorted(begun)) or every, every)
    others = [other for other in every if other != handle]
    return handle, either(rng, [other for other in others if (other in begun) == (name == 'merge')] or others, others)


def random_call(rng, name, makers, begun):
    """A call: its arguments, and the allocation that fails. `begun` has the handles that have a store, if no call has failed."""
    handle, other = random_handles(rng, name, begun)
    call = {'call': name, 'failing': rng.choice([0] * 8 + [1, 2, 3, 5, 8, 13, -1, -4]), 'handle': handle, 'other': other, 'strings': []}
    for argument in CALLS[name][1]:
        if argument in NUMBERS_OF:
            call[NUMBER_OF.get(argument, argument)] = either(rng, *NUMBERS_OF[argument])
        else:
            made = makers[argument](rng, call)
            call['strings'].append(scripts.changed(rng, made) if rng.random() < 0.1 else made)
    begun |= {'new': {handle}, 'load': {handle}, 'clone': {other}}.get(name, set())
    begun -= {handle} if name == 'free' else set()
    return call


def random_case(rng, makers):
    begun = {0}
    names = rng.choices(list(CALLS), [often for often, _ in CALLS.values()], k=rng.randrange(1, 60))
    return [{'call': 'new'}, *(random_call(rng, name, makers, begun) for name in names)]


def encoded(case, allowed):
    """The calls as calls.c reads them."""
    for call in [*case, {'call': 'end'}]:
        strings = [*call.get('strings', []), *[b''] * STRINGS][:STRINGS]
        numbers = {**dict.fromkeys(NUMBERS, 0), 'other': (call.get('handle', 0) + 1) % HANDLES, **call}
        words = [call['call'], call.get('failing', 0), allowed.get(call['call'], 0), *map(numbers.get, NUMBERS), *map(len, strings)]
        yield ' '.join(map(str, words)).encode() + b'\n' + b''.join(strings)


def bits(comment, numbers):
    """The statuses that the comment of a function lists, as bits. It lists success where it is not `OK`."""
    parts = (re.sub(r'\n \*', '', part) for part in re.split(r'\n \*\n', comment))
    listing = ' '.join(part for part in parts if re.search('[Ee]rrors|On success', part))
    names = set(re.findall('[A-Z][A-Z0-9_]+', listing)) & set(numbers)
    return sum(1 << numbers[name] for name in names | (set() if 'INSERTED' in names else {'OK'}))


def allowed_statuses():
    """The statuses that each function of the header may return, as bits."""
    header = read(f'{ROOT}/bindings/c/cookie_store.h')
    enum = first_match(r'^enum cookie_store_status \{(.*?)^\};', header, re.M | re.S)[1]
    numbers = {name: int(number) for name, number in re.findall(r'COOKIE_STORE_(\w+) = (\d+)', enum)}
    result = r'(?:enum cookie_store_status|void|size_t|bool)'
    declared = re.findall(rf'/\*((?:(?!\*/).)*)\*/\n{result} cookie_store_(\w+)\(', header, re.S)
    found = {name: bits(comment, numbers) for comment, name in declared}
    if set(found) != set(CALLS):
        stop(f'calls: the header and this tool differ in {sorted(set(found) ^ set(CALLS))}')
    return found


def cases_of_corpus():
    """The cases of the corpus, and one for each of its lists, with its entry."""
    for entry in corpus_files.entries('calls'):
        yield entry, entry.value
    for entry in corpus_files.entries('suffix_lists'):
        yield entry, case_of_suffixes(entry.value)
    for entry in corpus_files.entries('cookie_lists'):
        yield entry, case_of_list(entry.value['list'], cookies_txt.FORMATS[entry.value['format']])
    for entry in corpus_files.entries('cookies_txt'):
        yield entry, case_of_list(entry.value, 2) + case_of_list(entry.value, 3)


def case_of_suffixes(suffixes):
    """Sets the list, also with allocations that fail, and sets a cookie under it."""
    made = [{'call': 'set_suffix_list', 'failing': failing, 'option': option, 'strings': [suffixes]}
            for option in (0, 1) for failing in (1, 2, 3, -1, 0)]
    cookie = {'call': 'parse', 'now': NOW, 'strings': [b'http://b.a.com/', b'a=1; Domain=a.com']}
    return [{'call': 'new', 'strings': [b'']}, *made, cookie]


def case_of_list(content, option):
    """Loads the list, also with allocations that fail, then saves, merges and copies what it has."""
    load = {'call': 'load', 'now': NOW, 'items': ITEMS, 'option': option, 'strings': [b'', content]}
    uses = [{'call': 'save', 'now': NOW, 'room': ROOM, 'option': form} for form in range(4)]
    uses += [{'call': 'header', 'now': NOW, 'room': ROOM, 'strings': [b'https://a.example/']}, {'call': 'clone'},
             {'call': 'merge', 'now': NOW}, {'call': 'free'}, {'call': 'free', 'handle': 1}]
    return [*({**load, 'failing': failing} for failing in (1, 2, 3, -1, 0)), *uses]


def play(cases, folder, archive):
    """Makes the calls of cases. Returns how many cases passed, and what was wrong in the next one, or an empty string."""
    program = compile_part('calls', folder, archive, '-gdwarf-4', '-Wl,--wrap=malloc,--wrap=realloc,--wrap=free')
    valgrind = VALGRIND if shutil.which('valgrind') else []
    if not valgrind:
        print('fuzz calls: valgrind: skipped: it is not installed')
    allowed = allowed_statuses()
    status, printed, errors = feed([*valgrind, program], (part for case in cases for part in encoded(case, allowed)), folder)
    finished = int((printed.split() or [b'0'])[-1])
    return finished, errors.decode(errors='replace').strip() or f'status {status}' if status else ''


def up_to_failure(case, fault):
    """The calls up to the one that a message names, or all."""
    named = re.search(r'call (\d+), ', fault)
    return case[:int(named[1])] if named else case


def run(words):
    parser = Parser(__doc__, 'tools/fuzz calls')
    add_run(parser)
    add_archive(parser)
    options = parser.parse_args(words)
    stop_unless_built(options.archive)
    reason = reason_to_skip()
    if reason:
        print(f'fuzz calls: skipped: {reason}')
        return
    print(f'seed {options.seed}', flush=True)
    makers = string_makers()
    made = (random_case(generator(options.seed, number), makers) for number in until(options.seconds))
    with tempfile.TemporaryDirectory() as folder:
        cases, fault = play(made, folder, options.archive)
    if fault:
        print(fault)
        case = up_to_failure(random_case(generator(options.seed, cases), makers), fault)
        corpus_files.stop_with(f'case {cases} of seed {options.seed}: {fault.splitlines()[0]}', 'calls', case)
    print(f'fuzz calls: {cases} cases, passed')
