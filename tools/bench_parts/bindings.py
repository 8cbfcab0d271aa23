"""Times a call from C, Python, Go and Node, files of cookies, and requests of clients, beside Python's http.cookiejar and others.
Usage: tools/bench bindings [--archive FILE]

Prints microseconds of processor time a call, the least of three runs, and how many times as long http.cookiejar takes as
StoreJar, and of files as CookieStore and StoreJar. A StoreJar counts unexpired cookies only, and is iterated over again without a
change, and then after a change each time. Freeing what was loaded is not counted. Requests of requests and httpx, if they are
installed, are those of a session or a client with a store, and of one without. The library is installed in a temporary
folder, from --archive; without it the library is proved and built first. Needs a C compiler.

It prints how many times as long a call of the C library takes in a store under the rules of browsers.

Of Go it prints microseconds by the clock of a call of one goroutine, and how many calls of 16 end in a second, each with hosts of
its own, on a jar that is split into shards or not; both beside net/http/cookiejar. That is left out without Go, and the second
without the list of Debian's package publicsuffix.

Then it prints the times of Node's CookieStore and CookieJar, and how many times as long tough-cookie takes: for cookies of hosts
with 20 each, and for one host whose cookies have a path each. The cookies of a response are set by one call of a CookieStore, and
by a call for each of a jar. That is left out without Node and its headers, and the ratios without tough-cookie.

Exit status: 0; 1 if a call fails, or if a request has other cookies without a store; on an idle machine also if a peer is
ahead, if a set from Go takes more than 1.5 times as long as by cookiejar, or if under those rules a header takes more than 1.2
times as long, or a set more than 1.3 times."""
import gc
import http.cookiejar
import importlib
import json
import os
import shutil
import subprocess
import sys
import tempfile
import time
import urllib.request

from bench_parts import clients, golang, report
from bench_parts.jar import Response
from common import ROOT, compile_c, install, stop

OPTIONS = ['--archive']
HOSTS, EACH = 50, 20
LARGE_HOSTS = 5000  # of a large store
NOW = 1767225600  # 2026-01-01T00:00:00
SECONDS = 0.2  # that a run takes
RUNS = 3  # of a call, of which the least time counts
LINES = 100_000  # of a cookies.txt file
NODE_COOKIES = [1000, 100_000]
STRICT = {'set': ('set_strict', 'set a cookie', 1.3), 'get_many': ('get_strict', f'header, {EACH} cookies a host', 1.2),
          'set_large': ('set_large_strict', f'set one of {LARGE_HOSTS * EACH:,} cookies', 1.3),
          'get_large': ('get_large_strict', f'header, of {LARGE_HOSTS * EACH:,} cookies', 1.2)}
RESPONSE = f'set the {EACH} cookies of a response'
CALLS = [('set', 'set a cookie'), ('response', RESPONSE), ('get_one', 'header, 1 cookie a host'),
         ('get_many', f'header, {EACH} cookies a host')]
HEADERS = [f'c{number}=value{number}; Path=/; Max-Age=86400' for number in range(EACH)]


def add_arguments(parser):
    pass


def build(folder, archive):
    """Installs the library, and builds the program in C."""
    prefix, defined = f'{folder}/prefix', {'HOSTS': HOSTS, 'LARGE_HOSTS': LARGE_HOSTS, 'EACH': EACH, 'NOW': NOW, 'SECONDS': SECONDS}
    install(prefix, archive)
    program = compile_c(f'{folder}/calls', '-std=c11', 'tools/bench_parts/calls.c', '-I', f'{prefix}/include',
                        '-L', f'{prefix}/lib', '-lcookie_store', f'-Wl,-rpath,{prefix}/lib',
                        *(f'-D{name}={value}' for name, value in defined.items()))
    return prefix, program


def time_call(call, inputs):
    """The seconds that a call takes, on each of the inputs in turn."""
    calls, begun, spent = 0, time.process_time(), 0.0
    while spent < SECONDS:
        for each in inputs:
            call(each)
        calls += len(inputs)
        spent = time.process_time() - begun
    return spent / calls


def measure(call, inputs):
    """The seconds that a call takes, the least of its runs."""
    return min(time_call(call, inputs) for _ in range(RUNS))


def measure_in_turn(columns):
    """The seconds of each column's calls by their keys. Those of one key run one after the other, since the speed of a machine changes."""
    took = [dict.fromkeys(calls, float('inf')) for calls in columns]
    for _ in range(RUNS):
        for key in columns[0]:
            for least, calls in zip(took, columns):
                least[key] = min(least[key], time_call(*calls[key]))
    return took


def measure_once(call):
    """The seconds that a call takes, the least of five, without those to free its result."""
    least = float('inf')
    for _ in range(5):
        begun = time.process_time()
        result = call()
        least = min(least, time.process_time() - begun)
        del result
    return least


def measure_c(program):
    printed = subprocess.run([program], check=True, stdout=subprocess.PIPE, text=True).stdout
    return {name: float(seconds) for name, seconds in map(str.split, printed.splitlines())}


def names(cookies):
    return [cookie.name for cookie in cookies]


def calls_of_store(module):
    """The calls of a CookieStore and their inputs, by key."""
    urls = [f'http://h{number}.example/a/b' for number in range(HOSTS)]
    many, one = module.CookieStore(), module.CookieStore()
    for url in urls:
        one.parse(url, 'c0=value0; Path=/', NOW)
    return {
        'set': (lambda pair: many.parse(*pair, NOW), [(url, header) for url in urls for header in HEADERS]),
        'response': (lambda url: many.receive(url, HEADERS, NOW), urls),
        'get_one': (lambda url: one.header(url, NOW), urls),
        'get_many': (lambda url: many.header(url, NOW), urls),
        'count': (lambda _: len(many), urls),
        'iterate': (lambda _: names(many), urls[:5]),
        'iterate_changed': (lambda url: many.parse(url, HEADERS[0], NOW) and names(many), urls[:5]),
    }


def add_and_remove(jar, request):
    """Adds the Cookie header to a request, and removes it again."""
    jar.add_cookie_header(request)
    if not request.unredirected_hdrs.pop('Cookie', ''):
        stop('a request has no Cookie header')


def calls_of_jar(new):
    """The calls of a jar of Python and their inputs, by the keys of a store's but for `set`: a jar reads whole responses."""
    requests = [urllib.request.Request(f'http://h{number}.example/a/b') for number in range(HOSTS)]
    many, one, all_of, first = new(), new(), Response(HEADERS), Response(HEADERS[:1])
    for request in requests:
        one.extract_cookies(first, request)
    return {
        'response': (lambda request: many.extract_cookies(all_of, request), requests),
        'get_one': (lambda request: add_and_remove(one, request), requests),
        'get_many': (lambda request: add_and_remove(many, request), requests),
        'count': (lambda _: len(many), requests[:5]),
        'iterate': (lambda _: names(many), requests[:5]),
        'iterate_changed': (lambda request: many.extract_cookies(first, request) or names(many), requests[:5]),
    }


def measure_python(module):
    """The seconds of the calls of a CookieStore, of a StoreJar and of http.cookiejar, by key."""
    store = calls_of_store(module)
    took = {'set': measure(*store.pop('set'))}
    calls = [store, *(calls_of_jar(new) for new in (module.StoreJar, http.cookiejar.CookieJar))]
    [own, *jars] = measure_in_turn(calls)
    return [{**took, **own}, *({'set': each['response'] / EACH, **each} for each in jars)]


def measure_files(module, path, each):
    """The seconds a line that loading and saving a cookies.txt file take, by CookieStore, StoreJar and MozillaCookieJar."""
    with open(path, 'w', encoding='utf-8') as file:
        file.write('# Netscape HTTP Cookie File\n')
        file.writelines(f'.h{number // each}.example.com\tTRUE\t/\tFALSE\t4000000000\tc{number % each}\tvalue{number}\n'
                        for number in range(LINES))
    with open(path, encoding='utf-8') as file:
        text = file.read()
    netscape = module.Format.NETSCAPE
    # Python's collector walks every living object from time to time: as in a program that loads its jar first, there are few.
    gc.collect()
    gc.freeze()
    loads = [lambda: module.CookieStore.loads(text, netscape, now=NOW), lambda: loaded(module.StoreJar(), path),
             lambda: loaded(http.cookiejar.MozillaCookieJar(), path)]
    took = {'load': [measure_once(call) / LINES for call in loads]}
    store, own, jar = [call() for call in loads]
    saves = [lambda: store.dumps(netscape, now=NOW), lambda: own.save(f'{path}.own'), lambda: jar.save(path)]
    took['save'] = [measure_once(call) / LINES for call in saves]
    return took


def loaded(jar, path):
    jar.load(path)
    return jar


def measure_node(folder, prefix):
    """Pairs of a number of cookies and the times of Node, by jar and call; none if Node or its headers are missing."""
    package = shutil.copytree(f'{ROOT}/bindings/node', f'{folder}/node', ignore=shutil.ignore_patterns('*.node'))
    environment = {**os.environ, 'PKG_CONFIG_PATH': f'{prefix}/lib/pkgconfig', 'NODE_PATH': '/usr/share/nodejs'}
    environment.pop('COOKIE_STORE_ARCHIVE', None)
    if not shutil.which('node') or subprocess.run(['node', f'{package}/build.js'], env=environment).returncode:
        print('Node is not measured: it is not there, or the package is not built.')
        return []
    command = ['node', 'tools/bench_parts/calls.js', package, str(SECONDS), *map(str, NODE_COOKIES)]
    printed = subprocess.run(command, cwd=ROOT, env=environment, check=True, stdout=subprocess.PIPE, text=True).stdout
    return list(zip(NODE_COOKIES, map(json.loads, printed.splitlines())))


def print_node(number, times):
    """Prints the table of Node for a number of cookies, and returns what is behind tough-cookie."""
    behind, peer = [], times.get('tough-cookie')
    heads = ['CookieStore', 'CookieJar', 'tough-cookie']
    print(f'Node, {number:,} cookies, microseconds'.ljust(38) + ''.join(head.rjust(15) for head in heads) + 'ratios'.rjust(20))
    rows = [('set', 'set a cookie'), ('set_response', RESPONSE), ('set_domain', 'set a cookie with Domain'),
            ('get_many', 'header, 20 cookies a host'), ('get_path', 'header, 1 cookie of all of a host')]
    for key, name in rows:
        own, ratios = [times[jar][key] for jar in ('CookieStore', 'CookieJar')], []
        if peer:
            ratios = [peer[key] / took for took in own]
            for jar, ratio in zip(heads, ratios):
                behind += report.behind(f'{jar} of Node, {number:,} cookies, {name}', 'tough-cookie', ratio)
        took = [f'{each * 1e6:.2f}' for each in own] + [f'{peer[key] * 1e6:.2f}' if peer else '-']
        compared = ', '.join(f'{ratio:.1f}' for ratio in ratios) or '-'
        print(name.ljust(38) + ''.join(each.rjust(15) for each in took) + compared.rjust(20))
    return behind


def print_calls(columns):
    """Prints the table of calls, and returns what is behind http.cookiejar."""
    behind = []
    heads = ['C', 'CookieStore', 'StoreJar', 'http.cookiejar', 'ratio']
    print(f'{HOSTS} hosts, microseconds'.ljust(34) + ''.join(head.rjust(15) for head in heads))
    for key, name in [*CALLS, ('count', 'count'), ('iterate', 'iterate over all'), ('iterate_changed', 'iterate after a set')]:
        took = [f'{column[key] * 1e6:.2f}' if key in column else '-' for column in columns]
        ratio = columns[3][key] / columns[2][key]
        behind += report.behind(f'StoreJar, {name}', 'http.cookiejar', ratio)
        print(name.ljust(34) + ''.join(each.rjust(15) for each in [*took, f'{ratio:.2f}']))
    return behind


def print_strict(took):
    """Prints what the rules of browsers cost, and returns which calls they make slower than they may."""
    slower = []
    for key, (strict, name, most) in STRICT.items():
        ratio = took[strict] / took[key]
        print(f'{name}, under the rules of browsers'.ljust(60) + f'{ratio:.2f} times')
        if ratio > most:
            slower.append(f'{name} takes {ratio:.2f} times as long under the rules of browsers.')
    return slower


def print_files(files):
    """Prints the table of files, and returns what is behind MozillaCookieJar."""
    behind = []
    heads = ['CookieStore', 'StoreJar', 'MozillaCookieJar', 'ratios']
    print(f'{LINES:,} lines of cookies.txt, microseconds a line'.ljust(48) + ''.join(head.rjust(18) for head in heads))
    for each, took in files.items():
        for name, (store, jar, other) in took.items():
            values = ''.join(f'{value * 1e6:18.2f}' for value in (store, jar, other))
            for by, own in (('CookieStore', store), ('StoreJar', jar)):
                behind += report.behind(f'{by}, {name}, {each} a host', 'MozillaCookieJar', other / own)
            print(f'{name}, {each} a host'.ljust(48) + values + f'{other / store:.2f}, {other / jar:.2f}'.rjust(18))
    return behind


def run(options):
    load = os.getloadavg()[0]
    with tempfile.TemporaryDirectory() as folder:
        prefix, program = build(folder, options.archive and os.path.realpath(options.archive))
        sys.path.insert(0, f'{prefix}/lib/python3/dist-packages')
        os.environ['COOKIE_STORE_LIBRARY'] = f'{prefix}/lib/libcookie_store.so'
        module = importlib.import_module('cookie_store')
        columns = [measure_c(program), *measure_python(module)]
        files = {each: measure_files(module, f'{folder}/cookies.txt', each) for each in (EACH, 1)}
        requests = list(clients.measure_clients(module, measure))
        behind = [*print_calls(columns), *print_strict(columns[0]), *print_files(files), *clients.print_clients(requests)]
        calls, shared = golang.measure_go(folder, prefix)
        if calls:
            behind += golang.print_calls(calls, CALLS)
        if shared:
            behind += golang.print_shared(shared)
        for number, times in measure_node(folder, prefix):
            behind += print_node(number, times)
    report.exit_after(behind, load)
