"""Times stores over values by key from Python, in one process, beside a store in memory, and measures the memory of Redis.
Usage: tools/bench sites [--archive FILE]

Prints how many calls of one process end in a second, the most of three runs: a response with one cookie is received, which replaces
a stored one, and the Cookie header of a request is returned, of random sites. Time by the clock, as a process waits for Redis and
for files. The public suffix list is that of the system, or else a short one. Then it prints the bytes of Redis, and of the list, a
site. Redis is left out without redis-server and the Python package redis. The library is installed in a temporary folder, from
--archive; without it the library is proved and built first. Needs a C compiler.

Exit status: 0; 1 if a call fails, or if a store returns another header than the one in memory."""
import importlib
import os
import random
import shutil
import subprocess
import sys
import tempfile
import time

from common import install, machine, stop

OPTIONS = ['--archive']
SITES, EACH = 1000, [1, 20]
KEYS = 20_000  # of Redis, for its memory
NOW = 1767225600  # 2026-01-01T00:00:00
SECONDS = 2.0  # that a run takes
SHORT_LIST = 'example\n'


def add_arguments(parser):
    pass


def url_of(site):
    return f'https://www.site{site}.example/a/b'


def header_values(site, each):
    """The Set-Cookie header values of a site: each cookie has a value of 32 characters, as many sessions have."""
    random_of = random.Random(site)
    return [f'session{number}={random_of.getrandbits(128):032x}; Domain=site{site}.example; Path=/; Max-Age=8640000; Secure; HttpOnly; '
            f'SameSite=Lax' for number in range(each)]


def calls_a_second(call):
    """How many calls end in a second, on random sites, the most of three runs."""
    random_of, most = random.Random(0), 0.0
    for _ in range(3):
        calls, begun, spent = 0, time.perf_counter(), 0.0
        while spent < SECONDS:
            call(random_of.randrange(SITES))
            calls += 1
            spent = time.perf_counter() - begun
        most = max(most, calls / spent)
    return most


def start_redis(folder):
    """A client of a new Redis and its program, or None twice."""
    try:
        redis = importlib.import_module('redis')
    except ImportError:
        redis = None
    if redis is None or not shutil.which('redis-server'):
        print('Redis is not measured: redis-server or the Python package redis is not there.')
        return None, None
    path = f'{folder}/socket'
    program = subprocess.Popen(['redis-server', '--port', '0', '--unixsocket', path, '--save', '', '--appendonly', 'no'], cwd=folder,
                               stdout=subprocess.DEVNULL)
    for _ in range(100):
        try:
            client = redis.Redis(unix_socket_path=path)
            client.ping()
            return client, program
        except redis.ConnectionError:
            time.sleep(0.1)
    program.kill()
    stop('redis-server does not start')


def new_stores(package, folder, client, words):
    """The stores by their names. The first is in memory."""
    sites, one = importlib.import_module('cookie_store.sites'), package.CookieStore(strict=True)
    one.set_suffix_list(words.get('suffixes'))
    values = {'a dict': sites.MemoryValues(), 'files': sites.FolderValues(f'{folder}/sites')}
    if client is not None:
        values['Redis'] = sites.RedisValues(client)
    return {'CookieStore': one, **{f'SiteStore, {name}': sites.SiteStore(each, **words) for name, each in values.items()}}


def measure(stores, each):
    """The calls a second of each store: of receive() and of header()."""
    for site in range(SITES):
        values = header_values(site, each)
        for store in stores.values():
            if store.receive(url_of(site), values, NOW) != each:
                stop('a cookie is not stored')
    headers = {store.header(url_of(site), NOW) for site in range(0, SITES, 100) for store in stores.values()}
    if len(headers) != SITES // 100:
        stop('two stores return different headers')
    values = [header_values(site, each)[-1:] for site in range(SITES)]
    return {name: (calls_a_second(lambda site, store=store: store.receive(url_of(site), values[site], NOW)),
                   calls_a_second(lambda site, store=store: store.header(url_of(site), NOW))) for name, store in stores.items()}


def redis_bytes(client, value):
    """The bytes a key of Redis with this value."""
    client.flushall()
    begun = client.info('memory')['used_memory']
    pipe = client.pipeline(transaction=False)
    for number in range(KEYS):
        pipe.set(f'cookies:site{number}.example', value)
    pipe.execute()
    return (client.info('memory')['used_memory'] - begun) / KEYS


def print_all(package, folder, client):
    words = {} if os.path.exists(package._handle.SYSTEM_SUFFIXES) else {'suffixes': SHORT_LIST}
    heads = [f'{name}, {each}' for each in EACH for name in ('receive', 'header')]
    print(f'{SITES:,} sites of {EACH[0]} and {EACH[1]} cookies, calls a second'.ljust(48) + ''.join(head.rjust(13) for head in heads))
    took: dict = {}
    lists = {}
    for each in EACH:
        room = tempfile.mkdtemp(dir=folder)
        stores = new_stores(package, room, client, words)
        for name, rates in measure(stores, each).items():
            took[name] = [*took.get(name, []), *rates]
        lists[each] = stores['SiteStore, a dict']._values.get('site0.example')
        if client is not None:
            client.flushall()
    for name, rates in took.items():
        print(name.ljust(48) + ''.join(f'{rate:13,.0f}' for rate in rates))
    for each, value in lists.items():
        redis = f', {redis_bytes(client, value):,.0f} bytes of Redis' if client is not None else ''
        print(f'a site of {each}: a list of {len(value):,} bytes{redis}')


def run(options):
    print(f'{machine()}, load {os.getloadavg()[0]:.2f}')
    with tempfile.TemporaryDirectory() as folder:
        prefix = f'{folder}/prefix'
        install(prefix, options.archive and os.path.realpath(options.archive))
        sys.path.insert(0, f'{prefix}/lib/python3/dist-packages')
        os.environ['COOKIE_STORE_LIBRARY'] = f'{prefix}/lib/libcookie_store.so'
        client, program = start_redis(folder)
        try:
            print_all(importlib.import_module('cookie_store'), folder, client)
        finally:
            if program is not None:
                program.terminate()
                program.wait()
