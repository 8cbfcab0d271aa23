"""Times a request of requests and of httpx, without a network, with a store and without, beside many cookies of other hosts."""
import importlib

from bench_parts import report
from common import stop

SIZES, EACH = (1000, 100_000), 20  # stored cookies, and those of a host
URL = 'http://h0.example.com/a/b'


def pairs(count):
    """The hosts and names of the stored cookies."""
    return ((f'h{number // EACH}.example.com', f'c{number % EACH}') for number in range(count))


def filled_store(module, count):
    store = module.CookieStore()
    for host, name in pairs(count):
        store.parse(f'http://{host}/', f'{name}=value; Path=/; Max-Age=86400')
    return store


def fill(cookies, count):
    """Sets the cookies of a session or a client without a store."""
    for host, name in pairs(count):
        cookies.set(name, 'value', domain=host, path='/')


def of_requests(module, count):
    """Two functions that make a request and return its Cookie header: with a store, and without."""
    requests, adapter = importlib.import_module('requests'), importlib.import_module('cookie_store.requests')

    class Answer(requests.adapters.BaseAdapter):  # type: ignore[name-defined]
        def send(self, request, **_):
            response = requests.Response()
            response.status_code, response.request, response._content = 200, request, b''
            return response

        def close(self):
            pass

    sessions = requests.Session(), requests.Session()
    for session in sessions:
        session.mount('http://', Answer())
        session.trust_env = False
    adapter.use_store(sessions[0], filled_store(module, count))
    fill(sessions[1].cookies, count)
    return [lambda url, session=session: session.get(url).request.headers['Cookie'] for session in sessions]


def of_httpx(module, count):
    """The same of httpx."""
    httpx, adapter = importlib.import_module('httpx'), importlib.import_module('cookie_store.httpx')
    clients = [httpx.Client(transport=httpx.MockTransport(lambda _: httpx.Response(200)), trust_env=False) for _ in range(2)]
    adapter.use_store(clients[0], filled_store(module, count))
    fill(clients[1].cookies, count)
    return [lambda url, client=client: client.get(url).request.headers['Cookie'] for client in clients]


def measure_clients(module, measure):
    """Yields the name of a client, the number of cookies, and the seconds of a request with a store and without."""
    for name, make in (('requests', of_requests), ('httpx', of_httpx)):
        try:
            importlib.import_module(name)
        except ImportError:
            print(f'{name} is not measured: it is not installed')
            continue
        for count in SIZES:
            calls = make(module, count)
            if len({tuple(sorted(call(URL).split('; '))) for call in calls}) != 1:
                stop(f'{name}: with a store a request has other cookies than without')
            yield name, count, [measure(call, [URL]) for call in calls]


def print_clients(rows):
    """Prints the table of requests, and returns where a client without a store is ahead."""
    behind = []
    heads = ('with a store', 'without', 'ratio')
    print(f'a request with {EACH} cookies, microseconds'.ljust(48) + ''.join(head.rjust(16) for head in heads))
    for name, count, (own, other) in rows:
        row = f'{name}, {count:,} cookies'
        behind += report.behind(row, f'{name} without a store', other / own)
        print(row.ljust(48) + ''.join(each.rjust(16) for each in (f'{own * 1e6:.2f}', f'{other * 1e6:.2f}', f'{other / own:.2f}')))
    return behind
