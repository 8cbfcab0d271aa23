"""Random calls of durable_session, and the cookies after them by a model."""
from bisect import bisect_left
from typing import NamedTuple, Optional

# The expiry by the Max-Age, at the program's time, which is 2026-01-01T00:00:00.
EXPIRIES = {None: None, 60: '2026-01-01T00:01:00Z', 86400: '2026-01-02T00:00:00Z'}
PAST = '1970-01-01T00:00:00Z'  # the expiry of a cookie that was expired
REJECTED = 'attempted to utilize an Expired Cookie'
HOSTS = ['a.example', 'b.a.example', 'shop.example', 'shop.test', '127.0.0.1']
PATHS = ['/', '/a', '/a/b']
LONG = 6000  # bytes of a value that does not fit a page
MOST = 9  # calls of a batch


class Call(NamedTuple):
    kind: str
    key: tuple = ()  # host, path and name
    value: str = ''
    age: Optional[int] = None
    begins: bool = False  # it is the first of a batch, whose calls are committed together
    commits: bool = False  # it is the last of one

    def line(self):
        """The line by which the program is called."""
        if self.kind == 'set':
            host, path, name = self.key
            return f'set http://{host}/ {name}={self.value}; Path={path}' + ('' if self.age is None else f'; Max-Age={self.age}')
        return ' '.join([self.kind, *self.key])

    def lines(self):
        """Its line, and those around it."""
        return ['begin'] * self.begins + [self.line()] + ['commit'] * self.commits


def batched(calls):
    """The calls as a batch; each in its own commit if there is one call, or one is a purge."""
    if len(calls) < 2 or any(call.kind == 'purge' for call in calls):
        return calls
    return [call._replace(begins=at == 0, commits=at == len(calls) - 1) for at, call in enumerate(calls)]


class Cookies:
    """Value and expiry by host, path and name, in creation order."""

    def __init__(self):
        self.stored: dict = {}

    def execute(self, call):
        """Returns what the program prints."""
        old = self.stored.get(call.key)
        if call.kind == 'clear':
            self.stored.clear()
            return 'cleared'
        if call.kind == 'purge':
            self.stored = {key: cookie for key, cookie in self.stored.items() if cookie[1] != PAST}
            return 'purged'
        if call.kind == 'remove':
            self.stored.pop(call.key, None)
            return 'removed' if old else 'none'
        if call.age == 0:
            if old is None or old[1] == PAST:
                return REJECTED
            self.stored[call.key] = (old[0], PAST)
            return 'expired'
        self.stored[call.key] = (call.value, EXPIRIES[call.age])
        return 'replaced' if old else 'inserted'

    def rows(self):
        """Host, path, name, value and expiry of each."""
        return [(*key, *cookie) for key, cookie in self.stored.items()]


class History:
    """What the program prints for each call, the rows before the first call and after each, and the numbers of calls after which a
    commit ends."""

    def __init__(self, cookies, calls):
        self.calls, self.states = list(calls), [cookies.rows()]
        self.replies: list = []
        self.commits = [0]
        is_begun = False
        for number, call in enumerate(self.calls, 1):
            self.replies.append(cookies.execute(call))
            self.states.append(cookies.rows())
            is_begun = (is_begun or call.begins) and not call.commits
            if not is_begun:
                self.commits.append(number)

    def committed(self, acknowledged):
        """The number of calls that are committed once these are acknowledged: a batch is committed before its replies are printed."""
        return self.commits[bisect_left(self.commits, acknowledged)]

    def may_hold(self, acknowledged, is_stopped=False):
        """The numbers of calls that the file may hold once these are acknowledged: those that are committed and, if all of them are
        acknowledged, those of the next commit too. If the program stopped at an error in a batch, it committed the calls before it."""
        if is_stopped:
            return sorted({acknowledged, *self.may_hold(acknowledged)})
        first = self.commits.index(self.committed(acknowledged))
        return self.commits[first:first + 1 + (self.commits[first] == acknowledged)]


def cookies_of(rows):
    """The cookies that have these rows."""
    cookies = Cookies()
    cookies.stored = {tuple(row[:3]): tuple(row[3:]) for row in rows}
    return cookies


def listing(rows):
    """The lines by which the program prints cookies, sorted. A damaged cookie may have a line feed."""
    printed = (f'{host} {path} {name}={value}' + (', expired' if expiry == PAST else '') for host, path, name, value, expiry in rows)
    return sorted(line for each in printed for line in each.split('\n'))


def random_call(rng):
    key = (rng.choice(HOSTS), rng.choice(PATHS), f'name{rng.randrange(8)}')
    kind = rng.choices(['set', 'expire', 'remove', 'purge', 'clear'], [80, 8, 8, 3, 1])[0]
    if kind == 'remove':
        return Call(kind, key)
    if kind in ('purge', 'clear'):
        return Call(kind)
    length = rng.choices([rng.randrange(40), LONG], [20, 1])[0]
    return Call('set', key, f'{rng.getrandbits(64):016x}'.ljust(length, 'x'), 0 if kind == 'expire' else rng.choice(list(EXPIRIES)))


def random_calls(rng, count):
    """Calls, each in its own commit."""
    return [random_call(rng) for _ in range(count)]


def random_batches(rng, count):
    """Calls of which some are batches."""
    calls: list = []
    while len(calls) < count:
        size = rng.choices([1, rng.randint(1, MOST)], [8, 1])[0]
        calls += batched(random_calls(rng, min(size, count - len(calls))))
    return calls
