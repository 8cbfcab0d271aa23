"""Inputs that a hostile server or page may choose, each at n, 4n and 16n, and how time and instructions grow with n."""
import math
import random
import subprocess
from dataclasses import dataclass
from typing import Callable

from bench_parts.measure import Task, has_valgrind, repeated
from bench_parts.scripts import CLEAR, NOW, saved_lines

TARGET = 0.1  # seconds that a run repeats the operation
COUNTED = 0.02  # seconds of the operations whose instructions are counted
PATIENCE = 40.0  # seconds: a larger input is skipped if it may take longer
STEEPEST = 1.15  # the greatest exponent of the time of a family that must be linear
STEEPEST_COUNT = 1.05  # of its instructions, which differ less: n log n would be 1.09 or more
ATTEMPTS = 3  # without instructions a family that seems steeper is timed again, since the machine may have been busy
LABELS = ['a'] * 122 + ['com']
DEEP = '.'.join(LABELS)  # a host of 247 bytes


@dataclass(frozen=True)
class Family:
    title: str  # what is timed
    least: int  # n
    task: Callable[[int], Task]
    has_peer: bool = True

    def sizes(self):
        return self.least, 4 * self.least, 16 * self.least


@dataclass(frozen=True)
class Growth:
    """How an operation of a family grows: seconds at n, 4n and 16n by program name, and instructions of the first program at the last
    two of these sizes, if they were counted."""
    family: Family
    seconds: dict
    instructions: list

    def warnings(self, name):
        """A warning if the instructions grow faster than linearly, or the time of this program if they were not counted: what else runs,
        and what caches hold, changes the time."""
        of, values, most = 'time', self.seconds[name], STEEPEST
        if self.instructions:
            of, values, most = 'instructions', self.instructions, STEEPEST_COUNT
        steepness = exponent(values) or 0
        if steepness > most:
            yield f'Warning: the exponent of the {of} of "{self.family.title}" is {steepness}, above {most}.'


def set_cookie(header, host='h.com'):
    return f'set http://{host}/ {header}\n'


def set_each(headers):
    return ''.join(map(set_cookie, headers))


def set_one(header):
    """Sets the same cookie again and again."""
    return repeated(NOW, set_cookie(header))


def set_beside_long(size):
    """Sets the last of 32 cookies again, whose names have the same first `size` bytes."""
    names = [f'{"n" * size}{number}' for number in range(10, 42)]
    return repeated(NOW + set_each(f'{name}=1' for name in names), set_cookie(f'{names[-1]}=1'))


def get(setup, url, **options):
    return repeated(NOW + setup, f'get {url}\n', **options)


def slashes(count, host='h.com'):
    return f'http://{host}{"/" * count}'


PARENTS = ''.join(set_cookie(f'c{at}=1; Domain={".".join(LABELS[at:])}', DEEP) for at in range(1, 121))
LONG_PATH = set_cookie(f'p=1; Path={"/" * 7999}a', DEEP)
PATHS = set_each(f'c=1; Path={"/" * length}a' for length in range(1, 1001))


def get_beside_expired(size):
    """A set and a get after the expiry are not timed, which may delete the expired cookies once."""
    expired = set_each(f'c{number}=1; Max-Age=1' for number in range(size))
    later = 'now 2026-01-02T00:00:00Z\n' + set_cookie('a=1') + 'get http://h.com/\n'
    return get(expired + later, 'http://h.com/')


def paths_set(numbers):
    """Sets a cookie of each path."""
    return ''.join(f'set http://h.com/p{number}/ c=1\n' for number in numbers)


def paths_removed(numbers):
    return ''.join(f'remove h.com /p{number} c\n' for number in numbers)


def names_set(numbers):
    """Sets a cookie of each name."""
    return set_each(f'c{number}=1' for number in numbers)


def names_removed(numbers):
    return ''.join(f'remove h.com / c{number}\n' for number in numbers)


def hosts_set(numbers):
    """Sets a cookie of each host."""
    return ''.join(set_cookie('c=1', f'h{number}.com') for number in numbers)


def hosts_removed(numbers):
    return ''.join(f'remove h{number}.com / c\n' for number in numbers)


def set_at_limit(limit):
    setup = NOW + set_each(f'c{number}=1' for number in range(limit))
    return Task(lambda count: setup, lambda count: setup + set_each(f'd{number}=1' for number in range(count)),
                arguments=('--limit', str(limit)))


def get_after_evictions(size):
    evicted = set_each(f'c=1; Path=/{"a" * number}' for number in range(size))
    return get(evicted, slashes(4000), arguments=('--limit', '50'))


def get_after_removals(size):
    stored = set_each(f'c=1; Path=/{"a" * number}' for number in range(size))
    removed = ''.join(f'remove h.com /{"a" * number} c\n' for number in reversed(range(size)))
    return get(set_cookie('a=1; Path=/') + stored + removed, slashes(4000))


def set_secure(number):
    return f'set https://h.com/ s{number}=1; Secure\n'


def set_beside_secure(size):
    """Sets a cookie over http beside Secure cookies of other names. The first time, which may index them, is not timed."""
    return repeated(NOW + ''.join(map(set_secure, range(size))) + set_cookie('a=1'), set_cookie('a=1'))


def set_in_turn(size):
    """Each Secure cookie changes what a cookie set over http may overlay."""
    return repeated(NOW, ''.join(set_secure(number) + set_cookie(f'a{number}=1') for number in range(size)) + CLEAR)


def convert(size):
    lines = saved_lines(size)
    return Task(lambda _: '', lambda _: lines, arguments=('--convert',), most=1)


def in_creation(numbers):
    return numbers


def in_reverse(numbers):
    return numbers[::-1]


def in_random(numbers):
    return random.Random(1).sample(numbers, len(numbers))


LEVELS = {'a host each': (hosts_set, hosts_removed), 'a path each': (paths_set, paths_removed), 'a name each': (names_set, names_removed)}
ORDERS = {'creation': in_creation, 'reverse': in_reverse, 'random': in_random}


def removing(order, level):
    def operation(size):
        stored, removed = LEVELS[level]
        return repeated(NOW, stored(range(size)) + removed(ORDERS[order](range(size))))
    return Family(f'n sets, {level}, and n removals in {order} order', 2500, operation)


def setting_again(level):
    """Removes and sets each cookie in turn, which moves it to the end."""
    def operation(size):
        stored, removed = LEVELS[level]
        again = ''.join(removed([number]) + stored([number]) for number in in_random(range(size)))
        return repeated(NOW, stored(range(size)) + again + CLEAR)
    return Family(f'n sets, {level}, and each removed and set again', 2500, operation)


# A time grows faster than n while the cookies fall out of the processor's caches, so n is small or large enough.
LINEAR = [
    Family('get, URL of n slashes, 120 parent domains with a cookie each', 10_000,
           lambda n: get(PARENTS, slashes(n, DEEP))),
    Family('the same, and a stored path of 8,000 bytes', 10_000, lambda n: get(PARENTS + LONG_PATH, slashes(n, DEEP))),
    Family('get, URL of n slashes, one cookie', 5000, lambda n: get(set_cookie('a=1; Path=/'), slashes(n))),
    Family('get, URL of n slashes, 1,000 paths of different lengths', 10_000, lambda n: get(PATHS, slashes(n))),
    Family('get, host of n labels, empty store', 2000, lambda n: get('', f'http://{"a." * n}com/')),
    Family('get, host of n labels, one cookie', 2000, lambda n: get(set_cookie('a=1'), f'http://{"a." * n}com/')),
    Family('get after n cookies of different paths were evicted', 250, get_after_evictions, has_peer=False),
    Family('get after n cookies of different paths were removed', 250, get_after_removals),
    Family('get, n expired cookies of the host', 1000, get_beside_expired, has_peer=False),
    Family('set, value of n bytes', 10_000, lambda n: set_one(f'c={"v" * n}')),
    Family('set, name of n bytes, 31 names that begin alike', 2000, set_beside_long),
    Family('set, n attributes', 10_000, lambda n: set_one(f'c=1{"; a=b" * n}')),
    Family('set, date of n words', 10_000, lambda n: set_one(f'c=1; Expires={"x " * n}3 Aug 2100 00:38:37')),
    Family('n lines of JSON by --convert', 5000, convert, has_peer=False),
    Family('set, host at its limit of n cookies', 1000, set_at_limit, has_peer=False),
    *(removing(order, level) for level in LEVELS for order in ORDERS),
    *(setting_again(level) for level in LEVELS),
]

# For a strict store of the C library.
STRICT = [
    Family('strict: set over http, n Secure cookies of other names', 5000, set_beside_secure, has_peer=False),
    Family('strict: n sets of a Secure cookie, and one over http after each', 10_000, set_in_turn, has_peer=False),
]


def colliding(program, least=100):
    """Finding the names takes some 15 seconds."""
    done = subprocess.run([program, str(16 * least)], stdout=subprocess.PIPE, check=True, text=True)
    lines = done.stdout.splitlines(keepends=True)[1:]
    return Family('n sets, names that collide under the fixed hash key', least,
                  lambda n: repeated(NOW, ''.join(lines[:n]) + CLEAR))


def grow(meter, programs, family):
    """The seconds at n, 4n and 16n by program name: fewer if the next may take longer than PATIENCE."""
    took: dict[str, list[float]] = {program.name: [] for program in programs}
    for size in family.sizes():
        patient = [program for program in programs if 16 * max(took[program.name], default=0) < PATIENCE]
        for name, seconds in meter.time(patient, family.task(size), TARGET).items():
            took[name].append(seconds)
    return took


def exponent(took):
    """The growth between the last two sizes: 1 is linear, 2 is quadratic."""
    if len(took) < 2 or min(took[-2:]) <= 0:
        return None
    return round(math.log(took[-1] / took[-2], 4), 2) + 0.0  # no -0


def least(*measured):
    """The least seconds of several measurements."""
    return {name: list(map(min, *(took[name] for took in measured))) for name in measured[0]}


def count(meter, program, family, took):
    """The instructions of an operation at the last two sizes that were timed, where one takes these seconds."""
    counts = []
    for size, seconds in [*zip(family.sizes(), took)][-2:]:
        task = family.task(size)
        counts.append(meter.count(program, task, min(math.ceil(COUNTED / max(seconds, 1e-9)), task.most)))
    return counts


def measure(meter, own, *peers, families, steepest=math.inf):
    """How each family grows: the least seconds of several attempts if the first is too steep, and instructions are not counted."""
    grown = []
    for family in families:
        programs = [own, *peers] if family.has_peer else [own]
        if len(programs) > 1:
            meter.compare(programs, family.task(family.least).script(1))
        took = grow(meter, programs, family)
        counts = count(meter, own, family, took[own.name]) if has_valgrind() else []
        for _ in range(1, ATTEMPTS):
            if not counts and (exponent(took[own.name]) or 0) > steepest:
                took = least(took, grow(meter, programs, family))
        grown.append(Growth(family, took, counts))
    return grown
