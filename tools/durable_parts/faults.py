"""Makes each read, write, cut and sync of the program's files fail in turn, and some of its allocations."""
import itertools
import os
import re
import shutil
import tempfile
from typing import NamedTuple

from durable_parts.calls import LONG, Call, Cookies, History, batched, cookies_of, random_calls
from durable_parts.session import NAME, Failed, check_prefix, check_replies, check_whole, copy_open, mapped, run
from durable_parts.shim import events, preloaded

EIO, ENOSPC = 5, 28
MANY = 700  # calls that write more pages than the log may have before it is copied into the database file
NEAR, FEW = 2, 6  # the calls before it is copied, and after that, in which calls fail
ONE, TWO, THREE = ('a.example', '/', 'one'), ('a.example', '/a', 'two'), ('b.example', '/', 'three')
CALLS = [
    Call('set', ONE, '1'), Call('set', TWO, 'x' * LONG, 60), Call('remove', THREE), Call('set', ONE, '2'), Call('set', ONE, '', 0),
    Call('purge'), Call('set', THREE, '3', 86400), Call('remove', THREE), Call('clear'), Call('set', ONE, '4'),
    *batched([Call('set', TWO, '5'), Call('remove', ONE), Call('set', ONE, 'x' * LONG), Call('set', TWO, '6', 60)]),
]


class Fault(NamedTuple):
    """How a call fails: the variable that numbers it, and others; the errors that a run may end with; and whether it may succeed."""
    title: str
    counter: str
    variables: dict
    errors: str
    may_succeed: bool = False


BROKEN = r'NotWritten\((Io|Corrupt)\)|File\(Io\)|System\(Uncategorized\)|Io|Corrupt'  # the last two by `close`
FULL = r'NotWritten\(Full\)|File\((Io|Full)\)|System\(StorageFull\)|Full'
FAULTS = [
    Fault('EIO', 'FAIL_CALL', {'FAIL_KINDS': 'rwcs', 'FAIL_ERROR': EIO}, BROKEN),
    Fault('EIO from then on', 'FAIL_CALL', {'FAIL_KINDS': 'rwcs', 'FAIL_ERROR': EIO, 'FAIL_LATER': 1}, BROKEN),
    Fault('ENOSPC', 'FAIL_CALL', {'FAIL_KINDS': 'wcs', 'FAIL_ERROR': ENOSPC}, FULL),
    Fault('half a write', 'FAIL_CALL', {'FAIL_KINDS': 'w'}, 'none', True),
]
OUT_OF_MEMORY = Fault('out of memory', 'FAIL_ALLOCATION', {'COUNT_FROM_START': 1}, r'(\w+\()?(OutOfMemory|AllocError)\)?', True)


class Turns:
    """Runs on files that hold `rows`, in each of which another call fails."""

    def __init__(self, program, library, folder, calls, base=None, rows=()):
        self.program, self.library, self.folder, self.base = program, library, folder, base
        self.history = History(cookies_of(rows), calls)

    def run(self, fault, number):
        """Makes one call fail, and checks the run and the file. Returns whether there was such a call."""
        with tempfile.TemporaryDirectory(dir=self.folder) as room:
            folder, mark = f'{room}/files', f'{room}/mark'
            if self.base:
                shutil.copytree(self.base, folder)
            else:
                os.mkdir(folder)
            variables = preloaded(self.library, folder, FAIL_MARK=mark, **{fault.counter: number}, **fault.variables)
            try:
                done = run(self.program, folder, self.history.calls, variables)
                did_fail = os.path.exists(mark)
                self.check(fault if did_fail else None, folder, done)
            except Failed as why:
                raise Failed(f'{fault.title} at call {number}: {why}')
            return did_fail

    def check(self, fault, folder, done):
        """The run ended as it must with this fault, or without one."""
        acknowledged = check_replies(self.history, done)
        if not fault or fault.may_succeed and done.status == 0:
            check_whole(self.history, done)
        elif done.status != 1 or not re.fullmatch(f'error: ({fault.errors})', done.error):
            raise Failed(f'status {done.status} after {acknowledged} calls, {done.error or "no error"}')
        check_prefix(self.program, folder, self.history, acknowledged, done.status == 1)

    def each(self, pool, fault):
        """Makes each call fail. Returns how many there are."""
        did_fail = mapped(pool, lambda number: self.run(fault, number), itertools.count(1))
        return self.counted(fault, sum(1 for _ in itertools.takewhile(bool, did_fail)))

    def some(self, pool, fault, rng, count):
        """Makes so many calls fail, of those that there are by the powers of 2. Returns how many did."""
        most = next(number for number in (2 ** power for power in itertools.count()) if not self.run(fault, number))
        numbers = rng.sample(range(1, most), min(count, most - 1))
        return self.counted(fault, sum(mapped(pool, lambda number: self.run(fault, number), numbers)))

    @staticmethod
    def counted(fault, count):
        if count == 0:
            raise Failed(f'{fault.title}: no call failed')
        return count


def calls_before_copy(program, library, folder, calls):
    """How many calls are acknowledged before the log is copied into the database file, which comes before the program closes it."""
    with tempfile.TemporaryDirectory(dir=folder) as room:
        record = f'{room}.record'
        run(program, room, calls, preloaded(library, room, CALLS_RECORD=record))
        acknowledged = 0
        for event in events(record):
            acknowledged += event.call == 'print'
            if 0 < acknowledged < len(calls) and event.call == 'write' and event.name == NAME:
                return acknowledged
    raise Failed(f'the log is not copied into the database file in {len(calls)} calls')


def near_copy(program, library, folder, rng):
    """Runs on files whose log is soon copied."""
    calls = random_calls(rng, MANY)
    first = calls_before_copy(program, library, folder, calls) - NEAR
    history, base = History(Cookies(), calls[:first]), f'{folder}/base'
    copy_open(program, history, base)
    return Turns(program, library, folder, calls[first:first + NEAR + FEW], base, history.states[-1])


def check(program, library, folder, pool, rng, sampled):
    """Makes calls fail: those of runs on a new file, and some of runs in which the log is copied. Returns how many."""
    new, late = Turns(program, library, folder, CALLS), near_copy(program, library, folder, rng)
    count = sum(new.each(pool, fault) for fault in FAULTS) + new.some(pool, OUT_OF_MEMORY, rng, sampled)
    return count + sum(late.some(pool, fault, rng, sampled) for fault in [*FAULTS, OUT_OF_MEMORY])
