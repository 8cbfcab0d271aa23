"""The program's reads of standard input and writes to standard output: each fails in turn, and when it writes."""
import os
import socket
import tempfile
from functools import partial
from typing import NamedTuple

from durable_parts.shim import compiled, events, preloaded
from examples_parts.conversions import LIST, TWICE
from examples_parts.program import Failed, Run, check_run, fails, run, succeeds
from examples_parts.scripts import parted

EIO = 5
READS, WRITES, RANDOM = 'i', 'o', 'e'  # the kinds of calls, as tools/file_calls.c has them
TITLES = {READS: 'reads', WRITES: 'writes'}
MOST_CALLS = 1000  # of a run

HOSTS = '''\
now 2026-01-01T00:00:00Z
set http://a.com/ x=1
> inserted
set http://b.com/ y=1
> inserted
set http://a.com/ z=1; Path=/p
> inserted
set http://a.com/ w=1
> inserted
set http://a.com/ x=2
> updated
get http://a.com/p/q
> Cookie: x=2; w=1; z=1
get http://b.com/
> Cookie: y=1
'''


class Work(NamedTuple):
    """What the program does: its arguments, its input, its output, and whether it writes before it has read all."""
    title: str
    words: list
    input: bytes
    output: bytes
    is_script: bool

    def output_of(self, part):
        """What the program writes if it can read this part alone: of a script what the whole lines print, one line for each but
        the first."""
        count = max(part.count(b'\n') - 1, 0) if self.is_script else 0
        return b''.join(self.output.splitlines(keepends=True)[:count])


INPUT, OUTPUT = parted(HOSTS)
SCRIPT = Work('a script', [], INPUT, OUTPUT, True)
CONVERSION = Work('a conversion', ['--convert'], TWICE, LIST, False)

# What the program does, the kind of calls of which each fails in turn, and the most bytes that one of them moves.
TURNS = [(SCRIPT, READS, 1), (SCRIPT, READS, 7), (SCRIPT, WRITES, 1), (CONVERSION, READS, 7), (CONVERSION, WRITES, 1)]

# The calls when a read returns a line, as from a terminal: the output of a line is written before the next line is read.
# The last line has no line feed.
DIALOG = [
    ('read', b'now 2026-01-01T00:00:00Z\n'),
    ('read', b'set http://a.com/ a=1\n'), ('print', b'inserted\n'),
    ('read', b'get http://a.com/\n'), ('print', b'Cookie: a=1\n'),
    ('read', b'fly\n'), ('print', b'bad line\n'),
    ('read', b'get http://b.com/'), ('read', b''), ('print', b'Cookie:\n'),
]

TWO = b'now 2026-01-01T00:00:00Z\nset http://a.com/ a=1\nset http://a.com/ b=2\n'

# Scripts of many lines with little output, that output, how often the program reads, each time 4,096 bytes if there are so
# many, and how often it may write.
MANY = {
    'a line of output': (b'get http://a.com/\n' * 1000, b'Cookie:\n' * 1000, 6, 7),
    'several parts': (TWO + b'get http://a.com/\nlist\n' * 500,
                      b'inserted\n' * 2 + b'Cookie: a=1; b=2\na.com / a\na.com / b\n' * 500, 4, 5),
}


class Recorded(NamedTuple):
    """A run, the calls of it that succeeded, in order, and whether one failed."""
    run: Run
    calls: list
    did_fail: bool

    def moved(self, call):
        """What each `read` or each `print` moved."""
        return [data for name, data in self.calls if name == call]


class Recorder:
    """Runs the program, and records its calls."""

    def __init__(self, program, library, folder):
        self.program, self.library, self.folder = program, library, folder

    def run(self, words, source, **variables):
        """Runs the program on an open file."""
        with tempfile.TemporaryDirectory(dir=self.folder) as room:
            record, mark = f'{room}/record', f'{room}/mark'
            variables = preloaded(self.library, room, CALLS_RECORD=record, FAIL_MARK=mark, FAIL_ERROR=EIO, **variables)
            done = run(self.program, words, source, env={**os.environ, **variables})
            calls = [(event.call, event.data) for event in events(record)] if os.path.exists(record) else []
            return Recorded(done, calls, os.path.exists(mark))

    def run_on(self, words, text, **variables):
        """Runs the program on a file. The next reader of the file must find what was not read."""
        with tempfile.TemporaryFile(dir=self.folder) as file:
            file.write(text)
            file.seek(0)
            done = self.run(words, file, **variables)
            at, taken = os.lseek(file.fileno(), 0, os.SEEK_CUR), len(b''.join(done.moved('read')))
            if at != taken:
                raise Failed(f'{at} bytes of the input are taken, and {taken} were read')
            return done


def check_failed_read(work, most, number, done):
    """The program writes the output of what it read before, and does not read again."""
    check_run(done.run, fails(1, 'read failed', work.output_of(work.input[:(number - 1) * most])))
    reads = len(done.moved('read'))
    if reads != number - 1:
        raise Failed(f'{reads} reads succeed, and not {number - 1}')


def check_failed_write(work, most, number, done):
    """The output stops at the failed write."""
    check_run(done.run, fails(1, 'write failed', work.output[:(number - 1) * most]))


def is_failing(recorder, work, kind, most, number):
    """Makes one call fail, and checks the run. Returns whether there was such a call."""
    done = recorder.run_on(work.words, work.input, FAIL_KINDS=kind, FAIL_CALL=number, CALLS_MOST=most)
    if not done.did_fail:
        check_run(done.run, succeeds(work.output))
    elif kind == READS:
        check_failed_read(work, most, number, done)
    else:
        check_failed_write(work, most, number, done)
    return done.did_fail


def check_turns(recorder, work, kind, most):
    """Makes each call of this kind fail in turn, until a run has no such call."""
    for number in range(1, MOST_CALLS):
        try:
            if not is_failing(recorder, work, kind, most, number):
                break
        except Failed as why:
            raise Failed(f'at call {number}: {why}')
    if number in (1, MOST_CALLS - 1):
        raise Failed(f'{number - 1} calls failed')


def check_nothing_taken(recorder):
    """A write that takes nothing has failed, and is not repeated: no second call fails."""
    done = recorder.run_on(SCRIPT.words, SCRIPT.input, FAIL_KINDS=WRITES, FAIL_CALL=2, CALLS_MOST=0)
    check_run(done.run, fails(1, 'write failed'))
    if done.did_fail:
        raise Failed('a write that takes nothing is repeated')


def check_random(recorder):
    """Without random bytes the program reads nothing."""
    done = recorder.run_on(SCRIPT.words, SCRIPT.input, FAIL_KINDS=RANDOM, FAIL_CALL=1)
    check_run(done.run, fails(1, 'cannot get a random hash key'))
    if done.calls:
        raise Failed('it reads without random bytes')


def lines_apart(lines):
    """A socket from which each read returns a line."""
    ours, theirs = socket.socketpair(socket.AF_UNIX, socket.SOCK_SEQPACKET)
    with ours:
        for line in lines:
            ours.send(line)
    return theirs


def check_dialog(recorder):
    with lines_apart(data for call, data in DIALOG if call == 'read' and data) as lines:
        done = recorder.run([], lines)
    check_run(done.run, succeeds(b''.join(data for call, data in DIALOG if call == 'print')))
    if done.calls != DIALOG:
        raise Failed(f'the calls are {done.calls}')


def check_together(recorder, title):
    """The output of all lines of a read is written together."""
    script, output, reads, most_writes = MANY[title]
    done = recorder.run_on([], script)
    check_run(done.run, succeeds(output))
    counts = len(done.moved('read')), len(done.moved('print'))
    if counts[0] != reads or counts[1] > most_writes:
        raise Failed(f'{counts[0]} reads and {counts[1]} writes')


def checks(program, folder):
    recorder = Recorder(program, compiled(folder), folder)
    for work, kind, most in TURNS:
        yield f'{work.title}, {TITLES[kind]} of at most {most} bytes', partial(check_turns, recorder, work, kind, most)
    yield 'a write that takes nothing', partial(check_nothing_taken, recorder)
    yield 'no random bytes', partial(check_random, recorder)
    yield 'a line at a time', partial(check_dialog, recorder)
    for title in MANY:
        yield f'many lines, {title}', partial(check_together, recorder, title)
