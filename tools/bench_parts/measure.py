"""Measures programs that run a script: processor time, peak memory, instructions, cookies given."""
import os
import shutil
import subprocess
import tempfile
from contextlib import contextmanager
from dataclasses import dataclass
from typing import Callable

from common import first_match, processor_seconds, stop

GNU_TIME = '/usr/bin/time'
RUNS, MOST_RUNS = 5, 15
ENOUGH = 0.8  # the part of a target that the best run of a series must take
FALL = 0.05  # the part of a least time by which a later run is less, if that time was by chance
BUDGET = 15.0  # seconds of a series after which no further run begins


@dataclass(frozen=True)
class Program:
    name: str
    command: tuple
    version: str


@dataclass(frozen=True)
class Task:
    """`script(count)` does `count` times `units` operations more than `base(count)`."""
    base: Callable[[int], str]
    script: Callable[[int], str]
    units: int = 1
    arguments: tuple = ()
    most: int = 4 ** 9  # the greatest count


def repeated(setup, operation, **options):
    """The task of repeating the lines of an operation after those of `setup`."""
    return Task(lambda count: setup, lambda count: setup + operation * count, **options)


def has_gnu_time():
    return os.access(GNU_TIME, os.X_OK)


def has_valgrind():
    return shutil.which('valgrind') is not None


def instructions(command, **options):
    """The instructions of one run of a command, by callgrind."""
    done = subprocess.run(['valgrind', '--tool=callgrind', '--callgrind-out-file=/dev/null', *command],
                          stdout=subprocess.DEVNULL, stderr=subprocess.PIPE, check=True, **options)
    return int(first_match(rb'Collected : (\d+)', done.stderr)[1])


class Runs:
    """Runs that are repeated, and the least time of each of their parts."""

    def __init__(self, once):
        self.once = once  # the seconds of each part of one run
        self.best: list[float] = []
        self.spent, self.runs, self.fell = 0.0, 0, 0

    def run(self):
        took = self.once()
        self.best = self.best or [float('inf')] * len(took)
        self.spent += sum(took)
        self.runs += 1
        if any(seconds < best * (1 - FALL) for seconds, best in zip(took, self.best)):
            self.fell = self.runs
        self.best = [min(times) for times in zip(self.best, took)]

    def is_settled(self):
        """Whether the last runs were no faster than those before."""
        return self.spent >= BUDGET or self.runs >= self.fell + RUNS - 1


def settle(measured):
    """Runs each in turn, until all have settled: a machine may be slow whenever one of them runs."""
    for run in range(MOST_RUNS):
        if run >= RUNS and all(each.is_settled() for each in measured):
            break
        for each in measured:
            if each.runs <= run and each.spent < BUDGET:
                each.run()


class Series(Runs):
    """Runs of a program on the base and on the script of a task."""

    def __init__(self, program, task, repeats, paths):
        super().__init__(lambda: [seconds(program, path, task.arguments) for path in paths])
        self.program, self.task, self.repeats, self.paths = program, task, repeats, paths

    def is_long(self, target, part=1.0):
        """Whether the operations take `target` seconds, and enough beside the base to tell them apart; or this part of that."""
        base, script = self.best
        return script - base >= max(target, base / 2) * part

    def is_short(self, target):
        """Whether the operations took less in the end, and there can be more of them."""
        return not self.is_long(target, ENOUGH) and self.spent < BUDGET and self.repeats * 4 <= self.task.most

    def seconds(self):
        base, script = self.best
        return (script - base) / self.repeats / self.task.units

    def remove(self):
        for path in self.paths:
            os.remove(path)


class Meter:
    """Runs programs on scripts, which it writes into a folder."""

    def __init__(self, folder):
        self.folder = folder

    def compare(self, programs, script):
        """Stops if the programs give different numbers of cookies in any Cookie header."""
        first, *others = programs
        expected = self._given(first, script)
        for other in others:
            if self._given(other, script) != expected:
                stop(f'{first.name} and {other.name} give different cookies')

    def time(self, programs, task, target):
        """Seconds of one operation by program name: the best of interleaved runs, less the base.

        Each program repeats the operation until it takes about `target` seconds. All run on while the last runs of one are faster
        than those before. If the best run of one is too short, all begin again, and that one repeats it four times as often.
        """
        least = {program.name: 1 for program in programs}
        while True:
            all_series = [self._series(program, task, target, least[program.name]) for program in programs]
            settle(all_series)
            for series in all_series:
                series.remove()
            if not any(series.is_short(target) for series in all_series):
                return {series.program.name: series.seconds() for series in all_series}
            least = {series.program.name: series.repeats * (4 if series.is_short(target) else 1) for series in all_series}

    def once(self, program, script):
        """The seconds of one run."""
        with self._written(script) as path:
            return seconds(program, path)

    def peak(self, program, script, arguments=()):
        return self.seconds_and_peak(program, script, arguments)[1]

    def seconds_and_peak(self, program, script, arguments=()):
        """The seconds of one run, and the peak of resident memory in bytes.

        GNU time starts the program: if Python did, the peak would include Python's own memory.
        """
        report = os.path.join(self.folder, 'peak')
        with self._written(script) as path, open(path) as lines:
            took = processor_seconds([GNU_TIME, '-f', '%M', '-o', report, *program.command, *arguments], stdin=lines)
        with open(report) as kilobytes:
            return took, int(kilobytes.read()) * 1024

    def instructions(self, program, script, arguments=()):
        """The instructions of one run."""
        with self._written(script) as path, open(path) as lines:
            return instructions([*program.command, *arguments], stdin=lines)

    def count(self, program, task, repeats):
        """The instructions of one operation, of runs with this many repeats: those of the script, less those of the base."""
        base, script = (self.instructions(program, part(repeats), task.arguments) for part in (task.base, task.script))
        return (script - base) / repeats / task.units

    def _series(self, program, task, target, least):
        """A series with as many operations as are enough, at least `least`, and its first runs."""
        repeats = least
        while True:
            series = Series(program, task, repeats, [self._write(task.base(repeats)), self._write(task.script(repeats))])
            series.run()
            if series.is_long(target):
                series.run()  # the first may have been slow by chance
            if series.is_long(target) or repeats * 4 > task.most:
                return series
            series.remove()
            repeats *= 4

    def _given(self, program, script):
        """The number of cookies in each Cookie header that the program prints."""
        with self._written(script) as path, open(path) as lines:
            printed = subprocess.run(program.command, stdin=lines, capture_output=True, check=True).stdout
        return [line.count(b'=') for line in printed.splitlines() if line.startswith(b'Cookie:')]

    @contextmanager
    def _written(self, script):
        path = self._write(script)
        yield path
        os.remove(path)

    def _write(self, script):
        descriptor, path = tempfile.mkstemp(dir=self.folder)
        with os.fdopen(descriptor, 'w') as file:
            file.write(script)
        return path


def seconds(program, path, arguments=()):
    """The processor time of one run on a script."""
    with open(path) as lines:
        return processor_seconds([*program.command, *arguments], stdin=lines)
