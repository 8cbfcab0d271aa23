"""Kills the program at random times."""
import contextlib
import os
import shutil
import subprocess
import tempfile
import time

from durable_parts.calls import Cookies, History, cookies_of, random_batches
from durable_parts.session import Failed, check_prefix, check_replies, check_whole, file_of, run, run_of, text_of

CALLS = 300  # of a run
NEW = 5  # each of so many runs is the first of a new file
KILLED = -9
SHORTER = 0.5  # of the longest time until a kill, once a run has ended before it


def killed(program, folder, calls, seconds):
    """A run that is killed after some seconds, unless it has ended."""
    with tempfile.TemporaryFile() as lines, tempfile.TemporaryFile() as printed, tempfile.TemporaryFile() as errors:
        lines.write(text_of(calls))
        lines.seek(0)
        process = subprocess.Popen([program, file_of(folder)], stdin=lines, stdout=printed, stderr=errors)
        with contextlib.suppress(subprocess.TimeoutExpired):
            process.wait(seconds)
        process.kill()
        process.wait()
        printed.seek(0)
        errors.seek(0)
        return run_of(process.returncode, printed.read(), errors.read(), calls)


def seconds_of(program, folder, calls):
    """How long a whole run on a new file takes. Its cookies must be those of the model."""
    history, begun = History(Cookies(), calls), time.monotonic()
    done = run(program, folder, calls)
    took = time.monotonic() - begun
    check_whole(history, done)
    return took


class Chain:
    """Runs of the program that are killed, each on the file that the one before left, now and then on a new one."""

    def __init__(self, program, folder, rng):
        self.program, self.folder, self.rng = program, folder, rng
        self.rows: list = []
        self.runs = self.kills = self.acknowledged = self.ahead = 0
        self.opening, self.whole = (seconds_of(program, self.new_folder(), calls) for calls in ([], random_batches(rng, CALLS)))

    def new_folder(self):
        shutil.rmtree(self.folder, ignore_errors=True)
        os.mkdir(self.folder)
        self.rows = []
        return self.folder

    def kill(self):
        """Kills one run, and checks the file."""
        is_new = self.runs % NEW == 0
        seconds = self.rng.uniform(0, self.opening if is_new else self.whole)
        if is_new:
            self.new_folder()
        history = History(cookies_of(self.rows), random_batches(self.rng, CALLS))
        done = killed(self.program, self.folder, history.calls, seconds)
        if done.status not in (0, KILLED) or done.error:
            raise Failed(f'status {done.status}: {done.error}')
        acknowledged = check_replies(history, done)
        held = check_prefix(self.program, self.folder, history, acknowledged)
        self.rows = history.states[held]
        self.runs += 1
        self.kills += done.status == KILLED
        self.whole *= 1 if done.status == KILLED or is_new else SHORTER
        self.acknowledged += acknowledged
        self.ahead += held > history.committed(acknowledged)


def check(program, folder, rng, is_enough):
    """Kills runs until there are enough. Returns the chain."""
    chain = Chain(program, folder, rng)
    while not is_enough(chain.kills):
        chain.kill()
    return chain
