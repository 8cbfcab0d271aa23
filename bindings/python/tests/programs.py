"""Programs that tests start, which are ended with the tests, and a site for browsers."""
import os
import pathlib
import shutil
import signal
import subprocess
import tempfile
import time

from clients import PACKAGE
from support import Echo, start_server

LIMIT = 120  # seconds that a test waits for a program


class Site(Echo):
    """What Echo does, as HTML. For a client that takes the server for a proxy it is the site of every host."""

    def end_headers(self):
        self.send_header('Content-Type', 'text/html; charset=utf-8')
        super().end_headers()


def start_site(test, handler=Site):
    """Return a server that is stopped when the test ends."""
    server = start_server(test, handler)
    server.handle_error = lambda *_: None  # browsers close connections before the response is there
    return server


def variables(**words):
    """Return the environment of a program that imports the package, and that does not use the proxies of this machine."""
    own = {name: value for name, value in os.environ.items() if not name.lower().endswith('_proxy')}
    return {**own, 'PYTHONPATH': os.pathsep.join(filter(None, [str(PACKAGE), os.environ.get('PYTHONPATH')])), **words}


def make_folder(test):
    """Return a folder that is removed when the test ends."""
    folder = tempfile.mkdtemp()
    test.addCleanup(shutil.rmtree, folder, ignore_errors=True)  # a browser may still write to it
    return folder


def start(test, *command, stdout=subprocess.DEVNULL, stderr=subprocess.STDOUT, **words):
    """Start a program, which is ended with its children when the test ends, and return it."""
    program = subprocess.Popen(command, stdin=subprocess.DEVNULL, stdout=stdout, stderr=stderr, start_new_session=True, **words)
    test.addCleanup(end, program)
    return program


def run(test, folder, *command, **words):
    """Run a program in a folder, and return its exit status, what it printed, and its messages."""
    paths = [os.path.join(folder, name) for name in ('printed', 'messages')]
    with open(paths[0], 'wb') as stdout, open(paths[1], 'wb') as stderr:
        status = start(test, *command, stdout=stdout, stderr=stderr, cwd=folder, **words).wait(LIMIT)
    return (status, *(pathlib.Path(path).read_text(encoding='utf-8') for path in paths))


def end(program):
    """End a program and its children, if need be by force, and return its exit status."""
    for number in (signal.SIGTERM, signal.SIGKILL):
        try:
            os.killpg(program.pid, number)  # it began a session: its children have the number of its group
            program.wait(LIMIT)
        except (ProcessLookupError, subprocess.TimeoutExpired):
            pass
    return program.wait(LIMIT)


def wait_for(condition, program):
    """Return what a condition returns, once it is true. Raises AssertionError if the program ends before, or after the limit."""
    begin = time.monotonic()
    while time.monotonic() - begin < LIMIT:
        ended = program.poll() is not None
        found = condition()
        if found:
            return found
        if ended:
            raise AssertionError(f'{program.args[0]} ended with status {program.returncode}')
        time.sleep(0.1)
    raise AssertionError(f'{program.args[0]} did not do it within {LIMIT} seconds')
