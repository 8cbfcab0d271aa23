"""What the tests of sites share: a Redis, worker processes, and the calls that they made."""
import hashlib
import json
import os
import pathlib
import shutil
import signal
import sys
import time
import traceback
import unittest

from programs import LIMIT, make_folder, start, wait_for

from cookie_store.sites import FolderValues, RedisValues

try:
    import redis
except ImportError:
    redis = None


def start_redis(test):
    """Return a function that connects to a Redis of this test, which is ended with it, and its program."""
    if redis is None:
        raise unittest.SkipTest('the Python package redis is not installed')
    if shutil.which('redis-server') is None:
        raise unittest.SkipTest('there is no redis-server')
    folder = make_folder(test)
    path = os.path.join(folder, 'socket')
    program = start(test, 'redis-server', '--port', '0', '--unixsocket', path, '--save', '', '--appendonly', 'no', cwd=folder)
    wait_for(lambda: os.path.exists(path), program)

    def connect(**words):
        client = redis.Redis(unix_socket_path=path, **words)
        test.addCleanup(client.connection_pool.disconnect)
        return client

    return connect, program


def redis_values(test):
    """Return a function that creates values in a new Redis."""
    connect, _ = start_redis(test)
    return lambda: RedisValues(connect())


def folder_values(test):
    """Return a function that creates values in a new folder."""
    folder = make_folder(test)
    return lambda: FolderValues(os.path.join(folder, 'sites'))


class Recorded:
    """Values that keep what the last write replaced, and by what."""

    def __init__(self, values):
        self.values, self.write = values, None

    def get(self, key):
        return self.values.get(key)

    def swap(self, key, old, new):
        is_done = self.values.swap(key, old, new)
        if is_done:
            self.write = (key, digest(old), digest(new))
        return is_done

    def keys(self):
        return self.values.keys()


def digest(value):
    return None if value is None else hashlib.sha256(value).hexdigest()


class Workers:
    """Processes that are forked from this one, each with a log. They are killed when the test ends."""

    def __init__(self, test):
        self.folder, self.children = pathlib.Path(make_folder(test)), {}
        test.addCleanup(self.kill_all)

    def start(self, name, work):
        """Fork a child, which calls work with a function that appends a line of JSON to its log, and ends."""
        child = os.fork()
        if child:
            self.children[child] = name
            return child
        status = 1
        try:
            log = os.open(self.folder / f'{name}.log', os.O_WRONLY | os.O_CREAT | os.O_APPEND)
            work(lambda *words: os.write(log, json.dumps(words).encode() + b'\n'))
            status = 0
        except BaseException:  # pylint: disable=broad-except
            traceback.print_exc()
        finally:
            sys.stderr.flush()
            os._exit(status)

    def wait(self, child):
        """Return the status of a child, once it has ended."""
        begin = time.monotonic()
        while time.monotonic() - begin < LIMIT:
            ended, status = os.waitpid(child, os.WNOHANG)
            if ended:
                del self.children[child]
                return status
            time.sleep(0.005)
        raise AssertionError(f'{self.children[child]} goes on')

    def kill(self, child):
        os.kill(child, signal.SIGKILL)
        return self.wait(child)

    def kill_all(self):
        for child in list(self.children):
            self.kill(child)

    def lines(self):
        """Return the lines of all logs, those of a worker in order. A line that a killed worker began is not one."""
        texts = [path.read_text(encoding='utf-8') for path in sorted(self.folder.glob('*.log'))]
        return [json.loads(line) for text in texts for line in text.split('\n')[:-1]]


def in_commit_order(writes):
    """Return the writes of a key, each the value before, the value after and more, in the order in which they happened.

    No value was there twice: the one before a write names the write before it.
    """
    after, ordered, value = {write[0]: write for write in writes}, [], None
    while value in after:
        ordered.append(after.pop(value))
        value = ordered[-1][1]
    if after or len(ordered) != len(writes):
        raise AssertionError(f'{len(writes) - len(ordered)} of {len(writes)} writes do not follow one another')
    return ordered
