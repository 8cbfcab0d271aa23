"""Tests of stores in a forked child."""
import os
import signal
import threading
import time
import unittest

from support import NOW, PAGE, SECONDS, in_threads

from cookie_store import CookieStore


def wait_for(child):
    """Return the status of a child process. One that does not end in time is killed."""
    for _ in range(SECONDS * 100):
        ended, status = os.waitpid(child, os.WNOHANG)
        if ended:
            return status
        time.sleep(0.01)
    os.kill(child, signal.SIGKILL)
    return os.waitpid(child, 0)[1]


def use_and_exit(store):
    """End this process, with status 0 if the store inserts a cookie, sends it and lists all cookies."""
    status = 1
    try:
        store.parse(PAGE, 'child=1', NOW)
        status = int(store.header(PAGE, NOW) != 'child=1' or len(store.cookies()) != len(store))
    finally:
        os._exit(status)


class ForkTests(unittest.TestCase):

    def test_fork(self):
        """A child that is forked while threads are in calls, or create stores, may use the store, and sees it whole."""
        store, other, stop = CookieStore(), CookieStore(), threading.Event()

        def work(number):
            at = 0
            while not stop.is_set():
                store.parse(f'http://h{number}.example/', f'c{at % 100}=1', NOW)
                store.merge(other, NOW) if number % 2 else other.merge(store, NOW)
                CookieStore()
                at += 1

        def fork():
            try:
                for _ in range(20):
                    child = os.fork()
                    if not child:
                        use_and_exit(store)
                    self.assertEqual(wait_for(child), 0)
            finally:
                stop.set()

        self.assertEqual(in_threads(5, lambda number: fork() if number == 4 else work(number)), [])
        self.assertIsNone(store.header(PAGE, NOW))


if __name__ == '__main__':
    unittest.main()
