"""What os.fork() waits for.

A child of os.fork() has only the thread that called it. While that thread holds the locks of all stores, no other thread is in
a call, which the child would find half done.
"""
from __future__ import annotations

import os
import threading
import weakref
from typing import Any, List

#: The lock that os.fork() holds while it takes those of all stores. Who takes those of two stores holds it too, so that neither
#: waits for the other.
LOCK = threading.Lock()
_stores: weakref.WeakSet[Any] = weakref.WeakSet()
_held: List[threading.Lock] = []


def add(store: Any) -> None:
    """Let os.fork() wait until no thread holds the attribute _lock of a store."""
    with LOCK:
        _stores.add(store)


def _before_fork() -> None:
    LOCK.acquire()
    for store in list(_stores):
        store._lock.acquire()
        _held.append(store._lock)


def _after_fork() -> None:
    while _held:
        _held.pop().release()
    LOCK.release()


os.register_at_fork(before=_before_fork, after_in_parent=_after_fork, after_in_child=_after_fork)
