"""Cookies that are merged into a store. Those that it leaves out are logged."""
from __future__ import annotations

import time

from ._files import Path
from ._jar import StoreJar
from ._store import CookieStore


def merge_logged(store: CookieStore, other: CookieStore) -> None:
    """Insert the cookies of another store as CookieStore.merge() does, and log those that are left out."""
    now = int(time.time())
    if store.merge(other, now):
        StoreJar(store)._log_rejected(other.cookies(), now)


def merge_file(store: CookieStore, path: Path) -> None:
    """Insert the cookies of a file, if there is one, as merge_logged() does."""
    with CookieStore.open(path) as other:
        merge_logged(store, other)
