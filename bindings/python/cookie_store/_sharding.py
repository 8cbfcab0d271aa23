"""Stores that are split by site."""
from __future__ import annotations

import ctypes
import operator

from ._arguments import Text, bytes_of
from ._library import LIBRARY
from ._status import CookieStoreError, Status, check


def shard(root: Text, shards: int) -> int:
    """Return the number of the shard of a root, from 0 to shards - 1.

        store = stores[cookie_store.shard(stores[0].root(url), len(stores))]

    Stores that are all strict and have the same public suffix list and limit do what one store does,
    if each call goes to the store of the root of its URL, or of the root of its domain, see
    CookieStore.root(). Stores that are not strict, or have no list, do not.

    The number is the 64-bit FNV-1a hash of the root modulo shards. It never changes.

    Raises CookieStoreError: BAD_LIMIT if shards is less than 1 or has more than 32 bits, NOT_UTF8.
    """
    text, count, number = bytes_of(root), operator.index(shards), ctypes.c_uint32()
    if not 0 <= count < 2**32:
        raise CookieStoreError(Status.BAD_LIMIT)
    check(LIBRARY.cookie_store_shard(text, len(text), count, number))
    return number.value
