"""Arguments of calls, as the C library takes them."""
from __future__ import annotations

import math
import operator
import time
from typing import Optional, Union

from ._status import CookieStoreError, Status

Text = Union[str, bytes]
Time = Union[int, float]


def bytes_of(text: Text) -> bytes:
    """Return a string argument as bytes. A lone surrogate becomes bytes that are not UTF-8."""
    if isinstance(text, bytes):
        return text
    if isinstance(text, str):
        return text.encode('utf-8', 'surrogatepass')
    raise TypeError(f'expected str or bytes, not {type(text).__name__}')


def seconds_of(now: Optional[Time]) -> int:
    """Return a time in whole seconds, rounded down, or the current time for None.

    Raises BAD_TIME if it has more than 64 bits.
    """
    if now is None:
        return int(time.time())
    if isinstance(now, float):
        now = math.floor(now) if math.isfinite(now) else 2**63
    seconds = operator.index(now)
    if not -2**63 <= seconds < 2**63:
        raise CookieStoreError(Status.BAD_TIME)
    return seconds
