"""Formats of a saved store, and which of its cookies are saved or loaded."""
from __future__ import annotations

import enum
import operator
import os
from typing import Type, TypeVar

from ._files import Path
from ._status import CookieStoreError, Status


class Format(enum.IntEnum):
    """The format of a saved store, with the numbers of cookie_store.h.

    JSON -- a list in JSON
    RON -- a list in RON
    NETSCAPE -- a cookies.txt file, which curl, wget and MozillaCookieJar use
    """
    JSON = 0
    RON = 1
    NETSCAPE = 2


#: The number of a cookies.txt file without what is malformed or cannot be represented.
NETSCAPE_LENIENT = 3

_BY_SUFFIX = {'': Format.JSON, '.json': Format.JSON, '.ron': Format.RON, '.txt': Format.NETSCAPE}


class Which(enum.IntEnum):
    """Which cookies are saved or loaded, with the numbers of cookie_store.h.

    ALL -- all cookies, expired ones included
    UNEXPIRED -- those that have not expired, session cookies included
    PERSISTENT -- the persistent ones of these
    """
    ALL = 0
    UNEXPIRED = 1
    PERSISTENT = 2


_Option = TypeVar('_Option', Format, Which)


def option_of(kind: Type[_Option], number: int) -> _Option:
    """Return the Format or the Which of a number. Raises BAD_OPTION if there is none."""
    try:
        return kind(operator.index(number))
    except ValueError:
        raise CookieStoreError(Status.BAD_OPTION) from None


def format_of(path: Path) -> Format:
    """Return the format that the suffix of a file stands for, in upper or lower case. Raises ValueError for an unknown suffix."""
    name = os.fsdecode(path)
    suffix = os.path.splitext(name)[1].lower()
    if suffix not in _BY_SUFFIX:
        raise ValueError(f'{name}: no format has the suffix {suffix}: name the file .json, .ron, or .txt for a cookies.txt file')
    return _BY_SUFFIX[suffix]
