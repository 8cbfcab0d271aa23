"""A store that is saved and loaded."""
from __future__ import annotations

import ctypes
import os
from typing import Iterable, List, Optional, Tuple, Type, TypeVar

from ._arguments import Text, Time, bytes_of, seconds_of
from ._files import Path, replace_file
from ._formats import NETSCAPE_LENIENT, Format, Which, format_of, option_of
from ._handle import Handle, random_key
from ._library import LIBRARY
from ._listing import Cookie, unexpired
from ._log import log_not_saved
from ._status import BadLine, CookieStoreError, Status, check, text_of

_Saved = TypeVar('_Saved', bound='SavedStore')


def _key(row: Cookie) -> Tuple[str, str, str]:
    """Return what is unique to a cookie of a cookies.txt file, in which domains are in lower case."""
    return row.domain.lower(), row.path, row.name


class SavedStore(Handle):
    """The part of a CookieStore that saves and loads its cookies."""

    def __init__(self, *, strict: bool = False) -> None:
        super().__init__()
        if strict:
            self.set_strict(True)

    @classmethod
    def open(cls: Type[_Saved], path: Path, *, strict: bool = False) -> _Saved:
        """Return a store with the cookies of a file. If there is no such file, the store is empty.

            store = CookieStore.open('cookies.json')
            ...
            store.save('cookies.json')

        The format is that of the suffix: `.json`, or none, for a list in JSON, `.ron` for one in RON, and
        `.txt` for a cookies.txt file. Cookies that have expired are left out. If strict is true, the store
        follows the rules of set_strict() from then on.

        Raises ValueError for another suffix; OSError if the file cannot be read, or its folder does not
        exist; and what loads() raises, with the name of the file in the attribute filename.
        """
        form, name = format_of(path), os.fsdecode(path)
        try:
            with open(name, 'rb') as file:
                text = file.read()
        except FileNotFoundError:
            if not os.path.basename(name) or not os.path.isdir(os.path.dirname(os.path.abspath(name))):
                raise  # save() would fail too, after the requests
            return cls(strict=strict)
        try:
            return cls.loads(text, form, strict=strict)
        except CookieStoreError as error:
            error.filename = name
            raise

    def save(self, path: Path, now: Optional[Time] = None) -> None:
        """Save the cookies that have not expired, session cookies included, to a file for open().

        The file is written beside the old one and then renamed, so that a crash leaves one of the two whole.
        A new file can be read by its owner alone, and another one keeps its mode. Cookies that a cookies.txt
        file cannot represent are left out and logged, see dumps().

        Raises ValueError for a suffix without a format, and OSError if the file cannot be written.
        """
        form = format_of(path)
        if form is Format.NETSCAPE:
            text, left_out = self.dumps_lenient(Which.UNEXPIRED, now)
            if left_out:
                self._log_left_out(unexpired(self.cookies(), seconds_of(now)), text)
        else:
            text = self.dumps(form, Which.UNEXPIRED, now)
        replace_file(path, text, keeps_mode=True)

    def _log_left_out(self, rows: Iterable[Cookie], text: str) -> None:
        """Log those of the cookies that the store left out of a cookies.txt file."""
        with SavedStore.loads(text, Format.NETSCAPE, Which.ALL) as saved:
            keys = {_key(row) for row in saved.cookies()}
        for row in rows:
            if _key(row) not in keys:
                log_not_saved(row.domain, row.name, text_of(Status.UNREPRESENTABLE))

    def dumps(self, format: Format = Format.JSON, which: Which = Which.UNEXPIRED, now: Optional[Time] = None) -> str:
        """Return the cookies in a format, in the order of the store, followed by a line feed.

            store.dumps()                        # the unexpired cookies, in JSON: session cookies too, such as most logins
            store.dumps(Format.NETSCAPE)         # the same, as a cookies.txt file
            store.dumps(which=Which.PERSISTENT)  # the persistent ones of these

        Which cookies have expired is decided at now. In JSON and RON, a cookie that was received with
        SameSite=None and without Secure is Secure in the store that is loaded from the list. A cookies.txt
        file has no SameSite.

        Raises, in the order in which they are checked:
        BAD_OPTION -- format or which is not valid
        NO_STORE, BAD_TIME -- as any method
        BAD_EXPIRY -- a cookie to save in JSON or RON expires before the year 0
        UNREPRESENTABLE -- a cookies.txt file cannot represent a cookie to save: it has a control
            character, it expires before 1970, its domain is empty, begins with a dot, a space, `#` or `$`,
            or reads as another, as `localhost.local` does, its path is empty, TRUE or FALSE, or has a
            quotation mark at an end, or, in a loaded store, its name or value is not one that a header
            value has
        """
        return self._save(option_of(Format, format), which, now)[0]

    def dumps_lenient(self, which: Which = Which.UNEXPIRED, now: Optional[Time] = None) -> Tuple[str, int]:
        """Return a cookies.txt file without the cookies that it cannot represent, and the number of these.

        All else is as in dumps() with Format.NETSCAPE. Raises BAD_OPTION.
        """
        return self._save(NETSCAPE_LENIENT, which, now)

    def _save(self, format: int, which: Which, now: Optional[Time]) -> Tuple[str, int]:
        """Return the cookies in a format, and the number of those that NETSCAPE_LENIENT leaves out."""
        which, seconds = option_of(Which, which), seconds_of(now)
        needed, left_out = ctypes.c_size_t(), ctypes.c_size_t()
        # A cookie takes at most this many copies of its strings and this many other bytes. With many escaped characters it may
        # take more: then the cookies are written twice.
        copies, others = (2, 512) if format in (Format.JSON, Format.RON) else (1, 40)
        with self._lock:
            count, length = self._sizes()
            room = 4096 + copies * length + others * count
            while True:
                out = ctypes.create_string_buffer(room)
                number = LIBRARY.cookie_store_save(self._store, format, which, seconds, out, room, needed, left_out)
                if number != Status.NO_ROOM:
                    break
                room = needed.value
        check(number)
        return str(memoryview(out)[:needed.value], 'utf-8'), left_out.value

    @classmethod
    def loads(cls: Type[_Saved], text: Text, format: Format = Format.JSON, which: Which = Which.UNEXPIRED,
              now: Optional[Time] = None, *, strict: bool = False) -> _Saved:
        """Return a new store with cookies in a format, as dumps() writes it.

        Which cookies have expired is decided at now. The store has no public suffix list and no limit. If
        strict is true, it follows the rules of set_strict() from then on. In a cookies.txt file, has_path
        is true for all cookies.

        Raises, in the order in which they are checked:
        BAD_OPTION -- format or which is not valid
        BAD_TIME, NOT_UTF8 -- as any method
        BAD_JSON, BAD_SHAPE, BAD_RON -- text is not a list of cookies in this format
        BAD_EXPIRY -- an expiry of a list is not a date and time
        PARSE -- the string of a cookie of a list is not a cookie
        BAD_LINE -- a line of a cookies.txt file is malformed: BadLine, with the number of the first one
        """
        return cls._load(text, option_of(Format, format), which, now, strict)[0]

    @classmethod
    def loads_lenient(cls: Type[_Saved], text: Text, which: Which = Which.UNEXPIRED, now: Optional[Time] = None, *,
                      strict: bool = False) -> Tuple[_Saved, List[int]]:
        """Return a new store with cookies of a cookies.txt file, and the numbers of its malformed lines, from 1.

        These lines are left out. All else is as in loads() with Format.NETSCAPE. Raises BAD_OPTION.
        """
        return cls._load(text, NETSCAPE_LENIENT, which, now, strict)

    @classmethod
    def _load(cls: Type[_Saved], text: Text, format: int, which: Which, now: Optional[Time],
              strict: bool) -> Tuple[_Saved, List[int]]:
        """Return a new store with cookies in a format, and the numbers of the lines that NETSCAPE_LENIENT leaves out."""
        saved, which, seconds, store = bytes_of(text), option_of(Which, which), seconds_of(now), cls()
        room = saved.count(b'\n') + 1 if format == NETSCAPE_LENIENT else 1
        lines, malformed = (ctypes.c_size_t * room)(), ctypes.c_size_t()
        LIBRARY.cookie_store_free(store._store)
        number = LIBRARY.cookie_store_load(store._store, *random_key(), format, which, saved, len(saved), seconds, lines, room,
                                           malformed)
        if number == Status.BAD_LINE:
            raise BadLine(lines[0])
        check(number)
        if strict:
            store.set_strict(True)
        return store, lines[:malformed.value]
