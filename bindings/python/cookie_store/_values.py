"""Stores of values by key: in memory, in the files of a folder, and in Redis."""
from __future__ import annotations

import contextlib
import fcntl
import os
import re
import threading
import urllib.parse
import zlib
from typing import Any, Dict, Iterable, Iterator, Optional, Protocol, Set, Union

from ._files import Path

# How many files of a folder are for locks, and how long a name of a file may be, without its suffix.
_LOCKS, _LONGEST_NAME = 64, 200
_SUFFIX = '.json'
# What a pattern of Redis has for other characters.
_GLOB = re.compile(r'[*?\[\]\\^]')


class KeyValueStore(Protocol):
    """A store of values by key. Whatever has a compare-and-set can be one."""

    def get(self, key: str) -> Optional[bytes]:
        """Return the value of a key, or None if it has none."""
        ...

    def swap(self, key: str, old: Optional[bytes], new: Optional[bytes]) -> bool:
        """If the value of a key is old, replace it by new, and return whether it was. None stands for no value.

        Other calls happen before this one or after it.
        """
        ...

    def keys(self) -> Iterable[str]:
        """Return the keys that have a value, each once."""
        ...


class MemoryValues:
    """Values in memory, for tests. Threads may share it."""

    def __init__(self) -> None:
        self._values: Dict[str, bytes] = {}
        self._lock = threading.Lock()

    def get(self, key: str) -> Optional[bytes]:
        """Return the value of a key, or None if it has none."""
        return self._values.get(key)

    def swap(self, key: str, old: Optional[bytes], new: Optional[bytes]) -> bool:
        """If the value of a key is old, replace it by new, and return whether it was."""
        with self._lock:
            if self._values.get(key) != old:
                return False
            if new is None:
                self._values.pop(key, None)
            else:
                self._values[key] = new
            return True

    def keys(self) -> Iterable[str]:
        """Return the keys that have a value."""
        return list(self._values)


class FolderValues:
    """Values in the files of a folder, which processes of one machine may share.

    The value of example.com is the file example.com.json. Characters other than ASCII letters, digits and
    `-._~` are escaped with `%`, and a long name is split into folders. Only the owner can read the files. A
    file is replaced at once: a crash, also of the machine, leaves the old one or the new one whole, and maybe
    a file that ends in `.new`, which the next writer of that file replaces. Files that end in `.lock` are
    locked, by flock(2), while one is written. They stay.
    """

    def __init__(self, folder: Path) -> None:
        """Use a folder, which is created if it does not exist. Raises OSError if that fails."""
        self._folder = os.fsdecode(folder)
        os.makedirs(self._folder, mode=0o700, exist_ok=True)

    def get(self, key: str) -> Optional[bytes]:
        """Return the value of a key, or None if it has none."""
        try:
            with open(self._path(key), 'rb') as file:
                return file.read()
        except FileNotFoundError:
            return None

    def swap(self, key: str, old: Optional[bytes], new: Optional[bytes]) -> bool:
        """If the value of a key is old, replace it by new, and return whether it was."""
        path = self._path(key)
        with self._locked(key):
            if self.get(key) != old:
                return False
            if new is not None:
                _replace(path, new)
            elif old is not None:
                os.unlink(path)
            return True

    def keys(self) -> Iterator[str]:
        """Yield the keys that have a value."""
        for folder, _, names in os.walk(self._folder):
            for name in names:
                if name.endswith(_SUFFIX):
                    path = os.path.relpath(os.path.join(folder, name), self._folder)
                    yield urllib.parse.unquote(path[:-len(_SUFFIX)].replace('+/', ''))

    def _path(self, key: str) -> str:
        """Return the name of the file of a key. No escaped name has a `+`."""
        name = urllib.parse.quote(key, safe='')
        *parents, last = [name[at:at + _LONGEST_NAME] for at in range(0, max(1, len(name)), _LONGEST_NAME)]
        return os.path.join(self._folder, *(f'{parent}+' for parent in parents), last + _SUFFIX)

    @contextlib.contextmanager
    def _locked(self, key: str) -> Iterator[None]:
        """Hold the lock of a key, which it shares with others."""
        name = f'{zlib.crc32(key.encode("utf-8", "surrogatepass")) % _LOCKS}.lock'
        lock = os.open(os.path.join(self._folder, name), os.O_RDWR | os.O_CREAT | os.O_CLOEXEC, 0o600)
        try:
            fcntl.flock(lock, fcntl.LOCK_EX)
            yield
        finally:
            fcntl.flock(lock, fcntl.LOCK_UN)  # a forked child may have a copy of the descriptor
            os.close(lock)


def _replace(path: str, value: bytes) -> None:
    """Replace a file while its lock is held."""
    os.makedirs(os.path.dirname(path), mode=0o700, exist_ok=True)
    beside = f'{path}.new'
    with open(os.open(beside, os.O_WRONLY | os.O_CREAT | os.O_TRUNC | os.O_CLOEXEC, 0o600), 'wb') as file:
        file.write(value)
        file.flush()
        os.fsync(file.fileno())
    os.replace(beside, path)


class RedisValues:
    """Values in Redis: the value of example.com is that of the key cookies:example.com.

    swap() is a transaction: WATCH, GET, then MULTI, SET or DEL, EXEC.
    """

    def __init__(self, client: Any, prefix: str = 'cookies:') -> None:
        """Use a redis.Redis of the package redis. prefix is what the names of its keys begin with."""
        self._client, self._prefix = client, prefix

    def get(self, key: str) -> Optional[bytes]:
        """Return the value of a key, or None if it has none."""
        return _bytes(self._client.get(self._prefix + key))

    def swap(self, key: str, old: Optional[bytes], new: Optional[bytes]) -> bool:
        """If the value of a key is old, replace it by new, and return whether it was."""
        name = self._prefix + key

        def change(pipe: Any) -> bool:
            if _bytes(pipe.get(name)) != old:
                return False
            pipe.multi()
            if new is None:
                pipe.delete(name)
            else:
                pipe.set(name, new)
            return True

        # If another client writes the value before EXEC, change() is called again.
        return bool(self._client.transaction(change, name, value_from_callable=True))

    def keys(self) -> Iterator[str]:
        """Yield the keys that have a value, with this prefix. They are kept in memory until the end: Redis may return one twice."""
        pattern = _GLOB.sub(r'\\\g<0>', self._prefix) + '*'
        found: Set[str] = set()
        for name in self._client.scan_iter(match=pattern, count=1000):
            key = (name.decode('utf-8') if isinstance(name, bytes) else str(name))[len(self._prefix):]
            if key not in found:
                found.add(key)
                yield key


def _bytes(value: Union[str, bytes, None]) -> Optional[bytes]:
    """Return a value of a client that decodes its responses, or that does not."""
    return value.encode('utf-8') if isinstance(value, str) else value
