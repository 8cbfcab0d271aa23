"""Files that are replaced at once."""
from __future__ import annotations

import contextlib
import os
import stat
import tempfile
from typing import Union

Path = Union[str, bytes, 'os.PathLike[str]']


def replace_file(name: Path, text: str, *, keeps_mode: bool = False) -> None:
    """Replace a file by one with this text, or leave it as it is.

    The file is written beside the old one and then renamed, so that a crash leaves one of the two
    whole. Only its owner can read it, unless keeps_mode is true and the old one has another mode. A
    device or a pipe is written.
    """
    name = os.fsdecode(name)
    if os.path.exists(name) and not os.path.isfile(name):
        with open(name, 'w', encoding='utf-8', newline='') as file:
            file.write(text)
        return
    path = os.path.realpath(name)
    mode = stat.S_IMODE(os.stat(path).st_mode) if keeps_mode and os.path.exists(path) else 0o600
    number, beside = tempfile.mkstemp(prefix=os.path.basename(path) + '.', dir=os.path.dirname(path))
    try:
        with open(number, 'w', encoding='utf-8', newline='') as file:
            file.write(text)
            file.flush()
            os.fchmod(file.fileno(), mode)
            os.fsync(file.fileno())
        os.replace(beside, path)
    except BaseException:
        with contextlib.suppress(FileNotFoundError):
            os.unlink(beside)
        raise
