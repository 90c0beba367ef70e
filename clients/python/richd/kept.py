"""The file in which a program keeps the name of its source from run to run, with the numbers that its documents have come to.

Its first line has the name and is written once, before the name is used. The second has the numbers, and is written when the client is
closed. They are likely ones: a run that ended otherwise used more, which its successor finds out by asking the server.
"""

from __future__ import annotations

import json
import os
import secrets
from typing import Any, Dict, Optional, Union

try:
    import fcntl
except ImportError:  # no POSIX: then nobody is kept from using the file twice at a time
    fcntl = None  # type: ignore[assignment]

Path = Union[str, "os.PathLike[str]"]


class Kept:
    """A file of one client at a time. Raises BlockingIOError where another one has it, ValueError where it is another file.

    `numbers` has the likely next numbers by document, and is None where the name has just been made up.
    """

    def __init__(self, path: Path):
        self._descriptor = os.open(path, os.O_RDWR | os.O_CREAT, 0o600)
        try:
            self._lock(path)
            self._read(path)
        except BaseException:
            os.close(self._descriptor)
            raise

    def close(self, numbers: Optional[Dict[str, int]] = None) -> None:
        """Writes numbers, where there are some, and lets the file go."""
        if self._descriptor < 0:
            return
        try:
            if numbers:
                self._write(len(self._first), _line({"numbers": numbers}))
        finally:
            os.close(self._descriptor)
            self._descriptor = -1

    def _lock(self, path: Path) -> None:
        if fcntl is None:
            return
        try:
            fcntl.flock(self._descriptor, fcntl.LOCK_EX | fcntl.LOCK_NB)
        except BlockingIOError as error:
            raise BlockingIOError(error.errno, "another client uses this name now", os.fspath(path)) from None

    def _read(self, path: Path) -> None:
        self.numbers: Optional[Dict[str, int]] = None
        content = os.pread(self._descriptor, os.fstat(self._descriptor).st_size, 0)
        if not content:
            self.source = f"py-{secrets.token_hex(12)}"
            self._first = _line({"source": self.source})
            self._write(0, self._first)
            _sync_folder(path)
            return
        first, _, rest = content.partition(b"\n")
        source = _value(first, "source")
        if not isinstance(source, str):
            raise ValueError(f"{os.fspath(path)!r} keeps no source's name")
        self.source, self._first = source, first + b"\n"
        numbers = _value(rest, "numbers")
        are_numbers = isinstance(numbers, dict) and all(type(number) is int and number > 0 for number in numbers.values())
        self.numbers = numbers if are_numbers else {}

    def _write(self, place: int, content: bytes) -> None:
        os.pwrite(self._descriptor, content, place)
        os.ftruncate(self._descriptor, place + len(content))
        os.fsync(self._descriptor)


def _line(value: Dict[str, Any]) -> bytes:
    return json.dumps(value).encode() + b"\n"


def _value(line: bytes, name: str) -> Any:
    """What a line has under a name, or None where it hasn't, as one that was written in part."""
    try:
        return json.loads(line)[name]
    except (ValueError, KeyError, TypeError):
        return None


def _sync_folder(path: Path) -> None:
    """Has the name of a new file last."""
    folder = os.open(os.path.dirname(os.path.abspath(path)), os.O_RDONLY)
    try:
        os.fsync(folder)
    finally:
        os.close(folder)
