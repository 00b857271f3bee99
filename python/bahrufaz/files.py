"""Files read as far as they may be long, written whole, and written together if they belong together."""

from __future__ import annotations

import contextlib
import errno
import os
import shutil
import tempfile
from pathlib import Path
from typing import Mapping, Optional, Union

Content = Union[bytes, str]


def read_most(path: str | Path, most: int) -> bytes:
    """The bytes of a file, or of an endless one the first most + 1: enough to see that there are too many."""
    with open(path, "rb") as file:
        return file.read(most + 1)


def write_whole(path: str | Path, content: Content) -> None:
    """Writes a file beside its place and then renames it: nobody meets half of it."""
    write_together({path: content})


def write_together(contents: Mapping[str | Path, Optional[Content]]) -> None:
    """Replaces all these files or none of them; None takes a file away."""
    with contextlib.ExitStack() as scratch:
        replacements = [_replacement(path, content, scratch) for path, content in contents.items()]
        done: list[_Replacement] = []
        try:
            for one in replacements:
                done.append(one)
                one.replace()
        except BaseException:
            for one in reversed(done):
                with contextlib.suppress(OSError):  # what could not be replaced is there still
                    one.put_back()
            raise


def is_special(path: str | Path) -> bool:
    """Whether a device or a pipe is there: what is written to it goes through, and nothing is replaced."""
    return Path(path).exists() and not Path(path).is_file() and not Path(path).is_dir()


def _replacement(path: str | Path, content: Optional[Content], scratch: contextlib.ExitStack) -> _Replacement:
    data = content.encode("utf-8") if isinstance(content, str) else content
    if data is not None and is_special(path):
        return _Through(Path(path), data)
    place = Path(os.path.realpath(path))
    try:
        return _Replacement(place, data, scratch)
    except OSError as error:  # the name that was given says more than that of a scratch file
        raise type(error)(error.errno, error.strerror, str(path)) from None


class _Replacement:
    """A file written beside its place, ready to be renamed over it, with the old one kept until all is done."""

    def __init__(self, place: Path, data: Optional[bytes], scratch: contextlib.ExitStack):
        if place.is_dir():
            raise IsADirectoryError(errno.EISDIR, os.strerror(errno.EISDIR), str(place))
        self._place, self._new, self._old = place, None, None
        if data is not None:
            self._new = _beside(place, scratch)
            _write_through(self._new, data)
            os.chmod(self._new, _mode_for(place))
        if place.exists():
            self._old = _beside(place, scratch)
            _keep(place, self._old)

    def replace(self) -> None:
        if self._new:
            os.replace(self._new, self._place)
        elif self._old:
            self._place.unlink()
        _sync_directory(self._place.parent)

    def put_back(self) -> None:
        if self._old:
            os.replace(self._old, self._place)
        else:
            with contextlib.suppress(FileNotFoundError):
                self._place.unlink()


class _Through(_Replacement):
    """What goes to a device or a pipe, where there is nothing to put back."""

    def __init__(self, place: Path, data: bytes):
        self._place, self._data = place, data

    def replace(self) -> None:
        try:
            self._place.write_bytes(self._data)
        except OSError as error:
            raise type(error)(error.errno, error.strerror, str(self._place)) from None

    def put_back(self) -> None:
        pass


def _beside(place: Path, scratch: contextlib.ExitStack) -> Path:
    """A new file in the directory of a place, gone at the end unless it was renamed."""
    handle, name = tempfile.mkstemp(prefix=".bahrufaz-", dir=place.parent)
    os.close(handle)
    scratch.callback(Path(name).unlink, missing_ok=True)
    return Path(name)


def _write_through(path: Path, data: bytes) -> None:
    with open(path, "wb") as file:
        file.write(data)
        file.flush()
        os.fsync(file.fileno())


def _keep(place: Path, kept: Path) -> None:
    """Keeps the file under a second name: by a link, or by a copy where there are no links."""
    kept.unlink()
    try:
        os.link(place, kept)
    except OSError:
        shutil.copy2(place, kept)


def _sync_directory(directory: Path) -> None:
    """Makes a renaming last; where directories cannot be synced, there is nothing to do."""
    with contextlib.suppress(OSError):
        handle = os.open(directory, os.O_RDONLY)
        try:
            os.fsync(handle)
        finally:
            os.close(handle)


def _mode_for(place: Path) -> int:
    """The mode of the file that stands there, else that of a new file."""
    if place.exists():
        return place.stat().st_mode & 0o777
    mask = os.umask(0)
    os.umask(mask)
    return 0o666 & ~mask
