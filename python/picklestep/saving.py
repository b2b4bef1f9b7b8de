"""A file that is saved so that no other is lost: into a new one, which takes the name of the old one when all of it is stored."""

from __future__ import annotations

import contextlib
import errno
import os
import stat
from pathlib import Path
from typing import IO, Any, Iterator, Optional, Union

from .errors import PicklestepError
from .sources import is_opened, opened_descriptor
from .wording import shown

__all__ = ['check_writable', 'is_same_file', 'naming', 'open_text', 'written_whole']


@contextlib.contextmanager
def naming(path: Union[str, Path]) -> Iterator[None]:
    """Within it a file is written. Where that fails, the PicklestepError has the name that the user gave, and not that of a file of ours.

    >>> with naming('list'):
    ...     raise OSError(28, 'No space left on device')
    Traceback (most recent call last):
    picklestep.errors.PicklestepError: cannot write list: No space left on device
    """
    try:
        yield
    except PicklestepError:  # (one of these is an OSError too, and not of this file)
        raise
    except OSError as error:
        raise PicklestepError(f'cannot write {shown(str(path))}: {error.strerror or error}') from error


def check_writable(path: str) -> None:
    """Raises OSError where a file could not be written now. It stays as it is, and where there was none there is none.

    >>> import tempfile
    >>> with tempfile.TemporaryDirectory() as folder:
    ...     check_writable(os.path.join(folder, 'new'))
    ...     os.listdir(folder)
    []
    """
    if os.path.isfile(path) or os.path.isdir(path):
        os.close(os.open(path, os.O_WRONLY))
    elif os.path.exists(path):
        # (a pipe is not opened: its reader would take the end of this for the end of all)
        if not os.access(path, os.W_OK):
            raise PermissionError(errno.EACCES, os.strerror(errno.EACCES), path)
    else:
        # Only making it shows that the system takes this name there. (What a link leads to is made, as it will be.)
        target = os.path.realpath(path) if os.path.islink(path) else path
        try:
            os.close(os.open(target, os.O_WRONLY | os.O_CREAT | os.O_EXCL, 0o600))
        except FileExistsError:  # (somebody has made it meanwhile, or a link leads to itself)
            os.close(os.open(path, os.O_WRONLY))
        else:
            os.unlink(target)


@contextlib.contextmanager
def written_whole(path: Path, encoding: Optional[str] = None) -> Iterator[IO[Any]]:
    """A file, of text where it has an encoding, that gets its name when it is whole. What cannot be replaced is written as it is: a device, a
    pipe, or what this process has open and has no name, or no longer one.

    >>> import tempfile
    >>> with tempfile.TemporaryDirectory() as folder:
    ...     with written_whole(Path(folder, 'new')) as file:
    ...         file.write(b'N.'), Path(folder, 'new').exists()
    ...     Path(folder, 'new').read_bytes(), len(os.listdir(folder))
    (2, False)
    (b'N.', 1)
    """
    kind = 'b' if encoding is None else ''
    target = Path(os.path.realpath(path))
    is_there = path.exists()
    if is_there and not _is_file_at(path, target):
        with open(path, f'w{kind}', encoding=encoding) as file:
            yield file
        return
    path = target
    if is_there:
        # (one that may not be written is not replaced)
        os.close(os.open(path, os.O_RDWR))
    beside = path.with_name(f'picklestep-save-{os.urandom(4).hex()}.unfinished')
    file = open(beside, f'x{kind}', encoding=encoding, opener=_private if is_there else None)
    try:
        with file:
            if is_there:
                _take_after(path, beside)
            yield file
            file.flush()
            os.fsync(file.fileno())
        os.replace(beside, path)
    except BaseException:
        beside.unlink()
        raise


def _is_file_at(path: Path, target: Path) -> bool:
    """Whether a path leads to a file of this name."""
    return path.is_file() and target.exists() and target.samefile(path) and not is_opened(str(target), to_write=True)


def is_same_file(file: str, out: Optional[str]) -> bool:
    """Whether what would be written is the file that was read."""
    return out is not None and os.path.exists(file) and os.path.exists(out) and os.path.samefile(file, out)


def open_text(path: str) -> IO[str]:
    """Opens a file to write text into it. What this process has open is written from where it is: opened anew, it would be emptied."""
    descriptor = opened_descriptor(path, to_write=True)
    opened: Union[str, int] = path if descriptor is None else os.dup(descriptor)
    return open(opened, 'w', encoding='utf-8', errors='backslashreplace')


def _private(path: str, flags: int) -> int:
    """Opens a file that others may not read until it has the mode of the one that it replaces."""
    return os.open(path, flags, 0o600)


def _take_after(path: Path, beside: Path) -> None:
    """Gives a file the owner of another where the system permits it, then its mode: a change of owner may clear bits of that."""
    before = os.stat(path)
    if hasattr(os, 'chown'):
        for owner, group in ((-1, before.st_gid), (before.st_uid, -1)):
            with contextlib.suppress(OSError):
                os.chown(beside, owner, group)
    os.chmod(beside, stat.S_IMODE(before.st_mode))
