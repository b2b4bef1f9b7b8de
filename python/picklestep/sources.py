"""Sources: what is to be read, under a path that the program can open."""

from __future__ import annotations

import io
import os
import stat
from typing import Any, Iterator, Optional, Protocol, Sequence, Union

from .errors import ProgramError
from .patterns import pattern
from .place import find_program, is_module

__all__ = ['LIMIT', 'Input', 'OwnFile', 'Source', 'content_of', 'is_fifo', 'is_opened', 'is_read_once', 'is_word',
           'opened_descriptor', 'opens_descriptors', 'rereadable', 'size_of', 'small_content']

class Readable(Protocol):
    """A binary file object, as far as it is needed."""

    def read(self, size: int, /) -> bytes:
        """At most this many bytes more; none at the end."""
        ...


# A pickle: its bytes, the path of a file, or an open binary file (read from its position to its end).
Source = Union[bytes, bytearray, memoryview, str, 'os.PathLike[str]', Readable]

# The program refuses inputs above this many bytes.
LIMIT = 1 << 30

_BLOCK = 1 << 20

_STREAMS = {'/dev/stdin': 0, '/dev/stdout': 1, '/dev/stderr': 2}
_OPENED = pattern(r'(?:/dev|/proc/(?:self|thread-self|([0-9]+)(?:/task/[0-9]+)?))/fd/([0-9]+)')
_MOST_LINKS = 40  # as Linux follows


class Input:
    """An input of the program, which stays open until it is closed.

    Bytes, what a file object gives, and what only this process has open lie in a file of our own. With `own`, a file is copied so too: then
    nobody else can change it.
    Raises what `open` raises where a path cannot be opened.
    """

    def __init__(self, source: Source, own: bool = False) -> None:
        self.files: Sequence[int] = ()
        self.path = ''
        self._own: Optional[OwnFile] = None
        try:
            self._open(source, own)
        except BaseException:
            self.close()
            raise

    def _open(self, source: Source, own: bool) -> None:
        if isinstance(source, (str, os.PathLike)):
            _try(source)
            path = os.path.join(os.getcwd(), os.fsdecode(source))
            if own or not is_word(path) or is_opened(path):
                self._keep_file(path)
            else:
                self.path = path
            return
        content: Any = source  # a type for all that gives its bytes came with Python 3.12
        if hasattr(content, 'read'):
            _copy(content, self._make())
        else:
            _write_all(self._make(), memoryview(content))

    def _keep_file(self, path: str) -> None:
        with _open_to_read(path) as file:
            _copy(file, self._make())

    def _make(self) -> int:
        self._own = OwnFile()
        self.files, self.path = self._own.files, self._own.path
        return self._own.descriptor

    def small_content(self, most: int) -> Optional[bytes]:
        """The bytes of a file of our own that has at most so many of them."""
        if self._own is None:
            return None
        content = self._own.beginning(most + 1)
        return content if len(content) <= most else None

    def beginning(self, most: int) -> bytes:
        """Its first bytes, up to so many; none of what is read once."""
        if self._own is not None:
            return self._own.beginning(most)
        if not os.path.isfile(self.path):
            return b''
        with open(self.path, 'rb', buffering=0) as file:
            return file.read(most)

    def blocks(self, begin: int) -> Iterator[bytes]:
        """Its bytes from an offset on, some at a time."""
        with open(self.path, 'rb', buffering=0) as file:
            file.seek(begin)
            while block := file.read(_BLOCK):
                yield block

    def size(self) -> int:
        """How many bytes it has; of what is no file, how many it may have."""
        status = os.stat(self.path)
        return status.st_size if stat.S_ISREG(status.st_mode) else LIMIT

    def close(self) -> None:
        """Lets the input go."""
        if self._own is not None:
            self._own.close()
            self._own = None

    def __enter__(self) -> Input:
        return self

    def __exit__(self, *error: object) -> None:
        self.close()


def small_content(source: Source, most: int) -> Optional[bytes]:
    """The bytes of a source that has at most so many of them, where that is known before it is read. Raises what `open` raises."""
    if isinstance(source, bytes):
        return source if len(source) <= most else None
    if isinstance(source, (str, os.PathLike)):
        status = os.stat(source)
        if not stat.S_ISREG(status.st_mode) or status.st_size > most:
            return None
        with open(source, 'rb', buffering=0) as file:
            content = file.read(most + 1)
        return content if len(content) <= most else None
    if hasattr(source, 'read'):
        return None
    view = memoryview(source)
    return view.tobytes() if view.nbytes <= most else None


def content_of(source: Source) -> bytes:
    """The bytes of a source, up to one past the program's limit. Raises what `open` raises.

    >>> content_of(bytearray(b'N.'))
    b'N.'
    """
    if isinstance(source, (str, os.PathLike)):
        with _open_to_read(os.fsdecode(source)) as file:
            return b''.join(_blocks(file))
    content: Any = source
    return b''.join(_blocks(content)) if hasattr(content, 'read') else memoryview(content).tobytes()


def is_opened(path: str, to_write: bool = False) -> bool:
    """Whether a path is what this process was given open, to read or `to_write`, such as a pipe of the shell. No other process has it under
    this name.

    >>> is_opened('/dev/stdin'), is_opened('/dev/fd/63'), is_opened('/dev/null'), is_opened('/dev/stdout', to_write=True)
    (True, True, False, True)
    """
    return opened_descriptor(path, to_write) is not None


def opened_descriptor(path: str, to_write: bool = False) -> Optional[int]:
    """The descriptor that such a path names, if it does.

    >>> opened_descriptor('/dev/fd/63'), opened_descriptor('/dev/stdout'), opened_descriptor('/dev/stdout', to_write=True)
    (63, None, 1)
    """
    for _ in range(_MOST_LINKS):
        path = os.path.abspath(path)
        stream = _STREAMS.get(path)
        if stream is not None:
            return stream if to_write or stream == 0 else None
        folder, name = os.path.split(path)
        # (a link may lead to the folder of them, which have numbers for names)
        opened = name.isdigit() and (_OPENED.fullmatch(path) or _OPENED.fullmatch(os.path.join(os.path.realpath(folder), name)))
        if opened and opened[1] in (None, str(os.getpid())):
            return int(opened[2])
        if not os.path.islink(path):
            return None
        path = os.path.join(folder, os.readlink(path))
    return None


def is_fifo(source: Source) -> bool:
    """Whether a source is the path of a FIFO, which has to be opened to wait for its writer. Raises what `stat` raises."""
    return isinstance(source, (str, os.PathLike)) and not is_opened(os.fsdecode(source)) and stat.S_ISFIFO(os.stat(source).st_mode)


def is_read_once(source: Source) -> bool:
    """Whether a source gives its bytes only once: a file object, a pipe, a device.

    >>> is_read_once(b'N.'), is_read_once('/dev/stdin')
    (False, True)
    """
    if isinstance(source, (str, os.PathLike)):
        return is_opened(os.fsdecode(source)) or os.path.exists(source) and not os.path.isfile(source)
    return hasattr(source, 'read')


def rereadable(source: Source) -> Source:
    """A source that can be read again and again: itself, or the bytes of one that is read once. Raises what `open` raises.

    >>> import io
    >>> rereadable(io.BytesIO(b'N.')), rereadable('a.pickle')
    (b'N.', 'a.pickle')
    """
    return content_of(source) if is_read_once(source) else source


def size_of(source: Source) -> int:
    """How many bytes a source has that can be read again. Raises what `stat` raises.

    >>> size_of(b'N.')
    2
    """
    if isinstance(source, (str, os.PathLike)):
        return os.stat(source).st_size
    content: Any = source
    return memoryview(content).nbytes


def _open_to_read(path: str) -> io.FileIO:
    """Opens a file. Of what this process was given closed there may be a descriptor in its place, which cannot be read."""
    descriptor = opened_descriptor(path)
    if descriptor is not None:
        try:
            os.read(descriptor, 0)
        except OSError as error:
            raise OSError(error.errno, error.strerror, path) from None
    return open(path, 'rb', buffering=0)


def _try(path: 'Union[str, os.PathLike[str]]') -> None:
    """Raises what `open` raises where a path cannot be opened. A FIFO is not opened twice: its writer would see that as its end."""
    mode = os.stat(path).st_mode
    if stat.S_ISREG(mode) or stat.S_ISDIR(mode):
        with open(path, 'rb'):
            pass


def is_word(path: str) -> bool:
    """Whether the program can be given the path as a word (it takes words in UTF-8)."""
    try:
        path.encode('utf-8')
    except UnicodeEncodeError:
        return False
    return True


class OwnFile:
    """A file of our own that the program can open by `path`, given the descriptors `files`.

    It lies in memory (`memfd_create`), or where the system has no such files in a temporary file without a name; the program opens it as
    /dev/fd/N. Neither can be left behind. The module opens only what has a name: there it is a temporary file, which goes when it is closed.
    With `is_saved_to` the program writes it: one with a name is not open here then, for Windows lets nobody replace an open file.
    """

    def __init__(self, is_saved_to: bool = False) -> None:
        self._name = ''
        if opens_descriptors():
            self.descriptor = _nameless_file()
            self.path, self.files = f'/dev/fd/{self.descriptor}', [self.descriptor]
        else:
            import tempfile  # (Linux has no use for it)
            self.descriptor, self._name = tempfile.mkstemp(prefix='picklestep-')
            self.path, self.files = self._name, []
            if is_saved_to:
                self._let_go()

    def _let_go(self) -> None:
        if self.descriptor >= 0:
            os.close(self.descriptor)
            self.descriptor = -1

    def beginning(self, most: int) -> bytes:
        """What is there, up to so many bytes."""
        if hasattr(os, 'pread'):
            return os.pread(self.descriptor, most, 0)
        with open(self._name, 'rb', buffering=0) as file:  # (Windows has no pread)
            return file.read(most)

    def content(self) -> bytes:
        """What the program has put there. (With a name it may be another file by now.)"""
        with open(self._name or os.dup(self.descriptor), 'rb') as file:
            return file.read()

    def close(self) -> None:
        """Lets the file go."""
        self._let_go()
        if self._name:
            os.unlink(self._name)

    def __enter__(self) -> OwnFile:
        return self

    def __exit__(self, *error: object) -> None:
        self.close()


def opens_descriptors() -> bool:
    """Whether the program can be given an open file."""
    try:
        return os.path.isdir('/dev/fd') and not is_module(find_program())
    except ProgramError:
        return True  # (there is no program, which its start will say)


def _nameless_file() -> int:
    """An open file without a name, which is gone when it is closed."""
    if hasattr(os, 'memfd_create'):
        return os.memfd_create('picklestep', os.MFD_CLOEXEC)
    import tempfile
    with tempfile.TemporaryFile() as file:
        return os.dup(file.fileno())


def _write_all(file: int, data: memoryview) -> None:
    rest = data.cast('B') if data.c_contiguous else memoryview(data.tobytes())
    while rest:
        rest = rest[os.write(file, rest):]


def _copy(source: Readable, file: int) -> None:
    """Copies what a file object gives."""
    for block in _blocks(source):
        _write_all(file, block)


def _blocks(source: Readable) -> Iterator[memoryview]:
    """What a file object gives, up to one byte past the program's limit."""
    left = LIMIT + 1
    while left:
        block = memoryview(source.read(min(left, _BLOCK)))
        if not block:
            return
        yield block
        left -= len(block)
