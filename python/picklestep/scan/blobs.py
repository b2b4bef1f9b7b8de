"""Bytes that can be read at any place: of a file, of a part of one, or unpacked into memory."""

from __future__ import annotations

import mmap
import os
import threading
import time
from bisect import bisect_right
from contextlib import suppress
from copy import copy
from dataclasses import dataclass
from functools import lru_cache
from typing import BinaryIO, Iterable, Iterator, List, Optional, Sequence, Tuple, cast

from ..sources import opens_descriptors
from ..took import seconds_of_programs

__all__ = ['CHUNK', 'Blob', 'Budget', 'BytesBlob', 'FileBlob', 'JoinedBlob', 'LimitMet', 'Limits', 'OpenedBlob', 'Part',
           'PartMet', 'STEPS', 'STEPS_OF_A_MEMBER', 'Spooled', 'WORDS_OF_LIMITS', 'spooled']

CHUNK = 1 << 18


@dataclass(frozen=True)
class Limits:
    """How much is looked at in one file.

    Unpacked bytes, members, containers one in another, seconds of processor time, bytes of memory (of all processes together), and lines of
    the program's answers.
    """

    unpacked: int = 1 << 30
    members: int = 100_000
    depth: int = 4
    seconds: float = 60
    memory: int = 1 << 30
    lines: int = 10_000_000


# The names of limits on the command line and in a policy, and which these are.
WORDS_OF_LIMITS = {'bytes': 'unpacked', 'members': 'members', 'depth': 'depth', 'seconds': 'seconds', 'memory': 'memory', 'lines': 'lines'}


class LimitMet(Exception):
    """A limit is met; the text says which."""


class PartMet(LimitMet):
    """What may be taken of a limit for one part of the work is met."""


# This much of the memory is left to the interpreter itself.
_OWN_MEMORY = 96 << 20
_PAGE = mmap.PAGESIZE

# After so many opcodes the time is looked at.
STEPS = 1 << 12
# A header of a member takes as long as so many.
STEPS_OF_A_MEMBER = 64


class Budget:
    """What is left of the limits while a file is looked at.

    `size` is that of the file, and `held` how many unpacked bytes are in memory.
    """

    def __init__(self, limits: Limits) -> None:
        self.limits = limits
        self.size = 0
        self.unpacked = 0
        self.read = 0
        self.members = 0
        self.lines = limits.lines
        self.answered = 0
        self.held = 0
        self._begin = _used.seconds()
        self._size = _own_size()
        self._steps = 0
        self._parts: List[float] = []

    def of_value(self, size: int) -> 'Budget':
        """The budget of one value of a store: bytes and members of its own, and what is left of time, memory and lines of the file."""
        inner = copy(self)
        inner.size = size
        inner.unpacked = inner.read = inner.members = 0
        inner._parts = []
        return inner

    @property
    def seconds(self) -> float:
        """Processor time that is left. It counts what this process took, and the programs that it started."""
        return self.limits.seconds - (_used.seconds() - self._begin)

    def spend(self) -> float:
        """Looks at the processor time, and at the memory of this process. Answers the seconds that are left."""
        seconds = self.limits.seconds - (_used.seconds() - self._begin)
        if seconds <= 0:
            raise LimitMet(f'it took {self.limits.seconds:g} seconds of processor time: the rest of the file is not looked at')
        grown = _used.memory - self._size
        if self._parts and (seconds <= self._parts[-1] or grown > self.limits.memory // 4):
            raise PartMet('reading it strictly would take more time or memory than there is')
        if grown > self.limits.memory // 2:
            raise LimitMet(f'it takes more than half of the {self.limits.memory:,} bytes of memory that it may: the rest of the file is not '
                           'looked at')
        return seconds

    def count(self, steps: int) -> None:
        """Counts opcodes, and now and then looks at the time and the memory."""
        self._steps += steps
        if self._steps >= STEPS:
            self._steps = 0
            self.spend()

    def half(self) -> '_Half':
        """Within it PartMet is raised where half of the time that is left is taken, or much memory."""
        return _Half(self._parts, self.seconds / 2)

    def most_held(self) -> int:
        """How many unpacked bytes may be held at once: a quarter of the memory, since a pickle takes more than its bytes to be read."""
        return max(1 << 16, self.limits.memory // 4 - self.held)

    def memory(self) -> int:
        """What is left of the memory for a program, by what was used when it was last asked for."""
        return max(16 << 20, self.limits.memory - self.held - max(_OWN_MEMORY, _used.memory))

    def unpack(self, count: int) -> None:
        """Counts unpacked bytes."""
        self.unpacked += count
        if self.unpacked > self.limits.unpacked:
            raise LimitMet(f'more than {self.limits.unpacked:,} bytes are unpacked: the rest of the file is not looked at')
        self.count(STEPS_OF_A_MEMBER + count * STEPS // CHUNK)

    def look(self, count: int) -> None:
        """Counts bytes that are looked at. Those of the file and the unpacked ones may be once; members that share bytes need more."""
        self.read += count
        if self.read > self.size + self.unpacked + self.limits.unpacked:
            raise LimitMet(f'members share bytes, and more than {self.limits.unpacked:,} are looked at again: the rest of the file is not '
                           'looked at')
        self.spend()

    def member(self) -> None:
        """Counts a member."""
        self.members += 1
        if self.members > self.limits.members:
            raise LimitMet(f'it has more than {self.limits.members:,} members: the rest of the file is not looked at')


class _Half:
    """While this goes on, so many seconds are to be left."""

    def __init__(self, parts: List[float], seconds: float) -> None:
        self._parts = parts
        self._seconds = seconds

    def __enter__(self) -> None:
        self._parts.append(self._seconds)

    def __exit__(self, *error: object) -> None:
        self._parts.pop()


def _own_size() -> int:
    """Bytes of memory that this process has."""
    try:
        return int(os.pread(_statm(os.getpid()), 200, 0).split()[1]) * _PAGE
    except (OSError, ValueError, IndexError, AttributeError):  # (only Linux has that file)
        return 0


@lru_cache(maxsize=1)
def _statm(process: int) -> int:
    """The file with the size of this process, which stays open: opening it takes longer than reading it."""
    return os.open(f'/proc/{process}/statm', os.O_RDONLY | os.O_CLOEXEC)


# Seconds between two questions for what is used.
_WAIT = 0.01


class _Used:
    """What this process and the programs that it waited for have taken.

    The kernel is asked again only after a while: on a busy machine it takes the question as a place to run others, and a small file asks
    several times.
    """

    def __init__(self) -> None:
        self._next = -1.0
        self._seconds = 0.0
        # The bytes of memory that this process had when the seconds were asked for.
        self.memory = 0

    def seconds(self) -> float:
        """The seconds of processor time."""
        now = time.monotonic()
        if now >= self._next:
            self._seconds = time.process_time() + seconds_of_programs()
            self.memory = _own_size()
            self._next = now + _WAIT
        return self._seconds


_used = _Used()


class Blob:
    """Bytes of a known size."""

    size: int

    def read(self, offset: int, count: int) -> bytes:
        """The bytes from an offset on: `count` of them, or fewer at the end. There are none before the first."""
        raise NotImplementedError

    def part(self, offset: int, size: int) -> 'Blob':
        """A part, which ends where this ends at the latest."""
        offset = min(max(offset, 0), self.size)
        return Part(self, offset, max(0, min(size, self.size - offset)))

    def chunks(self, offset: int = 0) -> Iterator[bytes]:
        """All bytes from an offset on, in pieces."""
        while True:
            piece = self.read(offset, min(CHUNK, self.size - offset))
            if not piece:
                return
            yield piece
            offset += len(piece)

    def find(self, sign: bytes, offset: int = 0) -> int:
        """Where these bytes first stand from an offset on, or -1."""
        step = 512
        while offset + len(sign) <= self.size:
            piece = self.read(offset, step + len(sign) - 1)
            at = piece.find(sign)
            if at >= 0:
                return offset + at
            if len(piece) < len(sign):
                return -1
            offset += len(piece) - len(sign) + 1
            step = CHUNK
        return -1

    def is_zeros(self, start: int, end: int) -> bool:
        """Whether a range holds zeros only."""
        return all(not piece.strip(b'\0') for piece in self.part(start, end - start).chunks())


_turn = threading.Lock()


def _read_at(descriptor: int, count: int, offset: int) -> bytes:
    """At most this many bytes of an open file from an offset on."""
    if hasattr(os, 'pread'):
        return os.pread(descriptor, count, offset)
    with _turn:  # (Windows has no pread)
        os.lseek(descriptor, offset, os.SEEK_SET)
        return os.read(descriptor, count)


# The bytes of a file that is read once: who looks at a small one asks for its parts again and again, and all come from one moment.
_KEPT = 1 << 16


class FileBlob(Blob):
    """An open file that has a descriptor."""

    def __init__(self, file: BinaryIO, size: int, name: Optional[str] = None) -> None:
        """`name` is the path that it was opened by, if there is one."""
        self.file = file
        self.size = size
        self.name = name
        self._content: Optional[bytes] = None

    def read(self, offset: int, count: int) -> bytes:
        if offset < 0 or count <= 0:
            return b''
        if self._content is not None:
            return self._content[offset:offset + count]
        if self.size > _KEPT:
            return self._read(offset, min(count, self.size - offset))
        return self._kept()[offset:offset + count]

    def find(self, sign: bytes, offset: int = 0) -> int:
        return super().find(sign, offset) if self.size > _KEPT else self._kept().find(sign, offset)

    def _kept(self) -> bytes:
        """All bytes of a small file."""
        if self._content is None:
            self._content = self._read(0, self.size)
        return self._content

    def _read(self, offset: int, count: int) -> bytes:
        pieces = []
        while count > 0:
            piece = _read_at(self.file.fileno(), count, offset)
            if not piece:
                break  # the file became shorter
            pieces.append(piece)
            offset += len(piece)
            count -= len(piece)
        return b''.join(pieces)

    def path(self) -> Optional[str]:
        """A path by which the program opens this very file again, whatever its name stands for by then. There is none where it opens only
        files with a name."""
        return f'/proc/{os.getpid()}/fd/{self.file.fileno()}' if opens_descriptors() else None

    def opened_name(self) -> Optional[str]:
        """The path of this file, where it is still its own."""
        name = self.name
        with suppress(OSError):  # (only Linux has such a path)
            name = os.readlink(f'/proc/{os.getpid()}/fd/{self.file.fileno()}')
        try:
            return name if name is not None and os.path.samestat(os.stat(name), os.fstat(self.file.fileno())) else None
        except OSError:
            return None


class Spooled(FileBlob):
    """A file of our own, which goes when it is closed."""

    def path(self) -> str:
        return super().path() or self.file.name


class BytesBlob(Blob):
    """Bytes in memory."""

    def __init__(self, content: bytes) -> None:
        self.content = memoryview(content)
        self.size = len(content)

    def read(self, offset: int, count: int) -> bytes:
        return bytes(self.content[offset:offset + max(0, count)]) if offset >= 0 else b''


class OpenedBlob(Blob):
    """A file object without a descriptor, such as one that fsspec opened."""

    def __init__(self, file: BinaryIO) -> None:
        self.file = file
        self.size = file.seek(0, os.SEEK_END)

    def read(self, offset: int, count: int) -> bytes:
        if count <= 0 or offset < 0:
            return b''
        self.file.seek(offset)
        return self.file.read(count)


class Part(Blob):
    """A part of other bytes."""

    def __init__(self, whole: Blob, offset: int, size: int) -> None:
        # A part of a part reads from the whole at once.
        self.whole: Blob = whole.whole if isinstance(whole, Part) else whole
        self.offset: int = whole.offset + offset if isinstance(whole, Part) else offset
        self.size = size

    def read(self, offset: int, count: int) -> bytes:
        if not 0 <= offset < self.size:
            return b''
        return self.whole.read(self.offset + offset, min(count, self.size - offset))


class JoinedBlob(Blob):
    """Bytes without some ranges of them, which are cut out."""

    def __init__(self, whole: Blob, cut: Sequence[Tuple[int, int]]) -> None:
        """`cut` are the ranges, as offset and end, in order."""
        self.whole = whole
        self.starts: List[int] = [0]  # where each piece begins here, and in the whole
        self.offsets: List[int] = [0]
        kept = place = 0
        for start, end in cut:
            kept += start - place
            place = end
            self.starts.append(kept)
            self.offsets.append(end)
        self.size = kept + whole.size - place

    def read(self, offset: int, count: int) -> bytes:
        pieces: List[bytes] = []
        count = min(count, self.size - offset) if offset >= 0 else 0
        while count > 0:
            index = bisect_right(self.starts, offset) - 1
            end = self.starts[index + 1] if index + 1 < len(self.starts) else self.size
            piece = self.whole.read(self.offset_of(offset), min(count, end - offset))
            if not piece:
                break
            pieces.append(piece)
            offset += len(piece)
            count -= len(piece)
        return b''.join(pieces)

    def offset_of(self, offset: int) -> int:
        """Where in the whole bytes an offset is.

        >>> JoinedBlob(BytesBlob(b'ab....cd'), [(2, 6)]).offset_of(2)
        6
        """
        index = bisect_right(self.starts, offset) - 1
        return self.offsets[index] + offset - self.starts[index]


def nameless_file() -> BinaryIO:
    """A file without a name: in memory where the system has such, else in the folder for temporary files. Where the program opens only files
    with a name it has one there, as long as it is open."""
    if not opens_descriptors():
        import tempfile
        return cast(BinaryIO, tempfile.NamedTemporaryFile(prefix='picklestep-scan-', buffering=0))
    if hasattr(os, 'memfd_create'):
        return cast(BinaryIO, os.fdopen(os.memfd_create('picklestep-scan', os.MFD_CLOEXEC), 'w+b', buffering=0))
    import tempfile
    return cast(BinaryIO, tempfile.TemporaryFile(buffering=0))


def spooled(pieces: Iterable[bytes]) -> Spooled:
    """The pieces as a file of our own. Whoever asks for it closes `.file`."""
    file = nameless_file()
    try:
        size = 0
        for piece in pieces:
            view = memoryview(piece)
            while view:
                view = view[file.write(view):]
            size += len(piece)
        return Spooled(file, size)
    except BaseException:
        file.close()
        raise
