"""What programs load from: each reader opens bytes in its own way and makes an unpickler of them. load_worker.py says what the unpicklers note.

This runs in each Python from 3.8 on, and needs nothing beside the standard library.
"""

from __future__ import annotations

import gzip
import io
import os
import random
import socket
import threading
import zipfile
import zlib
from collections.abc import Callable, Iterator
from typing import Any, Optional

# A socket takes so many bytes before anybody reads.
MOST_IN_SOCKET = 60_000


class Peeking(io.BytesIO):
    """A file that shows all that is left of it, as `pickle.loads` has it."""

    def peek(self, count: int) -> bytes:
        return self.getvalue()[self.tell():]


def shown(data: bytes) -> Iterator[int]:
    """How many bytes a file with these shows at one look after another, as draws say. 0 is for a file that shows nothing."""
    chance = random.Random(zlib.crc32(data))
    while True:
        yield chance.choice([0, 1, 2, 3, 5, 9, 20, 100, 600, 1 << 30])


def come(data: bytes) -> Iterator[int]:
    """How many bytes of a pipe with these come at one read after another beside the first, as draws say."""
    chance = random.Random(zlib.crc32(data))
    while True:
        yield chance.choice([0, 1, 2, 7, *[1 << 30] * 12])


class ShowsSome(io.BytesIO):
    """A file that shows at each look as many bytes as a draw says: no other file can show what this one never does."""

    def __init__(self, data: bytes) -> None:
        super().__init__(data)
        self.shown = shown(data)

    def peek(self, count: int) -> bytes:
        return self.getvalue()[self.tell():][:next(self.shown)]


class ComesSome(io.BytesIO):
    """A pipe: a read may answer fewer bytes than it is asked for, as a draw says. A line is answered whole."""

    def __init__(self, data: bytes) -> None:
        super().__init__(data)
        self.come = come(data)

    def read(self, count: Optional[int] = -1, /) -> bytes:
        most = next(self.come) + 1
        return super().read(most if count is None or count < 0 else min(count, most))


class ShortReads(io.RawIOBase):
    """A raw pipe or socket: a read may answer fewer bytes than it is asked for, though more come."""

    def __init__(self, data: bytes) -> None:
        super().__init__()
        self.data = data
        self.at = 0
        self.chance = random.Random(zlib.crc32(data))

    def readable(self) -> bool:
        return True

    def readinto(self, into: Any) -> int:
        count = len(into)
        if count > 1 and self.chance.random() < 0.25:
            count = self.chance.randrange(1, count)
        piece = self.data[self.at:self.at + count]
        into[:len(piece)] = piece
        self.at += len(piece)
        return len(piece)

    def tell(self) -> int:
        return self.at


def opened(data: bytes, buffering: int) -> Any:
    """What `open` makes of a file with these bytes."""
    descriptor = os.memfd_create("case")
    left = memoryview(data)
    while left:
        left = left[os.write(descriptor, left):]
    os.lseek(descriptor, 0, os.SEEK_SET)
    return os.fdopen(descriptor, "rb", buffering)


def of_gzip(data: bytes) -> Any:
    return gzip.GzipFile(fileobj=io.BytesIO(gzip.compress(data, 1)))


def of_zip(data: bytes) -> Any:
    packed = io.BytesIO()
    with zipfile.ZipFile(packed, "w", zipfile.ZIP_DEFLATED if len(data) & 1 else zipfile.ZIP_STORED) as archive:
        archive.writestr("data.pkl", data)
    return zipfile.ZipFile(packed).open("data.pkl")


def of_socket(data: bytes) -> Any:
    ours, theirs = socket.socketpair()

    def send() -> None:
        try:
            ours.sendall(data)
        except OSError:
            pass  # (the unpickler has raised, and nobody reads any more)
        ours.close()

    if len(data) > MOST_IN_SOCKET:
        threading.Thread(target=send, daemon=True).start()
    else:
        send()
    file = theirs.makefile("rb")
    theirs.close()
    return file


FEW: dict[str, Callable[[bytes], Any]] = {
    "C from bytes": Peeking,
    "C from BytesIO": io.BytesIO,
    "C from a buffered file": lambda data: io.BufferedReader(io.BytesIO(data)),
    "Python": io.BytesIO,
}
# (`pickle.loads` itself comes before these: see whole_loads.py)
ALL: dict[str, Callable[[bytes], Any]] = {
    "C from bytes": Peeking,
    "C from BytesIO": io.BytesIO,
    "C from an open file": lambda data: opened(data, -1),
    "C from a raw file": lambda data: opened(data, 0),
    "C from gzip": of_gzip,
    "C from a member of a zip file": of_zip,
    "C from a socket": of_socket,
    "C from a file that shows some bytes": ShowsSome,
    "C from short reads": ShortReads,
    "Python": io.BytesIO,
    "Python from an open file": lambda data: opened(data, -1),
    "Python from a raw file": lambda data: opened(data, 0),
    "Python from short reads": ShortReads,
}
PIPE = "Python from a pipe"
SHOWS_SOME = "C from a file that shows some bytes"
READERS: dict[str, Callable[[bytes], Any]] = {**ALL, **FEW, PIPE: ComesSome}
LOADS = "pickle.loads"
# Files that show some bytes ahead: which frames they show whole is in no line.
SHOW_SOME = frozenset(["C from an open file", "C from gzip", "C from a member of a zip file", "C from a socket", "C from a file that shows some bytes"])
CUT_SHORT = "Python from short reads"


def has_more(file: Any, length: int) -> bool:
    """Whether a program that loads until the end goes on."""
    if hasattr(file, "peek") and not isinstance(file, ShowsSome):
        return bool(file.peek(1)[:1])
    return bool(file.tell() < length)
