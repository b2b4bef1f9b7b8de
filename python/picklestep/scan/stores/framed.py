"""Streams of records with a length before each: what `logging.handlers.SocketHandler` and `multiprocessing.connection` send.

The length has four or eight bytes, in either order. `multiprocessing` writes -1 in four bytes and then eight where a record is long.
"""

from __future__ import annotations

from dataclasses import dataclass
from typing import Iterator, Optional, Tuple

from ..blobs import Blob
from ..containers import kind_of
from ..walk import stops_at_end

__all__ = ['Framing', 'framing_of', 'may_be_framed']

# So many records are tried before it is settled that none of them is a pickle.
_TRIED = 16

_IS_LONG = 0xffff_ffff
_LARGE = 1 << 24


@dataclass(frozen=True)
class Framing:
    """How lengths are written: in so many bytes, in this order ('big' or 'little')."""

    width: int
    order: str

    def record(self, blob: Blob, at: int) -> Optional[Tuple[int, int]]:
        """Where the content of the record begins whose length is here, and its length. None where it is not whole."""
        start, length = self._length(blob.read(at, 12), at)
        return (start, length) if start + length <= blob.size and length >= 0 else None

    def _length(self, begin: bytes, at: int) -> Tuple[int, int]:
        if len(begin) < self.width:
            return at, -1
        length = int.from_bytes(begin[:self.width], 'big' if self.order == 'big' else 'little')
        if length == _IS_LONG and self == Framing(4, 'big'):
            return at + 12, int.from_bytes(begin[4:12], 'big') if len(begin) == 12 else -1
        return at + self.width, length

    def records(self, blob: Blob) -> Iterator[Tuple[int, int]]:
        """Where the contents of all records begin, and their lengths, up to one that is not whole."""
        at = 0
        while at < blob.size:
            record = self.record(blob, at)
            if record is None:
                return
            yield record
            at = sum(record)


FRAMINGS = tuple(Framing(width, order) for width in (4, 8) for order in ('big', 'little'))


def may_be_framed(begin: bytes) -> bool:
    """Whether bytes of less than 16 MB that begin so may begin with a length that fits: it has a zero first or last of four bytes."""
    return len(begin) > 3 and (not begin[0] or not begin[3] or begin[:4] == b'\xff\xff\xff\xff')


def framing_of(blob: Blob) -> Optional[Framing]:
    """How lengths are written in a stream of records of which one of the first is a pickle (or packed). None where it is no such stream.

    >>> from ..blobs import BytesBlob
    >>> framing_of(BytesBlob(b'\\x00\\x00\\x00\\x05K\\x01K\\x02.'))
    Framing(width=4, order='big')
    >>> framing_of(BytesBlob(b'\\x00\\x00\\x00\\x05hello'))
    """
    begin = blob.read(0, 12)
    if blob.size < _LARGE and not may_be_framed(begin):
        return None
    for framing in FRAMINGS:
        start, length = framing._length(begin, 0)
        if 0 < length <= blob.size - start and _has_pickle(framing, blob):
            return framing
    return None


def _has_pickle(framing: Framing, blob: Blob) -> bool:
    for number, (start, length) in enumerate(framing.records(blob)):
        if number == _TRIED:
            return False
        begin = blob.read(start, min(length, 2))
        if length > 2 and begin[0] == 0x80 and begin[1] <= 5 and blob.read(start + length - 1, 1) == b'.':
            return True
        kind = kind_of(blob.read(start, min(length, 8))) if length > 2 else None
        if kind is not None and kind.stream is not None and kind.stream.is_whole and not kind.stream.is_any:
            return True
        if 1 < length < 65_536 and stops_at_end(blob.read(start, length)):
            return True
    return False
