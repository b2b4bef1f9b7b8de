"""Where stores that are files end, by their headers, and what is noted of such a file as a whole."""

from __future__ import annotations

import struct
from typing import TYPE_CHECKING, Optional

from ..begins import is_pickle_name
from ..blobs import Blob
from ..containers import HDF5, Held

if TYPE_CHECKING:
    from ..looking import Looker

__all__ = ['end_of_hdf5', 'end_of_sqlite', 'note_file']

_SQLITE_HEADER = struct.Struct('>16sH6xI I60xI')
_LARGEST_PAGE = 65_536

# By the version of an HDF5 file: where the width of an address is said, and where the addresses begin of which so many are before that of
# the end.
_HDF5_VERSIONS = {0: (13, 24, 2), 1: (13, 28, 2), 2: (9, 12, 2), 3: (9, 12, 2)}


def note_file(looker: 'Looker', held: Held, end: Optional[int]) -> None:
    """Notes where a store is named as a pickle, and where bytes stand behind its end, which are looked at. (Some stores grow by zeros.)"""
    blob, where = held.blob, held.where
    if any(is_pickle_name(name) for name in held.names):
        looker.note_odd(where, f'its name says that it is a pickle, and it is {held.kind}')
    if end is not None and 0 < end < blob.size and not blob.is_zeros(end, blob.size):
        looker.note_odd(where, f'bytes stand behind the end of {held.kind}, at {end}: they are looked at')
        looker.look_at(blob.part(end, blob.size - end), where + (f'(bytes {end} to {blob.size})',), (), held.depth + 1)


def end_of_sqlite(blob: Blob) -> Optional[int]:
    """The end of the last page, by the header where SQLite trusts it."""
    header = blob.read(0, _SQLITE_HEADER.size)
    if len(header) < _SQLITE_HEADER.size:
        return None
    _, size, changes, pages, counted = _SQLITE_HEADER.unpack(header)
    size = _LARGEST_PAGE if size == 1 else size
    if size < 512:
        return None
    return int(pages * size if pages and changes == counted else blob.size // size * size)


def end_of_hdf5(blob: Blob) -> Optional[int]:
    """The address of the end that the header has."""
    begin, magic = 0, HDF5.magic
    while blob.read(begin, len(magic)) != magic:
        begin = 2 * begin or 512
        if begin >= blob.size:
            return None
    head = blob.read(begin, 128)
    if len(head) < 14 or head[8] not in _HDF5_VERSIONS:
        return None
    at_width, at, count = _HDF5_VERSIONS[head[8]]
    width = head[at_width]
    base, end = (int.from_bytes(head[place:place + width], 'little') for place in (at, at + count * width))
    return end if width in (2, 4, 8) and base == begin else None
