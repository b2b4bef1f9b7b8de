"""The files of Python's `dbm`, and so of `shelve`: gnu, ndbm (Berkeley DB) and dumb. (That of `dbm.sqlite3` is an SQLite file.)

They are read here, byte by byte: the libraries are rarely built into Python, open files by name and with a lock, and were not made for
files that lie.
"""

from __future__ import annotations

import ast
import os
import struct
from dataclasses import dataclass
from typing import TYPE_CHECKING, Dict, Iterator, List, Optional, Tuple

from ...patterns import pattern
from ..blobs import Blob
from ..containers import Held
from ..results import Place
from .ends import note_file
from .values import Values, key_name

if TYPE_CHECKING:
    from ..looking import Looker

__all__ = ['has_index', 'look_at_dumb', 'look_into_berkeley', 'look_into_gnu']

# A key, and where its value is: parts of the file, one after another.
_Parts = List[Tuple[int, int]]
_Pair = Tuple[bytes, _Parts]

# So much of a key is read.
_MOST_OF_KEY = 1 << 20


class _Damaged(Exception):
    """A file does not keep to its layout; the text says where."""


def _look(looker: 'Looker', blob: Blob, where: Place, depth: int, pairs: Iterator[_Pair]) -> None:
    """Looks at the values. A file that lies may show the same bytes as endless values."""
    values = Values(looker)
    read = 0
    try:
        for key, parts in pairs:
            size = sum(length for _, length in parts)
            read += size + 1
            if read > 2 * blob.size:
                raise _Damaged('its values have more bytes than the file')
            place = where + (key_name(key),)
            if len(parts) == 1:
                values.add_blob(blob.part(*parts[0]), place, depth + 1)
            else:
                values.add(b''.join(blob.read(*part) for part in parts), place, depth + 1)
    except (_Damaged, struct.error) as error:
        looker.note(where, f'{error}: the rest of it is searched as bytes', missed=True)
        values.look_everywhere(blob, where)
    values.flush()


# --- gnu ---

@dataclass(frozen=True)
class _Gnu:
    """How numbers are written: the order of bytes, and the width of an offset. Each bucket has 6 free places before its entries."""

    order: str
    width: int

    @property
    def header(self) -> struct.Struct:
        """Block size, directory, its size, its bits, bucket size, entries of a bucket, and the end of all blocks."""
        return struct.Struct(f'{self.order}{"iqiiiiq" if self.width == 8 else "iiiiiii"}')

    @property
    def bucket(self) -> int:
        """How many bytes are before the entries of a bucket."""
        return 112 if self.width == 8 else 60

    @property
    def entry(self) -> struct.Struct:
        """Hash, the key's first bytes, where the key is, and the lengths of key and value."""
        return struct.Struct(f'{self.order}{"i4sqii" if self.width == 8 else "i4siii"}')


_GNU_NUMBERS = {0x13579ace: 8, 0x13579acd: 4, 0x13579acf: 8, 0x13579ad0: 4, 0x13579ad1: 8}
_GNU: Dict[bytes, _Gnu] = {struct.pack(f'{order}I', number): _Gnu(order, width)
                           for number, width in _GNU_NUMBERS.items() for order in '<>'}


def look_into_gnu(looker: 'Looker', held: Held) -> bool:
    """Looks at all values of a file of GNU dbm."""
    kind = _GNU[held.blob.read(0, 4)]
    _look(looker, held.blob, held.where, held.depth, _gnu_pairs(held.blob, kind))
    header = held.blob.read(4, kind.header.size)
    note_file(looker, held, kind.header.unpack(header)[-1] if len(header) == kind.header.size else None)
    return True


def _gnu_pairs(blob: Blob, kind: _Gnu) -> Iterator[_Pair]:
    header = kind.header
    _, directory, size, _, bucket_size, entries, _ = header.unpack(blob.read(4, header.size))
    least = entries * kind.entry.size + kind.bucket
    if not (0 < directory < blob.size and 0 < size <= blob.size and 0 < least <= max(bucket_size, 0) <= blob.size):
        raise _Damaged('gdbm: its header does not fit the file')
    count = size // kind.width
    offsets = struct.unpack(f'{kind.order}{count}{"q" if kind.width == 8 else "i"}', blob.read(directory, count * kind.width))
    for bucket in sorted(set(offsets)):
        found = blob.read(bucket + kind.bucket, entries * kind.entry.size) if 0 < bucket < blob.size else b''
        if len(found) < entries * kind.entry.size:
            raise _Damaged(f'gdbm: there is no bucket at {bucket}')
        for hashed, _, at, key, value in kind.entry.iter_unpack(found):
            if hashed == -1:
                continue
            if not (at > 0 and key >= 0 and value >= 0 and at + key + value <= blob.size):
                raise _Damaged(f'gdbm: an entry of the bucket at {bucket} leads out of the file')
            yield blob.read(at, min(key, _MOST_OF_KEY)), [(at + key, value)]


# --- Berkeley DB, hash ---

_BERKELEY_HASH = 0x061561
_BERKELEY_PAGE = 26
# (so far are the size of a page and the number of the last one)
_BERKELEY_HEADER = 36
_HASH_PAGES = (2, 13)
_OVERFLOW = 7
_ON_PAGE, _OFF_PAGE = 1, 3


def _order_of(head: bytes) -> Optional[str]:
    return next((order for order in '<>' if head[12:16] == struct.pack(f'{order}I', _BERKELEY_HASH)), None)


def look_into_berkeley(looker: 'Looker', held: Held) -> bool:
    """Looks at all values of a hash file of Berkeley DB."""
    order = _order_of(held.blob.read(0, 16)) or '<'
    _look(looker, held.blob, held.where, held.depth, _berkeley_pairs(held.blob, order))
    header = held.blob.read(0, _BERKELEY_HEADER)
    size, last = struct.unpack_from(f'{order}I8xI', header, 20) if len(header) == _BERKELEY_HEADER else (0, 0)
    note_file(looker, held, (last + 1) * size)
    return True


def _berkeley_pairs(blob: Blob, order: str) -> Iterator[_Pair]:
    size, encrypted = struct.unpack(f'{order}IB', blob.read(20, 5))
    if encrypted or not 512 <= size <= 65_536:
        raise _Damaged('Berkeley DB: it is encrypted, or its header does not fit')
    unread = 0
    for at in range(size, blob.size, size):
        page = blob.read(at, size)
        if len(page) < _BERKELEY_PAGE or page[25] not in _HASH_PAGES:
            continue
        items = list(_items(page, order))
        for key, value in zip(items[::2], items[1::2]):
            found = _parts(blob, value, at, page, order, size)
            if found is None:
                unread += 1
            else:
                yield b''.join(blob.read(*part) for part in (_parts(blob, key, at, page, order, size) or [])[:16])[:_MOST_OF_KEY], found
    if unread:
        raise _Damaged(f'Berkeley DB: the values of {unread} keys are of a kind that is not read, such as several of one key')


def _items(page: bytes, order: str) -> Iterator[Tuple[int, int]]:
    """Where the items of a page begin, and where they end: from the end of the page towards its beginning."""
    count = struct.unpack_from(f'{order}H', page, 20)[0]
    if _BERKELEY_PAGE + 2 * count > len(page):
        raise _Damaged('Berkeley DB: a page does not fit')
    end = len(page)
    for begin in struct.unpack_from(f'{order}{count}H', page, _BERKELEY_PAGE):
        if not _BERKELEY_PAGE < begin <= end:
            raise _Damaged('Berkeley DB: an item does not fit its page')
        yield begin, end
        end = begin


def _parts(blob: Blob, item: Tuple[int, int], at: int, page: bytes, order: str, size: int) -> Optional[_Parts]:
    """Where the bytes of an item are: on its page, or on a chain of others. None where it is neither (duplicates)."""
    begin, end = item
    kind = page[begin] if begin < end else 0
    if kind == _ON_PAGE:
        return [(at + begin + 1, end - begin - 1)]
    if kind != _OFF_PAGE or end - begin < 12:
        return None
    number, left = struct.unpack_from(f'{order}II', page, begin + 4)
    parts: _Parts = []
    while left > 0:
        header = blob.read(number * size, _BERKELEY_PAGE)
        if len(header) < _BERKELEY_PAGE or header[25] != _OVERFLOW:
            raise _Damaged(f'Berkeley DB: page {number} does not go on with a value')
        following, _, length = struct.unpack_from(f'{order}IHH', header, 16)
        length = min(length, left, size - _BERKELEY_PAGE)
        if not length:
            raise _Damaged(f'Berkeley DB: page {number} is empty')
        parts.append((number * size + _BERKELEY_PAGE, length))
        left -= length
        number = following
    return parts


# --- dumb ---

# A line of the index as `dbm.dumb` writes it: a key, and where its value is.
_INDEX = pattern(rb"""(b?(?:'[^'\\]*(?:\\.[^'\\]*)*'|"[^"\\]*(?:\\.[^"\\]*)*")), \(([0-9]{1,18}), ([0-9]{1,18})\)""")
# How a line begins that may be one of an index, since `dbm.dumb` takes more than it writes.
_BEGINS_INDEX = pattern(rb"""[ \t\f(\[{]*[bBrRuU]{0,2}['"]""")
_END_OF_LINE = pattern(rb'\r\n?|\n')
_BLOCK = 512
_MOST_OF_INDEX = 256 << 20
# Lines of other forms are read up to this length: a parser may go as deep as they are long.
_MOST_OF_OTHER_LINE = 1000


def has_index(path: str) -> bool:
    """Whether this is the file of `dbm.dumb` that has the values: beside it is the index."""
    if not path.endswith('.dat') or not os.path.isfile(path[:-4] + '.dir'):
        return False
    with open(path[:-4] + '.dir', 'rb') as index:
        line = index.readline(_MOST_OF_KEY)
    return not line or _BEGINS_INDEX.match(line) is not None


def look_at_dumb(looker: 'Looker', blob: Blob, where: Place, depth: int, path: str) -> None:
    """Looks at all values of a file of `dbm.dumb`, also at those that its index has no more."""
    with open(path[:-4] + '.dir', 'rb') as index:
        lines = index.read(_MOST_OF_INDEX + 1)
    _look(looker, blob, where, depth, _dumb_pairs(blob, lines))


def _dumb_pairs(blob: Blob, lines: bytes) -> Iterator[_Pair]:
    taken: List[Tuple[int, int]] = []
    is_whole = len(lines) <= _MOST_OF_INDEX
    for line in _lines(lines):
        entry = _entry(line)
        if entry is None:
            is_whole = False
            break
        key, at, length = entry
        if at + length > blob.size:
            raise _Damaged('dbm.dumb: its index leads out of the file')
        taken.append((at, at + length))
        yield key, [(at, length)]
    yield from _left_over(blob, taken)
    if not is_whole:
        raise _Damaged('dbm.dumb: its index cannot be read to its end')


def _lines(text: bytes) -> Iterator[bytes]:
    """The lines as Python splits a text."""
    at = 0
    for match in _END_OF_LINE.finditer(text):
        yield text[at:match.start()]
        at = match.end()
    if at < len(text):
        yield text[at:]


def _entry(line: bytes) -> Optional[Tuple[bytes, int, int]]:
    """The key of a line of the index, and where its value is. None where this cannot be read."""
    line = line.rstrip()
    match = _INDEX.fullmatch(line) if len(line) <= 4 * _MOST_OF_KEY else None
    if match is not None:
        return _text_of(match[1]), int(match[2]), int(match[3])
    if len(line) > _MOST_OF_OTHER_LINE:
        return None
    try:
        key, (at, length) = ast.literal_eval(line.decode('latin-1'))
    except (ValueError, TypeError, SyntaxError, MemoryError, RecursionError):
        return None
    if not (isinstance(key, str) and isinstance(at, int) and isinstance(length, int) and at >= 0 and length >= 0):
        return None
    return key.encode('latin-1', 'replace'), at, length


def _left_over(blob: Blob, taken: List[Tuple[int, int]]) -> Iterator[_Pair]:
    """The blocks that no key leads to."""
    at = 0
    for begin, end in [*sorted(taken), (blob.size, blob.size)]:
        at = -(-at // _BLOCK) * _BLOCK
        if begin > at:
            yield f'(bytes {at} to {begin})'.encode(), [(at, begin - at)]
        at = max(at, end)


def _text_of(word: bytes) -> bytes:
    try:
        text = ast.literal_eval(word.decode('latin-1'))
    except (ValueError, SyntaxError, MemoryError, RecursionError):
        return word
    return text if isinstance(text, bytes) else str(text).encode('latin-1', 'replace')
