"""A file that one stream of gzip, zlib, bzip2 or xz packs: what it unpacks to, and what is packed again in its place.

`scan` has what unpacks. Here only such a file is taken as holds one stream and nothing else, since nobody says where what follows belongs.
"""

from __future__ import annotations

import zlib
from dataclasses import dataclass
from typing import Callable, Dict, Optional, Tuple, Type

from ..errors import NotRenamed
from ..scan import packed as unpacks
from ..sources import LIMIT

__all__ = ['Packed', 'is_packed', 'unpacked']

_GZIP, _BZIP2, _XZ = b'\x1f\x8b\x08', b'BZh', b'\xfd7zXZ\0'
# The second byte of a zlib stream says about how much work was put into it.
_ZLIB = {b'x\x01': 1, b'x\x5e': 3, b'x\x9c': 6, b'x\xda': 9}
_STARTS: Dict[bytes, Callable[[], unpacks.Decompressor]] = {
    _GZIP: unpacks.inflate_gzip, _BZIP2: unpacks.unpack_bz2, _XZ: unpacks.unpack_xz, **dict.fromkeys(_ZLIB, unpacks.inflate_zlib)}
# The flags of a gzip header, and how it says the level: of the fixed ten bytes the ninth.
_HAS_CHECK, _HAS_EXTRA, _HAS_NAME, _HAS_COMMENT = 2, 4, 8, 16
_GZIP_LEVELS = {2: 9, 4: 1}


@dataclass(frozen=True)
class Packed:
    """What a file unpacks to, and its first bytes, which say how it was packed."""

    content: bytes
    sign: bytes
    header: bytes

    def packed(self, content: bytes) -> bytes:
        """Other content, packed in the same way. A gzip header stays as it was, with the name and the time in it."""
        try:
            made = self._packed(content)
        except _TROUBLE as error:  # (Python unpacks an xz stream with a check that it cannot make)
            raise NotRenamed(f'it cannot be packed in the same way: {error}') from None
        again = unpacked(made)
        if again is None or again.content != content:
            raise NotRenamed('what is packed again unpacks to something else')
        return made

    def _packed(self, content: bytes) -> bytes:
        if self.sign == _GZIP:
            level = _GZIP_LEVELS.get(self.header[8], 6)
            deflate = zlib.compressobj(level, zlib.DEFLATED, -zlib.MAX_WBITS)
            end = zlib.crc32(content).to_bytes(4, 'little') + (len(content) & 0xffffffff).to_bytes(4, 'little')
            return self.header + deflate.compress(content) + deflate.flush() + end
        if self.sign == _BZIP2:
            import bz2
            return bz2.compress(content, int(self.header[3:4]))
        if self.sign == _XZ:
            import lzma
            return lzma.compress(content, lzma.FORMAT_XZ, self.header[7])  # (which is the check of its integrity)
        return zlib.compress(content, _ZLIB[self.sign])


def is_packed(head: bytes) -> bool:
    """Whether a file that begins so may be such a stream.

    >>> is_packed(b'x\\x9c'), is_packed(b'PK\\x03\\x04')
    (True, False)
    """
    return head.startswith(tuple(_STARTS))


def unpacked(whole: bytes) -> Optional[Packed]:
    """What a file unpacks to. None if it is no such stream, is damaged, or goes on behind it."""
    sign = next((sign for sign in _STARTS if whole.startswith(sign)), None)
    if sign is None or len(whole) > LIMIT:  # (it was changed meanwhile, or is not read to its end)
        return None
    try:
        stream = _STARTS[sign]()
        content = stream.decompress(whole, LIMIT + 1)
    except _TROUBLE:
        return None
    if not stream.eof or stream.unused_data or len(content) > LIMIT:
        return None
    return Packed(content, sign, whole[:_end_of_header(whole)] if sign == _GZIP else whole[:10])


def _trouble() -> Tuple[Type[Exception], ...]:
    """What a stream that is damaged raises, and what Python raises that was built without a kind of them."""
    try:
        from lzma import LZMAError
    except ImportError:
        return (zlib.error, OSError, EOFError, ValueError, ImportError)
    return (zlib.error, LZMAError, OSError, EOFError, ValueError, ImportError)


_TROUBLE = _trouble()


def _end_of_header(whole: bytes) -> int:
    """Where the header of a gzip file ends that unpacks."""
    flags, at = whole[3], 10
    if flags & _HAS_EXTRA:
        at += 2 + int.from_bytes(whole[at:at + 2], 'little')
    for flag in (_HAS_NAME, _HAS_COMMENT):
        if flags & flag:
            at = whole.index(b'\0', at) + 1
    return at + 2 * bool(flags & _HAS_CHECK)
