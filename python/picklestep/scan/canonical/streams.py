"""Compressed files in the form that their usual writers write: one stream that fills the file, with nothing before or behind it.

Sources: RFC 1952 (gzip), RFC 1950 (zlib), RFC 8878 (zstd), xz-file-format.txt and lzma-file-format.txt of XZ Utils, lz4_Frame_format.md of LZ4,
README_CHUNK_FORMAT.rst of C-Blosc, joblib/numpy_pickle_compat.py (ZF), and what Python, gzip, pigz, bzip2 and xz write.
"""

from __future__ import annotations

import zlib
from typing import Callable, FrozenSet, NamedTuple, Optional

from ...patterns import pattern
from ..begins import HEAD
from ..blobs import Blob
from ..packed import BLOSC_MODULES, LZMA_MEMORY, Blosc, Decompressor, Lz4, Unpacking, Zstd, inflate_gzip, inflate_zlib, module_of, unpack_bz2, unpack_lzma, unpack_xz
from .forms import require

__all__ = ['BLOSC', 'BZ2', 'GZIP', 'LZ4', 'LZ4_CHUNK', 'LZMA', 'Stream', 'XZ', 'ZFILE', 'ZLIB', 'ZSTD']

_FNAME = 8
_EMPTY = bytes(18)
# A stream is tried up to so many unpacked bytes, with such a dictionary, and behind so many empty ones.
_FIRST_PART = 1 << 12
_DICTIONARY = 1 << 20
_MOST_STREAMS = 4096
_LZMA_HEADER = 13
# The first bytes of what liblzma takes: properties with lc + lp of at most 4 (zeros too), or that of lzip. (XZ has a kind of its own.)
_BEGINS_LZMA = frozenset(byte for byte in range(225) if byte % 9 + byte // 9 % 5 <= 4) | {0x4C}
# That of zlib: the method, in its lower half.
_BEGINS_ZLIB = frozenset(byte for byte in range(256) if byte & 15 == 8)
# Names in a gzip header are Latin-1 without control characters.
_NAME = pattern(rb'[\x20-\x7e\xa0-\xff]{1,255}\0')
_BZ2 = pattern(rb'BZh[1-9](1AY&SY|\x17rE8P\x90)')
_ZFILE = pattern(rb'ZF(0x[0-9a-f]{1,16}L?) *')
_ZFILE_HEADER = 21
_NO_SIZE = 2 ** 64 - 1


class Stream(NamedTuple):
    """How a file that packs one other is unpacked, and its strict form.

    `verify_begin` raises NotCanonical where the header is not as the writers of this kind fill it. `starts` says where the stream begins that
    `start` unpacks, if that is not at once, and `size_in_header` the size of what it unpacks to, if its header does.
    """

    start: Callable[[], Decompressor]
    verify_begin: Callable[[Blob], None]
    starts: Optional[Callable[[Blob], int]] = None
    size_in_header: Optional[Callable[[Blob], int]] = None
    # Whether several may follow one another in a file.
    has_several: bool = True
    # What some reader takes for it, where that is not what begins so; it is tried where one of these bytes is the first.
    takes: Optional[Callable[[Blob, bytes], bool]] = None
    firsts: FrozenSet[int] = frozenset()
    # Whether two or three bytes are all that shows it, so that it is none where nothing is unpacked; and whether any bytes may be one, so that
    # `takes` has unpacked some.
    is_weak: bool = False
    is_any: bool = False
    # A pattern by which it is found behind a few other bytes, if it is looked for there.
    behind_few: bytes = b''

    @property
    def is_whole(self) -> bool:
        """Whether nothing stands before the stream."""
        return self.starts is None

    def unpacking(self, packed: Blob, has_several: bool = True) -> Unpacking:
        """What unpacks it."""
        return Unpacking(packed, self.start, 0 if self.starts is None else self.starts(packed), has_several and self.has_several)

    def verify_end(self, packed: Blob, unpacking: Unpacking, size: int) -> None:
        """Raises NotCanonical where a stream that was unpacked to so many bytes is not whole, or does not fill the file."""
        require(unpacking.trouble is None, str(unpacking.trouble))
        require(unpacking.streams == 1 and unpacking.end == packed.size, 'bytes stand behind the end of the stream', unpacking.first_end)
        written = size if self.size_in_header is None else self.size_in_header(packed)
        require(written in (size, _NO_SIZE), 'its size is wrong', 2)


def _gzip(packed: Blob) -> None:
    head = packed.read(0, 10)
    require(len(head) == 10 and head[:3] == b'\x1f\x8b\x08', 'no header of gzip')
    require(head[3] in (0, _FNAME), f'flags {head[3]:#x}: an extra field, a comment or others that gzip does not set', 3)
    require(head[8] in (0, 2, 4), f'extra flags {head[8]:#x}', 8)
    require(head[9] <= 13 or head[9] == 255, f'system {head[9]}', 9)
    require(not head[3] or _NAME.match(packed.read(10, 256)) is not None, 'the name in the header is no plain text', 10)


def _bz2(packed: Blob) -> None:
    require(_BZ2.match(packed.read(0, 10)) is not None, 'no header of bzip2')


def _xz(packed: Blob) -> None:
    head = packed.read(0, 8)
    require(len(head) == 8 and head[:7] == b'\xfd7zXZ\0\0' and head[7] in (0, 1, 4, 10), 'no header of xz')
    require(packed.size % 4 == 0 and packed.read(packed.size - 2, 2) == b'YZ', 'it does not end as xz')


def _lzma(packed: Blob) -> None:
    head = packed.read(0, 13)
    size = int.from_bytes(head[5:13], 'little')
    dictionary = int.from_bytes(head[1:5], 'little')
    require(len(head) == 13 and head[0] == 0x5D, 'properties that xz and Python do not write', 0)
    require(dictionary >= 4096 and bin(dictionary).rstrip('0') in ('0b1', '0b11'), f'a dictionary of {dictionary} bytes', 1)
    require(size == _NO_SIZE or size < 2 ** 38, f'a size of {size} bytes', 5)


def _zlib(packed: Blob) -> None:
    require(packed.read(0, 2) in (b'\x78\x01', b'\x78\x5e', b'\x78\x9c', b'\x78\xda'), 'a header that zlib.compress does not write', 0)


def _zstd(packed: Blob) -> None:
    head = packed.read(0, 5)
    require(len(head) == 5 and head[:4] == b'\x28\xb5\x2f\xfd', 'no header of zstd')
    require(not head[4] & 0b11011, 'a dictionary, or a bit that no writer sets', 4)


def _lz4(packed: Blob) -> None:
    head = packed.read(0, 6)
    require(len(head) == 6 and head[:4] == b'\x04\x22\x4d\x18', 'no header of lz4')
    require(head[4] & 0b11000011 == 0b01000000, 'another version, a dictionary, or a bit that no writer sets', 4)
    require(head[5] in (0x40, 0x50, 0x60, 0x70), 'a size of blocks that no writer sets', 5)


def _blosc(packed: Blob) -> None:
    require(packed.read(3, 1) != b'\0', 'items without a size', 3)


def _zfile(packed: Blob) -> None:
    require(_ZFILE.fullmatch(packed.read(0, _ZFILE_HEADER)) is not None, 'no header of joblib before 0.10')


# --- What other readers would take ---

def _for_trial(head: bytes) -> bytes:
    """The beginning of an lzma stream, with a dictionary that fits in memory: a first part reaches no further back."""
    dictionary = int.from_bytes(head[1:5], 'little')
    is_plain = bin(dictionary).rstrip('0') in ('0b1', '0b11') or dictionary == 2 ** 32 - 1
    return head[:1] + _DICTIONARY.to_bytes(4, 'little') + head[5:] if is_plain and dictionary > _DICTIONARY else head


def _zeros(blob: Blob, at: int) -> int:
    """How many bytes from here on are zeros."""
    count = 0
    for piece in blob.chunks(at):
        rest = piece.lstrip(b'\0')
        count += len(piece) - len(rest)
        if rest:
            break
    return count


def _is_lzma(blob: Blob) -> bool:
    """Whether LZMAFile gets something out of these bytes. tarfile tries it on each file, and joblib on what begins with 5D 00.

    It lets liblzma choose the form (FORMAT_AUTO), which then takes no dictionary and no size that its own writers do not write. FORMAT_ALONE
    would: each list of protocol 1 begins like that. It goes on over empty streams; 18 zeros are one.
    """
    import lzma
    at = 0
    for _ in range(_MOST_STREAMS):
        if blob.read(at, len(_EMPTY)) == _EMPTY:
            at += _zeros(blob, at) // len(_EMPTY) * len(_EMPTY)
        head = blob.read(at, HEAD)
        if len(head) < _LZMA_HEADER or not at and head[0] not in _BEGINS_LZMA:
            return False
        inner = lzma.LZMADecompressor(lzma.FORMAT_AUTO, LZMA_MEMORY)
        try:
            made = inner.decompress(_for_trial(head), _FIRST_PART)
        except (lzma.LZMAError, ValueError, EOFError, MemoryError):
            return False
        if made or inner.eof and head[0] == 0x5D:
            return True
        if not inner.eof:
            return len(head) == HEAD
        at += len(head) - len(inner.unused_data)
    return True


def _is_zlib(head: bytes) -> bool:
    """Whether a first part unpacks. What gives nothing for so long, and has no fault, begins with empty blocks."""
    if len(head) < 3 or head[0] & 15 != 8 or (head[0] << 8 | head[1]) % 31:
        return False
    inner = inflate_zlib()
    try:
        return bool(inner.decompress(head, _FIRST_PART)) or inner.eof or len(head) >= HEAD
    except zlib.error:
        return False


def _is_blosc(blob: Blob, head: bytes) -> bool:
    """Whether a chunk of Blosc begins so, by its versions and by its size, and can be unpacked here. (There is no other sign, and most chunks hold
    numbers.)"""
    return head[:2] == b'\2\1' and int.from_bytes(head[12:16], 'little') == blob.size and module_of(BLOSC_MODULES) is not None


def _is_lz4_chunk(blob: Blob, head: bytes) -> bool:
    """Whether a chunk of `numcodecs.LZ4` begins so: its size fits what it would unpack to, which is 255 times as large at most, and each step in it."""
    size, packed = int.from_bytes(head[:4], 'little'), blob.size - 4
    if not 0 < size <= LZMA_MEMORY or not size <= packed * 255 or not packed <= size + size // 255 + 16:
        return False
    from ..lz4_chunks import is_lz4_chunk  # (few bytes come so far)
    return is_lz4_chunk(blob, size)


def _lz4_chunk() -> Decompressor:
    from ..lz4_chunks import Lz4Chunk
    return Lz4Chunk()


# --- Where they begin, and the sizes in their headers ---

def _start_of_zfile(packed: Blob) -> int:
    """Behind the header that joblib before 0.10 puts before the stream."""
    return _ZFILE_HEADER + (packed.read(_ZFILE_HEADER, 1) == b' ')


def _size_of_zfile(packed: Blob) -> int:
    return int(packed.read(2, _ZFILE_HEADER - 2).strip().rstrip(b'L'), 16)


def _size_of_lzma(packed: Blob) -> int:
    return int.from_bytes(packed.read(5, 8), 'little')


BZ2 = Stream(unpack_bz2, _bz2, takes=lambda blob, head: _BZ2.match(head) is not None, firsts=frozenset(b'B'),
             behind_few=rb'BZh[1-9](?:1AY|\x17rE)')
GZIP = Stream(inflate_gzip, _gzip, takes=lambda blob, head: head[:3] == b'\x1f\x8b\x08', firsts=frozenset(b'\x1f'), behind_few=rb'\x1f\x8b\x08')
XZ = Stream(unpack_xz, _xz, takes=lambda blob, head: head[:6] == b'\xfd7zXZ\0', firsts=frozenset(b'\xfd'), behind_few=rb'\xfd7zXZ\0')
LZMA = Stream(unpack_lzma, _lzma, size_in_header=_size_of_lzma, has_several=False, takes=lambda blob, head: _is_lzma(blob), firsts=_BEGINS_LZMA,
              is_weak=True, is_any=True)
ZLIB = Stream(inflate_zlib, _zlib, takes=lambda blob, head: _is_zlib(head), firsts=_BEGINS_ZLIB, is_weak=True, behind_few=rb'\x78[\x01\x5e\x9c\xda]')
ZSTD = Stream(Zstd, _zstd, behind_few=rb'\x28\xb5\x2f\xfd')
LZ4 = Stream(Lz4, _lz4, behind_few=rb'\x04\x22\x4d\x18')
BLOSC = Stream(Blosc, _blosc, has_several=False, takes=_is_blosc, firsts=frozenset(b'\2'))
LZ4_CHUNK = Stream(_lz4_chunk, lambda packed: None, has_several=False, takes=_is_lz4_chunk, firsts=frozenset(range(256)), is_weak=True)
ZFILE = Stream(inflate_zlib, _zfile, _start_of_zfile, _size_of_zfile, is_weak=True)
