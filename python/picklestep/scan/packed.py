"""Compressed bytes, unpacked piece by piece."""

from __future__ import annotations

import struct
import zlib
from importlib import import_module
from typing import TYPE_CHECKING, Any, Callable, Iterator, Optional, Sequence, Union

from .blobs import Blob

if TYPE_CHECKING:
    import bz2
    import lzma
    from .lz4_chunks import Lz4Chunk

__all__ = ['BLOSC_MODULES', 'Blosc', 'Decompressor', 'LZ4_MODULES', 'Lz4', 'Unpacking', 'ZSTD_MODULES', 'Zstd', 'inflate_gzip', 'inflate_zlib',
           'module_of', 'raw_deflate', 'raw_lzma', 'unpack_bz2', 'unpack_lzma', 'unpack_xz']

# Unpacked bytes of a step: a bomb is noticed before it fills the memory.
STEP = 1 << 18

# The memory that an xz or lzma stream may ask for, since a hostile header asks for gigabytes.
LZMA_MEMORY = 256 << 20


class _Inflate:
    """zlib's decompressor with the calls that those of bz2 and lzma have."""

    def __init__(self, bits: int) -> None:
        self.inner = zlib.decompressobj(bits)
        self.held = b''

    def decompress(self, piece: bytes, most: int) -> bytes:
        made = self.inner.decompress(self.held + piece, most)
        self.held = self.inner.unconsumed_tail
        return made

    @property
    def eof(self) -> bool:
        return self.inner.eof

    @property
    def needs_input(self) -> bool:
        return not self.held

    @property
    def unused_data(self) -> bytes:
        return self.inner.unused_data


# The window that a zstd stream may ask for, as the program `zstd` has it.
_ZSTD_WINDOW_LOG = 27

# A block of four bytes may unpack to 128 KiB, so little is handed over at once.
_ZSTD_PIECE = 128


# What unpacks these: the first that is installed. (Python has zstd itself from 3.14 on.)
ZSTD_MODULES = ('compression.zstd', 'zstandard')
LZ4_MODULES = ('lz4.frame',)
BLOSC_MODULES = ('blosc', 'numcodecs.blosc')


def module_of(names: Sequence[str]) -> Any:
    """The first of these modules that is installed; None where none is."""
    for name in names:
        try:
            return import_module(name)
        except ImportError:
            continue
    return None


class Zstd:
    """The decompressor of either module with the calls that those of bz2 and lzma have."""

    def __init__(self) -> None:
        module = module_of(ZSTD_MODULES)
        self._error = module.ZstdError
        self._is_own = hasattr(module, 'DecompressionParameter')
        if self._is_own:
            self._inner = module.ZstdDecompressor(options={module.DecompressionParameter.window_log_max: _ZSTD_WINDOW_LOG})
        else:
            self._inner = module.ZstdDecompressor(max_window_size=1 << _ZSTD_WINDOW_LOG).decompressobj()
        self._held, self._at = b'', 0

    def decompress(self, piece: bytes, most: int) -> bytes:
        """Raises ValueError where the stream is damaged."""
        try:
            return bytes(self._inner.decompress(piece, most)) if self._is_own else self._decompress(piece, most)
        except self._error as error:
            raise ValueError(str(error)) from None

    def _decompress(self, piece: bytes, most: int) -> bytes:
        if piece:
            self._held, self._at = self._held[self._at:] + piece, 0
        made = bytearray()
        while self._at < len(self._held) and not self._inner.eof and len(made) < most:
            made += self._inner.decompress(self._held[self._at:self._at + _ZSTD_PIECE])
            self._at += _ZSTD_PIECE
        return bytes(made)

    @property
    def eof(self) -> bool:
        return bool(self._inner.eof)

    @property
    def needs_input(self) -> bool:
        return bool(self._inner.needs_input) if self._is_own else self._at >= len(self._held)

    @property
    def unused_data(self) -> bytes:
        return bytes(self._inner.unused_data) + (b'' if self._is_own else self._held[self._at:])


class Lz4:
    """The decompressor of the package `lz4` with the faults and values that those of bz2 and lzma have."""

    def __init__(self) -> None:
        self._inner = module_of(LZ4_MODULES).LZ4FrameDecompressor()

    def decompress(self, piece: bytes, most: int) -> bytes:
        """Raises ValueError where the frame is damaged."""
        try:
            return bytes(self._inner.decompress(piece, most))
        except RuntimeError as error:
            raise ValueError(str(error)) from None

    @property
    def eof(self) -> bool:
        return bool(self._inner.eof)

    @property
    def needs_input(self) -> bool:
        return bool(self._inner.needs_input)

    @property
    def unused_data(self) -> bytes:
        return bytes(self._inner.unused_data or b'')


# The version of a chunk, that of what packs, flags, the size of an item, of what it unpacks to, of a block, and of the chunk.
_BLOSC_HEADER = struct.Struct('<BBBBIII')


class Blosc:
    """What unpacks a chunk of Blosc, which is held as a whole, with the calls that the decompressors of bz2 and lzma have."""

    def __init__(self) -> None:
        self._packed = bytearray()
        self._made: Optional[bytes] = None
        self._at = 0

    def decompress(self, piece: bytes, most: int) -> bytes:
        """Raises ValueError where the chunk is damaged, or asks for more memory than an lzma stream may."""
        self._packed += piece
        if self._made is None and len(self._packed) >= _BLOSC_HEADER.size:
            *_, size, _, packed = _BLOSC_HEADER.unpack_from(self._packed)
            if size > LZMA_MEMORY:
                raise ValueError(f'it unpacks to {size:,} bytes at once')
            if len(self._packed) >= packed:
                try:
                    self._made = module_of(BLOSC_MODULES).decompress(bytes(self._packed[:packed]))
                except Exception as error:  # (each module has errors of its own)
                    raise ValueError(str(error)) from None
                del self._packed[:packed]
        made = (self._made or b'')[self._at:self._at + most]
        self._at += len(made)
        return made

    @property
    def eof(self) -> bool:
        return self._made is not None and self._at == len(self._made)

    @property
    def needs_input(self) -> bool:
        return self._made is None

    @property
    def unused_data(self) -> bytes:
        return bytes(self._packed)


Decompressor = Union[_Inflate, Zstd, Lz4, 'Lz4Chunk', Blosc, 'bz2.BZ2Decompressor', 'lzma.LZMADecompressor']


def raw_deflate() -> Decompressor:
    """Deflate as a zip archive has it."""
    return _Inflate(-15)


def raw_lzma(properties: bytes) -> Decompressor:
    """LZMA as a zip archive has it: its properties are before the stream."""
    import lzma  # (as all of these modules, for the few files that are packed so)
    dictionary = int.from_bytes(properties[1:5], 'little')
    number = properties[0]
    chain = [{'id': lzma.FILTER_LZMA1, 'dict_size': min(max(dictionary, 4096), LZMA_MEMORY), 'lc': number % 9, 'lp': number // 9 % 5,
              'pb': number // 45}]
    return lzma.LZMADecompressor(lzma.FORMAT_RAW, filters=chain)


def inflate_gzip() -> Decompressor:
    """What unpacks a gzip file."""
    return _Inflate(31)


def inflate_zlib() -> Decompressor:
    """What unpacks a zlib file."""
    return _Inflate(15)


def unpack_bz2() -> Decompressor:
    """What unpacks a bzip2 file."""
    import bz2
    return bz2.BZ2Decompressor()


def unpack_xz() -> Decompressor:
    """What unpacks an xz file."""
    import lzma
    return lzma.LZMADecompressor(lzma.FORMAT_XZ, LZMA_MEMORY)


def unpack_lzma() -> Decompressor:
    """What unpacks a file of the older form of lzma."""
    import lzma
    return lzma.LZMADecompressor(lzma.FORMAT_ALONE, LZMA_MEMORY)


class Unpacking:
    """Unpacks a stream, and others of its kind that follow at once (gzip and xz files may hold several).

    When its pieces are gone over, `trouble` says why the stream ends before its end, if it does, `streams` counts whole ones, and
    `first_end` and `end` are where in the packed bytes the first and the last of them ended.
    """

    def __init__(self, packed: Blob, start: Callable[[], Decompressor], offset: int = 0, several: bool = False) -> None:
        self.packed = packed
        self.start = start
        self.offset = offset
        self.several = several
        self.end = offset
        self.first_end = offset
        self.streams = 0
        self.trouble: Optional[str] = None

    def pieces(self) -> Iterator[bytes]:
        """The unpacked bytes."""
        yield from self._stream()
        while self.several and self.trouble is None and self.end < self.packed.size:
            before = self.end
            yield from self._stream()
            if self.trouble is not None:
                self.trouble = None
                self.end = before  # what follows is no stream of this kind: the caller looks at it
                return

    def _stream(self) -> Iterator[bytes]:
        from lzma import LZMAError
        taken = self.end
        try:
            inner = self.start()  # (it reads the settings of some kinds, which may be none)
            for piece in self.packed.chunks(self.end):
                taken += len(piece)
                yield from self._step(inner, piece)
                if inner.eof:
                    self.end = taken - len(inner.unused_data)
                    self.streams += 1
                    self.first_end = self.end if self.streams == 1 else self.first_end
                    return
            self.trouble = 'the compressed data are cut short'
        except (zlib.error, LZMAError, OSError, ValueError, EOFError) as error:
            self.trouble = f'the compressed data cannot be unpacked to their end ({error})'

    def _step(self, inner: Decompressor, piece: bytes) -> Iterator[bytes]:
        made = inner.decompress(piece, STEP)
        while made or not (inner.eof or inner.needs_input):
            if made:
                yield made
            if inner.eof:
                return
            made = inner.decompress(b'', STEP)
