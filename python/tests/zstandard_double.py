"""Stands for the package `zstandard` where that is not installed: the same calls, over the library of zstd itself."""

from __future__ import annotations

import ctypes
from typing import Optional

_ZSTD = ctypes.CDLL('libzstd.so.1')
for _name, _result, _arguments in (
        ('createDStream', ctypes.c_void_p, []), ('freeDStream', ctypes.c_size_t, [ctypes.c_void_p]), ('isError', ctypes.c_uint, [ctypes.c_size_t]),
        ('getErrorName', ctypes.c_char_p, [ctypes.c_size_t]), ('DCtx_setParameter', ctypes.c_size_t, [ctypes.c_void_p, ctypes.c_int, ctypes.c_int]),
        ('decompressStream', ctypes.c_size_t, [ctypes.c_void_p] * 3)):
    _function = getattr(_ZSTD, f'ZSTD_{_name}')
    _function.restype, _function.argtypes = _result, _arguments
_ROOM = 1 << 20
_WINDOW_LOG_MAX = 100


class ZstdError(Exception):
    """What is wrong with a stream."""


class _Buffer(ctypes.Structure):
    _fields_ = [('content', ctypes.c_void_p), ('size', ctypes.c_size_t), ('at', ctypes.c_size_t)]


class _DecompressionObj:
    """One frame."""

    def __init__(self, window: int) -> None:
        self._stream: Optional[int] = _ZSTD.ZSTD_createDStream()
        if window:
            _ZSTD.ZSTD_DCtx_setParameter(self._stream, _WINDOW_LOG_MAX, window.bit_length() - 1)
        self.eof = False
        self.unused_data = b''

    def __del__(self) -> None:
        _ZSTD.ZSTD_freeDStream(self._stream)

    def decompress(self, data: bytes) -> bytes:
        if self.eof:
            raise ZstdError('cannot use a decompressobj multiple times')
        held, room, made = ctypes.create_string_buffer(data, len(data)), ctypes.create_string_buffer(_ROOM), bytearray()
        given = _Buffer(ctypes.addressof(held), len(data), 0)
        while True:
            taken = _Buffer(ctypes.addressof(room), _ROOM, 0)
            left = _ZSTD.ZSTD_decompressStream(self._stream, ctypes.byref(taken), ctypes.byref(given))
            if _ZSTD.ZSTD_isError(left):
                raise ZstdError(f'zstd decompressor error: {_ZSTD.ZSTD_getErrorName(left).decode()}')
            made += room.raw[:taken.at]
            if not left:
                self.eof, self.unused_data = True, data[given.at:]
                return bytes(made)
            if given.at == given.size and taken.at < _ROOM:
                return bytes(made)


class ZstdDecompressor:
    """Makes objects that unpack a frame each."""

    def __init__(self, max_window_size: int = 0) -> None:
        self._window = max_window_size

    def decompressobj(self) -> _DecompressionObj:
        return _DecompressionObj(self._window)
