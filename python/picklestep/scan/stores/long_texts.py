"""Base64 and hexadecimal that are longer than what is looked at in memory: decoded piece by piece."""

from __future__ import annotations

import binascii
import re
from typing import Iterator

from ...patterns import pattern
from ..blobs import Blob
from .telling import SIGNS

__all__ = ['LongText']

_BLANKS = b'\r\n\t '
_DIGITS = b'0123456789abcdefABCDEF'
_STANDARD = bytes.maketrans(b'-_', b'+/')
_FIRST = 65_536
# Where such a text ends: at another sign, a blank behind a sign, or an empty line. (Most of it has nothing of these, which is seen quickly.)
_END = rb'[^%b\r\n\t ]|(?<=[^\r\n\t ])[ \t]|\n[ \t]*\r?\n'
_MAY_END = (b' ', b'\t', b'\n\n', b'\n\r')


class LongText:
    """A text that begins at an offset, also over several lines. Its `end` is known when all pieces were taken."""

    def __init__(self, blob: Blob, at: int) -> None:
        self._blob = blob
        self.end = self._at = at
        is_hexadecimal = not blob.read(at, _FIRST).translate(None, _DIGITS + _BLANKS)
        self.name = 'hexadecimal' if is_hexadecimal else 'base64'
        self._signs = _DIGITS if is_hexadecimal else SIGNS

    def pieces(self) -> Iterator[bytes]:
        """What it stands for."""
        end = pattern(_END % re.escape(self._signs))
        unit = 2 if self._signs is _DIGITS else 4
        left = b''
        for chunk in self._blob.chunks(self._at):
            may_end = chunk.translate(None, self._signs + _BLANKS) or any(sign in chunk for sign in _MAY_END)
            match = end.search(chunk) if may_end else None
            text = chunk if match is None else chunk[:match.start()]
            self.end += len(text)
            signs = left + text.translate(_STANDARD, _BLANKS)
            used = len(signs) // unit * unit
            left = signs[used:]
            yield binascii.unhexlify(signs[:used]) if unit == 2 else binascii.a2b_base64(signs[:used])
            if match is not None:
                break
        if unit == 4 and len(left) > 1:
            yield binascii.a2b_base64(left + b'=' * (4 - len(left)))
