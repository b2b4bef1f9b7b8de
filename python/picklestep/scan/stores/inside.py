"""The texts and bytes that the opcodes of a pickle hold. Queues, sessions and caches put one pickle into another so."""

from __future__ import annotations

from typing import Dict, Iterator, NamedTuple

from ...opcodes import TABLE
from ...values import unescaped
from ..blobs import Blob
from ..walk import length_at

__all__ = ['Text', 'bytes_of', 'texts_in']

# The opcodes are gone over in windows of this size.
_WINDOW = 8 << 20

# How many bytes are before the argument of an opcode that holds a text or bytes: its code, and the length.
_BEFORE: Dict[int, int] = {
    each.code: 1 if each.argument.endswith('nl') else 1 + int(each.argument[-1])
    for each in TABLE if each.argument.startswith(('string', 'unicodestring', 'bytes', 'bytearray')) and not each.argument.startswith('stringnl_')}
_STRING, _UNICODE = ord('S'), ord('V')
_OF_UTF8 = frozenset(each.code for each in TABLE if each.kind == 'text')


class Text(NamedTuple):
    """What an opcode holds: its code, the offset of the opcode, and where its argument is."""

    code: int
    offset: int
    start: int
    size: int


def texts_in(blob: Blob) -> Iterator[Text]:
    """The texts and bytes in opcodes that follow one another from the beginning on, in one pickle or several.

    >>> from ..blobs import BytesBlob
    >>> [(text.offset, text.start, text.size) for text in texts_in(BytesBlob(b']C\\x03abcK\\x05e.'))]
    [(1, 3, 3)]
    """
    start = at = 0
    window = blob.read(0, _WINDOW)
    while at < len(window):
        length = length_at(window, at)
        if length > len(window) - at or not length:
            if at:
                start, at, window = start + at, 0, blob.read(start + at, _WINDOW)
                continue
            if not length or start + length > blob.size:
                return
        before = _BEFORE.get(window[at])
        if before is not None:
            yield Text(window[at], start + at, start + at + before, length - before - (before == 1))  # (a line has a newline)
        at += length
        if at >= len(window):
            start, at, window = start + at, 0, blob.read(start + at, _WINDOW)


def bytes_of(text: Text, argument: bytes) -> Iterator[bytes]:
    """The bytes that an argument is: without escapes, and of a text in Latin-1 those that picklers below protocol 3 write so."""
    try:
        if text.code == _STRING:
            yield unescaped(argument)
        elif text.code == _UNICODE:
            yield argument.decode('raw-unicode-escape').encode('latin-1')
        else:
            yield argument
            if text.code in _OF_UTF8 and not argument.isascii():
                yield argument.decode('utf-8').encode('latin-1')
    except ValueError:
        return
