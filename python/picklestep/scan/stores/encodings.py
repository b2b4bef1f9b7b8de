"""Bytes that are written as text (base64, hexadecimal, also as strings of JSON and over several lines), and pickles behind a few other bytes.

A text may have millions of short runs, such as names and checksums, which stand for nothing. All of one length are asked at once.
"""

from __future__ import annotations

import binascii
import re
import zlib
from collections import defaultdict
from itertools import chain
from typing import Dict, Iterable, Iterator, List, Sequence, Set, Tuple

from ...patterns import pattern
from ..blobs import LimitMet
from ..containers import MAY_BE_KNOWN
from ..walk import may_begin, walk
from .anywhere import BEGINS_PICKLE
from .regular import blocks
from .telling import LEAST, LEAST_RUN, SIGNS, holding, may_hold, runs

__all__ = ['UNFINISHED', 'decoded', 'is_word']

# In the place of how bytes are written: what they stand for goes on behind what is at hand.
UNFINISHED = ''

# From where to where a run is.
_Span = Tuple[int, int]

# Which bytes are signs of base64 (in either alphabet), and which are digits.
_IS_SIGN = bytes(97 if each in SIGNS else 46 for each in range(256))
_DIGITS = b'0123456789abcdefABCDEF'
_IS_DIGIT = bytes(97 if each in _DIGITS else 46 for each in range(256))
# As base64 these alone stand for no opcode that imports, no PROTO, no STOP at the end, and no container begins so.
_CHECKSUM = b'0123456789abcdef'

# Where a run goes on in the next line, which may begin with blanks, as those of YAML and LDIF do.
_BREAK = pattern(rb'\r?\n[ \t]*(?=[A-Za-z0-9+/_-])')
_SIGNS_ALONE = pattern(rb'[A-Za-z0-9+/_-]+')
_BLANKS = b'\r\n\t '
_ENDS = frozenset(b'\n\r')
# (a line may end, and the next one have begun with blanks, where a window of bytes ends)
_MOST_BREAK = 80

# Runs up to this length are asked at once, where at least a few have the same.
_SHORT_RUN = 512
_FEW = 4

# Where base64 that begins inside a run gives PROTO, or the beginning of zlib and gzip. (One pattern of all of them would be slower.)
_INSIDE = tuple(pattern(signs) for signs in (rb'gA(?=[I-X])', rb'eJ(?=[wxyz0-3])', rb'eN(?=[o-r])', rb'eA(?=[EF])', rb'H4sI'))
# So many signs from there show whether it is one. All that is decoded so may be so many times what there is, and some more.
_PIECE = 4096
_MOST_TIMES = 16
_ZLIB_OR_GZIP = 47

_ESCAPE = pattern(rb'\\(?:u00([0-7][0-9a-fA-F])|([/"\\nrt]))')
_ESCAPED = {b'a': b'\a', b'b': b'\b', b'f': b'\f', b'n': b'\n', b'r': b'\r', b't': b'\t', b'v': b'\v'}
# A text in quotes. One that nothing ends goes on to the end of the bytes, so that none is read twice.
_LITERAL = pattern(rb"""\bb'((?:[^'\\\n]|\\.)*)(?:'|\n|\Z)|"((?:[^"\\]|\\.)*)(?:"|\Z|\\\Z)""", re.DOTALL)
_LITERAL_ESCAPE = pattern(rb'\\(?:x([0-9a-fA-F]{2})|u00([0-9a-fA-F]{2})|([0-7]{1,3})|(.))', re.DOTALL)
_MOST_DEFLATED = 1 << 20
_STANDARD = bytes.maketrans(b'-_', b'+/')

# What the bytes of a short text are.
_PRINTABLE = pattern(rb'[ -~]+')
_STOP = ord('.')
_ONE_RUN = b'a' * LEAST_RUN

# Lines that are too short to be runs. They count where all but the last have one length, or nothing else is there.
_SHORT_LINES = pattern(rb'\n(?![A-Za-z0-9+/_-]{%d})(?:[A-Za-z0-9+/_-]{2,%d}\r?\n){3,}[A-Za-z0-9+/_-]*' % (LEAST_RUN, LEAST_RUN - 1))


def decoded(content: bytes, goes_on: bool = False) -> Iterator[Tuple[int, str, bytes]]:
    """The bytes that runs of signs may stand for, where something may be in them: where each begins, how it is written, and the bytes.

    Where the content goes on behind these bytes, a run that reaches their end is UNFINISHED.

    Raises LimitMet where a run has so many places at which a pickle may begin that looking would not end in time.

    >>> list(decoded(b'{"body": "gASVAgAAAAAAAABOLg=="}'))
    [(10, 'base64', b'\\x80\\x04\\x95\\x02\\x00\\x00\\x00\\x00\\x00\\x00\\x00N.')]
    """
    if not goes_on:
        yield from _deflated(content)
    if b'\\' in content:
        yield from _literals(content)
        content = _ESCAPE.sub(_unescaped, content)
    marked = content.translate(_IS_SIGN)
    alike = list(blocks(content, marked, LEAST_RUN))
    between = list(zip([0, *(block.end for block in alike)], [*(block.start for block in alike), len(content)]))
    spans = [(start + at, start + end) for start, stop in between for at, end in runs(marked[start:stop], LEAST_RUN)]
    folded, alone = _folded(content, spans)
    found = [(start, -end, 'base64') for start, end in folded]
    for starts, texts in chain(_by_length(content, alone), ((block.starts(run), block.texts(content, run)) for block in alike for run in block.runs)):
        found += ((start, -end, name) for start, end, name in _telling(starts, texts))
    for start, stop in between:
        found += ((start, -end, 'base64') for start, end in _short_lines(content, start, stop))
    last = -1
    for start, end, name in sorted(found):
        if goes_on and -end >= len(content) - _MOST_BREAK:
            yield start, UNFINISHED, b''
        elif name == 'hexadecimal':
            yield start, name, binascii.unhexlify(content[start:-end])
        elif start != last:  # (the first line of what was found over several lines is no run alone)
            for each in _read(content[start:-end], start):
                last = start
                yield each


def _literals(content: bytes) -> Iterator[Tuple[int, str, bytes]]:
    """What texts in quotes stand for that have escapes: bytes as `repr` shows them, and strings of JSON whose characters are bytes.

    >>> list(_literals(rb'["cposix\\nsystem\\n."]'))
    [(1, 'escapes', b'cposix\\nsystem\\n.')]
    """
    for match in _LITERAL.finditer(content):
        text = match[1] or match[2] or b''
        if b'\\' in text:
            for inner in _as_bytes(_LITERAL_ESCAPE.sub(_literal_unescaped, text)):
                if may_hold(inner):
                    yield match.start(), 'escapes', inner


def _as_bytes(text: bytes) -> Iterator[bytes]:
    """A text without its escapes, and the bytes that its characters are where others stand there as UTF-8."""
    yield text
    if not text.isascii():
        try:
            yield text.decode('utf-8').encode('latin-1')
        except UnicodeError:
            return


def _literal_unescaped(match: 're.Match[bytes]') -> bytes:
    digits = match[1] or match[2]
    if digits is not None:
        return bytes.fromhex(digits.decode('ascii'))
    if match[3] is not None:
        return bytes([int(match[3], 8) & 255])
    return _ESCAPED.get(match[4], match[4])


def _deflated(content: bytes) -> Iterator[Tuple[int, str, bytes]]:
    """What all of the bytes stand for as raw deflate, where they are one whole stream of that."""
    stream = zlib.decompressobj(-15)
    try:
        inner = stream.decompress(content, _MOST_DEFLATED)
    except zlib.error:
        return
    if stream.eof and not stream.unused_data and may_hold(inner):
        yield 0, 'raw deflate', inner


def _read(text: bytes, at: int) -> Iterator[Tuple[int, str, bytes]]:
    """What base64 that begins at an offset stands for, and hexadecimal over several lines."""
    signs = text.translate(_STANDARD, _BLANKS)
    if len(signs) < len(text) and not signs.translate(None, _DIGITS):
        inner = binascii.unhexlify(signs[:len(signs) // 2 * 2])
        if may_hold(inner):
            yield at, 'hexadecimal', inner
    for offset, inner in _base64(signs):
        if may_hold(inner):
            yield at + _place(text, offset), 'base64', inner


def _place(text: bytes, signs: int) -> int:
    """Where a sign of a folded run is, by its number."""
    for match in re.finditer(rb'[^\r\n\t ]+', text):
        if signs < len(match[0]):
            return match.start() + signs
        signs -= len(match[0])
    return 0


# --- Runs ---

def _folded(content: bytes, spans: List[_Span]) -> Tuple[List[_Span], List[_Span]]:
    """Runs that go on over several lines, and all runs but the lines of those that are regular (several may be in them, one behind another).
    """
    folded: List[_Span] = []
    alone: List[_Span] = []
    first, following = 0, -1  # (the line with which a run begins, and where the next is to begin)
    size = len(content)
    for number, (start, end) in enumerate(spans):
        if start != following and following >= 0:
            alone += _close(content, spans[first:number], following, folded)
            first = number
        match = _BREAK.match(content, end) if end < size and content[end] in _ENDS else None
        if match is not None:
            following = match.end()
        elif following >= 0:
            alone += _close(content, spans[first:number + 1], end, folded)
            first, following = number + 1, -1
        else:
            alone.append((start, end))
            first = number + 1
    if following >= 0:
        alone += _close(content, spans[first:], following, folded)
    return folded, alone


def _close(content: bytes, lines: List[_Span], last: int, folded: List[_Span]) -> List[_Span]:
    """Keeps a run over these lines, and what is left of it in the line that begins (or ends) at `last`. Answers its lines that may be runs
    alone. Where the first has another length, such as a heading, it is no part of a run that is kept, too."""
    match = _SIGNS_ALONE.match(content, last)
    end = match.end() if match is not None and last > lines[-1][1] else lines[-1][1]
    if content[end:end + 1] in (b' ', b'\t'):  # (words of a text are no last line)
        end = lines[-1][1]
        if len(lines) == 1:
            return lines
    if not content.startswith(b'---', lines[0][1] - 3):
        folded.append((lines[0][0], end))
    lengths = [end - start for start, end in lines]
    if len(lines) > 1 and lengths[0] != lengths[1]:
        folded.append((lines[1][0], end))
    if len(set(lengths[1:-1])) > 1 or len(lines) < 4:
        return lines
    return [lines[0], *(line for line in lines[1:-1] if not content[line[0]:line[1]].translate(None, _DIGITS)), lines[-1]]


def _short_lines(content: bytes, at: int, stop: int) -> Iterator[_Span]:
    """From where to where there are lines that are too short to be runs, of base64 or hexadecimal, in this part of the content."""
    part = content[at - 1:stop] if at else b'\n' + content[:stop]
    for match in _SHORT_LINES.finditer(part):
        start, end = at + match.start(), at + match.end() - 1
        lines = match[0].split()
        if len(set(map(len, lines[:-1]))) == 1 or not content[end:].strip(b'=\r\n') and not content[:start].strip():
            yield start, end


# --- Which of them may hold something ---

def _by_length(content: bytes, spans: Iterable[_Span]) -> Iterator[Tuple[Sequence[int], List[bytes]]]:
    """Where runs of one length begin, and they themselves."""
    alike: Dict[int, List[int]] = defaultdict(list)
    for start, end in spans:
        alike[end - start].append(start)
    for length, starts in alike.items():
        yield starts, [content[start:start + length] for start in starts]


def _telling(starts: Sequence[int], texts: List[bytes]) -> Iterator[Tuple[int, int, str]]:
    """Of runs of one length those that may hold something, and the digits in them that may: from where to where, and what they may be."""
    length = len(texts[0])
    if not texts[0].translate(None, _CHECKSUM) and not b''.join(texts).translate(None, _CHECKSUM):
        yield from _telling_digits(starts, texts)
        return
    fill = b'0' * (-length % 4 % 3)  # (up to four, which changes none of the bytes that are whole)
    whole = fill.join(texts) + fill
    yield from ((starts[number], starts[number] + length, 'base64') for number in _telling_base64(texts, whole))
    if whole.translate(_IS_DIGIT).find(b'a' * (2 * LEAST)) < 0:
        return
    digits: Dict[int, List[Tuple[int, bytes]]] = defaultdict(list)  # (by how many they are)
    for begin, end in runs(b'.'.join(texts).translate(_IS_DIGIT), 2 * LEAST):
        number, at = divmod(begin, length + 1)
        digits[end - begin].append((starts[number] + at, texts[number][at:at + end - begin]))
    for found in digits.values():
        yield from _telling_digits([start for start, _ in found], [text for _, text in found])


def _telling_digits(starts: Sequence[int], texts: List[bytes]) -> Iterator[Tuple[int, int, str]]:
    """Digits of which an even number may hold something. Of an odd number the first or the last is no part of it."""
    length = len(texts[0])
    even = length // 2 * 2
    if even < 2 * LEAST:
        return
    for shift in range(1 + length % 2):
        parts = [text[shift:shift + even] for text in texts] if length % 2 else texts
        if len(parts) < _FEW or length > _SHORT_RUN:
            telling: Iterable[int] = [number for number, text in enumerate(parts) if may_hold(binascii.unhexlify(text))]
        else:
            telling = holding(binascii.unhexlify(b''.join(parts)), even // 2, even // 2)
        yield from ((starts[number] + shift, starts[number] + shift + even, 'hexadecimal') for number in telling)


def _telling_base64(texts: List[bytes], whole: bytes) -> Iterable[int]:
    """The numbers of those among runs of one length that may hold something as base64, or have a place at which something known begins.
    `whole` has them one behind another, each filled up."""
    length, stride = len(texts[0]), len(whole) // len(texts)
    if len(texts) < _FEW or length > _SHORT_RUN:
        return [number for number, text in enumerate(texts) if text.translate(None, _CHECKSUM)]
    # (what begins at the end of one and goes on in the next is looked at for nothing)
    found: Set[int] = {match.start() // stride for begin in _INSIDE for match in begin.finditer(whole)}
    used = length - (length % 4 == 1)
    if used < length:
        whole, stride = b''.join([text[:used] for text in texts]), used
    if b'-' in whole or b'_' in whole:
        whole = whole.translate(_STANDARD)
    return found | holding(binascii.a2b_base64(whole), stride // 4 * 3, used * 3 // 4)


# --- What they stand for ---

def _unescaped(match: 're.Match[bytes]') -> bytes:
    if match[1] is not None:
        return bytes.fromhex(match[1].decode('ascii'))
    return _ESCAPED.get(match[2], match[2])


def _bytes_of(signs: bytes) -> bytes:
    """What signs stand for as base64. One that is left over at the end stands for nothing."""
    used = len(signs) - (len(signs) % 4 == 1)
    return binascii.a2b_base64(signs[:used] + b'=' * (-used % 4))


def _base64(signs: bytes) -> Iterator[Tuple[int, bytes]]:
    """What a run is as base64, from its beginning and from places inside at which something known begins."""
    yield 0, _bytes_of(signs)
    places = sorted(match.start() for each in _INSIDE for match in each.finditer(signs, 1))
    left = _MOST_TIMES * len(signs) + _PIECE * _PIECE
    for start in places:
        piece = _bytes_of(signs[start:start + _PIECE])
        whole = (len(signs) - start) * 3 // 4
        used = _used(piece, whole)
        left -= _PIECE if not used else used
        if left < 0:
            raise LimitMet('base64 in it has too many places at which a pickle may begin: they are not all looked at')
        if used:
            yield start, piece[:used] if used <= len(piece) else _bytes_of(signs[start:])


def _used(piece: bytes, whole: int) -> int:
    """How many bytes a pickle has, or what zlib or gzip packed, that begins with this piece of so many: all where it does not end in the piece,
    and 0 where none begins so."""
    if BEGINS_PICKLE.match(piece):
        way = walk(piece, 0)
        if way.stops and not way.lacks:
            return way.end
        return whole if way.is_likely or not way.lacks and len(piece) < way.needs <= whole else 0
    stream = zlib.decompressobj(_ZLIB_OR_GZIP)
    try:
        if not stream.decompress(piece, _PIECE):
            return 0
    except zlib.error:
        return 0
    return len(piece) - len(stream.unused_data) if stream.eof else whole


def is_word(content: bytes) -> bool:
    """Whether bytes are a short text in one line, such as a key, in which nothing can be: no name of an import, no container, no run of signs.

    >>> is_word(b'user:17'), is_word(b'N.'), is_word(b'gASVAgAAAAAAAABOLg==')
    (True, False, False)
    """
    return (_PRINTABLE.fullmatch(content) is not None and content[-1] != _STOP and MAY_BE_KNOWN.match(content) is None
            and not may_begin(content[0]) and content.translate(_IS_SIGN).find(_ONE_RUN) < 0)
