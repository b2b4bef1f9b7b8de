"""Which bytes that texts stand for are worth a look. Most texts, such as names and checksums, stand for nothing.

A first test asks many at once: those of one size, one behind another. It says yes too often and never no too often. The second one is exact.
"""

from __future__ import annotations

import re
from typing import Iterator, Set, Tuple

from ..blobs import BytesBlob, LimitMet
from ..containers import CONTAINERS, MAY_BE_KNOWN, MAY_BE_PACKED, PACKED, ZLIB, kind_of
from ...patterns import pattern
from ...unread import kind_of_short
from ..walk import is_opcode, may_begin, stops_at_end, walk
from .anywhere import BEGINS_PICKLE, candidates, may_end_text, may_have_candidates, may_have_lines
from .framed import framing_of, may_be_framed

__all__ = ['LEAST', 'LEAST_RUN', 'PREFIX', 'SIGNS', 'has_proto', 'holding', 'is_json', 'may_hold', 'packed_places', 'prefixes', 'runs',
           'stands_for_bytes']

# Fewer bytes hold nothing. More are looked at without a question.
LEAST = 8
_MOST = 512

# The signs of base64 (in either alphabet) and of hexadecimal, and how many in a row are taken for some.
SIGNS = b'ABCDEFGHIJKLMNOPQRSTUVWXYZabcdefghijklmnopqrstuvwxyz0123456789+/-_'
LEAST_RUN = 12
_RUN = pattern(b'[' + re.escape(SIGNS) + b']{%d}' % LEAST_RUN)

# What has one of these bytes, and then more, may import. Each pattern begins with one byte, which is searched for quickly.
_IS_PROTO = pattern(rb'\x80(?=[\x02-\x05])')
_TWO_LINES = rb'\n(?=[A-Za-z_\x80-\xff][^\n]{0,%d}\n)'
_STACK_GLOBAL = pattern(rb'\x93')
_BEHIND_TEXT = pattern(rb'\x93(?:(?<=[A-Za-z0-9_.\n\x94].)|(?<=[qh]..)|(?<=[rj].....))', re.DOTALL)
_TEXTS = pattern(rb'[\x8cXUTVS\x8d]')
_MARK_OR_TEXT = pattern(rb'[(X]')
_MAY_BEGIN = bytes(each for each in range(256) if may_begin(each))
_BEHIND_COLON = pattern(b':(?=[' + re.escape(_MAY_BEGIN) + b'])')
_BEGUN = bytes(each in _MAY_BEGIN + b'!' for each in range(256))

# How containers begin that can be as short as what is asked here: those that are opened, and those that are noted of short bytes (with the
# second byte that they have, or 0 where the sign comes later). Then the last byte of a pickle.
_MAGICS = [each.magic for each in CONTAINERS if each.magic]
_BEGINS = pattern(b'[%b' % b''.join(re.escape(magic[:1]) for magic in _MAGICS) + rb'\x00\x02\x04!(*07ALMOP-Ya\xff]')
_SECONDS = frozenset(b''.join(magic[1:2] for magic in _MAGICS) + b'\0\xb5*"!ozaL\x06RAbGETD123456789\x15\x7f\xd5<S7')
_TAR = 257
_ZLIB = pattern(ZLIB.sign)
_STOP = pattern(rb'\.')
_ZERO = pattern(rb'\0')
_ALL_SIGNS = bytes(97 if each in SIGNS else 46 for each in range(256))

# So many bytes may be before a pickle: a sign of the library, a time, a checksum in hexadecimal with a colon.
PREFIX = 80
_PROTO = pattern(rb'\x80[\x02-\x05]')

# How packed bytes begin, and base64 or hexadecimal of a pickle with PROTO or of packed bytes.
_PACKED = pattern(b'(?=%b)' % b'|'.join(each.stream.behind_few for each in PACKED if each.stream and each.stream.behind_few))
_AS_TEXT = pattern(rb'gA[I-X]|eJ[wxyz0-3]|eN[o-r]|eA[EF]|H4sI|800[2-5][2-9][0-9a-fA-F]|1[fF]8[bB]08|78(?:01|5[eE]|9[cC]|[dD][aA])')
_JSON = pattern(rb'(?:\xef\xbb\xbf)?[ \t\r\n]*[{\["]')


def runs(marked: bytes, least: int) -> Iterator[Tuple[int, int]]:
    """From where to where there are so many signs `a` in a row, or more, among signs `.`.

    >>> list(runs(b'aa.aaaa', 3))
    [(3, 7)]
    """
    signs, find = b'a' * least, marked.find
    start = find(signs)
    while start >= 0:
        end = find(b'.', start + least)
        if end < 0:
            yield start, len(marked)
            return
        yield start, end
        start = find(signs, end)


def may_hold(inner: bytes) -> bool:
    """Whether bytes may be a container, a record with a length before it, or a pickle that is worth a note, or have one in them."""
    if len(inner) < LEAST:
        return False
    if len(inner) > _MOST or stops_at_end(inner) or may_be_framed(inner) and framing_of(BytesBlob(inner)) is not None:
        return True
    if (_BEGINS.match(inner) or _ZLIB.match(inner)) and MAY_BE_KNOWN.match(inner) and (kind_of(inner) or kind_of_short(inner)) is not None:
        return True
    if is_opcode(inner[0]) and walk(inner, 0).is_likely or BEGINS_PICKLE.search(inner):
        return True
    if inner.isascii() and _RUN.search(inner) is not None or any(walk(inner, at).is_likely for at in prefixes(inner)):
        return True
    try:
        return may_have_candidates(inner) and any(True for _ in candidates(BytesBlob(inner)))
    except LimitMet:
        return True


def holding(joined: bytes, stride: int, size: int) -> Set[int]:
    """The numbers of those among bytes of one size that may hold something. They are joined, one at each `stride`.

    >>> holding(b'12345678\\x80\\x04N.    12345678', 8, 8)
    {1}
    """
    firsts, seconds = joined[::stride], joined[1::stride]
    begun = [match.start() for match in _BEGINS.finditer(firsts)]
    likely = {number for number in begun if (seconds[number] in _SECONDS or size > _TAR) and MAY_BE_PACKED.match(joined, number * stride)}
    likely.update(number for number in (match.start() for match in _ZLIB.finditer(firsts)) if not (firsts[number] << 8 | seconds[number]) % 31)
    likely.update(match.start() for match in _STOP.finditer(joined[size - 1::stride]) if is_opcode(firsts[match.start()]))
    for ones, others in ((firsts, seconds), (joined[3::stride], joined[2::stride])):
        likely.update(match.start() for match in _ZERO.finditer(ones) if not others[match.start()])
    likely.update(match.start() // stride for match in re.finditer(rb'\xff\xff\xff\xff', joined))
    likely.update(number for start, end in runs(joined.translate(_ALL_SIGNS), LEAST_RUN) for number in
                  range(start // stride, (end - 1) // stride + 1))
    likely.update(match.start() // stride for match in _IS_PROTO.finditer(joined))
    likely |= _naming(joined, stride, firsts)
    return {number for number in likely if may_hold(joined[number * stride:number * stride + size])}


def _naming(joined: bytes, stride: int, firsts: bytes) -> Set[int]:
    """The numbers of those in which an import may be, or a list, a dict or texts from the beginning on."""
    begun = firsts.translate(_BEGUN)
    likely = {match.start() for match in _MARK_OR_TEXT.finditer(firsts)}
    for match in _STACK_GLOBAL.finditer(joined):
        number = match.start() // stride
        if begun[number] and _TEXTS.search(joined, number * stride, match.start()):
            likely.add(number)
    for match in _BEHIND_COLON.finditer(joined):
        number = match.start() // stride
        if match.start() - number * stride <= PREFIX and joined.find(b'\x93', match.start(), (number + 1) * stride) >= 0:
            likely.add(number)
    found = {match.start() // stride for match in _BEHIND_TEXT.finditer(joined) if may_end_text(joined, match.start())}
    for match in re.finditer(_TWO_LINES % stride, joined):
        end = (match.start() // stride + 1) * stride
        if may_have_lines(joined, match.start(), end):
            found.add(end // stride - 1)
        elif joined.find(b'\n', match.end() + 1, end) >= 0:
            likely.add(end // stride - 1)
    return found.union(number for number in likely - found if _leads(joined[number * stride:(number + 1) * stride]))


def _leads(inner: bytes) -> bool:
    """Whether a pickle worth a question may begin these bytes, or stand behind a few of them."""
    return may_begin(inner[0]) and walk(inner, 0).is_likely or any(walk(inner, at).is_likely for at in prefixes(inner))


def prefixes(content: bytes) -> Iterator[int]:
    """Offsets behind a few bytes at which a pickle may begin: PROTO, or what is after a sign or a checksum of a library.

    >>> list(prefixes(b'!N.')), list(prefixes(b'1234567\\x80\\x04N.'))
    ([1], [7])
    """
    head = content[:PREFIX + 2]
    if head[:1] == b'!':
        yield 1  # cachelib
    colon = head.find(b':')
    if colon > 0:
        yield colon + 1  # Django: the checksum of a session
    for match in _PROTO.finditer(head, 1):
        if match.start() != colon + 1 and (match.start(), head[:1]) != (1, b'!'):
            yield match.start()


def has_proto(content: bytes) -> bool:
    """Whether a pickle with PROTO may begin behind a few bytes."""
    return BEGINS_PICKLE.search(content, 1, PREFIX + 3) is not None


def packed_places(content: bytes) -> Iterator[int]:
    """Offsets behind a few bytes at which packed bytes may begin.

    >>> list(packed_places(b'gz:\\x1f\\x8b\\x08')), list(packed_places(b'\\x1f\\x8b\\x08'))
    ([3], [])
    """
    return (match.start() for match in _PACKED.finditer(content[:PREFIX + 6], 1))


def is_json(head: bytes) -> bool:
    """Whether JSON may begin so."""
    return _JSON.match(head) is not None


def stands_for_bytes(content: bytes) -> bool:
    """Whether base64 or hexadecimal of a pickle with PROTO, or of packed bytes, may begin in these bytes, or they are nothing but such signs.

    >>> stands_for_bytes(b'{"body": "gASVAgAAAAAAAABOLg=="}'), stands_for_bytes(b'some text')
    (True, False)
    """
    return _AS_TEXT.search(content) is not None or len(content) >= 2 * LEAST and not content.translate(None, SIGNS + b'=\r\n')
