"""Searches bytes for pickles at any offset.

A pickle that does harm imports something and calls it, and most begin with PROTO. So the search looks for four things: PROTO, two lines
that name something (GLOBAL, INST), STACK_GLOBAL behind a text, and a call at the end behind a number of copyreg (EXT1, EXT2, EXT4). From
each a walk over the opcodes says whether a loader could go on to a call or to a STOP. Only then are the bytes handed out, and the program is
asked about them.

The time is linear. Ways that lead nowhere are not gone twice, and what is left has a limit.
"""

from __future__ import annotations

import re
from typing import Iterator, Optional, Set, Tuple

from ...opcodes import TABLE
from ...patterns import pattern
from ..blobs import Blob, LimitMet
from ..walk import CHECKSUM, MOST, Walk, walk

__all__ = ['BEGINS_PICKLE', 'calls_number', 'candidates', 'ends_in_call', 'may_call_number', 'may_end_text', 'may_have_candidates',
           'may_have_lines']

# The bytes are read in such windows, each with this much of the next.
_WINDOW = 4 << 20
_OVERLAP = 64 << 10
# A candidate that does not end within the overlap is read up to this size.
_MOST_BYTES = 64 << 20

# PROTO, and an opcode.
BEGINS_PICKLE = pattern(rb'\x80[\x02-\x05][(-Z\]a-u}\x80-\x98]')
# The second line of GLOBAL and INST. What begins at a newline is found in linear time, however long the lines are.
_SECOND_LINE = pattern(rb'\n(?=[A-Za-z_][A-Za-z0-9_.]{0,255}\n)(?!' + CHECKSUM + rb')')
_MOST_OF_LINE = 256

# So many arguments of a pickle may reach out of what is read at once.
_MOST_FAR = 16

# An opcode is behind GLOBAL. (INST calls at once.)
_OPCODE = pattern(rb'[(-Z\]a-u}\x80-\x98]')
# After an import by GLOBAL these take what is not there, unless a MARK is before it.
_TAKING = frozenset(b'abdeiloRstu')
_IN_NAME = frozenset(b'0123456789ABCDEFGHIJKLMNOPQRSTUVWXYZabcdefghijklmnopqrstuvwxyz_.+@-')
_BEGINS_NAME = _IN_NAME - frozenset(b'0123456789.+@-')

# What may put a text on the stack: SHORT_BINUNICODE, BINUNICODE, SHORT_BINSTRING, BINSTRING, UNICODE, STRING, BINUNICODE8.
_TEXTS = pattern(rb'[\x8cXUTVS\x8d]')
_BEFORE_STACK_GLOBAL = 600

# Opcodes that take something out of the memo or put it there, each with the width of its number (0: a line).
_GETS, _PUTS = ({info.code: 0 if info.form == 'decimal' else int(info.form[-1]) for info in TABLE if info.row == row} for row in ('get', 'put'))
_MEMOIZE = 0x94
_MOST_OF_NUMBER = 20

# EXT1, EXT2 and EXT4, and how a call of one ends a pickle: what makes a tuple, REDUCE or NEWOBJ, and STOP.
_EXTENSIONS = pattern(rb'[\x82-\x84]')
_CALL_AND_STOP = (b'R.', b'\x81.')
_MAKES_TUPLE = frozenset(b')t\x85\x86\x87')

# A pickle whose walk lacks something on the stack may begin at a MARK so many bytes before.
_BEFORE = 1_024
_MOST_MARKS = 32

# From a name on a call comes soon. From PROTO on it may come late.
_MOST_FROM_NAME = 200

# So many opcodes are gone over: for each byte, and at least.
_STEPS_OF_A_BYTE = 0.25
_STEPS_AT_LEAST = 2_000_000


def candidates(blob: Blob) -> Iterator[Tuple[int, bytes]]:
    """The offsets at which pickles may begin, each with the bytes up to its STOP (or up to where the walk ended, and some more).

    Raises LimitMet where the bytes have so many places that look like a pickle and are none that looking would not end in time.
    """
    search = _Search(blob)
    done = start = 0
    while start < blob.size:
        window = blob.read(start, _WINDOW + _OVERLAP)
        is_last = start + len(window) >= blob.size
        # (what shows a pickle may be a little behind its beginning)
        for anchor in sorted(search.anchors(window, len(window) if is_last else _WINDOW + _BEFORE)):
            if start + anchor < done:
                continue
            found = search.begin(window, anchor, max(0, done - start)) or search.far(blob, start + anchor, window, anchor)
            if found is not None:
                at, way = found
                inner, length = (window[at:way.end], way.end - at) if way.stops else search.more(blob, start + at)
                done = start + at + max(1, length)
                yield start + at, inner
        if is_last or not window:
            return
        start += _WINDOW


def may_have_candidates(content: bytes) -> bool:
    """Whether one of the four places may be in these bytes: a quick test of a few, which never says no too often.

    >>> may_have_candidates(b'cos\\nsystem\\n)R.'), may_have_candidates(bytes(range(32, 64)))
    (True, False)
    """
    if BEGINS_PICKLE.search(content) or _SECOND_LINE.search(content):
        return True
    return any(may_end_text(content, at) for at in _places(content, b'\x93', len(content))) or any(_last_calls(content, len(content)))


def ends_in_call(content: bytes) -> bool:
    """Whether a pickle ends with a call of something whose arguments are in a tuple.

    >>> ends_in_call(b'\\x82\\x05)R.'), ends_in_call(b'\\x82\\x05.')
    (True, False)
    """
    return content.endswith(_CALL_AND_STOP) and content[-3] in _MAKES_TUPLE if len(content) > 2 else False


def may_call_number(content: bytes) -> bool:
    """Whether a number of copyreg may be in these bytes, and a call behind it that ends a pickle: a quick test."""
    return any(_last_calls(content, len(content))) and _EXTENSIONS.search(content) is not None


def calls_number(content: bytes, way: Walk) -> bool:
    """Whether a walk comes to a number of copyreg, and to a call that ends it."""
    return way.stops and way.calls and ends_in_call(content[:way.end]) and any(_EXTENSIONS.match(content, at) for at in way.passed)


def _places(content: bytes, sign: bytes, end: int) -> Iterator[int]:
    at = content.find(sign, 0, end)
    while at >= 0:
        yield at
        at = content.find(sign, at + 1, end)


def _last_calls(content: bytes, end: int) -> Iterator[int]:
    """Where a call may be that ends a pickle, behind a tuple."""
    return (at for sign in _CALL_AND_STOP for at in _places(content, sign, end) if at and content[at - 1] in _MAKES_TUPLE)


def may_have_lines(content: bytes, start: int, end: int) -> bool:
    """Whether GLOBAL or INST may be in these bytes behind their first line."""
    return _SECOND_LINE.search(content, start, end) is not None


class _Search:
    """Goes through windows, and counts the opcodes that it has gone over."""

    def __init__(self, blob: Blob) -> None:
        self.left = max(_STEPS_AT_LEAST, int(blob.size * _STEPS_OF_A_BYTE))
        self.dead: Set[int] = set()

    def _walk(self, window: bytes, at: int, most: int, until: Optional[int] = None, dead: Optional[Set[int]] = None) -> Walk:
        way = walk(window, at, until, most, dead)
        self.left -= way.opcodes + 4
        if self.left < 0:
            raise LimitMet('it has too many places at which a pickle may begin: they are not all looked at')
        return way

    # --- Places that a pickle with an import has ---

    def anchors(self, window: bytes, end: int) -> Iterator[int]:
        """Where PROTO, GLOBAL and INST are, the first text of a STACK_GLOBAL, and a number of copyreg that is called."""
        self.dead = set()
        for match in BEGINS_PICKLE.finditer(window, 0, min(len(window), end + 2)):
            yield match.start()
        for match in _SECOND_LINE.finditer(window, 0, end):
            yield from _global_lines(window, match.start())
        for at in _places(window, b'\x93', end):
            if may_end_text(window, at):
                yield from self._before(window, _TEXTS, at, at + 1)
        for at in _last_calls(window, end):
            yield from self._before(window, _EXTENSIONS, at, at + 2)

    def _before(self, window: bytes, begins: 're.Pattern[bytes]', at: int, end: int) -> Iterator[int]:
        """Where the nearest one of these begins from which a walk leads to `end`, and takes only out of the memo what it has put there: the
        first of the texts that STACK_GLOBAL takes, or a number of copyreg.
        """
        places = [match.start() for match in begins.finditer(window, max(0, at - _BEFORE_STACK_GLOBAL), at)]
        for place in reversed(places[-_MOST_MARKS:]):
            way = self._walk(window, place, _MOST_FROM_NAME, end)
            if way.end == end and not way.lacks and _has_its_memo(window, way):
                yield place
                return

    # --- How it goes on from there ---

    def more(self, blob: Blob, at: int) -> Tuple[bytes, int]:
        """The bytes of a pickle that does not end within the window, or has no STOP, with some more, and how many of them a walk goes over."""
        content = blob.read(at, _OVERLAP)
        way = self._walk(content, 0, MOST)
        if not way.stops and (way.goes_on or len(content) < way.needs <= blob.size - at or way.end >= len(content) - _MOST_OF_LINE):
            content = blob.read(at, _MOST_BYTES)
            way = self._walk(content, 0, self.left)
        return content[:way.end if way.stops else way.end + _MOST_OF_LINE], way.end

    def far(self, blob: Blob, at: int, window: bytes, anchor: int) -> Optional[Tuple[int, Walk]]:
        """Goes on behind arguments that reach out of the window, from PROTO on. Answers as `begin`, with a walk that has not stopped."""
        if window[anchor] != 0x80:
            return None
        content, cut = window[anchor:], 0  # (and how many bytes of arguments are left out of it)
        for _ in range(_MOST_FAR):
            way = self._walk(content, 0, MOST)
            if way.is_likely:
                way.stops = False
                return anchor, way
            if way.lacks or not len(content) < way.needs <= blob.size - at - cut:
                return None
            # (a constant stands for the argument)
            following = blob.read(at + cut + way.needs, _OVERLAP)
            content, cut = content[:way.end] + b'N' + following, cut + way.needs - way.end - 1
        return None

    def begin(self, window: bytes, anchor: int, least: int) -> Optional[Tuple[int, Walk]]:
        """Where the pickle begins that has this anchor, and how far it goes. None where there is no likely one."""
        is_proto = window[anchor] == 0x80
        way = self._walk(window, anchor, MOST if is_proto else _MOST_FROM_NAME, dead=self.dead)
        if way.is_likely:
            return anchor, way
        if is_proto or not way.lacks and way.end not in self.dead:
            return None
        # Something was put on the stack before: a MARK (for INST and OBJ).
        at = anchor
        for _ in range(_MOST_MARKS):
            at = window.rfind(b'(', max(least, anchor - _BEFORE), at)
            if at < 0:
                return None
            if self._walk(window, at, _MOST_FROM_NAME, anchor).end == anchor:
                longer = self._walk(window, at, 2 * _MOST_FROM_NAME)
                if longer.is_likely:
                    return at, longer
        return None


def _has_its_memo(window: bytes, way: Walk) -> bool:
    """Whether all that a walk takes out of the memo was put there by it."""
    def number(at: int, width: int) -> int:
        found = window[at + 1:at + 1 + width] if width else window[at + 1:window.index(b'\n', at)]
        return int.from_bytes(found, 'little') if width else int(found) if len(found) < _MOST_OF_NUMBER and found.isdigit() else -1

    memo: Set[int] = set()
    for at in way.passed:
        code = window[at]
        if code == _MEMOIZE:
            memo.add(len(memo))
        elif code in _PUTS:
            memo.add(number(at, _PUTS[code]))
        elif code in _GETS and number(at, _GETS[code]) not in memo:
            return False
    return True


def _global_lines(window: bytes, newline: int) -> Iterator[int]:
    """Where GLOBAL or INST may be, by the newline after their first line."""
    behind = window.index(b'\n', newline + 1) + 1
    takes = _OPCODE.match(window, behind) is None or window[behind] in _TAKING
    for at in range(newline - 2, max(-1, newline - _MOST_OF_LINE), -1):
        code = window[at]
        if code in b'ci' and window[at + 1] in _BEGINS_NAME and (
                code == 99 and not takes or window.rfind(b'(', max(0, at - _BEFORE), at) >= 0):
            yield at
        if code not in _IN_NAME:
            return


def may_end_text(window: bytes, at: int) -> bool:
    """Whether a text (or one out of the memo) may end before this place, perhaps with an opcode between that keeps it in the memo."""
    end = at
    if at > 2 and window[at - 1] == 0x94:
        end = at - 1
    elif at > 3 and window[at - 2] in b'q':
        end = at - 2
    elif at > 6 and window[at - 5] in b'r':
        end = at - 5
    if end < 2:
        return False
    if window[end - 1] == 10 or window[end - 2] in b'h' or end > 5 and window[end - 5] in b'j':
        return _has_names(window, end)
    for length in range(1, _MOST_OF_LINE):
        if end - length < 2 or window[end - length] not in _IN_NAME:
            return False
        if window[end - length - 1] == length and window[end - length - 2] in b'\x8cU':
            return True
        begin = window[max(0, end - length - 5):end - length]
        if begin[:1] in (b'X', b'T') and begin[1:] == bytes([length, 0, 0, 0]):
            return True
        if begin == bytes(5) and window[max(0, end - length - 9):end - length - 5] == bytes([0x8d, length, 0, 0]):
            return True
    return False


def _has_names(window: bytes, end: int) -> bool:
    """Whether texts are near that can be names."""
    return _NEAR_TEXT.search(window, max(0, end - _BEFORE_STACK_GLOBAL), end) is not None


_NEAR_TEXT = pattern(rb'(?:[\x8cU][\x01-\x7f]|[XT][\x01-\xff]\0\0\0|\x8d[\x01-\xff]\0{7}|V|S[\'"])(?:[A-Za-z_][A-Za-z0-9_.\\\n]|\\[uUx0-7])')
