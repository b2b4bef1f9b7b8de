"""Finds pickles behind a few bytes where nothing but their opcodes says that they begin: an import and a call, without a sign before them.

From each place a walk goes to its end, also behind long arguments. All walks over the same bytes share one limit, and what is behind it is noted.
"""

from __future__ import annotations

import re
from typing import Iterator, List, NamedTuple, Optional, Set, Tuple

from ...patterns import pattern
from ..blobs import Blob
from ..walk import MOST, Walk, may_begin, walk
from .anywhere import calls_number, may_call_number
from .telling import PREFIX, packed_places, prefixes

__all__ = ['CUT', 'Early', 'EarlySearch', 'may_be_behind_few', 'may_be_early']

_BEGIN_OPCODE = pattern(b'[' + re.escape(bytes(each for each in range(256) if may_begin(each))) + b']')

# A first test goes over so many opcodes at each place.
_QUICK = 400

# All places together take so many opcodes, and each goes on behind so many arguments that reach out of what is at hand.
_MOST_STEPS = 300_000
_MOST_FAR = 16
_WINDOW = 1 << 20
_IN_LINES = {ord(each): 1 + (each in 'ci') for each in 'FILSVPcgip'}

CUT = 'opcodes behind its first bytes go on for long: they are not looked at to their end'


class Early(NamedTuple):
    """Where a pickle may begin, and where it ends (0 where its end is not known). `within` are the places whose walks come by here."""

    offset: int
    end: int
    within: Tuple[int, ...]


def may_be_early(begin: bytes, size: int) -> bool:
    """Whether opcodes behind a few bytes may lead to an import and a call, by the first bytes of so many.

    >>> may_be_early(b'12cos\\nsystem\\n)R.', 18), may_be_early(b'12345678', 8)
    (True, False)
    """
    if size <= len(begin) and not _may_import(begin):
        return False
    return any(_may_go_on(begin, match.start(), size) for match in _BEGIN_OPCODE.finditer(begin, 1, PREFIX + 1))


def may_be_behind_few(begin: bytes, size: int) -> bool:
    """Whether a pickle, or packed bytes, may be behind a few bytes, by the first bytes of so many.

    >>> may_be_behind_few(b'1234\\x80\\x04]K\\1a.', 11), may_be_behind_few(b'title: of a text', 16)
    (True, False)
    """
    if any(packed_places(begin)) or any(_is_begun(begin, at, size) for at in prefixes(begin)):
        return True
    return may_be_early(begin, size)


def _is_begun(begin: bytes, at: int, size: int) -> bool:
    way = walk(begin, at, most=_QUICK)
    return way.is_likely or not way.lacks and _is_left(way, begin, size)


def _may_import(content: bytes) -> bool:
    """Whether an import by two texts or two lines may be in these bytes, or a number of copyreg that is called."""
    return b'\x93' in content or content.count(b'\n') >= 2 or may_call_number(content)


def _may_go_on(begin: bytes, at: int, size: int) -> bool:
    way = walk(begin, at, most=_QUICK)
    return way.is_called or calls_number(begin, way) or not way.lacks and (way.goes_on or _is_left(way, begin, size))


def _is_left(way: Walk, begin: bytes, size: int) -> bool:
    """Whether a walk comes to the end of the first bytes, and there are more."""
    return not way.stops and (len(begin) < way.needs <= size or len(begin) <= way.end < size)


class EarlySearch:
    """Looks for them in a blob, of which the first bytes are at hand. `is_cut` says that the limit was met."""

    def __init__(self, blob: Blob, content: bytes) -> None:
        self.is_cut = False
        self._blob = blob
        self._content = content
        self._left = _MOST_STEPS
        # Where no walk comes to a call or a STOP, whatever is on its stack.
        self._dead: Set[int] = set()

    def places(self) -> List[Early]:
        """All of them, in their order."""
        content = self._content
        if self._blob.size <= len(content) and not _may_import(content):
            return []
        return list(self._places())

    def _places(self) -> Iterator[Early]:
        called: List[Walk] = []
        by: List[Set[int]] = []
        for match in _BEGIN_OPCODE.finditer(self._content, 1, PREFIX + 1):
            at = match.start()
            known = [way for way, passed in zip(called, by) if at in passed]
            if known:
                yield Early(at, known[0].end if known[0].stops else 0, tuple(way.passed[0] for way in known))
                continue
            way = self._way(at)
            if way is not None and way.is_called:
                called.append(way)
                by.append(set(way.passed))
                yield Early(at, way.end if way.stops else 0, ())

    def is_called(self, each: Early) -> bool:
        """Whether a walk that begins within another comes to a call by itself."""
        way = self._way(each.offset)
        return way is not None and way.is_called

    def _way(self, at: int) -> Optional[Walk]:
        """How a walk from there ends. None where no more of it is known."""
        content, cut = self._content, 0
        for _ in range(_MOST_FAR):
            way = self._walk(content, at, content is self._content)
            if way.is_called or way.lacks or way.stops:
                way.stops = way.stops and not cut
                return way
            if way.goes_on:
                break
            following = self._following(content, cut, way)
            if following is None:
                if content is self._content and not way.calls:
                    self._dead.update(way.passed)
                return way
            if following - cut - way.end < _WINDOW // 2:
                content = content[:way.end] + self._blob.read(cut + way.end, _WINDOW)
            else:  # (a constant stands for a long argument)
                content = content[:way.end] + b'N' + self._blob.read(following, _WINDOW)
                cut = following - way.end - 1
        self.is_cut = True
        return None

    def _walk(self, content: bytes, at: int, is_first: bool) -> Walk:
        """A walk, which goes on as long as it calls nothing."""
        dead = self._dead if is_first else None
        way = walk(content, at, most=min(MOST, self._left), dead=dead, learns=False)
        if way.goes_on and not way.is_called:
            way = walk(content, at, most=self._left, dead=dead, learns=False)
        self._left -= min(self._left, way.opcodes)
        way.is_called = way.is_called or calls_number(content, way)
        return way

    def _following(self, content: bytes, cut: int, way: Walk) -> Optional[int]:
        """Where it goes on in the blob behind what is at hand. None where it does not."""
        if way.end >= len(content):
            return cut + way.end if cut + way.end < self._blob.size else None
        if way.needs <= len(content):
            return None
        at = cut + way.needs
        for _ in range(_IN_LINES.get(content[way.end], 0) - content.count(b'\n', way.end)):
            found = self._newline(at - 1)
            if found is None:
                return None
            at = found + 1
        return at if at <= self._blob.size else None

    def _newline(self, at: int) -> Optional[int]:
        for piece in self._blob.chunks(at):
            found = piece.find(b'\n')
            if found >= 0:
                return at + found
            at += len(piece)
            self._left = max(0, self._left - (len(piece) >> 10))
            if not self._left:
                self.is_cut = True
                break
        return None
