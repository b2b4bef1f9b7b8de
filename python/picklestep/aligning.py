"""Which items of two sequences stand for one another: the same ones in the same order, as many as are found in a bounded time."""

from __future__ import annotations

from bisect import bisect_left
from collections import Counter
from dataclasses import dataclass
from typing import Dict, Hashable, Iterator, List, Optional, Sequence, Tuple

__all__ = ['Steps', 'aligned', 'gaps']

_Pair = Tuple[int, int]
# The fewest changes are looked for up to so many: the way there takes memory by their square.
_MOST_CHANGES = 500


# So many steps are taken for each item, and so many more.
_FOR_EACH, _MORE = 32, 2_000_000


@dataclass
class Steps:
    """How many steps may still be taken. Where there are none left, fewer items are found."""

    left: int

    @classmethod
    def for_items(cls, count: int) -> 'Steps':
        """Those for so many items."""
        return cls(_FOR_EACH * count + _MORE)


@dataclass(frozen=True)
class _Part:
    """Parts of both sequences: the places where each begins and ends."""

    at: int
    end: int
    to: int
    last: int


def aligned(one: Sequence[Hashable], other: Sequence[Hashable], steps: Steps) -> List[_Pair]:
    """The places of items that are equal, in the order of both sequences.

    What both begin and end with is taken first, and then the items that both have once, in the longest order that is in both (patience diff, by Bram
    Cohen). Between these the same is done again. Where no item is there once, the fewest changes are looked for (An O(ND) Difference Algorithm, by
    Eugene Myers).

    >>> aligned('abcdef', 'bcxef', Steps(100))
    [(1, 0), (2, 1), (4, 3), (5, 4)]
    >>> aligned('aabbaa', 'abba', Steps(100))
    [(0, 0), (2, 1), (3, 2), (5, 3)]
    """
    found: List[_Pair] = []
    waiting = [_Part(0, len(one), 0, len(other))]
    while waiting:
        part = _without_ends(one, other, waiting.pop(), found)
        size = part.end - part.at + part.last - part.to
        if part.at == part.end or part.to == part.last or steps.left < size:
            continue
        steps.left -= size
        once = _there_once(one, other, part)
        if not once:
            found.extend(_fewest_changes(one, other, part, steps))
            continue
        found.extend(once)
        at, to = part.at, part.to
        for first, second in (*once, (part.end, part.last)):
            waiting.append(_Part(at, first, to, second))
            at, to = first + 1, second + 1
    return sorted(found)


def gaps(pairs: Sequence[_Pair], size: int, other_size: int) -> Iterator[Tuple[range, range, Optional[_Pair]]]:
    """The places that stand for no other before each pair, and the pair; and at the end those behind all pairs.

    >>> [(list(lefts), list(rights), pair) for lefts, rights, pair in gaps([(1, 0)], 2, 3)]
    [([0], [], (1, 0)), ([], [1, 2], None)]
    """
    at = to = 0
    for first, second in pairs:
        yield range(at, first), range(to, second), (first, second)
        at, to = first + 1, second + 1
    yield range(at, size), range(to, other_size), None


def _without_ends(one: Sequence[Hashable], other: Sequence[Hashable], part: _Part, found: List[_Pair]) -> _Part:
    """What is between that which both begin and end with."""
    at, end, to, last = part.at, part.end, part.to, part.last
    while at < end and to < last and one[at] == other[to]:
        found.append((at, to))
        at, to = at + 1, to + 1
    while at < end and to < last and one[end - 1] == other[last - 1]:
        end, last = end - 1, last - 1
        found.append((end, last))
    return _Part(at, end, to, last)


def _there_once(one: Sequence[Hashable], other: Sequence[Hashable], part: _Part) -> List[_Pair]:
    """The items that both have once: of these the most that have one order in both."""
    counts = Counter(one[part.at:part.end]), Counter(other[part.to:part.last])
    places = {other[to]: to for to in range(part.to, part.last)}
    pairs = [(at, places[one[at]]) for at in range(part.at, part.end) if counts[0][one[at]] == 1 == counts[1][one[at]]]
    # The longest rising sequence: of each length the lowest end, and for each pair the one before it.
    ends: List[int] = []
    chosen: List[int] = []
    before: List[int] = []
    for number, (_, to) in enumerate(pairs):
        length = bisect_left(ends, to)
        before.append(chosen[length - 1] if length else -1)
        ends[length:length + 1], chosen[length:length + 1] = [to], [number]
    rising: List[_Pair] = []
    number = chosen[-1] if chosen else -1
    while number >= 0:
        rising.append(pairs[number])
        number = before[number]
    return rising[::-1]


def _fewest_changes(one: Sequence[Hashable], other: Sequence[Hashable], part: _Part, steps: Steps) -> List[_Pair]:
    """The equal items where the fewest are left out and put in. None where that takes too many steps. (What the other has not at all is no way.)"""
    both = set(one[part.at:part.end]).intersection(other[part.to:part.last])
    places = [at for at in range(part.at, part.end) if one[at] in both]
    other_places = [to for to in range(part.to, part.last) if other[to] in both]
    found = _way([one[at] for at in places], [other[to] for to in other_places], steps)
    return [(places[at], other_places[to]) for at, to in found]


def _way(one: List[Hashable], other: List[Hashable], steps: Steps) -> Iterator[_Pair]:
    """The equal items on the way from the beginning of both to the end of both that has the fewest changes."""
    # How far the first is read, by the diagonal: how far one is ahead of the other. And the same before each further change.
    reached = {1: 0}
    history: List[Dict[int, int]] = []
    for changes in range(min(len(one) + len(other), _MOST_CHANGES) + 1):
        history.append({diagonal: reached[diagonal] for diagonal in range(-changes - 1, changes + 2) if diagonal in reached})
        for diagonal in range(-changes, changes + 1, 2):
            at = begin = _next(reached, diagonal, changes)
            while at < len(one) and at - diagonal < len(other) and one[at] == other[at - diagonal]:
                at += 1
            steps.left -= 1 + at - begin
            reached[diagonal] = at
            if at >= len(one) and at - diagonal >= len(other):
                return _way_back(history, len(one), len(other))
        if steps.left < 0:
            steps.left = 0
            break
    return iter(())


def _is_put_in(reached: Dict[int, int], diagonal: int, changes: int) -> bool:
    """Whether a diagonal is reached by putting in an item of the other, and not by leaving out one of the first."""
    return diagonal == -changes or diagonal != changes and reached[diagonal - 1] < reached[diagonal + 1]


def _next(reached: Dict[int, int], diagonal: int, changes: int) -> int:
    """How far the first is read on a diagonal after one change more."""
    return reached[diagonal + 1] if _is_put_in(reached, diagonal, changes) else reached[diagonal - 1] + 1


def _way_back(history: List[Dict[int, int]], at: int, to: int) -> Iterator[_Pair]:
    """The equal items on the way, from the last."""
    for changes in range(len(history) - 1, -1, -1):
        diagonal = at - to
        begin = _next(history[changes], diagonal, changes)
        for back in range(1, at - begin + 1):
            yield at - back, to - back
        at, to = (begin, begin - diagonal - 1) if _is_put_in(history[changes], diagonal, changes) else (begin - 1, begin - diagonal)
