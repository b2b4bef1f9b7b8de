"""Breakpoints: on a place, an opcode, an import, a call, a text, a memo key, a change of an object or a key, or a number of open marks; each where
a condition is true, if it has one."""

from __future__ import annotations

from bisect import bisect_left, bisect_right
from dataclasses import dataclass
from fnmatch import fnmatchcase
from heapq import merge
from typing import Callable, Dict, Iterable, Iterator, Optional, Tuple

from ..edits import unquoted
from ..errors import Refused
from ..opcodes import BY_NAME
from ..reaches import CALLED, IMPORTS
from ..searching import Sought, with_key
from .expressions import Expression, dotted
from .opened import Opened
from .words import NotThere

__all__ = ['BREAKS', 'Break', 'BreakError', 'made_break', 'is_hit', 'next_break']

# The kinds that take a number.
_OF_NUMBERS = frozenset(('at', 'memo', 'store', 'change', 'depth'))
_TAKES = {'opcode': 'the name of one', 'import': 'a pattern, as os.*', 'call': 'a pattern, as os.*'}
# The kind that is at each opcode, which is of use with a condition alone.
_EACH = 'each'
_TOLD_EACH = 1000  # (places that are asked about)


class BreakError(ValueError):
    """A breakpoint that cannot be set, and why."""


@dataclass
class Break:
    """A breakpoint. `what` is its kind, `text` what is looked for, `condition` what has to be true before the opcode."""

    number: int
    what: str
    text: str
    is_on: bool = True
    condition: Optional[Expression] = None

    def __str__(self) -> str:
        words = ['' if self.what == _EACH else f'{self.what} {self.text}', f'if {self.condition}' if self.condition else '', '' if self.is_on else '(off)']
        return f'{self.number}: {" ".join(filter(None, words))}'


def made_break(pickle: Opened, number: int, what: str, rest: str, condition: str = '') -> Break:
    """A breakpoint of a kind. Raises BreakError where there can be no such one, and NotThere where there is no such opcode."""
    rest = rest.lstrip('#') if what == 'change' else rest.upper() if what == 'opcode' else unquoted(rest) if what == 'text' else rest
    if what in _OF_NUMBERS and not rest.isdecimal():
        raise BreakError(f'break {what} takes a number')
    if what == 'opcode' and rest and rest not in BY_NAME:
        raise BreakError(f'{rest[:40]!r} is no opcode')
    if what == 'at' and int(rest) >= len(pickle.lines):
        raise NotThere(f'there is no opcode at {rest}')
    if what == _EACH and (rest or not condition):
        raise BreakError(f"break {_EACH} takes a condition, as in break if top == 'os'")
    if not rest and what != _EACH:
        raise BreakError(f'break {what} takes {_TAKES.get(what, "a text")}')
    return Break(number, what, rest, condition=Expression(condition) if condition else None)


def _told(pickle: Opened, places: Iterable[int]) -> Iterator[int]:
    """The places that are asked about one after another. Now and then `pickle.tell` is told, which may end it."""
    for count, place in enumerate(places, 1):
        if count % _TOLD_EACH == 0:
            pickle.tell(f'asked at {count:,} places')
        yield place


def _each(pickle: Opened, text: str, place: int, step: int) -> Iterator[int]:
    return iter(range(place, len(pickle.lines)) if step > 0 else range(min(place, len(pickle.lines) - 1), -1, -1))


def _at_place(pickle: Opened, text: str, place: int, step: int) -> Iterator[int]:
    if (int(text) - place) * step >= 0:
        yield int(text)


def _opcode(pickle: Opened, text: str, place: int, step: int) -> Iterator[int]:
    return pickle.lines.with_code(BY_NAME[text].code, place, step)


def _text(pickle: Opened, text: str, place: int, step: int) -> Iterator[int]:
    return _told(pickle, Sought(text).places(pickle.lines, place, step))


def _memo(pickle: Opened, text: str, place: int, step: int) -> Iterator[int]:
    return _told(pickle, with_key(pickle.lines, int(text), place, step))


def _store(pickle: Opened, text: str, place: int, step: int) -> Iterator[int]:
    return (at for at in _memo(pickle, text, place, step) if not pickle.lines.name(at).endswith('GET'))


def _change(pickle: Opened, text: str, place: int, step: int) -> Iterator[int]:
    places = pickle.changers(int(text)).places if pickle.maker(int(text)) is not None else []
    return iter(places[bisect_left(places, place):] if step > 0 else places[:bisect_right(places, place)][::-1])


def _depth(pickle: Opened, text: str, place: int, step: int) -> Iterator[int]:
    return _told(pickle, pickle.lines.under(int(text), place, step))


def _reached(kinds: 'tuple[str, ...]') -> 'Callable[[Opened, str, int, int], Iterator[int]]':
    """Lines of `calls` whose names a pattern matches."""

    def found(pickle: Opened, text: str, place: int, step: int) -> Iterator[int]:
        reaches, offset = pickle.reaches, pickle.lines.offset(min(place, len(pickle.lines) - 1)) if len(pickle.lines) else 0
        at = bisect_left(reaches.offsets, offset)
        numbers = range(at, len(reaches.offsets)) if step > 0 else range(min(at, len(reaches.offsets) - 1), -1, -1)
        for number in _told(pickle, numbers):
            where = pickle.lines.place_of(reaches.offsets[number])
            if reaches.kinds[number] in kinds and (where - place) * step >= 0:
                reach = reaches.answer[number]
                if any(fnmatchcase(dotted(name), text) for name in (reach.name, reach.said) if name is not None):
                    yield where

    return found


BREAKS: Dict[str, Callable[[Opened, str, int, int], Iterator[int]]] = {
    'at': _at_place, 'opcode': _opcode, 'import': _reached(IMPORTS), 'call': _reached(CALLED), 'text': _text, 'memo': _memo, 'store': _store,
    'change': _change, 'depth': _depth, _EACH: _each}


def next_break(pickle: Opened, breaks: 'list[Break]', place: int, step: int, most: Optional[int] = None) -> Optional[int]:
    """The nearest place behind this one (before it, where `step` is below 0) at which a breakpoint is, and none behind `most`.

    Where breakpoints have conditions, the session goes to each place that is asked about, and stays there. Behind an opcode that is refused there is
    no such place.
    """
    points = [point for point in breaks if point.is_on and place + step >= 0]
    for far, number in merge(*(_ways(pickle, points, number, place + step, step) for number in range(len(points)))):
        at, point = far * step, points[number]
        if most is not None and at > most:
            return None
        if point.condition is None:
            return at
        pickle.tell(f'asking at {at:,}')
        try:
            pickle.session.goto(at)
        except Refused:
            return None
        if point.condition.is_true(pickle):
            return at
    return None


def _ways(pickle: Opened, points: 'list[Break]', number: int, place: int, step: int) -> Iterator[Tuple[int, int]]:
    """The places of a breakpoint from one on: how far each is on the way, with the breakpoint's number among these."""
    return ((at * step, number) for at in BREAKS[points[number].what](pickle, points[number].text, place, step))


def is_hit(pickle: Opened, point: Break, place: int) -> bool:
    """Whether a breakpoint is at a place. One with a condition is asked where the cursor is."""
    is_there = point.is_on and next(BREAKS[point.what](pickle, point.text, place, 1), None) == place
    return is_there and (point.condition is None or point.condition.is_true(pickle))
