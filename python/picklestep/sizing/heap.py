"""The objects of a pickle as sizes need them: which holds which, in the order in which the pickle has them."""

from __future__ import annotations

from array import array
from itertools import accumulate, islice
from typing import Any, Dict, Iterable, Iterator, List, NamedTuple, Sequence, Set, Tuple

from ..held import ADDED, APPENDED, KEY, PART, STATE, VALUE, held_in, short_lines
from ..made import OBJECT, results_in
from ..opcodes import BY_CODE
from .origins import Origins

__all__ = ['Heap', 'NOBODY']

# What stands behind the number of a view that can only be read. (No text in a line has a quote that is not escaped.)
_VIEW = b',"is":"readonly"'
_MADE_OF = ('list', 'dict', 'tuple')
_CALLS = ('call', 'new', 'new-ex')
# The opcodes that make dictionaries, and the signs of what these hold where all of it is keys and values.
_DICTS, _OF_PAIRS = bytes(code for code, info in BY_CODE.items() if info.kind == 'dict'), PART + KEY + VALUE

NOBODY = -1
_UNSEEN = -2
# Of so many objects it is kept what they hold.
_MOST_KEPT = 64
# A path of more steps is not shown whole.
_MOST_STEPS = 100

# What is left to see of what an object holds: its number and how many objects lead to it, and others, or pairs of a key and a value. The last says which.
_Entries = Tuple[int, int, Iterator[Any], bool]


class _Held(NamedTuple):
    """What an object holds: their numbers, and the sign before each, which says how it was put in."""

    signs: bytes
    numbers: 'array[int]'


def _views_in(lines: bytes) -> Iterator[int]:
    """The numbers of the views among the objects of these lines."""
    at = lines.find(_VIEW)
    while at >= 0:
        yield int(lines[lines.rindex(b':', 0, at) + 1:at])
        at = lines.find(_VIEW, at + 1)


class Heap:
    """The objects of an answer of `objects`, by their numbers. `views` are those that can only be read.

    `walk` goes over all of them: then `holders` says by which object each is held first, and `order` in which order that is. A key is held by its
    value, where nothing else holds that before. `roots` are held by nothing: the results, and what is in no result.
    """

    def __init__(self, blocks: Iterable[bytes], many: bool, has_views: bool) -> None:
        self._many = many
        self.count = 0
        self.results: Dict[int, int] = {}  # (and which pickle has each first)
        self.views: Set[int] = set()
        # The objects that hold others, and where each of them begins what it holds.
        self._owners, self._begins = array('I'), array('I', [0])
        self._signs = bytearray()
        self._numbers = array('I')
        stops = 0
        for lines in short_lines(blocks):
            for stops, number in enumerate(results_in(lines), stops + 1):
                self.results.setdefault(number, stops - 1)
            self._take(lines)
            if has_views:
                self.views.update(_views_in(lines))
        self.holders = array('i', [_UNSEEN]) * self.count
        self.order = array('I')
        self.roots: List[int] = []
        # By the numbers of objects the places of those among `_owners`, from 1 on; and how many objects lead to these, and from which root.
        self._places = array('I', [0]) * self.count
        for place, number in enumerate(self._owners, 1):
            self._places[number] = place
        self._depths = array('I', [0]) * len(self._owners)
        self._roots = array('I', [0]) * len(self._owners)
        self._known: Dict[int, _Held] = {}

    def _take(self, lines: bytes) -> None:
        """Takes some objects."""
        held = held_in(lines)
        self._owners.extend(map(self.count.__add__, held.owners))
        self._begins.extend(islice(accumulate(held.counts, initial=len(self._numbers)), 1, None))
        self._signs += held.signs
        self._numbers += array('I', held.numbers)
        self.count += lines.count(OBJECT)

    # --- What holds what ---

    def kind(self, number: int) -> str:
        """The kind of an object, in the word of `objects`."""
        return self._origins.kind(number)

    def parts(self, number: int) -> int:
        """Of how many objects one was made, or has got since."""
        return len(self._held(number).numbers)

    def counts(self) -> Iterator[Tuple[str, int, int, int]]:
        """Of each object that holds something its kind, and how many items, pairs and members are in it. (What a call is given counts for nothing.)"""
        number_of = self._signs.count
        for number, begin, end in zip(self._owners, self._begins, islice(self._begins, 1, None)):
            kind = self._origins.kind(number)
            parts = number_of(PART, begin, end) if kind in _MADE_OF else 0
            items, pairs = (0, parts // 2) if kind == 'dict' else (parts, 0)
            yield kind, items + number_of(APPENDED, begin, end), pairs + number_of(KEY, begin, end), number_of(ADDED, begin, end)

    def _held(self, number: int) -> _Held:
        """What an object holds. (That of a large one is asked for again and again.)"""
        if number not in self._known:
            if len(self._known) >= _MOST_KEPT:
                self._known.clear()
            self._known[number] = self._read(number)
        return self._known[number]

    def _read(self, number: int) -> _Held:
        place = self._places[number]
        begin, end = (self._begins[place - 1], self._begins[place]) if place else (0, 0)
        return _Held(bytes(self._signs[begin:end]), self._numbers[begin:end])

    def walk(self, origins: Origins) -> None:
        """Goes over all objects: those of the results, then what no other holds, then what holds itself. The opcodes say of which kinds they are."""
        self._origins = origins
        for number in self.results:
            self._walk_from(number)
        if len(self.order) == self.count:
            return
        unseen = [number for number, holder in enumerate(self.holders) if holder == _UNSEEN]
        held = bytearray(self.count)
        for number in unseen:
            for part in self._read(number).numbers:
                held[part] = 1
        for number in unseen:
            if not held[number]:
                self._walk_from(number)
        for number in unseen:
            self._walk_from(number)

    def _walk_from(self, root: int) -> None:
        holders, places, add, unseen = self.holders, self._places, self.order.append, _UNSEEN
        if holders[root] != unseen:
            return
        holders[root] = NOBODY
        add(root)
        self.roots.append(root)
        stack = [self._entries(root, 0, root)] if places[root] else []
        while stack:
            owner, depth, entries, in_pairs = stack[-1]
            count = len(stack)
            if not in_pairs:
                for value in entries:
                    if holders[value] == unseen:
                        holders[value] = owner
                        add(value)
                        if places[value]:
                            stack.append(self._entries(value, depth + 1, root))
                            break
                else:
                    stack.pop()
                continue
            for key, value in entries:
                is_new = holders[value] == unseen
                if is_new:
                    holders[value] = owner
                    add(value)
                    if places[value]:
                        stack.append(self._entries(value, depth + 1, root))
                if key >= 0 and holders[key] == unseen:
                    holders[key] = value if is_new else owner
                    add(key)
                    if places[key]:
                        stack.append(self._entries(key, depth + 1 + is_new, root))
                if len(stack) > count:
                    break
            else:
                stack.pop()

    def _entries(self, number: int, depth: int, root: int) -> _Entries:
        """What an object holds that so many lead to, the first of them this root."""
        place = self._places[number]
        self._depths[place - 1], self._roots[place - 1] = depth, root
        begin, end = self._begins[place - 1], self._begins[place]
        signs, numbers = self._signs[begin:end], self._numbers[begin:end]
        is_dict = self._origins.codes[number] in _DICTS
        if is_dict and not signs.strip(_OF_PAIRS):
            values = iter(numbers)
            return number, depth, zip(values, values), True
        if is_dict or KEY in signs:
            return number, depth, _paired(bytes(signs), numbers, is_dict), True
        return number, depth, iter(numbers), False

    def totals(self, own: Sequence[int]) -> List[int]:
        """How much each object has of something, with all that it holds first."""
        totals, holders = list(own), self.holders
        for number in reversed(self.order):
            holder = holders[number]
            if holder >= 0:
                totals[holder] += totals[number]
        return totals

    # --- Paths ---

    def path(self, number: int) -> str:
        """The path that leads to an object first, as `diff` writes it. Of a long one the last steps are there alone."""
        depth = self.depth(number)
        steps: List[str] = []
        while self.holders[number] >= 0 and (depth <= _MOST_STEPS or len(steps) < _MOST_STEPS // 2):
            steps.append(self._step(self.holders[number], number))
            number = self.holders[number]
        if len(steps) < depth:
            steps.append(f' .. {depth - len(steps)} steps .. ')
            number = self._roots[self._owner_above(number)[0]]
        if number in self.results and not self._many:
            steps.append('' if steps and steps[-1].startswith(('[', '{')) else 'result')
        else:
            steps.append(f'[{self.results[number]}]' if number in self.results else f'#{number}')
        return ''.join(reversed(steps))

    def depth(self, number: int) -> int:
        """How many objects lead to it."""
        place, more = self._owner_above(number)
        return more + (self._depths[place] if place >= 0 else 0)

    def _owner_above(self, number: int) -> Tuple[int, int]:
        """The place of the next object that holds others on the way from one to its root, and how many steps that is; -1 if there is none."""
        steps = 0
        while not self._places[number] and self.holders[number] >= 0:
            number = self.holders[number]
            steps += 1
        return self._places[number] - 1, steps

    def last_step(self, number: int) -> str:
        """The step that leads to an object from what holds it."""
        return self._step(self.holders[number], number)

    def _step(self, holder: int, number: int) -> str:
        signs, numbers = self._held(holder)
        kind = self.kind(holder)
        if number not in numbers:
            return ' (its key)'
        at = numbers.index(number)
        if _is_key(kind, signs, at):
            at = next((at for at, each in enumerate(numbers) if each == number and not _is_key(kind, signs, at)), at)
        if _is_key(kind, signs, at):
            return f'.keys[{sum(_is_key(kind, signs, before) for before in range(at))}]'
        sign = signs[at:at + 1]
        if sign == STATE:
            return '.state' if signs.count(STATE) == 1 else f'.states[{signs.count(STATE, 0, at)}]'
        if sign == VALUE or kind == 'dict':
            return f'[{self.shown(numbers[at - 1])}]'
        if sign == ADDED or kind in ('set', 'frozenset'):
            return f'{{{self.shown(number)}}}'
        if sign == APPENDED:
            parts = signs.count(PART) if kind == 'list' else 0
            return f'[{parts + signs.count(APPENDED, 0, at)}]'
        return self._step_of_part(kind, at, numbers)

    def _step_of_part(self, kind: str, at: int, numbers: Sequence[int]) -> str:
        """The step to what an object was made of."""
        if kind in ('list', 'tuple'):
            return f'[{at}]'
        if kind == 'stack-global':
            return ('.module', '.name')[at]
        if kind not in (*_CALLS, 'obj'):
            return f'.arguments[{at}]'
        if at == 0:
            return '.name'
        if kind == 'obj' or self.kind(numbers[1]) != 'tuple':
            return f'.arguments[{at - 1}]'
        return '.arguments' if at == 1 else f'.arguments[{self.parts(numbers[1])}]'

    def shown(self, number: int) -> str:
        """A plain value in a few letters; of another object its number."""
        return self._origins.shown(number)


def _is_key(kind: str, signs: bytes, at: int) -> bool:
    return signs[at:at + 1] == KEY or kind == 'dict' and signs[at:at + 1] == PART and at % 2 == 0


def _paired(signs: bytes, numbers: Sequence[int], is_dict: bool) -> Iterator[Tuple[int, int]]:
    """What an object holds that has keys and other things: these have no key."""
    key = NOBODY
    for at, number in enumerate(numbers):
        if _is_key('dict' if is_dict else '', signs, at):
            key = number
        else:
            yield key, number
            key = NOBODY
