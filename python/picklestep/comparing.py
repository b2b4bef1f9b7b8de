"""What two pickles differ in, by path, for a new version of a file. Nothing of a pickle is imported or called."""

from __future__ import annotations

import operator
import os
import sys
from dataclasses import dataclass
from functools import partial
from itertools import zip_longest
from typing import Any, Dict, Iterator, List, Optional, Sequence, Tuple, Union

from .aligning import Steps, aligned, gaps
from .alike import CONTAINERS, Compared, Labels, inside, is_held, paired
from .collector import without_collector
from .heaps import Heap
from .literals import literal
from .records import Extension, Global, Ref
from .sources import Source
from .trees import Asking, Call, Reading, Values, check_stops, values_of_both
from .values import Unread

__all__ = ['Comparison', 'Difference', 'compare', 'has_same_bytes', 'shown_line', 'shown_pair', 'shown_value']

_SLOTS: Dict[str, Any] = {'slots': True} if sys.version_info >= (3, 10) else {}
_MOST_LETTERS = 64
# So many letters of texts are shown where they differ, of a line, and before where it differs from another one.
_MOST_OF_OTHER, _MOST_OF_LINE, _BEFORE = 16, 400, 40
# So many letters of a part of a name are shown.
_MOST_OF_NAME = 200
# A path of more letters is shown by its beginning and its end.
_MOST_OF_PATH = 400
# Values that are compared without labels, where sequences begin or end alike.
_PLAIN = frozenset((int, float, str, bytes, bool, type(None)))
# Parts of what is compared to put members of sets in an order: so many, down to so many levels.
_MOST_PARTS, _MOST_LEVELS = 50, 3
# So many times as many pairs as there are objects are compared, each for itself.
_MANY = 4
_ABSENT = object()
# So many bytes of two files, and so many items of two sequences, are compared at once.
_BLOCK, _AT_ONCE = 1 << 20, 1 << 12
# Values that are the same where Python calls them equal and they have one type.
_EXACT = frozenset((int, str, bytes, bool, type(None)))


@dataclass(frozen=True, **_SLOTS)
class Difference:
    r"""A place in which two pickles differ: its path, and what is there in the old and the new one, each in a few words.

    `how` is 'changed', 'added' or 'removed'; `old` is empty of what was added, and `new` of what was removed.

    >>> import picklestep
    >>> print(picklestep.compare(b'K\x01.', b'K\x02.')[0])
    result: 1 -> 2
    """

    path: str
    how: str
    old: str
    new: str

    def __str__(self) -> str:
        path = self.path
        if len(path) > _MOST_OF_PATH:
            path = f'{path[:_MOST_OF_PATH // 2]} .. {len(path) - _MOST_OF_PATH:,} letters .. {path[-_MOST_OF_PATH // 2:]}'
        return f'{path}: {self.old} -> {self.new}' if self.how == 'changed' else f'{path}: {self.how} {self.old}{self.new}'


@without_collector()
def compare(old: Source, new: Source, *, many: bool = False, unframed: bool = False, timeout: Optional[float] = None,
            memory: Optional[int] = None) -> List[Difference]:
    r"""What two pickles differ in, in the order of the paths that lead there: none where the results are equal.
    `many` and `unframed` are as for `tree`.

    The items of two lists are compared with those that they stand for: an item that was put in or left out is one difference. The number of an item in
    a path is its place in the old list, or in the new one where it was added.

    Raises NoResult where one of them cannot be read to its STOP.

    >>> for difference in compare(b'}X\x01\x00\x00\x00a](K\x01K\x02es.', b'}X\x01\x00\x00\x00a](K\x01K\x05K\x06es.'):
    ...     print(difference)
    ['a'][1]: 2 -> 5
    ['a'][2]: added 6
    """
    if has_same_bytes(old, new):
        check_stops(old, many, unframed, timeout, memory)
        return []
    with Asking(old, many, unframed, timeout, memory) as first, Asking(new, many, unframed, timeout, memory) as second:
        second.start()
        one = first.read(Heap.of())
        other = second.read(one.heap)
    return list(Comparison(one, other).of_results())


def has_same_bytes(old: Source, new: Source) -> bool:
    """Whether two pickles are the same, byte by byte. What is read once is not looked at.

    >>> has_same_bytes(b'N.', b'N.'), has_same_bytes(b'N.', b'K\\x01.')
    (True, False)
    """
    if isinstance(old, (bytes, bytearray)) and isinstance(new, (bytes, bytearray)):
        return old == new
    if not isinstance(old, (str, os.PathLike)) or not isinstance(new, (str, os.PathLike)) or not (os.path.isfile(old) and os.path.isfile(new)):
        return False
    with open(old, 'rb') as one, open(new, 'rb') as other:
        if os.fstat(one.fileno()).st_size != os.fstat(other.fileno()).st_size:
            return False
        return all(first == second for first, second in zip_longest(*(iter(partial(file.read, _BLOCK), b'') for file in (one, other))))


# A path: the path before it, and its last step. (A text for each place would cost as much as the place is deep.)
_Path = Optional[Tuple[Any, str]]
_Step = Tuple[str, Any, Any]
_Pairs = Sequence[Tuple[Any, Any]]


def _words(path: _Path) -> str:
    steps: List[str] = []
    while path is not None:
        path, step = path
        steps.append(step)
    return ('' if steps and steps[-1][0] != '.' else 'result') + ''.join(reversed(steps))


def _is_same(one: Any, other: Any) -> bool:
    if isinstance(one, Unread) and one.kind != other.kind:
        return False
    return literal(one) == literal(other) if isinstance(one, float) else bool(one == other)


class _Words(str):
    """What differs, in words and not by a value."""


class Comparison:
    """Two pickles. What was compared already is not compared again: no difference is given twice."""

    def __init__(self, old: Reading, new: Reading) -> None:
        (self._old, self._old_result), (self._new, self._new_result) = values_of_both(old, new)
        self._labels = Labels()
        self._compared = Compared(_MANY * (len(self._old) + len(self._new)))
        self._steps = Steps.for_items(len(self._old) + len(self._new))

    def of_results(self) -> Iterator[Difference]:
        """What the results differ in."""
        return self._differences(None, self._old_result, self._new_result)

    def of_objects(self, name: str, old: int, new: int) -> Iterator[Difference]:
        """What two objects differ in, whose paths begin with a name."""
        if old < len(self._old) and new < len(self._new):
            yield from self._differences((None, name), self._old.at(old), self._new.at(new))

    def _differences(self, begin: _Path, old: Any, new: Any) -> Iterator[Difference]:
        """Walks both at once."""
        left: List[Tuple[_Path, Any, Any]] = [(begin, old, new)]
        compared = self._compared
        while left:
            path, one, other = left.pop()
            one, other = self._old.of(one), self._new.of(other)
            if isinstance(one, _Words):
                yield Difference(_words(path), 'changed', one, other)
            elif one is _ABSENT or other is _ABSENT:
                is_added = one is _ABSENT
                shown = shown_value(other if is_added else one)
                yield Difference(_words(path), 'added' if is_added else 'removed', '' if is_added else shown, shown if is_added else '')
            elif type(one) is not type(other) or not (isinstance(one, CONTAINERS) or is_held(one) and is_held(other)):
                if type(one) is not type(other) or not _is_same(one, other):
                    yield Difference(_words(path), 'changed', *shown_pair(one, other))
            elif one is not other and not self._labels.are_same(one, other) and compared.is_new(one, other):
                left += [((path, step), first, second) for step, first, second in reversed(list(self._inside(one, other)))]

    def _inside(self, one: Any, other: Any) -> Iterator[_Step]:
        """What is in two containers of one type, by the step that leads there."""
        if isinstance(one, Call):
            yield from self._in_calls(one, other)
        elif isinstance(one, Global):
            yield from zip(('.module', '.name'), inside(one), inside(other))
        elif isinstance(one, dict):
            yield from self._in_pairs(list(one.items()), list(other.items()))
        elif isinstance(one, (set, frozenset)):
            yield from self._in_sets(self._old.members(one), self._new.members(other))
        elif isinstance(one, tuple) and len(one) == len(other):  # (each of its places means something)
            yield from _in_order(one, other)
        else:
            yield from self._in_lists(one, other)

    def _in_calls(self, one: Call, other: Call) -> Iterator[_Step]:
        yield '.how', one.how, other.how
        yield '.name', one.name, other.name
        yield from _in_order(one.arguments, other.arguments, '.arguments')
        yield from self._in_lists(one.items, other.items)
        yield from self._in_pairs(one.pairs, other.pairs, is_ordered=True)
        if len(one.states) == len(other.states) == 1:
            yield '.state', one.states[0], other.states[0]
        else:
            yield from _in_order(one.states, other.states, '.states')

    def _in_lists(self, one: Sequence[Any], other: Sequence[Any]) -> Iterator[_Step]:
        """Items are compared with those that they stand for."""
        begin, end, other_end = self._between(one, other)
        first, second = one[begin:end], other[begin:other_end]
        labels = [self._old_label(each) for each in first], [self._new_label(each) for each in second]
        for lefts, rights, same in gaps(aligned(*labels, self._steps), len(first), len(second)):
            for at, to in self._in_gap(first, second, lefts, rights):
                yield (f'[{begin + (to or 0 if at is None else at)}]', _ABSENT if at is None else first[at], _ABSENT if to is None else second[to])
            if same is not None and not self._labels.is_exact(labels[0][same[0]]):
                yield f'[{begin + same[0]}]', first[same[0]], second[same[1]]

    def _between(self, one: Sequence[Any], other: Sequence[Any]) -> Tuple[int, int, int]:
        """Where that ends with which both begin, and where that begins in both with which both end: plain values, and then what both share."""
        begin = _same_at_begin(one, other, 0, len(one), len(other))
        end, other_end = _same_at_end(one, other, begin, len(one), len(other))
        begin = _same_at_begin(one, other, begin, end, other_end, is_shared=True)
        if begin < min(end, other_end) and self._old_label(one[begin]) != self._new_label(other[begin]):  # (else these come first)
            end, other_end = _same_at_end(one, other, begin, end, other_end, is_shared=True)
        return begin, end, other_end

    def _in_gap(self, one: Sequence[Any], other: Sequence[Any], lefts: range, rights: range) -> Iterator[Tuple[Optional[int], Optional[int]]]:
        """The places of items of which none is in both: those of one kind, and then what is left, in their order."""
        kinds = [_kind(self._old.of(one[at])) for at in lefts], [_kind(self._new.of(other[to])) for to in rights]
        for less, more, pair in gaps(aligned(*kinds, self._steps), len(lefts), len(rights)):
            yield from zip_longest((lefts[at] for at in less), (rights[to] for to in more))
            if pair is not None:
                yield lefts[pair[0]], rights[pair[1]]

    def _in_pairs(self, one: _Pairs, other: _Pairs, is_ordered: bool = False) -> Iterator[_Step]:
        """Pairs are compared by their keys: those whose keys are alike, then odd ones in their order. Where the order says something it is compared
        too."""
        keys = [self._old_label(key) for key, _ in one], [self._new_label(key) for key, _ in other]
        found, lefts, rights = self._paired(keys, one, other)
        found.sort()
        if is_ordered:
            for (at, to), least in zip(found, sorted(to for _, to in found)):
                if to != least:
                    yield f'.pairs[{at}]', _Words(self._shown_pair(one[at])), _Words(self._shown_pair(other[least], is_new=True))
                    break
        for at, to in sorted([*found, *((at, -1) for at in lefts)]):
            if self._labels.is_plain(keys[0][at]):
                yield f'[{self._shown(one[at][0])}]', one[at][1], other[to][1] if to >= 0 else _ABSENT
        for to in rights:
            if self._labels.is_plain(keys[1][to]):
                yield f'[{self._shown(other[to][0], is_new=True)}]', _ABSENT, other[to][1]
        for first, second in self._odd(keys, found, lefts, rights):
            for step, part in (('keys', 0), ('values', 1)):
                yield (f'.{step}[{second if first is None else first}]', _ABSENT if first is None else one[first][part],
                       _ABSENT if second is None else other[second][part])

    def _paired(self, keys: Tuple[List[int], List[int]], one: _Pairs, other: _Pairs) -> Tuple[List[Tuple[int, int]], List[int], List[int]]:
        """The places of pairs with the same key, and those that are left. Where a key is there twice its values are the same, too, if that can be."""
        if all(len(set(labels)) == len(labels) for labels in keys):
            return paired(*keys)
        found, lefts, rights = paired([(key, self._old_label(value)) for key, (_, value) in zip(keys[0], one)],
                                      [(key, self._new_label(value)) for key, (_, value) in zip(keys[1], other)])
        more, *left = paired([keys[0][at] for at in lefts], [keys[1][at] for at in rights])
        return found + [(lefts[at], rights[to]) for at, to in more], [lefts[at] for at in left[0]], [rights[at] for at in left[1]]

    def _in_sets(self, one: Sequence[Any], other: Sequence[Any]) -> Iterator[_Step]:
        one, other = (sorted(members, key=_Order(values).of) for members, values in ((one, self._old), (other, self._new)))
        labels = [self._old_label(each) for each in one], [self._new_label(each) for each in other]
        found, lefts, rights = paired(*labels)
        for at in lefts:
            if self._labels.is_plain(labels[0][at]):
                yield f'{{{self._shown(one[at])}}}', one[at], _ABSENT
        for to in rights:
            if self._labels.is_plain(labels[1][to]):
                yield f'{{{self._shown(other[to], is_new=True)}}}', _ABSENT, other[to]
        for first, second in self._odd(labels, found, lefts, rights):
            shown = self._shown(other[second or 0], is_new=True) if first is None else self._shown(one[first])
            yield f'{{{shown}}}', _ABSENT if first is None else one[first], _ABSENT if second is None else other[second]

    def _odd(self, labels: Tuple[List[int], List[int]], found: List[Tuple[int, int]], lefts: List[int],
             rights: List[int]) -> Iterator[Tuple[Optional[int], Optional[int]]]:
        """The places of keys or members that are more than plain values: those of two that are alike, then what is left, in its order."""
        yield from ((at, to) for at, to in found if not self._labels.is_plain(labels[0][at]))
        yield from zip_longest((at for at in lefts if not self._labels.is_plain(labels[0][at])),
                               (to for to in rights if not self._labels.is_plain(labels[1][to])))

    def _old_label(self, value: Any) -> int:
        return self._labels.of(self._old, value)

    def _new_label(self, value: Any) -> int:
        return self._labels.of(self._new, value)

    def _shown(self, value: Any, is_new: bool = False) -> str:
        return shown_value((self._new if is_new else self._old).of(value))

    def _shown_pair(self, pair: Tuple[Any, Any], is_new: bool = False) -> str:
        return ': '.join(self._shown(part, is_new) for part in pair)


def _same_at_begin(one: Sequence[Any], other: Sequence[Any], begin: int, end: int, other_end: int, is_shared: bool = False) -> int:
    """Where plain values end with which both begin, or these and objects that both share."""
    most = min(end, other_end)
    while begin < most and _are_exactly_same(one[begin:begin + _AT_ONCE], other[begin:begin + _AT_ONCE], is_shared):
        begin += _AT_ONCE
    begin = min(begin, most)
    while begin < most and _is_plainly_same(one[begin], other[begin], is_shared):
        begin += 1
    return begin


def _same_at_end(one: Sequence[Any], other: Sequence[Any], begin: int, end: int, other_end: int, is_shared: bool = False) -> Tuple[int, int]:
    """Where the same begin in both with which both end."""
    while min(end, other_end) - begin >= _AT_ONCE and _are_exactly_same(one[end - _AT_ONCE:end], other[other_end - _AT_ONCE:other_end], is_shared):
        end, other_end = end - _AT_ONCE, other_end - _AT_ONCE
    while begin < end and begin < other_end and _is_plainly_same(one[end - 1], other[other_end - 1], is_shared):
        end, other_end = end - 1, other_end - 1
    return end, other_end


def _are_exactly_same(one: Sequence[Any], other: Sequence[Any], is_shared: bool) -> bool:
    """Whether these are the same plain values, as Python tells at once; it does not of floats. Or whether both share them all."""
    if is_shared and len(one) == len(other) and all(map(operator.is_, one, other)):
        return True
    kinds = list(map(type, one))
    return _EXACT.issuperset(kinds) and kinds == list(map(type, other)) and one == other


def _is_plainly_same(one: Any, other: Any, is_shared: bool) -> bool:
    return is_shared and one is other or type(one) is type(other) and type(one) in _PLAIN and _is_same(one, other)


def _kind(value: Any) -> Any:
    """The kind of a value: its type, and what is called where a call made it."""
    return (value.how, shown_value(value.name)) if isinstance(value, Call) else value.kind if isinstance(value, Unread) else type(value)


class _Order:
    """An order of values by what they are. Members of sets are compared in it, since the order in which a pickle has them is another one in each run of
    Python."""

    def __init__(self, values: Values) -> None:
        self._values = values

    def of(self, value: Any) -> Tuple[Any, ...]:
        """What a value is compared by: plain numbers by their size, and all else by words for it and for what is in it."""
        value = self._values.of(value)
        if type(value) in (int, bool):
            return 0, value, ''
        return 1, 0, ' '.join(self._words(value))

    def _words(self, value: Any) -> Iterator[str]:
        waiting = [(value, 0)]
        for _ in range(_MOST_PARTS):
            if not waiting:
                return
            value, level = waiting.pop()
            value = self._values.of(value)
            yield shown_value(value)
            if level < _MOST_LEVELS and isinstance(value, CONTAINERS):
                parts = inside(value)[:_MOST_PARTS]
                if isinstance(value, (set, frozenset)):
                    parts = sorted(parts, key=shown_value)
                waiting += [(part, level + 1) for part in reversed(parts)]


def _in_order(one: Sequence[Any], other: Sequence[Any], before: str = '') -> Iterator[_Step]:
    for place, (first, second) in enumerate(zip_longest(one, other, fillvalue=_ABSENT)):
        yield f'{before}[{place}]', first, second


# --- Words for values ---


def shown_value(value: Any) -> str:
    """A value in a few words.

    >>> shown_value('x' * 100), shown_value([1, 2]), shown_value(2.5)
    ("'xxxxxxxxxxxxxxxxxxxxxxxxxxxxxxxxxxxxxxxxxxxxxxxxxxxxxxxxxxxxxxxx'+36", 'list of 2', '2.5')
    >>> shown_value(10 ** 100)
    '1000000000000000000000000000000000000000000000000000000000000000+37'
    """
    if isinstance(value, Global):
        return f'{_shown_name(value.module)}.{_shown_name(value.name)}'
    if isinstance(value, Extension):
        return f'extension {value.code}'
    if isinstance(value, Ref):
        return f'#{value.number}'
    if isinstance(value, Call):
        return f'{value.how} {shown_value(value.name)}' if value.name is not None else value.how
    if isinstance(value, (str, bytes, bytearray)):
        more = len(value) - _MOST_LETTERS
        return (f'{value.kind} ' if isinstance(value, Unread) else '') + literal(value[:_MOST_LETTERS]) + (f'+{more}' if more > 0 else '')
    if isinstance(value, tuple) and len(value) <= 4 and not any(isinstance(part, (*CONTAINERS, Ref)) for part in value):
        return f"({', '.join(map(shown_value, value))}{',' if len(value) == 1 else ''})"
    return f'{type(value).__name__} of {len(value)}' if isinstance(value, (list, tuple, dict, set, frozenset)) else _cut(literal(value), _MOST_LETTERS)


def _cut(text: str, most: int) -> str:
    """The beginning of a text, and how many letters follow."""
    return text if len(text) <= most else f'{text[:most]}+{len(text) - most}'


def _shown_name(part: Union[bytes, Ref]) -> str:
    """A part of a name. Letters that a terminal would obey are written with their escapes."""
    if isinstance(part, Ref):
        return f'#{part.number}'
    text = part.decode('utf-8', 'backslashreplace')
    return _cut(text if text.isprintable() else repr(text)[1:-1], _MOST_OF_NAME)


def shown_pair(one: Any, other: Any) -> Tuple[str, str]:
    """Two values that differ. Where what is shown of them is the same, as of long texts, it is said where they differ.

    >>> shown_pair('x' * 100 + 'a', 'x' * 100 + 'b'), shown_pair(10 ** 100, 10 ** 100 + 1)
    (("'a' at 100", "'b'"), ('0 at 100', '1'))
    """
    shown = shown_value(one), shown_value(other)
    if shown[0] != shown[1]:
        return shown
    if isinstance(one, (str, bytes, bytearray)):
        at = _first_other(one, other)
        return f'{literal(one[at:at + _MOST_OF_OTHER])} at {at}', literal(other[at:at + _MOST_OF_OTHER])
    texts = [repr(each) if isinstance(each, Global) else literal(each) for each in (one, other)]
    at = _first_other(*texts)
    return f'{texts[0][at:at + _MOST_OF_OTHER]} at {at}', texts[1][at:at + _MOST_OF_OTHER]


def _first_other(one: Sequence[Any], other: Sequence[Any]) -> int:
    """Where two differ first."""
    return next((at for at, (a, b) in enumerate(zip(one, other)) if a != b), min(len(one), len(other)))


def shown_line(text: str, beside: str = '') -> str:
    """A line that may be long: its beginning, and what is where it differs from another line.

    >>> len(shown_line('x' * 10_000)), shown_line('a')
    (422, 'a')
    """
    if len(text) <= _MOST_OF_LINE:
        return text
    at = _first_other(text, beside) - _BEFORE
    if at < _MOST_OF_LINE // 2:
        return f'{text[:_MOST_OF_LINE]} .. {len(text) - _MOST_OF_LINE:,} letters more'
    begin, end = _MOST_OF_LINE // 2, at + _MOST_OF_LINE // 2
    more = f' .. {len(text) - end:,} letters more' if end < len(text) else ''
    return f'{text[:begin]} .. {at - begin:,} letters .. {text[at:end]}{more}'
