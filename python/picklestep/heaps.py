"""How the objects of a pickle were made: plain values, and the numbers of what all others hold. And which objects two pickles share."""

from __future__ import annotations

import operator
from bisect import bisect_left
from functools import partial
from itertools import chain, count, repeat
from typing import AbstractSet, Any, Collection, Dict, Iterable, Iterator, List, NamedTuple, Optional, Sequence, Union

from . import made as lines
from .answers import Objects
from .held import by_beginning, fields_of_tails, flat, is_holder, put_into, tails_of, values_of
from .listing_records import Object
from .literals import literal
from .values import PLAIN_KINDS, Argument, Unread, kind_value

__all__ = ['FILLED', 'Filled', 'Heap', 'Made', 'heap_of', 'plain_value', 'same_in']


class Filled(NamedTuple):
    """A list, a set or a dictionary by the numbers of what it holds; in a dictionary keys and values take turns."""

    kind: str
    held: Sequence[int]


# How an object that is no plain value was made and filled.
Made = Union[Filled, Object]
# The kinds of objects that are filled.
FILLED: Dict[str, Any] = {'list': list, 'dict': dict, 'set': set}


class Heap(NamedTuple):
    """Objects in the order of their numbers: the values of those that are plain and that nothing changes, and by their numbers how all others were
    made. (In the place of such a one there is None.) `sums` are those of the lines that they were read of, some at a time, where they are compared."""

    plain: List[Any]
    made: Dict[int, Made]
    sums: List[bytes]

    @classmethod
    def of(cls, objects: Sequence[Object] = ()) -> Heap:
        """A heap of objects."""
        return cls([None] * len(objects), dict(enumerate(objects)), [])


# --- To read them ---

# So many plain values are kept at most behind some lines, and none behind lines of so many bytes.
_MOST_KNOWN, _MOST_OF_LINES = 100_000, 4 << 20
# So many objects are read at once, and compared.
_AT_ONCE = 1 << 10
# Stands for a value that is not known yet.
_NEW = object()
# Makes a `Filled` of a pair. (To call the class takes three times as long, and a pickle may have a million.)
_FILLED_BY = partial(tuple.__new__, Filled)


def heap_of(answer: Objects, like: Optional[Heap] = None) -> Heap:
    """The objects of an answer. A line that says the same of another object is read once, and lines that were read for a heap that is like this are not
    read again.

    >>> import picklestep
    >>> heap_of(picklestep.objects(b'](K\x01Ne.'))
    Heap(plain=[None, 1, None], made={0: Filled(kind='list', held=[1, 2])}, sums=[])
    """
    heap = Heap.of()
    known: Dict[str, Any] = {}
    places = [] if like is None else list(like.made)
    for some in _pieces(answer.json):
        if like is None or not _take(heap, like, places, some):
            _read(heap, known, tails_of(some))
        if len(known) > _MOST_KNOWN or len(some) > _MOST_OF_LINES:
            known.clear()
    return heap


def _pieces(answer: bytes) -> Iterator[bytes]:
    """The lines of so many objects at a time; behind the last ones are other lines."""
    begin = 0
    for number in count(_AT_ONCE, _AT_ONCE):
        end = answer.find(b'\n%b,"object":%d,' % (lines.OBJECT, number), begin) + 1
        if not end:
            break
        yield answer[begin:end]
        begin = end
    yield answer[begin:]


def _take(heap: Heap, like: Heap, places: Sequence[int], some: bytes) -> bool:
    """Takes the next objects of a heap that is like this one, where their lines are the same. `places` are the numbers of those in it that are no plain
    values."""
    from hashlib import blake2b  # (`tree` compares nothing)
    at, begin = len(heap.sums), len(heap.plain)
    heap.sums.append(blake2b(some).digest())
    if like.sums[at:at + 1] != heap.sums[at:]:
        return False
    heap.plain.extend(like.plain[begin:begin + _AT_ONCE])
    same = places[bisect_left(places, begin):bisect_left(places, len(heap.plain))]
    heap.made.update(zip(same, map(like.made.__getitem__, same)))
    return True


def _read(heap: Heap, known: Dict[str, Any], tails: List[str]) -> None:
    """Adds the objects of lines, by their second parts. The values of those that are plain are known then."""
    found = list(map(known.get, tails, repeat(_NEW)))
    new: Dict[str, Any] = {}
    made: Dict[str, Any] = {}
    left: List[str] = []
    for beginning, some in by_beginning({tail for tail, value in zip(tails, found) if value is _NEW}).items():
        values, kind = values_of(beginning, some), beginning.partition('"')[0]
        held = put_into(kind, some) if values is None else None
        if values is not None:
            new.update(zip(some, values))
        elif held is not None:
            made.update(zip(some, map(_FILLED_BY, zip(repeat(kind), held))))
        else:
            left += some
    _read_each(new, made, left)
    first = len(heap.plain)
    heap.plain.extend([new.get(tail) if value is _NEW else value for tail, value in zip(tails, found)] if new or made else found)
    known.update(new)
    if made:
        numbered = [(number, each) for number, each in enumerate(map(made.get, tails), first) if each is not None]
        heap.made.update([(number, each if type(each) is Filled else _made_of(number, each)) for number, each in numbered] if left else numbered)


def _read_each(new: Dict[str, Any], made: Dict[str, Any], tails: List[str]) -> None:
    """Reads second parts one by one: the values of plain objects, and the fields of all others."""
    for tail, fields in zip(tails, fields_of_tails([flat(tail) if is_holder(tail) else tail for tail in tails])):
        if fields['is'] in PLAIN_KINDS and fields['is'] != 'bytearray' and 'changes' not in fields:
            new[tail] = plain_value(fields['is'], lines.given(fields))
        else:
            made[tail] = fields


def plain_value(kind: str, text: Argument) -> Any:
    """The value of a plain object. Bytes that no loader makes a text of know what they were to be."""
    value = kind_value(kind, text)
    return Unread(value, kind) if isinstance(value, bytes) and kind != 'bytes' else value


def _made_of(number: int, fields: lines.Fields) -> Made:
    """An object that is no plain value, of its fields."""
    if fields['is'] in FILLED and 'changes' not in fields:
        return Filled(fields['is'], [*fields.get('parts', ()), *fields.get('put', ())])
    return lines.object_of({**fields, 'object': number})


# --- The same objects ---

# So often all objects are looked at, in one and the other direction. (What holds others has mostly a lower number than they, and a tuple a higher one.)
_MOST_TURNS = 6


def same_in(one: Heap, other: Heap, apart: Iterable[int]) -> AbstractSet[int]:
    """The numbers of the objects that are no plain values and that are the same in both heaps, with all that they hold, under the same numbers. Those
    that are to be held apart are none of them. Perhaps there are more.

    >>> one, other = (Heap([None, None, 7, value, None], {0: Filled('list', [1]), 1: Filled('list', [2]), 4: Filled('list', [3])}, []) for value in (8, 9))
    >>> sorted(same_in(one, other, ()))
    [0, 1]
    """
    others = set(apart)
    for numbers in _apart(one, other):
        others.update(_other_in(numbers, one, other))
    if not others:
        return one.made.keys()
    holding = [(number, made[1] if type(made) is Filled else _held(made)) for number, made in one.made.items() if number not in others]
    for _ in range(_MOST_TURNS):
        # (what holds one of others is one of them)
        left = [holder for holder in reversed(holding) if others.isdisjoint(holder[1]) or others.add(holder[0])]  # type: ignore[func-returns-value]
        if len(left) == len(holding):
            return {number for number, _ in left}
        holding = left
    return frozenset()


def _apart(one: Heap, other: Heap) -> Iterator[range]:
    """The numbers of objects of one heap, some at a time, but for those whose lines were the same in both."""
    for at, begin in enumerate(range(0, len(one.plain), _AT_ONCE)):
        if not one.sums or one.sums[at:at + 1] != other.sums[at:at + 1]:
            yield range(begin, min(begin + _AT_ONCE, len(one.plain)))


def _other_in(numbers: range, one: Heap, other: Heap) -> Iterator[int]:
    """Those among numbers under which the heaps do not have the same object, whatever that holds."""
    yield from _other_values(numbers.start, one.plain[numbers.start:numbers.stop], other.plain[numbers.start:numbers.stop])
    yield from range(max(numbers.start, len(other.plain)), numbers.stop)
    yield from (number for number in numbers if _is_other(one.made.get(number), other.made.get(number)))


def _is_other(one: Optional[Made], other: Optional[Made]) -> bool:
    return one is not other and one != other


def _held(made: Made) -> Collection[int]:
    """The numbers of what an object holds."""
    if isinstance(made, Filled):
        return made.held
    put = chain.from_iterable((change.value,) if change.key is None else (change.key, change.value) for change in made.changes)
    return [*made.parts, *put]


def _other_values(first: int, one: Sequence[Any], other: Sequence[Any]) -> Iterator[int]:
    """The numbers of plain values that are not the same in both, where they begin with the first one."""
    kinds = list(map(type, one))
    if not all(map(operator.is_, one, other)) and (kinds != list(map(type, other)) or one != other or Unread in kinds or 0.0 in one):
        yield from (number for number, pair in enumerate(zip(one, other), first) if not _is_one_value(*pair))


def _is_one_value(one: Any, other: Any) -> bool:
    """Whether two values are the same. (A zero may have a sign.)"""
    if type(one) is not type(other) or isinstance(one, Unread) and one.kind != other.kind:
        return False
    return literal(one) == literal(other) if isinstance(one, float) else bool(one == other)
