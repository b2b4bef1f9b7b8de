"""The memo of a pickle as sizes need it: which opcodes store entries in it and take them, and which entries nobody takes."""

from __future__ import annotations

from array import array
from itertools import chain, compress
from typing import Dict, Iterator, List, NamedTuple, Sequence

from ..opcode_lines import table_of
from ..opcodes import BY_NAME
from .opcodes import GETS, PUTS, Opcodes

__all__ = ['Memo', 'TAKES', 'memo_of']

_STORES, TAKES = table_of(PUTS), table_of(GETS)
_MEMOIZE = BY_NAME['MEMOIZE'].code
# (MEMOIZE counts the entries, and the others name a key.)
_ALL, _NAMING, _NAMING_PUTS = table_of(PUTS | GETS), table_of((PUTS | GETS) - {_MEMOIZE}), table_of(PUTS - {_MEMOIZE})


class Memo(NamedTuple):
    """The opcodes of the memo: the places of those that store, their keys, and whether somebody takes the entry; and how many take one. `once` says whether
    each key is stored once."""

    stored: 'array[int]'
    keys: Sequence[int]
    is_taken: bytearray
    taken: int
    once: bool

    def unused(self) -> Iterator[int]:
        """The places of those whose entry nobody takes."""
        return compress(self.stored, self.is_taken.translate(_OTHERS))


_OTHERS = bytes(not code for code in range(256))


def memo_of(opcodes: Opcodes) -> Memo:
    """What becomes of the entries of the memo. Each pickle begins with an empty one."""
    stored, counted, taken = opcodes.places(_STORES), opcodes.codes.count(_MEMOIZE), sum(map(opcodes.codes.count, GETS))
    if counted in (0, len(stored)) and len(opcodes.stops) <= 1:
        keys: Sequence[int] = range(counted) if counted else opcodes.keys(_NAMING_PUTS)
        if counted or len(set(keys)) == len(keys):
            asked = set(chain.from_iterable(opcodes.keys(table_of([code])) for code in GETS))
            return Memo(stored, keys, bytearray(map(asked.__contains__, keys)), taken, True)
    return _memo_of_several(opcodes, stored, taken)


def _memo_of_several(opcodes: Opcodes, stored: 'array[int]', taken: int) -> Memo:
    """The same of several pickles, or of one that stores something else under a key that it has, or under keys of both kinds."""
    named = dict(zip(opcodes.places(_NAMING), opcodes.keys(_NAMING)))
    keys: List[int] = []
    is_taken = bytearray()
    now: Dict[int, int] = {}
    once = True
    stops = iter([*opcodes.stops, len(opcodes)])
    stop = next(stops)
    for place in opcodes.places(_ALL):
        while place > stop:
            stop = next(stops)
            now.clear()
        key = named.get(place, len(now))
        if opcodes.codes[place] in PUTS:
            once = once and key not in now
            now[key] = len(keys)
            keys.append(key)
            is_taken.append(0)
        elif key in now:
            is_taken[now[key]] = 1
    return Memo(stored, keys, is_taken, taken, once)
