"""How deep what calls made is in one another: by what the program's `objects --json` says that each object holds."""

from __future__ import annotations

from array import array
from itertools import compress
from typing import Dict, List, Sequence, Set, Tuple

from ..held import STATE, holders_of
from .blobs import Budget

__all__ = ['Made']

# What only holds, and what calls made.
_ONLY_HOLD = frozenset(('tuple', 'list', 'dict', 'set', 'frozenset'))
_HOLD = _ONLY_HOLD.union(('call', 'new', 'new-ex', 'obj', 'inst'))


class Made:
    """How deep what calls made is in one another. What holds nothing that comes behind it is known at once."""

    def __init__(self) -> None:
        self._depths = array('L')
        self._is_dict = bytearray()
        self._held: Dict[int, List[int]] = {}
        self._made: Set[int] = set()
        self._states: List[Tuple[int, int]] = []

    def take(self, tails: Sequence[str]) -> None:
        """Goes over the next objects, by the second parts of their lines."""
        first = len(self._depths)
        self._depths.extend([0] * len(tails))
        self._is_dict.extend(bytes(len(tails)))
        for holder, kind, given, signs, put in holders_of(first, tails):
            if kind not in _HOLD:
                continue
            is_made, has_state = kind not in _ONLY_HOLD, STATE in signs
            parts = [*given, *(compress(put, (sign != STATE[0] for sign in signs)) if has_state else put)]
            self._is_dict[holder] = kind == 'dict'
            if is_made and has_state:
                self._states.extend([(holder, part) for sign, part in zip(signs, put) if sign == STATE[0]])
            if is_made and has_state or max(parts, default=0) > holder or any([part in self._held for part in parts]):
                self._held[holder] = parts
                if is_made:
                    self._made.add(holder)
            else:
                self._depths[holder] = max([self._depths[part] for part in parts], default=0) + is_made

    def depth(self, budget: Budget) -> int:
        """How deep the deepest is. (An object that is in itself is freed in another way.)"""
        for holder, state in self._states:
            if state < len(self._depths) and not self._has_attributes(state):
                self._held[holder].append(state)
        known: Set[int] = set()
        for first in self._held:
            self._go(first, known)
            budget.count(1)
        return max(self._depths, default=0)

    def _has_attributes(self, state: int) -> bool:
        """Whether a state is a dictionary, or a tuple of some. What is in attributes is freed without end."""
        is_made, parts = state in self._made, self._held.get(state)
        return bool(self._is_dict[state]) or not is_made and parts is not None and all(self._is_dict[part] or part not in self._held for part in parts)

    def _go(self, first: int, known: Set[int]) -> None:
        """Finds the depth of an object and of all in it."""
        depths, held = self._depths, self._held
        open_ = [first]
        while open_:
            holder = open_.pop()
            if holder < 0:
                holder = ~holder
                depths[holder] = max([depths[part] for part in held[holder] if part < len(depths)], default=0) + (holder in self._made)
            elif holder not in known:
                known.add(holder)
                open_.append(~holder)
                open_.extend([part for part in held[holder] if part in held and part not in known])
