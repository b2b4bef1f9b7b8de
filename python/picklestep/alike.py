"""Which values of two pickles are alike: the same, but for the numbers of their objects. Nothing here recurses, and each value is looked at once."""

from __future__ import annotations

from collections import deque
from itertools import chain
from typing import Any, Deque, Dict, Hashable, Iterator, List, Sequence, Set, Tuple

from .literals import literal
from .records import Global, Ref
from .trees import Call, Values
from .values import Unread

__all__ = ['CONTAINERS', 'Compared', 'Labels', 'inside', 'is_held', 'paired']

CONTAINERS = (list, tuple, dict, set, frozenset, Call)
# Types of values that hold nothing. (Others may, too.)
_PLAIN = frozenset((int, float, str, bytes, bool, type(None)))
# Values that hold themselves are compared by what they hold up to so many levels.
_LEVELS = 16


def is_held(name: Any) -> bool:
    """Whether what is imported is named by objects that are no texts."""
    return isinstance(name, Global) and (isinstance(name.module, Ref) or isinstance(name.name, Ref))


def inside(value: Any) -> List[Any]:
    """All that a container holds, or objects that name what is imported."""
    if isinstance(value, dict):
        return list(chain.from_iterable(value.items()))
    if isinstance(value, Call):
        return [value.name, *value.arguments, *value.items, *value.states, *chain.from_iterable(value.pairs)]
    return [value.module, value.name] if isinstance(value, Global) else list(value)


# A container, with all that it holds.
_Held = Tuple[Any, List[Any]]


class Labels:
    """Labels of values: two values have the same one where they are alike. (Where they hold themselves, perhaps also where they differ deep inside.)

    >>> from picklestep.trees import values
    >>> labels, (objects, result) = Labels(), values(b'](cos\\ngetcwd\\n)Rcos\\ngetcwd\\n)RK\\x01I01\\ne.', False, False, None, None)
    >>> one, other, number, truth = (labels.of(objects, value) for value in result)
    >>> one == other, number == truth
    (True, False)
    """

    def __init__(self) -> None:
        self._labels: Dict[Tuple[Any, ...], int] = {}  # by what makes them
        self._texts: Dict[str, int] = {}  # those of texts, which are most
        self._known: Dict[int, int] = {}  # of containers, by their identity
        self._inexact: Set[int] = set()
        self._count = 0

    @staticmethod
    def is_plain(label: int) -> bool:
        """Whether values with a label are plain values, names, or tuples and frozen sets of them."""
        return label < 0

    def is_exact(self, label: int) -> bool:
        """Whether values with a label differ in nothing that is compared. (Of pairs that a call was given the order is not in its label.)"""
        return label not in self._inexact

    def are_same(self, one: Any, other: Any) -> bool:
        """Whether it is known of two containers that they differ in nothing."""
        label = self._known.get(id(one))
        return label is not None and label == self._known.get(id(other)) and self.is_exact(label)

    def of(self, values: Values, value: Any) -> int:
        """The label of a value; of a Ref that of its object."""
        value = values.of(value)
        if not _has_inside(value):
            return self._of_plain(value)
        if id(value) not in self._known:
            self._follow(values, value)
        return self._known[id(value)]

    def _label(self, parts: Tuple[Any, ...], is_plain: bool = False, is_exact: bool = True) -> int:
        """The label of what is made so, which is below 0 where that is plain."""
        label = self._labels.get(parts)
        if label is None:
            label = self._labels[parts] = self._next(is_plain)
            if not is_exact:
                self._inexact.add(label)
        return label

    def _next(self, is_plain: bool) -> int:
        self._count += 1
        return -self._count if is_plain else self._count

    def _of_plain(self, value: Any) -> int:
        kind = type(value)
        if kind is str:
            label = self._texts.get(value)
            if label is None:
                label = self._texts[value] = self._next(is_plain=True)
            return label
        # (a pickle can choose numbers of one hash, and no texts)
        text = literal(value) if kind is float else f'{value:x}' if kind is int else bytes(value) if kind is bytearray else value
        return self._label((value.kind if kind is Unread else kind, text), is_plain=True)

    def _follow(self, values: Values, first: Any) -> None:
        """Labels a container and all in it, those first that hold no others. (Tarjan's way to find which hold one another.)"""
        order: Dict[int, int] = {}
        lowest: Dict[int, int] = {}
        waiting: List[_Held] = []
        path: List[Tuple[Any, Iterator[Any]]] = []

        def enter(value: Any) -> bool:
            parts = list(map(values.of, inside(value)))
            unknown = [part for part in parts if type(part) not in _PLAIN and _has_inside(part) and id(part) not in self._known]
            if not unknown:
                self._known[id(value)] = self._of_container(value, parts, {})
                return False
            order[id(value)] = lowest[id(value)] = len(order)
            waiting.append((value, parts))
            path.append((value, iter(unknown)))
            return True
        enter(first)
        while path:
            value, rest = path[-1]
            for part in rest:
                if id(part) in self._known:
                    continue
                if id(part) in order:
                    lowest[id(value)] = min(lowest[id(value)], order[id(part)])
                elif enter(part):
                    break
            else:
                path.pop()
                if path:
                    holder = id(path[-1][0])
                    lowest[holder] = min(lowest[holder], lowest[id(value)])
                if lowest[id(value)] == order[id(value)]:
                    at = next(at for at in range(len(waiting) - 1, -1, -1) if waiting[at][0] is value)
                    self._settle(waiting[at:])
                    del waiting[at:]

    def _settle(self, together: List[_Held]) -> None:
        """Labels containers that hold one another, or one alone."""
        first, held = together[0]
        if len(together) == 1 and all(part is not first for part in held):
            self._known[id(first)] = self._of_container(first, held, {})
            return
        found = {id(value): self._label(('holds itself',), is_exact=False) for value, _ in together}
        for _ in range(_LEVELS):
            found = {id(value): self._of_container(value, held, found) for value, held in together}
        self._known.update(found)

    def _of_container(self, value: Any, held: List[Any], found: Dict[int, int]) -> int:
        """The label of a container by those of what it holds, some of which are only found for now."""
        parts = []
        for part in held:
            label = self._texts.get(part) if type(part) is str else found.get(id(part), self._known.get(id(part)))
            parts.append(self._of_plain(part) if label is None else label)
        kind = type(value)
        is_exact = self._inexact.isdisjoint(parts)
        if kind is Call:
            at = len(parts) - 2 * len(value.pairs)
            made_by = (kind, value.how, len(value.items), len(value.states), *parts[:at], *_in_pairs(parts[at:]))
            return self._label(made_by, is_exact=is_exact and len(value.pairs) < 2)
        if kind is dict:
            return self._label((kind, *_in_pairs(parts)), is_exact=is_exact)
        is_plain = kind in (tuple, frozenset) and max(parts, default=-1) < 0
        return self._label((kind, *(sorted(parts) if kind in (set, frozenset) else parts)), is_plain, is_exact)


class Compared:
    """Which containers were compared already. Of each two it is said once that they are new, as long as there are few pairs; where there are more
    than `most`, two are new only if nothing links them: what differs between them differs between two of those that do, too.

    >>> compared, one, other, third = Compared(2), [], [], []
    >>> [compared.is_new(*pair) for pair in ((one, other), (one, other), (other, third), (one, third))]
    [True, False, True, False]
    """

    def __init__(self, most: int) -> None:
        self._most = most
        self._pairs: Set[Tuple[int, int]] = set()
        self._links: Dict[int, int] = {}  # to another one, of those that were compared with one another

    def is_new(self, one: Any, other: Any) -> bool:
        """Whether two are to be compared, which they are then."""
        if (id(one), id(other)) in self._pairs:
            return False
        first, second = self._end(id(one)), self._end(id(other))
        if first == second and len(self._pairs) >= self._most:
            return False
        self._pairs.add((id(one), id(other)))
        self._links[first] = second
        return True

    def _end(self, each: int) -> int:
        """The last of those that are linked to one, to which all on the way are linked then."""
        end = each
        while self._links.get(end, end) != end:
            end = self._links[end]
        while each != end:
            self._links[each], each = end, self._links[each]
        return end


def _has_inside(value: Any) -> bool:
    return type(value) not in _PLAIN and (isinstance(value, CONTAINERS) or is_held(value))


def _in_pairs(labels: List[int]) -> List[Tuple[int, int]]:
    return sorted(zip(labels[::2], labels[1::2]))


def paired(one: Sequence[Hashable], other: Sequence[Hashable]) -> Tuple[List[Tuple[int, int]], List[int], List[int]]:
    """The places of those that are the same, by pairs, and the places that are left in both.

    >>> paired('abca', 'caab')
    ([(0, 1), (1, 3), (2, 0), (3, 2)], [], [])
    >>> paired('ab', 'bcb')
    ([(1, 0)], [0], [1, 2])
    """
    waiting: Dict[Hashable, Deque[int]] = {}
    for place, each in enumerate(other):
        waiting.setdefault(each, deque()).append(place)
    pairs: List[Tuple[int, int]] = []
    left: List[int] = []
    for place, each in enumerate(one):
        if waiting.get(each):
            pairs.append((place, waiting[each].popleft()))
        else:
            left.append(place)
    return pairs, left, sorted(chain.from_iterable(waiting.values()))
