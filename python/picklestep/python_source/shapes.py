"""Containers of plain values that are closed in one piece. Large pickles have many of them, with the same opcodes again and again.

The opcodes of such a unit, a letter each, are its shape: the values are in the same places of all units of a shape. So they are taken out of many
units column by column, and each unit is written by the form of its shape.
"""

from __future__ import annotations

import contextlib
from functools import lru_cache, partial
from operator import itemgetter
from typing import Callable, Dict, Iterable, List, NamedTuple, Optional, Sequence, Union

from ..listed import Fields, fields_of_tails, name_in
from ..literals import of_bytes, of_floats, of_line, of_number, of_numbers, of_text
from ..opcodes import TABLE
from ..patterns import pattern

__all__ = ['ALIKE', 'BRACKETS', 'GETS', 'Part', 'RUNS', 'RUNS_WITHOUT_UNITS', 'Said', 'Shape', 'codes_of', 'shape_of']

BRACKETS = {'list': ('[', ']'), 'tuple': ('(', ')'), 'set': ('{', '}'), 'dict': ('{', '}'), 'frozenset': ('frozenset({', '})')}

# Opcodes that are read as others are.
ALIKE = {'M': 'K', 'J': 'K', 'j': 'h', 'r': 'q'}
GETS = frozenset('hg')
_STORES = frozenset('\x94qp')
_CONSTANTS = {'N': 'None', '\x88': 'True', '\x89': 'False', ')': '()'}
_FILLED = {']': 'list', '}': 'dict'}
_TAKEN = {'a': 1, 's': 2, '\x85': 1, '\x86': 2, '\x87': 3}

# A plain value that may be stored, or what comes from the memo; the same, or a tuple of up to three of them; a container of some items.
_MOST_ITEMS = 64
_STORE = '[\x94qp]?'
_PLAIN = f'(?:[KGX\x8c\x8dNCBU\x88\x89)\x8a\x8eILFSVT]{_STORE}|[hg])'
_FEW = f'{_PLAIN}(?:(?:\x85|{_PLAIN}(?:\x86|{_PLAIN}\x87)){_STORE})?'


def _containers(item: str, times: str) -> str:
    """A list or a dictionary that is filled so many times, or a tuple."""
    items, pairs = f'\\((?:{item}){{0,{_MOST_ITEMS}}}', f'\\((?:{_PLAIN}(?:{item})){{0,{_MOST_ITEMS}}}'
    return f'\\]{_STORE}(?:{items}e|(?:{item})a){times}|\\}}{_STORE}(?:{pairs}u|{_PLAIN}(?:{item})s){times}|{items}t{_STORE}'


_UNIT = _containers(f'{_FEW}|{_containers(_FEW, "*")}', '+')
_SMALL = f'{_PLAIN}(?:\x85|{_PLAIN}(?:\x86|{_PLAIN}\x87)){_STORE}'

# Runs of opcodes that are read at once: numbers, floats, texts that are stored as they come, and units of one shape. (A tuple that a call takes is
# none: its items are needed.)
_SAME_KIND = '(?P<numbers>K{16,})|(?P<floats>G{16,})|(?P<texts>(?:[X\x8c\x8d]\x94){8,})'
RUNS = pattern(f'{_SAME_KIND}|(?P<units>(?P<unit>(?:{_UNIT}|{_SMALL})(?![R\x81]))(?P=unit)*)')
RUNS_WITHOUT_UNITS = pattern(_SAME_KIND)


class Part:
    """A container in a unit. `number` is its number among the objects of the unit; its items are parts, the source of constants, and the
    numbers of values."""

    def __init__(self, kind: str, number: int, items: List[Item]) -> None:
        self.kind = kind
        self.number = number
        self.items = items

    @property
    def parts(self) -> List[Part]:
        """The containers among the items."""
        return [item for item in self.items if isinstance(item, Part)]

    @property
    def depth(self) -> int:
        """How many brackets are inside one another."""
        return 1 + max([part.depth for part in self.parts], default=0) if self.items else 0

    @property
    def width(self) -> int:
        """The most items that it or a container in it has; of a dictionary pairs."""
        own = len(self.items) // 2 if self.kind == 'dict' else len(self.items)
        return max([own, *(part.width for part in self.parts)])

    @property
    def is_pure(self) -> bool:
        """Whether it is a tuple of plain values and of such tuples."""
        return self.kind == 'tuple' and all(part.is_pure for part in self.parts)

    def form(self) -> str:
        """Its source in one line, with `%s` for each value."""
        texts = [item.form() if isinstance(item, Part) else item if isinstance(item, str) else '%s' for item in self.items]
        if self.kind == 'dict':
            texts = list(map('%s: %s'.__mod__, zip(texts[::2], texts[1::2])))
        start, end = BRACKETS[self.kind]
        return start + ', '.join(texts) + self.comma + end

    @property
    def comma(self) -> str:
        """What is behind the only item of a tuple."""
        return ',' if self.kind == 'tuple' and len(self.items) == 1 else ''


Item = Union[str, int, Part]


class Column(NamedTuple):
    """An argument in each unit of a shape: of the opcode at a place in it."""

    place: int
    code: str


class Store(NamedTuple):
    """What a unit stores in the memo, and the column of its key, where that has one."""

    item: Item
    key: Optional[int]


class Shape:
    """What units with the same opcodes have in common: which arguments are `values` and where they go, what is stored, the objects that are
    made and, in their order, the containers that are put into others."""

    def __init__(self, codes: str) -> None:
        self.codes = codes
        self.columns: List[Column] = []
        self.values: List[int] = []
        self.stores: List[Store] = []
        self.taken: List[Part] = []
        self.made = 0
        self._stack: List[Item] = []
        self._marks: List[int] = []
        for place, code in enumerate(codes):
            self._take(place, code)
        whole, = self._stack
        assert isinstance(whole, Part)
        self.part = whole
        self.kind, self.depth, self.width, self.is_pure, self.form = whole.kind, whole.depth, whole.width, whole.is_pure, whole.form()
        self.closing = len(whole.comma + BRACKETS[whole.kind][1])

    def _take(self, place: int, code: str) -> None:
        """Follows an opcode."""
        if code == '(':
            self._marks.append(len(self._stack))
        elif code in _STORES:
            self.stores.append(Store(self._stack[-1], None if code == '\x94' else self._column(place, code)))
        elif code in 'euas':
            items = self._last(code)
            target = self._stack[-1]
            assert isinstance(target, Part)
            target.items += items
        elif code in 't\x85\x86\x87':
            self._push(Part('tuple', self.made, self._last(code)))
        elif code in _FILLED:
            self._push(Part(_FILLED[code], self.made, []))
        elif code in _CONSTANTS:
            self._push(_CONSTANTS[code])
        else:
            self.values.append(self._column(place, code))
            self._stack.append(len(self.values) - 1)
            self.made += code not in GETS

    def _push(self, item: Item) -> None:
        self._stack.append(item)
        self.made += 1

    def _last(self, code: str) -> List[Item]:
        """What an opcode takes from the stack."""
        at = len(self._stack) - _TAKEN[code] if code in _TAKEN else self._marks.pop()
        items = self._stack[at:]
        del self._stack[at:]
        self.taken += [item for item in items if isinstance(item, Part)]
        return items

    def _column(self, place: int, code: str) -> int:
        self.columns.append(Column(place, code))
        return len(self.columns) - 1

    def columns_of(self, tails: List[str]) -> List[Sequence[str]]:
        """The columns of units that follow one another, of whose lines these are the second parts."""
        return [tails[column.place::len(self.codes)] for column in self.columns]


@lru_cache(maxsize=10_000)
def shape_of(codes: str) -> Shape:
    """The shape of units that have these opcodes."""
    return Shape(codes)


def _each(of_one: Callable[[Fields], str], column: Sequence[Fields]) -> List[str]:
    return list(map(of_one, column))


_OTHERS: Dict[str, Callable[[Fields], str]] = {
    **dict.fromkeys('X\x8c\x8d', of_text), '\x8a': of_number, **dict.fromkeys('CB\x8e', of_bytes), **dict.fromkeys('ILFSVTU', of_line)}
_DECODERS: Dict[str, Callable[[Sequence[Fields]], Sequence[str]]] = {
    'K': of_numbers, 'G': of_floats, **{code: partial(_each, of_one) for code, of_one in _OTHERS.items()}}


# The letters of opcodes, where those that are read alike have the same.
_LETTERS = {opcode.name: ALIKE.get(opcode.letter, opcode.letter) for opcode in TABLE}


class _Letters(Dict[str, str]):
    """The letters of opcodes, by how the second parts of their lines begin: there are few such beginnings."""

    def __missing__(self, begins: str) -> str:
        letter = self[begins] = _LETTERS[name_in(begins)]
        return letter


# Where each comes so many times, each is looked at once.
_MANY_ALIKE = 4
_letters = _Letters()
_begins = itemgetter(slice(max(map(len, _LETTERS)) + 1))


def codes_of(tails: Sequence[str]) -> str:
    """The letters of opcodes, by the second parts of their lines."""
    distinct = set(tails)
    if _MANY_ALIKE * len(distinct) < len(tails):
        return ''.join(map(dict(zip(distinct, codes_of(list(distinct)))).__getitem__, tails))
    return ''.join(map(_letters.__getitem__, map(_begins, tails)))


# So many letters of second parts of lines are kept with what they say.
_MOST_KEPT = 1 << 20


class Said:
    """What the second parts of lines say. What comes again is read once, as long as there is not too much of it."""

    def __init__(self) -> None:
        self._fields: Dict[str, Fields] = {}
        self._sources: Dict[str, str] = {}
        self._kept = 0

    def forget(self) -> None:
        """Forgets what was read, where that is much."""
        if self._kept > _MOST_KEPT:
            self._fields, self._sources, self._kept = {}, {}, 0

    def fields(self, tails: Iterable[str]) -> Dict[str, Fields]:
        """The fields of these and of others."""
        new = set(tails).difference(self._fields)
        if new:
            self._kept += sum(map(len, new))
            self._fields.update(zip(new, fields_of_tails(new)))
        return self._fields

    def sources(self, code: str, column: Sequence[str]) -> List[str]:
        """The arguments of opcodes of a code as source."""
        if column[0] in self._sources:
            with contextlib.suppress(KeyError):
                return list(map(self._sources.__getitem__, column))
        new = set(column).difference(self._sources)
        if 2 * len(new) > len(column):
            return list(_DECODERS[code](fields_of_tails(column)))
        if new:
            self._kept += sum(map(len, new))
            self._sources.update(zip(new, _DECODERS[code](fields_of_tails(new))))
        return list(map(self._sources.__getitem__, column))
