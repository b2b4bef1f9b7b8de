"""Classes without effects, pickles of them that are made at random, and a comparison of what was loaded with what was made."""

from __future__ import annotations

import collections
import copyreg
import datetime
import decimal
import enum
import fractions
import io
import pickle
import random
import uuid
from dataclasses import dataclass, field
from typing import Any, Callable, Dict, List, Optional, Tuple


class Plain:
    """Its state is its dictionary."""


class Slotted:
    __slots__ = ('first', 'second', '__weakref__')

    def __getstate__(self) -> Any:
        slots = {name: getattr(self, name) for name in ('first', 'second') if hasattr(self, name)}
        return getattr(self, '__dict__', None), slots


class Mixed(Slotted):
    """It has slots and a dictionary."""


class WithState:
    def __getstate__(self) -> Any:
        return [self.content]

    def __setstate__(self, state: Any) -> None:
        self.content, = state


class WithNew:
    def __new__(cls, *values: Any) -> 'WithNew':
        made = super().__new__(cls)
        made.values = values
        return made

    def __getnewargs__(self) -> Any:
        return self.values


class WithKeywords:
    def __new__(cls, first: Any = None, *, last: Any = None) -> 'WithKeywords':
        made = super().__new__(cls)
        made.first, made.last = first, last
        return made

    def __getnewargs_ex__(self) -> Any:
        return (self.first,), {'last': self.last}


class ManyItems(list):
    """A list with attributes."""


class ManyKeys(dict):
    """A dictionary with attributes."""


class ManyMembers(set):
    """A set with attributes."""


class Calls:
    """It is made by a call, and filled by methods of its own."""

    def __init__(self, *values: Any) -> None:
        self.values = list(values)
        self.pairs: Dict[Any, Any] = {}

    def append(self, value: Any) -> None:
        self.values.append(value)

    def __setitem__(self, key: Any, value: Any) -> None:
        self.pairs[key] = value

    def __reduce__(self) -> Any:
        return Calls, tuple(self.values[:2]), None, iter(self.values[2:]), iter(self.pairs.items())


class OwnList(list):
    """A list that keeps how it was filled."""

    def append(self, item: Any) -> None:
        super().append(('append', item))

    def extend(self, items: Any) -> None:
        super().append(('extend', [*items]))


class OwnSet(set):
    """A set that keeps how it was filled."""

    def add(self, item: Any) -> None:
        super().add(('add', item))

    def update(self, *items: Any) -> None:
        super().add(('update', *map(tuple, items)))


class OnlyAdds:
    """It is filled by one method, and is no set."""

    def __init__(self) -> None:
        self.values: List[Any] = []

    def add(self, item: Any) -> None:
        self.values.append(item)


class Colour(enum.Enum):
    RED = 1
    BLUE = 'blue'

    def __repr__(self) -> str:
        return self.name


class Flags(enum.IntFlag):
    ONE = 1
    TWO = 2


Point = collections.namedtuple('Point', 'x y')


@dataclass
class Record:
    name: str
    tags: List[Any] = field(default_factory=list)


class Outer:
    class Inner:
        pass


KINDS = (Plain, Slotted, Mixed, WithState, WithNew, WithKeywords, ManyItems, ManyKeys, ManyMembers, Calls, Record, Outer.Inner)
_TEXTS = ('', 'a', "it's", 'name', 'caf\xe9', '\u20ac', '\U0001f600', 'line\nline', '\\', '\x00\x7f', '\ud800', 'x' * 70, 'y' * 300, '"', "'\"", '\u202e', 'L')
_ATOMS: List[Callable[[random.Random], Any]] = [
    lambda r: None, lambda r: r.random() < 0.5, lambda r: r.randrange(-300, 300), lambda r: r.randrange(-2**40, 2**40),
    lambda r: r.choice((-1, 1)) * r.getrandbits(r.choice((64, 200, 2100, 14200))),
    lambda r: r.choice((0.0, -0.0, 1.5, -2.25, 1e300, 5e-324, float('inf'), float('-inf'), float('nan'), r.random())),
    lambda r: r.choice(_TEXTS), lambda r: r.choice(_TEXTS), lambda r: bytes(r.randrange(256) for _ in range(r.randrange(100))),
    lambda r: r.choice((b'', b'abc', b'\x00\xff', b"'", b'"\\')), lambda r: complex(r.random(), -1),
    lambda r: datetime.date(2000 + r.randrange(50), 1, 2), lambda r: decimal.Decimal(r.randrange(1000)) / 7,
    lambda r: fractions.Fraction(r.randrange(50), 7), lambda r: uuid.UUID(int=r.getrandbits(128)), lambda r: r.choice(list(Colour)),
    lambda r: Flags(r.randrange(4)), lambda r: r.choice((int, len, collections.OrderedDict, Plain, Outer.Inner, dict.fromkeys)),
    lambda r: datetime.timedelta(r.randrange(9)), lambda r: range(r.randrange(5))]


class Maker:
    """Makes objects at random, some of which are in more than one place or hold themselves."""

    def __init__(self, seed: int) -> None:
        self.random = random.Random(seed)
        self.made: List[Any] = []
        self.left = self.random.randrange(1, 60)

    def atom(self) -> Any:
        return self.random.choice(_ATOMS)(self.random)

    def hashable(self) -> Any:
        kind = self.random.randrange(8)
        if kind == 0:
            return tuple(self.atom() for _ in range(self.random.randrange(4)))
        return frozenset([self.atom()]) if kind == 1 else self.atom()

    def value(self, depth: int = 0) -> Any:
        self.left -= 1
        if self.made and self.random.random() < 0.2:
            return self.random.choice(self.made)
        if depth > 12 or self.left < 0 or self.random.random() < 0.4:
            return self.atom()
        return self.random.choice((self.container, self.container, self.instance))(depth + 1)

    def values(self, depth: int, most: int = 6) -> List[Any]:
        return [self.value(depth) for _ in range(self.random.randrange(most))]

    def container(self, depth: int) -> Any:
        kind = self.random.randrange(8)
        made: Any
        if kind < 2:
            made = []
            self.made.append(made)
            made.extend(self.values(depth))
        elif kind < 4:
            made = {} if kind == 2 else collections.OrderedDict()
            self.made.append(made)
            for _ in range(self.random.randrange(5)):
                made[self.hashable()] = self.value(depth)
        elif kind == 4:
            made = {self.hashable() for _ in range(self.random.randrange(5))}
            self.made.append(made)
        elif kind == 5:
            made = bytearray(self.random.choice((b'', b'abc', b'z' * 200)))
            self.made.append(made)
        else:
            made = tuple(self.values(depth)) if kind == 6 else Point(*(self.value(depth) for _ in range(2)))
            self.made.append(made)
        return made

    def instance(self, depth: int) -> Any:
        kind = self.random.choice(KINDS)
        made: Any
        if kind in (WithNew, Calls):
            made = kind(*self.values(depth))
        elif kind is WithKeywords:
            made = kind(self.value(depth), last=self.value(depth))
        elif kind is Record:
            made = kind(self.random.choice(_TEXTS))
        else:
            made = kind()
        self.made.append(made)
        if isinstance(made, list):
            made.extend(self.values(depth))
        if isinstance(made, dict):
            made.update({self.hashable(): self.value(depth) for _ in range(3)})
        if isinstance(made, set):
            made.update(self.hashable() for _ in range(3))
        if isinstance(made, Calls):
            made.pairs.update({self.hashable(): self.value(depth) for _ in range(2)})
        elif kind is Slotted:
            made.first = self.value(depth)
        elif kind is WithState:
            made.content = self.value(depth)
        elif kind is not WithKeywords:
            made.extra = self.value(depth)
            if isinstance(made, Slotted):
                made.second = self.value(depth)
        return made


class _Canonical(pickle._Pickler):  # type: ignore[name-defined,misc]
    """Writes the same bytes for objects that are equal and shared in the same way.

    Plain values, and tuples of them, may be one object or two: Python's compiler makes one of equal ones.
    """

    dispatch = dict(pickle._Pickler.dispatch)  # type: ignore[attr-defined]

    def memoize(self, obj: Any) -> None:
        if not _is_plain(obj):
            super().memoize(obj)

    def save_members(self, obj: Any) -> None:
        self.save_reduce(type(obj), (sorted(obj, key=canonical),), obj=obj)

    dispatch[set] = dispatch[frozenset] = save_members

    def reducer_override(self, obj: Any) -> Any:
        """Sets have no order, and what was an argument of a call may hold what came of it."""
        if isinstance(obj, Calls):
            return copyreg.__newobj__, (Calls,), obj.__dict__  # type: ignore[attr-defined]
        return (type(obj), (sorted(obj, key=canonical),), obj.__dict__) if isinstance(obj, ManyMembers) else NotImplemented


def _is_plain(obj: Any) -> bool:
    if type(obj) in (tuple, frozenset):
        return all(map(_is_plain, obj))
    return type(obj) in (str, bytes, int, float, complex, bool, type(None))


def canonical(obj: Any) -> bytes:
    """Bytes that are the same for what is the same."""
    file = io.BytesIO()
    _Canonical(file, 4).dump(obj)
    return file.getvalue()


def executed(text: str, persistent_load: Optional[Callable[[Any], Any]] = None, buffers: Any = ()) -> Dict[str, Any]:
    """The names after a source was run."""
    names: Dict[str, Any] = {'persistent_load': persistent_load, 'buffers': iter(buffers)}
    exec(compile(text, 'the source', 'exec'), names)
    return names


class Named:
    """What has names that are no names in Python."""

    first = 1


setattr(Named, 'class', 2)
setattr(Named, 'é', 3)
renewed = 0


def renew(value: Any) -> None:
    """This module has another thing under a name."""
    globals()['renewed'] = value


class OwnText(str):
    """A text of a type of its own."""


asked: List[str] = []


class Asked:
    """It keeps for which attributes it is asked."""

    def __getattribute__(self, name: str) -> Any:
        asked.append(name)
        return super().__getattribute__(name)


class AskedEach(Asked):
    def append(self, item: Any) -> None:
        """It takes items one by one."""


class AskedAll(Asked):
    def __setstate__(self, state: Any) -> None:
        """It takes any state."""

    def extend(self, items: Any) -> None:
        """It takes items at once."""

    def add(self, item: Any) -> None:
        """It takes members."""


class AskedTuple(Asked, tuple):
    def __iter__(self) -> Any:
        """It says that it has other items."""
        asked.append('__iter__')
        return iter('abc')

    def __len__(self) -> int:
        asked.append('__len__')
        return 3


class AskedDict(Asked, dict):
    def __iter__(self) -> Any:
        """It says that it has other keys."""
        asked.append('__iter__')
        return iter('abc')


class Watcher:
    """What it is made with, as that was when it was made: a call that comes too early or too late shows."""

    def __init__(self, *values: Any) -> None:
        self.seen = [repr_of(value) for value in values]
        self.values = list(values)


def repr_of(value: Any) -> str:
    """A value as far as it goes without instances."""
    if isinstance(value, (list, tuple, set, frozenset)):
        return f'{type(value).__name__} of {len(value)}'
    if isinstance(value, dict):
        return f'dict of {list(value)!r:.200}' if all(isinstance(key, (int, str)) for key in value) else f'dict of {len(value)}'
    return type(value).__name__


def _possible(chosen: random.Random, stack: List[str], memo: Dict[int, str]) -> List[Tuple[int, str, bytes]]:
    """What can come next: how many kinds it takes from the stack, which it puts on it (or none), and its bytes."""
    top, below, under = (['', '', ''] + stack)[-1], (['', '', ''] + stack)[-2], (['', '', ''] + stack)[-3]
    ways = [(0, 'atom', b'K' + bytes([chosen.randrange(9)])), (0, 'atom', b'\x8c\x01' + bytes([chosen.choice(b'abc')])),
            (0, 'list', b']'), (0, 'dict', b'}'), (0, 'tuple', b')'), (0, 'set', b'\x8f')]
    if stack:
        ways += [(0, top, b'2'), (1, 'tuple', b'\x85'), (1, '', b'0')]
        for kind in ('Watcher', 'Calls', 'ManyItems'):
            wanted = kind != 'ManyItems' or top in ('list', 'tuple', 'set')
            ways += [(1, kind, b'q\x090charmless\n%sh\x09\x85R' % f'{kind}\n'.encode())] * wanted
        ways.append((0, 'Plain', b'charmless\nPlain\n)\x81'))
    for key, kind in memo.items():
        ways += [(0, kind, b'h' + bytes([key]))] * 2
        if top in ('Plain', 'Watcher', 'ManyItems'):
            ways += [(0, '', b'}\x8c\x01xh' + bytes([key]) + b'sb')] * 2
    if len(stack) > 1:
        ways += [(2, 'tuple', b'\x86')] + [(1, '', b'a')] * 4 * (below in ('list', 'Calls', 'ManyItems'))
    ways += [(2, '', b's')] * 6 * (len(stack) > 2 and under in ('dict', 'Calls') and below == 'atom')
    ways += [(0, '', b'(K\x01K' + bytes([chosen.randrange(9)]) + b'\x90')] * 3 * (top == 'set')
    return ways


def opcodes_at_random(seed: int) -> bytes:
    """A pickle that no pickler writes: opcodes at random, each of which is possible where it comes."""
    chosen = random.Random(seed)
    stack: List[str] = []
    memo: Dict[int, str] = {}
    made: List[bytes] = [b'\x80\x04']
    for _ in range(chosen.randrange(3, 80)):
        if stack and chosen.random() < 0.25:
            key = chosen.randrange(4)
            memo[key] = stack[-1]
            made.append(b'q' + bytes([key]))
            continue
        count, kind, code = chosen.choice(_possible(chosen, stack, memo))
        del stack[len(stack) - count:]
        stack += [kind] * bool(kind)
        made.append(code)
    return b''.join(made) + (b'.' if stack else b'N.')
