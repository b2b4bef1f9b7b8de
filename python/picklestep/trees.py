"""The result of a pickle as nested Python data, and what two of them differ in. Nothing of a pickle is imported or called."""

from __future__ import annotations

import contextlib
import sys
from collections import Counter
from dataclasses import dataclass, field
from typing import AbstractSet, Any, Callable, Dict, Iterator, List, NamedTuple, Optional, Sequence, Tuple, Union

from _compat_pickle import IMPORT_MAPPING, NAME_MAPPING

from .addresses import opened_in
from .answers import Objects
from .changes import changed
from .collector import without_collector
from .errors import NoResult, OutOfMemory, PicklestepError
from .heaps import FILLED, Filled, Heap, heap_of, plain_value, same_in
from .listing_records import Object
from .program import check_timeout
from .records import Extension, Global, Name, Ref
from .sources import Source, is_fifo, is_read_once, rereadable
from .tasks import Asked, calls, frames, modes, objects_of
from .values import PLAIN_KINDS, Argument

__all__ = ['Asking', 'Call', 'Reading', 'Values', 'check_stops', 'tree', 'values', 'values_of_both']

_SLOTS: Dict[str, Any] = {'slots': True} if sys.version_info >= (3, 10) else {}


@dataclass(eq=False, **_SLOTS)
class Call:
    r"""An object that comes from a call, or from elsewhere.

    `how` is the word of `objects`: 'call', 'new', 'new-ex', 'inst', 'obj', 'persistent', 'buffer' or 'readonly'; 'import' where what was
    imported is changed. `name` is what is called,
    `arguments` what it is given. `items` were appended or added, `pairs` set, and `states` given by BUILD, in their order.

    >>> import picklestep
    >>> made = picklestep.tree(b'ca\nb\n(K\x01tR}X\x01\x00\x00\x00xK\x02sb.')
    >>> made.how, made.name, made.arguments, made.states
    ('call', Global(module=b'a', name=b'b'), (1,), [{'x': 2}])
    """

    how: str
    number: int
    name: Any = None
    arguments: Tuple[Any, ...] = ()
    items: List[Any] = field(default_factory=list)
    pairs: List[Tuple[Any, Any]] = field(default_factory=list)
    states: List[Any] = field(default_factory=list)


class Values:
    """The values of objects, the parts of each before the object."""

    def __init__(self, heap: Heap, names: Callable[[], Dict[int, Name]] = dict, like: Optional[Values] = None, shared: AbstractSet[int] = frozenset()) -> None:
        """`names` answers what is imported for names of Python 2, by the numbers of their objects, where there may be some. Those that are shared are
        taken from other values, which they are like."""
        self._ask_names = names
        self._names: Optional[Dict[int, Name]] = None
        values = self._values = heap.plain[:]
        # Of tuples and frozen sets; of all else a depth is 0, and a size 1.
        self._depths: Dict[int, int] = {}
        self._sizes: Dict[int, int] = {}
        self._members: Dict[int, List[int]] = {}  # of sets, by their identity
        if like is not None:
            self._share(like, shared)
        own = [(number, made) for number, made in heap.made.items() if number not in shared]
        for number, made in own:
            if isinstance(made, Filled):
                values[number] = FILLED[made.kind]()
                continue
            if made.kind in ('tuple', 'frozenset'):
                self._depths[number] = 1 + max([self._depths.get(part, 0) for part in made.parts], default=0)
                self._sizes[number] = min(_MOST_SIZE, sum([self._sizes.get(part, 1) for part in made.parts])) + 1
            values[number] = self._made(made)
        for number, made in own:
            if isinstance(made, Filled):
                self._hold(values[number], made.kind, made.held)
            else:
                self._fill(values[number], made)

    def _share(self, like: Values, shared: AbstractSet[int]) -> None:
        """Takes objects from other values."""
        values, others = self._values, like._values
        for number in shared:
            values[number] = others[number]
        self._depths.update((number, depth) for number, depth in like._depths.items() if number in shared)
        self._sizes.update((number, size) for number, size in like._sizes.items() if number in shared)
        self._members.update(like._members)

    def __len__(self) -> int:
        return len(self._values)

    def at(self, number: int) -> Any:
        """The value of an object."""
        return self._values[number]

    def of(self, value: Any) -> Any:
        """A value; where it is a Ref, that of its object."""
        return self._values[value.number] if isinstance(value, Ref) else value

    def members(self, value: Any) -> List[Any]:
        """The members of a set, in the order in which the pickle has them. (Python's order is another one in each run.)"""
        return list(dict.fromkeys(self._keys(self._members[id(value)])))

    def _made(self, made: Object) -> Any:
        """An object as it was made. What goes into a list, a set or a dictionary comes later, as does what was done to an object."""
        if made.kind in PLAIN_KINDS:
            return plain_value(made.kind, made.text)
        if made.kind in FILLED:
            return FILLED[made.kind]()
        parts = [self._values[part] for part in made.parts]
        if made.kind == 'tuple':
            return tuple(parts)
        if made.kind == 'frozenset':
            return frozenset(self._keys(made.parts))
        if made.kind in ('global', 'stack-global', 'ext'):
            imported = self._imported(made)
            return Call('import', made.number, imported) if made.changes else imported
        return self._called(made, parts)

    def _imported(self, made: Object) -> Name:
        if isinstance(made.text, int):
            return Extension(made.text)
        module, name = made.text if isinstance(made.text, tuple) else map(self._name, made.parts)
        if module in _RENAMED:  # (it depends on the protocol there)
            if self._names is None:
                self._names = self._ask_names()
            if made.number in self._names:
                return self._names[made.number]
        return Global(module, name)

    def _name(self, number: int) -> Union[bytes, Ref]:
        value = self._values[number]
        return value.encode('utf-8', 'surrogatepass') if isinstance(value, str) else value if isinstance(value, bytes) else Ref(number)

    @staticmethod
    def _line(text: Argument) -> Union[Argument, str]:
        """The number of a buffer, or what PERSID gives of its line: a text, where a loader reads it."""
        return text.decode('ascii') if isinstance(text, bytes) and text.isascii() else text

    def _called(self, made: Object, parts: List[Any]) -> Call:
        if made.kind == 'inst':
            return Call(made.kind, made.number, self._imported(made), tuple(parts))
        if made.kind in ('persistent', 'buffer', 'readonly'):
            given = parts if made.text is None else [self._line(made.text)]
            return Call(made.kind, made.number, None, tuple(given))
        name, *given = parts
        if made.kind != 'obj' and isinstance(given[0], tuple):
            given[:1] = given[0]
        return Call(made.kind, made.number, name, tuple(given))

    def _key(self, number: int) -> Any:
        """An object as a key or a member. Where Python could not hash it, it is its number."""
        value = self._values[number]
        if self._depths.get(number, 0) > _MOST_DEPTH or self._sizes.get(number, 1) > _MOST_SIZE:
            return Ref(number)
        try:
            hash(value)
        except TypeError:
            return Ref(number)
        return value

    def _keys(self, numbers: Sequence[int]) -> List[Any]:
        """Objects as keys of a dictionary or members of a set. Those are their numbers whose hash many others have: a pickle can choose whole numbers
        so, and Python would compare each with all others."""
        keys = list(map(self._values.__getitem__, numbers))
        if not _HASHED.issuperset(map(type, keys)):
            keys = list(map(self._key, numbers))
        if len(keys) <= _MOST_ALIKE:
            return keys
        counts = Counter(map(hash, keys))
        return [Ref(number) if counts[hash(key)] > _MOST_ALIKE else key for number, key in zip(numbers, keys)]

    def _fill(self, value: Any, made: Object) -> None:
        """Puts into a value what its object holds, and does what was done to that."""
        if isinstance(value, Call):
            for change in made.changes:
                other = self._values[change.value]
                if change.key is not None:
                    value.pairs.append((self._values[change.key], other))
                else:
                    (value.states if change.how == 'state' else value.items).append(other)
        elif made.kind == 'bytearray':
            changed(value, made, self.at, self.at)
        elif made.kind == 'frozenset':
            self._members[id(value)] = list(made.parts)
        elif made.kind in FILLED:
            self._hold(value, made.kind, changed(list(made.parts), made, self.at))

    def _hold(self, value: Any, kind: str, held: Sequence[int]) -> None:
        """Puts into a list, a set or a dictionary what it holds."""
        if kind == 'list':
            value += map(self._values.__getitem__, held)
        elif kind == 'dict':
            value.update(zip(self._keys(held[::2]), map(self._values.__getitem__, held[1::2])))
        else:
            value.update(self._keys(held))
            self._members[id(value)] = list(held)


# Types of values that have a hash, whatever they are.
_HASHED = frozenset((int, float, str, bytes, bool, type(None)))
# (Python's hash of a tuple asks its items, which ask theirs, each time anew: too many levels would end the interpreter, and a tuple that has one
# item twice, fifty levels deep, would never be done.)
_MOST_DEPTH = 50
_MOST_SIZE = 100_000
# So many keys of one hash stay themselves.
_MOST_ALIKE = 50


def tree(pickle: Source, *, many: bool = False, unframed: bool = False, timeout: Optional[float] = None, memory: Optional[int] = None) -> Any:
    r"""The result of a pickle as nested Python data; with `many` the list of the results. Nothing is imported or called.

    Lists, dictionaries, sets, tuples and plain values are themselves, and shared as in the pickle; a text that no loader reads is its bytes. What is
    imported is a `Global`, by the name that Python 3 imports, or an `Extension`, what comes from a call or from elsewhere a `Call`. A key or a member
    that has no hash is a `Ref` to its object, as is one whose hash more than fifty others have. `unframed` is as for `objects`.

    Raises NoResult where reading ended before the pickle's STOP, or it is not known which item of a list was changed.

    >>> tree(b'(X\x01\x00\x00\x00aG@\x04\x00\x00\x00\x00\x00\x00X\x01\x00\x00\x00bcos\ngetcwd\nd.')
    {'a': 2.5, 'b': Global(module=b'os', name=b'getcwd')}
    """
    return values(pickle, many, unframed, timeout, memory)[1]


def check_stops(pickle: Source, many: bool, unframed: bool, timeout: Optional[float] = None, memory: Optional[int] = None) -> None:
    """Raises NoResult where reading a pickle ends before its STOP. (`calls` says that in fewer lines, where it does end with STOP.)"""
    with contextlib.suppress(OutOfMemory):
        if not unframed and calls(pickle, first=not many, skip=(), timeout=timeout, memory=memory).end.is_stopped:
            return
    with Asked(pickle, timeout, memory) as asked:
        _objects_to_stop(asked, many, unframed)


def _objects_to_stop(asked: Asked, many: bool, unframed: bool) -> Objects:
    """The objects that a pickle makes. Raises NoResult where reading ended before its STOP."""
    answer = objects_of(asked, many, unframed)
    if not answer.end.is_stopped or not answer.results:
        raise NoResult(answer.end.text, answer.end.of_frame)
    return answer


class Reading(NamedTuple):
    """What is read of a pickle: its objects, the numbers of its results, whether these are all asked for, and who answers what is imported for names of
    Python 2, by the numbers of their objects."""

    heap: Heap
    results: Sequence[int]
    many: bool
    names: Callable[[], Dict[int, Name]]

    def result(self, made: Values) -> Any:
        """What `tree` answers."""
        results = [made.at(number) for number in self.results]
        return results if self.many else results[0]


class Asking:
    """A pickle that is asked for its objects. Of several the program works on one while another one is read."""

    def __init__(self, pickle: Source, many: bool, unframed: bool, timeout: Optional[float] = None, memory: Optional[int] = None) -> None:
        """Raises ValueError where there is no such timeout."""
        check_timeout(timeout)
        self._pickle = pickle
        self._many, self._unframed, self._timeout, self._memory = many, unframed, timeout, memory
        self._asked: Optional[Asked] = None

    def start(self) -> None:
        """Lets the program work on it. (What keeps it from that is said where it is read, and what is read once waits until then.)"""
        with contextlib.suppress(OSError, PicklestepError):
            if not is_read_once(self._pickle):
                self._opened().start(['objects', '--json', *modes(self._many, self._unframed)])

    def _opened(self) -> Asked:
        if self._asked is None:
            opened = opened_in(self._pickle)
            pickle = self._pickle if opened is None else opened.content
            if self._timeout is None or not is_fifo(pickle):  # (with a timeout it is the program that waits for the writer of a FIFO)
                pickle = rereadable(pickle)
            self._asked, self._pickle = Asked(pickle, self._timeout, self._memory), pickle
        return self._asked

    @without_collector()
    def read(self, like: Optional[Heap] = None) -> Reading:
        """What is read of it, where there is a heap that is like its own with that. Raises NoResult where reading ended before its STOP."""
        answer = _objects_to_stop(self._opened(), self._many, self._unframed)
        return Reading(heap_of(answer, like), answer.results, self._many, self._names)

    def _names(self) -> Dict[int, Name]:
        skip = frames(self._pickle, self._many) if self._unframed else ()
        reaches = calls(self._pickle, first=not self._many, skip=skip, timeout=self._timeout, memory=self._memory)
        return {reach.number: reach.name for reach in reaches if reach.said and reach.name and reach.number is not None}

    def __enter__(self) -> Asking:
        return self

    def __exit__(self, *error: object) -> None:
        if self._asked is not None:
            self._asked.__exit__(*error)


@without_collector()
def values(pickle: Source, many: bool, unframed: bool, timeout: Optional[float], memory: Optional[int]) -> Tuple[Values, Any]:
    """The values of all objects, and what `tree` answers."""
    with Asking(pickle, many, unframed, timeout, memory) as asking:
        reading = asking.read()
    made = Values(reading.heap, reading.names)
    return made, reading.result(made)


@without_collector()
def values_of_both(old: Reading, new: Reading) -> Tuple[Tuple[Values, Any], Tuple[Values, Any]]:
    """The same of two pickles. What is the same in both is the same object."""
    made = Values(old.heap, old.names)
    beside = Values(new.heap, new.names, made, same_in(new.heap, old.heap, _of_python_2(new.heap)))
    return (made, old.result(made)), (beside, new.result(beside))


def _of_python_2(heap: Heap) -> Iterator[int]:
    """The numbers of imports of which the protocol, too, says what they are."""
    for number, made in heap.made.items():
        if isinstance(made, Object) and made.kind in _IMPORTS:
            module = made.text[0] if isinstance(made.text, tuple) else heap.plain[made.parts[0]] if made.parts else None
            if (module.encode('utf-8', 'surrogatepass') if isinstance(module, str) else module) in _RENAMED:
                yield number


_IMPORTS = frozenset(('global', 'stack-global', 'inst'))
_RENAMED = frozenset(module.encode('ascii') for module in (*IMPORT_MAPPING, *(module for module, _ in NAME_MAPPING)))
