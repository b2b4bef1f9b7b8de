"""Real pickles that are cut off at each place: what `mend` makes of them, beside what an unpickler had built by then.

    cut_pickles.py [EVERY [PROCESSES]]      tries every cut of all of them (or each EVERY-th), and writes the number of pickles, cuts and faults

Nothing that a pickle names is imported: stand-ins write down what they are made of.
"""

from __future__ import annotations

import io
import itertools
import pickle
import sys
from multiprocessing import Pool
from pathlib import Path
from typing import Any, Dict, List, Optional, Tuple

import picklestep
from picklestep.mending import mended
from pickles import real_pickles

_MODELS = sorted((Path(__file__).resolve().parent / 'data' / 'models').glob('*.pkl'))
_MOST_BYTES = 6000


class StandIn:
    """What stands for anything that a pickle makes by a call. It has what it was made of, and what was done to it."""

    name = ('', '')

    def __new__(cls, *values: Any, **keywords: Any) -> StandIn:
        made = super().__new__(cls)
        made.done = [('made', values, keywords)]
        return made

    def __init__(self, *values: Any, **keywords: Any) -> None:
        self.done: List[Tuple[Any, ...]]

    def __setstate__(self, state: Any) -> None:
        self.done.append(('state', state))

    def __setitem__(self, key: Any, value: Any) -> None:
        self.done.append(('set', key, value))

    def append(self, value: Any) -> None:
        self.done.append(('append', value))

    def add(self, value: Any) -> None:
        self.done.append(('add', value))


class Names:
    """Stand-ins by their names."""

    def __init__(self) -> None:
        self._found: Dict[Tuple[str, str], type] = {}

    def find(self, module: str, name: str) -> type:
        return self._found.setdefault((module, name), type('StandIn', (StandIn,), {'name': (module, name)}))


class Loader(pickle.Unpickler):
    """The unpickler in C, over stand-ins."""

    def __init__(self, data: bytes) -> None:
        super().__init__(io.BytesIO(data), buffers=(bytearray(b'%d' % number) for number in itertools.count()))
        self._names = Names()

    def find_class(self, module: str, name: str) -> Any:
        return self._names.find(module, name)

    def persistent_load(self, identity: Any) -> Any:
        return self._names.find('', 'persistent')(identity)


class _Whole(io.BytesIO):
    """Bytes of which nothing is read in part."""

    def read(self, size: Optional[int] = -1) -> bytes:
        data = super().read(size)
        if size is not None and len(data) < size:
            raise EOFError
        return data

    def readline(self, size: Optional[int] = -1) -> bytes:
        line = super().readline(size)
        if not line.endswith(b'\n'):
            raise EOFError
        return line


class _Builder(pickle._Unpickler):  # type: ignore[name-defined,misc]
    """The unpickler in Python, over stand-ins, whose stack can be looked at. A frame is an opcode like others."""

    dispatch = {**pickle._Unpickler.dispatch, pickle.FRAME[0]: lambda self: self.read(8)}  # type: ignore[attr-defined]

    def __init__(self, data: bytes) -> None:
        super().__init__(_Whole(data), buffers=(bytearray(b'%d' % number) for number in itertools.count()))
        self._stand_ins = Names()

    def find_class(self, module: str, name: str) -> Any:
        return self._stand_ins.find(module, name)

    def persistent_load(self, identity: Any) -> Any:
        return self._stand_ins.find('', 'persistent')(identity)

    def built(self) -> Any:
        """What is on the stack where the bytes end, closed as picklers close it."""
        try:
            return self.load()
        except EOFError:
            return closed([*self.metastack, self.stack])


def closed(sections: List[List[Any]]) -> Any:
    """What stands above a mark goes into what is below the mark, else into a tuple; so does what is left."""
    while len(sections) > 1:
        items = sections.pop()
        below = sections[-1]
        if items and not (below and _fill(below[-1], items)):
            below.append(tuple(items))
    bottom, = sections
    return tuple(bottom) if len(bottom) > 1 else bottom[0] if bottom else None


def _fill(target: Any, items: List[Any]) -> bool:
    """Puts items into a container, or into a stand-in that was filled before. Answers whether it is one."""
    ways = {list: 'append', dict: 'set', set: 'add'}
    filled = [change[0] for change in target.done if change[0] in ways.values()] if isinstance(target, StandIn) else []
    way = ways.get(type(target)) or (filled[-1] if filled else '')
    if way == 'set':
        for key, value in zip(items[::2], items[1::2]):
            if not _is_key(key):
                break
            target[key] = value
    elif way == 'add':
        for item in itertools.takewhile(_is_key, items):
            target.add(item)
    elif way == 'append':
        for item in items:
            target.append(item)
    return bool(way)


def _is_key(value: Any) -> bool:
    try:
        hash(value)
    except TypeError:
        return False
    return True


class _Shape:
    """Objects in words that are the same for the same objects, shared in the same way."""

    def __init__(self) -> None:
        self._numbers: Dict[int, int] = {}
        self._kept: List[Any] = []  # (so that no other object gets the identity of one)

    def of(self, value: Any) -> Any:
        if isinstance(value, type):
            return 'class', value.name  # type: ignore[attr-defined]
        if not isinstance(value, (list, tuple, dict, set, frozenset, StandIn)):
            return type(value).__name__, bytes(value) if isinstance(value, (bytearray, memoryview, pickle.PickleBuffer)) else repr(value)
        if id(value) in self._numbers:
            return 'again', self._numbers[id(value)]
        if value != () and (value or not isinstance(value, frozenset)):  # (an empty one of these may be the same everywhere)
            self._numbers[id(value)] = len(self._numbers)
            self._kept.append(value)
        return self._inside(value)

    def _inside(self, value: Any) -> Any:
        if isinstance(value, StandIn):
            return 'made', value.name, [(change[0], *map(self.of, change[1:])) for change in value.done]
        if isinstance(value, dict):
            return 'dict', [(self.of(key), self.of(item)) for key, item in value.items()]
        items = sorted(value, key=lambda item: repr(_Shape().of(item))) if isinstance(value, (set, frozenset)) else value
        return type(value).__name__, [self.of(item) for item in items]


def shape(value: Any) -> Any:
    """What two objects have in common that are equal and shared in the same way."""
    return _Shape().of(value)


def whole_pickles() -> Dict[str, bytes]:
    """The real pickles that load with stand-ins and end in their first STOP."""
    found = {}
    for name, data in [*real_pickles().items(), *((path.stem, path.read_bytes()) for path in _MODELS)]:
        calls = picklestep.calls(data, first=True)
        if calls.end.is_stopped and not calls.kept and 2 < len(data) <= _MOST_BYTES and _loads(data):
            found[name] = data
    return found


def _loads(data: bytes) -> bool:
    try:
        Loader(data).load()
        _Builder(data).load()
    except Exception:  # (some give a state to what takes none)
        return False
    return True


def fault_of(data: bytes) -> str:
    """What is wrong with the mended pickle of one that is cut off, or nothing."""
    answer = mended(data)
    wanted = shape(_Builder(data).built())
    try:
        made = shape(Loader(answer.content).load())
    except Exception as error:
        return f'{error!r} of {answer.content!r}'
    return '' if made == wanted else f'{answer.steps}: {made} and not {wanted}'


def cuts_with_faults(pickled: Tuple[str, bytes, int]) -> Tuple[int, List[str]]:
    """Cuts a pickle at each place that is a multiple of a number. Answers how many cuts there are, and a line for each that has a fault."""
    name, data, every = pickled
    cuts = range(0, len(data), every)
    found = ((cut, fault_of(data[:cut])) for cut in cuts)
    return len(cuts), [f'{name} cut at {cut}: {fault[:600]}' for cut, fault in found if fault]


def tried(pickles: Dict[str, bytes], every: int, processes: int) -> Tuple[int, List[str]]:
    """The same of several pickles, by so many processes."""
    counts, faults = 0, []
    with Pool(processes) as pool:
        for count, found in pool.imap_unordered(cuts_with_faults, [(name, data, every) for name, data in pickles.items()]):
            counts += count
            faults += found
    return counts, faults


def main() -> int:
    """Tries the cuts."""
    every, processes, *_ = [*map(int, sys.argv[1:]), *(1, 2)[len(sys.argv) - 1:]]
    pickles = whole_pickles()
    cuts, faults = tried(pickles, every, processes)
    print('\n'.join([*faults, f'{len(pickles)} pickles, {cuts} cuts, {len(faults)} faults']))
    return 1 if faults else 0


if __name__ == '__main__':
    sys.exit(main())
