"""Where the bytes of a pickle go, by the answers of `list` and `objects`. Nothing of it is run."""

from __future__ import annotations

import os
import select
import time
from array import array
from heapq import nlargest
from itertools import compress
from typing import Dict, Iterable, Iterator, Optional, Sequence, Tuple

from ..addresses import opened_in
from ..collector import without_collector
from ..errors import ProgramError, TimedOut
from ..lines import Makers
from ..opcode_lines import table_of
from ..opcodes import BY_CODE, BY_NAME, TABLE
from ..program import check_timeout
from ..sources import LIMIT, Source, content_of, is_fifo, rereadable, size_of
from ..tasks import Asked, modes
from .heap import Heap
from .memo import Memo, memo_of
from .opcodes import DIFFER, Opcodes
from .origins import Origins
from .records import Again, MemoSize, PathSize, Sized, Sizes
from .savings import NEWEST, OLDEST, savings

__all__ = ['MOST', 'Measured', 'OVERHEAD', 'measured', 'size', 'sizes_of']

_BLOCK = 1 << 20
# So many rows has each part of the answer.
MOST = 10
# What opcodes are for that make no object, by their names. (POP takes a mark too.)
OVERHEAD: Dict[str, Tuple[str, ...]] = {
    'memo': tuple(opcode.name for opcode in TABLE if opcode.name.endswith(('PUT', 'GET', 'MEMOIZE'))), 'marks': ('MARK',),
    'fill': ('APPEND', 'APPENDS', 'SETITEM', 'SETITEMS', 'ADDITEMS', 'BUILD'), 'frames': ('FRAME',), 'protocol': ('PROTO', 'STOP'),
    'stack': ('POP', 'POP_MARK', 'DUP'), 'views': ('READONLY_BUFFER',)}
_READONLY = BY_NAME['READONLY_BUFFER'].code
_PURPOSES = {name: what for what, names in OVERHEAD.items() for name in names}


class Measured:
    """A pickle that was measured: its opcodes with their sizes, its objects, and which opcode makes which object."""

    def __init__(self, opcodes: Opcodes, heap: Heap) -> None:
        self.opcodes, self.heap = opcodes, heap
        self.sizes = opcodes.sizes
        self.makers = Makers(opcodes.codes)
        # (A view has one byte, so it is the same which of several opcodes made it.)
        self.makers.finish(lambda: len(heap.views), lambda place, number: number in heap.views)
        self.own = array('I', self.makers.of_makers(self.sizes))
        if len(self.own) != heap.count:
            raise ProgramError('the program gave answers that do not belong together')
        heap.walk(Origins(opcodes, self.makers))
        self.totals = heap.totals(self.own)

    def place(self, number: int) -> PathSize:
        """An object at the first path that leads to it."""
        heap = self.heap
        return PathSize(heap.path(number), number, heap.kind(number), self.opcodes.offsets[self.makers.place(number)], self.own[number],
                        self.totals[number], heap.depth(number))

    def paths(self, most: int) -> Tuple[PathSize, ...]:
        """The largest objects with all that they hold, in the order of the tree."""
        return tuple(map(self.place, _largest(self.totals, self.heap.order, most)))

    def largest(self, most: int) -> Tuple[PathSize, ...]:
        """The largest objects by themselves."""
        found = _largest(self.own, range(len(self.own)), most)
        return tuple(map(self.place, sorted(found, key=lambda number: (-self.own[number], number))))

    def by_opcode(self) -> Tuple[Sized, ...]:
        """The opcodes by their names."""
        codes, found = self.opcodes.codes, []
        for code in self.opcodes.kinds:
            count = codes.count(code)
            size = sum(compress(self.sizes, codes.translate(table_of([code])))) if code in DIFFER else count * self.sizes[codes.index(code)]
            found.append(Sized(BY_CODE[code].name, count, size))
        return _by_size(found)

    def overhead(self, opcodes: Iterable[Sized]) -> Tuple[Sized, ...]:
        """The opcodes that make no object, by what they are for."""
        found: Dict[str, Sized] = {}
        for each in opcodes:
            what = _PURPOSES.get(each.what)
            less = len(self.heap.views) if what == 'views' else 0
            if what is not None and each.count > less:
                known = found.get(what, Sized(what, 0, 0))
                found[what] = Sized(what, known.count + each.count - less, known.size + each.size - less)
        return _by_size(found.values())

    def memo(self, memo: Memo, opcodes: Iterable[Sized]) -> MemoSize:
        """What the opcodes of the memo have."""
        whole = sum(each.size for each in opcodes if each.what in OVERHEAD['memo'])
        unused = sum(map(self.sizes.__getitem__, memo.unused()))
        return MemoSize(len(memo.stored), memo.taken, whole, memo.is_taken.count(0), unused)

    def again(self, most: int) -> Tuple[Again, ...]:
        """The texts that are written more than once."""
        sizes = self.sizes
        wanted = nlargest(most, self.opcodes.again().items(), key=lambda item: (item[1] - 1) * sizes[item[0]])
        return tuple(Again(self.heap.shown(self.makers.before(place)), self.opcodes.offsets[place], count, (count - 1) * sizes[place])
                     for place, count in wanted)


def _largest(column: Sequence[int], order: Iterable[int], most: int) -> Iterator[int]:
    """The numbers of the objects that have most, in an order; of those that have as much the first ones."""
    least = min(nlargest(most, column), default=0)
    found = [number for number in order if column[number] >= least]
    left = most - sum(column[number] > least for number in found)
    for number in found:
        is_least = column[number] == least
        if left or not is_least:
            yield number
            left -= is_least


def _by_size(found: Iterable[Sized]) -> Tuple[Sized, ...]:
    return tuple(sorted(found, key=lambda each: (-each.size, each.what)))


def _from_fifo(path: str, timeout: float) -> bytes:
    """What a FIFO gives. Raises TimedOut where its writer does not come, or does not end, in so many seconds."""
    end, found = time.monotonic() + timeout, bytearray()
    ready = select.poll()
    with open(os.open(path, os.O_RDONLY | os.O_NONBLOCK), 'rb', buffering=0) as file:
        ready.register(file, select.POLLIN)
        while ready.poll(1000 * max(0.0, end - time.monotonic())):
            block = file.read(_BLOCK)
            if not block or len(found) > LIMIT:
                return bytes(found)
            found += block
    raise TimedOut(f'no answer within {timeout} seconds')


@without_collector()
def measured(pickle: Source, many: bool = False, unframed: bool = False, timeout: Optional[float] = None, memory: Optional[int] = None) -> Measured:
    """A pickle, measured."""
    check_timeout(timeout)
    opened = opened_in(pickle)
    pickle = pickle if opened is None else opened.content
    pickle = rereadable(pickle) if timeout is None or not is_fifo(pickle) else _from_fifo(os.fsdecode(pickle), timeout)  # type: ignore[arg-type]
    # (The program refuses what is too large.)
    content = pickle if isinstance(pickle, bytes) else content_of(pickle) if size_of(pickle) <= LIMIT else b''
    words = modes(many, unframed)
    with Asked(pickle, timeout, memory, is_opened=False) as asked, asked.begun(['objects', '--json', *words]) as objects:
        opcodes = Opcodes(asked.blocks(['list', '--json', *words]), many, content)
        heap = Heap(objects, many, _READONLY in opcodes.kinds)
    return Measured(opcodes, heap)


def size(pickle: Source, *, many: bool = False, unframed: bool = False, most: int = MOST, protocol: int = NEWEST, timeout: Optional[float] = None,
         memory: Optional[int] = None) -> Sizes:
    r"""Where the bytes of a pickle go: by opcode, by object and path, for the memo and other overhead; and what could be saved.

    `many` and `unframed` are as for `listing`. `paths`, `largest` and `again` of the answer have at most so many rows. An object that is shared
    counts once, at the first path that leads to it. `protocol` is one, from 2 to 5, of which `savings` says what it would save; ValueError is raised for
    another.

    >>> answer = size(b'}X\x01\x00\x00\x00a](K\x01K\x02es.')
    >>> for each in answer.paths:
    ...     print(each.size, each.path)
    12 result
    11 ['a']
    6 ['a'] (its key)
    2 ['a'][0]
    2 ['a'][1]
    """
    if protocol not in range(OLDEST, NEWEST + 1):
        raise ValueError(f'the protocol is one from {OLDEST} to {NEWEST}, and not {protocol!r}')
    found = measured(pickle, many, unframed, timeout, memory)
    return sizes_of(found, most, protocol)


@without_collector()
def sizes_of(found: Measured, most: int, protocol: int = NEWEST) -> Sizes:
    """The answer about what was measured."""
    opcodes, heap = found.opcodes, found.heap
    memo = memo_of(opcodes)
    by_opcode = found.by_opcode()
    elsewhere = sum(found.totals[root] for root in heap.roots if root not in heap.results)
    return Sizes(opcodes.read + opcodes.unread, opcodes.unread, len(opcodes), sum(found.own), heap.count, elsewhere, opcodes.protocol, by_opcode,
                 found.overhead(by_opcode), found.paths(most), found.largest(most), found.memo(memo, by_opcode), found.again(most),
                 tuple(savings(opcodes, heap, memo, protocol)), opcodes.end)
