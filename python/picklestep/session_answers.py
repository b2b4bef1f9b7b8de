"""Answers of a session: sequences over the opcodes and the objects in its lines of JSON."""

from __future__ import annotations

import abc
from typing import Any, Callable, ClassVar, Iterator, List, NamedTuple, Optional, Set

from . import conversation, made
from .answers import Answer, Line
from .listed import Fields
from .listing_records import Object
from .session_records import Item, Shown

__all__ = ['Heap', 'Items', 'ShownObjects']

_BLOCK = 1 << 16
# So many objects are asked for one by one; more of them all at once.
_MOST_ASKED = 1000


class _OfLine(Answer[Line]):
    """An answer that is read of one line of JSON, which has all elements."""

    # How the elements begin.
    _begins: ClassVar[bytes]

    def __init__(self, json: bytes) -> None:
        self.json = json

    @staticmethod
    @abc.abstractmethod
    def _record(fields: Fields) -> Any:
        """The record of an element."""

    @property
    def text(self) -> str:  # type: ignore[override]
        """What `debug` prints without `--json`. It is made of the line of JSON each time it is asked for.

        >>> import picklestep
        >>> with picklestep.Session(b'N.') as session:
        ...     session.items().text
        '>     0     0: NONE\\n      1     1: STOP\\n'
        """
        return conversation.text_of(self.json)

    def _find(self) -> Iterator[int]:
        return conversation.starts_of(self.json, self._begins)

    def _at(self, start: int) -> Line:
        record: Line = self._record(conversation.element_at(self.json, start, self._begins))
        return record

    def __iter__(self) -> Iterator[Line]:
        blocks = (self.json[at:at + _BLOCK] for at in range(0, len(self.json), _BLOCK))
        return map(self._record, conversation.elements_in(blocks, self._begins))


class Heap(_OfLine[Object]):
    """Objects of a session, in the order in which they were made.

    >>> import picklestep
    >>> with picklestep.Session(b'N.') as session:
    ...     session.step(), session.objects()[0].kind
    (1, 'none')
    """

    _begins = made.OBJECT
    _what = 'objects'

    @staticmethod
    def _record(fields: Fields) -> Object:
        return made.object_of(fields)

    def _json_of(self, number: int) -> bytes:
        """An object in JSON."""
        end = self._starts[number + 1] - 1 if number + 1 < len(self) else len(self.json)
        return self.json[self._starts[number]:end]


class Items(_OfLine[Item]):
    """The opcodes of a session, with their places.

    >>> import picklestep
    >>> with picklestep.Session(b'N.') as session:
    ...     [item.name for item in session.items()]
    ['NONE', 'STOP']
    """

    _begins = conversation.ITEM
    _what = 'items'

    @staticmethod
    def _record(fields: Fields) -> Item:
        return conversation.item_of(fields)


class _Line(NamedTuple):
    """An object, how deep it lies, and its line of JSON where it comes for the first time."""

    depth: int
    number: int
    json: Optional[bytes]


class ShownObjects(Answer[Shown]):
    r"""An object and all that it holds, each with its depth.

    >>> import picklestep
    >>> with picklestep.Session(b'N\x85.') as session:
    ...     session.run().place, [shown.number for shown in session.show(1)]
    (3, [1, 0])
    """

    _what = 'lines'

    def __init__(self, number: int, ask: Callable[[bytes], bytes]) -> None:
        """Asks for an object, and for those that it holds."""
        self._lines: List[_Line] = []
        line_of = _lines_by(ask)
        seen: Set[int] = set()
        waiting = [(0, number)]
        while waiting:
            depth, number = waiting.pop()
            if number in seen:
                self._lines.append(_Line(depth, number, None))
                continue
            seen.add(number)
            line = line_of(number)
            self._lines.append(_Line(depth, number, line))
            waiting.extend((depth + 1, each) for each in reversed(_held(conversation.read(line))))

    @property
    def text(self) -> str:  # type: ignore[override]
        """What `debug` prints without `--json`. It is made of the lines of JSON each time it is asked for.

        >>> import picklestep
        >>> with picklestep.Session(b'N.') as session:
        ...     session.step(), session.show(0).text
        (1, '0 #0 none\\n')
        """
        fields = ((each, None if each.json is None else conversation.read(each.json)) for each in self._lines)
        return ''.join(f'{conversation.shown_text(each.depth, each.number, read)}\n' for each, read in fields)

    def _find(self) -> Iterator[int]:
        return iter(range(len(self._lines)))

    def _at(self, start: int) -> Shown:
        depth, number, line = self._lines[start]
        return Shown(depth, number, None if line is None else made.object_of(conversation.read(line)))


def _held(fields: Fields) -> List[int]:
    """The numbers of the objects that one holds."""
    changes = [change[name] for change in fields.get('changes', ()) for name in ('key', 'value') if name in change]
    return [*fields.get('parts', ()), *changes]


def _lines_by(ask: Callable[[bytes], bytes]) -> Callable[[int], bytes]:
    """What asks for the line of an object, where many may be asked for."""
    count = 0
    heap: Optional[Heap] = None

    def line_of(number: int) -> bytes:
        nonlocal count, heap
        count += 1
        if count <= _MOST_ASKED:
            return ask(b'show %d' % number)
        if heap is None:
            heap = Heap(ask(b'objects'))
        return heap._json_of(number)

    return line_of
