"""The lines of many objects, kept as lines of JSON: what each is and holds, and which hold an object. docs/reference/json.md has their fields.

Most lines are never read. They are looked at where they stand: no text in them has a quote that is not escaped. `made` reads a line whole.
"""

from __future__ import annotations

import json
from heapq import merge
from typing import Callable, Dict, Iterable, Iterator, List, NamedTuple, Tuple

from . import made
from .held import short_lines
from .lines import CUT, Lines, cut_text, silent
from .listed import Fields, fields_of

__all__ = ['HeldObject', 'ObjectLines', 'ObjectsAsked', 'read_objects']

_IS, _PARTS, _CHANGES = b',"is":"', b',"parts":[', b',"changes":['
_IMPORT = 'stack-global'
# Kinds that have a module and a name.
_NAMES = ('global', 'inst')
_NAMED, _READONLY = b',"is":"stack-global"', b',"is":"readonly"'
# What stands before the numbers of changes in JSON, and in the text of `objects`; and between these numbers, and between changes.
_SIGNS = ('{"kind":"append","value":', '+#'), ('{"kind":"add","value":', '&#'), ('{"kind":"state","value":', '!#'), ('{"kind":"set","key":', '[#')
_VALUE, _BETWEEN = (',"value":', ']=#'), ('},', ' ')
_CHANGE = b'{"kind":"'
# How a line holds an object that was put in, as a value or as a key; and what is around the number of a part.
_PUT = b'"value":%d}', b'"key":%d,'
_PART = b'[%d,', b'[%d]', b',%d,', b',%d]'
# So many bytes of changes are read at once.
_BLOCK = 1 << 14
# The JSON of an object has at most so many times the letters of its text, and so many more. So much is looked at to write a text that is cut.
_TIMES, _OF_HEAD = 7, 60
_LOOKED_AT = 2 * _TIMES * CUT + _OF_HEAD


class HeldObject(NamedTuple):
    """What an object holds: how it was put in ('' for what the object was made of), and the number."""

    how: str
    number: int


class _Spans(NamedTuple):
    """Where a line has its numbers of parts and its changes, without the brackets; and where it ends without both."""

    head: int
    parts: Tuple[int, int]
    changes: Tuple[int, int]


class ObjectLines(Lines):
    """The lines of objects by their numbers. Long arguments are cut.

    >>> lines = ObjectLines()
    >>> lines.add(b'{"kind":"object","object":0,"is":"list","changes":[{"kind":"append","value":1}]}\\n{"kind":"object","object":1,"is":"none"}\\n')
    >>> lines.shown(0), lines.kind(1), list(lines.held(0)), lines.held_count(0)
    ('list +#1', 'none', [HeldObject(how='append', number=1)], 1)
    """

    def __init__(self) -> None:
        super().__init__()
        self._counts: Dict[int, Dict[str, int]] = {}  # how many changes of each kind there are, by where the changes begin

    # --- One object ---

    def kind(self, number: int) -> str:
        """The kind of an object."""
        begin = self.text.index(_IS, self.start(number)) + len(_IS)
        return self.text[begin:self.text.index(b'"', begin)].decode('ascii')

    def fields(self, number: int) -> Fields:
        """The fields of an object."""
        return _fields(self.raw(number).encode('ascii'))

    def is_long(self, number: int, most: int) -> bool:
        """Whether the text of an object has more letters than these."""
        start, end = self.span(number)
        return end - start > _TIMES * most + _OF_HEAD or len(made.line_of(self.fields(number))) > most

    def shown(self, number: int) -> str:
        """The text of an object without its number, cut where it is long."""
        start, end = self.span(number)
        if end - start <= CUT:
            text = made.line_of(self.fields(number))
        else:
            head, parts, changes = self._spans(start, end)
            text = _head_text(bytes(self.text[start:head]) + b'}')
            size = len(text)
            if parts[0] < parts[1]:
                size += parts[1] - parts[0] + self._part_count(*parts) + len(' ()')
                text += f' (#{self._beginning(*parts).replace(",", " #")})'
            if changes[0] < changes[1]:
                size += self._changes_size(*changes)
                text += f' {_changes_text(self._beginning(*changes))}'
            text = text if size <= 2 * CUT else f'{text[:CUT]} .. {size - CUT} bytes more'
        return text.partition(' ')[2]

    def _spans(self, start: int, end: int) -> _Spans:
        parts, changes = self.text.find(_PARTS, start, end), self.text.find(_CHANGES, start, end)
        head = min((at for at in (parts, changes) if at >= 0), default=end - 1)
        return _Spans(head, (parts + len(_PARTS), self.text.index(b']', parts)) if parts >= 0 else (head, head),
                      (changes + len(_CHANGES), end - len(b']}')) if changes >= 0 else (head, head))

    def _part_count(self, begin: int, end: int) -> int:
        return self.text.count(b',', begin, end) + 1 if begin < end else 0

    def _beginning(self, begin: int, end: int) -> str:
        return self.text[begin:min(end, begin + _LOOKED_AT)].decode('ascii')

    def _changes_size(self, begin: int, end: int) -> int:
        """How many letters the text of changes has."""
        counts = self._counted(begin, end)
        shorter = sum(counts.get(_kind_in(sign), 0) * (len(sign) - len(short)) for sign, short in _SIGNS)
        return end - begin - shorter - counts.get('set', 0) * (len(_VALUE[0]) - len(_VALUE[1])) - (sum(counts.values()) - 1)

    def _counted(self, begin: int, end: int) -> Dict[str, int]:
        """How many changes of each kind are in a line, of those of which there are some. (There may be millions, and it is asked at each step.)"""
        if begin not in self._counts:
            left, counts = self.text.count(_CHANGE, begin, end), {}
            for sign, _ in _SIGNS:
                count = self.text.count(sign.encode('ascii'), begin, end) if left else 0
                left -= count
                counts.update({_kind_in(sign): count} if count else {})
            self._counts[begin] = counts
        return self._counts[begin]

    # --- What objects hold ---

    def held(self, number: int) -> Iterator[HeldObject]:
        """What an object holds, in its order. Of what was put under a key the key comes first."""
        _, parts, (begin, end) = self._spans(*self.span(number))
        yield from (HeldObject('', int(part)) for part in bytes(self.text[slice(*parts)]).split(b',') if part)
        while begin < end:
            stop = self.text.find(b'},', min(begin + _BLOCK, end), end) + 1 or end
            for change in json.loads(b'[%b]' % self.text[begin:stop]):
                if 'key' in change:
                    yield HeldObject('key', change['key'])
                yield HeldObject('value' if 'key' in change else change['kind'], change['value'])
            begin = stop + 1

    def held_count(self, number: int, apart: bool = False) -> int:
        """How many there are, where a key counts as one with its value; with `apart` it does not."""
        _, parts, changes = self._spans(*self.span(number))
        counts = self._counted(*changes)
        of_parts, of_changes = self._part_count(*parts), sum(counts.values())
        if apart:
            return of_parts + of_changes + counts.get('set', 0)
        return of_changes + (of_parts // 2 if self.kind(number) == 'dict' else of_parts)

    def change_counts(self, number: int) -> Dict[str, int]:
        """How many changes an object has of each kind of which there are some."""
        return self._counted(*self._spans(*self.span(number)).changes)

    def is_data(self, number: int) -> bool:
        """Whether objects hold an object, and not only imports as their names."""
        is_put = any(next(places, -1) >= 0 for places in self._put_at(number))
        return is_put or any(self.kind(self.number_at(at)) != _IMPORT for at in self._parts_at(number))

    def named_by_texts(self) -> Iterator[Tuple[int, int, int]]:
        """The imports by two texts: the number of each, and those of its module and its name."""
        for at in self._found(_NAMED):
            begin = at + len(_NAMED) + len(_PARTS)
            module, name = self.text[begin:self.text.index(b']', begin)].split(b',')
            yield self.number_at(at), int(module), int(name)

    def readonly_count(self) -> int:
        """How many of the objects are views that can only be read."""
        return self.text.count(_READONLY)

    def _put_at(self, number: int) -> List[Iterator[int]]:
        """Where lines name an object that was put into another."""
        return [self._found(form % number) for form in _PUT]

    def _parts_at(self, number: int) -> Iterator[int]:
        """Where lines name an object of which another was made."""
        return filter(self._is_in_parts, merge(*[self._found(form % number) for form in _PART]))

    def _is_in_parts(self, at: int) -> bool:
        """Whether what is at a place is no text of the line."""
        found = self.text.find(_PARTS, self.text.rfind(b'\n', 0, at) + 1, at + 1 + len(b'['))
        return found >= 0 and found + len(_PARTS) <= at + 1

    def _found(self, data: bytes) -> Iterator[int]:
        at = self.text.find(data)
        while at >= 0:
            yield at
            at = self.text.find(data, at + 1)


class ObjectsAsked(ObjectLines):
    """The objects where a session is, each of which is asked for when it is looked at first."""

    def __init__(self, ask: Callable[[bytes], bytes], count: int) -> None:
        super().__init__()
        self._ask, self._count = ask, count
        self._starts: Dict[int, int] = {}

    def start(self, at: int) -> int:
        """Where the line of an object begins in the text."""
        if at not in self._starts:
            self._starts[at] = len(self.text)
            self.text += b''.join(short_lines([self._ask(b'show %d' % at)]))
        return self._starts[at]


def _kind_in(sign: str) -> str:
    """The kind of the changes that begin so."""
    return sign.split('"')[3]


def _fields(line: bytes) -> Fields:
    fields = fields_of(line)
    if 'more' in fields and fields['is'] in _NAMES and 'name_hex' not in fields:
        fields.setdefault('name', '')  # (the module is so long that there is no more)
    return fields


def _head_text(line: bytes) -> str:
    """The text of an object by its line without parts and changes, whose argument may have been cut."""
    fields = _fields(line)
    return cut_text(made.line_of(fields), CUT, fields.get('more', 1) - 1)  # (its quote is left out too)


def _changes_text(changes: str) -> str:
    """The text of changes. (A line may have millions.)"""
    for sign, short in (*_SIGNS, _VALUE, _BETWEEN):
        changes = changes.replace(sign, short)
    return changes.rstrip('}')


def read_objects(blocks: Iterable[bytes], progress: Callable[[str], None] = silent) -> ObjectLines:
    """The objects of an answer of `objects --json` that comes in blocks."""
    objects = ObjectLines()

    def counted() -> Iterator[bytes]:
        for block in blocks:
            objects.whole += len(block)
            yield block

    for lines in short_lines(counted()):
        last = lines.rfind(made.OBJECT)
        if last >= 0:  # (results and the end stand behind the objects)
            objects.add(lines[:lines.index(b'\n', last) + 1])
        progress(f'objects: {len(objects):,} lines')
    return objects
