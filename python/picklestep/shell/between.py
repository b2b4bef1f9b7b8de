"""The pickle right after edits, before it is read anew: what can be said of it from what was read before them, and nothing else.

It is said of edits that put, replace or take away opcodes which push one plain value each. These leave what is before them as it is. Behind them
no mark is set or taken otherwise and nothing else is stored, where no POP comes: lines have other offsets, and objects other numbers. Whether an
opcode is refused only the session knows, so what is shown of those behind an edit it has to have stepped over. Where objects are shown as they are
at the end, plain ones stay, and those that nothing behind the edits can change. All else is unknown, and waits.
"""

from __future__ import annotations

import sys
from bisect import bisect_left, insort
from typing import Any, Dict, List, NamedTuple, Optional, Protocol, Sequence, Tuple, Union

from ..arguments import ArgumentValue, encoded
from ..document import MOST_EXACT, MOST_TEXT, Done, Reaches
from ..lines import CODE_BY_NAME, Makers
from ..listed import Fields, Line, fields_of
from ..object_lines import ObjectLines, read_objects
from ..opcode_lines import OpcodeLines, Shown, Window
from ..opcodes import BY_CODE, TABLE
from ..records import Ref
from ..searching import with_key
from ..session import SHIFTS
from ..session_records import Mark
from ..tasks import listing, objects
from ..values import PLAIN_KINDS

__all__ = ['MOST_EDITS', 'Between', 'Objects', 'Put', 'Unknown', 'is_known_edit', 'opcode_put']

# So many edits are looked at.
MOST_EDITS = 100
_LONGEST = 400
_VALUES = frozenset(
    'NONE NEWTRUE NEWFALSE INT BININT BININT1 BININT2 LONG LONG1 LONG4 FLOAT BINFLOAT STRING BINSTRING SHORT_BINSTRING UNICODE BINUNICODE '
    'SHORT_BINUNICODE BINUNICODE8 BINBYTES SHORT_BINBYTES BINBYTES8'.split())  # (a byte array may grow)
_STAY = PLAIN_KINDS - {'bytearray'}
_QUIET = _VALUES | frozenset(
    'PROTO FRAME MARK PUT BINPUT LONG_BINPUT MEMOIZE GET BINGET LONG_BINGET DUP POP_MARK EMPTY_TUPLE TUPLE TUPLE1 TUPLE2 TUPLE3 EMPTY_LIST LIST '
    'EMPTY_DICT DICT EMPTY_SET FROZENSET BYTEARRAY8 STOP'.split())  # (they reach out of nothing)
_FILLS = frozenset(('APPENDS', 'SETITEMS', 'ADDITEMS'))
_PUTS = {'insert': 1, 'replace': 1, 'delete': 0}
# What changes an object that is not right below a mark, or puts one on the stack that was below others; and what pushes an object and takes none.
_NEAR = [CODE_BY_NAME[name] for name in ('APPEND', 'SETITEM', 'BUILD', 'POP', 'DUP')]
_PUSHES = frozenset(each.code for each in TABLE if not each.takes and each.leaves not in ('', 'mark'))
_GETS = [CODE_BY_NAME[name] for name in ('GET', 'BINGET', 'LONG_BINGET')]
_POP, _READONLY = CODE_BY_NAME['POP'], CODE_BY_NAME['READONLY_BUFFER']


class Unknown(Exception):
    """It is not known before the pickle is read."""


class Put(NamedTuple):
    """What an edit puts: its opcode alone, and its object alone. Of what goes both are empty."""

    lines: OpcodeLines
    object: ObjectLines

    @classmethod
    def of(cls, word: str, name: str, values: Sequence[ArgumentValue], raw: Optional[bytes]) -> Put:
        """What an edit puts that pushes a plain value."""
        if word == 'delete':
            return cls(OpcodeLines(b'', lambda first, stop: ()), ObjectLines())
        lines = opcode_put(name, values, raw)
        return cls(lines, read_objects([objects(lines.content).json]))


def opcode_put(name: str, values: Sequence[ArgumentValue], raw: Optional[bytes]) -> OpcodeLines:
    """The opcode that an edit puts, by the values of its argument or its bytes, as if it were a pickle."""
    data = bytes([CODE_BY_NAME[name]]) + (encoded(name, values) if raw is None else raw)
    json = listing(data).json
    return OpcodeLines(data, lambda first, stop: [fields_of(json[:json.index(b'\n')])]).read([json])


def is_known_edit(code: int, edit: str, name: str) -> bool:
    """Whether an edit is one of those of which something is known: where it puts an opcode of a name, where there is one of a code."""
    return edit in _PUTS and (edit == 'delete' or name in _VALUES) and (edit == 'insert' or code in _VALUE_CODES)


_VALUE_CODES = frozenset(CODE_BY_NAME[name] for name in _VALUES)


class Stepped(Protocol):
    """The session, as far as it is asked. It raises Unknown where that would take long, or an opcode is refused."""

    def items(self, first: int, stop: int) -> List[Fields]:
        """The fields of opcodes from a place on before another."""

    def reach(self, place: int) -> int:
        """Steps over the opcode at a place, and answers up to which place it has stepped."""

    def stack_at(self, place: int) -> Tuple[Union[Ref, Mark], ...]:
        """What is on the stack at a place, from the bottom."""

    def keys_at(self, place: int, number: int) -> List[int]:
        """The keys of the memo under which an object is stored at a place."""


class Between:
    """What is known after edits of a pickle that was read before them: its opcodes as a listing has them, and its objects."""

    def __init__(self, lines: OpcodeLines, final: ObjectLines, reaches: Reaches, edits: Sequence[Done], codes: bytes, session: Stepped) -> None:
        self._lines, self._final, self._reaches, self._session = lines, final, reaches, session
        self._stack: Optional[Tuple[Union[Ref, Mark], ...]] = None
        self._put, self._gone = _put_and_gone(len(lines), edits)
        self._places = sorted(self._put)
        self._first = min([*self._places, *self._gone, len(codes)])
        self._window = Window(session.items)
        self.makers = Makers(codes)
        self.makers.finish(final.readonly_count, lambda place, number: False)
        self.codes = codes
        self._is_same = _are_same(lines, final, edits)
        self._made = lines.makers.before(self._first)
        self._stays: Dict[int, bool] = {}
        self.calls = _Nothing()
        self.sure = 0

    def __len__(self) -> int:
        return len(self.codes)

    def __getattr__(self, name: str) -> Any:
        raise Unknown(name)

    @staticmethod
    def is_known_after(lines: OpcodeLines, listed: int, reaches: Reaches, edits: Sequence[Done], codes: bytes) -> bool:
        """Whether something is known after these edits."""
        return (listed == len(lines) and not lines.is_refused and not reaches.is_part
                and len(edits) <= MOST_EDITS and _READONLY not in codes
                and codes.find(_POP, min(edit.place for edit in edits)) < 0)

    # --- Opcodes ---

    def _old(self, place: int) -> int:
        """Where an opcode was that stands at a place; of one that was put there, where the next one was that was there before. Raises Unknown where there is
        none."""
        if not 0 <= place < len(self.codes):
            raise Unknown
        old = _behind(self._gone, place - bisect_left(self._places, place))
        if old >= len(self._lines):
            raise Unknown
        return old

    def _put_at(self, place: int) -> Optional[OpcodeLines]:
        """The opcode that was put at a place, if one was."""
        put = self._put.get(place)
        return None if put is None else put.lines

    def offset(self, place: int) -> int:
        """The offset of an opcode."""
        old = self._old(place)
        more = sum(len(self._put[at].lines.content) for at in self._places[:bisect_left(self._places, place)])
        return self._lines.offset(old) + more - sum(self._lines.end(at) - self._lines.offset(at) for at in self._gone[:bisect_left(self._gone, old)])

    def at(self, place: int) -> Line:
        """The line of an opcode."""
        if place >= max(self.sure, self._first):
            self.sure = self._session.reach(place)
        old, offset = self._old(place), self.offset(place)
        mark, key = (None, None) if place in self._put else self._lines.note(old)
        return self.shown(place).line(offset, self._lines.marks(old), None if mark is None else self._moved(mark), key)

    def whole(self, place: int) -> Optional[Fields]:
        """The fields of an opcode, where its line has all of its argument."""
        return self.shown(place).whole(self.at(place))

    def name(self, place: int) -> str:
        """The name of an opcode."""
        return BY_CODE[self.codes[place]].name

    def marks(self, place: int) -> int:
        """How many marks are open before an opcode."""
        return self.at(place).marks

    def shown(self, place: int) -> Shown:
        """What is shown of an opcode."""
        if self._is_long(place):
            put = self._put_at(place)
            return self._lines.shown(self._old(place)) if put is None else put.shown(0)
        return Shown.of(self._window.at(place, self._is_long, len(self.codes)))

    def _is_long(self, place: int) -> bool:
        put = self._put_at(place)
        return self._lines.is_long(self._old(place)) if put is None else put.is_long(0)

    def _moved(self, offset: int) -> int:
        """The offset of an opcode that was at one."""
        old = self._lines.place_of(offset)
        if old in self._gone:
            raise Unknown
        return self.offset(_behind(self._places, old - bisect_left(self._gone, old)))

    def calls_at(self, place: int, line: Line) -> List[str]:
        """What `calls` says of an opcode."""
        if place in self._put:
            return []
        found = self._reaches.texts_at(self._lines.offset(self._old(place)))
        if place < self._first or line.name in _QUIET and not found or self._is_same and line.name in _FILLS:
            return found
        if line.name in _FILLS and not found and line.mark is not None and line.mark < self._lines.offset(self._first):
            return found
        raise Unknown

    # --- Objects ---

    def has_made(self, number: int) -> bool:
        """Whether an object is among those that the session has made."""
        return number < self.makers.before(self.sure)

    def object_at(self, number: int) -> Tuple[ObjectLines, int]:
        """Where an object is as it is at the end, of one that was made before the cursor: these lines have it by this number."""
        old = number
        if not self.has_made(number):
            raise Unknown
        if number >= self._made:
            place = self.makers.place(number)
            if place in self._put:
                return _short(self._put[place].object, 0)
            old = self._lines.makers.before(self._old(place))
        if old >= len(self._final):
            raise Unknown
        kind = self._final.kind(old)
        is_known = self._is_same or kind in _STAY or kind == 'tuple' and number < self._made
        if not is_known and not (number < self._made and self._is_left(number)):
            raise Unknown
        return (self._final, old) if number == old else _short(self._final, old)

    def _is_left(self, number: int) -> bool:
        """Whether an object that was made before the edits is surely not changed behind them, as it surely was not before there were any.

        What is not right below a mark nothing changes where only what is above a mark is put into other objects. It stays so while another object
        is right above it, and once it is taken, if nothing gets it from the memo.
        """
        if number not in self._stays:
            is_near = any(self.codes.find(code, self._first) >= 0 for code in _NEAR)
            self._stays[number] = not is_near and self._is_covered(Ref(number)) and not self._is_got(number)
        return self._stays[number]

    def _is_covered(self, made: Ref) -> bool:
        """Whether another object is right above an object, wherever it is on the stack before the edits, or comes there by the next opcode."""
        if self._stack is None:
            self._stack = self._session.stack_at(self._first)
        above = [self._stack[at + 1] if at + 1 < len(self._stack) else None for at, entry in enumerate(self._stack) if entry == made]
        is_pushed = self._first < len(self.codes) and {self.codes[self._first], self._lines.codes[self._first]} <= _PUSHES
        return all(is_pushed if entry is None else isinstance(entry, Ref) for entry in above)

    def _is_got(self, number: int) -> bool:
        """Whether an object may be got from the memo behind the edits. (It is stored there only where it is on the top, which it was not at first.)"""
        return any(self._lines.codes[place] in _GETS for key in self._session.keys_at(self._first, number)
                   for place in with_key(self._lines, key, self._first, 1))

    def is_exact(self, made: int) -> bool:
        """Whether the objects are shown as they are at the cursor: where there are few, and their texts are short."""
        if made <= MOST_EXACT and self._final.whole >= MOST_TEXT // 2:
            raise Unknown
        return made <= MOST_EXACT


class _Nothing:
    """Nothing is known of it."""

    def __getattr__(self, name: str) -> Any:
        raise Unknown(name)


class Objects:
    """The objects that are known, as they are at the end."""

    whole = 0

    def __init__(self, between: Between) -> None:
        self._between = between

    def __len__(self) -> int:
        return sys.maxsize

    def __getattr__(self, name: str) -> Any:
        raise Unknown(name)

    def kind(self, number: int) -> str:
        """The kind of an object."""
        lines, at = self._between.object_at(number)
        return lines.kind(at)

    def fields(self, number: int) -> Fields:
        """The fields of an object."""
        lines, at = self._between.object_at(number)
        return {**lines.fields(at), 'object': number}

    def is_long(self, number: int, most: int) -> bool:
        """Whether the text of an object has more letters than these."""
        lines, at = self._between.object_at(number)
        return lines.is_long(at, most)

    def shown(self, number: int) -> str:
        """The text of an object without its number."""
        lines, at = self._between.object_at(number)
        return lines.shown(at)


def _put_and_gone(count: int, edits: Sequence[Done]) -> Tuple[Dict[int, Put], List[int]]:
    """The opcodes that edits put among so many, by their places after all edits; and the places before all edits of those that went. Raises Unknown where an
    opcode was put behind the last one."""
    put: Dict[int, Put] = {}
    gone: List[int] = []
    for edit in edits:
        if edit.place >= count:
            raise Unknown
        if edit.what != 'insert' and put.pop(edit.place, None) is None:
            insort(gone, _behind(gone, edit.place - sum(at < edit.place for at in put)))
        shift = SHIFTS[edit.what]
        put = {at + shift if at >= edit.place else at: each for at, each in put.items()}
        if edit.what != 'delete':
            put[edit.place] = edit.put
        count += shift
    return put, gone


def _behind(places: Sequence[int], number: int) -> int:
    """The place of one of those that are at none of some places, by its number among these."""
    for place in places:
        number += place <= number
    return number


def _are_same(lines: OpcodeLines, final: ObjectLines, edits: Sequence[Done]) -> bool:
    """Whether each edit replaces a value by one of the same kind: the machine goes on as before."""
    for edit in edits:
        if edit.what != 'replace':
            return False
        number = lines.makers.before(edit.place)
        if number >= len(final) or final.kind(number) != edit.put.object.kind(0):
            return False
    return True


def _short(lines: ObjectLines, at: int) -> Tuple[ObjectLines, int]:
    """An object that has another number. Where a text in it may have been cut elsewhere it is unknown."""
    if lines.is_long(at, _LONGEST):
        raise Unknown
    return lines, at
