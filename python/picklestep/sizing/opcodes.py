"""The opcodes of a pickle as sizes need them: `list --json` says where each begins, and all else is in the pickle's bytes."""

from __future__ import annotations

from array import array
from itertools import chain, compress, count, islice
from operator import itemgetter, sub
from typing import Any, Dict, Iterable, Iterator, List, Optional, Tuple

from .. import long_lines
from ..errors import ProgramError
from ..listed import Fields, end_of, fields_of, offsets_of
from ..opcode_lines import table_of
from ..opcodes import BY_CODE, BY_NAME, TABLE, OpcodeInfo, codes_of, of_rows
from ..optimizing import SPELLINGS
from ..records import End
from ..values import Unreadable, read_form

__all__ = ['DIFFER', 'GETS', 'Opcodes', 'PUTS', 'TEXTS', 'size_before', 'size_of_number']

_END = b'{"kind":"end"'
# Of a line of an opcode only so much is read. (The other lines have less.)
_MOST_LINE = 1 << 12
# A line of more bytes is not read for its number or its text.
_MOST_VALUE = 4000

PUTS, GETS = (frozenset(BY_NAME[name].code for name in names) for names in (of_rows('put', 'memoize'), of_rows('get')))
# The opcodes of texts and bytes, and what their objects are called: those of one kind may be equal.
TEXTS: Dict[int, str] = {opcode.code: opcode.kind for opcode in TABLE if opcode.kind in ('text', 'bytes', 'bytearray', 'string', 'text-line', 'string-line')}
# How many bytes stand before a text, by the form of its opcode.
_BEFORE = {'bytes1': 2, 'bytes4': 5, 'bytes4_signed': 5, 'bytes8': 9}
# Forms of arguments whose sizes differ.
_LINES = 'line', 'lines', 'quoted', 'decimal'
DIFFER = frozenset(opcode.code for opcode in TABLE if opcode.form in _BEFORE or opcode.form in _LINES)
_NOT_ALIKE = 'the program gave answers that do not belong together'


def size_before(info: OpcodeInfo) -> int:
    """How many bytes stand before a text in an opcode: its code, and the length."""
    return _BEFORE.get(info.form, 1)


_BEFORE_TEXT = bytes(size_before(BY_CODE[code]) if code in BY_CODE else 0 for code in range(256))


class _Line:
    """A line as it comes. Its beginning is kept alone."""

    def __init__(self) -> None:
        self._begun = b''

    def feed(self, part: bytes) -> None:
        """Goes on with the line."""
        if len(self._begun) < _MOST_LINE:
            self._begun += part[:_MOST_LINE]

    def take(self) -> bytes:
        """The line, with its newline. Another one begins."""
        line, self._begun = self._begun, b''
        return line + b'\n'


class Opcodes:
    """The opcodes that were read, by their places: their `codes`, `offsets` and `sizes`. One that was refused is none of them. `proto` is what PROTO says
    in the beginning."""

    def __init__(self, blocks: Iterable[bytes], many: bool, content: bytes) -> None:
        """Takes what the program lists of these bytes: of one pickle, or of `many`. Raises ProgramError where the listing is not whole, or not of them."""
        self.content = content
        self._codes, self.offsets, self.sizes = bytearray(), array('I'), array('I')
        self._end: Fields = {}
        for lines in long_lines.shortened(blocks, _Line(), _MOST_LINE):
            at = lines.rfind(b'\n', 0, -1) + 1
            if lines.startswith(_END, at):
                self._end = fields_of(lines[at:])
            try:
                self._take(offsets_of(lines, many))
            except (IndexError, OverflowError):
                raise ProgramError(_NOT_ALIKE) from None
        if not self._end:
            raise ProgramError('the program gave no whole answer')
        self._finish(len(content))

    def _take(self, offsets: List[int]) -> None:
        """Takes opcodes. The size of the last one is not known yet."""
        if offsets:
            # (These are the fastest ways for many.)
            self._codes += bytes(itemgetter(0, *offsets)(self.content)[1:])
            self.sizes += array('I', [*map(sub, offsets if self.offsets else offsets[1:], chain(self.offsets[-1:], offsets))])
            self.offsets += array('I', offsets)

    def _finish(self, size: int) -> None:
        """Settles where the last opcode ends."""
        how = self._end['how']
        refused: Tuple[Optional[int], Optional[int]] = (self.offsets[-1], len(self.offsets) - 1) if how == 'refused' else (None, None)
        self.end: End = end_of(self._end, refused)
        self.protocol: Optional[int] = self._end.get('protocol')
        # (What was not read begins where the reading ended.)
        self.read = size - int(self._end.get('kept', 0)) if how == 'stopped' else int(self.end.offset or 0)
        self.unread = size - self.read
        if how == 'refused':
            del self._codes[-1:], self.offsets[-1:]
        elif self.offsets:
            self.sizes.append(max(0, self.read - self.offsets[-1]))
        self.codes = bytes(self._codes)
        del self._codes
        self.kinds = frozenset(self.codes)
        if self.unread < 0 or sum(self.sizes) != self.read or not self.kinds <= BY_CODE.keys():
            raise ProgramError(_NOT_ALIKE)
        self.proto: Optional[int] = self.content[1] if self.codes.startswith(_PROTO) else None
        self.stops = self.places(_STOPS)

    def __len__(self) -> int:
        return len(self.codes)

    def places(self, chosen: bytes) -> 'array[int]':
        """The places of some opcodes, by a table of codes."""
        selected = self.codes.translate(chosen)
        first = selected.find(1)
        return array('I', compress(count(first), islice(selected, first, None)) if first >= 0 else ())

    def argument(self, place: int, most: Optional[int] = None) -> bytes:
        """The argument of an opcode without what says its length, and without its newline; of a long one the first bytes."""
        info, begin = BY_CODE[self.codes[place]], self.offsets[place]
        end = begin + self.sizes[place] - (info.form in _LINES)
        begin += size_before(info)
        return self.content[begin:end if most is None else min(begin + most, end)]

    # --- What arguments say ---

    def keys(self, chosen: bytes) -> List[int]:
        """The keys of the memo that some opcodes name, by a table of codes. (MEMOIZE names none.)"""
        content, offsets, codes = self.content, self.offsets, self.codes
        places = self.places(chosen)
        if all(code in _SHORT_KEYS for code in self.kinds if chosen[code]):
            return [content[offsets[place] + 1] for place in places]
        return [int.from_bytes(self.argument(place), 'little') if codes[place] in _BINARY_KEYS else int(self.argument(place).lstrip(b'0') or 0)
                for place in places]

    def again(self) -> Dict[int, int]:
        """Of the texts and bytes that are written more than once: where each is first, and how often it is written."""
        content, offsets, sizes, codes = self.content, self.offsets, self.sizes, self.codes
        firsts: Dict[str, Dict[int, int]] = {kind: {} for kind in TEXTS.values()}
        first_of = {code: firsts[kind].setdefault for code, kind in TEXTS.items()}
        found: Dict[int, int] = {}
        for place in self.places(_IS_TEXT):
            code, begin = codes[place], offsets[place]
            # (A text of which nothing but its hash is kept costs little.)
            first = first_of[code](hash(content[begin + _BEFORE_TEXT[code]:begin + sizes[place]]), place)
            if first != place:
                found[first] = found.get(first, 1) + 1
        return found

    def shorter_numbers(self) -> Iterator[Tuple[int, int]]:
        """The places of numbers of fixed size that have a shorter spelling, and how many bytes they have in the shortest."""
        content = self.content
        for place in self.places(_NUMBERS):
            end = self.offsets[place] + self.sizes[place]
            if not content[end - 1]:  # (otherwise it needs all its bytes)
                size = size_of_number(int.from_bytes(content[self.offsets[place] + 1:end], 'little'))
                if size < self.sizes[place]:
                    yield place, size

    def values_of_lines(self) -> Iterator[Tuple[int, int]]:
        """The places of numbers and texts in lines, and how many bytes they have in the shortest spelling of protocol 2."""
        known: Dict[Tuple[int, bytes], Optional[int]] = {}
        for place in self.places(_VALUES):
            if self.sizes[place] <= _MOST_VALUE:
                said = self.codes[place], self.argument(place)
                if said not in known:
                    if len(known) >= _MOST_VALUE:
                        known.clear()
                    known[said] = _size_of_line(*said)
                size = known[said]
                if size is not None:
                    yield place, size


_PROTO, = codes_of(['PROTO'])
_STOPS, _IS_TEXT, _NUMBERS = table_of([BY_NAME['STOP'].code]), table_of(TEXTS), table_of(BY_NAME[name].code for name in SPELLINGS[0][1:])
_VALUES = table_of(BY_NAME[name].code for name in ('INT', 'LONG', 'FLOAT', 'UNICODE'))
_SHORT_KEYS, _BINARY_KEYS = (frozenset(opcode.code for opcode in TABLE if opcode.code in PUTS | GETS and opcode.form in forms)
                             for forms in (('uint1',), ('uint1', 'uint4')))


def _size_of_line(code: int, line: bytes) -> Optional[int]:
    """How many bytes a number or a text in a line has in its shortest spelling. None where that is not known."""
    try:
        value: Any = read_form(BY_CODE[code].name, line)
    except Unreadable:
        return None
    if isinstance(value, bool):
        return 1
    if isinstance(value, int):
        return size_of_number(value)
    if isinstance(value, float):
        return 9
    return 5 + len(value.encode('utf-8', 'surrogatepass')) if isinstance(value, str) else None


def size_of_number(value: int) -> int:
    """How many bytes the shortest opcode of a whole number has, from protocol 2 on.

    >>> list(map(size_of_number, (255, 256, -1, 1 << 40)))
    [2, 3, 5, 8]
    """
    if -1 << 31 <= value < 1 << 31:
        return 2 if 0 <= value < 1 << 8 else 3 if 0 <= value < 1 << 16 else 5
    size = (value if value >= 0 else ~value).bit_length() // 8 + 1
    return size + (2 if size < 1 << 8 else 5)
