"""The opcodes of a pickle by their places. `list --json` is read once into arrays, and what a line says besides is asked for when it is shown."""

from __future__ import annotations

from array import array
from bisect import bisect_left, bisect_right
from itertools import accumulate, compress, count, takewhile
from operator import itemgetter, sub
from typing import Callable, Dict, Iterable, Iterator, List, NamedTuple, Optional, Sequence, Tuple

from . import library, long_lines
from .conversation import read
from .errors import ProgramError
from .lines import CODE_BY_NAME, CUT, Makers, cut_text, silent
from .listed import Fields, Line, closing_of, escaped, fields_in, line_at, name_in, shown_argument
from .opcodes import BY_CODE, TABLE

__all__ = ['ARGUMENTS', 'Ask', 'OpcodeLines', 'Shown', 'Window', 'shortened', 'table_of']

# What is asked for the fields of opcodes from a place on before another, as `items` of a session has them.
Ask = Callable[[int, int], Sequence[Fields]]

# How many bytes stand before a text and behind it, by the form of an argument; and the same of the opcodes that have a text, by their codes.
_AROUND = {'bytes1': (2, 0), 'bytes4': (5, 0), 'bytes4_signed': (5, 0), 'bytes8': (9, 0), 'line': (1, 1), 'quoted': (1, 1), 'lines': (1, 1)}
ARGUMENTS: Dict[int, Tuple[int, int]] = {
    opcode.code: _AROUND[opcode.form] for opcode in TABLE if opcode.form in _AROUND and not opcode.argument.startswith('long')}
_LONG4 = CODE_BY_NAME['LONG4']

# An opcode of more bytes is not asked for: in JSON each of them may take six letters. With another, so many before it and behind it are asked for.
_MOST_SHORT = 1 << 12
_BEFORE, _BEHIND = 8, 24
# The letters of a line before an argument: the widths of the columns of an offset, of each mark and of a name, and the others.
_OFFSET, _MARK, _NAME, _OTHERS = 5, 4, 10, 8
_AS_THEY_ARE = bytes(code for code in range(0x20, 0x7f) if chr(code) not in "\\'")

_TAIL, _MARKS = b',"opcode":"', b',"marks":'
# How many bytes an opcode has, by its code; 0 where its argument says that.
_FIXED = {'none': 1, 'uint1': 2, 'uint2': 3, 'uint4': 5, 'int4': 5, 'uint8': 9, 'float8': 9}
_SIZES = bytearray(256)
for _opcode in TABLE:
    _SIZES[_opcode.code] = _FIXED.get(_opcode.form, 0)


def table_of(codes: Iterable[int]) -> bytes:
    """A table that makes 1 of some codes, and 0 of the others.

    >>> b'NN.'.translate(table_of(b'.'))
    b'\\x00\\x00\\x01'
    """
    chosen = set(codes)
    return bytes(code in chosen for code in range(256))


# Behind some opcodes other marks may be open: a STOP may be followed by another pickle.
_MOVES = table_of([*(opcode.code for opcode in TABLE if opcode.takes_mark), *map(CODE_BY_NAME.__getitem__, ('POP', 'MARK', 'STOP'))])
# The opcode whose line has the key under which it stores, how that stands there, and where its number of marks stands, behind the name.
_STORES, _KEY, _TO_MARKS = table_of([CODE_BY_NAME['MEMOIZE']]), b',"memo":', len('MEMOIZE","marks":')


_IS_NONE = table_of([0])


class _Codes(Dict[bytes, int]):
    """The codes of opcodes, by what their lines have from their names on."""

    def __missing__(self, begin: bytes) -> int:
        code = self[begin] = CODE_BY_NAME[name_in(begin.decode('ascii'))]
        return code


# So much of a line from the name on that it has all of that and the quote behind it.
_BEGIN = itemgetter(slice(max(map(len, CODE_BY_NAME)) + 1))


class Shown(NamedTuple):
    """What is shown of an opcode wherever it stands: its name and its argument. Of a long text the beginning is here alone, and how many letters were
    left out; then there are no `fields`."""

    name: str
    argument: str
    left_out: int
    fields: Optional[Fields]

    @classmethod
    def of(cls, fields: Fields) -> Shown:
        """The same of an opcode whose fields are whole."""
        return cls(fields['opcode'], shown_argument(fields), 0, fields)

    def line(self, offset: int, marks: int, mark: Optional[int] = None, key: Optional[int] = None) -> Line:
        """Its line at an offset behind so many marks, with the offset of the mark that it takes, or the key that it stores under. A long text is cut."""
        notes = {name: note for name, note in (('mark', mark), ('memo', key)) if note is not None}
        line = line_at({**(self.fields or {'opcode': self.name}), 'offset': offset, 'marks': marks, **notes})
        argument = line.argument if self.fields else f'{self.argument} {line.argument}'.rstrip()
        before = max(_OFFSET, len(str(offset))) + _MARK * marks + max(_NAME, len(self.name)) + _OTHERS
        return line._replace(argument=cut_text(argument, max(0, CUT - before), self.left_out))

    def whole(self, line: Line) -> Optional[Fields]:
        """Its fields, where its line has all of its argument."""
        return None if self.fields is None or not line.argument.startswith(self.argument) else {**self.fields, 'offset': line.offset, 'marks': line.marks}


class Window:
    """The fields of short opcodes, some of which are asked for at once and kept."""

    def __init__(self, ask: Ask) -> None:
        self._ask = ask
        self._first = 0
        self._fields: Sequence[Fields] = ()

    def at(self, place: int, is_long: Callable[[int], bool], end: int) -> Fields:
        """The fields of an opcode, of so many. `is_long` says of others whether they are too long to be asked for with it."""
        if not self._first <= place < self._first + len(self._fields):
            first, stop = place, place + 1
            while first > max(0, place - _BEFORE) and not is_long(first - 1):
                first -= 1
            while stop < min(end, place + _BEHIND) and not is_long(stop):
                stop += 1
            self._fields, self._first = self._ask(first, stop), first
        return self._fields[place - self._first]


class OpcodeLines:
    """The opcodes of a pickle: where each is, which it is, how many marks are open before it, and the mark that it takes or the key that it stores under.

    `content` is the bytes of the pickle, and `codes` those of the opcodes. `is_read` says that `list` was read to its end, `closing` has its closing lines,
    and `kept` says how many bytes are after STOP. `is_refused` says that the last opcode of `list` is refused. `ends_at` is the offset behind the last opcode,
    if that is known.
    """

    def __init__(self, content: bytes, ask: Ask) -> None:
        self.content = content
        self.codes = bytearray()
        self.makers = Makers(self.codes)
        self.is_read = False
        self.closing: List[str] = []
        self.kept = 0
        self.is_refused = False
        self.ends_at: Optional[int] = None
        self._offsets = array('I')
        # The opcodes behind which other marks may be open, and how many are before each. As many are before the opcodes that lead to it.
        self._moves, self._marks, self._marks_at_end = array('I'), array('I'), 0
        # The opcodes that take a mark, with its offset, and those that store under a key that their arguments do not say, with that.
        self._takers, self._taken = array('I'), array('I')
        self._storers, self._keys = array('I'), array('I')
        self._ask = ask
        self._window = Window(self._items)
        self._behind = b''  # the lines behind the last opcode
        self._known = _Codes()

    # --- What `list` says ---

    def read(self, blocks: Iterable[bytes], progress: Callable[[str], None] = silent) -> OpcodeLines:
        """Takes an answer of `list --json` that comes in blocks. Raises ProgramError where it is not whole."""
        for lines in shortened(blocks):
            self.take(lines)
            read = len(self.codes) + self._behind.count(b'\n')
            progress(f'list: {read:,} lines')
        self.finish()
        return self

    def take(self, lines: bytes) -> None:
        """Takes lines of `list --json`, each with its newline. Long arguments may be left out.

        Each piece of them begins with the name of an opcode, and ends with the offset of the next one. No text in a line has the signs by which they are
        parted, since its quotes are escaped.
        """
        head, *pieces = lines.split(_TAIL)
        self._behind = pieces[-1].partition(b'\n')[2] if pieces else self._behind + lines
        codes, first = bytes(map(self._known.__getitem__, map(_BEGIN, pieces))), len(self.codes)
        if codes:
            self._offsets.extend(accumulate(_sizes(codes, pieces, _offset_in(head)), initial=_offset_in(head)))
            self._marks_at_end = int(pieces[-1].partition(_MARKS)[2].partition(b'}')[0].partition(b',')[0])
        self.codes += codes
        moves = codes.translate(_MOVES)
        # (a function for each piece would take as long as all else)
        said = [piece.partition(_MARKS)[2].partition(b'}')[0].partition(b',') for piece in compress(pieces, moves)]
        places = list(compress(count(first), moves))
        self._moves.extend(places)
        self._marks.extend([int(marks) for marks, _, _ in said])
        self._takers.extend(compress(places, [note for _, _, note in said]))
        self._taken.extend([int(note[note.index(b':') + 1:]) for _, _, note in said if note])
        stores = codes.translate(_STORES)
        if 1 in stores and _KEY not in pieces[-1] and stores[-1]:  # (this one is refused)
            stores = stores[:-1]
        self._storers.extend(compress(count(first), stores))
        self._keys.extend([int(piece[piece.index(b':', _TO_MARKS) + 1:piece.index(b'}')]) for piece in compress(pieces, stores)])

    def finish(self) -> None:
        """Reads the closing lines. Raises ProgramError where there are none."""
        others = fields_in(self._behind) if self._behind else []
        if not others or others[-1]['kind'] != 'end':
            raise ProgramError('the program gave no whole listing')
        self.is_read, self.closing = True, [line for fields in others for line in closing_of(fields)]
        self.is_refused, self.kept = others[-1]['how'] == 'refused', int(others[-1].get('kept', 0))
        self._known.clear()

    def add(self, items: Iterable[Fields]) -> None:
        """Adds opcodes that `list` does not have, since it ends where an opcode is refused. How many marks are open before them is not known."""
        self._moves.append(len(self.codes) - 1)
        self._marks.append(self._marks_at_end)
        self._marks_at_end = 0
        for item in items:
            self._offsets.append(int(item['offset']))
            self.codes.append(CODE_BY_NAME[item['opcode']])

    def cut(self, place: int) -> None:
        """Takes the opcodes from a place on away."""
        self.is_read, self.ends_at, self._marks_at_end = True, self._offsets[place], self.marks(place)
        del self._offsets[place:], self.codes[place:]
        for places, numbers in ((self._moves, self._marks), (self._takers, self._taken), (self._storers, self._keys)):
            at = bisect_left(places, place)
            del places[at:], numbers[at:]

    # --- What each is ---

    def __len__(self) -> int:
        return len(self.codes)

    @property
    def size(self) -> int:
        """About how many bytes of memory they take."""
        columns = self._offsets, self._moves, self._marks, self._takers, self._taken, self._storers, self._keys
        return len(self.content) + 2 * len(self.codes) + sum(len(column) * column.itemsize for column in columns)

    def name(self, place: int) -> str:
        """The name of an opcode."""
        return BY_CODE[self.codes[place]].name

    def offset(self, place: int) -> int:
        """The offset of an opcode."""
        return self._offsets[place]

    def end(self, place: int) -> int:
        """The offset behind an opcode."""
        if place + 1 < len(self._offsets):
            return self._offsets[place + 1]
        return len(self.content) - self.kept if self.ends_at is None else self.ends_at

    def place_of(self, offset: int) -> int:
        """The place of the opcode that holds an offset."""
        return max(0, bisect_right(self._offsets, offset) - 1)

    def text_at(self, place: int) -> Tuple[int, int]:
        """Where the text begins and ends that is the argument of an opcode, one of ARGUMENTS."""
        before, behind = ARGUMENTS[self.codes[place]]
        return self._offsets[place] + before, self.end(place) - behind

    def marks(self, place: int) -> int:
        """How many marks are open before an opcode."""
        at = bisect_left(self._moves, place)
        return self._marks[at] if at < len(self._moves) else self._marks_at_end

    def _runs(self, place: int, step: int) -> Iterator[Tuple[int, int, int]]:
        """The opcodes that have as many marks before them, from the run of one on, forwards or backwards: the first, where the next ones begin, and how many
        marks."""
        begin = bisect_left(self._moves, place)
        for at in range(begin, len(self._moves) + 1) if step > 0 else range(begin, -1, -1):
            is_last = at == len(self._moves)
            yield self._moves[at - 1] + 1 if at else 0, len(self.codes) if is_last else self._moves[at] + 1, self._marks_at_end if is_last else self._marks[at]

    def note(self, place: int) -> Tuple[Optional[int], Optional[int]]:
        """The offset of the mark that an opcode takes, and the key under which a MEMOIZE stores, as far as `list` says them."""
        return _number_at(self._takers, self._taken, place), _number_at(self._storers, self._keys, place)

    def at(self, place: int) -> Line:
        """The line of an opcode. A long text in it is cut."""
        return self.shown(place).line(self._offsets[place], self.marks(place), *self.note(place))

    def whole(self, place: int) -> Optional[Fields]:
        """The fields of an opcode, where its line has all of its argument."""
        return self.shown(place).whole(self.at(place))

    def shown(self, place: int) -> Shown:
        """What is shown of an opcode."""
        if self.is_long(place):
            return self._long(place)
        return Shown.of(self._window.at(place, self.is_long, len(self.codes)))

    def _items(self, first: int, stop: int) -> Sequence[Fields]:
        """The fields of opcodes from a place on before another. (`items` of a session goes over all between its cursor and these: a session of these bytes
        alone does not.)"""
        kept = library.open_session(self.content[self._offsets[first]:self.end(stop - 1)], many=True, unframed=True)
        if kept is None:
            return self._ask(first, stop)
        try:
            found: List[Fields] = read(kept.ask(b'items'))['items']
        finally:
            kept.close()
        return found[:stop - first]

    def is_long(self, place: int) -> bool:
        """Whether the argument of an opcode has so many bytes that it is not asked for."""
        return self.end(place) - self._offsets[place] > _MOST_SHORT and (self.codes[place] in ARGUMENTS or self.codes[place] == _LONG4)

    def _long(self, place: int) -> Shown:
        """The same of a long argument, by its bytes."""
        name = self.name(place)
        if self.codes[place] == _LONG4:
            return Shown.of({'opcode': name, 'argument_le_hex': self.content[self._offsets[place] + _AROUND['bytes4'][0]:self.end(place)].hex()})
        begin, end = self.text_at(place)
        text = self.content[begin:end]
        texts = text.split(b'\n') if BY_CODE[self.codes[place]].form == 'lines' else [text]
        beginning = "' '".join(escaped(each[:CUT]) for each in texts)[:CUT]
        return Shown(name, f"'{beginning}'", sum(map(_letters, texts)) + len("' '") * (len(texts) - 1) - len(beginning), None)

    # --- Which are there ---

    def with_code(self, code: int, place: int, step: int) -> Iterator[int]:
        """The places of an opcode, from a place on, forwards or backwards."""
        at = place - step
        while (at := self.codes.find(code, at + 1) if step > 0 else self.codes.rfind(code, 0, max(0, at))) >= 0:
            yield at

    def right_under(self, marks: int, code: int, begin: int, end: int) -> Iterator[int]:
        """The places of an opcode, from one on before another, before which so many marks are open."""
        if _MOVES[code]:  # (these stand with their marks)
            first, stop = bisect_left(self._moves, begin), bisect_left(self._moves, end)
            found = compress(self._moves[first:stop], map(marks.__eq__, self._marks[first:stop]))
            return (place for place in found if self.codes[place] == code)
        return (place for place in takewhile(lambda place: place < end, self.with_code(code, begin, 1)) if self.marks(place) == marks)

    def under(self, marks: int, place: int, step: int) -> Iterator[int]:
        """The places before which so many marks are open or more, from a place on, forwards or backwards."""
        for first, behind, open_marks in self._runs(place, step):
            if open_marks >= marks:
                yield from range(max(first, place), behind) if step > 0 else range(min(behind - 1, place), first - 1, -1)

    def marks_before(self, place: int) -> int:
        """How many marks are open before each opcode before a place, all in all."""
        return sum(marks * (min(behind, place) - first) for first, behind, marks in takewhile(lambda run: run[0] < place, self._runs(0, 1)))

    def up_to(self, place: int, marks: int) -> int:
        """The first place from one on before which no more marks are open; the end, where there is none."""
        return min(next((max(first, place) for first, _, open_marks in self._runs(place, 1) if open_marks <= marks), len(self.codes)), len(self.codes))

    def noted(self, is_key: bool, place: int, step: int) -> Iterator[Tuple[int, int]]:
        """The places of opcodes that have a note, from one on, forwards or backwards, each with its number: those of MEMOIZE a key, others the offset of a
        mark."""
        places, numbers = (self._storers, self._keys) if is_key else (self._takers, self._taken)
        for at in range(bisect_left(places, place), len(places)) if step > 0 else range(bisect_right(places, place) - 1, -1, -1):
            yield places[at], numbers[at]


def _sizes(codes: bytes, pieces: Sequence[bytes], offset: int) -> Iterable[int]:
    """How many bytes opcodes have, but for the last of them. What is not known by the code says the offset of the next one."""
    fixed = codes.translate(_SIZES)[:-1]
    if 0 not in fixed:
        return fixed
    is_open = fixed.translate(_IS_NONE)
    sizes, places = list(fixed), list(compress(count(), is_open))
    known = list(accumulate(fixed, initial=offset))
    more = [_offset_in(piece) - known[place + 1] for place, piece in zip(places, compress(pieces, is_open))]
    for place, size in zip(places, map(sub, more, [0, *more])):
        sizes[place] = size
    return sizes


def _offset_in(piece: bytes) -> int:
    """The offset that a piece ends with.

    >>> _offset_in(b'NONE","marks":0}\\n{"kind":"opcode","offset":12')
    12
    """
    return int(piece[piece.rindex(b':') + 1:])


def _number_at(places: Sequence[int], numbers: Sequence[int], place: int) -> Optional[int]:
    """The number that stands with a place, if that is one of these."""
    at = bisect_left(places, place)
    return numbers[at] if at < len(places) and places[at] == place else None


def _letters(text: bytes) -> int:
    """How many letters a text has as `list` prints it."""
    others = text.translate(None, _AS_THEY_ARE)
    short = others.count(b"'") + others.count(b'\\')
    return len(text) + 3 * len(others) - 2 * short


# --- Long lines ---

# A line of more bytes is long: what is before its argument is kept, and its last bytes.
_MOST_LINE, _LAST = 1 << 12, 64
_NAMED = b'"opcode":"'


class _LongLine:
    """A line as it comes. Of the argument of a long one how long it is is kept alone."""

    def __init__(self) -> None:
        self._begun = bytearray()
        self._left_out = 0
        self._last = b''

    def feed(self, part: bytes) -> None:
        """Goes on with the line."""
        if not self._left_out:
            self._begun += part
            if len(self._begun) <= _MOST_LINE:
                return
            at = self._begun.index(b'"', self._begun.index(_NAMED) + len(_NAMED)) + 1
            part = bytes(self._begun[at:])
            del self._begun[at:]
        self._left_out += len(part)
        self._last = (self._last + part[-_LAST:])[-_LAST:]

    def take(self) -> bytes:
        """The line, with its newline. Another one begins."""
        line = bytes(self._begun)
        if self._left_out:
            line += b',"long":%d%b' % (self._left_out, self._last[self._last.rindex(_MARKS):])
        self._begun.clear()
        self._left_out, self._last = 0, b''
        return line + b'\n'


def shortened(blocks: Iterable[bytes]) -> Iterator[bytes]:
    """The lines of a listing as they come. A long one says how long its argument was in place of that.

    >>> line = b'{"kind":"opcode","offset":0,"opcode":"BINBYTES","argument":"%b","marks":0}\\n' % (b'x' * 10_000)
    >>> b''.join(shortened([line[:50], line[50:]]))
    b'{"kind":"opcode","offset":0,"opcode":"BINBYTES","long":10025,"marks":0}\\n'
    """
    return long_lines.shortened(blocks, _LongLine(), _MOST_LINE)
