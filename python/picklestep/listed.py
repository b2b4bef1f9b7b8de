"""The lines of `list --json`, read: each opcode, what a STOP left, and how reading ended. docs/reference/json.md has their fields.

An object of such a line is called its fields here. `line_of` and `closing_of` write what `list` prints of them for people.
"""

from __future__ import annotations

import json
import struct
from itertools import islice
from operator import itemgetter
from typing import TYPE_CHECKING, Any, Callable, Collection, Dict, Generator, Iterable, Iterator, List, NamedTuple, Optional, Sequence, Tuple, TypeVar

from . import library
from .errors import ProgramError
from .opcodes import BY_NAME
from .records import Argument, End
from .sources import Input

if TYPE_CHECKING:
    from .listing_records import Opcode

__all__ = ['Batch', 'FRAME_SIZE', 'Fields', 'Line', 'Listed', 'OPCODE', 'argument_of', 'batch_of', 'check_whole', 'closing_of',
           'content_of', 'each_of', 'end_of', 'ended', 'escaped', 'fields_in', 'fields_of', 'fields_of_tails', 'frames_in', 'is_whole', 'key_of',
           'last_opcode', 'left_of', 'line_at', 'line_of', 'name_in', 'names_of', 'offset_in', 'offsets_in', 'offsets_of', 'opcode_of',
           'opcodes_of', 'printed', 'shown_argument', 'shown_code', 'starts_in', 'text_of', 'whole_lines', 'words_of']

Fields = Dict[str, Any]
Read = TypeVar('Read')

_Said = Tuple[bytes, str, Argument, str, int]
# So many second parts of lines are kept at most behind a batch, and none behind one of so many bytes.
_MOST_KNOWN = 10_000
_MOST_OF_LINES = 4 << 20

# How many bytes FRAME has.
FRAME_SIZE = 9
# How lines begin: the first field is the kind. No text in a line has a newline or a quote that is not escaped.
OPCODE, _LEFT, _END = b'{"kind":"opcode"', b'{"kind":"left"', b'{"kind":"end"'
_NO_END = 'the program gave no whole answer'


# (it does not look for blanks before and behind, as `json.loads` does)
_read = json.JSONDecoder().raw_decode


def fields_of(line: bytes) -> Fields:
    """The fields of a line.

    >>> fields_of(b'{"kind":"left","objects":1,"marks":0}')['objects']
    1
    """
    fields: Fields = _read(line.decode('ascii'))[0]
    return fields


def fields_in(lines: bytes) -> List[Fields]:
    """The fields of lines, each with its newline.

    >>> [each['kind'] for each in fields_in(b'{"kind":"left"}\\n{"kind":"end"}\\n')]
    ['left', 'end']
    """
    found: List[Fields] = json.loads(f'[{lines[:-1].decode("ascii")}]'.replace('\n', ','))
    return found


# --- Lines among others ---

def starts_in(lines: bytes, begins: bytes = OPCODE) -> Iterator[int]:
    """Where the lines of opcodes begin.

    >>> list(starts_in(b'{"kind":"opcode"}\\n{"kind":"left"}\\n{"kind":"opcode"}\\n'))
    [0, 34]
    """
    if lines.startswith(begins):
        yield 0
    sought = b'\n' + begins
    at = lines.find(sought)
    while at >= 0:
        yield at + 1
        at = lines.find(sought, at + 1)


def left_of(lines: bytes) -> List[Tuple[int, int]]:
    """How many objects and marks each STOP left, of those that left any."""
    return [(int(left['objects']), int(left['marks'])) for left in (fields_of(lines[at:lines.index(b'\n', at)]) for at in starts_in(lines, _LEFT))]


def is_whole(lines: bytes) -> bool:
    """Whether a listing is whole: then its last line says how reading ended."""
    return lines.endswith(b'\n') and lines.startswith(_END, lines.rfind(b'\n', 0, -1) + 1)


def check_whole(lines: bytes) -> bytes:
    """The same lines. Raises ProgramError where they are not whole."""
    if not is_whole(lines):
        raise ProgramError(_NO_END)
    return lines


def frames_in(lines: bytes) -> Iterator[Tuple[int, int]]:
    """The offset and the length of each FRAME in a listing: `calls` that leaves these bytes out reads a pickle unframed.

    >>> list(frames_in(b'{"kind":"opcode","offset":2,"opcode":"FRAME","argument":2,"marks":0}\\n'))
    [(2, 9)]
    """
    found = (fields_of(line) for line in lines.split(b'\n') if b'"FRAME"' in line)
    return ((int(each['offset']), FRAME_SIZE) for each in found if each['opcode'] == 'FRAME')


def whole_lines(blocks: Iterable[bytes]) -> Iterator[bytes]:
    """The lines of blocks, some at a time."""
    parts: List[bytes] = []
    for block in blocks:
        end = block.rfind(b'\n') + 1
        if end:
            parts.append(block[:end])
            yield _taken_from(parts)
        parts.append(block[end:])


def _taken_from(parts: List[bytes]) -> bytes:
    """The parts as one. The list has none of them then: they may be long."""
    lines = b''.join(parts)
    parts.clear()
    return lines


def last_opcode(blocks: Iterable[bytes]) -> Optional[Fields]:
    """The last opcode of a listing, of which no more is kept than its end."""
    parts: List[bytes] = []
    for block in blocks:
        if block.count(b'\n') > 2:
            parts.clear()
        parts.append(block)
    lines = b''.join(parts).split(b'\n')[-3:-1]
    return fields_of(lines[0]) if len(lines) == 2 and lines[0].startswith(OPCODE) else None


# --- Many opcodes ---

class Batch(NamedTuple):
    """Lines of opcodes, each in two parts: `heads` have the offsets, and `tails` what stands from the name on. Many tails are the same."""

    heads: List[str]
    tails: List[str]


_HEAD, _TAIL = '{"kind":"opcode","offset":', ',"opcode":"'
_HEAD_BYTES, _COMMA = _HEAD.encode('ascii'), ord(',')
_BEHIND_HEAD = itemgetter(slice(len(_HEAD), None))
# (To replace a text by another one of its length takes half the time.)
_BREAK = '\n'.rjust(len(_TAIL))
_TAIL_BEGINS, _TAIL_BETWEEN = '{"opcode":"', ',{"opcode":"'


def batch_of(lines: str) -> Batch:
    """The opcodes among lines, each with its newline. No text in a line has the signs by which they are parted, since its quotes are escaped.

    >>> batch_of('{"kind":"opcode","offset":2,"opcode":"NONE","marks":0}\\n{"kind":"left","objects":1,"marks":0}\\n')
    Batch(heads=['{"kind":"opcode","offset":2          '], tails=['NONE","marks":0}'])
    """
    parts = lines.replace(_TAIL, _BREAK).split('\n')
    if len(parts) != 2 * lines.count(_HEAD) + 1:  # (some are of another kind)
        opcodes = [f'{line}\n' for line in lines.split('\n') if line.startswith(_HEAD)]
        parts = ''.join(opcodes).replace(_TAIL, _BREAK).split('\n')
    return Batch(parts[0:-1:2], parts[1::2])


def offset_in(head: str) -> int:
    """The offset in the first part of a line.

    >>> offset_in('{"kind":"opcode","offset":2')
    2
    """
    return int(head[len(_HEAD):].strip('" '))


def offsets_in(heads: Sequence[str]) -> List[int]:
    """The offsets in the first parts of many lines.

    >>> offsets_in(['{"kind":"opcode","offset":2', '{"kind":"opcode","offset":13 '])
    [2, 13]
    """
    try:
        return list(map(int, map(_BEHIND_HEAD, heads)))
    except ValueError:  # (a large number is in quotes)
        return list(map(offset_in, heads))


def offsets_of(lines: bytes, many: bool) -> List[int]:
    """The offsets of the opcodes among lines, of which nothing else is read. Only of `many` pickles are other lines between them.

    >>> offsets_of(b'{"kind":"opcode","offset":9,"opcode":"NONE"}\\n{"kind":"opcode","offset":10,"opcode":"STOP"}\\n{"kind":"end"}\\n', False)
    [9, 10]
    """
    found: List[int] = []
    width, rows = len(_HEAD), lines.split(b'\n')
    if many:
        rows = [row for row in rows if row.startswith(_HEAD_BYTES)]
    while rows and not rows[-1].startswith(_HEAD_BYTES):
        rows.pop()
    begin = 0
    while begin < len(rows):  # (offsets only grow: those of as many digits stand in one column, and follow one another)
        column = rows[begin].index(b',', width)
        end = len(rows) if rows[-1][column] == _COMMA else _end_of_column(rows, begin, column)
        found += [int(row[width:column]) for row in islice(rows, begin, end)]
        begin = end
    return found


def _end_of_column(rows: List[bytes], low: int, column: int) -> int:
    """From which row on no comma is in a column."""
    high = len(rows)
    while low < high:
        middle = (low + high) // 2
        low, high = (middle + 1, high) if rows[middle][column] == _COMMA else (low, middle)
    return low


def name_in(tail: str) -> str:
    """The name in the second part of a line.

    >>> name_in('NONE","marks":0}')
    'NONE'
    """
    return tail[:tail.index('"')]


def fields_of_tails(tails: Collection[str]) -> List[Fields]:
    """The fields in the second parts of lines.

    >>> fields_of_tails(['NONE","marks":0}', 'BININT1","argument":7,"marks":0}'])[1]
    {'opcode': 'BININT1', 'argument': 7, 'marks': 0}
    """
    if not tails:
        return []
    found: List[Fields] = _read(f'[{_TAIL_BEGINS}{_TAIL_BETWEEN.join(tails)}]')[0]
    return found


# --- An opcode ---

def opcode_of(fields: Fields) -> Opcode:
    """The opcode of a line.

    >>> opcode_of({'offset': 11, 'opcode': 'GLOBAL', 'module': 'os', 'name': 'getcwd', 'marks': 1})
    Opcode(offset=11, code=b'c', name='GLOBAL', argument=(b'os', b'getcwd'), note='', marks=1)
    """
    from .listing_records import Opcode  # (`scan` needs none)
    return Opcode(int(fields['offset']), *_said(fields))


def each_of(blocks: Iterable[bytes], read: Callable[[Fields], Read]) -> Iterator[Tuple[int, Read]]:
    """The offset of each opcode of a listing that comes in blocks, and what a function makes of the fields behind it. Of what many lines say it is
    asked once.

    >>> list(each_of([b'{"kind":"opcode","offset":2,"opcode":"NONE","marks":0}\\n'], lambda fields: fields['opcode']))
    [(2, 'NONE')]
    """
    known: Dict[str, Read] = {}
    for lines in whole_lines(blocks):
        batch = batch_of(lines.decode('ascii'))
        new = set(batch.tails).difference(known)
        known.update(zip(new, map(read, fields_of_tails(new))))
        yield from zip(offsets_in(batch.heads), map(known.__getitem__, batch.tails))
        if len(known) > _MOST_KNOWN or len(lines) > _MOST_OF_LINES:
            known.clear()


def opcodes_of(blocks: Iterable[bytes]) -> Iterator[Opcode]:
    """The opcodes of a listing that comes in blocks.

    >>> [opcode.offset for opcode in opcodes_of([b'{"kind":"opcode","offset":2,"opcode":"NONE","marks":0}\\n'])]
    [2]
    """
    from .listing_records import Opcode
    return (Opcode(offset, *said) for offset, said in each_of(blocks, _said))


def _said(fields: Fields) -> _Said:
    """What an opcode has besides its offset."""
    name = fields['opcode']
    return _CODES[name], name, argument_of(fields), _note(fields), fields['marks']


def argument_of(fields: Fields) -> Argument:
    """The argument of an opcode: a number, bytes, two texts, or none.

    >>> argument_of({'argument': 'id'}), argument_of({'argument_f8_hex': '3ff0000000000000'}), argument_of({'argument_le_hex': '0001'})
    (b'id', 1.0, 256)
    """
    found = fields.get('argument')
    if isinstance(found, int):
        return found
    if found is not None or 'argument_hex' in fields:
        return content_of(fields)
    if 'argument_digits' in fields:
        return int(fields['argument_digits'])
    if 'argument_f8_hex' in fields:
        value: float = struct.unpack('>d', bytes.fromhex(fields['argument_f8_hex']))[0]
        return value
    if 'argument_le_hex' in fields:
        return int.from_bytes(bytes.fromhex(fields['argument_le_hex']), 'little', signed=True)
    return names_of(fields) if 'module' in fields or 'module_hex' in fields else None


def content_of(fields: Fields, name: str = 'argument') -> bytes:
    """The bytes of a field.

    >>> content_of({'module': 'caf\\xe9'}, 'module'), content_of({'argument_hex': 'ff'})
    (b'caf\\xc3\\xa9', b'\\xff')
    """
    text = fields.get(name)
    return bytes.fromhex(fields[f'{name}_hex']) if text is None else str(text).encode('utf-8')


def names_of(fields: Fields) -> Tuple[bytes, bytes]:
    """The two texts of GLOBAL or INST."""
    return content_of(fields, 'module'), content_of(fields, 'name')


def key_of(fields: Fields) -> Optional[int]:
    """The key of the memo under which an opcode stores an object, or gets one; None of an opcode that does neither.

    >>> key_of({'opcode': 'BINPUT', 'argument': 17}), key_of({'opcode': 'MEMOIZE', 'memo': 0}), key_of({'opcode': 'BININT1', 'argument': 17})
    (17, 0, None)
    """
    if 'memo' in fields:
        return int(fields['memo'])
    return int(fields.get('argument', fields.get('argument_digits', 0))) if fields['opcode'].endswith(('PUT', 'GET')) else None


def _note(fields: Fields) -> str:
    return f'MARK at {fields["mark"]}' if 'mark' in fields else f'as {fields["memo"]}' if 'memo' in fields else ''


# --- How reading ended ---

def end_of(fields: Fields, refused: Tuple[Optional[int], Optional[int]]) -> End:
    """How reading ended, by the last line. Of an opcode that is refused its offset and its place are given.

    >>> end_of({'how': 'fault', 'code': 'F2', 'words': 'unknown opcode', 'byte': 127, 'offset': 3}, (None, None)).text
    'F2 unknown opcode 0x7f at 3'
    """
    how = fields['how']
    if how == 'stopped':
        return End(how)
    offset, place = (int(fields['offset']), None) if how == 'fault' else refused
    return ended(how, fields, offset, place)


def ended(how: str, fields: Fields, offset: Optional[int], item: Optional[int] = None) -> End:
    """How reading ended otherwise than by a STOP, by the fields of what ended it."""
    words = words_of({name: '' if name == 'object' else value for name, value in fields.items() if name != 'offset'})
    return End(how, fields['code'], words_of(fields), offset, item, fields.get('of_frame', False), words)


def words_of(fields: Fields) -> str:
    """What the program says of a refusal or a fault, or of where loaders disagree."""
    signs = ('byte', ' 0x{:02x}'), ('object', ' #{}'), ('memo', ' {}'), ('number', ' {}'), ('offset', ' at {}')
    return f'{fields["code"]} {fields["words"]}' + ''.join(form.format(fields[name]) for name, form in signs if name in fields)


# --- The same as `list` prints it ---

class Line(NamedTuple):
    """An opcode as `list` prints it. `marks` is how many marks are open before it, `mark` the offset of the mark that it takes, and `key` that under
    which it stores an object in the memo or gets one."""

    offset: int
    code: str
    name: str
    argument: str
    marks: int
    mark: Optional[int] = None
    key: Optional[int] = None


def line_at(fields: Fields) -> Line:
    """The same of the fields of a line.

    >>> line_at({'offset': 11, 'opcode': 'TUPLE', 'marks': 1, 'mark': 2})
    Line(offset=11, code='t', name='TUPLE', argument='(MARK at 2)', marks=1, mark=2, key=None)
    """
    name, note, mark = fields['opcode'], _note(fields), fields.get('mark')
    argument = ' '.join(filter(None, (shown_argument(fields), note and f'({note})')))
    return Line(int(fields['offset']), _SHOWN_CODES[name], name, argument, fields['marks'], None if mark is None else int(mark), key_of(fields))


def line_of(fields: Fields) -> str:
    """The line of an opcode.

    >>> line_of({'offset': 11, 'opcode': 'TUPLE', 'marks': 1, 'mark': 2})
    '   11: t        TUPLE      (MARK at 2)'
    """
    return text_of(line_at(fields))


def text_of(line: Line) -> str:
    """The text of a line.

    >>> text_of(Line(11, 'N', 'NONE', '', 1))
    '   11: N        NONE'
    """
    begins = f'{line.offset:>5}: {line.code:4} {"    " * line.marks}'
    return f'{begins}{line.name:10} {line.argument}' if line.argument else begins + line.name


def shown_argument(fields: Fields) -> str:
    """The argument of an opcode; nothing where it has none.

    >>> shown_argument({'module_hex': 'ff', 'name': "it's"}), shown_argument({'argument_le_hex': '0001'})
    ("'\\\\xff' 'it\\\\'s'", 'le:0001')
    """
    argument = fields.get('argument', fields.get('argument_digits'))
    if isinstance(argument, int) or 'argument_digits' in fields:
        return str(argument)
    if argument is not None or 'argument_hex' in fields:
        return _quoted(fields)
    short = next((form for form in ('f8', 'le') if f'argument_{form}_hex' in fields), None)
    if short is not None:
        return f'{short}:{fields[f"argument_{short}_hex"]}'
    return f'{_quoted(fields, "module")} {_quoted(fields, "name")}' if 'module' in fields or 'module_hex' in fields else ''


def _quoted(fields: Fields, name: str = 'argument') -> str:
    return f"'{escaped(content_of(fields, name))}'"


def escaped(text: bytes) -> str:
    r"""A text as it stands in quotes.

    >>> print(escaped(b"it's \xff"))
    it\'s \xff
    """
    return text.decode('latin-1').translate(_ESCAPES)


def printed(fields: Fields) -> List[str]:
    """The lines that `list` prints of a line of JSON; none of a kind that is not known."""
    return [line_of(fields)] if fields['kind'] == 'opcode' else closing_of(fields) if fields['kind'] in ('left', 'end') else []


def closing_of(fields: Fields) -> List[str]:
    """The lines of what a STOP left, or of the end.

    >>> closing_of({'kind': 'end', 'how': 'stopped', 'kept': 3, 'protocol': 2})
    ['kept: 3 bytes after STOP', 'highest protocol among opcodes = 2']
    """
    if fields['kind'] == 'left':
        return [f'left: {fields["objects"]} objects, {fields["marks"]} marks']
    ended = [f'{fields["how"]}: {words_of(fields)}'] if fields['how'] != 'stopped' else [f'kept: {fields["kept"]} bytes after STOP'] * bool(fields['kept'])
    return ended + ([f'highest protocol among opcodes = {fields["protocol"]}'] if 'protocol' in fields else [])


def shown_code(code: str) -> str:
    """The code of an opcode.

    >>> shown_code('c'), shown_code(chr(0x94))
    ('c', '\\\\x94')
    """
    return code if '!' <= code <= '~' else f'\\x{ord(code):02x}'


_CODES = {name: bytes((opcode.code,)) for name, opcode in BY_NAME.items()}
_SHOWN_CODES = {name: shown_code(opcode.letter) for name, opcode in BY_NAME.items()}
_ESCAPES = {**{code: f'\\x{code:02x}' for code in range(256) if not 32 <= code <= 126}, ord("'"): "\\'", ord('\\'): '\\\\'}


class Listed:
    """The opcodes of an input, in batches. How reading ended is known after the last batch.

    A refused opcode is in no batch, since it does nothing; `refused_at` is its offset then.
    """

    def __init__(self, given: Input, words: Sequence[str] = (), timeout: Optional[float] = None, memory: Optional[int] = None) -> None:
        """Starts a listing, or has that of a small input in this process; `words` say how the input is read."""
        content = given.small_content(library.MOST_BYTES) if timeout is None else None
        lines = None if content is None else library.answer(['list', '--json', *words], content, memory)
        self._blocks: Iterable[bytes]
        if lines is not None:
            self._blocks = [lines]
        else:
            from .program import Process
            self._blocks = Process(['list', '--json', given.path, *words], given.files, memory).blocks(timeout)
        self._end: Fields = {}
        self.refused_at: Optional[int] = None

    def batches(self) -> Generator[Batch, None, None]:
        """The opcodes. Raises ProgramError where the listing is not whole."""
        last = Batch([], [])  # (it may be refused, as only the end says)
        for lines in whole_lines(self._blocks):
            at = lines.rfind(b'\n', 0, -1) + 1
            if lines.startswith(_END, at):
                self._end = fields_of(lines[at:])
            text = lines.decode('ascii')
            del lines  # (they may be long)
            batch = batch_of(text)
            del text
            batch.heads[:0], batch.tails[:0] = last
            last = Batch(batch.heads[-1:], batch.tails[-1:])
            del batch.heads[-1:], batch.tails[-1:]
            yield batch
        if not self._end:
            raise ProgramError(_NO_END)
        if self._end['how'] == 'refused':
            self.refused_at, last = offset_in(last.heads[0]), Batch([], [])
        yield last

    def end(self, places: int) -> End:
        """How reading ended, behind so many opcodes."""
        return end_of(self._end, (self.refused_at, places))

    @property
    def kept(self) -> int:
        """How many bytes are after STOP."""
        return int(self._end.get('kept', 0))
