"""What the objects of a pickle are and hold: the lines of `objects --json`, read many at a time. docs/reference/json.md has their fields.

No records are made of them, as `made` does: most objects are plain, and many are the same.
"""

from __future__ import annotations

import json
import struct
from collections import defaultdict
from itertools import accumulate, islice
from operator import itemgetter
from sys import intern, maxsize
from typing import Any, Callable, DefaultDict, Dict, Iterable, Iterator, List, NamedTuple, Optional, Sequence, Tuple

from .listed import Fields, whole_lines
from .long_lines import shortened

__all__ = ['ADDED', 'APPENDED', 'Held', 'Holder', 'KEY', 'PART', 'STATE', 'VALUE', 'by_beginning', 'fields_of_tails', 'flat', 'held_in',
           'holders_of', 'is_holder', 'put_into', 'short_lines', 'short_tails', 'tails_in', 'tails_of', 'values_of']

_HEAD, _TAIL = '{"kind":"object","object":', ',"is":"'
_TAIL_BEGINS, _TAIL_BETWEEN = '{"is":"', ',{"is":"'
# What is before the number of what is put into a container, in one and the same way.
_PUT, _BETWEEN = {'list': '{"kind":"append","value":', 'set"': '{"kind":"add","value":', 'dict': '{"kind":"set","key":'}, ',"value":'
_PARTS, _CHANGES, _ENDS = ',"parts":[', ',"changes":[', '}]}'
# How each number came into an object that was made before.
APPENDED, ADDED, STATE, KEY, VALUE = b'+', b'&', b'!', b'[', b'='
# The sign of what an object was made of.
PART = b'('
_SIGNS = {'append': APPENDED, 'add': ADDED, 'state': STATE, 'set': KEY + VALUE}
_SIGNS_OF = {'list': APPENDED, 'set': ADDED, 'dict': KEY + VALUE}
_NOTHING: Tuple[int, ...] = ()


# --- The second parts of lines ---

def tails_of(lines: bytes) -> List[str]:
    """What stands behind the numbers in the lines of objects, each with its newline. Many objects have the same.

    >>> tails_of(b'{"kind":"object","object":0,"is":"none"}\\n{"kind":"end"}\\n')
    ['none"}']
    """
    text = lines.decode('ascii')
    last = text.rfind(_HEAD)
    end = text.index('\n', last) + 1 if last >= 0 else 0
    if end < len(text):  # (other lines stand behind those of objects)
        text = text[:end]
    tails = text.split('\n')
    tails.pop()
    at, first = 0, int(text[len(_HEAD):text.index(',', len(_HEAD))]) if tails else 0
    while at < len(tails):  # (in lines of numbers of as many digits they are in one column)
        digits = len(str(first + at))
        behind = min(len(tails), 10**digits - first)
        tails[at:behind] = map(itemgetter(slice(len(_HEAD) + digits + len(_TAIL), None)), tails[at:behind])
        at = behind
    return tails


def tails_in(blocks: Iterable[bytes]) -> Iterator[List[str]]:
    """The same of an answer that comes in blocks, some at a time."""
    return map(tails_of, whole_lines(blocks))


def short_tails(blocks: Iterable[bytes]) -> Iterator[List[str]]:
    """The same, with the beginnings of long arguments alone."""
    return map(tails_of, short_lines(blocks))


def fields_of_tails(tails: Sequence[str]) -> List[Fields]:
    """The fields of lines by their second parts, without the numbers of the objects.

    >>> fields_of_tails(['none"}', 'int","argument":7}'])
    [{'is': 'none'}, {'is': 'int', 'argument': 7}]
    """
    found: List[Fields] = json.loads(f'[{_TAIL_BEGINS}{_TAIL_BETWEEN.join(tails)}]') if tails else []
    return found


def by_beginning(tails: Iterable[str]) -> Dict[str, List[str]]:
    """Second parts of lines, by how they begin: those of one kind can be read at once.

    >>> dict(by_beginning(['none"}', 'int","argument":7}', 'int","argument":8}']))
    {'none"}': ['none"}'], 'int","argument":': ['int","argument":7}', 'int","argument":8}']}
    """
    found: DefaultDict[str, List[str]] = defaultdict(list)
    for tail in tails:
        found[tail[:_BEGINNING]].append(tail)
    return found


def values_of(beginning: str, tails: Sequence[str]) -> Optional[Sequence[Any]]:
    """The values of plain objects whose second parts begin alike, as `by_beginning` says it: numbers, texts or floats. None where these are to be read
    one by one.

    >>> values_of('int","argument":', ['int","argument":7}', 'int","argument":8}']), values_of('tuple"}', ['tuple"}'])
    ([7, 8], None)
    """
    read = _READERS.get(beginning)
    try:
        return None if read is None else read(tails)
    except ValueError:  # (one of them was changed: its line has more than an argument)
        return None


def _between(begin: str, end: str) -> Callable[[str], str]:
    """What takes from a second part what is between these."""
    return itemgetter(slice(len(begin), -len(end)))


_OF_INT, _OF_TEXT, _OF_FLOAT = _between('int","argument":', '}'), _between('text","argument":', '}'), _between('float","argument_f8_hex":"', '"}')


def _ints(tails: Sequence[str]) -> Sequence[Any]:
    return _list_of(map(_OF_INT, tails))


def _texts(tails: Sequence[str]) -> Sequence[Any]:
    return _list_of(map(_OF_TEXT, tails))


def _floats(tails: Sequence[str]) -> Sequence[Any]:
    return struct.unpack(f'>{len(tails)}d', bytes.fromhex(''.join(map(_OF_FLOAT, tails))))


# So many letters of a second part say who reads it.
_BEGINNING = 16
_READERS = {'int","argument":': _ints, 'text","argument"': _texts, 'float","argument': _floats}


def _list_of(texts: Iterable[str]) -> List[Any]:
    """Texts of JSON, read at once."""
    found: List[Any] = json.loads(f'[{",".join(texts)}]')
    return found


def put_into(kind: str, tails: Sequence[str]) -> Optional[List[List[int]]]:
    """The numbers of what was put into containers of a kind, by their second parts. Keys and values of a dictionary take turns. None where one of them was
    filled in another way, or made of something.

    >>> put_into('dict', ['dict","changes":[{"kind":"set","key":1,"value":2},{"kind":"set","key":3,"value":2}]}'])
    [[1, 2, 3, 2]]
    >>> put_into('list', ['list","changes":[{"kind":"append","value":4}]}', 'list","parts":[1]}']), put_into('int', ['int","argument":7}'])
    (None, None)
    """
    signs = _FILLED.get(kind)
    if signs is None:
        return None
    left = ','.join(tails).encode('ascii').translate(None, signs.deleted).replace(signs.head, b'[').replace(signs.before, b'')
    try:
        return _list_of((left.decode('ascii'),))
    except ValueError:  # (of anything else a letter is left, or a comma)
        return None


class _Signs(NamedTuple):
    """Lines of containers without these signs have brackets, commas and numbers; and what is left of the beginning of a line, and before each number or
    pair. (To delete signs takes a fraction of the time in which texts are replaced.)"""

    deleted: bytes
    head: bytes
    before: bytes

    @classmethod
    def of(cls, kind: str, letter: bytes, before: bytes) -> _Signs:
        """Those of a kind. A letter stays, which says how something was put in: `[{"kind":"append","value":4}]` leaves `[pp,4]`, and no other change does."""
        sign = _PUT[f'{kind}"'[:4]]
        deleted = bytes(set(f'{sign}{_BETWEEN}}}'.encode('ascii')).difference(b',', letter))
        return cls(deleted, f'{kind}"{_CHANGES}'.encode('ascii').translate(None, deleted), before)


_FILLED = {'list': _Signs.of('list', b'p', b'pp,'), 'set': _Signs.of('set', b'd', b'ddd,'), 'dict': _Signs.of('dict', b'y', b',y')}


def flat(tail: str) -> str:
    """The second part of the line of a container that is filled in one way, with the numbers of what is put in as one array `put`, where keys and values
    take turns. (An object for each of them takes most of the time.) Any other is as it was.

    >>> flat('list","changes":[{"kind":"append","value":4},{"kind":"append","value":5}]}'), flat('dict","changes":[{"kind":"set","key":1,"value":2}]}')
    ('list","put":[4,5]}', 'dict","put":[1,2]}')
    >>> flat('list","changes":[{"kind":"state","value":4}]}')
    'list","changes":[{"kind":"state","value":4}]}'
    """
    sign = _PUT.get(tail[:4])
    at = -1 if sign is None else tail.find(_CHANGES)
    begin = at + len(_CHANGES)
    if sign is None or at < 0 or not tail.startswith(sign, begin):
        return tail
    numbers = tail[begin + len(sign):-len(_ENDS)].replace(f'}},{sign}', ',').replace(_BETWEEN, ',')
    return tail if '{' in numbers else f'{tail[:at]},"put":[{numbers}]}}'


# --- What objects hold ---

# An object that holds others: its number and its kind, the numbers of those that it was made of, and a sign and the number of each that was put in later.
Holder = Tuple[int, str, Sequence[int], bytes, Sequence[int]]


def is_holder(tail: str) -> bool:
    """Whether the object of a second part holds others. (An array is the last field then, and no text ends so.)

    >>> is_holder('tuple","parts":[1]}'), is_holder('text","argument":"]}"}')
    (True, False)
    """
    return tail[-2:] == ']}'


def holders_of(first: int, tails: Sequence[str]) -> Iterator[Holder]:
    """The objects among those of second parts that hold others. The first of all has this number.

    >>> list(holders_of(7, ['none"}', 'list","parts":[7],"changes":[{"kind":"append","value":9}]}']))
    [(8, 'list', [7], b'+', [9])]
    """
    places = [at for at, tail in enumerate(tails) if tail[-2:] == ']}']
    for at, fields in zip(places, fields_of_tails([flat(tails[at]) for at in places])):
        kind, put = intern(fields['is']), fields.get('put')
        if put is not None:
            sign = _SIGNS_OF[kind]
            yield first + at, kind, fields.get('parts', _NOTHING), sign * (len(put) // len(sign)), put
        elif 'changes' not in fields:
            yield first + at, kind, fields['parts'], b'', _NOTHING
        else:
            yield (first + at, kind, fields.get('parts', _NOTHING), *_put_by(fields['changes']))


class Held(NamedTuple):
    """What objects hold: of each that holds others which of the objects it is, and how many it holds; of all these a sign, and the number."""

    owners: List[int]
    counts: List[int]
    signs: bytes
    numbers: List[int]


# How an array begins in a line. In a text a backslash stands before the quote.
_ARRAY, _NO_ARRAY, _BACKSLASH = b'":[', b'\\":[', ord('\\')
# How each sign is written in an array of changes, with the comma before it.
_WORDS = ((b',{"kind":"set","key":', KEY), (b',{"kind":"append","value":', APPENDED), (b',{"kind":"add","value":', ADDED),
          (b',{"kind":"state","value":', STATE), (_BETWEEN.encode('ascii'), VALUE))
# (What is left of commas stands before a part.)
_TO_SIGNS, _TO_COMMAS = bytes.maketrans(b',', PART), bytes.maketrans(APPENDED + ADDED + STATE + KEY + VALUE + b'\n', b',,,,, ')


def held_in(lines: bytes) -> Held:
    """What objects among lines hold, of which nothing else is read.

    >>> line = b'{"kind":"object","object":%d,"is":"list","parts":[1,2],"changes":[{"kind":"append","value":4}]}\\n'
    >>> held_in(b'{"kind":"object","object":6,"is":"none"}\\n' + line % 7 + line % 8)
    Held(owners=[1, 2], counts=[3, 3], signs=b'((+((+', numbers=[1, 2, 4, 1, 2, 4])
    """
    pieces = lines.split(_ARRAY)
    if _BACKSLASH in [piece[-1] for piece in islice(pieces, len(pieces) - 1)]:
        pieces = lines.replace(_NO_ARRAY, b'').split(_ARRAY)
    if len(pieces) == 1:
        return Held([], [], b'', [])
    arrays = b',' + b'\n,'.join([piece[:piece.index(b']')] for piece in islice(pieces, 1, None)])
    for word, sign in _WORDS:
        arrays = arrays.replace(word, sign)
    signs = arrays.translate(_TO_SIGNS, b'0123456789}')
    numbers: List[int] = json.loads(f'[{arrays[1:].translate(_TO_COMMAS, b"}").decode("ascii")}]')
    counts = [*map(len, signs.split(b'\n'))]
    owners = [*accumulate([piece.count(b'\n') for piece in islice(pieces, len(pieces) - 1)])]
    if len(set(owners)) < len(owners):  # (some have parts and changes, one after the other)
        held: Dict[int, int] = {}
        for owner, count in zip(owners, counts):
            held[owner] = held.get(owner, 0) + count
        owners, counts = [*held], [*held.values()]
    return Held(owners, counts, signs.replace(b'\n', b''), numbers)


def _put_by(changes: List[Any]) -> Tuple[bytes, List[int]]:
    signs = b''.join([_SIGNS[change['kind']] for change in changes])
    return signs, [change[name] for change in changes for name in ('key', 'value') if name in change]


# --- Long lines ---

def short_lines(blocks: Iterable[bytes]) -> Iterator[bytes]:
    """The lines of an answer that comes in blocks, some at a time, with the beginnings of long arguments alone. `more` says how many letters are left out.

    >>> line = next(short_lines([b'{"kind":"object","object":0,"is":"text","argument":"%b"}\\n' % (b'x' * 10_000)]))
    >>> len(line), line[-15:]
    (1039, b'","more":9029}\\n')
    """
    return shortened(blocks, _Line(), _MOST_LINE)


# Of a line of more bytes only so much is kept of its argument, or of its names.
_MOST_LINE = 1 << 10
# So much of a line is looked at at once. Its last bytes may be the beginning of what stands behind the argument, or of a letter that is escaped.
_BLOCK, _LAST = 1 << 20, 16
_BEHIND = _PARTS.encode('ascii'), _CHANGES.encode('ascii')
_TEXT, _ESCAPE, _QUOTE = b'":"', b'\\', b'"'
# The first halves of what JSON writes as two letters.
_HIGH = b'\\ud8', b'\\ud9', b'\\uda', b'\\udb'
# The digits of such a number begin with the lowest: it is not cut.
_NUMBER, _MOST_BEFORE = b'"argument_le_hex"', 100


class _Line:
    """A line as it comes. Of a long argument its beginning is kept alone."""

    def __init__(self) -> None:
        self._begun = bytearray()
        self._left_out, self._most = 0, _BLOCK

    def feed(self, part: bytes) -> None:
        """Goes on with the line."""
        self._begun += part
        if len(self._begun) > self._most:
            end = _end_of_argument(self._begun)
            self._leave_out(2 * _MOST_LINE, len(self._begun) - _LAST if end is None else end)
            self._most = len(self._begun) + _BLOCK if end is None else maxsize

    def take(self) -> bytes:
        """The line, with its newline. Another one begins."""
        line = self._begun
        end = _end_of_argument(line) if len(line) > _MOST_LINE else 0
        end = len(line) - 1 if end is None else end
        if end > _MOST_LINE + 1:  # (the argument has a quote behind it)
            begin = _end_of_letters(line, line.rfind(_TEXT, 0, _MOST_LINE) + len(_TEXT))
            self._leave_out(begin, end)
            line[begin:begin] = b'","more":%d' % self._left_out
        line += b'\n'
        taken = bytes(line)
        line.clear()
        self._left_out, self._most = 0, _BLOCK
        return taken

    def _leave_out(self, begin: int, end: int) -> None:
        if begin < end:
            self._left_out += end - begin
            del self._begun[begin:end]


def _end_of_argument(line: bytearray) -> Optional[int]:
    """Where the argument of a line ends, if it does. That of a line that is not cut has no length."""
    if line.find(_NUMBER, 0, _MOST_BEFORE) >= 0:
        return 0
    return min((at for at in map(line.find, _BEHIND) if at >= 0), default=None)


def _end_of_letters(line: bytearray, begin: int) -> int:
    """Where a text that begins at a place is cut: between two of its letters, one of which may be escaped, or may be a byte in hexadecimal."""
    end = _MOST_LINE
    found = (line.find(sign, max(begin, end - _LAST), end) for sign in (_ESCAPE, _QUOTE))
    end = min((at for at in found if at >= 0), default=end)
    end -= _is_escaped(line, begin, end)
    if bytes(line[end - 6:end - 2]) in _HIGH and _is_escaped(line, begin, end - 5):
        end -= 6
    return end - (end - begin) % 2 if line.endswith(b'_hex', 0, begin - len(_TEXT)) else end


def _is_escaped(line: bytearray, begin: int, at: int) -> bool:
    """Whether a backslash before a place belongs to what stands there."""
    text = line[begin:at]
    return (len(text) - len(text.rstrip(_ESCAPE))) % 2 == 1
