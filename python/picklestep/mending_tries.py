"""What `mend` tries where a pickle is damaged and not cut off: the file without the carriage returns of a copy in text mode, and other values of one
byte near the place where reading ends, or another length of an opcode there.

The program judges each try. `form` finds the first opcode that is not as usual picklers write it: a change near there, with which all is in the form,
is the likeliest one, and costs least to ask. Else `list` says which changes let the pickle be read to its STOP. What a try would import or call
besides, `calls` says.
"""

from __future__ import annotations

from collections import Counter
from dataclasses import dataclass, field
from itertools import islice
from typing import Callable, Iterable, Iterator, List, NamedTuple, Optional, Tuple

from . import library
from .errors import Refused
from .listed import FRAME_SIZE, OPCODE, fields_of, left_of
from .opcodes import BY_CODE, BY_NAME
from .records import End
from .session import Session
from .short_records import OtherForm
from .tasks import calls, form, modes
from .verdicts import other_form

__all__ = ['Found', 'Try', 'byte_tries', 'frame_tries', 'opcodes_of', 'without_returns']

# The opcodes before the place where reading ends of which bytes are tried, and how many bytes of each opcode. (No opcode and length has more than 9.)
_OPCODES_BEFORE = 8
_BYTES_OF_OPCODE = 9
# The values that a byte can have instead.
_OTHERS = 255
# So many bytes are read at most by all tries, as far as it is known before: some seconds. The form is found out in less time than a listing.
_MOST_IN_FORM = 1 << 29
_MOST_LISTED = 1 << 25
# What it takes to ask, and to start the program where there is no library, in bytes that are read in this time.
_ASKING, _STARTING = 1 << 10, 1 << 20
# So many changes of a byte are shown at most. Of more than the second number only these are compared, those with the fewest changed bits.
_MOST_SHOWN = 4
_MOST_COMPARED = 64
_STOP = 0x2e
_FRAME = bytes([BY_NAME['FRAME'].code])
_RETURN = b'\r\n'


@dataclass(frozen=True)
class Try:
    """What was tried, with the edits that it takes, and what it keeps: so many opcodes up to the last STOP. Where a byte is changed, `added` has the
    imports, the calls and what else reaches out of the pickle that the damaged one does not have, as lines of `calls`. `kept` bytes come after the STOP.

    >>> import picklestep
    >>> for made in picklestep.mended(b'\\x80\\x02]q\\x00\\xffK\\x01K\\x02e.').tries:
    ...     print(made.opcodes, made.steps[0])
    8 5: byte 0xff replaced by 0x28: F2 unknown opcode 0xff at 5
    4 5: 7 bytes cut off (ff 4b 01 4b 02 65 2e): F2 unknown opcode 0xff at 5
    """

    content: bytes = field(repr=False)
    steps: Tuple[str, ...]
    opcodes: int
    added: Tuple[str, ...] = ()
    kept: int = 0


class Found(NamedTuple):
    """Tries that read to the STOP at the last byte, the best one first, and how many were made."""

    tries: List[Try]
    made: int


class _Change(NamedTuple):
    """Another value of a byte, or of the length of the opcode `name`. `rank` puts the likely ones first: all of the byte at which reading ends and those
    with one changed bit, then near ones."""

    rank: Tuple[bool, int, int]
    offset: int
    put: bytes
    name: str = ''

    def made_in(self, content: bytes) -> bytes:
        """The bytes with it."""
        return b'%b%b%b' % (content[:self.offset], self.put, content[self.offset + len(self.put):])

    def step(self, content: bytes) -> str:
        """What it does to the bytes."""
        old = content[self.offset:self.offset + len(self.put)]
        if not self.name:
            return f'{self.offset}: byte 0x{old.hex()} replaced by 0x{self.put.hex()}'
        before, after = (int.from_bytes(each, 'little') for each in (old, self.put))
        return f'{self.offset - 1}: length {before} of {self.name} replaced by {after}'


def without_returns(content: bytes) -> Optional[Tuple[bytes, str]]:
    """The bytes of a file that was copied in text mode as they were, and the edit. None where a newline has no carriage return in front.

    >>> without_returns(b'(lp0\\r\\nI1\\r\\na.')
    (b'(lp0\\nI1\\na.', '4: 2 carriage returns (0x0d) taken away: each newline has one in front, as after a copy in text mode')
    """
    count = content.count(b'\n')
    if not count or content.count(_RETURN) != count:
        return None
    said = f'{count} carriage returns' if count > 1 else '1 carriage return'
    step = f'{content.index(_RETURN)}: {said} (0x0d) taken away: each newline has one in front, as after a copy in text mode'
    return content.replace(_RETURN, b'\n'), step


def opcodes_of(content: bytes, many: bool) -> int:
    """How many opcodes are read."""
    return _reading(content, many)[0]


def byte_tries(content: bytes, many: bool, end: End) -> Found:
    """The changes of one byte with which a pickle, whose reading ends early, reads to a STOP at its last byte that leaves nothing on the stack. If there
    is none, those of one length."""
    assert end.offset is not None
    found: List[_Change] = []
    made, other = 0, None if many else _other_form(content)
    if other is not None:
        positions = _positions(content, many, other.offset, other.item)
        found, made = _found(content, positions, other.offset, _MOST_IN_FORM, lambda new: _other_form(new) is None)
    if not found and (other is None or other.offset < end.offset):
        positions = _positions(content, many, end.offset, end.item)
        found, more = _found(content, positions, end.offset, _MOST_LISTED, lambda new: _reading(new, many)[1])
        made += more
    if not found:
        starts = _starts(content, many, end.offset, end.item)
        found, more = _good(content, _lengths(content, starts), end.offset, _MOST_LISTED, lambda new: _reading(new, many)[1])
        made += more
    return Found(_best(content, found, many, end), made)


def frame_tries(content: bytes, many: bool, end: End) -> Found:
    """The lengths of a frame, which ends behind the last byte, with which a pickle reads to a STOP at its last byte. (One that was cut off has none.)"""
    assert end.offset is not None
    found, made = _good(content, _lengths_of_frame(content, end.offset), len(content), _MOST_LISTED, lambda new: _reading(new, many)[1])
    return Found(_best(content, found, many, end), made)


def _best(content: bytes, found: List[_Change], many: bool, end: End) -> List[Try]:
    """The tries that are shown, the one that keeps most first."""
    reason = f'refused, {end.text}' if end.how == 'refused' else end.text
    # (of changes that keep as many opcodes the value is likely that is frequent in the pickle, as MEMOIZE is)
    compared = sorted((-opcodes_of(change.made_in(content), many), change.rank[0], -content.count(change.put), change)
                      for change in found[:_MOST_COMPARED])
    return [_try(content, change, many, -opcodes, reason) for opcodes, *_, change in compared[:_MOST_SHOWN]]


def _found(content: bytes, positions: List[int], offset: int, most: int, is_good: Callable[[bytes], bool]) -> Tuple[List[_Change], int]:
    """The good ones of the changes of these bytes, and how many were made. Each reads about as many bytes as the offset says, and all of them `most`."""
    return _good(content, _changes(content, positions), offset, most, is_good)


def _good(content: bytes, changes: Iterable[_Change], offset: int, most: int, is_good: Callable[[bytes], bool]) -> Tuple[List[_Change], int]:
    """The good ones of as many of these changes as are read in time, and how many these are."""
    cost = offset + (_ASKING if library.form(b'N.') is not None else _STARTING)
    made = list(islice(changes, max(most // cost, 1)))
    return [change for change in made if is_good(change.made_in(content))], len(made)


def _try(content: bytes, change: _Change, many: bool, opcodes: int, reason: str) -> Try:
    changed = change.made_in(content)
    return Try(changed, (f'{change.step(content)}: {reason}',), opcodes, tuple(_added(content, changed, many)))


def _added(old: bytes, new: bytes, many: bool) -> Iterator[str]:
    """The lines of `calls` that only the new one has."""
    had, has = (Counter(reach.text for reach in calls(content, first=not many)) for content in (old, new))
    return (has - had).elements()


def _positions(content: bytes, many: bool, offset: int, place: Optional[int]) -> List[int]:
    """The bytes that are tried, the nearest first: of the opcode at an offset and a place, and of those before it. Without a place it is behind all
    that are read."""
    bounds = [*_starts(content, many, offset, place), len(content)]
    opcodes = [range(start, min(end, start + _BYTES_OF_OPCODE)) for start, end in zip(bounds, bounds[1:])]
    return [position for opcode in reversed(opcodes) for position in opcode]


def _starts(content: bytes, many: bool, offset: int, place: Optional[int]) -> List[int]:
    """The offsets of the opcodes before one at an offset and a place, and this offset."""
    with Session(content, many=many) as session:
        place = session.where().places if place is None else place
        return [*(item.offset for item in session.items(max(place - _OPCODES_BEFORE, 0), place)), offset]


def _lengths(content: bytes, starts: List[int]) -> Iterator[_Change]:
    """All other lengths of these opcodes behind which an opcode begins, the short ones first. (Of a length of one byte all are tried as bytes are.)"""
    counted = [(start, BY_CODE[content[start]]) for start in reversed(starts) if start < len(content) and content[start] in BY_CODE]
    widths = [(start, info.name, int(info.form[5])) for start, info in counted if info.form.startswith(('bytes4', 'bytes8'))]
    for length in range(len(content)):
        for nearest, (start, name, width) in enumerate(widths):
            behind = start + 1 + width + length
            if behind < len(content) and content[behind] in BY_CODE:
                yield _Change((True, length, nearest), start + 1, length.to_bytes(width, 'little'), name)


def _lengths_of_frame(content: bytes, start: int) -> Iterator[_Change]:
    """The lengths of a frame behind which the pickle ends or another frame begins, which has less than 4 GB."""
    begin = start + FRAME_SIZE
    behind = len(content)
    while behind >= begin:
        if behind == len(content) or content.startswith(bytes(4), behind + 5):
            yield _Change((True, behind - begin, 0), start + 1, (behind - begin).to_bytes(FRAME_SIZE - 1, 'little'), 'FRAME')
        behind = content.find(_FRAME, begin if behind == len(content) else behind + 1, len(content))


def _changes(content: bytes, positions: List[int]) -> List[_Change]:
    """All other values of these bytes, the likely ones first. (A STOP in place of another opcode would only leave out what follows.)"""
    return sorted(_Change(_rank(content[position] ^ value, nearest), position, bytes([value]))
                  for nearest, position in enumerate(positions) for value in range(_OTHERS + 1) if value not in (content[position], _STOP))


def _rank(bits: int, nearest: int) -> Tuple[bool, int, int]:
    count = bin(bits).count('1')
    return nearest > 0 and count > 1, nearest, count


def _other_form(content: bytes) -> Optional[OtherForm]:
    """Where bytes are first in another form than one pickle of usual picklers. None where they are in that form."""
    line = library.form(content)
    return form(content) if line is None else other_form(line)


def _reading(content: bytes, many: bool) -> Tuple[int, bool]:
    """How many opcodes are read, and whether reading ends in a STOP at the last byte that leaves nothing on the stack."""
    lines = library.answer(['list', '--json', *modes(many)], content)
    if lines is not None:
        end = fields_of(lines[lines.rfind(b'\n', 0, -1) + 1:])
        return lines.count(OPCODE), end['how'] == 'stopped' and not int(end['kept']) and not left_of(lines)
    with Session(content, many=many) as session:
        try:
            is_stopped = session.run().why == 'end'
        except Refused:
            is_stopped = False
        where = session.where()
        is_last = where.offset == len(content) and not where.on_stack and not where.marks
        return where.place, is_stopped and where.end.is_stopped and is_last
