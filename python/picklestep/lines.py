"""The program's lines, kept as one text with an index of where they begin. Long texts in them are cut, so that they cost little."""

from __future__ import annotations

from array import array
from bisect import bisect_left, bisect_right
from itertools import accumulate, compress, islice
from typing import Callable, Dict, Iterable, Iterator, List, Tuple, Union

from .opcodes import TABLE

__all__ = ['CODE_BY_NAME', 'CUT', 'Lines', 'Makers', 'cut_text', 'silent']

# The most bytes that are kept of a text.
CUT = 500
_BLOCK = 1 << 20
_PIECE = 1 << 11


class Lines:
    """Lines by their numbers. `whole` is how many bytes they had before long texts were cut.

    Of where lines begin only so much is kept that one of them is found in a piece of the text: of each piece how many lines end before it.
    """

    def __init__(self) -> None:
        self.text = bytearray()
        self.whole = 0
        self._ended = array('Q', [0])
        self._count = 0

    def __len__(self) -> int:
        return self._count

    def add(self, lines: bytes) -> None:
        """Adds lines, each with its newline."""
        self.text += lines
        text, known = self.text, len(self._ended) - 1
        counts = (text.count(b'\n', at, at + _PIECE) for at in range(known * _PIECE, len(text) - _PIECE + 1, _PIECE))
        self._ended.extend(islice(accumulate(counts, initial=self._ended[-1]), 1, None))
        self._count = self._ended[-1] + text.count(b'\n', (len(self._ended) - 1) * _PIECE)

    def start(self, at: int) -> int:
        """Where a line begins in the text; of the number of lines, where the next one would begin."""
        if at == self._count:
            return len(self.text)
        piece = max(0, bisect_left(self._ended, at) - 1)
        begin = piece * _PIECE
        for _ in range(at - self._ended[piece]):
            begin = self.text.index(b'\n', begin) + 1
        return begin

    def raw(self, at: int) -> str:
        """A line."""
        start = self.start(at)
        return self.text[start:self.text.index(b'\n', start)].decode('ascii')

    def span(self, at: int) -> Tuple[int, int]:
        """Where a line begins and ends in the text."""
        start = self.start(at)
        return start, self.text.index(b'\n', start)

    def number_at(self, position: int) -> int:
        """Which line holds a position of the text."""
        piece = min(position // _PIECE, len(self._ended) - 1)
        return self._ended[piece] + self.text.count(b'\n', piece * _PIECE, position)

    def all(self) -> Iterator[bytes]:
        """The lines, one after another."""
        begin = 0
        while begin < len(self.text):
            end = self.text.find(b'\n', begin + _BLOCK) + 1 or len(self.text)
            yield from bytes(self.text[begin:end - 1]).split(b'\n')
            begin = end


def cut_text(text: str, most: int, dropped: int = 0) -> str:
    """A line of the program, with its beginning alone where it has more letters. So many were left out of its last text before. What comes after the last
    quote is kept, since it is the program's own.

    >>> cut_text("import 'os' 'getcwdgetcwd' as #0", 20)
    "import 'os' 'getcwdg .. 5 bytes more' as #0"
    """
    if len(text) + dropped <= most or "'" not in text[:most]:
        return text
    last = text.rindex("'")
    return text if last <= most else f'{text[:most]} .. {dropped + last - most} bytes more{text[last:]}'


def silent(text: str) -> None:
    """Says nothing of how far it is."""


# Opcodes that make no object. READONLY_BUFFER makes one or none.
MAKE_NONE = frozenset(opcode.name for opcode in TABLE if not opcode.makes)

CODE_BY_NAME: Dict[str, int] = {opcode.name: opcode.code for opcode in TABLE}
# What an opcode makes, by its code: none, an object, or perhaps one.
_NONE, _ONE, _PERHAPS = range(3)
_MAKES = bytearray(256)
for _opcode in TABLE:
    _MAKES[_opcode.code] = _NONE if _opcode.name in MAKE_NONE else _PERHAPS if _opcode.name == 'READONLY_BUFFER' else _ONE
_STEP = 256  # places, of which it is known how many are before them


class Makers:
    """Which opcodes make objects. `codes` has the codes of all opcodes, which may be more until `finish`."""

    def __init__(self, codes: Union[bytes, bytearray]) -> None:
        self._codes = codes
        self._makes = bytearray()  # by the places
        self._sums: List[int] = []

    def finish(self, views: Callable[[], int], makes_view: Callable[[int, int], bool]) -> None:
        """Settles which these are. `views` answers how many of the objects are views that can only be read.

        READONLY_BUFFER makes no object where its own can only be read already. Where some do not, `makes_view` is given the place of each
        and the number that an object would have there, and answers whether it makes one.
        """
        self._makes = bytearray(self._codes).translate(_MAKES)
        count = self._makes.count(_PERHAPS)
        are_all = bool(count) and count == views()
        number = begin = 0
        for place in _found(self._makes, _PERHAPS):
            number += self._makes.count(_ONE, begin, place)
            self._makes[place] = _ONE if are_all or makes_view(place, number) else _NONE
            begin = place
        self._sums = list(accumulate(self._makes.count(_ONE, at, at + _STEP) for at in range(0, len(self._makes), _STEP)))

    def __len__(self) -> int:
        return self._sums[-1] if self._sums else 0

    def makes(self, place: int) -> bool:
        """Whether the opcode at a place makes an object."""
        return self._makes[place] == _ONE

    def of_makers(self, column: Iterable[int]) -> Iterator[int]:
        """The entries of a column by places that are those of opcodes which make objects: by the numbers of these."""
        return compress(column, self._makes)  # (what is settled is _ONE, which is 1, or _NONE, which is 0)

    def before(self, place: int) -> int:
        """How many objects are made before a place."""
        step = min(place, len(self._makes)) // _STEP
        return (self._sums[step - 1] if step else 0) + self._makes.count(_ONE, step * _STEP, place)

    def place(self, number: int) -> int:
        """The place of the opcode that makes the object of a number."""
        step = bisect_right(self._sums, number)
        left = number - (self._sums[step - 1] if step else 0)
        return next(islice(_found(self._makes, _ONE, step * _STEP), left, None))


def _found(data: bytearray, byte: int, begin: int = 0) -> Iterator[int]:
    """Where a byte is, from a place on."""
    at = data.find(byte, begin)
    while at >= 0:
        yield at
        at = data.find(byte, at + 1)
