"""What is asked of a small pickle to rename what it imports: three answers of the library, of which only the few lines are read that are needed. (Of
large ones there is a document, which reads some lines at a time.)"""

from __future__ import annotations

from bisect import bisect_left
from typing import Dict, List, NamedTuple, Optional, Set, Tuple

from ..held import holders_of, tails_of
from ..listed import batch_of, offsets_in
from ..made import results_in
from ..opcodes import BY_CODE, BY_NAME
from ..session import Session
from ..tasks import Asked

__all__ = ['MOST', 'Small', 'tails_in_small']

# Pickles of so many bytes are small.
MOST = 1 << 18

_MAKES = frozenset(info.code for info in BY_NAME.values() if info.makes)
_READONLY = BY_NAME['READONLY_BUFFER'].code


class _Line(NamedTuple):
    """An opcode: its name, and the argument of PROTO."""

    name: str
    argument: int


class _Opcodes:
    """The opcodes by their places: their offsets, of the lines of `list --json`, and their codes."""

    def __init__(self, content: bytes, listing: bytes) -> None:
        self._content = content
        self.offsets = offsets_in(batch_of(listing.decode('ascii')).heads)
        self.codes = [content[offset] for offset in self.offsets]

    def __len__(self) -> int:
        return len(self.codes)

    def at(self, place: int) -> _Line:
        """The opcode at a place."""
        return _Line(self.name(place), self._content[min(self.offsets[place] + 1, len(self._content) - 1)])

    def name(self, place: int) -> str:
        """The name of the opcode at a place."""
        return BY_CODE[self.codes[place]].name

    def place_of(self, offset: int) -> int:
        """The place of the opcode that begins at an offset."""
        return bisect_left(self.offsets, offset)


class Small:
    """A small pickle that is read to its end, and a session about it. It has what a document has of it."""

    @classmethod
    def of(cls, content: bytes) -> 'Optional[Small]':
        """A pickle, where it is small, and each of its opcodes makes one object or none whatever it is given."""
        if len(content) > MOST:
            return None
        with Asked(content, None, None) as asked:
            lines = _Opcodes(content, asked.lines(['list', '--json', '--many']))
            return None if _READONLY in lines.codes else cls(content, lines, asked.lines(['objects', '--json', '--many']))

    def __init__(self, content: bytes, lines: _Opcodes, objects: bytes) -> None:
        # The second parts of the lines of objects, and what they hold.
        self.tails = tails_of(objects)
        self.holders = list(holders_of(0, self.tails))
        self._results = set(results_in(objects))
        self.lines = lines
        self._makers = [place for place, code in enumerate(lines.codes) if code in _MAKES]
        self.session = Session(content, many=True)

    def close(self) -> None:
        """Ends the session."""
        self.session.close()

    def left(self) -> Optional[Set[int]]:
        """The results."""
        return self._results

    def names_of_imports(self) -> Dict[int, Tuple[int, int]]:
        """The objects that STACK_GLOBAL takes for names, by the numbers of what it imports."""
        return {number: (parts[0], parts[1]) for number, kind, parts, _, _ in self.holders if kind == 'stack-global'}

    def held_as_data(self, numbers: Set[int]) -> Set[int]:
        """Which of these others hold, and not only as the names of imports."""
        found: Set[int] = set()
        for _, kind, parts, _, put in self.holders:
            found.update(numbers.intersection(put))
            if kind != 'stack-global':
                found.update(numbers.intersection(parts))
        return found

    def makes(self, place: int) -> Optional[int]:
        """The number of the object that the opcode at a place makes, if it makes one."""
        number = self.numbers_before(place)
        return number if self.maker(number) == place else None

    def numbers_before(self, place: int) -> int:
        """How many objects the opcodes before a place make."""
        return bisect_left(self._makers, place)

    def maker(self, number: int) -> Optional[int]:
        """The place of the opcode that makes an object, if there is such an object."""
        return self._makers[number] if 0 <= number < len(self._makers) else None


def tails_in_small(content: bytes) -> List[str]:
    """The second parts of the lines of the objects of a small pickle."""
    with Asked(content, None, None) as asked:
        return tails_of(asked.lines(['objects', '--json', '--many']))
