"""What steps did, by `trace` of the session: which opcodes changed an object, and what the opcodes of some steps changed and stored."""

from __future__ import annotations

from heapq import merge
from itertools import islice
from typing import Callable, Iterable, Iterator, List, NamedTuple, Sequence, Tuple, Union

from ..errors import Refused
from ..object_lines import ObjectLines
from ..opcode_lines import OpcodeLines
from ..opcodes import BY_CODE, TABLE, OpcodeInfo
from ..session import Session
from ..session_records import Step

__all__ = ['Changers', 'Did', 'changers', 'did', 'steps']

# What an opcode changes, by the kind of the change in JSON.
_CHANGED = {'append': 'list', 'add': 'set', 'set': 'dict', 'state': 'object'}
_CHANGERS = [each for each in TABLE if not each.makes and each.taken > 1 and each.takes.partition(', ')[0] == each.leaves]
_STORERS = [each for each in TABLE if not each.makes and each.takes == each.leaves == 'object']
# After so many steps that were looked at it is told.
_TOLD_EACH = 1000
# To say what steps did, so many opcodes are looked at that may change something, and those that store something as far behind as this.
_MOST_LOOKED_AT = 1000
_MOST_WALKED = 20_000


def steps(session: Session, places: Iterable[int], tell: Callable[[str], None]) -> Iterator[Step]:
    """What the opcodes at some places did, up to one that is refused. It moves the cursor."""
    for count, place in enumerate(places, 1):
        if count % _TOLD_EACH == 0:
            tell(f'looked at {count:,} steps')
        try:
            session.goto(place + 1)
        except Refused:
            return
        yield session.trace()


class Changers(NamedTuple):
    """The places of opcodes that changed an object, and how many changes it has that these did not make."""

    places: List[int]
    left: int


class _Search:
    """Looks for the opcodes that changed an object, which has so many changes."""

    def __init__(self, session: Session, number: int, changes: int, tell: Callable[[str], None]) -> None:
        self._session, self._number, self._tell = session, number, tell
        self._changes = changes
        self.places: List[int] = []
        self.left = changes

    def look(self, places: Iterable[int]) -> Iterator[int]:
        """Goes over opcodes until no change is left. Answers how many were found, after each."""
        for step in steps(self._session, places, self._tell) if self.left else ():
            if step.changed is not None and step.changed.number == self._number:
                self.places.append(step.place)
                self.left -= step.changed.changes
                yield len(self.places)
                if not self.left:
                    return

    def has_the_first(self) -> bool:
        """Whether those that were found made all changes that the object has where the cursor is."""
        changes = self._session._talk.fields(b'show %d' % self._number).get('changes', ())
        return len(changes) == self._changes - self.left


def changers(session: Session, lines: OpcodeLines, final: ObjectLines, number: int, until: int, most: int, tell: Callable[[str], None]) -> Changers:
    """The opcodes before a place that changed an object: all of them, or of more than `most` at least the first ones. It moves the cursor.

    Those that stand under as many marks as what made the object are looked at first. They are all that there are once they made as many changes as
    the object has, and the first ones if it had no others where they end.
    """
    counts = final.change_counts(number)
    opcodes = [each for each in _CHANGERS if any(_CHANGED[kind] == each.leaves for kind in counts)]
    search, maker = _Search(session, number, sum(counts.values()), tell), lines.makers.place(number)
    near = list(_under_the_same_marks(lines, opcodes, maker, until))
    for count in search.look(near):
        if count == most + 1 and search.has_the_first():
            break
    else:
        for _ in search.look(sorted(set(_places_of(lines.codes, opcodes, maker, until)).difference(near)) if search.left else ()):
            pass
    return Changers(sorted(search.places), search.left)


def _under_the_same_marks(lines: OpcodeLines, opcodes: Sequence[OpcodeInfo], maker: int, until: int) -> Iterable[int]:
    """The places of opcodes behind one, each under as many marks as the object that this one makes."""
    marks = lines.marks(maker) - BY_CODE[lines.codes[maker]].takes_mark
    return merge(*(lines.right_under(marks + each.takes_mark, each.code, maker, until) for each in opcodes))


def _places_of(codes: Union[bytes, bytearray], opcodes: Sequence[OpcodeInfo], begin: int, until: int) -> Iterator[int]:
    for each in opcodes:
        at = codes.find(each.code, begin, until)
        while at >= 0:
            yield at
            at = codes.find(each.code, at + 1, until)


def _last_places(codes: Union[bytes, bytearray], opcodes: Sequence[OpcodeInfo], begin: int, end: int) -> Iterator[int]:
    """The places of opcodes from one on before another, the last of them first."""
    are = bytes(code in [each.code for each in opcodes] for code in range(256))
    found = codes[begin:end].translate(are)
    at = found.rfind(1)
    while at >= 0:
        yield begin + at
        at = found.rfind(1, 0, at)


class Did(NamedTuple):
    """What some steps did: the objects that were there before and that they changed, each once, the latest change last; whether these are all;
    how many entries they put into the memo, and the last of these, each with its key."""

    changed: List[int]
    is_all: bool
    stored: int
    entries: List[Tuple[int, int]]


def did(session: Session, codes: Union[bytes, bytearray], begin: int, end: int, known: int, most: int) -> Did:
    """What the opcodes from a place on before another did, of which so many objects were known before. It moves the cursor.

    At the end of many steps, not all that changed something are looked at, and none that stored something far behind.
    """
    near = max(begin, end - _MOST_WALKED)
    changing = list(islice(_last_places(codes, _CHANGERS, near, end), _MOST_LOOKED_AT)) if known else []
    storing = list(islice(_last_places(codes, _STORERS, near, end), most))
    seen = list(steps(session, sorted({*changing, *storing}, reverse=True), lambda text: None))
    changed = [step.changed.number for step in seen if step.changed is not None and step.changed.number < known]
    entries = [(step.stored.key, step.stored.number) for step in seen if step.stored is not None]
    count = sum(codes.count(each.code, begin, end) for each in _STORERS)
    looked_at = changing[-1] if len(changing) == _MOST_LOOKED_AT else near
    is_all = not known or all(codes.find(each.code, begin, looked_at) < 0 for each in _CHANGERS)
    return Did(list(dict.fromkeys(changed))[::-1], is_all, count, entries[::-1])
