"""One pickle, whose imports get other names: the edits are those of a session, and what they make is compared with what was there."""

from __future__ import annotations

import contextlib
import os
from bisect import bisect_right
from dataclasses import dataclass
from itertools import chain, islice, zip_longest
from typing import TYPE_CHECKING, Any, Generator, Iterable, Iterator, List, NamedTuple, Optional, Sequence, Set, Tuple, Union

from ..addresses import opened_in
from ..answers import Calls
from ..edits import Edit
from ..errors import NotRenamed
from ..held import Holder, fields_of_tails, holders_of, is_holder, short_tails
from ..listed import starts_in
from ..opcodes import BY_CODE
from ..opens import split
from ..pickle_lines import read_calls
from ..reaches import IMPORTS, fields_of, reach_of, said_in
from ..records import Reach
from ..session import Session
from ..sources import Source, content_of
from ..tasks import Asked
from .pairs import Given, Names, Pairs, encoded_names, names_of, pairs_of
from .renames import renamed_of, renaming_of
from .small import Small, tails_in_small

if TYPE_CHECKING:
    from ..document import Document
    from ..listed import Fields

__all__ = ['Renamed', 'RenamedImport', 'rename', 'renamed']

# How the lines of imports begin.
_IMPORTS = tuple(b'{"kind":"%b"' % kind.encode('ascii') for kind in IMPORTS)
# The fields that are numbers of objects, and how those begin that are not the same for all names.
_NUMBERS = ('object', 'callee', 'of')
_OF_NAMES = ('module', 'name', 'for_', 'offset', 'text')
# Some objects: the second parts of their lines, and those that hold others.
_Some = Tuple[List[str], Iterable[Holder]]
# The opcodes whose argument has the names.
_WITH_NAMES = ('GLOBAL', 'INST')


@dataclass(frozen=True)
class RenamedImport:
    """An import that has another name: the offset of its opcode in the pickle as it was, and both names, each as `module:name`.

    >>> str(RenamedImport(2, 'old:A', 'new:A'))
    '2: old:A -> new:A'
    """

    offset: int
    old: str
    new: str

    def __str__(self) -> str:
        return f'{self.offset}: {self.old} -> {self.new}'


@dataclass(frozen=True)
class Renamed:
    """What `rename` made: the bytes, and the imports that have other names, in their order. Without any the bytes are those of the source.

    >>> rename(b'cold\\nA\\n.', {'other': 'new'})
    Renamed(content=b'cold\\nA\\n.', imports=())
    """

    content: bytes
    imports: Tuple[RenamedImport, ...]


def rename(source: Source, pairs: Given) -> Renamed:
    """A pickle whose imports have other names, or several that follow one another. All else in it stays, also a text that is data and has the same
    letters.

    `pairs` has old names, each with the new one: a module (with all below it), `module.*` (what is below it alone), `module:name` (one name), `module:*`
    (all names in it) or `module:name.*` (names below that name). Of several the first that fits an import counts. Raises ValueError where one is no
    pair, and NotRenamed where the pickle does not read to its end, where not only these names would be others, or for the path of a container: give the
    address of a pickle in it, whose bytes alone you get. (The word `rename` writes archives.)

    >>> made = rename(b'\\x80\\x02coldapp.tasks\\nsend\\n.', {'oldapp': 'newapp'})
    >>> made.content
    b'\\x80\\x02cnewapp.tasks\\nsend\\n.'
    >>> made.imports
    (RenamedImport(offset=2, old='oldapp.tasks:send', new='newapp.tasks:send'),)
    """
    wanted = pairs_of(pairs)
    found = opened_in(source)
    if found is not None and isinstance(source, (str, os.PathLike)) and split(os.fsdecode(source)) is None:
        raise NotRenamed(f'it is a container, and nothing is written into one: the pickle in it has the address {found.address}')
    return renamed(content_of(source) if found is None else found.content, wanted)


def renamed(content: bytes, pairs: Pairs) -> Renamed:
    """The same of bytes. Raises NotRenamed."""
    before = _calls_of(content)
    why = _why_not(before)
    if why:
        raise NotRenamed(why)
    found = [_Import(reach, *renamed_of(reach, pairs)) for reach in _imports_in(before)]
    changed = [each for each in found if each.wanted != each.names]
    if not changed:
        return Renamed(content, ())
    try:
        made = _edited(content, pairs, changed)
    except ValueError as error:  # (no opcode there can hold a name)
        raise NotRenamed(str(error)) from error
    _compare(before, _calls_of(made), [each.wanted for each in found])
    return Renamed(made, tuple(RenamedImport(each.reach.offset, _joined(each.names), _joined(each.wanted)) for each in changed))


class _Import(NamedTuple):
    """A line of an import, its names, and those that it is to have."""

    reach: Reach
    names: Optional[Names]
    wanted: Optional[Names]


def _joined(names: Optional[Names]) -> str:
    return ':'.join(names or ())


def _calls_of(content: bytes) -> Calls:
    """What all pickles in some bytes import and call. Raises NotRenamed where it is too much."""
    with Asked(content, None, None) as asked, contextlib.closing(asked.blocks(['calls', '--json'])) as blocks:
        lines, is_part = read_calls(blocks, lambda: asked.blocks(['calls']))
    if is_part:
        raise NotRenamed('the lines about its imports and calls are too long to be read')
    return Calls(lines)


def _imports_in(calls: Calls) -> Iterator[Reach]:
    """The imports among the lines of pickles that read to their ends. No other line is read."""
    lines = calls.json
    for at in sorted(chain.from_iterable(starts_in(lines, begins) for begins in _IMPORTS)):
        yield reach_of(fields_of(lines[at:lines.index(b'\n', at)]))


def _why_not(calls: Calls) -> str:
    """Why a pickle is not renamed: its lines do not show all that a loader may import."""
    if not calls.end.is_stopped:
        return f'reading ends early: {calls.end.text}'
    return calls.mixed or calls.warning or ''


# --- Edits ---

def _edited(content: bytes, pairs: Pairs, changed: Sequence[_Import]) -> bytes:
    """The bytes with other names. Where opcodes have the names themselves, nothing else has to be known. Raises ValueError."""
    names = [BY_CODE[content[each.reach.offset]].name for each in changed]
    if not set(names) <= set(_WITH_NAMES):
        return _by_texts(content, pairs, changed)
    with Session(content, many=True) as session:
        for each, name in zip(reversed(changed), reversed(names)):  # (so no edit moves what is edited next)
            session.replace(name, *encoded_names(each.wanted), at=each.reach.offset)
        return session.bytes()


def _large(content: bytes) -> 'Document':
    """A large pickle. (Most are small, and need nothing of what makes this.)"""
    from ..document import Document
    document = Document(content, '', many=True)
    if document.reaches.is_part:
        document.close()
        raise NotRenamed(document.reaches.behind[0])
    return document


def _by_texts(content: bytes, pairs: Pairs, imports: Sequence[_Import]) -> bytes:
    """The same where texts are the names. What the pickle makes then is compared, too."""
    with contextlib.closing(Small.of(content) or _large(content)) as document:
        found = renaming_of(document, pairs, [each.reach for each in imports])
        changed = _Changed(document, found.edits, imports)
        # (From the last place to the first no edit moves what is edited next. At one place the opcode that is there comes first.)
        for edit in sorted(reversed(found.edits), key=lambda edit: (-edit.place, edit.word != 'replace')):
            put = document.session.replace if edit.word == 'replace' else document.session.insert
            put(edit.place, edit.name, *edit.values)
        made = document.session.bytes()
        if isinstance(document, Small):
            changed.compare([(document.tails, document.holders)], [tails_in_small(made)])
        else:
            with contextlib.closing(_objects_of(made)) as after, contextlib.closing(_objects_of(content)) as before:
                changed.compare(_with_holders(before), after)
    return made


def _objects_of(content: bytes) -> Generator[List[str], None, None]:
    """The second parts of the lines of all objects, some at a time, with the beginnings of long arguments alone."""
    with Asked(content, None, None) as asked, contextlib.closing(asked.blocks(['objects', '--json', '--many'])) as blocks:
        yield from short_tails(blocks)


def _with_holders(objects: Iterable[List[str]]) -> Iterator[_Some]:
    """The same with what they hold."""
    first = 0
    for tails in objects:
        yield tails, holders_of(first, tails)
        first += len(tails)


# --- What is to be the same ---

def _compare(before: Calls, after: Calls, wanted: Sequence[Optional[Names]]) -> None:
    """Raises NotRenamed where a pickle does not import these, or where its other lines are not as before."""
    if _why_not(after) or [names_of(reach.said or reach.name) for reach in _imports_in(after)] != wanted:
        raise NotRenamed('not only these imports would have other names')
    for old, new in zip_longest(before.fields(), after.fields()):
        if old is None or new is None or old['text'] != new['text'] and not _are_alike(old, new):
            raise NotRenamed(f'another line than that of an import would be another one: {said_in(old or new):.100}')


def _are_alike(old: Any, new: Any) -> bool:
    """Whether two lines are the same but for the names of imports, the numbers of objects, and the offset; or what stands in them.

    >>> line = {'kind': 'call', 'offset': 9, 'module': 'a', 'name': 'b', 'args': [{'kind': 'text', 'value': 'c'}], 'object': 3}
    >>> _are_alike(line, {**line, 'offset': 7, 'module': 'new', 'object': 4}), _are_alike(line, {**line, 'args': []}), _are_alike(line, {**line, 'more': 1})
    (True, False, False)
    """
    if isinstance(old, list) and isinstance(new, list):
        return len(old) == len(new) and all(map(_are_alike, old, new))
    if not isinstance(old, dict) or not isinstance(new, dict):
        return bool(old == new)
    if old.keys() != new.keys() and set(_compared(old)) != set(_compared(new)):
        return False
    others = [key for key, value in old.items() if key not in new or value != new[key]]
    return all(key in _NUMBERS or _are_alike(old[key], new[key]) for key in _compared(others))


def _compared(fields: Iterable[str]) -> Iterator[str]:
    return (key for key in fields if not key.startswith(_OF_NAMES))


class _Changed:
    """Which objects of a pickle are others after edits of texts that name imports."""

    def __init__(self, document: 'Union[Document, Small]', edits: Sequence[Edit], imports: Sequence[_Import]) -> None:
        made = [document.makes(edit.place) if edit.word == 'replace' else None for edit in edits]
        self._imports: Set[Optional[int]] = {each.reach.number for each in imports}
        # The texts that are replaced, which imports alone may hold.
        self._texts = {number for number in made if number is not None} - self._imports
        # How many objects were made before each that is new.
        self._new = sorted(document.numbers_before(edit.place) for edit, number in zip(edits, made) if number is None and edit.name != 'POP')

    def compare(self, before: Iterable[_Some], after: Iterable[List[str]]) -> None:
        """Raises NotRenamed where other objects are not as they were, but for their numbers. They come some at a time."""
        new = {number + at for at, number in enumerate(self._new)}
        left: Iterator[str] = chain.from_iterable(after)
        if new:
            left = (tail for number, tail in enumerate(left) if number not in new)
        first = 0
        for tails, holders in before:
            others = list(islice(left, len(tails)))
            found = [at for at, (tail, other) in enumerate(zip(tails, others)) if tail != other or new and is_holder(tail)]
            wrong = {first + at for at in found if not self._is_same(first + at, tails[at], others[at])}.union(self._holding(holders))
            if len(others) < len(tails):
                wrong.add(first + len(others))
            if wrong:
                raise NotRenamed(f'object #{min(wrong)} would be another one')
            first += len(tails)
        if next(left, None) is not None:
            raise NotRenamed(f'object #{first} would be another one')

    def _holding(self, holders: Iterable[Holder]) -> Set[int]:
        """Which objects that are no imports hold one of the texts."""
        return set() if not self._texts else {
            number for number, _, parts, _, put in holders
            if number not in self._imports and not (self._texts.isdisjoint(parts) and self._texts.isdisjoint(put))}

    def _is_same(self, number: int, tail: str, other: str) -> bool:
        """Whether a line is that of the same object; of an import or its text, whether the same was done to it."""
        both: List[Fields] = [{'parts': [], 'changes': [], **each} for each in fields_of_tails([tail, other])]
        fields, others = both
        parts = [*map(self._moved, fields['parts'])]
        changes = [{name: value if name == 'kind' else self._moved(value) for name, value in change.items()} for change in fields['changes']]
        is_renamed = number in self._imports or number in self._texts
        return changes == others['changes'] and (is_renamed or {**fields, 'parts': parts, 'changes': changes} == others)

    def _moved(self, number: int) -> int:
        """The number that an object has after the edits."""
        return number + bisect_right(self._new, number)
