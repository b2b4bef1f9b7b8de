"""Gives other names to what a pickle imports, and changes nothing else.

Picklers store a text once, also where it is a module's name in one place and data in another. Such a text stays: the import gets one of its own.
"""

from __future__ import annotations

from typing import TYPE_CHECKING, Dict, Iterable, Iterator, List, NamedTuple, Optional, Sequence, Set, Tuple, Union

from ..edits import Edit, EditError, of_value
from ..opcodes import of_kinds, of_rows
from ..records import Reach
from .pairs import Names, Pairs, encoded_names, names_of

if TYPE_CHECKING:
    from .small import Small
    from ..document import Document

__all__ = ['Renaming', 'renamed_of', 'renaming', 'renaming_of']

_STORES, _GETS = of_rows('memoize', 'put'), of_rows('get')
_TEXTS = of_kinds('text', 'text-line', 'string', 'string-line')


class Renaming(NamedTuple):
    """The edits of a rename, the places of texts that stay, and the names of all imports as they have to be then."""

    edits: List[Edit]
    stays: List[int]
    names: List[Optional[Names]]


class _Import(NamedTuple):
    """An import whose names are known, by its offset and its object: the names in the pickle, and those that it is to have."""

    offset: int
    number: Optional[int]
    names: Names
    wanted: Names


def renaming(pickle: 'Document', pairs: Pairs) -> Renaming:
    """The edits that rename what the pickle imports, wherever it imports it."""
    if pickle.reaches.is_part:
        raise EditError(pickle.reaches.behind[0])
    return renaming_of(pickle, pairs, pickle.imports())


def renaming_of(pickle: 'Union[Document, Small]', pairs: Pairs, reaches: Iterable[Reach]) -> Renaming:
    """The same for these lines of imports."""
    names: List[Optional[Names]] = []
    imports: List[_Import] = []
    for reach in reaches:
        known, wanted = renamed_of(reach, pairs)
        names.append(wanted)
        if known and wanted:
            imports.append(_Import(reach.offset, reach.number, known, wanted))
    if all(each.names == each.wanted for each in imports):
        return Renaming([], [], names)
    edits, stays = _Texts(pickle, imports).edits()
    return Renaming(edits, stays, names)


def renamed_of(reach: Reach, pairs: Pairs) -> Tuple[Optional[Names], Optional[Names]]:
    """The names of an import as they are in the pickle, and as they have to be then; None where they are not known."""
    known = names_of(reach.said or reach.name)
    return known, known and (pairs.of([names_of(reach.name), known]) or known)


class _Texts:
    """The texts that imports take from the stack, and what else each of them is."""

    def __init__(self, pickle: 'Union[Document, Small]', imports: Sequence[_Import]) -> None:
        self._pickle = pickle
        self._imports = imports
        self._parts = pickle.names_of_imports()
        self._uses = self._all_uses()
        self._stays: Set[int] = set()

    def _all_uses(self) -> Dict[int, Set[Optional[str]]]:
        """For each text what it is to be: in an import a name, else None, which is to stay as it is."""
        uses: Dict[int, Set[Optional[str]]] = {}
        by_number = {each.number: each.wanted for each in self._imports}
        for number, parts in self._parts.items():
            for part, wanted in zip(parts, by_number.get(number, (None, None))):
                uses.setdefault(part, set()).add(wanted)
        for number in self._data(set(uses)):
            uses[number].add(None)
        return uses

    def _data(self, texts: Set[int]) -> Set[int]:
        """Which of these texts are data: parts of other objects than imports, results, or left where reading ends early."""
        left = self._pickle.left()
        if left is None:
            return texts
        found = texts & left
        return found | self._pickle.held_as_data(texts - found)

    def edits(self) -> Tuple[List[Edit], List[int]]:
        """The edits, from the first place to the last, and the places of the texts that stay."""
        found: Dict[int, List[Edit]] = {}
        for each in self._imports:
            if each.names != each.wanted:
                for edit in self._edits_of(each):
                    same = found.setdefault(edit.place, [])
                    if edit.word == 'insert' or edit not in same:
                        same.append(edit)
        return [edit for place in sorted(found) for edit in found[place]], sorted(self._stays)

    def _edits_of(self, each: _Import) -> Iterator[Edit]:
        """The edits for one import: of its own argument, or of the texts that it takes from the stack."""
        place, parts = self._pickle.lines.place_of(each.offset), self._parts.get(-1 if each.number is None else each.number)
        if parts is None:
            yield Edit('replace', place, self._pickle.lines.name(place), encoded_names(each.wanted))
            return
        shared = [False, False]
        for at, (part, name, wanted) in enumerate(zip(parts, each.names, each.wanted)):
            shared[at] = name != wanted and self._uses[part] != {wanted}
            maker = self._pickle.maker(part)
            assert maker is not None
            if shared[at]:
                self._stays.add(maker)
            elif name != wanted:
                yield self._text('replace', maker, wanted, self._pickle.lines.name(maker))
        if any(shared):
            yield from self._own_texts(place, each.wanted, shared)

    def _own_texts(self, place: int, wanted: Names, shared: List[bool]) -> Iterator[Edit]:
        """The edits that give an import texts of its own, where the opcodes before it push one text each; else both are pushed anew."""
        name = self._pushed(place)
        module = self._pushed(name[0]) if name else None
        if not name or not module:
            yield from (Edit('insert', place, 'POP') for _ in range(2))
            yield from (self._text('insert', place, text) for text in wanted)
            return
        for (first, end), text, is_shared in zip((module, name), wanted, shared):
            if is_shared and end == first + 1 and self._pickle.lines.name(first) in _GETS:
                yield self._text('replace', first, text)
            elif is_shared:
                yield Edit('insert', end, 'POP')
                yield self._text('insert', end, text)

    def _pushed(self, end: int) -> Optional[Tuple[int, int]]:
        """The opcode that pushes a text, perhaps with others that store it, right before a place: where it is, and where these end."""
        first = end - 1
        while first >= 0 and self._pickle.lines.name(first) in _STORES:
            first -= 1
        return (first, end) if first >= 0 and self._pickle.lines.name(first) in _GETS + _TEXTS else None

    def _text(self, word: str, place: int, text: str, now: str = '') -> Edit:
        try:
            value = text.encode('utf-8', 'surrogateescape').decode('utf-8', 'surrogatepass')
        except UnicodeDecodeError as error:
            raise EditError(f'{text!r:.60} is no text that an opcode can hold') from error
        return of_value(self._pickle, Edit(word, place, values=(value,)), now)
