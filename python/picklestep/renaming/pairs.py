"""Which names imports get: pairs of an old name and a new one, as `rename` takes them."""

from __future__ import annotations

from typing import Iterable, List, Mapping, NamedTuple, Optional, Sequence, Tuple, Union

from ..edits import EditError
from ..records import Global, Name

__all__ = ['Names', 'Pairs', 'encoded_names', 'names_of', 'pairs_in', 'pairs_of']

# A module, and a name in it.
Names = Tuple[str, str]
# What a pair is given as: an old name and a new one.
Given = Union[Mapping[str, str], Iterable[Tuple[str, str]]]

_BELOW, _ALL = '.*', '*'


class _Pair(NamedTuple):
    """An old name and a new one. Without names, modules are renamed; `is_below` leaves out what has the old name itself."""

    module: str
    name: Optional[str]
    new_module: str
    new_name: Optional[str]
    is_below: bool

    def of(self, module: str, name: str) -> Optional[Names]:
        """What these names become; None where they are others."""
        if self.name is None or self.new_name is None:
            found = _moved(module, self.module, self.new_module, self.is_below, not self.is_below)
            return None if found is None else (found, name)
        if module != self.module:
            return None
        if self.name == _ALL:
            return self.new_module, name
        found = _moved(name, self.name, self.new_name, self.is_below, False)
        return None if found is None else (self.new_module, found)


def _moved(text: str, old: str, new: str, is_below: bool, is_any: bool) -> Optional[str]:
    """A dotted name that is the old one, or one below it: which of them is said by the last two."""
    if text == old:
        return None if is_below else new
    return new + text[len(old):] if (is_below or is_any) and text.startswith(old + '.') else None


class Pairs:
    """Pairs, of which the first that fits an import says what it becomes.

    >>> pairs = pairs_of({'old.keep': 'old.keep', 'old': 'new', 'a:B': 'C'})
    >>> pairs.of([('old.tasks', 'send')]), pairs.of([('old.keep', 'x')]), pairs.of([('a', 'B')]), pairs.of([('older', 'x')])
    (('new.tasks', 'send'), ('old.keep', 'x'), ('a', 'C'), None)
    """

    def __init__(self, pairs: Sequence[_Pair]) -> None:
        self._pairs = tuple(pairs)

    def of(self, known: Iterable[Optional[Names]]) -> Optional[Names]:
        """The new names of an import that is known by these (in Python 3, and in the pickle). None where no pair fits."""
        names = [each for each in known if each]
        found = (pair.of(*each) for pair in self._pairs for each in names)
        return next(filter(None, found), None)

    def stand_in(self, content: bytes) -> bool:
        """Whether an old module stands in some bytes, letter by letter."""
        return any(pair.module.encode('utf-8', 'surrogateescape') in content for pair in self._pairs)


def pairs_of(given: Given) -> Pairs:
    """Pairs of these names. Raises EditError, a ValueError, where one is no pair.

    >>> pairs_of([('old.*', 'new.*')]).of([('old.a', 'x')]), pairs_of([('m:A.*', 'n:B.*')]).of([('m', 'A.C')])
    (('new.a', 'x'), ('n', 'B.C'))
    >>> pairs_of([('old', 'new:')])
    Traceback (most recent call last):
    picklestep.edits.EditError: 'new:' is no new name: give a module
    """
    return Pairs([_pair(*each) for each in (given.items() if isinstance(given, Mapping) else given)])


def pairs_in(text: str) -> Pairs:
    """The pairs in the lines of a file: two names with blanks between them. What is behind a `#` says nothing. Raises EditError.

    >>> pairs_in('# moved\\n\\nold new  # all of it\\n').of([('old', 'x')])
    ('new', 'x')
    """
    found = []
    for number, line in enumerate(text.split('\n'), 1):
        words = line.partition('#')[0].split()
        try:
            if words:
                found.append(_pair(*words) if len(words) == 2 else _pair_of_words(words))
        except EditError as error:
            raise EditError(f'line {number}: {error}') from None
    if not found:
        raise EditError('there are no pairs')
    return Pairs(found)


def _pair_of_words(words: Sequence[str]) -> _Pair:
    raise EditError(f'{" ".join(words)[:60]!r} is no pair: write OLD NEW')


def _pair(old: str, new: str) -> _Pair:
    """A pair. A new name without a module stays in its module."""
    is_name = ':' in old
    first, second = _Said.of(old), _Said.of(new if ':' in new or not is_name else f'{old.partition(":")[0]}:{new}')
    if first is None:
        raise EditError(f'{old[:60]!r} is no old name: give MODULE or MODULE:NAME')
    if second is None or (second.name is None) == is_name or not second.is_plain():
        raise EditError(f'{new[:60]!r} is no new name: give {"MODULE:NAME or NAME" if is_name else "a module"}')
    if first.ending != second.ending:
        raise EditError(f'{new[:60]!r} is no new name: it has to end in {first.ending!r} as the old one does' if first.ending else
                        f'{new[:60]!r} is no new name: it may end in {second.ending!r} only if the old one does')
    return _Pair(first.module, first.name, second.module, second.name, first.ending == _BELOW)


class _Said(NamedTuple):
    """A module, perhaps a name in it, and how the last of them ends: in `.*` for what is below it, in `*` for all names, or in neither."""

    module: str
    name: Optional[str]
    ending: str

    @classmethod
    def of(cls, text: str) -> 'Optional[_Said]':
        """What a text says; None where it has an empty module or name, or a `*` elsewhere."""
        module, colon, name = text.partition(':')
        ending = _ALL if colon and name == _ALL else _BELOW if text.endswith(_BELOW) else ''
        if ending == _BELOW:
            module, name = (module, name[:-len(_BELOW)]) if colon else (module[:-len(_BELOW)], name)
        if not module or colon and not name or '*' in module or '*' in name and ending != _ALL:
            return None
        return cls(module, name if colon else None, ending)

    def is_plain(self) -> bool:
        """Whether something can have these names: each part between dots has letters, and none of them is a colon."""
        return all(each and ':' not in each for name in (self.module, self.name) if name is not None for each in name.split('.'))


def names_of(name: Optional[Name]) -> Optional[Names]:
    """What is imported as two texts, if both are known. Bytes that are no text are kept by escapes of Python's own."""
    if not isinstance(name, Global) or not isinstance(name.module, bytes) or not isinstance(name.name, bytes):
        return None
    return name.module.decode('utf-8', 'surrogateescape'), name.name.decode('utf-8', 'surrogateescape')


def encoded_names(names: Optional[Names]) -> List[bytes]:
    """The names as they stand in a pickle."""
    return [text.encode('utf-8', 'surrogateescape') for text in names or ()]
