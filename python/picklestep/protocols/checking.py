"""Whether two pickles make the same, where the opcodes of one stand for those of the other: the program's objects of both are compared one by one, and
the order in which both import and call."""

from __future__ import annotations

import struct
from typing import Dict, Iterator, List, Optional, Sequence, Set, Tuple

from ..answers import Calls, Objects
from ..errors import NotConverted
from ..listing_records import Change, Object
from ..records import Global
from ..values import PLAIN_KINDS, kind_value, unescaped
from .higher import Names

__all__ = ['Checked', 'names_in']

# Kinds of objects that differ in the spelling of their opcodes alone.
_ALIKE: Dict[str, str] = {'text-line': 'text', 'string-line': 'string', 'int-line': 'int', 'long-line': 'int', 'float-line': 'float', 'true': 'int',
                          'false': 'int', 'stack-global': 'global'}
_IMPORTS = ('global', 'stack-global', 'inst')
# What is called where an opcode of a later protocol would make the object.
_CODECS = (b'_codecs', b'encode')
_BUILTINS, _COPYREG = b'builtins', b'copyreg'
# Lines of `calls` that say how an object is filled: what it holds in the end is compared, and in which order.
_FILLS = ('append', 'set', 'add')


def names_in(calls: Calls) -> Dict[int, Tuple[bytes, bytes]]:
    """The names that Python 3 imports, by the number of the object. Those that texts of the pickle do not say are left out."""
    found: Dict[int, Tuple[bytes, bytes]] = {}
    for reach in calls:
        name = reach.name
        if reach.what in ('import', 'inst') and reach.number is not None and isinstance(name, Global):
            if isinstance(name.module, bytes) and isinstance(name.name, bytes):
                found[reach.number] = name.module, name.name
    return found


class Checked:
    """Two pickles, and for each object of the new one the number of the old one that it stands for (None where it has no counterpart). `dotted` has
    the numbers of the old imports whose names are taken apart at their dots, and `is_dotted` says whether those of the new ones are."""

    def __init__(self, old: Objects, new: Objects, stands: Sequence[Optional[int]], old_calls: Calls, new_calls: Calls, dotted: Set[int],
                 is_dotted: bool) -> None:
        self._old, self._new = list(old), list(new)
        self._results = old.results, new.results
        self._stands = stands
        self._calls = old_calls, new_calls
        self._names: Tuple[Names, Names] = names_in(old_calls), names_in(new_calls)
        self._dotted, self._is_dotted = dotted, is_dotted
        # The new object for each old one, and the new ones that only help to make others.
        self._place: Dict[int, int] = {number: place for place, number in enumerate(stands) if number is not None}
        self._helps: Set[int] = set()

    def check(self) -> None:
        """Raises NotConverted where they do not make the same."""
        count = sum(number is not None for number in self._stands)
        if len(self._stands) != len(self._new) or count != len(self._place) or any(number >= len(self._old) for number in self._place):
            raise NotConverted(['it would make other objects'])
        for number, place in self._place.items():
            if not self._is_same(self._old[number], self._new[place]):
                raise NotConverted([f'object #{number} would be another one: {self._old[number].kind}'])
        for number, made in enumerate(self._old):
            if number not in self._place and (made.changes or made.kind not in ('text', 'text-line', 'tuple')):
                raise NotConverted([f'object #{number} would not be made: {made.kind}'])
        for place, stood in enumerate(self._stands):
            if stood is None and place not in self._helps:
                raise NotConverted([f'it would make something else: {self._new[place].kind}'])
        if self._moved(self._results[0]) != self._results[1]:
            raise NotConverted(['it would have another result'])
        if list(self._order(self._calls[0])) != list(self._new_order()):
            raise NotConverted(['it would import and call in another order'])

    # --- Objects ---

    def _moved(self, numbers: Sequence[int]) -> Tuple[int, ...]:
        """The new objects for old ones. (-1 for one that has none, which no object has as its part.)"""
        return tuple(self._place.get(number, -1) for number in numbers)

    def _moved_changes(self, changes: Sequence[Change]) -> Tuple[Change, ...]:
        return tuple(Change(each.how, self._place.get(each.value, -1), None if each.key is None else self._place.get(each.key, -1))
                     for each in changes)

    def _is_same(self, old: Object, new: Object) -> bool:
        """Whether an object is made of the same, or as picklers of another protocol make it."""
        if old.kind in PLAIN_KINDS and new.kind in PLAIN_KINDS:
            is_plain = (old.kind, old.text) == (new.kind, new.text) or _plain(old) == _plain(new)
            return is_plain and self._moved_changes(old.changes) == new.changes
        if old.kind in _IMPORTS and new.kind in _IMPORTS:
            return self._is_same_import(old, new)
        if _ALIKE.get(old.kind, old.kind) == new.kind and (old.text == new.text and self._moved(old.parts) == new.parts):
            return self._moved_changes(old.changes) == new.changes
        if new.kind == 'call' and self._is_called(old, new):
            return True
        return old.kind == new.kind == 'persistent' and self._is_same_id(old, new)

    def _is_same_import(self, old: Object, new: Object) -> bool:
        names = [known.get(number) for known, number in zip(self._names, (old.number, new.number))]
        if names[0] is None or names[0] != names[1] or (old.kind == 'inst') != (new.kind == 'inst'):
            return False
        if b'.' in names[0][1] and (old.number in self._dotted) != self._is_dotted:
            return False
        if new.kind == 'stack-global':
            self._help(new)
        return (old.kind != 'inst' or self._moved(old.parts) == new.parts) and self._moved_changes(old.changes) == new.changes

    def _is_same_id(self, old: Object, new: Object) -> bool:
        """Whether a persistent id is the same text, in a line or not."""
        texts = []
        for made, objects in ((old, self._old), (new, self._new)):
            of_text = made if not made.parts else objects[made.parts[0]]
            if made.parts and of_text.kind not in ('text', 'text-line'):
                return False
            texts.append(_plain(of_text)[1] if made.parts else bytes(made.text).decode('ascii', 'replace'))  # type: ignore[arg-type]
        self._help(new)
        return texts[0] == texts[1] and self._moved_changes(old.changes) == new.changes

    # --- What is called where a protocol has no opcode ---

    def _is_called(self, old: Object, new: Object) -> bool:
        """Whether a call gives what an opcode of a later protocol makes."""
        if old.kind in _IMPORTS:
            return self._is_got(old, new)
        name, given = self._call(new)
        if name is None or given is None:
            return False
        is_like = False
        if old.kind == 'bytes':
            is_like = not old.changes and not new.changes and self._encoded(new) == old.value
        elif old.kind == 'bytearray' and name == (_BUILTINS, b'bytearray'):
            is_like = old.changes == new.changes == () and self._bytes_of(given.parts) == old.text
        elif old.kind in ('set', 'frozenset') and name == (_BUILTINS, old.kind.encode('ascii')):
            is_like = self._is_collected(old, new, given)
        elif old.kind in ('new', 'new-ex') and name[0] == _COPYREG:
            is_like = self._is_new(old, name[1], given) and self._moved_changes(old.changes) == new.changes
        if is_like:
            self._help(new)
        return is_like

    def _call(self, new: Object) -> Tuple[Optional[Tuple[bytes, bytes]], Optional[Object]]:
        """The names of what a call calls, and the tuple that it is given."""
        if new.kind != 'call':
            return None, None
        given = self._new[new.parts[1]]
        return self._names[1].get(new.parts[0]), given if given.kind == 'tuple' and not given.changes else None

    def _help(self, new: Object) -> None:
        """Notes what an object is made of that has no counterpart, with the texts of names."""
        helps = [number for number in new.parts if self._stands[number] is None]
        self._helps.update(helps)
        for number in helps:
            if self._new[number].kind == 'stack-global':
                self._help(self._new[number])

    def _encoded(self, new: Object) -> Optional[bytes]:
        """The bytes that a call of `_codecs.encode` gives, or one of `bytes` without arguments."""
        name, given = self._call(new)
        if given is None:
            return None
        self._help(new)
        if name == (_BUILTINS, b'bytes') and not given.parts:
            return b''
        if name != _CODECS or len(given.parts) != 2:
            return None
        self._help(given)
        text, encoding = (_plain(self._new[number])[1] for number in given.parts)
        return text.encode('latin1') if isinstance(text, str) and encoding == 'latin1' else None

    def _bytes_of(self, parts: Sequence[int]) -> Optional[bytes]:
        """The bytes that a byte array is made of."""
        if len(parts) != 1:
            return b'' if not parts else None
        made = self._new[parts[0]]
        if self._stands[made.number] is None:
            self._helps.add(made.number)
        if made.kind == 'bytes' and isinstance(made.text, bytes):
            return made.text
        return self._encoded(made)

    def _is_collected(self, old: Object, new: Object, given: Object) -> bool:
        """Whether a set is made of a list of the same items."""
        if len(given.parts) != 1 or new.changes or self._stands[given.parts[0]] is not None:
            return False
        items = self._new[given.parts[0]]
        self._help(given)
        wanted = [*old.parts, *(each.value for each in old.changes)]
        return (items.kind == 'list' and not items.parts and all(each.how == 'append' for each in items.changes)
                and all(each.how == 'add' for each in old.changes) and [each.value for each in items.changes] == list(self._moved(wanted)))

    def _is_new(self, old: Object, name: bytes, given: Object) -> bool:
        """Whether a function of copyreg is given the class and the arguments."""
        of_class, arguments = old.parts[:2]
        if name == b'__newobj__' and old.kind == 'new':
            parts = self._old[arguments]
            return parts.kind == 'tuple' and not parts.changes and self._moved([of_class, *parts.parts]) == given.parts
        if name != b'__newobj_ex__' or len(given.parts) != 3:
            return False
        if old.kind == 'new-ex':
            return self._moved(old.parts) == given.parts
        keywords = self._new[given.parts[2]]
        self._help(given)
        return self._moved(old.parts) == given.parts[:2] and keywords.kind == 'dict' and not keywords.changes and not keywords.parts

    def _is_got(self, old: Object, new: Object) -> bool:
        """Whether the calls of `getattr` go to what an import takes apart at its dots."""
        wanted = self._names[0].get(old.number)
        names: List[str] = []
        while new.kind == 'call':
            name, given = self._call(new)
            if name != (_BUILTINS, b'getattr') or given is None or len(given.parts) != 2 or new.changes:
                return False
            self._help(new)
            self._help(given)
            names.append(str(_plain(self._new[given.parts[1]])[1]))
            new = self._new[given.parts[0]]
        first = self._names[1].get(new.number)
        if first is None or wanted is None or old.changes or new.changes or b'.' in first[1] or old.number not in self._dotted:
            return False
        return (first[0], b'.'.join([first[1], *(each.encode('utf-8') for each in reversed(names))])) == wanted

    # --- The order of what is done ---

    def _order(self, calls: Calls) -> Iterator[Tuple[str, Optional[int]]]:
        """What is imported, called and given a state, by the number of the object."""
        for reach in calls:
            if reach.what not in _FILLS:
                yield ('made', reach.number) if reach.number is not None else (reach.what, reach.target)

    def _new_order(self) -> Iterator[Tuple[str, Optional[int]]]:
        """The same of the new pickle, by the numbers of the old one, without what opcodes of the old one make."""
        for what, place in self._order(self._calls[1]):
            number = None if place is None else self._stands[place]
            if number is not None and (what != 'made' or self._old[number].kind not in ('bytes', 'bytearray', 'set', 'frozenset')):
                yield what, number


def _plain(made: Object) -> Tuple[str, object, Optional[type]]:
    """The kind, the value and its type of a plain object, whatever its spelling."""
    kind = _ALIKE.get(made.kind, made.kind)
    if kind == 'string':
        assert isinstance(made.text, bytes)
        return kind, unescaped(made.text) if made.kind == 'string-line' else made.text, bytes
    value = kind_value(made.kind, made.text) if made.kind in PLAIN_KINDS else None
    return kind, struct.pack('>d', value) if isinstance(value, float) else value, type(value)
