"""Finds the pickles at an address, or below it: those that `scan` finds there, by its own readers.

What is at other places of the file is left out, as far as a container says where its members are.
"""

from __future__ import annotations

from dataclasses import dataclass, replace
from typing import Dict, Iterable, Iterator, List, Optional, Sequence, Tuple

from ..opens import BETWEEN, is_at_server, split
from ..sources import LIMIT
from ..wording import shown
from .blobs import Blob, Budget, BytesBlob, LimitMet, Limits
from .canonical import NotCanonical
from .canonical.layouts import layout_of
from .containers import PACKED, Held
from .looking import OF_ARRAYS, Looker, Options, Unpacked, look_by
from .packed import Unpacking
from .results import Note, Pickle, Place, Result
from .stores.address import Address
from .stores.dbm_files import has_index
from .stores.server import Server, Wanted, looked_by
from .stores.values import Values
from .wording import place_of

__all__ = ['Arrays', 'Finding', 'Found', 'arrays_in', 'content_at', 'find', 'find_at_server', 'look_at', 'server_name']

# So many pickles are kept of a file: a database may have millions.
_MOST = 100_000
_MOST_HELD = 2


@dataclass(frozen=True)
class Found:
    """A pickle in a file: the names that lead to it, how many bytes it has, and the ranges of these that are no opcodes, each as an offset and a
    length.

    `content` are its bytes, of one that is asked for and of one that is alone. `is_cut` is set where there are more, which a limit keeps from
    being unpacked. `kind` is the innermost container that it is in.
    """

    where: Place
    size: int
    raw: Tuple[Tuple[int, int], ...] = ()
    content: Optional[bytes] = None
    is_cut: bool = False
    kind: str = ''

    @property
    def name(self) -> str:
        """The names as `scan` prints them."""
        return _name_of(self.where)

    @property
    def is_of_arrays(self) -> bool:
        """Whether these are pickles that joblib has within arrays of another one."""
        return self.where[-1:] == (OF_ARRAYS,)


@dataclass(frozen=True)
class Finding:
    """What is at an address. `kinds` are the containers that it is, `content` its bytes where they are held, `missed` has a line for each thing that
    was not looked at, `error` says why the file cannot be read, and `name` is that of the file, or the URL of a server without its password.
    `is_of_several` says that other bytes have the same address, as in an archive with two members of one name."""

    found: Tuple[Found, ...]
    kinds: Tuple[str, ...]
    content: Optional[bytes]
    missed: Tuple[str, ...]
    error: Optional[str]
    name: str
    is_of_several: bool = False


def find(path: str, address: str = '', everywhere: bool = False, limits: Optional[Limits] = None, of_any: bool = False) -> Finding:
    """The pickles at an address in a file and below it; without one, all of them. With `of_any` the bytes at the address are held, whatever they are."""
    options = Options(everywhere=everywhere) if limits is None else Options(limits, everywhere=everywhere)
    finder = _Finder(options, path, address)
    finder.holds_any = of_any
    result = look_by(finder, path)
    return finder.finding(path, result.notes, result.error)


def find_at_server(url: str, address: str = '', limits: Optional[Limits] = None) -> Finding:
    """The pickles at an address of the values of a server and below it; without one, all of them. A value that has a key of its own is asked for by
    that; of a database the whole column is read that has the value."""
    server = Address(url)
    finder = _Finder(Options() if limits is None else Options(limits), str(server), address, server.split.scheme.lower())
    result = looked_by(finder, server, lambda connection, values: _look_at_keys(connection, values, finder, address))
    return finder.finding(str(server), result.notes, result.error)


def look_at(word: str, options: Options) -> Result:
    """All that `scan` says of what is at an address, in a file or on a server, and below it."""
    parts = split(word)
    assert parts is not None
    name, address = parts
    if is_at_server(word):
        server = Address(name)
        finder = _Finder(options, str(server), address, server.split.scheme.lower())
        result = looked_by(finder, server, lambda connection, values: _look_at_keys(connection, values, finder, address))
    else:
        finder = _Finder(options, name, address)
        result = look_by(finder, name)
    return finder.narrowed(result)


def server_name(url: str) -> str:
    """The URL of a server without its password."""
    return str(Address(url))


def _look_at_keys(server: Server, values: Values, finder: '_Finder', address: str) -> int:
    """Looks at the keys of a server that are wanted: by themselves where the address says which they are, else all of them in turn."""
    count = 0
    named = server.keys_named(_beginnings(address)) if address else None
    for keys in server.parts(Wanted()) if named is None else [named]:
        wanted = server.narrowed(keys, finder.wants)
        if wanted is not None:
            count += server.look(values, wanted)
    return count


def _beginnings(address: str) -> List[str]:
    """The names that an address may begin with, since a key may have the sign between names in it.

    >>> _beginnings('a > b')
    ['a', 'a > b']
    """
    names = address.split(BETWEEN)
    return [BETWEEN.join(names[:count]) for count in range(1, len(names) + 1)]


def content_at(path: str, where: Place, most: int, limits: Optional[Limits] = None) -> Optional[bytes]:
    """The first bytes, so many at most, of the pickle at a place in a file. None where it has none. Raises OSError."""
    if not where:
        with open(path, 'rb') as file:
            return file.read(most)
    held = (each.content for each in find(path, _name_of(where), limits=limits).found if each.where == where)
    content = next((each for each in held if each is not None), None)
    return None if content is None else content[:most]


def _name_of(where: Place) -> str:
    return BETWEEN.join(map(shown, where))


class _Finder(Looker):
    """A looker that keeps the pickles at an address and below it."""

    def __init__(self, options: Options, path: str, address: str, kind: str = '') -> None:
        super().__init__(options)
        kind = kind or 'dbm.dumb' * has_index(path)
        self.held_kinds: List[str] = [kind] if kind and not address else []
        self.content: Optional[bytes] = None
        self._is_of_several = False
        self.holds_any = False
        self.is_whole = not address
        self.wants_value = self._wants_value if address else None
        # The containers that were opened, by where they are.
        self._kinds_at: Dict[Place, str] = {(): kind}
        self._address = address
        self._below = address + BETWEEN if address else ''
        # Each with what is known of the pickle, if it is not a plain one: what was only guessed may be taken back.
        self._found: List[Tuple[Optional[Pickle], Found]] = []
        # How many pickles are below the address, and those whose bytes are held: of one that is alone, and of two of one name.
        self._count = 0
        self._held: List[Found] = []

    def found(self) -> Iterator[Found]:
        """The pickles, in order."""
        known = set(map(id, self.pickles))
        return (found for pickle, found in self._found if pickle is None or id(pickle) in known)

    def finding(self, name: str, notes: Iterable[Note], error: Optional[str]) -> Finding:
        """What was found, under the name of the file or the server."""
        missed = [f'{place_of(name, note.where)}: {note.text}' for note in notes if note.is_marked and self.wants(note.where)]
        return Finding(tuple(self.found()), tuple(self.held_kinds), self.content, tuple(missed), error, name, self._is_of_several)

    def narrowed(self, result: Result) -> Result:
        """A result, with what is at the address and below it alone, and what keeps its readers from getting there."""
        pickles = tuple(pickle for pickle in result.pickles if self._is_at(pickle.where) or _name_of(pickle.where).startswith(self._below))
        notes = tuple(note for note in result.notes if self.wants(note.where))
        is_there = pickles or self.content is not None or result.plain or any(note.where for note in notes)
        error = result.error if result.error is not None or is_there else f'nothing in it has the address {self._address!a}'
        return replace(result, pickles=pickles, notes=notes, error=error)

    # --- What is left out ---

    def wants(self, where: Place) -> bool:
        """Whether a place is on the way to the address, or at it or below it."""
        name = _name_of(where)
        return not name or name == self._address or name.startswith(self._below) or self._address.startswith(name + BETWEEN)

    def _wants_value(self, content: bytes, where: Place) -> bool:
        if self._is_at(where):
            self._hold(BytesBlob(content))
        return self.wants(where)

    def look_at(self, blob: Blob, where: Place, names: Tuple[str, ...], depth: int, is_gap: bool = False) -> None:
        if self.wants(where):
            before = len(self._found)
            super().look_at(blob, where, names, depth, is_gap)
            if where and self._is_at(where) and (self.holds_any or len(self._found) == before and not self.held_kinds):
                self._hold(blob)

    def look_at_numbers(self, blob: Blob, where: Place, names: Tuple[str, ...], depth: int) -> None:
        if self.wants(where):
            super().look_at_numbers(blob, where, names, depth)
            if self._is_at(where):
                self._hold(blob)

    def look_at_unpacked(self, unpacking: Unpacking, where: Place, names: Tuple[str, ...], depth: int, holder: Unpacked) -> None:
        if self._is_at(where):
            self.at = where
            self._look_at_held(self._counted(unpacking, holder), where, names, depth, holder)
        elif self.wants(where):
            super().look_at_unpacked(unpacking, where, names, depth, holder)

    # --- What is kept ---

    def _open(self, held: Held) -> bool:
        before = self._kinds_at.get(held.where, '')
        self._kinds_at[held.where] = str(held.kind)
        is_one = super()._open(held)
        if not is_one:
            self._kinds_at[held.where] = before
        if is_one and self._is_at(held.where) and str(held.kind) not in self.held_kinds:
            self.held_kinds.append(str(held.kind))
        return is_one

    def take(self, pickle: Pickle, blob: Blob, raw: Sequence[Tuple[int, int]] = ()) -> None:
        super().take(pickle, blob, raw)
        self._keep(pickle, Found(pickle.where, blob.size, _joined(raw)), blob)

    def take_plain(self, content: bytes, where: Place) -> None:
        super().take_plain(content, where)
        self._keep(None, Found(where, len(content)), BytesBlob(content))

    def _look_at_held(self, pieces: Iterator[bytes], where: Place, names: Tuple[str, ...], depth: int, holder: Unpacked) -> None:
        before = len(self._found)
        super()._look_at_held(pieces, where, names, depth, holder)
        if holder.is_cut:
            self._found[before:] = [(pickle, replace(found, is_cut=True)) for pickle, found in self._found[before:]]

    def _is_at(self, where: Place) -> bool:
        return _name_of(where) == self._address

    def _hold(self, blob: Blob) -> None:
        if blob.size <= LIMIT:
            content = b''.join(blob.chunks())
            self._is_of_several = self._is_of_several or self.content not in (None, content)
            self.content = content

    def _keep(self, pickle: Optional[Pickle], found: Found, blob: Blob) -> None:
        """Keeps a pickle that is at the address or below it, once: several readers may come to the same bytes."""
        is_at = self._is_at(found.where)
        if len(self._found) >= _MOST or not (is_at or found.name.startswith(self._below)):
            return
        found = replace(found, kind=self._kind_around(found.where))
        known = [other for other in self._held if other.where == found.where]
        is_alone = not self._count and not found.is_of_arrays
        if found.where and blob.size <= LIMIT and (is_at or is_alone or known):
            whole = replace(found, content=b''.join(blob.chunks()))
            if whole in known:
                return
            if len(known) < _MOST_HELD:
                self._held.append(whole)
                found = whole
        self._count += int(not is_at and not found.is_of_arrays)
        self._found.append((pickle, found))


    def _kind_around(self, where: Place) -> str:
        """The innermost container that has what is at a place. (What a value of a store is packed by is in its name alone.)"""
        packed = next((each.name for each in PACKED if where[-1:] == (f'({each.name})',)), '')
        return packed or next((self._kinds_at[where[:count]] for count in range(len(where) - 1, -1, -1) if self._kinds_at.get(where[:count])), '')


# --- Arrays between opcodes ---

@dataclass(frozen=True)
class Arrays:
    """The ranges of a file that are no opcodes, as its writer has them, each as an offset and a length; and how many arrays of objects are among
    them, which are pickles of their own."""

    raw: Tuple[Tuple[int, int], ...]
    of_objects: int


def arrays_in(blob: Blob) -> Optional[Arrays]:
    """The arrays of a file of joblib, and the numbers of one that torch wrote before 1.6. None where it is not in the form that these write."""
    budget = Budget(Limits())
    budget.size = blob.size
    try:
        with budget.half():
            layout = layout_of(blob, budget)
    except (NotCanonical, LimitMet):
        return None
    return Arrays(_joined(layout.raw), len(layout.inner))


def _joined(raw: Sequence[Tuple[int, int]]) -> Tuple[Tuple[int, int], ...]:
    """Ranges from one offset to another as an offset and a length, those as one that follow at once (as an array does its padding).

    >>> _joined([(9, 11), (11, 20), (30, 31)])
    ((9, 11), (30, 1))
    """
    joined: List[Tuple[int, int]] = []
    for start, end in raw:
        if joined and sum(joined[-1]) == start:
            joined[-1] = joined[-1][0], end - joined[-1][0]
        else:
            joined.append((start, end - start))
    return tuple(joined)
