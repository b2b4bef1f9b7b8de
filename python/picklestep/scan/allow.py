"""Which imports a team allows: sets that come with the package, and files of its own, with the lists that these include."""

from __future__ import annotations

import errno
import io
import os
from functools import lru_cache
from typing import TYPE_CHECKING, Dict, Iterable, Iterator, List, NamedTuple, Optional, Sequence, Set, Tuple

from ..patterns import pattern
from .names import Line, Names, NoList, nearest, read_all
from .wording import shown

if TYPE_CHECKING:
    from pathlib import Path

__all__ = ['SETS', 'lines_of', 'names_of', 'placed_lines', 'read_lines', 'read_names', 'sets_with']

_CARRIAGE_RETURN = pattern(r'\r(?!\n)')
_FOLDER = os.path.join(os.path.dirname(os.path.realpath(__file__)), 'allow')

# How large a list may be that another list includes.
_MOST_BYTES = 1 << 24
# The sets that come with the package.
SETS = tuple(sorted(name[:-4] for name in os.listdir(_FOLDER) if name.endswith('.txt')))


class _Wanted(NamedTuple):
    """A list that is wanted, by the name of a set or a file. One that another list includes has the file of that, and the place there."""

    word: str
    by: Optional[Path] = None
    place: str = ''

    @property
    def is_set(self) -> bool:
        return self.word in SETS

    @property
    def path(self) -> Path:
        """Its file. That of an included list is looked for beside the one that includes it."""
        from pathlib import Path  # (most runs have no lists)
        if self.is_set:
            return Path(_FOLDER, f'{self.word}.txt')
        return Path(self.word) if self.by is None else self.by.parent / self.word

    def content(self) -> bytes:
        """What stands in the file. Raises OSError where it cannot be read, with the nearest set where there is none of this name."""
        try:
            is_fine = not self.path.exists() or self.path.is_dir() or self.path.is_file() and self.path.stat().st_size <= _MOST_BYTES
            if self.by is not None and not is_fine:
                raise NoList(f'{self.place}: cannot include {shown(self.word)}: it is no file of at most {_MOST_BYTES:,} bytes')
            return self.path.read_bytes()
        except OSError as error:
            near = nearest(self.word, 'set', SETS) if isinstance(error, FileNotFoundError) else ''
            if self.by is not None:
                raise NoList(f'{self.place}: cannot include {shown(self.word)}: {error.strerror}{near}') from error
            if not near:
                raise
            raise FileNotFoundError(errno.ENOENT, f'{error.strerror}{near}', self.word) from None


def lines_of(content: bytes, path: str, is_checked: bool = False) -> List[Tuple[str, str, Optional[Line]]]:
    """The lines of a list: where each is, its text, and what it says. Raises NoList with the place of one that has no meaning. `is_checked` is set where
    it is known that each has one."""
    try:
        text = content.decode('utf-8-sig')
    except UnicodeDecodeError as error:
        raise NoList(f'{_place(path, content.count(10, 0, error.start) + 1)}: no text in UTF-8') from error
    # (the program takes a carriage return alone for a part of the line, and Python for its end)
    alone = _CARRIAGE_RETURN.search(text)
    if alone is not None:
        raise NoList(f'{_place(path, text.count(chr(10), 0, alone.start()) + 1)}: a carriage return without a newline')
    # (as editors count lines: no other sign ends one, so a comment goes on to the end of what is seen as a line)
    lines = [line.rstrip('\n') for line in io.StringIO(text, newline=None)]
    places = [_place(path, number + 1) for number in range(len(lines))]
    try:
        return list(zip(places, lines, read_all(lines, is_checked)))
    except NoList as error:
        raise NoList(f'{places[error.index]}: {error}') from error


def _place(path: str, number: int) -> str:
    return f'{shown(path)}, line {number}'


def read_lines(words: Iterable[str], with_needed: bool = True) -> List[str]:
    """The texts of `placed_lines`."""
    return [text for _, text, _ in placed_lines(words, with_needed)]


def placed_lines(words: Iterable[str], with_needed: bool = True, files: Optional[List[_File]] = None) -> Iterator[Tuple[str, str, Line]]:
    """The lines of the given sets and files, and of the lists that these include, each list once: where each is, its text, and what it says. A word
    that names a set means the set; `./torch` means a file of that name. `with_needed` is unset where a set means its own names, without those of the
    sets that it needs. The files that are read, but for those of sets, are added to `files`.

    Raises OSError where a file cannot be read, and NoList where one is no list.
    """
    taken: Set[str] = set()
    waiting = [_Wanted(word) for word in words]
    for wanted in waiting:  # (what is included is added meanwhile)
        path = wanted.path
        if os.path.realpath(path) in taken:
            continue
        taken.add(os.path.realpath(path))
        content = wanted.content()
        if files is not None and not wanted.is_set:
            files.append(_File.of(str(path), content))
        for place, text, line in lines_of(content, wanted.word if wanted.by is None or wanted.is_set else str(path), wanted.is_set):
            if line is not None and not line.is_include:
                yield place, text, line
            elif line is not None and (with_needed or not wanted.is_set):
                waiting.append(_Wanted(line.name, path, place))


def read_names(words: Iterable[str], with_needed: bool = True) -> Names:
    """What the given sets and files have together, as `read_lines` reads them."""
    return Names(read_lines(words, with_needed), is_checked=True)


class _File(NamedTuple):
    """A file that was read: its path, where that led, and the digest of what stood there. (Most are read again and again, and seldom changed.)"""

    path: str
    real: str
    digest: bytes

    @classmethod
    def of(cls, path: str, content: bytes) -> _File:
        return cls(path, os.path.realpath(path), _digest(content))

    def is_as_read(self) -> bool:
        """Whether the same stands there. (What is no file, as a pipe, is read once.)"""
        try:
            if os.path.realpath(self.path) != self.real or not os.path.isfile(self.real):
                return False
            with open(self.path, 'rb') as file:
                return _digest(file.read()) == self.digest
        except OSError:
            return False


def _digest(content: bytes) -> bytes:
    from hashlib import blake2b  # (most runs have no lists)
    return blake2b(content).digest()


_Given = Tuple[Tuple[str, ...], Tuple[str, ...]]
# The names of the words and lines that were given, with the files that were read for them. So many are kept at most.
_kept: Dict[_Given, Tuple[Tuple[_File, ...], Names]] = {}
_MOST_KEPT = 16


def names_of(words: Sequence[str], lines: Sequence[str]) -> Names:
    """What sets and files have, with lines beside them. It is kept as long as the same stands in all files."""
    given = tuple(words), tuple(lines)
    files, names = _kept.get(given, ((), None))
    if names is not None and all([file.is_as_read() for file in files]):
        return names
    read: List[_File] = []
    names = Names([*(text for _, text, _ in placed_lines(words, files=read)), *lines])
    if len(_kept) >= _MOST_KEPT:
        _kept.clear()
    _kept[given] = tuple(read), names
    return names


@lru_cache(maxsize=None)
def _sets_by_name() -> Dict[str, List[str]]:
    found: Dict[str, List[str]] = {}
    for word in SETS:
        for name in read_names([word], with_needed=False).names:
            found.setdefault(name, []).append(word)
    return found


def sets_with(name: str) -> List[str]:
    """The sets of the package that have a name, by a line of their own.

    >>> sets_with('numpy.ndarray'), sets_with('posix.system')
    (['numpy'], [])
    """
    return _sets_by_name().get(name, [])
