"""The names that files import, written as a list, or added to one that a team has."""

from __future__ import annotations

import datetime
import errno
import os
from dataclasses import dataclass, field
from pathlib import Path
from typing import Callable, Dict, Iterable, Iterator, List, Sequence, Set, Tuple

from ..saving import open_text, written_whole
from ..sources import is_opened
from .allow import SETS, lines_of, read_names
from .known import known_note
from .looks import Judge, Look
from .names import Names, NoList, read_comment, words_for
from .results import Result
from .through import why_through
from .wording import count_of, place_of, shown, times

__all__ = ['Used', 'check_list', 'unused_of', 'write_list']

# How the comment begins that says which names of a list are unused.
_UNUSED = '# Unused on'


@dataclass
class _Use:
    count: int = 0
    pickles: int = 0
    first: str = ''
    member: str = ''
    done: Set[str] = field(default_factory=set)


class Used:
    """The names that files import, as the lines of a list: sorted, with what is done with each, a count and an example.

    A name that is known to run what it is given stands there as a comment, as does one that would be read as a pattern: who means it to be
    allowed takes the `#` away.
    """

    def __init__(self) -> None:
        self._uses: Dict[str, _Use] = {}

    def add(self, result: Result, looks: Sequence[Look] = ()) -> None:
        """Counts what a file imports."""
        for pickle in result.pickles:
            place = place_of(result.path, pickle.where)
            for found in pickle.imports:
                use = self._uses.setdefault(found.name, _Use())
                use.count += found.count
                use.pickles += 1
                use.first = min(use.first or place, place)
                use.member = use.member or found.member
            for done in pickle.calls:
                if done.name in self._uses:
                    self._uses[done.name].done.add(done.what)

    def without(self, is_there: Callable[[str, str, Set[str]], bool]) -> 'Used':
        """Those of the names that are not there yet. `is_there` is asked with a name, its member and what is done with what it imports."""
        left = Used()
        left._uses = {name: use for name, use in self._uses.items() if not is_there(name, use.member, use.done)}
        return left

    def names(self) -> Iterable[str]:
        """The names."""
        return self._uses

    def places(self) -> List[str]:
        """Where names were seen first."""
        return sorted({use.first for use in self._uses.values()})

    def lines(self) -> Iterator[str]:
        """The lines of the list."""
        for name, use in sorted(self._uses.items()):
            note = f'{times(use.count)} in {count_of(use.pickles, "pickle")}, first in {use.first}'
            why = known_note(name) or why_through(name, use.member or name.rpartition('.')[2])
            entry = shown(name) + words_for(use.done)
            if why is not None or name.startswith('#') or '*' in name:
                yield f'# {entry}  # {why + "; " if why else ""}{note}'
            elif name.startswith("'"):  # (earlier versions read no note behind such a name)
                yield from (f'# {note}', entry)
            else:
                yield f'{entry}  # {note}'


def _is_kept(path: str) -> bool:
    """Whether this is a file that stays and is added to: no pipe or device, and nothing that this process was given open."""
    return os.path.isfile(path) and not is_opened(path, to_write=True)


def check_list(path: str) -> None:
    """Raises NoList where a file is none that names are added to, and OSError where it cannot be read or its folder takes no new file."""
    if _is_kept(path):
        _names_in(path)
        folder = os.path.dirname(os.path.realpath(path))
        if not os.access(folder, os.W_OK):
            raise PermissionError(errno.EACCES, os.strerror(errno.EACCES), path)


def write_list(path: str, used: Used) -> None:
    """Writes the names into a file. A list that is there stays as it is, and has those behind it that it does not allow yet and that no
    comment of it has. A comment at its end says which of its names these files do not import."""
    if not _is_kept(path) and os.path.exists(path):
        with open_text(path) as file:
            file.writelines(f'{line}\n' for line in used.lines())
        return
    before = Path(path).read_bytes() if os.path.exists(path) else b''
    after = _longer(path, before, used) if before.strip() else before + _joined(used.lines(), '\n')
    if after != before or not os.path.exists(path):
        with written_whole(Path(path)) as whole:
            whole.write(after)


def _longer(path: str, before: bytes, used: Used) -> bytes:
    """A list with what comes behind it. Lines end as they do there."""
    names = _names_in(path)
    end = '\r\n' if b'\r\n' in before else '\n'
    kept, old = _without_unused(before)
    added = _added(path, kept, names, used, end)
    unused = ', '.join(unused_of(path, kept, names, used.names()))
    if not added and unused == old:
        return before
    if not unused:
        return kept + added
    head = b'' if (kept + added).endswith((b'\n', b'\r')) else end.encode()
    return kept + added + head + _joined([f'{_UNUSED} {datetime.date.today()}: {unused}'], end)


def _without_unused(content: bytes) -> Tuple[bytes, str]:
    """A list without the comment that says which of its names are unused, and what that says."""
    lines = content.splitlines(keepends=True)
    said = [line for line in lines if line.startswith(_UNUSED.encode())]
    names = said[-1].decode('utf-8', 'replace').strip().partition(': ')[2] if said else ''
    return b''.join(line for line in lines if line not in said), names


def unused_of(path: str, content: bytes, names: Names, used: Iterable[str]) -> Iterator[str]:
    """The names and patterns of a list itself that no used name fits."""
    fitting = {line for name in used for line in names.lines_of(name)}
    own = dict.fromkeys(line.name for _, _, line in lines_of(content, path) if line is not None and not line.is_include)
    return (name for name in own if name not in fitting)


def _added(path: str, before: bytes, names: Names, used: Used, end: str) -> bytes:
    """The lines that a list has not yet."""
    judge = Judge(names)
    struck = {line.name for line in map(read_comment, (text for _, text, _ in lines_of(before, path))) if line is not None}

    def is_there(name: str, member: str, done: Set[str]) -> bool:
        return name in struck or judge.mark(name, member) is None and all(names.allows_done(what, name) for what in done)

    new = used.without(is_there)
    places = new.places()
    if not places:
        return b''
    seen = f'in {places[0]}' if len(places) == 1 else f'in {count_of(len(places), "place")}, which the notes name'
    head = ('' if before.endswith((b'\n', b'\r')) else end) + end
    return head.encode() + _joined([f'# Added on {datetime.date.today()}, seen first {seen}', *new.lines()], end)


def _joined(lines: Iterable[str], end: str) -> bytes:
    return ''.join(f'{line}{end}' for line in lines).encode('utf-8', 'backslashreplace')


def _names_in(path: str) -> Names:
    """What a list has, and the lists that it includes. Its name may be that of a set."""
    try:
        return read_names([os.path.join('.', path) if path in SETS else path])
    except NoList as error:
        raise NoList(f'cannot write {shown(path)}, which is no list: {error}') from error
