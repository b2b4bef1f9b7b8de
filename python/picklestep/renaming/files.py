"""Many files whose imports get other names: which they are, what is done with each, and where it is written."""

from __future__ import annotations

import os
import shutil
import stat
from dataclasses import dataclass, field
from pathlib import Path
from typing import IO, Callable, Dict, FrozenSet, Iterable, List, Optional, Set, Tuple

from ..addresses import opened
from ..errors import NotOpened, NotRenamed, PicklestepError
from ..opens import ENOUGH, begins_like_one, has_index, is_archive, is_at_server, split
from ..saving import naming, written_whole
from ..sources import LIMIT, is_opened
from .one import RenamedImport, renamed
from .pairs import Pairs

__all__ = ['Done', 'Renames', 'Sought', 'find', 'targets_of']

_OF_CONTAINER = 'a container, and nothing is written into one'


@dataclass(frozen=True)
class Done:
    """What was done with a file: the imports that have other names, or why it is as it was (`left`). One that `is_other` does not read to its end, and
    the old names stand nowhere in it, so it is taken for no pickle. Of an archive `members` has the same for those of which there is something to say."""

    path: str
    imports: Tuple[RenamedImport, ...] = ()
    left: str = ''
    is_other: bool = False
    members: Tuple['Done', ...] = ()


@dataclass
class Sought:
    """The files at some paths, in their order: those that were `named`, and those in folders; and paths at which there is no file to look at. `tops`
    has the folder that each was found in, and `places` where each lies: a file that has two paths is one, since a second rename may undo the first."""

    paths: List[str] = field(default_factory=list)
    named: FrozenSet[str] = frozenset()
    left: List[Done] = field(default_factory=list)
    tops: Dict[str, str] = field(default_factory=dict)
    places: Set[str] = field(default_factory=set)

    def add(self, path: str, top: str) -> None:
        """Adds a file that was found in a folder, unless it is there."""
        place = os.path.realpath(path)
        if place not in self.places:
            self.places.add(place)
            self.paths.append(path)
            self.tops[path] = top


def find(words: Iterable[str]) -> Sought:
    """The files that words name. What is a link in a folder leads elsewhere, and is left, unless the file is found in its own place."""
    found, named, links = Sought(), set(), []
    for word in words:
        if os.path.isdir(word):
            links += _walk(word, found)
        else:
            named.add(word)
            found.add(word, os.path.dirname(word))
    found.named = frozenset(named)
    found.left += [Done(path, left='a symbolic link') for path in links if os.path.realpath(path) not in found.places]
    return found


def _walk(top: str, found: Sought) -> List[str]:
    """Adds what a folder holds, and answers the links in it."""
    links: List[str] = []

    def failed(error: OSError) -> None:
        found.left.append(Done(str(error.filename), left=error.strerror or str(error)))

    for folder, folders, names in os.walk(top, onerror=failed):
        folders.sort()
        for name in sorted(names) + [name for name in folders if os.path.islink(os.path.join(folder, name))]:
            path = os.path.join(folder, name)
            if os.path.islink(path):
                links.append(path)
            else:
                found.add(path, top)
    return links


def targets_of(sought: Sought, save: str) -> Dict[str, str]:
    """Where the files go that are saved to a folder: to their names below the folder that was named. Raises PicklestepError where two go to one place,
    one to its own or to that of another, or one out of the folder by a link in it."""
    targets: Dict[str, str] = {}
    taken: Dict[str, str] = {}
    top = os.path.realpath(save)
    for path in sought.paths:
        target = os.path.join(save, os.path.relpath(path, sought.tops[path] or '.'))
        place = os.path.realpath(target)
        other = taken.setdefault(place, path)
        if other != path:
            raise PicklestepError(f'{other} and {path} would both be saved to {target}')
        if os.path.exists(target) and os.path.exists(path) and os.path.samefile(target, path):
            raise PicklestepError(f'{path} would be saved to itself: that is --in-place')
        if place in sought.places:
            raise PicklestepError(f'{path} would be saved to {target}, which is one of the files')
        if not place.startswith(os.path.join(top, '')):
            raise PicklestepError(f'{path} would be saved to {place}: a symbolic link leads there from {save}')
        targets[path] = target
    return targets


@dataclass(frozen=True)
class Renames:
    """What is done with each file, in this process or another: it is written over where `in_place` says so, or to its target, or not at all."""

    pairs: Pairs
    named: FrozenSet[str]
    in_place: bool = False
    targets: Optional[Dict[str, str]] = None
    writes: bool = True

    def do(self, path: str) -> Done:
        """Renames what one file imports. What cannot be is said, and the file is as it was."""
        content = b''
        try:
            if split(path) is not None or is_at_server(path):
                return Done(path, left=_OF_CONTAINER)
            if is_opened(path) or not stat.S_ISREG(os.stat(path).st_mode):
                return Done(path, left='no file that can be replaced')
            content, state = _read(path)
            if _may_hold_others(path, content):
                if is_archive(path):
                    return self._archive(path)
                done = self._packed(path, content)
                if done is not None:
                    return done
                if opened(path) is not None:
                    return Done(path, left=_OF_CONTAINER)
                content, state = _read(path, is_whole=True)
            return self._pickle(path, content, state)
        except NotOpened:
            return Done(path, left=_OF_CONTAINER)
        except OSError as error:
            return Done(path, left=error.strerror or str(error))
        except PicklestepError as error:
            return Done(path, left=str(error))

    def _pickle(self, path: str, content: bytes, state: os.stat_result, pack: Callable[[bytes], bytes] = bytes) -> Done:
        """Renames what the pickle of a file imports, and writes the file as it is packed."""
        try:
            made = renamed(content, self.pairs)
            if made.imports:
                packed = pack(made.content)
                self._write(path, lambda file: file.write(packed), state)
            return Done(path, made.imports)
        except NotRenamed as error:
            is_other = path not in self.named and not self.pairs.stand_in(content)
            return Done(path, is_other=True) if is_other else Done(path, left=str(error))

    def _packed(self, path: str, head: bytes) -> Optional[Done]:
        """Renames what the pickle imports that a stream packs. None if the file is no such stream, or another file says where its values end."""
        from .packed import is_packed, unpacked  # (most files are none)
        if not is_packed(head) or has_index(path):
            return None
        whole, state = _read(path, is_whole=True)
        stream = unpacked(whole)
        if stream is None:
            return None
        if begins_like_one(stream.content[:ENOUGH]):
            return Done(path, left=_OF_CONTAINER)
        return self._pickle(path, stream.content, state, stream.packed)

    def _archive(self, path: str) -> Done:
        """Renames what the members of an archive import."""
        from .archives import renamed_in  # (most files are none)
        state = os.stat(path)
        try:
            made = renamed_in(path, self.pairs)
            if made.changed:
                self._write(path, made.write, state)
        except NotRenamed as error:
            return Done(path, left=str(error))
        return Done(path, members=tuple(Done(each.address, each.imports, each.left) for each in made.done))

    def lost(self, path: str, why: str) -> Done:
        """What is said of a file at which a process ended."""
        return Done(path, left=why)

    def _write(self, path: str, fill: Callable[[IO[bytes]], object], state: os.stat_result) -> None:
        target = path if self.in_place else None if self.targets is None else self.targets[path]
        if target is None:
            return
        with naming(target):
            os.makedirs(os.path.dirname(target) or '.', exist_ok=True)
            with written_whole(Path(target)) as file:
                if target != path:
                    shutil.copymode(path, file.name)
                fill(file)
                if not _is_as_it_was(path, state):
                    raise NotRenamed('it was changed meanwhile')


def _may_hold_others(path: str, head: bytes) -> bool:
    """Whether a file that begins so may be a container."""
    return begins_like_one(head) or has_index(path)


def _read(path: str, is_whole: bool = False) -> Tuple[bytes, os.stat_result]:
    """The bytes of a file, and its state. Of one that may be a container it is the first bytes, unless all are wanted."""
    with open(path, 'rb', buffering=0) as file:
        state = os.fstat(file.fileno())
        content = file.read(ENOUGH)
        if is_whole or not _may_hold_others(path, content):
            content += file.read(LIMIT + 1 - len(content))
    return content, state


def _is_as_it_was(path: str, state: os.stat_result) -> bool:
    now = os.stat(path)
    return os.path.samestat(now, state) and (now.st_size, now.st_mtime_ns) == (state.st_size, state.st_mtime_ns)
