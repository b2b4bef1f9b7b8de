"""Pickles in containers, by the addresses that `scan` prints, as in `model.pt > archive/data.pkl`.

The readers are those of `scan`, which are imported where there is something to open.
"""

from __future__ import annotations

import contextlib
import os
import shlex
import sys
from dataclasses import dataclass
from importlib import import_module
from typing import TYPE_CHECKING, Any, List, Optional, Sequence, Tuple, Union, overload

from .errors import NotOpened, PicklestepError
from .opens import BETWEEN, begins_gated, begins_unlike_pickle, has_zip_behind, holds_others, is_at_server, is_gated_whole, lists_members, may_have_arrays, split
from .sources import Source, content_of, is_opened
from .wording import shown

if TYPE_CHECKING:
    from .scan.finder import Finding, Found

__all__ = ['FoundPickle', 'FoundPickles', 'Opened', 'arrays_of', 'bytes_at', 'check_out', 'content_in', 'ends_early', 'gated', 'given', 'holes_of', 'is_in', 'left_out', 'opened',
           'opened_in', 'other_kinds', 'pickles_in', 'quoted', 'ranges', 'said_of', 'saved', 'unlisted', 'what_else']

# So many addresses are shown, and so many lines of what was not looked at.
_MOST_SHOWN = 100
_MOST_MISSED = 5
# So many ranges of bytes that are left out are named.
_MOST_RANGES = 3
# So many bytes show of which kind a file is that nothing opens.
_HEAD = 2048


@dataclass(frozen=True)
class Opened:
    """A pickle that was opened in a file: its address, its bytes, and what is said of it, a line each. `skip` are the bytes that are no opcodes, as
    `calls` takes them, and `path` is the file. It `is_marked` where `scan` marks something on the way to it."""

    path: str
    address: str
    content: bytes
    skip: Tuple[Tuple[int, int], ...] = ()
    said: Tuple[str, ...] = ()
    is_marked: bool = False


@dataclass(frozen=True)
class FoundPickle:
    """A pickle in a file: its address, and how many bytes it has. `skip` are those of them that are no opcodes (the numbers of joblib's arrays), as
    `calls` takes them. `kind` is the innermost container that it is in, as `scan` names it: 'zip', 'gzip', 'sqlite'. It is '' where the file is the
    pickle, or other bytes stand around it.

    >>> FoundPickle('model.pt > archive/data.pkl', 495, kind='zip')
    FoundPickle(address='model.pt > archive/data.pkl', size=495, skip=(), kind='zip')
    """

    address: str
    size: int
    skip: Tuple[Tuple[int, int], ...] = ()
    kind: str = ''


class FoundPickles(Sequence[FoundPickle]):
    """The pickles in a file. `missed` has a line for each thing that was not looked at: where there is one, there may be other pickles.

    >>> import gzip, pathlib
    >>> _ = pathlib.Path('a.pkl.gz').write_bytes(gzip.compress(b'N.'))
    >>> found = pickles_in('a.pkl.gz')
    >>> found[0].address, found[0].size, found.missed
    ('a.pkl.gz > (gzip)', 2, ())
    """

    def __init__(self, found: Sequence[FoundPickle], missed: Sequence[str] = ()) -> None:
        self._found = tuple(found)
        self.missed = tuple(missed)

    def __len__(self) -> int:
        return len(self._found)

    @overload
    def __getitem__(self, index: int) -> FoundPickle: ...

    @overload
    def __getitem__(self, index: slice) -> Sequence[FoundPickle]: ...

    def __getitem__(self, index: Union[int, slice]) -> Union[FoundPickle, Sequence[FoundPickle]]:
        return self._found[index]

    def __repr__(self) -> str:
        return f'<FoundPickles: {_pickles(len(self))}{", and not all was looked at" if self.missed else ""}>'


def pickles_in(path: 'Union[str, os.PathLike[str]]') -> FoundPickles:
    """The pickles in a file or on a server, or below an address there: those that `picklestep scan` finds, by its readers and within its limits.

    `calls` and the other functions take each address. A file that is a pickle itself has its own path for one. Raises OSError where the file or the
    server cannot be read, and NotOpened where nothing has the address. (The word `members` of the command line is another one: it lists what a zip
    archive has, whatever that is.)

    >>> import pathlib, zipfile
    >>> with zipfile.ZipFile('two.zip', 'w') as archive:
    ...     archive.writestr('a.pkl', b'N.'), archive.writestr('b.pkl', b'K\\x01.')
    (None, None)
    >>> [(found.address, found.size, found.kind) for found in pickles_in('two.zip')]
    [('two.zip > a.pkl', 2, 'zip'), ('two.zip > b.pkl', 3, 'zip')]
    """
    name = os.fsdecode(path)
    file, address = split(name) or (name, '')
    if is_at_server(file):
        finding = _finder().find_at_server(file, address)
        file = finding.name
    else:
        with open(file, 'rb'):  # (which says why it cannot be read)
            pass
        finding = _found_in(file, address)
    if finding.error is not None:
        raise OSError(f'cannot read {shown(file)}: {finding.error}')
    if address and not finding.found and not finding.kinds and finding.content is None:
        raise NotOpened('\n'.join(_Choice(file, address, finding).where_else()))
    return FoundPickles([FoundPickle(_address(file, each.name), each.size, each.raw, each.kind) for each in finding.found], finding.missed)


def _finder() -> Any:
    return import_module('picklestep.scan.finder')


def _found_in(file: str, address: str, of_any: bool = False) -> Finding:
    """What is at an address in a file, `of_any` with the bytes there. (What only `scan --everywhere` finds has a place in brackets.)"""
    finding: Finding = _finder().find(file, address, of_any=of_any)
    if '(' in address and not finding.found and finding.content is None:
        finding = _finder().find(file, address, everywhere=True)
    return finding


def _address(file: str, name: str) -> str:
    return f'{file}{BETWEEN}{name}' if name else file


# --- One pickle ---

def opened_in(source: Source) -> Optional[Opened]:
    """The same of a source of any kind. What is no path is read as it is."""
    return opened(os.fsdecode(source)) if isinstance(source, (str, os.PathLike)) else None


def content_in(source: Source) -> bytes:
    """The bytes of a source; of an address or a container those of the pickle that is opened. Raises NotOpened, and what `open` raises."""
    found = opened_in(source)
    return content_of(source) if found is None else found.content


def opened(word: str) -> Optional[Opened]:
    """The pickle at an address; that in a container, where it has one. None where the file is read as it is. Raises NotOpened where no one pickle is
    meant."""
    choice = _choice(word)
    return None if choice is None else choice.opened()


def _choice(word: str, of_any: bool = False) -> Optional[_Choice]:
    """What there is to choose from. None where the file is read as it is."""
    parts = split(word)
    if is_at_server(word):
        return _of_server(*(parts or (word, '')))
    if parts is None and (is_opened(word) or not holds_others(word)):
        return None
    file, address = parts or (word, '')
    finding = _found_in(file, address, of_any)
    if finding.error is not None:
        raise NotOpened(f'cannot read {shown(file)}: {finding.error}')
    return _Choice(file, address, finding)


def gated(word: str) -> Optional[Opened]:
    """What `gate` looks at: the same as `opened`, but for what the program opens itself. That is given whole, also at an address. Raises NotOpened
    where `scan` marks something in a container: its loaders may find something else in it."""
    choice = None if is_gated_whole(word) else _choice(word, of_any=True)
    if choice is None:
        return None
    content = choice.finding.content
    if choice.address and content is not None and begins_gated(content) and not choice.finding.is_of_several:
        return Opened(choice.file, word, content, (), (f'opened {quoted(word)} ({len(content):,} bytes)',), bool(choice.finding.missed))
    found = choice.opened()
    if found is not None and found.is_marked and not choice.address:
        head = f'scan marks something in the container {shown(word)}, so gate does not open it; the pickle in it has the address {quoted(found.address)}'
        raise NotOpened('\n'.join([head, *found.said[1:]]))
    return found


def bytes_at(word: str) -> bytes:
    """The bytes at an address, whatever they are. Raises NotOpened."""
    parts = split(word)
    assert parts is not None
    file, address = parts
    finding = _finder().find_at_server(file, address) if is_at_server(word) else _finder().find(file, address, of_any=True)
    if finding.error is not None:
        raise NotOpened(f'cannot read {shown(file)}: {finding.error}')
    found = [each.content for each in finding.found if each.name == address]
    if finding.is_of_several or len(found) > 1:
        raise NotOpened(f'{shown(address)} in {shown(file)} is the address of several, and loaders differ in which they take')
    content: Optional[bytes] = finding.content if finding.content is not None else found[0] if len(found) == 1 else None
    if content is None:
        raise NotOpened(f'nothing in {shown(file)} has the address {address!a}, or it is too large to be opened')
    return content


def _of_server(url: str, address: str) -> _Choice:
    """A value of a server, or what is in it. Raises NotOpened. (All of its values are not listed: there may be millions.)"""
    if not address:
        server = quoted(_finder().server_name(url))
        raise NotOpened(f'{server} is a server: give the address of one value, as picklestep scan {server} prints it')
    finding = _finder().find_at_server(url, address)
    server = finding.name  # (without a password)
    if finding.error is not None:
        raise NotOpened(f'cannot read {shown(server)}: {finding.error}')
    return _Choice(server, address, finding)


class _Choice:
    """Which pickle is opened of what is at an address and below it."""

    def __init__(self, file: str, address: str, finding: Finding) -> None:
        self.file = file
        self.address = address
        self.finding = finding
        self.here = [each for each in finding.found if each.name == address]
        self.below = [each for each in finding.found if each.name != address and not each.is_of_arrays]
        self._of_arrays = [each for each in finding.found if each.is_of_arrays and each.name != address]
        self._name = shown(_address(file, address))

    def opened(self) -> Optional[Opened]:
        """The one pickle, if the file is not read as it is. Raises NotOpened."""
        if self.address and self.here:
            return self._of_here()
        if not self.below and not self.finding.kinds:
            return self._of_bytes() if self.address else None  # (it only begins like a container)
        what = f'{self._name} is a container ({", ".join(self.finding.kinds)})' if self.finding.kinds else f'{self._name} is no pickle itself'
        if not self.below:
            raise NotOpened('\n'.join([f'{what}, and no pickle is found in it', *self._too(), *self._missed()]))
        if len(self.below) > 1 or self.here:
            # (What is said of the one in it would not be what a loader does that takes the bytes of the file.)
            head = f'{what} with {_pickles(len(self.below))}: give the address of one'
            raise NotOpened('\n'.join([head, *_shown(self.file, self.below), *self._too(), *self._missed()]))
        return self._of(self.below[0], [f'{what}: the one pickle in it is opened, {_quoted(self.file, self.below[0])}'])

    def _of_here(self) -> Opened:
        if len(self.here) > 1:
            raise NotOpened(f'{len(self.here)} pickles have the address {_quoted(self.file, self.here[0])}, and loaders differ in which they take: '
                            f'picklestep scan {quoted(self.file)} shows what each does')
        lines = [f'opened {_quoted(self.file, self.here[0])}']
        if self.below:
            kinds = ' and '.join(self.finding.kinds) or 'a container'
            lines += [f'it is {kinds} too, with {_pickles(len(self.below))}; as the address is its own, it is read as a pickle itself. In it:',
                      *_shown(self.file, self.below)]
        return self._of(self.here[0], lines)

    def _of_bytes(self) -> Opened:
        """The bytes at an address that are no pickle."""
        if self.finding.content is None:
            raise NotOpened('\n'.join(self.where_else()))
        lines = [f'opened {quoted(self._name)}, where scan finds no pickle', *self._missed()]
        return Opened(self.file, _address(self.file, self.address), self.finding.content, (), tuple(lines), bool(self.finding.missed))

    def where_else(self) -> List[str]:
        """That nothing has the address, and what has one."""
        if is_at_server(self.file):
            return [f'nothing on {shown(self.file)} has the address {self.address!a}', *self._missed()]
        found = _finder().find(self.file)
        lines = [f'nothing in {shown(self.file)} has the address {self.address!a}' + (f': it has {_pickles(len(found.found))}' if found.found else '')]
        return [*lines, *_shown(self.file, found.found), *_missed(list(dict.fromkeys([*self.finding.missed, *found.missed])))]

    def _of(self, found: Found, lines: List[str]) -> Opened:
        if found.content is None or found.is_cut:
            raise NotOpened(f'{_quoted(self.file, found)} is too large to be opened: it has more than {found.size:,} bytes' if found.is_cut else
                            f'{_quoted(self.file, found)} is too large to be opened: it has {found.size:,} bytes')
        inner = [each for each in self._of_arrays if each.where[:-1] == found.where]
        lines += [f'pickles are within its arrays of objects too: {_quoted(self.file, each)}' for each in inner]
        return Opened(self.file, _address(self.file, found.name), found.content, found.raw, (*lines, *self._missed()), bool(self.finding.missed))

    def _too(self) -> List[str]:
        """That loaders which open no container may take its bytes for a pickle."""
        if not self.here:
            return []
        return [f'to a loader that opens no container its bytes are a pickle too: picklestep calls /dev/stdin <{quoted(self.file)}']

    def _missed(self) -> List[str]:
        return _missed(self.finding.missed)


def _missed(lines: Sequence[str]) -> List[str]:
    more = [f'  .. and {len(lines) - _MOST_MISSED} more'] if len(lines) > _MOST_MISSED else []
    return ['picklestep scan marks in it:', *(f'  {shown(line)}' for line in lines[:_MOST_MISSED]), *more] if lines else []


def quoted(address: str) -> str:
    """An address as it is typed into a shell."""
    return shlex.quote(shown(address))


def _pickles(count: int) -> str:
    return '1 pickle' if count == 1 else f'{count:,} pickles'


def _quoted(file: str, found: Found) -> str:
    """An address as it is typed into a shell, and its size."""
    return f'{quoted(_address(file, found.name))} ({found.size:,} bytes)'


def _shown(file: str, found: Sequence[Found]) -> List[str]:
    """Addresses, a line each, as they are typed into a shell."""
    lines = [f'  {quoted(_address(file, each.name))}  # {each.size:,} bytes' for each in found[:_MOST_SHOWN]]
    return [*lines, f'  .. and {len(found) - _MOST_SHOWN:,} more: picklestep scan {quoted(file)}'] if len(found) > _MOST_SHOWN else lines


# --- Arrays between opcodes ---

def arrays_of(path: str) -> Tuple[Tuple[Tuple[int, int], ...], List[str]]:
    """The bytes of a file that are no opcodes, as `calls` takes them, and what is said of them: of one that joblib wrote, or torch before 1.6. There are
    none where it is not in the form that these write."""
    blobs = import_module('picklestep.scan.blobs')
    with open(path, 'rb', buffering=0) as file:
        arrays = _finder().arrays_in(blobs.FileBlob(file, os.fstat(file.fileno()).st_size))
    if arrays is None or not arrays.raw:
        return (), []
    return arrays.raw, left_out(path, arrays.raw, arrays.of_objects)


def holes_of(path: str) -> Tuple[Tuple[int, int], ...]:
    """The same bytes of a file that is read as it is, if it may have some. Raises OSError."""
    return arrays_of(path)[0] if may_have_arrays(path) else ()


def left_out(address: str, skip: Sequence[Tuple[int, int]], of_objects: int = 0) -> List[str]:
    """What is said of bytes that are left out."""
    size = sum(length for _, length in skip)
    lines = [f'{size:,} bytes are the numbers of arrays and no opcodes, and are left out: {ranges(skip)}']
    if of_objects:
        lines.append(f'arrays of objects are pickles of their own: {quoted(f"{address}{BETWEEN}(arrays of objects)")}')
    return lines


def ends_early(address: str, skip: Sequence[Tuple[int, int]], task: str = '') -> List[str]:
    """What is said where a word, which the task names, does not leave these bytes out: it ends at the first of them, if not before."""
    further = f'picklestep scan --allow LIST {quoted(address)} judges the rest' if task == 'gate' else f'picklestep calls {quoted(address)} reads on behind them'
    return [f'the numbers of an array begin at {skip[0][0]}, and nothing from there on is read: {further}'] if skip else []


def ranges(skip: Sequence[Tuple[int, int]]) -> str:
    """Bytes that are left out, as words of `calls`.

    >>> ranges([(9, 11), (30, 1), (40, 1), (50, 1)])
    '--skip 9:11 --skip 30:1 --skip 40:1 ..'
    """
    return ' '.join([*(f'--skip {offset}:{size}' for offset, size in skip[:_MOST_RANGES]), *(['..'] if len(skip) > _MOST_RANGES else [])])


# --- What a word does not read ---

def what_else(path: str, task: str = '') -> List[str]:
    """What a file has or is besides what a word reads, which the task names and which takes the file as it is, a line each. (`calls` leaves arrays out.
    Whoever reads a file that cannot be read says so.)"""
    lines = other_kinds(path)
    with contextlib.suppress(OSError):
        lines += ends_early(path, holes_of(path), task)
    return lines


def other_kinds(path: str) -> List[str]:
    """What else a file is that is read as a pickle: of a kind that nothing here opens, by its first bytes, or a zip archive too, by its last ones."""
    kind = _kind_of(path) if begins_unlike_pickle(path) else None
    lines = [f'{shown(path)} begins like {kind}, which is not opened here'] if kind is not None else []
    if has_zip_behind(path):
        lines.append(f'a zip archive stands at the end of {shown(path)}, which some loaders open; the pickle at its beginning is read: '
                     f'picklestep scan {quoted(path)} looks into both')
    return lines


def unlisted(path: str) -> List[str]:
    """What is said of a file whose members `members` cannot list, as it is of another kind."""
    if lists_members(path):
        return []
    kind = _kind_of(path, is_opened=True)
    begins = 'begins like none of these' if kind is None else f'begins like {kind}'
    return [f'members reads zip, tar, gzip and zlib, and {shown(path)} {begins}: picklestep scan {quoted(path)} looks into more kinds']


def _kind_of(path: str, is_opened: bool = False) -> Optional[str]:
    """What a file begins like that nothing here opens, or also what `scan` opens."""
    with contextlib.suppress(OSError), open(path, 'rb') as file:
        head = file.read(_HEAD)
        opened = import_module('picklestep.scan.containers').kind_by_sign(head) if is_opened else None
        kind: Optional[str] = opened.name if opened is not None else import_module('picklestep.unread').kind_of_long(head)
        return kind
    return None


# --- Words of the command line ---

def given(word: str) -> 'Tuple[Source, Optional[Opened]]':
    """What a word of the package reads: the file, or the bytes that are opened in it. What it does not read is said on standard error. Raises
    NotOpened."""
    found = opened(word)
    for line in said_of(word, found):
        print(line if line.startswith('  ') else f'picklestep: {line}', file=sys.stderr)
    source: Source = word if found is None else found.content
    return source, found


def said_of(word: str, found: Optional[Opened], task: str = '') -> List[str]:
    """What is said of what a word reads, which the task names, a line each."""
    return what_else(word, task) if found is None else [*found.said, *ends_early(found.address, found.skip, task)]


def is_in(path: str, container: str) -> bool:
    """Whether a path to write to is that of a container that was opened, or an address in one: a member is not replaced."""
    return split(path) is not None or bool(container) and os.path.exists(path) and os.path.samefile(path, container)


def check_out(path: str, container: str = '') -> None:
    """Raises PicklestepError where a result would be written into a container, in the place of the one that was opened, or to a name that is an
    address."""
    if is_in(path, container):
        raise PicklestepError(f'cannot write {shown(path)}: nothing is written into a container')


def saved(path: str, found: Optional[Opened]) -> str:
    """The line about a pickle that is saved. One that was opened in a container is out of it now."""
    return f'saved {ascii(path)[1:-1]}{"" if found is None else ": the pickle alone, and no container"}\n'
