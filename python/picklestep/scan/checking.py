"""`check`: bytes that have nothing to look at, or an exception that says what."""

from __future__ import annotations

import os
from dataclasses import replace
from typing import Iterable, Iterator, List, Optional

from ..addresses import bytes_at
from ..errors import NotAllowed
from ..opens import split
from ..sources import Readable, Source
from .allow import names_of
from .begins import HEAD, is_pickle_name
from .blobs import Budget, BytesBlob, LimitMet, Limits
from .canonical.kinds import kinds_of
from .containers import LOADERS, Container
from .looking import Options, look_at_bytes
from .looks import Judge
from .reach import leads_of
from .wording import place_of

__all__ = ['check']

# What no pickler of Python's own library writes, and what loaders that have it give meaning to. (It may be given to calls, and not called.)
_OF_OTHER_LOADERS = ('persistent:', 'buffer:')


def check(source: Source, *, allow: Optional[Iterable[str]] = None, names: Optional[Iterable[str]] = None, loader: Optional[str] = None,
          options: Options = Options()) -> bytes:
    """The bytes of a source, where nothing in them is marked. Who wants to load it loads these bytes: a file may change. Of an address they are the bytes
    that are there, and nothing else in the container is looked at.

    `loader` says what loads them: 'pickle', 'torch', 'joblib', 'numpy' or 'pandas'. A container that it does not open is refused, so that for
    'pickle' all are. Without it they are to be fit for each: what opens a container, and what takes its bytes themselves for a pickle.

    `allow` has sets and files as `scan --allow` takes them, `names` names and patterns. An empty list of these allows no name. Without both only
    what is marked without a list is refused, such as names that are known to run what they are given. `options` has the limits. Raises NotAllowed with a line for each look; OSError where a file cannot be read,
    NoList where a line of a list has no meaning, and ValueError for another loader.

    Where there is a list, each pickle has to pass `gate`, which says what is proved; one of joblib without the numbers of its arrays. Of several
    pickles each one has to pass by itself, as a new `Unpickler` loads it. What one `Unpickler` does that loads them all, and keeps its memo, is not
    covered.

    >>> check(b'\\x80\\x02ccollections\\nOrderedDict\\n)R.', names=['collections.OrderedDict'])
    b'\\x80\\x02ccollections\\nOrderedDict\\n)R.'
    """
    if loader is not None and loader not in LOADERS:
        raise ValueError(f'{loader!r} is no loader: there are {", ".join(LOADERS)}')
    content, name = _content(source)
    words, lines_given = ([given] if isinstance(given, str) else list(given or ()) for given in (allow, names))
    allowed = None if allow is None and names is None else names_of(words, lines_given)
    judge = Judge(allowed)
    options = replace(options, lists=judge.lists(), left=() if loader == LOADERS[0] else _OF_OTHER_LOADERS)
    kinds = list(kinds_of(BytesBlob(content), content[:HEAD]))
    # (By this name it is read as a pickle whatever it begins with. torch.load opens all kinds of files that are named so.)
    result = look_at_bytes(name if is_pickle_name(name) else f'{name}.pt', content, options)
    lines: List[str] = []
    for look in judge.looks(result):
        lines.extend(f'{place_of(name, look.where)}: {line}' for line in look.lines)
    lines.extend(f'{place_of(name, ())}: {line}' for line in _in_containers(content, kinds, loader, options.limits))
    if not kinds and not result.pickles:
        lines.append(f'{place_of(name, ())}: no pickle is found in it')
    if lines:
        raise NotAllowed(lines)
    return content


def _in_containers(content: bytes, kinds: List[Container], loader: Optional[str], limits: Limits) -> Iterator[str]:
    """Why a container is not fit for the loader, or for one that takes its bytes for a pickle."""
    if not kinds:
        return
    said = ' or '.join(map(str, kinds))
    # (of what is not opened here it is not known which loaders open it; that it is not is marked)
    if loader is not None and not all(loader in kind.loaders or not kind.opener for kind in kinds):
        yield f'it is {said}, which {loader} does not open'
    try:
        reach = leads_of(BytesBlob(content), Budget(limits)).reach
    except LimitMet as limit:
        yield f'it is {said}: {limit}'
        return
    if reach is not None:
        yield f'it is {said}, and as a pickle it leads a loader to {reach}'


def _content(source: Source) -> 'tuple[bytes, str]':
    """All bytes of a source, and what it is called."""
    if isinstance(source, (str, os.PathLike)):
        name = os.fsdecode(source)
        if split(name) is not None:
            return bytes_at(name), name
        with open(source, 'rb') as file:
            return file.read(), name
    if isinstance(source, (bytes, bytearray, memoryview)):
        return bytes(source), 'pickle'
    return _read_all(source), 'pickle'


def _read_all(source: Readable) -> bytes:
    parts = []
    while part := memoryview(source.read(1 << 20)).tobytes():  # (a text, and what has nothing to read yet, is a TypeError as elsewhere)
        parts.append(part)
    return b''.join(parts)
