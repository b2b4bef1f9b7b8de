"""What readers may take bytes for, by their beginning, and what a name asks for."""

from __future__ import annotations

import re
from typing import List, Optional

from ..begins import HEAD
from ..blobs import Blob
from ..containers import CONTAINERS, PACKED, Container, kind_by_sign, named, store_of
from ...patterns import pattern
from ...unread import kind_of_file, kind_of_short

__all__ = ['asked_form', 'begun_form', 'kinds_of', 'without_ending']

# Loaders (pandas, numpy, tarfile) choose what they read by these endings: another form under them is noted.
_ASKED = {ending: each for each in CONTAINERS for ending in (*each.endings, each.tar_ending) if ending}
# People name what torch.save writes so.
_NOT_TAR = pattern(r'.*\.(pth|pt|ckpt|bin)\.tar', re.IGNORECASE | re.DOTALL)
_PACKED_TARS = frozenset(each.tar_ending for each in PACKED if each.tar_ending)
_PACKED_ENDINGS = [*_PACKED_TARS, *(ending for each in PACKED for ending in (*each.endings, *each.other_endings))]
_PACKED_ENDING = pattern(rf'\.({"|".join(_PACKED_ENDINGS)})$', re.IGNORECASE)
_BY_MORE = tuple((each, each.takes) for each in CONTAINERS if each.takes is not None)
_STREAMS = tuple((each, each.stream, each.stream.takes) for each in PACKED if each.stream is not None and each.stream.takes is not None)
# Which of them a first byte may begin: most begin none. Then without those that only unpacking shows.
_BY_FIRST = tuple(tuple((each, takes) for each, stream, takes in _STREAMS if first in stream.firsts) for first in range(256))
_SURE_BY_FIRST = tuple(tuple((each, takes) for each, stream, takes in _STREAMS if first in stream.firsts and not stream.is_weak)
                       for first in range(256))
_BEGUN = tuple(each for each in CONTAINERS if each.begun)
_BEGINNINGS = tuple(each.begun for each in _BEGUN)


def kinds_of(blob: Blob, head: bytes, tries: bool = True) -> List[Container]:
    """All kinds of containers, and of stores that are files, that some reader may take these bytes for. Of streams it is one at most.

    Without `tries` those are left out that only unpacking shows.
    """
    known = kind_by_sign(head)
    kinds = [known] if known is not None and _is_by_sign(known) and (tries or not _is_weak(known)) else []
    for each, takes in _BY_MORE:
        if takes(head):
            kinds.append(each)
    unread = kind_of_file(blob, head) if tries else kind_of_short(head)
    if unread is not None:
        kinds.append(named(unread))
    for each, takes_stream in (_BY_FIRST if tries else _SURE_BY_FIRST)[head[0]] if head else ():
        if takes_stream(blob, head[:HEAD]):
            kinds.append(each)
            break
    store = store_of(head)
    return kinds if store is None else [*kinds, store]


def _is_by_sign(kind: Container) -> bool:
    """Whether readers take for a kind what begins so, and nothing else."""
    return kind.takes is None and (kind.stream is None or kind.stream.takes is None)


def _is_weak(kind: Container) -> bool:
    return kind.stream is not None and kind.stream.is_weak


def begun_form(head: bytes) -> Optional[Container]:
    """The kind that bytes which are of no kind only begin like: no reader goes on from there, and the program names it all the same.

    >>> [str(begun_form(head)) for head in (b'\\x1f\\x8b\\0', b'BZh\\0', b'PK')]
    ['gzip', 'bz2', 'None']
    """
    return next((each for each in _BEGUN if head.startswith(each.begun)), None) if head.startswith(_BEGINNINGS) else None


def asked_form(name: str) -> Optional[Container]:
    """The kind that the ending of a name asks for.

    >>> [str(asked_form(name)) for name in ('data.pkl.gz', 'model.pth.tar', 'weights.bin')]
    ['gzip', 'None', 'None']
    """
    if _NOT_TAR.fullmatch(name):
        return None
    return _ASKED.get(name.rpartition('.')[2].lower()) if '.' in name else None


def without_ending(name: str) -> str:
    """The name of what a compressed file holds.

    >>> without_ending('data.pkl.gz'), without_ending('models.tgz')
    ('data.pkl', 'models.tar')
    """
    return _PACKED_ENDING.sub(lambda found: '.tar' if found[1].lower() in _PACKED_TARS else '', name)
