"""Stores in which pickles live besides files of their own: databases, caches, queues, streams of records.

`containers` has those that are files. Nothing is written to a store, and no value is loaded. What looks into them is imported where there is
something to look into: most files are pickles or containers.
"""

from __future__ import annotations

import os
from typing import TYPE_CHECKING, List

from ..blobs import Blob
from ..results import Pickle, Place

if TYPE_CHECKING:
    from ..looking import Looker

__all__ = ['SMALL', 'asks', 'look_behind', 'look_beside', 'look_further', 'look_inside', 'may_be_dumb', 'paths_beside']

# Values up to this size, packed or not, are looked at in memory; larger ones as files are.
SMALL = 8 << 20


def asks(begin: bytes, size: int) -> bool:
    """Whether bytes that begin so, and have no more than this size, are to be held: they are no store, and `look_further` looks at them:
    records with a length before each, or what else may be there. The size is SMALL where it is not known.
    """
    from . import further
    return further.asks(begin, size)


def look_further(looker: Looker, blob: Blob, where: Place, depth: int, is_gap: bool = False) -> bool:
    """Looks at bytes that are no container and no pickle. Answers whether something is there."""
    from . import further
    return further.look_further(looker, blob, where, depth, is_gap)


def paths_beside(path: str) -> List[str]:
    """The files beside a file that are read with it, of those that are there: the logs of SQLite, and the index of `dbm.dumb`."""
    real = os.path.realpath(path)  # (SQLite looks for its logs there)
    index = [f'{path[:-4]}.dir'] if path.endswith('.dat') else []
    return [each for each in (f'{real}-wal', f'{real}-journal', *index) if os.path.isfile(each)]


def may_be_dumb(where: Place) -> bool:
    """Whether a member of an archive may be the file of `dbm.dumb` that has the values. Its index, another member, is not asked."""
    return bool(where) and where[-1].lower().endswith('.dat')


def look_behind(looker: Looker, pickle: Pickle, blob: Blob, where: Place, depth: int) -> None:
    """Looks, if `everywhere` is set or these may be values of `dbm.dumb`, at what is behind a pickle that was not read to the end of its bytes."""
    if (looker.options.everywhere or may_be_dumb(where)) and not pickle.end.is_stopped:
        from . import further
        further.look_behind(looker, blob, where, depth)


def look_inside(looker: Looker, blob: Blob, where: Place, depth: int) -> None:
    """Looks, if `everywhere` is set, at what a pickle holds."""
    if looker.options.everywhere:
        from . import further
        further.look_inside(looker, blob, where, depth)


def look_beside(looker: Looker, blob: Blob, path: str) -> bool:
    """Looks at a file whose content another file beside it explains, as that of `dbm.dumb`. Answers whether it is one."""
    if not path.endswith('.dat'):
        return False
    from .dbm_files import has_index, look_at_dumb
    if not has_index(path):
        return False
    look_at_dumb(looker, blob, (), 0, path)
    return True
