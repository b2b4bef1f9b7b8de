"""Looking for pickles in what is no container and no pickle, and in the rest of what is one."""

from __future__ import annotations

from typing import TYPE_CHECKING

from ..blobs import Blob, BytesBlob
from ..containers import HDF5, Held
from ..results import Place
from . import SMALL, may_be_dumb
from .early import may_be_behind_few
from .framed import framing_of
from .hdf5 import begins_late
from .telling import PREFIX, has_proto, is_json, stands_for_bytes
from .values import Values

if TYPE_CHECKING:
    from ..looking import Looker

__all__ = ['asks', 'look_behind', 'look_further', 'look_inside']

# So much shows whether a file may have a pickle behind a few bytes.
_BEGIN = 1 << 16


def asks(begin: bytes, size: int) -> bool:
    """Whether bytes that begin so, and have no more than this size, are to be held: they are no store, and `look_further` looks at them:
    records with a length before each, or what else may be there. The size is SMALL where it is not known.
    """
    if framing_of(BytesBlob(begin)) is not None or is_json(begin):
        return True
    return may_be_behind_few(begin[:_BEGIN], size) or stands_for_bytes(begin[:PREFIX])


def look_further(looker: 'Looker', blob: Blob, where: Place, depth: int, is_gap: bool = False) -> bool:
    """Looks at bytes that are no container and no pickle: records with a length before each, a pickle behind a few bytes, texts that stand for
    one, and, if `everywhere` is set, whatever a value of a store may be, and each offset. Answers whether something is there. A gap, such as raw
    numbers, is no file of a cache.
    """
    if begins_late(blob):
        return HDF5.look_into(looker, Held(HDF5, blob, where, (), depth, []))
    has_records = framing_of(blob) is not None
    is_searched = looker.options.everywhere or may_be_dumb(where)
    begin = blob.read(0, _BEGIN) if not has_records and not is_gap else b''
    has_few = may_be_behind_few(begin, blob.size)
    has_texts = bool(begin) and (is_json(begin) or stands_for_bytes(begin[:PREFIX]))
    if not (has_records or is_searched or has_few or has_texts):
        return False
    values = Values(looker)
    values.begin(where, blob.size)
    before = len(looker.pickles), looker.plain, len(looker.notes)
    if has_records:
        values.records(blob, where, depth)
    else:
        found = values.look_behind_few(blob, blob.read(0, SMALL), where, depth) if has_few else None
        if is_searched or has_texts:
            values.look_at_texts(blob, where, depth)
        # (where one pickle is behind a few bytes, others may follow, and a large one is not seen there)
        if is_searched or found is not None or blob.size > SMALL and has_proto(begin):
            values.look_everywhere(blob, where, known=found, depth=depth)
    values.flush()
    if has_records or is_searched or (len(looker.pickles), looker.plain, len(looker.notes)) != before:
        return True
    looker.others -= 1
    return False


def look_behind(looker: 'Looker', blob: Blob, where: Place, depth: int) -> None:
    """Looks at what is behind a pickle that was not read to the end of its bytes."""
    values = Values(looker)
    values.begin(where, blob.size)
    values.look_everywhere(blob.part(1, blob.size - 1), where, 1, depth=depth)
    others = looker.others
    values.flush()
    looker.others = others


def look_inside(looker: 'Looker', blob: Blob, where: Place, depth: int) -> None:
    """Looks at what a pickle holds."""
    values = Values(looker)
    others = looker.others
    try:
        values.begin(where, blob.size)
        values.look_inside(blob, where, depth)
    finally:
        values.flush()
        looker.others = others
