"""Looks into files that pack one other: gzip and its like."""

from __future__ import annotations

from ..canonical import NotCanonical
from ..canonical import zips as strict_zips
from ..canonical.kinds import without_ending
from ..containers import Held
from ..looking import Looker, Unpacked

__all__ = ['look_into']


def look_into(looker: Looker, held: Held) -> bool:
    """Looks at what it unpacks to, and at what comes after its end."""
    blob, where, stream = held.blob, held.where, held.kind.stream
    assert stream is not None
    inner = where + (f'({held.kind})',)
    unpacking = stream.unpacking(blob)
    before = looker.budget.unpacked
    unpacked = Unpacked(closing=[strict_zips.directory_before(blob, at) for at in strict_zips.closing_records(blob)])
    looker.look_at_unpacked(unpacking, inner, tuple(map(without_ending, held.names)), held.depth + 1, unpacked)
    if unpacking.trouble is not None and looker.budget.unpacked == before and stream.is_weak and not stream.is_any:
        return False  # two or three bytes that happen to be these
    try:
        stream.verify_begin(blob)
        if not unpacked.is_cut:
            stream.verify_end(blob, unpacking, unpacked.size)
    except NotCanonical as reason:
        looker.note_form(where if unpacking.trouble is None else inner, held.kind.writers, reason)
    if unpacking.trouble is None and unpacking.end < blob.size and not unpacked.is_cut:
        looker.look_at_gap(blob, unpacking.end, blob.size, where, (), held.depth + 1)
    # What cannot be packed stands there as it is, perhaps with the end of an archive, which the unpacked bytes then have too.
    if unpacked.has_closing:
        held.spans.append((0, blob.size))
    return True
