"""Looks into tar archives."""

from __future__ import annotations

from collections import Counter
from functools import partial

from .. import tars
from ..begins import HEAD
from ..blobs import Blob
from ..canonical import NotCanonical
from ..canonical import tars as strict_tars
from ..canonical import torch
from ..canonical.forms import WRITERS
from ..canonical.layouts import of_torch_tar
from ..containers import ZIP, Held, kind_of
from ..looking import Looker
from ..results import Place

__all__ = ['look_into']


def look_into(looker: Looker, held: Held) -> bool:
    """Looks at all members."""
    blob, where, depth = held.blob, held.where, held.depth
    form = looker.form(held, strict_tars.verify)
    if form is None:
        _look_into_odd(looker, held)
        return True
    is_torch = torch.TAR_MEMBERS <= {member.name for member in form.members}
    for member in form.members:
        looker.budget.member()
        inner, content = where + (member.name,), blob.part(member.offset, member.size)
        if not looker.wants(inner):
            continue
        if member.role != 'file':
            if is_torch and member.name in torch.TAR_MEMBERS:
                looker.note_form(inner, WRITERS['torch-tar'], NotCanonical('it is no file, and torch reads as this member whatever it leads to'))
            continue
        if is_torch and member.name in torch.TAR_MEMBERS:
            name = member.name
            looker.is_read(content, content.read(0, HEAD), inner, (name,), partial(of_torch_tar, name), True, depth=depth)
            continue
        before = len(looker.notes)
        looker.look_at(content, inner, (member.name,), depth + 1)
        if not any(note.is_marked for note in looker.notes[before:]) and kind_of(content.read(0, 4)) is ZIP:
            held.spans.append((member.offset, member.offset + member.size))
    return True


def _look_into_odd(looker: Looker, held: Held) -> None:
    blob, where, depth = held.blob, held.where, held.depth
    seen: Counter[str] = Counter()
    for member in tars.members(blob):
        looker.budget.member()
        if isinstance(member, tars.Gap):
            looker.look_at_gap(blob, member.offset, member.offset + member.size, where, (), depth + 1)
            continue
        inner = where + (member.name,)
        looker.note_name(member.name, inner, seen)
        if not looker.wants(inner):
            continue
        for text in member.odd:
            looker.note(inner, text)
        for text in member.missed:
            looker.note(inner, text, missed=True)
        looker.look_at(blob.part(member.offset, member.size), inner, (member.name,), depth + 1)
        for sparse in member.sparse:
            _look_at_sparse(looker, sparse, inner, depth + 1)


def _look_at_sparse(looker: Looker, sparse: Blob, where: Place, depth: int) -> None:
    """Looks at what an extractor makes of a sparse member. It is mostly zeros, and may be very large."""
    looker.note(where, f'it is sparse: its stored bytes are looked at, and the {sparse.size:,} bytes that an extractor makes of them')
    looker.at = where
    looker.budget.unpack(sparse.size)
    looker.look_at(sparse, where + ('(expanded)',), where[-1:], depth)
