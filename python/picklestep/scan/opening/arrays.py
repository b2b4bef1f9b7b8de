"""Looks into numpy's own layout (.npy): a header, and then a pickle where the array holds objects, else raw numbers."""

from __future__ import annotations

from ..arrays import array_header
from ..begins import HEAD
from ..canonical import npy
from ..canonical.layouts import alone
from ..containers import Held
from ..looking import Looker

__all__ = ['look_into']


def look_into(looker: Looker, held: Held) -> bool:
    """Looks at what comes after the header."""
    form = looker.form(held, npy.verify)
    if form is None:
        _look_into_odd(looker, held)
        return True
    member = form.members[0]
    rest, inner = held.blob.part(member.offset, member.size), held.where + (member.name,)
    if member.role == 'pickle':
        looker.is_read(rest, rest.read(0, HEAD), inner, ('objects.pkl',), alone, depth=held.depth + 1)
    else:
        looker.look_at_numbers(rest, inner, (), held.depth + 1)
    return True


def _look_into_odd(looker: Looker, held: Held) -> None:
    start, has_objects = array_header(held.blob)
    rest = held.blob.part(start, held.blob.size - start)
    if has_objects:
        looker.is_read(rest, rest.read(0, HEAD), held.where + ('(objects)',), ('objects.pkl',),
                       depth=held.depth + 1)
    else:
        looker.look_at(rest, held.where + ('(numbers)',), (), held.depth + 1, is_gap=True)
