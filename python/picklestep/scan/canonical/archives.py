"""Zip archives in the form of their usual writers: the program says which members they have.

Archives that it cannot be asked about `zips` reads, which is tested and not proved. So are those that a reader of tar archives may take for one too: of
these the program names the members that such a reader finds. `agreed` reads archives in other forms, if three readers find the same members in them.
"""

from __future__ import annotations

import os
from typing import Iterator, List, NamedTuple, Optional, Sequence, Set

from ..blobs import Blob, Budget
from ..containers import TAR
from ..tar_headers import BLOCK
from ..zips import DEFLATED, ENTRY, ENTRY_FIELDS, LOCAL_FIELDS, LONG, LONG_END_FIELDS, STORED
from . import agreed, zips
from .forms import Form, Member, NotCanonical, NotKnown, wrong
from .outlines import FEW, MOST_AROUND, Range, named_members, packed_size

__all__ = ['verify']

# A header has so many bytes besides the name at most, as usual writers write them.
_MOST_OF_EXTRA = 160
# The closing record, its locator and the record of archives with long numbers have so many bytes.
_MOST_AT_END, _LOCATOR = 22 + 20 + LONG_END_FIELDS.size, b'PK\x06\x07'
# torch's padding: a field of this kind behind the name.
_PADDING = b'FB'


def verify(blob: Blob, budget: Optional[Budget] = None) -> Form:
    """The members of an archive in order. Raises NotCanonical where it is in another form, or torch would read it otherwise than others do."""
    try:
        form = _named(blob, budget) or zips.verify(blob, budget)
    except NotKnown:
        raise
    except NotCanonical as reason:
        form = agreed.verify(blob, reason, budget)
    _require_one_pickle(form.members)
    if form.is_torch:
        _require_layout_of_torch(form.members)
    return form


def _named(blob: Blob, budget: Optional[Budget]) -> Optional[Form]:
    """The members that the program names. None where it cannot be asked."""
    if TAR.begins(blob.read(0, BLOCK)):
        return None
    rows = _rows(blob)
    named = named_members(blob, _contents(rows), budget)
    if named is None:
        return None
    members: List[Member] = []
    for found, row in zip(named, rows):
        name, method = os.fsencode(found.name).decode('utf-8'), STORED if found.deflated is None else DEFLATED
        members.append(Member(name, found.offset, packed_size(found), 'folder' if name.endswith('/') else 'file', method, found.size, row.checksum))
    if len(named) != len(rows):
        raise NotKnown('the program does not say which members it has')
    return Form(tuple(members), _is_padded(blob, members))


def _contents(rows: Sequence[_Row]) -> Iterator[Range]:
    """Ranges that are content of members, by what the directory says. It is not believed: who asks about the others looks at these afterwards."""
    for row in rows:
        start = row.place + LOCAL_FIELDS.size + row.length
        if LONG not in (row.place, row.packed) and row.packed >= FEW:
            yield start + _MOST_OF_EXTRA, start + row.packed


# --- The directory ---

class _Row(NamedTuple):
    """Of an entry of the directory: where the header is, the length of its name, how many bytes the member has packed, and its checksum."""

    place: int
    length: int
    packed: int
    checksum: int


def _rows(blob: Blob) -> List[_Row]:
    """The entries of the directory of an archive in the form, as it has them. Of one in another form it may be anything."""
    end = blob.read(max(0, blob.size - _MOST_AT_END), _MOST_AT_END)
    start = int.from_bytes(end[-50:-42] if end[-42:-38] == _LOCATOR else end[-6:-2], 'little')
    rows: List[_Row] = []
    if blob.size - start > MOST_AROUND:
        return rows
    directory, at = blob.read(start, blob.size - start), 0
    while directory.startswith(ENTRY, at) and at + ENTRY_FIELDS.size <= len(directory):
        _, _, _, _, _, _, _, checksum, packed, _, name, extra, comment, _, _, _, place = ENTRY_FIELDS.unpack_from(directory, at)
        rows.append(_Row(place, name, packed, checksum))
        at += ENTRY_FIELDS.size + name + extra + comment
    return rows


def _is_padded(blob: Blob, members: Sequence[Member]) -> bool:
    """Whether the first header has torch's padding, and all have then."""
    head = blob.read(0, min(members[0].offset, 1 << 16)) if members else b''
    name = int.from_bytes(head[26:28], 'little')
    return _PADDING in (head[LOCAL_FIELDS.size + name:][:2], head[LOCAL_FIELDS.size + name + 20:][:2])


# --- What torch reads by ---

def _require_one_pickle(members: Sequence[Member]) -> None:
    """One data.pkl in a folder: torch finds it whatever its case."""
    names: Set[str] = set()
    for member in members:
        key = member.name.lower()
        if key.endswith('data.pkl') and key in names:
            wrong(f'two members are named {member.name!a} but for case')
        names.add(key)


def _require_layout_of_torch(members: Sequence[Member]) -> None:
    """One folder for all, names that differ in more than case, data at multiples of 64."""
    folder = members[0].name.partition('/')[0] if members else ''
    lower: Set[str] = set()
    for member in members:
        if not member.name.startswith(folder + '/'):
            wrong(f'{member.name!a} is not in the folder {folder!a}')
        if member.role != 'folder' and member.offset % 64:
            wrong(f'the data of {member.name!a} do not begin at a multiple of 64', member.offset)
        name = member.name.lower()
        if name in lower:
            wrong(f'two members are named {member.name!a} but for case')
        lower.add(name)
