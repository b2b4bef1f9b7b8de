"""Looks into zip archives: in the form of their usual writers, in another form, and at the end of something else."""

from __future__ import annotations

import zlib
from collections import Counter
from typing import NamedTuple, Optional, Set, Tuple

from .. import zips
from ..begins import HEAD
from ..blobs import Blob
from ..canonical import Form, Member, NotCanonical, NotKnown, archives, torch
from ..canonical import zips as strict_zips
from ..canonical.forms import WRITERS
from ..canonical.layouts import Layout, alone
from ..containers import Held, kind_of
from ..looking import Looker, Reads, Unpacked
from ..packed import Unpacking
from ..reach import may_lead_on
from ..results import Place

__all__ = ['look_at_end', 'look_into']


def look_at_end(looker: Looker, held: Held, head: bytes) -> bool:
    """Looks for a zip archive after something else, which some readers see. False where there is none.

    A closing record may be that of a member that was looked at.
    """
    blob, where = held.blob, held.where
    records = [at for at in strict_zips.closing_records(blob) if not any(start <= at < end for start, end in held.spans)]
    has_end = not held.spans and zips.end_of_directory(blob) is not None
    if not records and not has_end:
        return False
    if records:
        looker.note_odd(where, f'the closing record of a zip archive stands at {records[0]}: some readers take it for one')
    if not has_end:
        return False
    if looker.is_too_deep(held):
        return True
    looker.note(where, 'a zip archive stands at its end, after something else: both are looked at')
    found = len(looker.pickles)
    _look_into_odd(looker, held)
    first = [pickle for pickle in looker.pickles[found:] if pickle.where[:-1] == where and pickle.where[-1].startswith('(bytes 0 to ')]
    if looker.leads_somewhere(blob, where) and not any(pickle.end.is_stopped for pickle in first):
        looker.is_read(blob, head, where, held.names, depth=held.depth)
    return True


# --- In the form of their usual writers ---

def look_into(looker: Looker, held: Held) -> bool:
    """Looks at all members."""
    blob, where, depth = held.blob, held.where, held.depth
    form = looker.form(held, archives.verify)
    if form is None:
        _look_into_odd(looker, held)
        return True
    if form.agreed:
        looker.note(where, f'the gate does not know its form ({form.agreed}): zipfile, a reader by places (as torch) and one in sequence find the same members, which are looked at')
    members, pickle = form.members, ''
    read = _AsPickle(alone)
    if form.is_torch:
        pickle = form.members[0].name.partition('/')[0] + '/data.pkl' if form.members else ''
        members, read = _with_numbers(looker, blob, form, pickle, where)
    for member in members:
        looker.budget.member()
        inner = where + (member.name,)
        if member.role == 'folder' or not looker.wants(inner):
            continue
        if member.role == 'numbers':
            looker.look_at_numbers(blob.part(member.offset, member.size), inner, (member.name,), depth + 1)
        else:
            _look_at_member(looker, held, member, inner, read if member.name == pickle else None)
    return True


class _AsPickle(NamedTuple):
    """How a member is read as a pickle, and what the program said of it, if it was asked."""

    reads: Reads
    calls: Optional[bytes] = None


def _with_numbers(looker: Looker, blob: Blob, form: Form, pickle: str, where: Place) -> Tuple[Tuple[Member, ...], _AsPickle]:
    """The members of torch's archive, with those that are the storages of its pickle, and how that is read."""
    member = next((member for member in form.members if member.name == pickle), None)
    if member is None or member.method != zips.STORED:
        return form.members, _AsPickle(alone)
    part, prefix = blob.part(member.offset, member.size), pickle[:-len('data.pkl')] + 'data/'
    try:
        calls, sizes = torch.storages_in(part, looker.budget)
        return tuple(torch.with_numbers(sizes, form.members, prefix)), _AsPickle(lambda blob, budget: Layout(pickles=1), calls)
    except NotKnown as reason:
        looker.note(where, f'which members are raw numbers is not known: {reason}', missed=True)
    except NotCanonical as reason:
        looker.note_form(where, WRITERS['torch'], reason)
    return form.members, _AsPickle(alone)


def _look_at_member(looker: Looker, held: Held, member: Member, where: Place, read: Optional[_AsPickle]) -> None:
    """Looks at a member. Its size and checksum must be those of the directory."""
    looker.at = where
    start = zips.unpacker_of(held.blob, member.method, member.offset)
    assert start is not None
    packed = held.blob.part(member.offset, member.size)
    unpacking = start(packed)
    unpacked = Unpacked()
    if member.method == zips.STORED:
        for piece in unpacking.pieces():
            unpacked.take(piece)
            looker.budget.spend()
        if read is not None:
            looker.is_read(packed, packed.read(0, HEAD), where, (member.name,), read.reads, calls=read.calls,
                           depth=held.depth + 1)
        else:
            looker.look_at(packed, where, (member.name,), held.depth + 1)
    else:
        looker.budget.look(packed.size)
        looker.look_at_unpacked(unpacking, where, (member.name,), held.depth + 1, unpacked)
    if unpacked.is_cut:
        return
    try:
        _verify_content(unpacking, packed.size, unpacked, member)
    except NotCanonical as reason:
        looker.note_form(where, held.kind.writers, reason)


def _verify_content(unpacking: Unpacking, packed: int, unpacked: Unpacked, member: Member) -> None:
    """Raises NotCanonical where a member does not unpack to exactly the size in the directory."""
    name = f'{member.name!a}'
    if unpacking.trouble is not None:
        raise NotCanonical(f'{name}: {unpacking.trouble}')
    if unpacking.end != packed:
        raise NotCanonical(f'bytes stand behind the end of {name}', member.offset + unpacking.end)
    if unpacked.size != member.unpacked:
        raise NotCanonical(f'{name} has {unpacked.size} bytes, and the directory tells {member.unpacked}')
    if unpacked.checksum != member.checksum:
        raise NotCanonical(f'the checksum of {name} is wrong')


# --- In another form ---

def _look_into_odd(looker: Looker, held: Held) -> None:
    blob, where, depth = held.blob, held.where, held.depth
    archive = zips.read_archive(blob, looker.options.limits.members)
    for text in archive.odd:
        looker.note(where, text)
    seen: Counter[str] = Counter()
    headers: Set[Tuple[str, int]] = set()
    for entry in archive.entries:
        inner = where + (entry.name,)
        looker.at = inner
        looker.budget.member()
        if (entry.name, entry.header) not in headers:
            headers.add((entry.name, entry.header))
            looker.note_name(entry.name, inner, seen)
        if looker.wants(inner):
            _look_at_entry(looker, blob, entry, inner, depth + 1)
    for start, end in archive.gaps:
        looker.look_at_gap(blob, start, end, where, held.names if start == 0 else (), depth + 1)


def _look_at_entry(looker: Looker, blob: Blob, entry: zips.Entry, where: Place, depth: int) -> None:
    for text in entry.odd:
        looker.note(where, text, missed=entry.missing or 'cut short' in text)
    if entry.missing or (entry.name.endswith('/') and not entry.packed):
        return
    start = zips.unpacker_of(blob, entry.method, entry.data)
    if start is None:
        looker.note(where, f'it is packed by method {entry.method}, which is not read', missed=True)
        looker.others += 1
        return
    strict = entry.flags & (zips.PATCHED | zips.STRONG | zips.MASKED)
    if strict:
        looker.note(where, f'its flags {entry.flags:#x} are those that a strict reader refuses: it is looked at all the same')
    if entry.flags & (zips.ENCRYPTED | zips.STRONG) and not _is_readable(looker, blob, entry, start, where):
        return
    if entry.method == zips.STORED:
        _look_at_stored(looker, blob, entry, where, depth)
    else:
        _look_at_packed(looker, blob, entry, start, where, depth)


def _is_readable(looker: Looker, blob: Blob, entry: zips.Entry, start: zips.Start, where: Place) -> bool:
    """Whether a member is plain although its flags say that it is encrypted."""
    packed = blob.part(entry.data, entry.packed)
    head = b''
    sum_of = 0
    unpacking = start(packed)
    for piece in unpacking.pieces():
        looker.budget.unpack(len(piece))
        sum_of = zlib.crc32(piece, sum_of)
        head += piece[:max(0, HEAD - len(head))]
    if unpacking.trouble is None and sum_of == entry.checksum:
        looker.note(where, 'its flags say that it is encrypted, and it is not: it is looked at')
        return True
    looker.note(where, 'encrypted: only what can be read without the key is looked at', missed=True)
    if may_lead_on(head, len(head) >= entry.packed) or kind_of(head) is not None:
        return True
    looker.others += 1
    return False


def _look_at_stored(looker: Looker, blob: Blob, entry: zips.Entry, where: Place, depth: int) -> None:
    """Looks at a member that is not packed. What is neither a pickle nor a container is not read, so a file of gigabytes is quick."""
    data = blob.part(entry.data, entry.packed)
    if entry.unpacked is not None and entry.unpacked != entry.packed:
        looker.note(where, f'the directory tells two sizes for it, {entry.packed} and {entry.unpacked}: {data.size} bytes are looked at')
    found = len(looker.pickles)
    looker.look_at(data, where, (entry.name,), depth)
    if len(looker.pickles) > found and entry.checksum is not None:
        sum_of = 0
        for piece in data.chunks():
            sum_of = zlib.crc32(piece, sum_of)
        _check_sum(looker, entry, sum_of, where)


def _check_sum(looker: Looker, entry: zips.Entry, sum_of: int, where: Place) -> None:
    if entry.checksum is not None and sum_of != entry.checksum:
        looker.note(where, 'its checksum is wrong: it is looked at all the same')


def _look_at_packed(looker: Looker, blob: Blob, entry: zips.Entry, start: zips.Start, where: Place, depth: int) -> None:
    packed = blob.part(entry.data, entry.packed)
    looker.budget.look(packed.size)
    unpacking = start(packed)
    unpacked = Unpacked()
    looker.look_at_unpacked(unpacking, where, (entry.name,), depth, unpacked)
    if unpacking.trouble is not None:
        looker.note(where, unpacking.trouble, missed=True)
        return
    if unpacked.is_cut:
        return
    _check_sum(looker, entry, unpacked.checksum, where)
    if entry.unpacked is not None and unpacked.size != entry.unpacked:
        looker.note(where, f'it has {unpacked.size} bytes, and the directory tells {entry.unpacked}')
