"""Asks the program which members an archive has: what it says is proved to be what every reader finds that its definitions have.

The program answers about bytes in memory. What it says depends on the headers, and on what stands around the content of members, and not on what
members hold. So of an archive that is not small it gets those bytes alone, with zeros in place of the others: a file of gigabytes is not read. That
nothing else was left out is asked afterwards, by the members that it names.
"""

from __future__ import annotations

import mmap
from typing import Any, Iterable, Iterator, List, NamedTuple, Optional, Sequence, Tuple

from ... import library
from ...errors import ProgramError
from ...short_records import Member
from ...sources import LIMIT
from ...verdicts import members_of
from ..blobs import STEPS_OF_A_MEMBER, Blob, Budget
from .formed import answer_of_program, content_of
from .forms import NotKnown, wrong

__all__ = ['FEW', 'MOST_AROUND', 'Range', 'named_members', 'packed_size']

# Where there is no library in this process the program is asked about archives up to this size: it reads all of one.
_MOST_READ = 64 << 20
# Of what is no content of a member there may be so many bytes. (Of 100,000 members it is a third of that.)
MOST_AROUND = 64 << 20
# Fewer bytes of a member are not left out.
FEW = 512
_WORDS = ('members', '--json')
Range = Tuple[int, int]


def named_members(blob: Blob, contents: Iterable[Range], budget: Optional[Budget]) -> Optional[List[Member]]:
    """The members that the program names. None where it cannot be asked: of an archive above its limit, and of a large one where no library reads the
    memory of this process. `contents` are ranges that are probably the content of members. Raises NotCanonical where the archive is in another form."""
    if blob.size > LIMIT:
        return None
    outline = _outline(blob, contents)
    answer = _answer(blob, outline, budget)
    if answer is None:
        return None
    try:
        found, end = members_of(answer)
    except (ProgramError, ValueError) as error:
        raise NotKnown('the program does not say which members it has') from error
    if end['how'] != 'whole':
        wrong(end.get('words', 'it unpacks to too much'), int(end.get('offset', -1)))
    if budget is not None:
        budget.count(STEPS_OF_A_MEMBER * len(found))
    if outline is not None and not _are_contents(outline.left_out, found):
        raise NotKnown('the program does not say which members it has')
    return found


def packed_size(member: Member) -> int:
    """How many bytes of the archive are those of a member."""
    return member.size if member.deflated is None else member.deflated


class _Outline(NamedTuple):
    """The bytes of an archive with zeros in place of some, as the library takes them; and the ranges of these, in order."""

    bytes: Any
    left_out: List[Range]


def _answer(blob: Blob, outline: Optional[_Outline], budget: Optional[Budget]) -> Optional[bytes]:
    """What it says of these bytes. None where it cannot be asked."""
    content = content_of(blob) if outline is None else outline.bytes
    answer = None if content is None else library.members(content, None if budget is None else budget.memory())
    return answer_of_program(_WORDS, blob, budget) if answer is None and blob.size <= _MOST_READ else answer


def _outline(blob: Blob, contents: Iterable[Range]) -> Optional[_Outline]:
    """All but the content of members. None of an archive that is small, and where there is no library or no room."""
    if blob.size <= library.MOST_BYTES or not library.is_in_process():
        return None
    import ctypes  # (not each Python has it, and where there is a library it is loaded)
    left_out = sorted(contents)
    kept = list(_between(left_out, blob.size))
    if sum(end - start for start, end in kept) > MOST_AROUND:
        wrong(f'it has more than {MOST_AROUND:,} bytes that are not the content of a member')
    try:
        room = mmap.mmap(-1, blob.size)
    except (OSError, ValueError, OverflowError, MemoryError):
        return None
    for start, end in kept:
        room[start:end] = blob.read(start, end - start).ljust(end - start, b'\0')  # (a file that became shorter)
    return _Outline((ctypes.c_char * blob.size).from_buffer(room), left_out)


def _are_contents(left_out: Sequence[Range], members: Iterable[Member]) -> bool:
    """Whether each of these ranges is within the content of another member."""
    held = iter(members)
    return all(any(member.offset <= start and end <= member.offset + packed_size(member) for member in held) for start, end in left_out)


def _between(ranges: Sequence[Range], size: int) -> Iterator[Range]:
    """What is in none of these ranges, which are in order."""
    at = 0
    for start, end in [*ranges, (size, size)]:
        if at < min(start, size):
            yield at, min(start, size)
        at = max(at, end)
