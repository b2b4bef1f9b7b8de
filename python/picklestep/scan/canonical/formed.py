"""Whether bytes are one pickle in the form that picklers write: what the program answers, proved. A few bytes are asked about in this process.

Every loader that is known (C, Python, PyPy, joblib, torch) reads such a pickle in one way.
"""

from __future__ import annotations

from typing import Optional, Sequence

from ... import library
from ...errors import OutOfMemory, PicklestepError, ProgramError, TimedOut
from ...verdicts import other_form
from ..blobs import Blob, Budget, FileBlob, JoinedBlob, PartMet, spooled
from .forms import NotCanonical, NotKnown

__all__ = ['SIGN_OF_ARRAYS', 'BEHIND', 'answer_of_program', 'content_of', 'end_in_form', 'require_form']

# Where these bytes are not, nothing is one of joblib's classes of arrays: a name of an import stands in a pickle as it is.
SIGN_OF_ARRAYS = b'ArrayWrapper'

_WORDS = ('form', '--json')
# The reason of a pickle that is in the form, with something behind it.
BEHIND = 'bytes behind STOP'
# So many bytes are looked at first for the end of a pickle.
_GLANCE = 1 << 13
# The program takes at most so many bytes of memory for each byte: a small input needs no limit.
_MEMORY_OF_A_BYTE = 32


def content_of(blob: Blob) -> Optional[bytes]:
    """All bytes, where they are so few that they are asked about in this process."""
    return blob.read(0, blob.size) if blob.size <= library.MOST_BYTES else None


def require_form(blob: Blob, budget: Optional[Budget] = None, begin: int = 0) -> None:
    """Raises NotCanonical unless the bytes are one pickle in the form. Its place counts from where `begin` bytes more are in front."""
    content = content_of(blob)
    answer = None if content is None else library.answer(_WORDS, content)
    if answer is None:
        answer = answer_of_program(_WORDS, blob, budget)
    try:
        other = other_form(answer)
    except (ProgramError, ValueError) as error:
        raise NotKnown('the program does not say whether it is') from error
    if other is not None:
        offset = blob.offset_of(other.offset) if isinstance(blob, JoinedBlob) else other.offset
        raise NotCanonical(other.reason, begin + offset)


def end_in_form(blob: Blob, at: int, budget: Budget) -> int:
    """Where the pickle ends that begins there, in the form that picklers write. Raises NotCanonical where none does."""
    size = _GLANCE
    while True:
        budget.spend()
        part = blob.part(at, size)
        try:
            require_form(part, budget, at)
            return at + part.size
        except NotCanonical as other:
            if other.reason == BEHIND:
                return other.offset
            if isinstance(other, NotKnown) or at + size >= blob.size:
                raise
        size *= 2
        if min(size, blob.size - at) > budget.most_held():
            raise NotKnown('its end is not within what may be held at once', at)


def answer_of_program(words: Sequence[str], blob: Blob, budget: Optional[Budget], files: Sequence[int] = (), unpacked: int = 0) -> bytes:
    """What the program says of some bytes with these words, within the time and the memory that are left. `files` are descriptors that it needs for the
    words, and it unpacks so many bytes. Raises PartMet where there is too little, and NotKnown where there is no answer."""
    path = blob.path() if isinstance(blob, FileBlob) else None
    if path is not None:
        return _run([*words, path], blob.size + unpacked, budget, files)
    copy = spooled(blob.chunks())
    with copy.file:
        return _run([*words, copy.path()], copy.size + unpacked, budget, files)


def _run(words: Sequence[str], size: int, budget: Optional[Budget], files: Sequence[int]) -> bytes:
    from ...program import run_program, time_to_wait
    memory = timeout = None
    if budget is not None:
        memory = budget.memory() if size * _MEMORY_OF_A_BYTE > budget.memory() else None
        timeout = time_to_wait(budget.seconds)
    try:
        return run_program(words, files, memory=memory, timeout=timeout)
    except (OutOfMemory, TimedOut) as error:
        raise PartMet('reading it strictly would take more time or memory than there is') from error
    except PicklestepError as error:
        raise NotKnown(f'the program does not say whether it is: {error}') from error
