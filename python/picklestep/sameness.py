"""Whether two pickles make the same objects, as the proved program says it."""

from __future__ import annotations

from typing import Optional

from . import library
from .addresses import content_in
from .errors import NotConverted
from .short_records import SameAnswer
from .sources import Input, Source
from .tasks import modes
from .verdicts import same_answer

__all__ = ['require_same', 'same', 'same_bytes']


def same(one: Source, other: Source, *, many: bool = False, timeout: Optional[float] = None, memory: Optional[int] = None) -> SameAnswer:
    """Whether two pickles make the same objects, each with the same number; import, call and fill the same in the same order; and give the same result.
    How an opcode spells its argument, the keys of the memo and frames make no difference. The answer is true where they do. With `many` each source may
    have several pickles that follow one another.

    A pickle that does not read to its end, or is followed by other bytes, is the same as none. `timeout` and `memory` are as for `calls`. Of an address
    or the path of a container the pickle in it is compared.

    >>> bool(same(b'K\\x05.', b'J\\x05\\0\\0\\0.')), same(b'](e.', b']N\\x85.').text
    (True, 'another object #1')
    """
    return same_bytes(content_in(one), content_in(other), many, timeout, memory)


def same_bytes(one: bytes, other: bytes, many: bool = False, timeout: Optional[float] = None, memory: Optional[int] = None) -> SameAnswer:
    """The same of the bytes of pickles."""
    answer = library.same(one, other, many, memory) if timeout is None else None
    if answer is None:
        from .program import run_program
        with Input(one) as first, Input(other) as second:
            answer = run_program(['same', '--json', *modes(many), first.path, second.path], [*first.files, *second.files], timeout=timeout, memory=memory)
    return same_answer(answer)


def require_same(one: bytes, made: bytes, many: bool = False) -> None:
    """Raises NotConverted where what was made of a pickle does not make the same objects."""
    answer = same_bytes(one, made, many)
    if not answer:
        raise NotConverted([f'it would not make the same objects: {answer.text}'])
