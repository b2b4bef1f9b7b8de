"""Pickles in the opcodes of another protocol: read by the program, written anew, and compared by the program's answers about both.

Where only the spelling of arguments, the memo and frames change, the program itself says whether both make the same objects. Otherwise the result has
other objects on purpose, and `checking` compares those that stand for each other.
"""

from __future__ import annotations

from bisect import bisect_right
from typing import Iterator, List, Optional, Sequence, Set

from ..collector import without_collector
from ..errors import NotConverted
from ..opcodes import BY_CODE, BY_NAME, of_kinds
from ..optimizing import in_frames
from ..sameness import require_same
from ..tasks import calls, listing, objects
from .checking import Checked, names_in
from .higher import Names, raised
from .lower import lowered
from .reading import Op, are_spellings, read
from .spelling import shared, spelled

__all__ = ['PROTOCOLS', 'in_protocol']

PROTOCOLS = range(6)
_OF_PROTO, _OF_FRAMES, _OF_DOTS = 2, 4, 4
# From these protocols on a loader takes other names of an import for the same texts: it translates none any more, and takes them apart at their dots.
_OF_NAMES = 3, _OF_DOTS
_NAMED = of_kinds('global', 'stack-global', 'inst', 'ext')


@without_collector()
def in_protocol(content: bytes, protocol: int, many: bool = False) -> bytes:
    """The pickle in the opcodes of a protocol, or with `many` all pickles that follow one another, each as `pickle.load` loads it. Raises NotConverted."""
    old_calls = calls(content)
    if not old_calls.end.is_stopped:
        raise NotConverted([f'reading ends early: {old_calls.end.text}'])
    why = old_calls.mixed or old_calls.warning
    if why:
        raise NotConverted([why])
    old = objects(content, many=True)
    listed = listing(content, many=True)
    pickles = list(read(listed, old))
    starts = [offset for offset, _ in listed.each(lambda fields: None)]
    if len(pickles) > 1 and not many:
        raise NotConverted(['several pickles follow one another: they are converted with --many'])
    names = names_in(old_calls)
    made: List[bytes] = []
    stands: List[Optional[int]] = []
    dotted: Set[int] = set()
    is_respelled = True
    for ops in pickles:
        dotted.update(op.stands for op in ops if op.stands is not None and op.protocol >= _OF_DOTS)
        result = _written(ops, protocol, names)
        parts = _spelled(result, protocol)
        is_respelled = is_respelled and _are_spellings(list(_parts_of(ops, content, starts)), parts) and not any(_is_read_otherwise(op, protocol) for op in ops)
        made.append(_assembled(parts, protocol))
        stands += _made_by(result)
    whole = b''.join(made)
    count = len(pickles)
    del pickles, ops, result, parts, starts, listed  # (what is compared takes its own memory)
    _check_opcodes(whole, protocol)
    if is_respelled:
        require_same(content, whole, many=count > 1)
        return whole
    new, new_calls = objects(whole, many=True), calls(whole)
    for end in (new.end, new_calls.end):
        if not end.is_stopped:
            raise NotConverted([f'it would not read to its end: {end.text}'])
    Checked(old, new, stands, old_calls, new_calls, dotted, protocol >= _OF_DOTS).check()
    return whole


def _check_opcodes(content: bytes, protocol: int) -> None:
    """Raises NotConverted where an opcode is of a later protocol."""
    later = listing(content, many=True).protocol or 0
    if later > protocol:
        raise NotConverted([f'it would have an opcode of protocol {later}'])


def _written(ops: Sequence[Op], protocol: int, names: Names) -> List[Op]:
    """The opcodes that stand for those of a pickle. Raises NotConverted where the protocol cannot say something."""
    result, problems = lowered(ops, protocol)
    if not problems:
        result, problems = raised(shared(result), protocol, names)
    if problems:
        raise NotConverted(problems)
    return shared(result)


def _made_by(ops: Sequence[Op]) -> Iterator[Optional[int]]:
    """What each object stands for that opcodes make."""
    for op in ops:
        if op.stands is not None or BY_NAME[op.name].makes and op.name != 'READONLY_BUFFER':
            yield op.stands


def _spelled(ops: Sequence[Op], protocol: int) -> List[bytes]:
    """The bytes of each opcode, without PROTO and FRAME. Raises NotConverted where the protocol cannot say something."""
    parts, problems = spelled(ops, protocol)
    if problems:
        raise NotConverted(problems)
    return parts


def _assembled(parts: List[bytes], protocol: int) -> bytes:
    """The bytes of a pickle, in frames where the protocol has them."""
    if protocol >= _OF_PROTO:
        parts = [bytes([BY_NAME['PROTO'].code, protocol]), *parts]
    return in_frames(parts) if protocol >= _OF_FRAMES else b''.join(parts)


# --- What changes the spelling alone ---

def _parts_of(ops: Sequence[Op], content: bytes, starts: Sequence[int]) -> Iterator[bytes]:
    """The bytes of each opcode of a pickle, without PROTO and FRAME, by where all opcodes start."""
    for op in ops:
        place = bisect_right(starts, op.offset)
        yield content[op.offset:starts[place] if place < len(starts) else op.offset + 1]


def _are_spellings(old: Sequence[bytes], new: Sequence[bytes]) -> bool:
    """Whether each opcode stays, or has another spelling of its argument: all objects are then of the same kind, and in the same order."""
    return len(old) == len(new) and all(one == other or are_spellings(BY_CODE[one[0]].name, BY_CODE[other[0]].name) for one, other in zip(old, new))


def _is_read_otherwise(op: Op, protocol: int) -> bool:
    """Whether an opcode imports by names that a loader takes otherwise in this protocol."""
    return op.name in _NAMED and any((op.protocol >= since) != (protocol >= since) for since in _OF_NAMES)
