"""`picklestep optimize FILE --save OUT`: a smaller pickle that makes the same objects. Nothing of it is run.

Entries of the memo that nobody takes go, arguments are spelled as short as they can be, and frames, where there are some, are as CPython's picklers make
them. The proved program says of the result that it makes the same objects.
"""

from __future__ import annotations

import argparse
import sys
from itertools import chain, islice
from pathlib import Path
from typing import Any, Callable, Dict, Iterator, List, Optional, Sequence, Tuple

from .addresses import check_out, content_in, given, saved
from .arguments import opcode
from .collector import without_collector
from .errors import NotConverted, PicklestepError, reason
from .listed import Fields, argument_of, key_of
from .opcodes import BY_NAME, of_rows, spellings_of
from .printing import print_text
from .sameness import require_same
from .saving import naming, written_whole
from .session import Session
from .sources import Source, content_of
from .tasks import listing
from .waiting import Waiting

__all__ = ['SPELLINGS', 'framed', 'frames_around', 'in_frames', 'main', 'optimize']

_PUTS, _GETS = of_rows('put', 'memoize'), of_rows('get')
_MEMO = frozenset(_PUTS + _GETS)
# Opcodes that make the same object of the same argument, the shortest first.
SPELLINGS: Sequence[Sequence[str]] = tuple(map(spellings_of, ('BININT', 'LONG1', 'BINSTRING', 'BINUNICODE', 'BINBYTES', 'GET', 'PUT')))
_ALIKE: Dict[str, Sequence[str]] = {name: names for names in SPELLINGS for name in names}
# The sizes of frames, as pickle has them.
_LARGEST, _LEAST = 64 * 1024, 4
# Of so many opcodes the sizes are summed up at once.
_STEP = 256
_OF_MEMOIZE = 4  # the first protocol that has it


# What is read of an opcode: its name, its argument (of MEMOIZE its key of the memo), and the whole opcode in a shorter spelling, if there is one.
_Read = Tuple[str, Any, Optional[bytes]]


@without_collector()
def optimize(source: Source) -> bytes:
    """A pickle that makes the same objects, and is as small as edits of single opcodes make it; never larger than the source. Of an address or the path
    of a container it is the pickle alone that is opened there.

    Raises NotConverted where it does not read to its end, or is followed by other bytes, and where the program does not say that both make the same
    objects.

    >>> optimize(b'\\x80\\x02]q\\x00J\\x05\\x00\\x00\\x00a.')
    b'\\x80\\x02]K\\x05a.'
    """
    content = content_in(source)
    answer = listing(content, many=True)
    if not answer.end.is_stopped:
        raise NotConverted([f'reading ends early: {answer.end.text}'])
    first, argument, _ = next(answer.each(_read(0)))[1]
    protocol = argument if first == 'PROTO' else answer.protocol or 0
    opcodes = list(answer.each(_read(protocol)))
    names = [name for _, (name, _, _) in opcodes]
    if names.count('STOP') > 1:
        raise NotConverted(['several pickles follow one another: optimize each by itself'])
    parts = list(_edited(content, opcodes, _memo(opcodes), protocol))
    made = in_frames(parts) if 'FRAME' in names else b''.join(parts)
    del opcodes, names, parts  # (what is compared takes its own memory)
    if len(made) >= len(content):
        return content
    require_same(content, made)
    return made


def _read(protocol: int) -> Callable[[Fields], _Read]:
    """What reads an opcode, for a pickle of a protocol."""

    def read(fields: Fields) -> _Read:
        name = fields['opcode']
        if name in _MEMO:
            return name, key_of(fields), None
        argument = argument_of(fields)
        return name, argument, _shorter(name, argument, protocol)

    return read


def _memo(opcodes: Sequence[Tuple[int, _Read]]) -> Optional[Dict[int, int]]:
    """The keys of the memo that somebody takes, each with its new one, which count them in their order. None where a pickle stores two objects under
    one key: all of them are kept then."""
    stored = [key for _, (name, key, _) in opcodes if name in _PUTS]
    if len(set(stored)) != len(stored):
        return None
    taken = {key for _, (name, key, _) in opcodes if name in _GETS}
    return {key: number for number, key in enumerate(filter(taken.__contains__, stored))}


def _edited(content: bytes, opcodes: Sequence[Tuple[int, _Read]], keys: Optional[Dict[int, int]], protocol: int) -> Iterator[bytes]:
    """The bytes of the opcodes that are left, without FRAMEs."""
    known: Dict[Tuple[str, int], Optional[bytes]] = {}  # of the memo
    ends = chain((offset for offset, _ in islice(opcodes, 1, None)), (len(content),))
    for (offset, (name, value, shorter)), end in zip(opcodes, ends):
        if name == 'FRAME':
            continue
        if keys is not None and name in _MEMO:
            if value not in keys:
                continue
            if (name, value) not in known:
                known[name, value] = _with_key(name, value, keys[value], protocol)
            shorter = known[name, value]
        yield content[offset:end] if shorter is None else shorter


def _with_key(name: str, key: int, new: int, protocol: int) -> Optional[bytes]:
    """What stores or takes under a new key of the memo. None where that is the opcode itself."""
    if name in _PUTS and protocol >= _OF_MEMOIZE or name == 'MEMOIZE':
        return None if name == 'MEMOIZE' else opcode('MEMOIZE')
    return _shorter(name, new, protocol) or (None if new == key else opcode(name, new))


def _shorter(name: str, value: Any, protocol: int) -> Optional[bytes]:
    """An opcode in the shortest spelling of its argument, among those of a protocol. None where that is its own."""
    for each in _ALIKE.get(name, ()):
        if each == name:
            break
        if BY_NAME[each].protocol <= protocol:
            try:
                return opcode(each, value)
            except (ValueError, TypeError, OverflowError):
                continue
    return None


def in_frames(parts: Sequence[bytes]) -> bytes:
    """Opcodes in frames as pickle makes them; PROTO is in none.

    >>> in_frames([b'\\x80\\x04', b'K\\x01', b'K\\x02', b'\\x86', b'.'])
    b'\\x80\\x04\\x95\\x06\\x00\\x00\\x00\\x00\\x00\\x00\\x00K\\x01K\\x02\\x86.'
    """
    first = int(parts[0][0] == BY_NAME['PROTO'].code)
    made, at = list(parts[:first]), first
    for place, count in frames_around([*map(len, islice(parts, first, None))]):
        made += parts[at:first + place]
        at = first + place + count
        inner = b''.join(parts[first + place:at])
        made += bytes((BY_NAME['FRAME'].code,)), len(inner).to_bytes(8, 'little'), inner
    return b''.join((*made, *parts[at:]))


def framed(content: bytes) -> bytes:
    """A pickle without frames in frames as pickle makes them; it may have faults.

    >>> framed(b'\\x80\\x04K\\x01K\\x02\\x86.')
    b'\\x80\\x04\\x95\\x06\\x00\\x00\\x00\\x00\\x00\\x00\\x00K\\x01K\\x02\\x86.'
    """
    with Session(content) as session:
        opcodes = list(session.listing())
        ends = [opcode.offset for opcode in opcodes[1:]] + [len(session.bytes())]
        first = int(opcodes[0].name == 'PROTO')
        sizes = [end - opcode.offset for opcode, end in zip(opcodes[first:], ends[first:])]
        for place, count in reversed(list(frames_around(sizes))):
            session.frame(first + place, count)
        return session.bytes()


def frames_around(sizes: Sequence[int]) -> Iterator[Tuple[int, int]]:
    """The frames that pickle puts around opcodes of these sizes: the place of the first one in each, and how many there are.

    >>> list(frames_around([70_000, 1, 2, 1])), list(frames_around([60_000, 6_000, 1, 70_000, 9]))
    ([(1, 3)], [(0, 2), (4, 1)])
    """
    first, last = 0, len(sizes)
    while first < last:
        end, whole = first, 0
        step = sum(sizes[end:end + _STEP])
        while end + _STEP <= last and whole + step < _LARGEST:
            end, whole = end + _STEP, whole + step
            step = sum(sizes[end:end + _STEP])
        while end < last and whole < _LARGEST:
            whole += sizes[end]
            end += 1
        is_large = sizes[end - 1] > _LARGEST  # (which is in no frame)
        if whole - is_large * sizes[end - 1] >= _LEAST:
            yield first, end - is_large - first
        first = end


def main(arguments: List[str]) -> int:
    """Writes the pickle to OUT. The status is 1 where it cannot be made smaller so, 2 where it cannot be read or written."""
    parser = argparse.ArgumentParser(
        prog='picklestep optimize', description='Makes a smaller pickle that makes the same objects. Nothing of it is run.',
        epilog='Status: 0 if the result is saved, also if it is not smaller; 1 if nothing is written, for a reason that is printed; 2 if it cannot be read or written.')
    parser.add_argument('file', metavar='FILE', help='the pickle, or its address')
    parser.add_argument('--save', metavar='OUT', required=True, help='write the result to this file')
    options = parser.parse_args(arguments)
    try:
        pickle, found = given(options.file)
        check_out(options.save, '' if found is None else found.path)
        before = content_of(pickle)
        with Waiting():
            made = optimize(before)
        with naming(options.save), written_whole(Path(options.save)) as file:
            file.write(made)
        print_text(f'{len(before)} bytes -> {len(made)} bytes\n{saved(options.save, found)}')
    except NotConverted as error:
        print_text(''.join(f'{line}\n' for line in (*error.lines, 'nothing is written')))
        return 1
    except (OSError, PicklestepError) as error:
        print(f'picklestep: {reason(error)}', file=sys.stderr)
        return 2
    return 0
