"""Asks the program about many small pickles at once: a process for each would take longer than its answer.

They are written one after another, and the program reads them as several pickles of one file. Between them are markers, which are pickles
too: each imports a name that nobody can guess. A marker whose line is at its very place shows that the pickle before it ended where it was
to end. Where that line is not there, the pickle is asked about alone, so none can hide another.
"""

from __future__ import annotations

import secrets
from contextlib import closing
from dataclasses import replace
from itertools import takewhile
from typing import Iterator, List, Optional, Sequence

from ...errors import PicklestepError
from ...program import Process, time_to_wait
from ...reaches import EVENTS, Fields, plainly_in, renumbered_fields, said_in
from ...texts import renumbered
from ..blobs import Budget, BytesBlob, Limits, spooled
from ..reading import Asked, Enough, Summary, calls_words
from ..walk import stops_at_end

__all__ = ['MOST_BYTES', 'MOST_PICKLES', 'NOTHING', 'answers']

# So many pickles, and bytes of them, are asked about at once.
MOST_PICKLES = 4096
MOST_BYTES = 4 << 20

# An answer about them that is longer is not read to its end: each is asked about alone.
_MOST_ANSWER = 32 << 20

# A process takes so much address space for each byte at most.
_MEMORY_OF_A_BYTE = 4096

# Lines with numbers that go on from pickle to pickle in another way than those of objects.
_COUNTED = ('buffer', 'readonly')


def answers(contents: Sequence[bytes], is_whole: Sequence[bool], budget: Budget, keep_lines: bool = False,
            full: bool = False) -> Iterator[Optional[Summary]]:
    """What each of these bytes imports and calls, in their order; NOTHING where that is nothing.

    Each that is whole is known to end with an opcode STOP. The others only have its byte at their end. None stands for one of these that
    does not end so. With `full` arguments are whole.
    """
    at, most = 0, MOST_PICKLES
    while at < len(contents):
        found = _together(contents[at:at + most], budget, keep_lines, full) if most > 1 else []
        yield from found
        whole = len(found) == len(contents[at:at + most])
        at += len(found)
        if not whole:
            yield _alone(contents[at], budget, keep_lines, full) if is_whole[at] or stops_at_end(contents[at]) else None
            at += 1
        most = min(MOST_PICKLES, most * 4) if whole or most == 1 else max(1, most // 4)


def _alone(content: bytes, budget: Budget, keep_lines: bool, full: bool) -> Summary:
    with Asked(BytesBlob(content)) as asked:
        answer = asked.summary(budget, keep_lines, full=full)
        if answer.end.item is not None:
            answer.end = replace(answer.end, offset=asked.offset_of_item(answer.end.item, budget))
        return answer


def _together(contents: Sequence[bytes], budget: Budget, keep_lines: bool, full: bool) -> List[Summary]:
    """The answers about the first of them, up to one that has to be asked about alone."""
    budget.spend()
    name = secrets.token_hex(8)
    marker = b'cpicklestep\n%b\n.' % name.encode()
    copy = spooled([b''.join(content + marker for content in contents)])
    may_take = budget.memory()
    text = bytearray()
    with copy.file:
        try:
            process = Process([*calls_words(full), copy.path()], memory=may_take if copy.size * _MEMORY_OF_A_BYTE > may_take else None)
            process.limit_seconds(budget.seconds)
            with closing(process.blocks(time_to_wait(budget.seconds))) as pieces:
                for piece in pieces:
                    text += piece
                    if len(text) > _MOST_ANSWER:
                        return []
        except PicklestepError:
            return []
    # (Behind a heading a marker does not show how the pickle before it ended. The last line may be cut.)
    read, signs = plainly_in(bytes(text[:text.rfind(b'\n') + 1])) if text else ([], b'')
    lines = takewhile(lambda fields: fields['kind'] in EVENTS and 'text' in fields, read)
    sizes = [len(content) for content in contents]
    return list(_taken_apart(lines, signs, sizes, name, len(marker), budget, keep_lines))


def _taken_apart(lines: Iterator[Fields], signs: bytes, sizes: Sequence[int], marker: str, width: int, budget: Budget,
                 keep_lines: bool) -> Iterator[Summary]:
    """The answer about each of several pickles, as far as each is followed by its marker."""
    start = objects = 0
    for size in sizes:
        own: List[Fields] = []
        for fields in lines:
            offset = int(fields['offset'])
            if offset >= start + size:
                if offset != start + size or fields['kind'] != 'import' or (fields.get('module'), fields.get('name')) != ('picklestep', marker):
                    return
                break
            if fields['kind'] in _COUNTED:
                return
            own.append(_lowered(fields, start, objects))
        else:
            return
        yield _summary(own, signs, budget, keep_lines)
        objects = int(fields['object']) + 1
        start += size + width


def _lowered(fields: Fields, start: int, count: int) -> Fields:
    """A line with the offset and the numbers that it has where so many bytes and objects are not before it.

    >>> _lowered({'kind': 'call', 'offset': 9, 'callee': 3, 'args': [{'kind': 'object', 'object': 4}], 'object': 5, 'text': '    9: call #3 (#4) as #5'}, 2, 3)
    {'kind': 'call', 'offset': 7, 'callee': 0, 'args': [{'kind': 'object', 'object': 1}], 'object': 2, 'text': '    7: call #0 (#1) as #2'}
    """
    if not start:
        return fields
    offset, said = int(fields['offset']) - start, renumbered(said_in(fields), lambda number: number - count)
    return {**renumbered_fields(fields, lambda number: int(number) - count), 'offset': offset, 'text': f'{offset:5}: {said}'}


# The answer about each pickle that imports and calls nothing.
_NO_MORE: List[Fields] = [{'kind': 'ending', 'how': 'stopped', 'kept': 0, 'text': ''}, {'kind': 'end', 'status': 0}]
NOTHING = Summary(Budget(Limits()), False)
NOTHING.take_fields(_NO_MORE, b'')


def _summary(lines: List[Fields], signs: bytes, budget: Budget, keep_lines: bool) -> Summary:
    if not lines:
        return NOTHING
    summary = Summary(budget, keep_lines)
    try:
        summary.take_fields([*lines, *_NO_MORE], signs)
    except Enough as limit:
        summary.trouble = f'{limit}: the rest of it is not looked at'
    return summary
