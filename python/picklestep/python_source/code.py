"""A pickle as Python source."""

from __future__ import annotations

import contextlib
import os
from typing import Iterator, List, Optional

from ..addresses import opened_in, other_kinds
from ..answers import Answer
from ..collector import without_collector
from ..hints import OLD_TORCH, of_array, of_frame
from ..listed import Batch, Listed
from ..opens import ENOUGH, begins_like_one
from ..program import check_timeout
from ..records import End
from ..sources import Input, Source
from ..tasks import modes
from .builder import Builder
from .helpers import HELPERS
from .nodes import Event, Statement
from .writer import Writer

__all__ = ['BEHIND', 'CONTAINER', 'HEAD', 'HEAD_OF_CUT', 'HEAD_OF_CUT_PART', 'HEAD_OF_CUT_UNFRAMED', 'HEAD_OF_PART', 'HEAD_OF_UNFRAMED', 'PythonSource',
           'source']

HEAD = '# What loading the pickle would do. Running this does the same.\n'
HEAD_OF_CUT = '# What loading the pickle would do. cut(N) stands for N more, so this cannot be run.\n'
# Where not all of the file was read.
HEAD_OF_PART = '# What loading the file would do first: the last lines say why this is not all.\n'
HEAD_OF_CUT_PART = HEAD_OF_PART[:-1] + ' cut(N) stands for N more.\n'
# Where the lengths of frames were not heeded: a loader heeds them.
HEAD_OF_UNFRAMED = '# What the opcodes would do if the lengths of frames counted for nothing. A loader may end earlier, or do something else.\n'
HEAD_OF_CUT_UNFRAMED = HEAD_OF_UNFRAMED[:-1] + ' cut(N) stands for N more.\n'
# Where the bytes are those of a container.
CONTAINER = 'the bytes begin like a container, which is not opened here: `picklestep scan FILE` looks into it'
# Where torch wrote the bytes before 1.6: the first pickle has a number alone.
TORCH = 'torch before 1.6 wrote more pickles behind this one, and the numbers of tensors: `picklestep calls FILE` reads the pickles'
_BEGIN_OF_TORCH = 32
# Where reading ends before the bytes do.
BEHIND = ' (`calls` shows what loaders reach behind it)'


class PythonSource(Answer[str]):
    """A pickle as Python source: a sequence over the lines of `text`. `end` says how reading ended, `kept` how many bytes are after STOP.

    >>> import picklestep
    >>> picklestep.source(b'N.')[-1], picklestep.source(b'N').end.code
    ('result = None', 'F1')
    """

    def __init__(self, text: str, end: End, kept: int) -> None:
        self.text = text
        self.end = end
        self.kept = kept

    def _find(self) -> Iterator[int]:
        at = 0
        while at < len(self.text):
            yield at
            at = self.text.index('\n', at) + 1

    def _at(self, start: int) -> str:
        return self.text[start:self.text.index('\n', start)]

    def __str__(self) -> str:
        return self.text

    def _summary(self) -> str:
        return f'{len(self)} lines, {self.end.text}'


def source(pickle: Source, *, full: bool = True, many: bool = False, unframed: bool = False, first: Optional[int] = None,
           timeout: Optional[float] = None, memory: Optional[int] = None) -> PythonSource:
    """A pickle as Python source: what loading it would import, call, build and change, one statement for each.

    Plain values are written where they are used; what is used twice has a name with the number of the object. A statement that reaches out
    of the pickle has the offset of its opcode behind it. Unless it is `full`, texts are cut after 64 letters and containers after 16 items;
    `cut(N)` stands for N that are not shown. With `first` so many opcodes are read, and what is on the stack then comes last. `many` and
    `unframed` are as for `listing`. It is to be read: whoever runs it does what loading the
    pickle would do. The first line says that this is the same only where all of the bytes were read, as a loader reads them.

    >>> print(source(b'cposix\\nsystem\\n(X\\x02\\x00\\x00\\x00idtR.'))
    # What loading the pickle would do. Running this does the same.
    from posix import system  # 0
    _3 = system('id')  # 23
    result = _3
    <BLANKLINE>
    """
    check_timeout(timeout)
    if first is not None and first < 0:
        raise ValueError('first is a number of opcodes, which is not below 0')
    opened = opened_in(pickle)
    unread = other_kinds(os.fsdecode(pickle)) if opened is None and isinstance(pickle, (str, os.PathLike)) else []
    is_file = isinstance(pickle, (str, os.PathLike)) or hasattr(pickle, 'read')
    with without_collector(), Input(pickle if opened is None else opened.content) as given:
        # (Who gives bytes says that they are a pickle, and the page writes the same of them.)
        head = given.beginning(ENOUGH)
        if opened is None and is_file and begins_like_one(head):
            unread.append(CONTAINER)
        if is_file and OLD_TORCH in head[:_BEGIN_OF_TORCH]:
            unread.append(TORCH)
        answer = _source(given, full, modes(many, unframed), timeout, memory, unread, first)
        answer.said = () if opened is None else opened.said
        return answer


def _source(given: Input, full: bool, words: List[str], timeout: Optional[float], memory: Optional[int], unread: List[str],
            first: Optional[int]) -> PythonSource:
    builder = Builder()
    listed = Listed(given, words, timeout, memory)
    with contextlib.closing(listed.batches()) as batches:
        for batch in batches:
            left = len(batch.tails) if first is None else first - builder.places
            builder.read(Batch(batch.heads[:left], batch.tails[:left]))
            if left < len(batch.tails):
                return _written_first(builder, full)
    return _written(builder, listed, full, builder.is_framed and '--unframed' in words, unread)


def _written(builder: Builder, listed: Listed, full: bool, is_unframed: bool, unread: List[str]) -> PythonSource:
    """The source of what was built. `unread` says what else is in the bytes."""
    left: List[Event] = []
    end = listed.end(builder.places)
    if not end.is_stopped:
        left.append(Statement('stack = [' + ', '.join(['{}'] * len(builder.stack)) + ']', builder.leave()))
    writer = Writer(full)
    writer.write(builder.events)
    if left:
        place = '' if listed.refused_at is None else f' at {end.offset}'
        behind = '' if end.code == 'F1' else BEHIND
        writer.lines.append(f'# {end.text}{place}: reading ends here{behind}, and the stack is')
        writer.write(left)
    if listed.kept:
        writer.lines.append(f'# {listed.kept} bytes after STOP are not read')
    if builder.array_at is not None:
        writer.lines.append(f'# {of_array(builder.array_at)}')
    if end.of_frame:
        writer.lines.append(f'# {of_frame()}')
    writer.lines += [f'# {line}' for line in unread]
    is_whole = end.is_stopped and not listed.kept and builder.array_at is None and not unread
    whole, cut = (HEAD_OF_UNFRAMED, HEAD_OF_CUT_UNFRAMED) if is_unframed else (HEAD, HEAD_OF_CUT)
    head = (cut if writer.is_cut else whole) if is_whole else HEAD_OF_CUT_PART if writer.is_cut else HEAD_OF_PART
    helpers = ''.join(text for need, text in HELPERS.items() if need in builder.needs)
    return PythonSource(head + helpers + '\n'.join(writer.lines) + '\n', end, listed.kept)


def _written_first(builder: Builder, full: bool) -> PythonSource:
    """The source of the first opcodes, and what they leave on the stack."""
    end = End('part', None, f'the first {builder.places:,} opcodes', None, builder.places)
    writer = Writer(full)
    left: List[Event] = [Statement('stack = [' + ', '.join(['{}'] * len(builder.stack)) + ']', builder.leave())]
    writer.write(builder.events)
    writer.lines.append(f'# {end.text}: the rest is not read, and the stack is')
    writer.write(left)
    helpers = ''.join(text for need, text in HELPERS.items() if need in builder.needs)
    return PythonSource((HEAD_OF_CUT_PART if writer.is_cut else HEAD_OF_PART) + helpers + '\n'.join(writer.lines) + '\n', end, 0)
