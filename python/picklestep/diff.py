"""`picklestep diff A B`: what two pickles differ in: their results, what they import and call, their opcodes if that is wanted, and how they end.
Nothing of them is run."""

from __future__ import annotations

import argparse
import os
import sys
from collections import Counter
from itertools import chain, repeat
from typing import Any, Callable, Dict, Iterator, List, Optional, Sequence, Tuple, TypeVar

from .addresses import given
from .aligning import Steps, aligned, gaps
from .alike import paired
from .answers import Calls, Listing
from .collector import without_collector
from .comparing import Comparison, Difference, has_same_bytes, shown_line, shown_pair, shown_value
from .errors import NoResult, PicklestepError, reason
from .heaps import Heap
from .listed import Fields, argument_of
from .listing_records import Opcode
from .printing import print_text
from .reaches import alike_by
from .records import Reach
from .sources import Source, rereadable, size_of
from .tasks import calls, frames, listing
from .texts import renumbered
from .trees import Asking, check_stops
from .waiting import Waiting
from .wording import shown

__all__ = ['main', 'of_reaches', 'opcode_differences']

_BLOCK = 1 << 20
_SECONDS = 3  # (that a million bytes take)
_MADE = ' as #'
# What is said of bytes that differ, where their opcodes and arguments do not.
_SPELLINGS = 'opcodes: the same, with arguments that are spelled otherwise'
_T = TypeVar('_T')


def main(arguments: List[str]) -> int:
    """Writes a line for each difference. The status is 0 where there is none, 1 where there is one, 2 where they cannot be compared."""
    parser = argparse.ArgumentParser(prog='picklestep diff', description='Prints what two pickles differ in: their results, and their imports and '
                                     'calls (- only in A, + only in B). Nothing of them is run.',
                                     epilog='Status: 0 if nothing differs; 1 if something does; 2 if they cannot be compared.')
    parser.add_argument('old', metavar='A', help='a pickle, or its address')
    parser.add_argument('new', metavar='B', help='another one')
    parser.add_argument('--many', action='store_true', help='each file has several pickles that follow one another')
    parser.add_argument('--unframed', action='store_true', help='ignore the lengths of frames')
    parser.add_argument('--opcodes', action='store_true', help='also print what their protocols and opcodes differ in')
    parser.add_argument('--full', action='store_true', help='print whole arguments of imports and calls: they are not cut')
    options = parser.parse_args(arguments)
    try:
        with Waiting() as waiting:
            lines = _lines(options, waiting.progress)
    except (OSError, PicklestepError) as error:
        print(f'picklestep: {reason(error)}', file=sys.stderr)
        return 2
    print_text(''.join(f'{line}\n' for line in lines))
    return 1 if lines else 0


def told(size: int) -> str:
    """What is told of a comparison of pickles of so many bytes that takes more than a minute; nothing of another.

    >>> told(1_000_000), told(240_000_000)
    ('', 'comparing, which may take 12 minutes')
    """
    minutes = size * _SECONDS / 60_000_000
    return f'comparing, which may take {minutes:.0f} minutes' if minutes > 1 else ''


@without_collector()
def _lines(options: argparse.Namespace, progress: Callable[[str], None]) -> List[str]:
    """A line for each difference."""
    old, new = (rereadable(given(name)[0]) for name in (options.old, options.new))
    if has_same_bytes(old, new):
        _named(options.old, lambda: check_stops(old, options.many, options.unframed))
        return []
    progress(told(max(size_of(old), size_of(new))) or 'comparing')
    with Asking(old, options.many, options.unframed) as first, Asking(new, options.many, options.unframed) as second:
        second.start()
        one = _named(options.old, lambda: first.read(Heap.of()))
        comparison = Comparison(one, _named(options.new, lambda: second.read(one.heap)))
    firsts = [] if options.many else [_first_calls(source, options.unframed) for source in (old, new)]
    # (where the STOP of the first pickle is the last byte there are no others)
    known = [first if first.end.is_stopped and not first.kept else None for first in firsts] or [None, None]
    lines = [*map(str, comparison.of_results()), *of_reaches(old, new, options.unframed, comparison, options.full, known)]
    lines += opcode_differences(old, new, many=options.many, unframed=options.unframed) if options.opcodes else []
    lines += [] if options.many else _of_what_is_behind(old, new, [first.kept for first in firsts])
    return lines or [_SPELLINGS] * options.opcodes


def _first_calls(source: Source, unframed: bool) -> Calls:
    """What the first pickle imports and calls."""
    return calls(source, first=True, full=True, skip=frames(source) if unframed else ())


def _named(name: str, ask: Callable[[], _T]) -> _T:
    """An answer about a pickle. Where there is no result, it is said of which."""
    try:
        return ask()
    except NoResult as error:
        raise PicklestepError(f'{shown(name)}: {reason(error)}') from error


def of_reaches(old: Source, new: Source, unframed: bool = False, comparison: Optional[Comparison] = None, full: bool = False,
               known: Sequence[Optional[Calls]] = (None, None)) -> Iterator[str]:
    """What only one of them imports and calls, also where nothing of it is in the result, what those differ in that both do, and in what their
    readings end otherwise. Long lines are cut, unless they are wanted in full. Answers of `calls` that are known are not asked for again."""
    answers = [calls(source, full=True, skip=frames(source, many=True) if unframed else ()) if answer is None else answer
               for source, answer in zip((old, new), known)]
    once: Dict[str, str] = {}  # (most lines say what others say)
    said = [[once.setdefault(each, each) for lines in (answer, *answer.parts) for each in map(alike_by, lines.fields())] for answer in answers]
    removed, added = ([_unnumbered(_line(answers[at], place).text) for place in _only_in(said[at], said[1 - at])] for at in (0, 1))
    for sign, some, others in (('-', removed, added), ('+', added, removed)):
        yield from (f'{sign} {text if full else shown_line(text, beside)}' for text, beside in zip(some, chain(others, repeat(''))))
    if comparison is not None:
        for at, to in paired(*(some[:len(answer)] for some, answer in zip(said, answers)))[0]:
            yield from map(str, _of_both(answers[0][at], answers[1][to], comparison))
    if said[0] != said[1] and not (removed or added):
        yield 'imports and calls: in another order'
    ends = [_ends(answer) for answer in answers]
    if ends[0] != ends[1]:
        yield f'end: {"; ".join(ends[0])} -> {"; ".join(ends[1])}'


def _line(answer: Calls, place: int) -> Reach:
    """A line of the strict reading, or one of those of the parts, which stand behind it."""
    for lines in (answer, *answer.parts):
        if place < len(lines):
            return lines[place]
        place -= len(lines)
    raise IndexError(place)


def _of_both(old: Reach, new: Reach, comparison: Comparison) -> Iterator[Difference]:
    """What the objects differ in that two lines make or change. (A line has the numbers of objects, and not what these hold.)"""
    one, other = (reach.target if reach.number is None else reach.number for reach in (old, new))
    if one is not None and other is not None:
        name = '' if old.name is None else f' {shown_value(old.name)}'
        yield from comparison.of_objects(f'{old.what}{name} at {old.offset}', one, other)


def _only_in(one: List[str], other: List[str]) -> Iterator[int]:
    """The places of what one has more often than the other, in their order."""
    left = Counter(other)
    for place, each in enumerate(one):
        left[each] -= 1
        if left[each] < 0:
            yield place


@without_collector()
def opcode_differences(old: Source, new: Source, *, many: bool = False, unframed: bool = False, timeout: Optional[float] = None,
                       memory: Optional[int] = None) -> List[str]:
    r"""What the protocols and opcodes of two pickles differ in, a line each: none where all opcodes and arguments are the same. `many` and `unframed`
    are as for `listing`. Each pickle is compared as far as it can be read.

    Opcodes are compared with those that they stand for, as `compare` does with items of lists: `+` is only in the new pickle, `-` only in the old one.

    >>> for line in opcode_differences(b'](K\x01K\x02e.', b'](K\x01K\x05K\x06e.'):
    ...     print(line)
    opcode at 4: BININT1 2 -> 5
    + opcode at 6: BININT1 6
    """
    if has_same_bytes(old, new):
        return []
    one, other = (listing(source, many=many, unframed=unframed, timeout=timeout, memory=memory) for source in (old, new))
    protocols = [f'highest protocol among opcodes: {one.protocol} -> {other.protocol}'] if one.protocol != other.protocol else []
    return [*protocols, *_of_opcodes(one, other)]


def _of_opcodes(one: Listing, other: Listing) -> Iterator[str]:
    keys = [[read for _, read in answer.each(_compared)] for answer in (one, other)]
    steps = Steps.for_items(len(keys[0]) + len(keys[1]))
    for lefts, rights, _ in gaps(aligned(keys[0], keys[1], steps), len(keys[0]), len(keys[1])):
        if not lefts and not rights:
            continue
        names = [keys[0][at][0] for at in lefts], [keys[1][to][0] for to in rights]
        for less, more, pair in gaps(aligned(names[0], names[1], steps), len(lefts), len(rights)):
            yield from (f'- {_shown_opcode(one[lefts[at]])}' for at in less)
            yield from (f'+ {_shown_opcode(other[rights[to]])}' for to in more)
            if pair is not None:
                first, second = one[lefts[pair[0]]], other[rights[pair[1]]]
                yield f'opcode at {first.offset}: {first.name} {" -> ".join(shown_pair(*_arguments(first, second)))}'


def _compared(fields: Fields) -> Tuple[str, Any]:
    """What opcodes are compared by."""
    return fields['opcode'], _key(argument_of(fields))


def _key(argument: Any) -> Any:
    """What an argument is compared by: of a number its digits, since a pickle can choose many numbers of one hash."""
    return f'{argument:x}' if type(argument) is int else argument


def _arguments(one: Opcode, other: Opcode) -> Tuple[Any, Any]:
    """The values of arguments that differ; where one value is spelled in two ways, the bytes of both."""
    values = _argument(one), _argument(other)
    is_spelled = values[0] == values[1] and one.argument != other.argument
    return (_spelled(one.argument), _spelled(other.argument)) if is_spelled else values


def _spelled(argument: Any) -> Any:
    return b' '.join(argument) if isinstance(argument, tuple) else argument


def _argument(opcode: Opcode) -> Any:
    """The value of an opcode's argument, or its bytes where it has none."""
    value = opcode.value if opcode.value is not None else opcode.argument
    return ' '.join(map(str, value)) if isinstance(value, tuple) else value


def _shown_opcode(opcode: Opcode) -> str:
    said, value = f'opcode at {opcode.offset}: {opcode.name}', opcode.value
    if opcode.argument is None:
        return said
    return f'{said} {" ".join(map(shown_value, value)) if isinstance(value, tuple) else shown_value(_argument(opcode))}'


def _ends(answer: Calls) -> Tuple[str, ...]:
    """How the readings of a pickle end, without the places."""
    return tuple(reading.end.words or reading.end.how for reading in (answer, *answer.parts))


def _unnumbered(text: str) -> str:
    """A line of `calls` without the numbers of objects, which every edit before it moves.

    >>> _unnumbered("call 'os' 'system' ('#1') as #3"), _unnumbered('state #1 to #0')
    ("call 'os' 'system' ('#1')", 'state # to #')
    """
    text = renumbered(text, lambda _: '')
    return text[:-len(_MADE)] if text.endswith(_MADE) else text


def _of_what_is_behind(old: Source, new: Source, kept: Sequence[int]) -> Iterator[str]:
    """Whether other bytes are behind the first STOP, where so many are behind it."""
    if kept[0] != kept[1]:
        yield f'behind STOP: {kept[0]} -> {kept[1]} bytes'
    elif kept[0] and any(one != other for one, other in zip(_tail(old, kept[0]), _tail(new, kept[1]))):
        yield 'behind STOP: other bytes'


def _tail(source: Source, size: int) -> Iterator[bytes]:
    """The last bytes, in blocks."""
    if isinstance(source, bytes):
        yield source[-size:]
        return
    with open(str(source), 'rb') as file:
        file.seek(-size, os.SEEK_END)
        while block := file.read(_BLOCK):
            yield block
