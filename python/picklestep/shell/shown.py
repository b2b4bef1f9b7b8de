"""Opcodes, bytes and rows of things, as the shell shows them."""

from __future__ import annotations

from itertools import islice
from typing import List

from ..comparing import shown_value
from ..listed import Line, opcode_of
from ..opcode_lines import OpcodeLines
from ..part import said_of_time
from .opened import Opened

__all__ = ['MOST_BYTES', 'latest', 'question_of_whole', 'reached', 'said_of_part', 'shown_argument', 'shown_bytes', 'shown_opcode']

# The most bytes that are shown at once.
MOST_BYTES = 256


def latest(word: str, count: int, shown: List[str]) -> List[str]:
    """A line of the last of some things, and how many there are besides; none where there are none."""
    more = [f'{count - len(shown)}{" more" if shown else ""}'] if count > len(shown) else []
    return [word + ', '.join(more + shown)] if count else []


def shown_opcode(lines: OpcodeLines, place: int) -> str:
    """The opcode at a place, with its argument."""
    line = lines.at(place)
    return f'{line.name} {shown_argument(lines, place, line)}'.rstrip()


def shown_argument(lines: OpcodeLines, place: int, line: Line) -> str:
    """The argument in the line of the opcode at a place as a value of Python, where it is one and is there whole."""
    fields = lines.whole(place) if line.argument else None
    opcode = None if fields is None else opcode_of(fields)
    is_value = opcode is not None and opcode.argument is not None and not isinstance(opcode.argument, tuple)
    return shown_value(opcode.value) if opcode is not None and is_value else line.argument


def shown_bytes(content: bytes, start: int, end: int) -> str:
    """Bytes in hexadecimal and as letters, 16 in a line."""
    shown = content[start:min(end, start + MOST_BYTES)]
    rows = [f'{start + at:>7}: {shown[at:at + 16].hex(" "):47}  {_letters(shown[at:at + 16])}' for at in range(0, len(shown), 16)]
    more = min(end, len(content)) - start - len(shown)
    return '\n'.join(rows + ([f'.. {more} bytes more'] if more > 0 else [])) or f'there are {len(content)} bytes'


def _letters(data: bytes) -> str:
    return ''.join(chr(byte) if 32 <= byte < 127 else '.' for byte in data)


def reached(pickle: Opened, first: int, most: int) -> List[str]:
    """What all of a pickle imports and calls, from one line on, and how that ends."""
    reaches = pickle.all_reaches()
    offsets, answer = reaches.offsets, reaches.answer
    kept = [f'kept: {answer.kept} bytes after STOP (try --many)'] * bool(answer.kept) if pickle.is_part else pickle.kept
    rows = [f'{offsets[at]:>7}: {answer[at].text}' for at in range(first, min(len(offsets), first + most))]
    if first + most < len(offsets):
        rows.append(f'.. {len(offsets) - first - most} more: calls {first + most + 1}')
    if reaches.is_part:
        return [*rows, *reaches.behind, *kept]
    rows.append(f'{answer.imports} imports, {answer.calls} calls, {answer.end.text}')
    for part in answer.parts:
        rows.append(f'{part.heading}:')
        rows += [f'{reach.offset:>7}: {reach.text}' for reach in islice(part, most)]
        rows.append(f'{part.imports} imports, {part.calls} calls, it ends: {part.end.text}')
    return rows + kept


def said_of_part(pickle: Opened) -> str:
    """What is said of a pickle whose first part alone is read."""
    size, rest = len(pickle.content()), pickle.rest_size
    return (f'(These are the first {len(pickle.lines):,} opcodes: {size:,} of {size + rest:,} bytes. `whole` reads the rest.\n'
            '`calls` and `save` are of the whole pickle, all other words of these opcodes.)')


def question_of_whole(seconds: int, size: int) -> str:
    """What is asked before all of a pickle is read, which may take so many seconds and bytes."""
    return f'{said_of_time(seconds, size)} Read all of it? (yes/no) '
