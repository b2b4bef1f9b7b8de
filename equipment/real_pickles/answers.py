"""What Python's pickletools reads of a pickle without the checks that this project does not make, and where this project ends its reading.

README.md has the rules by which they differ.
"""

from __future__ import annotations

import contextlib
import pickletools
import re
from collections.abc import Callable, Iterator, Sequence
from pathlib import Path
from typing import Any, Optional

from python_listing import ITEM, NOTE, Read, behind, dis, genops, kept_lines

# our words for Python's errors, by how these begin or what they have inside
READING_ERRORS = [
    ('pickle exhausted before seeing STOP', 'F1 ended'),
    ('opcode b', 'F2 unknown opcode'),
    ('not enough data', 'F3 truncated'),
    ('but only', 'F3 truncated'),
    ('byte count > sys.maxsize', 'F3 truncated'),
    ('no newline found', 'F3 truncated'),
    ('byte count < 0', 'F4 negative length'),
    ('quote', 'F5 bad argument'),
    ('invalid literal for int()', 'F5 bad argument'),
]

MACHINE_ERRORS = [
    ('no MARK exists on stack', 'S1 no mark'),
    ('tries to pop', 'S2 stack underflow'),
    ("stack is empty -- can't store", 'S2 stack underflow'),
    ("can't store markobject", 'S2 stack underflow'),
    ('has never been stored into', 'S3 no memo entry {}'),
]
LEFT = re.compile(r'stack not empty after STOP: \[(.*)\]')

MOST_KEY = 18446744073709551615

# --- Python with some of its checks left out ---

def line_of(file: Any) -> Any:
    return pickletools.read_stringnl(file, decode=False, stripquotes=False)


def quoted_line_of(file: Any) -> Any:
    return pickletools.read_stringnl(file, decode=False)


def pair_of(file: Any) -> Any:
    return line_of(file), line_of(file)


def plain_reader(opcode: pickletools.OpcodeInfo) -> Optional[Callable[[Any], Any]]:
    """How Python would read the argument if it did not interpret it; None where it does not."""
    if opcode.name in ('INT', 'LONG', 'FLOAT', 'UNICODE', 'PERSID'):
        return line_of
    if opcode.name == 'STRING':
        return quoted_line_of
    if opcode.name in ('GLOBAL', 'INST'):
        return pair_of
    return {'SHORT_BINUNICODE': pickletools.read_bytes1, 'BINUNICODE': pickletools.read_bytes4,
            'BINUNICODE8': pickletools.read_bytes8}.get(opcode.name)


@contextlib.contextmanager
def without_interpretation() -> Iterator[None]:
    """pickletools as if it did not interpret the payloads of lines and texts."""
    old = {opcode: opcode.arg for opcode in pickletools.opcodes}
    for opcode, arg in old.items():
        reader = plain_reader(opcode)
        if reader is not None and arg is not None:
            opcode.arg = pickletools.ArgumentDescriptor(arg.name, arg.n, reader, arg.doc)
    try:
        yield
    finally:
        for opcode, arg in old.items():
            opcode.arg = arg


class Overwritten(dict[int, Any]):
    """A memo for dis that has an entry only where an opcode gets it: so dis stores entries again."""

    def __init__(self, reads: Sequence[Read]) -> None:
        super().__init__()
        # for each opcode of the memo, whether it gets: dis asks once for each of them
        memo_names = [read.name for read in reads if 'GET' in read.name or 'PUT' in read.name or read.name == 'MEMOIZE']
        self.gets = iter(['GET' in name for name in memo_names])

    def __contains__(self, key: object) -> bool:
        return next(self.gets) and super().__contains__(key)


def lenient(data: bytes) -> tuple[list[Read], list[bytes], Optional[Exception]]:
    """The opcodes and the lines of a pickle, and the error that ends them. Payloads, and entries that are stored again, are no fault."""
    with without_interpretation():
        reads, _, _ = genops(data)
        return reads, *dis(data, Overwritten(reads))


def closing_of(read: Read, error: Exception) -> Optional[bytes]:
    """What a listing says in the end where Python ends with this error at this opcode; None if it says nothing of the sort."""
    left = LEFT.fullmatch(str(error))
    if left is not None:
        objects = left[1].split(', ')
        marks = objects.count('mark')
        return b'left: %d objects, %d marks' % (len(objects) - marks, marks)
    ours = next((ours for theirs, ours in MACHINE_ERRORS if theirs in str(error)), None)
    return f'refused: {ours.format(read.arg)}'.encode() if ours is not None else None


# --- where the reading ends ---

def reading_fault(data: bytes, behind: int, error: Optional[Exception]) -> Optional[tuple[int, str]]:
    """Where Python cannot read on, and our words for it."""
    if error is None:
        return None
    words = next(ours for theirs, ours in READING_ERRORS if theirs in str(error))
    return behind, words + (' 0x%02x' % data[behind] if words.startswith('F2') else '')


def frame_fault(reads: Sequence[Read], size: int) -> Optional[tuple[int, str]]:
    """The first opcode at which the rule of frames is broken, and our words for it."""
    frame_end = 0
    for read in reads:
        if read.name == 'FRAME' and read.start < frame_end:
            return read.start, 'F6 frame in a frame'
        if read.name == 'FRAME':
            frame_end = read.end + read.arg
            if frame_end > size:
                return read.start, 'F7 frame past the end'
        elif read.start < frame_end < read.end:
            return read.start, 'F8 frame crossed'
    return None


def argument_fault(reads: Sequence[Read], data: bytes) -> Optional[tuple[int, str]]:
    """The first key or quoted line that this project does not take, and our words for it."""
    for read in reads:
        line = data[read.start + 1:read.end - 1]
        is_key = re.fullmatch(rb'[0-9]+', line) and int(line) <= MOST_KEY
        if read.name in ('GET', 'PUT') and not is_key or read.name == 'STRING' and len(line) < 2:
            return read.start, 'F5 bad argument'
    return None


def document_of(data: bytes) -> tuple[list[Read], Optional[tuple[int, str]]]:
    """The items of a pickle, and the fault behind them, if reading does not end at STOP."""
    with without_interpretation():
        reads, behind, error = genops(data)
    found = (frame_fault(reads, len(data)), argument_fault(reads, data), reading_fault(data, behind, error))
    fault = min((fault for fault in found if fault is not None), key=lambda fault: fault[0], default=None)
    return [read for read in reads if fault is None or read.start < fault[0]], fault


# --- what is listed ---

# The pickles that this project refuses by a rule of README.md, where Python goes on: how many opcodes are listed, and why the last one is refused.
OWN = {
    'append_to_a_tuple': (3, b'S5 wrong kind #0'),
    'arguments_that_are_a_text': (3, b'S10 not arguments #1'),
    'call_of_a_text': (5, b'S9 not callable #0'),
    'double_of_a_mark': (3, b'S2 stack underflow'),
    'extension_code_below_zero': (2, b'S7 bad extension -1'),
    'extension_code_of_zero': (2, b'S7 bad extension 0'),
    'items_of_a_set': (5, b'S5 wrong kind #0'),
    'keywords_that_are_a_list': (5, b'S11 not keywords #2'),
    'name_that_is_a_number': (4, b'S8 not a text #1'),
    'obj_of_nothing': (2, b'S2 stack underflow'),
    'objects_under_a_mark': (5, b'S2 stack underflow'),
    'odd_dictionary': (5, b'S4 odd number of items'),
    'odd_items': (6, b'S4 odd number of items'),
    'protocol_of_the_future': (1, b'S6 bad protocol 9'),
}


def stop_of(pickle: Path, reads: Sequence[Read], lines: Sequence[bytes], error: Optional[Exception], most: int) -> tuple[int, Optional[bytes]]:
    """How many opcodes of a pickle are listed, and what stands below them, if they are refused or something is left. At most so many can be read."""
    if pickle.stem in OWN:
        count, why = OWN[pickle.stem]
        return count, b'refused: ' + why
    count = sum(ITEM.fullmatch(line) is not None for line in lines)  # (dis has a line after the items where something is left)
    closing = closing_of(reads[count - 1], error) if error is not None and 0 < count <= most else None
    return (most, None) if closing is None else (count, closing)


def expected(pickle: Path) -> bytes:
    """The listing of a real pickle, without the texts of arguments. A refused opcode has no note."""
    data = pickle.read_bytes()
    reads, lines, error = lenient(data)
    items, fault = document_of(data)
    count, closing = stop_of(pickle, reads, lines, error, len(items))
    listing, end = lines[:count], [] if closing is None else [closing]
    if closing is not None and closing.startswith(b'refused: '):
        listing[-1] = NOTE.sub(b'', listing[-1])
    elif fault is not None:
        end = [f'fault: {fault[1]} at {fault[0]}'.encode()]
    else:
        end += kept_lines(data, behind(reads))
    if count:
        end.append(b'highest protocol among opcodes = %d' % max(read.protocol for read in reads[:count]))
    return b''.join(line + b'\n' for line in [*listing, *end])
