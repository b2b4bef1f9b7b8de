"""The listing that pickletools of the running Python makes of a pickle, in the form of `picklestep list`.

A line of `list` is one of `pickletools.dis` (crates/pickle_list/specs/Line.antt has the source of each), except for this:

- `dis` writes an argument as Python's repr of its value. `list` writes it by rules of its own (crates/pickle_ops/specs/Text.antt). So the text
  of an argument is left out of both. It ends in a quote, a digit, a letter or a bracket behind a quote, so that none looks like a note.
- `dis` ends at STOP. `list` counts the bytes behind it in a line `kept:` of its own, which stands before the last line.

Where pickletools refuses a pickle, and where one of the rules in real_pickles/README.md makes another listing of it, `expected` of
real_pickles/answers.py says what the listing is.
"""

from __future__ import annotations

import io
import pickletools
import re
from collections.abc import Sequence
from dataclasses import dataclass
from typing import Any, Optional

# (an offset, the opcode's code in four places and a blank, the indented name, the argument with its note)
ITEM = re.compile(rb"( *\d+: .{4} )( *[A-Z0-9_]*)(.*)", re.DOTALL)
NOTE = re.compile(rb" \((MARK at|as) \d+\)\Z")


@dataclass(frozen=True)
class Read:
    """An opcode as genops reads it, and where it ends."""

    name: str
    protocol: int
    arg: Any
    start: int
    end: int


def genops(data: bytes) -> tuple[list[Read], int, Optional[Exception]]:
    """What genops reads, the offset behind it, and the error that it ends with, or None."""
    stream, reads = io.BytesIO(data), []
    try:
        for opcode, arg, start in pickletools.genops(stream):
            reads.append(Read(opcode.name, opcode.proto, arg, start or 0, stream.tell()))
    except Exception as error:
        return reads, behind(reads), error
    return reads, behind(reads), None


def behind(reads: Sequence[Read]) -> int:
    return reads[-1].end if reads else 0


def dis(data: bytes, memo: Optional[dict[int, Any]] = None) -> tuple[list[bytes], Optional[Exception]]:
    """The lines that dis prints, without the texts of arguments, and the error that it ends with, or None."""
    output = io.StringIO()
    error: Optional[Exception] = None
    try:
        pickletools.dis(data, output, memo)
    except Exception as raised:
        error = raised
    return [outline(line) for line in output.getvalue().encode().split(b"\n")[:-1]], error


def outline(line: bytes) -> bytes:
    """A line without the text of the argument, where it is that of an item."""
    item = ITEM.fullmatch(line)
    if item is None:
        return line
    note = NOTE.search(item[3])
    return item[1] + item[2] + (note[0] if note else b"")


def refusal_of(data: bytes) -> Optional[tuple[int, str]]:
    """Where pickletools refuses a pickle, and with which words."""
    reads, end, error = genops(data)
    lines, refused = dis(data)
    if refused is None:
        return None
    why = str(refused)
    is_of_item = why != str(error) and not why.startswith("stack not empty after STOP")
    return reads[len(lines) - 1].start if is_of_item else end, why


def kept_lines(data: bytes, end: int) -> list[bytes]:
    """What a listing says of the bytes behind STOP."""
    return [b"kept: %d bytes after STOP" % (len(data) - end)] if end < len(data) else []
