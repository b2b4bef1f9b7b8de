"""The first part of a long pickle, which is opened alone. The rest waits until somebody asks for it."""

from __future__ import annotations

import contextlib
from typing import Callable, Iterator, List, Optional, Tuple

from .lines import CODE_BY_NAME
from .listed import FRAME_SIZE
from .opcode_lines import Ask, OpcodeLines, shortened
from .program import Process
from .sources import Input, Source, size_of
from .tasks import modes

__all__ = ['First', 'first_of']

# Of a pickle with more opcodes so many are opened first, without the frame that does not end in them.
MOST_FIRST = 2_000_000
_FRAME = CODE_BY_NAME['FRAME']

class First:
    """The first bytes of a pickle, which are whole opcodes and whole frames. `given` is a copy of all of it, which nobody else can change."""

    def __init__(self, given: Input, length: int) -> None:
        self.given = given
        self.content = given.beginning(length)
        self.size = given.size()

    @property
    def rest_size(self) -> int:
        """How many bytes are not opened."""
        return self.size - len(self.content)

    def rest(self) -> Iterator[bytes]:
        """The bytes that are not opened, some at a time."""
        return self.given.blocks(len(self.content))

    def close(self) -> None:
        """Lets the copy go."""
        self.given.close()


def first_of(source: Source, many: bool, unframed: bool, progress: Callable[[str], None], ask: Ask) -> Tuple[Optional[First], Optional[OpcodeLines]]:
    """The first part of a pickle that has more than MOST_FIRST opcodes, and the opcodes that were read. No part of another pickle, and where one frame holds
    most of these opcodes: a frame that is cut cannot be read. The source can be read again."""
    if size_of(source) <= MOST_FIRST:
        return None, None
    given = Input(source, own=True)
    try:
        lines, length = _read_first(given, modes(many, unframed), progress, OpcodeLines(b'', ask))
        if length:
            return First(given, length), lines
    except BaseException:
        given.close()
        raise
    given.close()
    return None, lines if lines.is_read else None  # (else a frame holds most of what was read)


def _read_first(given: Input, words: List[str], progress: Callable[[str], None], lines: OpcodeLines) -> Tuple[OpcodeLines, int]:
    """The opcodes of the first part, and how many bytes it has; 0 where there is none. (The program is ended once it has listed enough.)"""
    with contextlib.closing(Process(['list', '--json', *words, given.path], given.files)) as process:
        for some in shortened(process.blocks()):
            lines.take(some)
            if len(lines) > MOST_FIRST:
                place = MOST_FIRST if '--unframed' in words else _behind_frames(lines, given)
                length = lines.offset(place) if place > MOST_FIRST // 2 else 0
                if length:
                    lines.cut(place)
                return lines, length
            progress(f'list: {len(lines):,} lines')
    lines.finish()
    return lines, 0


def _behind_frames(lines: OpcodeLines, given: Input) -> int:
    """How many of the first MOST_FIRST opcodes are in no frame that goes on behind them."""
    frame = next(lines.with_code(_FRAME, MOST_FIRST - 1, -1), None)
    if frame is None:
        return MOST_FIRST
    head = next(given.blocks(lines.offset(frame)))[:FRAME_SIZE]
    end = lines.offset(frame) + FRAME_SIZE + int.from_bytes(head[1:], 'little')
    return frame if end > lines.offset(MOST_FIRST) else MOST_FIRST
