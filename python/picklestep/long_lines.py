"""Long lines of an answer, made short as they come: none of them is kept whole."""

from __future__ import annotations

from typing import Iterable, Iterator, Protocol

__all__ = ['LongLine', 'shortened']


class LongLine(Protocol):
    """A line as it comes, of which not all is kept."""

    def feed(self, part: bytes) -> None:
        """Goes on with the line."""
        ...

    def take(self) -> bytes:
        """What is kept of the line, with its newline. Another one begins."""
        ...


def shortened(blocks: Iterable[bytes], line: LongLine, most: int) -> Iterator[bytes]:
    """The lines of blocks, some at a time. `line` makes those short that have more bytes than these."""
    for block in blocks:
        begin, end = block.find(b'\n') + 1, block.rfind(b'\n') + 1
        if not begin:
            line.feed(block)
            continue
        line.feed(block[:begin - 1])
        yield line.take()
        if begin < end:
            lines = block[begin:end]
            yield b''.join(_each_short(lines, line, most)) if _has_long(lines, most) else lines
        line.feed(block[end:])


def _each_short(lines: bytes, line: LongLine, most: int) -> Iterator[bytes]:
    for each in lines.splitlines(keepends=True):
        if len(each) > most:
            line.feed(each[:-1])
            yield line.take()
        else:
            yield each


def _has_long(lines: bytes, most: int) -> bool:
    """Whether one of some lines may be long."""
    begin = 0
    while begin + most < len(lines):
        begin = lines.rfind(b'\n', begin, begin + most) + 1
        if not begin:
            return True
    return False
