"""Lines that are written alike, such as those of a list of checksums: the same signs of base64 at the same places in each. All are taken at once."""

from __future__ import annotations

import struct
from itertools import chain
from typing import Iterator, List, NamedTuple, Optional, Tuple

__all__ = ['Block', 'blocks']

# So many lines at least are worth it, and they are tried for at the end of others, and then after each so many bytes.
_FEW_LINES = 8
_APART = 2048
# Lines and runs are so long at most.
_MOST_OF_LINE = 4096
_MOST_OF_RUN = 512
# So many bytes are compared at once.
_AT_ONCE = 1 << 16


class Block(NamedTuple):
    """Lines that are alike: where the first begins, how long each is, how many there are, and from where to where in each a run is."""

    start: int
    stride: int
    lines: int
    runs: List[Tuple[int, int]]

    @property
    def end(self) -> int:
        """Where the last line ends."""
        return self.start + self.stride * self.lines

    def starts(self, run: Tuple[int, int]) -> range:
        """Where this run begins in all lines."""
        return range(self.start + run[0], self.end + run[0], self.stride)

    def texts(self, content: bytes, run: Tuple[int, int]) -> List[bytes]:
        """This run of all lines.

        >>> Block(1, 4, 2, [(0, 2)]).texts(b'.ab.\\ncd.\\n', (0, 2))
        [b'ab', b'cd']
        """
        shape = struct.Struct(f'{run[0]}x{run[1] - run[0]}s{self.stride - run[1]}x')
        return list(chain.from_iterable(shape.iter_unpack(memoryview(content)[self.start:self.end])))


def blocks(content: bytes, marked: bytes, least: int) -> Iterator[Block]:
    """Blocks of lines that have runs of at least so many signs, none of which goes on in the next line. `marked` has `a` for each sign and `.`
    for all else.

    The line before a block is written as those in it, and no part of it: a run of the line before that may go on in it.
    """
    at = 0
    while at < len(content):
        block, at = _block(content, marked, at, least)
        yield from () if block is None else (block,)


def _block(content: bytes, marked: bytes, at: int, least: int) -> Tuple[Optional[Block], int]:
    """The block whose line before it begins with the first line that begins here or later; and where the next may begin. (Lines that are no
    block are not counted again, or many would take long.)
    """
    start = at if not at or content[at - 1:at] == b'\n' else content.find(b'\n', at, at + _MOST_OF_LINE) + 1
    first = content.find(b'\n', start, start + _MOST_OF_LINE) + 1
    line = marked[start:first]
    if start < at or b'a' * least not in line or not marked.startswith(line * _FEW_LINES, first):
        return None, at + _APART
    found = list(_runs(line, least))
    block = Block(first, first - start, _FEW_LINES, found)
    if not _is_block(content, block):
        return None, at + _APART
    block = block._replace(lines=_count(marked, line, first))
    return block if _is_block(content, block) else None, block.end


def _is_block(content: bytes, block: Block) -> bool:
    """Whether each of these lines ends where it is to end, and no run goes on in the next one."""
    start, stride = block.start, block.stride
    if content.count(b'\n', start, block.end) != block.lines or content[start + stride - 1:block.end:stride].count(b'\n') != block.lines:
        return False
    for begin, behind in block.runs:
        follow = content[start + behind:block.end:stride]
        if behind - begin > _MOST_OF_RUN or b'\n' in follow or b'\r' in follow:
            return False
    return True


def _runs(line: bytes, least: int) -> Iterator[Tuple[int, int]]:
    """From where to where there are so many signs, or more, in a line that ends with none."""
    at = line.find(b'a' * least)
    while at >= 0:
        end = line.index(b'.', at)
        yield at, end
        at = line.find(b'a' * least, end)


def _count(marked: bytes, line: bytes, at: int) -> int:
    """How often a line stands from an offset on, one behind another."""
    start, number = at, 1
    while number * len(line) < _AT_ONCE:
        number *= 2
    many = line * number
    while marked.startswith(many, at):
        at += len(many)
    while number:
        number //= 2
        if marked.startswith(many[:number * len(line)], at):
            at += number * len(line)
    return (at - start) // len(line)
