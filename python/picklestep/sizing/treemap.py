"""A drawing of where the bytes of a pickle go: each object is a rectangle as large as its bytes, with what it holds inside. It is plain SVG."""

from __future__ import annotations

from typing import Dict, Iterator, List, NamedTuple, Optional, Sequence, Tuple
from xml.sax.saxutils import escape

from .measure import Measured

__all__ = ['Box', 'squares', 'svg']

_SIZE = (1200, 800)
_EDGE, _TITLE = 2.0, 16.0
# An object whose rectangle would be smaller (in square pixels) is not drawn, and none in so many others.
_LEAST, _MOST_DEPTH, _MOST_BOXES = 60.0, 12, 3000
_LETTER, _LEAST_WIDTH = 7.0, 30.0
# So many letters of a path are in the title of a rectangle.
_MOST_OF_PATH = 300
# The colours of kinds of objects; others have the last one. (Edges and words stand out from each: nothing is said by colour alone.)
_COLOURS = {'text': '#9ecae1', 'bytes': '#fdae6b', 'bytearray': '#fdae6b', 'int': '#c7e9c0', 'float': '#c7e9c0', 'list': '#dadaeb', 'tuple': '#dadaeb',
            'dict': '#e7e1ef', 'set': '#dadaeb', 'frozenset': '#dadaeb', 'overhead': '#bdbdbd', 'not read': '#969696'}
_OTHER, _EDGES = '#fde0dd', '#404040'


class Box(NamedTuple):
    """A rectangle."""

    left: float
    top: float
    width: float
    height: float


def squares(sizes: Sequence[int], box: Box) -> List[Box]:
    """Rectangles as large as these sizes, the largest first, that fill a box and are nearly square.

    >>> [(box.left, box.top, box.width, box.height) for box in squares([2, 1, 1], Box(0.0, 0.0, 4.0, 2.0))]
    [(0.0, 0.0, 2.0, 2.0), (2.0, 0.0, 2.0, 1.0), (2.0, 1.0, 2.0, 1.0)]
    """
    found: List[Box] = []
    left, at = sum(sizes), 0
    while at < len(sizes) and box.width > 0 and box.height > 0:
        side, area = min(box.width, box.height), box.width * box.height
        row, end = sizes[at], at + 1
        while end < len(sizes) and _worst(sizes[at], sizes[end], row + sizes[end], side, area / left) <= _worst(sizes[at], sizes[end - 1], row, side,
                                                                                                               area / left):
            row += sizes[end]
            end += 1
        found += _row(sizes[at:end], row, box, row / left)
        box = _rest(box, row / left)
        left, at = left - row, end
    return found + [box] * (len(sizes) - at)


def _worst(largest: int, least: int, row: int, side: float, scale: float) -> float:
    """How far the sides of the rectangles of a row are from one another, at most."""
    thick = row * scale / side
    return max(largest * scale / thick / thick, thick * thick / (least * scale))


def _row(sizes: Sequence[int], row: int, box: Box, share: float) -> Iterator[Box]:
    """A row of rectangles at the shorter side of a box, of which it takes a share."""
    before = 0
    for size in sizes:
        if box.width >= box.height:
            yield Box(box.left, box.top + box.height * before / row, box.width * share, box.height * size / row)
        else:
            yield Box(box.left + box.width * before / row, box.top, box.width * size / row, box.height * share)
        before += size


def _rest(box: Box, share: float) -> Box:
    if box.width >= box.height:
        return Box(box.left + box.width * share, box.top, box.width * (1 - share), box.height)
    return Box(box.left, box.top + box.height * share, box.width, box.height * (1 - share))


class _Rectangle:
    """A rectangle with what is said of it, and those inside. `place` is that of the opcode which makes the object; None of what is no object."""

    def __init__(self, box: Box, step: str, path: str, kind: str, size: int, place: Optional[int] = None) -> None:
        is_object = place is not None
        self.box, self.kind, self.place = box, kind, place
        self.label = f'{step}: {kind}, {size:,}' if is_object else f'{kind}, {size:,}'
        self.title = f'{path}: {kind}, {size:,} bytes' if is_object else f'{kind}: {size:,} bytes'
        self.inner: List['_Rectangle'] = []

    def lines(self) -> Iterator[str]:
        """The rectangle in SVG."""
        left, top, width, height = self.box
        place = '' if self.place is None else f' data-place="{self.place}"'
        yield (f'<g{place}><title>{_text(self.title)}</title><rect x="{left:.1f}" y="{top:.1f}" width="{max(0, width):.1f}" height="{max(0, height):.1f}" '
               f'fill="{_COLOURS.get(self.kind, _OTHER)}" stroke="{_EDGES}"/>')
        if height >= _TITLE and width >= _LEAST_WIDTH:
            letters = int((width - 6) / _LETTER)
            text = self.label if len(self.label) <= letters else f'{self.label[:max(0, letters - 2)]}..'
            yield f'<text x="{left + 3:.1f}" y="{top + 12:.1f}">{_text(text)}</text>'
        for each in self.inner:
            yield from each.lines()
        yield '</g>'


class _Drawing:
    """The rectangles of what was measured, in so many pixels."""

    def __init__(self, found: Measured, whole: Box) -> None:
        self._found, self._whole = found, whole
        # (Only what is large enough to be drawn is known by what holds it.)
        least = max(1, int(sum(found.sizes) * _LEAST / (whole.width * whole.height)))
        self._held: Dict[int, List[int]] = {}
        for number in found.heap.order:
            if found.totals[number] >= least:
                self._held.setdefault(max(found.heap.holders[number], -1), []).append(number)
        self._count = 0

    def rectangles(self) -> List[_Rectangle]:
        """Those that are in no other: the objects, and beside them the overhead and what was not read."""
        opcodes = self._found.opcodes
        parts: List[Tuple[int, int, str]] = [(self._found.totals[root], root, '') for root in self._held.get(-1, ())]
        parts += [(opcodes.read - sum(self._found.own), -1, 'overhead'), (opcodes.unread, -1, 'not read')]
        parts = sorted((part for part in parts if part[0] > 0), key=lambda part: -part[0])
        drawn: List[_Rectangle] = []
        others: List[_Rectangle] = []
        waiting: List[Tuple[List[_Rectangle], Box, int, str, int]] = []
        for box, (size, number, what) in zip(squares([size for size, _, _ in parts], self._whole), parts):
            if what:
                others.append(_Rectangle(box, '', '', what, size))
            else:
                waiting.append((drawn, box, number, '', 0))
        while waiting and self._count < _MOST_BOXES:
            into, box, number, step, depth = waiting.pop(0)
            made = self._object(box, number, step)
            into.append(made)
            waiting += [(made.inner, part, each, self._found.heap.last_step(each), depth + 1) for part, each in self._inside(box, number, depth)]
        return drawn + others

    def _object(self, box: Box, number: int, step: str) -> _Rectangle:
        self._count += 1
        found, path = self._found, self._found.heap.path(number)
        if len(path) > _MOST_OF_PATH:
            path = f'{path[:_MOST_OF_PATH // 2]} .. {path[-_MOST_OF_PATH // 2:]}'
        return _Rectangle(box, step or path, path, found.heap.kind(number), found.totals[number], found.makers.place(number))

    def _inside(self, box: Box, number: int, depth: int) -> Iterator[Tuple[Box, int]]:
        """Where what an object holds is to be drawn."""
        totals = self._found.totals
        inner = Box(box.left + _EDGE, box.top + _TITLE, box.width - 2 * _EDGE, box.height - _TITLE - _EDGE)
        if depth >= _MOST_DEPTH or inner.width * inner.height < _LEAST or inner.width <= 0 or inner.height <= 0:
            return
        held = sorted(self._held.get(number, ()), key=lambda each: -totals[each])
        # (What is not drawn keeps its area: it is one part more.)
        rest = totals[number] - sum(totals[each] for each in held)
        sizes = sorted([*((totals[each], each) for each in held), (rest, -1)], key=lambda part: -part[0])
        sizes = [part for part in sizes if part[0] > 0]
        for part, (_, each) in zip(squares([size for size, _ in sizes], inner), sizes):
            if each >= 0 and part.width * part.height >= _LEAST:
                yield part, each


def _text(text: str) -> str:
    """A text in XML, of signs that this may have."""
    return escape(''.join(sign if sign.isprintable() and sign.isascii() or sign.isalnum() else '?' for sign in text))


def svg(found: Measured, size: Tuple[int, int] = _SIZE) -> str:
    """The drawing, in so many pixels. A rectangle of an object has the place of the opcode that makes it."""
    width, height = size
    lines = [line for each in _Drawing(found, Box(0, 0, width, height)).rectangles() for line in each.lines()]
    return '\n'.join([f'<svg xmlns="http://www.w3.org/2000/svg" viewBox="0 0 {width} {height}" font-family="monospace" font-size="11">', *lines, '</svg>', ''])
