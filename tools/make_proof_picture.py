#!/usr/bin/env python3
"""Prints the picture of docs/why/proved.md: what is proved of what, and what is only tested.

    python3 tools/make_proof_picture.py >docs/why/proved.svg
"""

from __future__ import annotations

from dataclasses import dataclass
from typing import List, Tuple
from xml.sax.saxutils import escape

WIDTH = 960
HEIGHT = 590
LINE = 18  # (from one line of text to the next)


@dataclass(frozen=True)
class Box:
    """A title, and lines below it, in a frame whose left upper corner is at x, y."""

    x: int
    y: int
    width: int
    height: int
    title: str
    lines: Tuple[str, ...]
    colour: str


@dataclass(frozen=True)
class Arrow:
    """From a point to another, with words beside it. What is not proved is dashed."""

    start: Tuple[int, int]
    end: Tuple[int, int]
    words: Tuple[str, ...]
    at: Tuple[int, int]
    proved: bool


OUTSIDE = '#eeeeee'
DEFINED = '#dfeaf8'
CODE = '#e2f2e0'

HEADS = [(125, 'Outside of the project'), (465, 'Definitions (crates/*/specs)'), (835, 'Program (crates/*/src)')]

BOXES = [
    Box(20, 60, 210, 100, "CPython's unpicklers", ('Lib/pickle.py', 'Modules/_pickle.c'), OUTSIDE),
    Box(20, 380, 210, 100, 'What a pickle is', ('pickletools, PEP 307,', 'PEP 3154, PEP 574'), OUTSIDE),
    Box(340, 60, 250, 100, 'What unpicklers do', ('pickle_loader, pickle_lenient:', 'each opcode, each way to read'), DEFINED),
    Box(340, 220, 250, 100, 'What is printed', ('pickle_list, pickle_calls,', 'pickle_further, pickle_form:', 'lines, texts, status'), DEFINED),
    Box(340, 380, 250, 100, 'What a pickle is and becomes', ('pickle_ops, pickle_doc,', 'pickle_machine, pickle_session:', 'opcodes, steps, edits'), DEFINED),
    Box(730, 220, 210, 100, 'calls, list, objects, form', ('and the same functions of', 'the library'), CODE),
    Box(730, 380, 210, 100, 'debug', ('step, back, edit, undo,', 'save'), CODE),
    Box(730, 525, 210, 50, 'What users start: dist/', (), OUTSIDE),
    Box(340, 525, 250, 50, 'Package, page, scan, shell', (), OUTSIDE),
]

ARROWS = [
    Arrow((230, 110), (340, 110), ('tested:', './test loaders'), (285, 90), False),
    Arrow((230, 430), (340, 430), ('tested:', 'real pickles'), (285, 410), False),
    Arrow((465, 160), (465, 220), ('proved (laws): each act', 'has its line, no line, no act'), (568, 186), True),
    Arrow((465, 320), (465, 380), ('proved (laws): one text,', 'back and undo restore'), (555, 346), True),
    Arrow((590, 270), (730, 270), ('proved (contracts):', 'exactly this text'), (660, 248), True),
    Arrow((590, 430), (730, 430), ('proved (contracts):', 'exactly this reply'), (660, 408), True),
    Arrow((835, 480), (835, 525), ('all of it is compiled:', 'trusted, and tested'), (762, 499), False),
    Arrow((730, 550), (590, 550), ('tested',), (660, 541), False),
]


def text(x: int, y: int, words: str, size: int = 13, weight: str = 'normal') -> str:
    return f'<text x="{x}" y="{y}" font-size="{size}" font-weight="{weight}" text-anchor="middle">{escape(words)}</text>'


def box(b: Box) -> List[str]:
    middle = b.x + b.width // 2
    top = b.y + (b.height - LINE * len(b.lines)) // 2 + 5
    return [f'<rect x="{b.x}" y="{b.y}" width="{b.width}" height="{b.height}" rx="6" fill="{b.colour}" stroke="#444444"/>',
            text(middle, top, b.title, 14, 'bold'), *(text(middle, top + LINE * n, line, 12) for n, line in enumerate(b.lines, 1))]


def arrow(a: Arrow) -> List[str]:
    dashes = '' if a.proved else ' stroke-dasharray="6 4"'
    line = f'<line x1="{a.start[0]}" y1="{a.start[1]}" x2="{a.end[0]}" y2="{a.end[1]}" stroke="#444444" stroke-width="2"{dashes}/>'
    return [line, *(text(a.at[0], a.at[1] + (LINE - 4) * n, words, 11) for n, words in enumerate(a.words))]


def picture() -> str:
    parts = [f'<svg xmlns="http://www.w3.org/2000/svg" width="{WIDTH}" height="{HEIGHT}" viewBox="0 0 {WIDTH} {HEIGHT}" '
             'font-family="Helvetica, Arial, sans-serif" fill="#111111">',
             '<title>What is proved of what, and what is tested</title>',
             f'<rect width="{WIDTH}" height="{HEIGHT}" fill="#ffffff"/>']
    parts += [text(x, 35, words, 15, 'bold') for x, words in HEADS]
    for each in ARROWS:
        parts += arrow(each)
    for one in BOXES:
        parts += box(one)
    return '\n'.join([*parts, '</svg>']) + '\n'


if __name__ == '__main__':
    print(picture(), end='')
