"""Makes the drawings of docs/start/pickles.md, docs/why/promise.md, docs/start and docs/why: what the program answers about small pickles, step by step.

    python3 tools/make_drawings.py [FOLDER]

They are SVG, and go into docs/drawings, or into FOLDER. Each has a light ground of its own, so that it can be read on a dark page too.
"""

from __future__ import annotations

import html
import sys
from dataclasses import dataclass, field
from pathlib import Path
from typing import Dict, List, Sequence, Tuple

ROOT = Path(__file__).resolve().parent.parent
sys.path.insert(0, str(ROOT / 'python'))

import picklestep  # noqa: E402
from picklestep import Object, Session  # noqa: E402

# pickletools.optimize(pickle.dumps([day, day], 4)), where day is datetime.timedelta(days=1)
DAYS = bytes.fromhex('80049525000000000000005d288c086461746574696d658c0974696d6564656c7461934b014b004b008752946800652e')
# The places up to which each drawing has run.
DAYS_PLACES = (4, 6, 7, 11, 12, 14, 15)
# The same of types.SimpleNamespace(name='ana'), whose friend is itself.
ANA = bytes.fromhex('80049536000000000000008c0574797065738c0f53696d706c654e616d657370616365932952947d288c046e616d658c03616e618c06667269656e64680075622e')
ANA_PLACES = (4, 5, 8, 10, 14, 15, 16)
# What a drawing leaves out of long names.
MODULES = ('datetime.', 'types.')

INK, FAINT, LINE, GROUND = '#1a1d2b', '#6a7081', '#b9bfcc', '#ffffff'
PLAIN, IMPORT, CALL, OBJECT = '#dbe9fb', '#fdeecb', '#fddcd8', '#f3f5f9'
MONO, SANS = 'DejaVu Sans Mono, Menlo, Consolas, monospace', 'DejaVu Sans, Helvetica, Arial, sans-serif'


@dataclass
class Drawing:
    """An SVG: its size, what it shows in words, and its parts."""

    width: int
    height: int
    title: str
    parts: List[str] = field(default_factory=list)

    def box(self, x: float, y: float, width: float, height: float, fill: str, stroke: str = LINE) -> None:
        self.parts.append(f'<rect x="{x}" y="{y}" width="{width}" height="{height}" rx="4" fill="{fill}" stroke="{stroke}"/>')

    def text(self, x: float, y: float, words: str, fill: str = INK, font: str = MONO, size: int = 13, anchor: str = 'start',
             weight: str = 'normal') -> None:
        self.parts.append(f'<text x="{x}" y="{y}" fill="{fill}" font-family="{font}" font-size="{size}" text-anchor="{anchor}" '
                          f'font-weight="{weight}" xml:space="preserve">{html.escape(words, quote=False)}</text>')

    def line(self, x: float, y: float, to_x: float, to_y: float, stroke: str = FAINT, dashes: str = '', arrow: bool = False) -> None:
        extra = (f' stroke-dasharray="{dashes}"' if dashes else '') + (' marker-end="url(#arrow)"' if arrow else '')
        self.parts.append(f'<line x1="{x}" y1="{y}" x2="{to_x}" y2="{to_y}" stroke="{stroke}" stroke-width="1.5"{extra}/>')

    def svg(self) -> str:
        """The whole file."""
        title = html.escape(self.title, quote=False)
        head = (f'<svg xmlns="http://www.w3.org/2000/svg" width="{self.width}" height="{self.height}" '
                f'viewBox="0 0 {self.width} {self.height}" role="img">\n<title>{title}</title>\n'
                '<defs><marker id="arrow" viewBox="0 0 10 10" refX="9" refY="5" markerWidth="7" markerHeight="7" orient="auto">'
                f'<path d="M0 0L10 5L0 10z" fill="{FAINT}"/></marker></defs>\n'
                f'<rect x="0.5" y="0.5" width="{self.width - 1}" height="{self.height - 1}" rx="6" fill="{GROUND}" stroke="{LINE}"/>\n')
        return head + '\n'.join(self.parts) + '\n</svg>\n'


def in_words(objects: Sequence[Object], number: int, within: bool = False) -> str:
    """An object as Python would show it; what stands in another one, by its number where it was made by a call or holds others."""
    found = objects[number]
    if within and found.kind in ('call', 'list', 'dict'):
        return f'#{number}'
    parts = [in_words(objects, part, True) for part in found.parts]
    changes = [(change, in_words(objects, change.value, True)) for change in found.changes]
    if found.kind == 'list':
        return '[' + ', '.join(value for _, value in changes) + ']'
    if found.kind == 'dict':
        return '{' + ', '.join(f'{in_words(objects, change.key, True)}: {value}' for change, value in changes if change.key is not None) + '}'
    if found.kind == 'text' and isinstance(found.text, bytes):
        return repr(found.text.decode())
    if found.kind == 'stack-global':
        name = '.'.join(part.strip("'") for part in parts)
        return next((name[len(module):] for module in MODULES if name.startswith(module)), name)
    if found.kind == 'tuple':
        return '(' + ', '.join(parts) + ')'
    if found.kind == 'call':
        return ''.join(parts) + ''.join(f' with {value}' for change, value in changes if change.how == 'state')
    return str(found.text)


def draw_opcodes(drawing: Drawing, content: bytes, place: int, before: int) -> None:
    """The listing: what ran since the last drawing has a colour, and what did not run yet is faint."""
    known = {reach.offset: IMPORT if reach.what == 'import' else CALL for reach in picklestep.calls(content)}
    drawing.text(20, 30, 'Opcodes', font=SANS, weight='bold')
    for number, opcode in enumerate(picklestep.listing(content)):
        y = 52 + 18 * number
        if before <= number < place:
            drawing.box(14, y - 14, 356, 18, known.get(opcode.offset, PLAIN), stroke='none')
        argument = '' if opcode.argument is None else repr(opcode.argument.decode()) if isinstance(opcode.argument, bytes) else str(opcode.argument)
        ink = INK if number < place else FAINT
        drawing.text(58, y, str(opcode.offset), ink, anchor='end')
        drawing.text(72, y, '  ' * opcode.marks + opcode.name, ink)
        drawing.text(248, y, argument, ink, size=13 if len(argument) < 15 else 12)
        if number == place:
            drawing.text(16, y, '\u25b6', INK, size=11)


def draw_stack(drawing: Drawing, session: Session, left: int, width: int, floor: int) -> None:
    """The stack, whose bottom is below."""
    objects = list(session.objects())
    drawing.line(left, floor, left + width, floor)
    y = floor
    for entry in session.stack():
        if isinstance(entry, picklestep.Mark):
            y -= 20
            drawing.line(left, y + 8, left + width - 40, y + 8, dashes='6 4')
            drawing.text(left + width - 34, y + 12, 'mark', FAINT, SANS)
            continue
        y -= 30
        drawing.box(left + 6, y + 2, width - 12, 26, OBJECT)
        drawing.text(left + 16, y + 19, f'#{entry.number}', FAINT, size=12)
        words = in_words(objects, entry.number)
        drawing.text(left + 42, y + 19, words, size=12 if len(words) < 27 else 10)


def draw_memo(drawing: Drawing, session: Session) -> None:
    drawing.text(666, 30, 'Memo', font=SANS, weight='bold')
    for row, (key, number) in enumerate(session.memo().items()):
        drawing.box(666, 40 + 32 * row, 120, 26, OBJECT)
        drawing.text(676, 57 + 32 * row, f'{key} = #{number}', size=12)


def steps(content: bytes, places: Sequence[int]) -> List[Drawing]:
    """The drawings of one pickle: how it stands after the opcodes before each place."""
    drawings, before = [], 0
    count = len(picklestep.listing(content))
    height = 62 + 18 * count
    with Session(content) as session:
        for place in places:
            session.goto(place)
            drawing = Drawing(810, height, f'The opcodes, the stack and the memo after opcode {place} of {count}')
            draw_opcodes(drawing, content, place, before)
            drawing.text(396, 30, 'Stack', font=SANS, weight='bold')
            draw_stack(drawing, session, 390, 250, height - 20)
            draw_memo(drawing, session)
            drawings.append(drawing)
            before = place
    return drawings


def panels(content: bytes, title: str) -> Drawing:
    """The stack after each opcode of a short pickle but STOP, side by side, and the memo below it."""
    opcodes = list(picklestep.listing(content))[:-1]
    width = 780 // len(opcodes)
    with Session(content) as session:
        session.goto(len(opcodes))
        has_memo = bool(session.memo())
        drawing = Drawing(810, 200 if has_memo else 170, title)
        for number, opcode in enumerate(opcodes):
            session.goto(number + 1)
            left = 20 + width * number
            argument = '' if opcode.argument is None else f' {opcode.argument}'
            drawing.text(left + 4, 28, opcode.name + argument, weight='bold')
            draw_stack(drawing, session, left, width - 18, 155)
            words = ', '.join(f'{key} = #{held}' for key, held in session.memo().items())
            if has_memo:
                drawing.text(left + 4, 182, f'Memo: {words or "empty"}', FAINT if not words else INK, SANS, 12)
    return drawing


def bytes_of_opcodes() -> Drawing:
    """The first opcodes of a pickle, byte by byte."""
    opcodes = list(picklestep.listing(ANA))[:8]
    drawing = Drawing(810, 64 + 30 * (len(opcodes) - 1), 'Each row is an opcode: its byte, and the bytes of its argument')
    drawing.text(20, 26, 'Offset', FAINT, SANS, 12)
    drawing.text(80, 26, 'Opcode and argument, in hexadecimal', FAINT, SANS, 12)
    drawing.text(560, 26, 'What they mean', FAINT, SANS, 12)
    for number, opcode in enumerate(opcodes[:-1]):
        y = 36 + 30 * number
        drawing.text(58, y + 17, str(opcode.offset), FAINT, anchor='end')
        for place, byte in enumerate(ANA[opcode.offset:opcodes[number + 1].offset]):
            drawing.box(76 + 27 * place, y, 25, 24, PLAIN if place == 0 else OBJECT)
            drawing.text(88.5 + 27 * place, y + 17, f'{byte:02x}', size=12, anchor='middle')
        argument = '' if opcode.argument is None else repr(opcode.argument.decode()) if isinstance(opcode.argument, bytes) else str(opcode.argument)
        drawing.text(560, y + 17, f'{opcode.name} {argument}', size=12 if len(argument) < 12 else 11)
    return drawing


def frames() -> Drawing:
    """A frame: a length, and the bytes that belong to it."""
    drawing = Drawing(810, 150, 'A frame says how many bytes follow that belong together')
    size = next(opcode.argument for opcode in picklestep.listing(ANA) if opcode.name == 'FRAME')
    labelled(drawing, (20, 30, 110, 50), PLAIN, 'PROTO 4', '2 bytes')
    labelled(drawing, (134, 30, 150, 50), IMPORT, f'FRAME {size}', '9 bytes')
    labelled(drawing, (288, 30, 502, 50), OBJECT, 'the opcodes of the frame', f'{size} bytes, up to STOP')
    drawing.line(288, 96, 790, 96)
    drawing.line(288, 88, 288, 104)
    drawing.line(790, 88, 790, 104)
    drawing.text(539, 124, f'a reader fetches these {size} bytes from the file at once', FAINT, SANS, 12, 'middle')
    return drawing


def labelled(drawing: Drawing, place: Tuple[int, int, int, int], fill: str, *words: str) -> None:
    """A box with lines of words in its middle, the first of them bold."""
    x, y, width, height = place
    drawing.box(x, y, width, height, fill)
    top = y + height / 2 - 9 * len(words) + 13
    for number, line in enumerate(words):
        drawing.text(x + width / 2, top + 18 * number, line, font=SANS, anchor='middle', weight='bold' if number == 0 else 'normal')


def machine() -> Drawing:
    """What an unpickler reads, has and does, and where picklestep stands."""
    drawing = Drawing(810, 300, 'An unpickler reads opcodes, keeps a stack and a memo, and imports and calls; picklestep writes lines instead')
    labelled(drawing, (20, 60, 150, 120), OBJECT, 'Pickle', 'opcodes', 'with arguments')
    drawing.line(170, 120, 226, 120, arrow=True)
    drawing.text(198, 110, 'read', FAINT, SANS, 12, 'middle')
    drawing.box(230, 30, 270, 180, GROUND)
    drawing.text(365, 54, 'Unpickler', font=SANS, anchor='middle', weight='bold')
    labelled(drawing, (246, 70, 110, 60), PLAIN, 'Stack', 'with marks')
    labelled(drawing, (374, 70, 110, 60), PLAIN, 'Memo', 'by numbers')
    labelled(drawing, (246, 142, 238, 54), OBJECT, 'Objects', 'numbers, texts, lists ..')
    drawing.line(500, 88, 586, 88, arrow=True)
    drawing.text(543, 78, 'import', FAINT, SANS, 12, 'middle')
    drawing.line(500, 150, 586, 150, arrow=True)
    drawing.text(543, 140, 'call', FAINT, SANS, 12, 'middle')
    labelled(drawing, (590, 60, 200, 54), IMPORT, 'Modules', 'classes and functions')
    labelled(drawing, (590, 124, 200, 54), CALL, 'Python code runs', 'any code that there is')
    drawing.line(20, 232, 790, 232, LINE, '4 4')
    drawing.text(20, 258, 'picklestep has the same stack, memo and objects.', font=SANS)
    drawing.text(20, 280, 'In the place of each import and call it makes an object that stands for it, and writes a line.', font=SANS)
    return drawing


def trust() -> Drawing:
    """What is proved, tested and trusted, as a chain from the bytes to the reader."""
    drawing = Drawing(810, 310, 'What is proved, what is tested and what is trusted')
    labelled(drawing, (20, 40, 170, 70), OBJECT, 'Bytes of a file')
    labelled(drawing, (310, 40, 190, 70), OBJECT, 'Program', 'in Rattle')
    labelled(drawing, (620, 40, 170, 70), OBJECT, 'Answer', 'lines of text')
    drawing.line(190, 75, 306, 75, arrow=True)
    drawing.line(500, 75, 616, 75, arrow=True)
    labelled(drawing, (310, 200, 190, 70), PLAIN, 'Definitions', 'what each answer is')
    labelled(drawing, (20, 200, 170, 70), PLAIN, 'Definitions', 'of the unpicklers')
    labelled(drawing, (620, 200, 170, 70), OBJECT, "CPython's", 'unpicklers')
    drawing.line(405, 200, 405, 114, arrow=True)
    drawing.text(414, 150, 'proved: the program', font=SANS, size=12)
    drawing.text(414, 166, 'answers what they say', font=SANS, size=12)
    drawing.line(190, 244, 306, 244, arrow=True)
    drawing.text(249, 216, 'proved: each', font=SANS, size=12, anchor='middle')
    drawing.text(249, 232, 'act has a line', font=SANS, size=12, anchor='middle')
    drawing.parts.append(f'<path d="M105 270 V292 H705 V274" fill="none" stroke="{FAINT}" stroke-width="1.5" stroke-dasharray="6 4" marker-end="url(#arrow)"/>')
    drawing.text(405, 286, 'tested: they do what is defined', font=SANS, size=12, anchor='middle')
    return drawing


def beginning() -> Drawing:
    """The lines of a pickle, and how far an unpickler comes in three environments."""
    drawing = Drawing(810, 240, 'The lines of calls, and below them what an unpickler does in three environments: each time a beginning of the lines')
    drawing.text(20, 58, 'lines of calls', font=SANS, weight='bold')
    lefts = (240, 420, 600)
    for left, fill, words in zip(lefts, (IMPORT, CALL, IMPORT), ('import date', 'call date (0, 1, 1)', 'import time')):
        drawing.box(left, 30, 170, 44, fill)
        drawing.text(left + 85, 57, words, anchor='middle', size=12)
    for row, (words, acts) in enumerate((('no module datetime', 1), ('the call raises', 2), ('nothing raises', 3))):
        top = 96 + 44 * row
        drawing.text(20, top + 20, words, font=SANS)
        for number in range(acts):
            is_last = number == acts - 1
            drawing.box(lefts[number], top, 170, 32, PLAIN)
            drawing.text(lefts[number] + 85, top + 20, 'raises' if is_last and acts < 3 else 'done', FAINT, SANS, 12, 'middle')
    return drawing


def main(words: Sequence[str]) -> int:
    """Writes all drawings into a folder."""
    folder = Path(words[0]) if words else ROOT / 'docs' / 'drawings'
    folder.mkdir(parents=True, exist_ok=True)
    drawings = {'machine': machine(), 'trust': trust(), 'bytes': bytes_of_opcodes(), 'frames': frames(), 'beginning': beginning()}
    drawings['stack'] = panels(b'K\x01K\x02\x86.', 'The stack after each of three opcodes')
    drawings['marks'] = panels(b'](K\x01K\x02e.', 'The stack with a mark, after each of five opcodes')
    drawings['memo'] = panels(b']\x94h\x00a.', 'The stack and the memo after each of four opcodes')
    for name, content, places in ('step', DAYS, DAYS_PLACES), ('ana', ANA, ANA_PLACES):
        drawings.update({f'{name}_{number}': each for number, each in enumerate(steps(content, places), 1)})
    for name, drawing in drawings.items():
        (folder / f'{name}.svg').write_text(drawing.svg(), encoding='utf-8')
    return 0


if __name__ == '__main__':
    sys.exit(main(sys.argv[1:]))
