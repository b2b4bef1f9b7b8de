"""A report: the listing, the objects and the calls of a pickle on a page of its own, without a script."""

from __future__ import annotations

import base64
import hashlib
from html import escape
from itertools import islice
from pathlib import Path
from typing import IO, Iterator, Tuple

from ..document import Document

__all__ = ['MOST', 'write_report']

# The most opcodes, objects and calls, each, that a report holds.
MOST = 20_000
_STYLE = (Path(__file__).parent / 'report.css').read_text(encoding='utf-8')
_HASH = base64.b64encode(hashlib.sha256(_STYLE.encode('utf-8')).digest()).decode('ascii')
_HEAD = '''<!DOCTYPE html>
<html lang="en"><head><meta charset="utf-8"><meta name="viewport" content="width=device-width">
<meta http-equiv="Content-Security-Policy" content="default-src 'none'; style-src 'sha256-{hash}'; base-uri 'none'; form-action 'none'">
<title>{name}: picklestep</title><style>{style}</style></head><body>
<header><h1>{name}</h1>{missing}{said}<p>{summary}</p>
<nav><a href="#calls">Calls</a> <a href="#listing">Listing</a> <a href="#objects">Objects</a></nav></header>
<main>
'''


def _section(name: str, title: str, shown: int, count: int, heads: Tuple[str, ...]) -> str:
    cells = ''.join(f'<th scope="col">{head}</th>' for head in heads)
    note = f'<p class="note">The first {shown:,} of {count:,} are shown.</p>' if shown < count else ''
    return f'<section id="{name}"><h2>{title}</h2>{note}<div class="wide"><table><thead><tr>{cells}</tr></thead><tbody>\n'


def _listing(document: Document, count: int) -> Iterator[str]:
    yield _section('listing', 'Listing', count, len(document.lines), ('Offset', 'Code', 'Opcode', 'Argument'))
    for place in range(count):
        line = document.lines.at(place)
        kind = document.reaches.kind_at(line.offset)
        yield (f'<tr id="at{line.offset}" class="{kind}"><td class="n">{line.offset}</td><td>{escape(line.code)}</td>'
               f'<td>{"&nbsp;" * min(80, 4 * line.marks)}{escape(line.name)}</td><td>{escape(line.argument)}</td></tr>\n')
    yield '</tbody></table></div></section>\n'


def _objects(document: Document, end: int) -> Iterator[str]:
    made, count = document.made_before(end)
    made = min(made, MOST)
    yield _section('objects', 'Objects', made, count, ('Number', 'Made at', 'Object'))
    for number in range(made):
        offset = document.offset_of_maker(number)
        at = '' if offset is None else f'<a href="#at{offset}">{offset}</a>'
        yield f'<tr><td class="n">#{number}</td><td class="n">{at}</td><td>{escape(document.final_brief(number))}</td></tr>\n'
    yield '</tbody></table></div></section>\n'


def _calls(document: Document) -> Iterator[str]:
    answer = document.reaches.answer
    shown = min(len(answer), MOST)
    yield _section('calls', 'Imports and calls', shown, len(answer), ('Offset', 'What'))
    for reach in islice(answer, shown):
        kind = document.reaches.kind_at(reach.offset)
        yield f'<tr class="{kind}"><td class="n"><a href="#at{reach.offset}">{reach.offset}</a></td><td>{escape(reach.text)}</td></tr>\n'
    yield '</tbody></table></div></section>\n'
    for part in answer.parts:
        shown = min(len(part), MOST)
        yield _section('behind', escape(f'{part.heading}:'), shown, len(part), ('Offset', 'What'))
        for reach in islice(part, shown):
            yield f'<tr class="call"><td class="n">{reach.offset}</td><td>{escape(reach.text)}</td></tr>\n'
        yield '</tbody></table></div></section>\n'
    if answer.mixed:
        shown = min(len(answer.mixes), MOST)
        yield _section('behind', escape(f'{answer.mixed}: a loader that mixes frames may take'), shown, len(answer.mixes), ('Opcode',))
        for taken in islice(answer.mixes, shown):
            yield f'<tr class="call"><td>{escape(taken)}</td></tr>\n'
        yield '</tbody></table></div></section>\n'


def _missing(document: Document) -> str:
    """A line at the top where the report has not all of the file."""
    why = '; '.join(document.missing)
    return f'<p><strong>Not all of the file is in this report:</strong> {escape(why)}.</p>' if why else ''


def _said(document: Document) -> str:
    """How the pickle was opened: the file, and what else is in it."""
    return f'<p>{"<br>".join(map(escape, document.said))}</p>' if document.said else ''


def write_report(document: Document, file: IO[str]) -> Tuple[int, int]:
    """Writes the report, and answers how many opcodes it shows and how many there are."""
    count = min(len(document.lines), MOST)
    imports, calls = document.reaches.counts
    counts = f'{len(document.lines):,} opcodes, {imports:,} imports, {calls:,} calls'
    summary = f'{counts}. {"; ".join(document.lines.closing)}.'
    file.write(_HEAD.format(hash=_HASH, style=_STYLE, name=escape(document.name), summary=escape(summary),
                            missing=_missing(document), said=_said(document)))
    for part in (_calls(document), _listing(document, count), _objects(document, count)):
        file.writelines(part)
    file.write('</main><footer>Made by picklestep. Nothing of the pickle was run.</footer></body></html>\n')
    return count, len(document.lines)
