"""How results show themselves in notebooks: a coloured line that opens to a table. All texts are escaped."""

from __future__ import annotations

import html
import io
from typing import TYPE_CHECKING, Sequence

from .looks import Judge, Look
from .report import Report
from .results import Result
from .severity import rank
from .wording import place_of, shown

if TYPE_CHECKING:
    from .folders import Found

__all__ = ['html_of', 'html_of_found']

_SHOWN_LINES = 200
_COLOURS = {'critical': '#9b1c1c', 'high': '#a34a00', 'medium': '#6b5900', 'unread': '#4a4a4a'}


def html_of(result: Result) -> str:
    """The worst mark of a file in a line, and behind it all marks and the report as `scan` prints it.

    >>> html_of(Result('<b>'))
    '<details><summary>&lt;b&gt;: no mark</summary><pre></pre></details>'
    """
    out = io.StringIO()
    Report(out, Judge()).add(result)
    lines = out.getvalue().splitlines()
    cut = [*lines[:_SHOWN_LINES], *([f'.. {len(lines) - _SHOWN_LINES} lines more'] if len(lines) > _SHOWN_LINES else [])]
    looks = sorted(Judge().looks(result), key=lambda look: rank(look.severity))
    text = '\n'.join(map(html.escape, cut))
    return f'<details><summary>{_head(result.path, looks)}</summary>{_table(looks)}<pre>{text}</pre></details>'


def html_of_found(found: 'Found') -> str:
    """The worst mark of a file in a line, and behind it a table of all marks.

    >>> from .folders import Found
    >>> html_of_found(Found(Result('<b>'), ()))
    '<p>&lt;b&gt;: no mark</p>'
    """
    head = _head(found.path, found.looks)
    return f'<details><summary>{head}</summary>{_table(found.looks)}</details>' if found.looks else f'<p>{head}</p>'


def _head(path: str, looks: Sequence[Look]) -> str:
    """What stands for a file: its worst mark, and how many more there are."""
    name = html.escape(place_of(path, ()))
    if not looks:
        return f'{name}: no mark'
    more = f' (and {len(looks) - 1} more)' if len(looks) > 1 else ''
    return f'{_badge(looks[0].severity)} {name}: {html.escape(shown(looks[0].short))}{more}'


def _table(looks: Sequence[Look]) -> str:
    """The marks, each in a row."""
    if not looks:
        return ''
    rows = [_row(look) for look in looks[:_SHOWN_LINES]]
    if len(looks) > _SHOWN_LINES:
        rows.append(f'<tr><td colspan="3">.. {len(looks) - _SHOWN_LINES} marks more</td></tr>')
    return f'<table><tr><th>severity</th><th>where</th><th>mark</th></tr>{"".join(rows)}</table>'


def _row(look: Look) -> str:
    where = ' &gt; '.join(html.escape(shown(name)) for name in look.where)
    lines = '<br>'.join(html.escape(shown(line)) for line in look.lines)
    return f'<tr><td>{_badge(look.severity)}</td><td>{where}</td><td style="text-align:left">{lines}</td></tr>'


def _badge(severity: str) -> str:
    return f'<b style="color:#fff;background:{_COLOURS[severity]};padding:0 .4em">{severity}</b>'
