"""What a terminal shows of a run over several files: a line for each file, the worst first, and then what is marked."""

from __future__ import annotations

import os
import shutil
import sys
import textwrap
from dataclasses import dataclass, field
from typing import Dict, List, Optional, Sequence, TextIO, Tuple, Union

from ..opens import is_at_server
from .judges import Judges
from .looks import Judge, Look
from .report import Report
from .results import Result
from .severity import FAILING, rank, worst_of
from .wording import count_of, place_of

__all__ = ['Table', 'wants_table']

# So many files without a mark have a line, and so many marks of a file are shown.
_MOST_UNMARKED, _MOST_MARKS = 20, 20
_NO_MARK = 'no mark'
_HEAD = ('severity', 'marks', 'file', 'worst mark')
_WIDTH = max(map(len, (*FAILING, _NO_MARK, _HEAD[0])))
# How a terminal shows each severity: the numbers of ECMA-48's SGR.
_COLOURS = {'critical': '1;31', 'high': '31', 'medium': '33', 'unread': '36'}
# The names of files have at most this part of a line. One that is longer has a line of its own.
_OF_LINE = 2
# The worst mark has at most so many lines, each of at least so many signs.
_MOST_LINES, _LEAST_ROOM = 3, 20


def wants_table(paths: Sequence[str]) -> bool:
    """Whether a run over these paths, which a terminal shows, is about several files."""
    return not any(map(is_at_server, paths)) and (len(paths) > 1 or paths[0] == '-' or os.path.isdir(paths[0]))


def _has_colours() -> bool:
    """Whether the terminal shows colours, and the user wants them (https://no-color.org)."""
    return not os.environ.get('NO_COLOR') and os.environ.get('TERM', 'dumb') != 'dumb' and sys.stdout.isatty()


def _wrapped(text: str, room: int) -> List[str]:
    """A text on lines of so many signs. What is too long is cut.

    >>> _wrapped('builtins.getattr: gets any attribute by name', 30)
    ['builtins.getattr: gets any', 'attribute by name']
    """
    room = max(_LEAST_ROOM, room)
    # (a line of a hostile file may be long: what is beyond all lines is not wrapped)
    lines = textwrap.wrap(text[:room * (_MOST_LINES + 1)], room, break_on_hyphens=False) or ['']
    if len(lines) > _MOST_LINES:
        lines[_MOST_LINES - 1:] = [f'{lines[_MOST_LINES - 1][:room - 2]}..']
    return lines


@dataclass
class _Row:
    """What there is to say of a file: its worst severity, the text of the worst mark, how many marks there are, and the lines of the marks."""

    severity: Optional[str] = None
    text: str = ''
    marks: int = 0
    lines: List[Tuple[str, str]] = field(default_factory=list)


class Table(Report):
    """Keeps what is marked, and shows it at the end."""

    def __init__(self, out: TextIO, judge: Union[Judge, Judges], fail_on: str = FAILING[-1], brief: bool = False, width: Optional[int] = None,
                 has_colours: Optional[bool] = None) -> None:
        super().__init__(out, judge, brief=brief, fail_on=fail_on)
        self._rows: Dict[str, _Row] = {}
        self._width = width or shutil.get_terminal_size().columns
        self._has_colours = _has_colours() if has_colours is None else has_colours

    def write(self, result: Result, looks: List[Look]) -> None:
        """Keeps what is marked in a file."""
        row = self._rows.setdefault(result.path, _Row())
        in_force = sorted((look for look in looks if not look.is_taken), key=lambda look: rank(look.severity))
        if result.left is not None:
            row.text = f'skipped: {result.left}'
        if in_force and rank(in_force[0].severity) < rank(row.severity):
            row.severity, row.text = worst_of(look.severity for look in in_force), in_force[0].short
        row.marks += len(in_force)
        for look in in_force[:max(0, _MOST_MARKS - len(row.lines))]:
            row.lines.extend((look.severity, f'{place_of(result.path, look.where)}: {line}') for line in look.lines)

    def summary(self) -> List[str]:
        """The table, what is marked, and the counts over all files. In brief there are the lines of marked files alone."""
        rows = sorted(self._rows.items(), key=lambda row: (rank(row[1].severity), row[0]))
        marked = [row for row in rows if row[1].severity is not None]
        others = [] if self.brief else rows[len(marked):]
        lines = self._table([*marked, *others[:_MOST_UNMARKED]])
        if len(others) > _MOST_UNMARKED:
            lines.append(f'{"":{_WIDTH}}  and {count_of(len(others) - _MOST_UNMARKED, "more file")} without a mark')
        for _, row in () if self.brief else marked:
            lines.extend(('', *self._marks(row)))
        return [*lines, *([''] if lines else ()), *super().summary()]

    def _table(self, rows: Sequence[Tuple[str, _Row]]) -> List[str]:
        """A line for each file, below a line that says what stands where."""
        if not rows:
            return []
        names = [place_of(path, ()) for path, _ in rows]
        count = max(len(_HEAD[1]), *(len(str(row.marks)) for _, row in rows))
        begin = _WIDTH + 2 + count + 2  # (where the names of files begin)
        room = self._width // _OF_LINE - len('  ')
        wide = max(len(_HEAD[2]), *(len(name) if len(name) <= room else 0 for name in names))
        lines = [f'{_HEAD[0]:{_WIDTH}}  {_HEAD[1]:>{count}}  {_HEAD[2]:{wide}}  {_HEAD[3]}']
        for name, (_, row) in zip(names, rows):
            first, *more = _wrapped(row.text, self._width - begin - wide - 2)
            severity = self._coloured(row.severity, f'{row.severity or _NO_MARK:{_WIDTH}}')
            head = f'{severity}  {row.marks or "":>{count}}  {name:{wide}}'
            below = ' ' * (begin + wide + 2)
            if len(name) > wide:
                lines.extend((head, *([f'{below}{first}'] if first else ())))
            else:
                lines.append(f'{head}  {first}'.rstrip())
            lines.extend(f'{below}{line}' for line in more)
        return lines

    def _marks(self, row: _Row) -> List[str]:
        """The marks of a file, each with its calls."""
        lines = [self._coloured(severity, '!') + ' ' + line for severity, line in row.lines]
        return lines if row.marks <= _MOST_MARKS else [*lines, f'! and {count_of(row.marks - _MOST_MARKS, "more mark")} of this file']

    def _coloured(self, severity: Optional[str], text: str) -> str:
        if severity is None or not self._has_colours:
            return text
        return f'\x1b[{_COLOURS[severity]}m{text}\x1b[0m'
