"""What the reports say of each file, and of a run as a whole."""

from __future__ import annotations

import datetime
from collections import Counter
from dataclasses import dataclass, replace
from typing import Dict, Iterable, Iterator, List, Optional, Sequence, Tuple

from ... import __version__
from ...errors import PicklestepError
from ...place import commit
from ...python_source import source
from ..finder import content_at
from ..looking import Options, look_at_bytes
from ..looks import Look, call_text
from ..other_forms import named_forms
from ..results import Result
from ..severity import STEPS, rank, worst_of
from ..wording import count_of, place_of, shown

__all__ = ['About', 'Findings', 'Row', 'bounded']

# So many marks of a file are kept, and so many letters of a text.
_MOST_LOOKS, _MOST_LETTERS = 20, 2_000
# So many letters the marks of a file have in a report, and those that a policy takes; and of these so many have a line.
_MOST_OF_MARKS, _MOST_TAKEN = 50_000, 1_000
# Of so many files, the worst, the source is shown, and of so large a pickle; so much of it; and so long it may take.
_MOST_SOURCES, _LARGEST, _MOST_SOURCE, _SECONDS, _MEMORY = 50, 1 << 20, 4_000, 10.0, 1 << 29


@dataclass(frozen=True)
class Row:
    """What a report says of a file: its worst severity (None without a mark), its marks, the worst first, and how many more there are."""

    path: str
    severity: Optional[str]
    size: int
    digest: str
    kind: str
    looks: Tuple[Look, ...] = ()
    more: int = 0
    left: str = ''
    source: str = ''


@dataclass(frozen=True)
class About:
    """What a report says of the run. `everywhere` is set where the insides of values and the middle of files were looked at."""

    version: str
    made: str
    policy: str = ''
    everywhere: bool = False

    @property
    def unseen(self) -> str:
        """What was not looked at in any file."""
        return '' if self.everywhere else ('Bytes and texts within pickles, and the middle of files that are no pickles, were not looked at: '
                                           'picklestep scan --everywhere does that.')

    @classmethod
    def now(cls, policy: str = '', everywhere: bool = False) -> 'About':
        """That of this run."""
        of = commit()
        made = datetime.datetime.now(datetime.timezone.utc).strftime('%Y-%m-%d %H:%M UTC')
        return cls(f'{__version__} (commit {of})' if of else __version__, made, policy, everywhere)


class Findings:
    """Keeps a row for each file. Those of a server come in parts, and become one row."""

    def __init__(self, options: Options = Options()) -> None:
        self._rows: Dict[str, Row] = {}
        self._options = options
        self.counts: Counter[str] = Counter()
        # Lines about marks that a policy takes, and how many such marks there are.
        self.taken: List[str] = []

    def add(self, result: Result, looks: Sequence[Look]) -> None:
        """Keeps what is said of a file."""
        row = _row(result, looks)
        before = self._rows.get(result.path)
        if before is None:
            self.counts['files'] += 1
            self._rows[result.path] = row
        else:
            self._rows[result.path] = _joined(before, row)
        self.counts['pickles'] += len(result.pickles) + result.plain

    def add_taken(self, result: Result, looks: Sequence[Look]) -> None:
        """Keeps the marks of a file that the policy takes, with what it says of them."""
        self.counts['taken'] += len(looks)
        self.taken.extend(f'{place_of(result.path, look.where)}: {_cut(look.lines[0])}' for look in looks[:max(0, _MOST_TAKEN - len(self.taken))])

    def rows(self) -> List[Row]:
        """The rows, the worst first."""
        return sorted(self._rows.values(), key=lambda row: (rank(row.severity), row.path))

    def severities(self) -> 'Counter[str]':
        """How many files have which worst severity."""
        return Counter(row.severity for row in self._rows.values() if row.severity is not None)

    def with_sources(self) -> List[Row]:
        """The rows, with the source of the pickles that the worst marks are about, and with the calls of these marks in full."""
        rows = self.rows()
        for number, row in enumerate(rows[:_MOST_SOURCES]):
            if row.looks and row.looks[0].name:
                rows[number] = self._with_source(row)
        return rows

    def _with_source(self, row: Row) -> Row:
        worst, *others = row.looks
        try:
            content = content_at(row.path, worst.where, _LARGEST + 1, self._options.limits)
        except (OSError, ValueError, PicklestepError):
            content = None
        if content is None:
            return row
        if len(content) <= _LARGEST:
            worst = _in_full(worst, content, self._options)
        return replace(row, source=_source_of(content[:_LARGEST]), looks=(worst, *others))

    def summary(self) -> str:
        """The counts, in a line."""
        found = self.severities()
        parts = [count_of(self.counts['files'], 'file'), count_of(self.counts['pickles'], 'pickle')]
        parts.extend(f'{found[name]} {name}' for name in STEPS if found[name])
        return ', '.join(parts)


def bounded(lines: Iterable[str], count: int) -> Iterator[str]:
    """The first of so many lines, as many as a report has room for, and how many more there are.

    >>> list(bounded(['a', 'b' * 100_000, 'c'], 3))
    ['a', '.. 2 lines more']
    """
    room = _MOST_OF_MARKS
    for number, line in enumerate(lines):
        room -= len(line)
        if room < 0:
            yield f'.. {count - number:,} {"line" if count - number == 1 else "lines"} more'
            return
        yield line


def _row(result: Result, looks: Sequence[Look]) -> Row:
    ordered = sorted(looks, key=lambda look: rank(look.severity))
    kept = tuple(replace(look, text=_cut(look.text), calls=tuple(map(_cut, look.calls[:_MOST_LOOKS]))) for look in ordered[:_MOST_LOOKS])
    return Row(result.path, worst_of(look.severity for look in looks), result.size, result.digest, _kind(result), kept,
               len(ordered) - len(kept), result.left or '')


def _joined(one: Row, other: Row) -> Row:
    looks = sorted((*one.looks, *other.looks), key=lambda look: rank(look.severity))
    return replace(one, severity=worst_of(each for each in (one.severity, other.severity) if each is not None), looks=tuple(looks[:_MOST_LOOKS]),
                   more=one.more + other.more + max(0, len(looks) - _MOST_LOOKS))


def _cut(text: str) -> str:
    return text if len(text) <= _MOST_LETTERS else f'{text[:_MOST_LETTERS]} .. ({len(text) - _MOST_LETTERS:,} letters more)'


def _kind(result: Result) -> str:
    """What a file is, and what is in it."""
    if result.keys:
        return 'server'
    parts = list(result.kinds) or (['pickle'] if any(not pickle.where for pickle in result.pickles) else [])
    inner = sum(bool(pickle.where) for pickle in result.pickles) + result.plain
    if inner:
        parts.append(f'{count_of(inner, "pickle")} in it')
    if result.forms:
        parts.append(f'no pickle: {named_forms(result.forms)}')
    return ', '.join(parts)


def _in_full(look: Look, content: bytes, options: Options) -> Look:
    """A mark with its calls in full, as far as they are shown: the program is asked again about the pickle that it is about."""
    if not any('+' in call for call in look.calls):  # (which stands where something is cut)
        return look
    limits = replace(options.limits, seconds=_SECONDS)
    result = look_at_bytes('.pkl', content, Options(limits, full=True))
    whole: Dict[str, str] = {}
    for done in (done for pickle in result.pickles if not pickle.where for done in pickle.calls if done.name in ('', look.name)):
        text = call_text(done)
        whole[text[:len(text) - len(shown(done.text))]] = text
    calls = [next((text for begin, text in whole.items() if call.startswith(begin)), call) for call in look.calls]
    return replace(look, calls=tuple(map(_cut, calls)))


def _source_of(content: bytes) -> str:
    """A pickle as Python source, as far as it is shown. Empty where it cannot be had."""
    try:
        text = source(content, full=False, many=True, timeout=_SECONDS, memory=_MEMORY).text
    except (OSError, ValueError, PicklestepError):
        return ''
    return text if len(text) <= _MOST_SOURCE else f'{text[:_MOST_SOURCE]}\n.. {len(text) - _MOST_SOURCE:,} letters more'
