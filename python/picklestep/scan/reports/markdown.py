"""The report as a text in Markdown. Texts from files stand in code, where no sign has a meaning."""

from __future__ import annotations

import re
from typing import Iterator, List

from ..advice import advice_for, commands_for
from ..severity import STEPS
from ..wording import place_of, shown
from .findings import About, Findings, Row, bounded

__all__ = ['markdown_report']

# So many letters of details there are, and of a path so many.
_MOST_DETAILS, _MOST_PATH = 500_000, 200


def markdown_report(findings: Findings, about: About) -> str:
    """The whole text."""
    rows = findings.with_sources()
    marked = [row for row in rows if row.severity is not None]
    policy = f'the policy {_code(about.policy)}' if about.policy else 'no policy'
    lines = ['# What the pickles in these files import and call', '', f'{findings.summary()}.', '',
             f'Made by picklestep {about.version} on {about.made}, with {policy}. Nothing of the files was run or loaded. Good files have marks too,',
             'and a file without a mark may still do harm.', *([about.unseen] if about.unseen else []), '', *_steps(findings), '']
    if marked:
        lines += ['| Severity | File | First mark |', '|---|---|---|', *map(_in_table, marked), '']
    room = _MOST_DETAILS
    for row in marked:
        details = list(_details(row)) if room else []
        size = sum(map(len, details))
        room = room - size if size <= room else 0
        lines += details if room else []
    if findings.taken:
        lines += [f'## Marks that the policy takes: {findings.counts["taken"]}', '', *_block(list(bounded(map(shown, findings.taken), len(findings.taken)))), '']
    return '\n'.join(lines).rstrip('\n') + '\n'


def _code(text: str, in_table: bool = False) -> str:
    """A text from anywhere, as code on one line.

    >>> _code('a`b|<i>', in_table=True)
    '``a`b\\\\|<i>``'
    """
    text = shown(text)
    ticks = '`' * (max((len(run) for run in re.findall('`+', text)), default=0) + 1)
    around = ' ' if text[:1] == '`' or text[-1:] == '`' or not text.strip() else ''
    made = f'{ticks}{around}{text}{around}{ticks}'
    return made.replace('|', '\\|') if in_table else made


def _block(lines: List[str]) -> Iterator[str]:
    """Lines from anywhere, as code."""
    ticks = '`' * max(3, 1 + max((len(run) for line in lines for run in re.findall('`+', line)), default=0))
    yield from (ticks, *map(shown, lines), ticks)


def _steps(findings: Findings) -> Iterator[str]:
    counts = findings.severities()
    yield from ('| Severity | What it means | Files |', '|---|---|---|')
    yield from (f'| {step.name} | {step.means} | {counts[step.name]} |' for step in STEPS.values())


def _short(text: str) -> str:
    return text if len(text) <= _MOST_PATH else f'{text[:_MOST_PATH]} ..'


def _in_table(row: Row) -> str:
    return f'| {row.severity} | {_code(_short(row.path), True)} | {_code(_short(row.looks[0].text), True)} |'


def _details(row: Row) -> Iterator[str]:
    """All that is said of a file with marks."""
    worst = row.looks[0]
    yield from (f'## {row.severity}: {_code(_short(row.path))}', '')
    facts = (('SHA-256', row.digest), ('Size', f'{row.size:,} bytes' if row.size else ''), ('Kind', row.kind))
    yield from (f'- {name}: {_code(value)}' for name, value in facts if value)
    yield from (f'- {advice_for(worst)}', *(f'- {_code(command)} shows more.' for command in commands_for(row.path, worst)), '')
    lines = [f'{look.severity}: {place_of(row.path, look.where)}: {shown(line)}' for look in row.looks for line in look.lines]
    yield from _block([*bounded(lines, len(lines)), *([f'.. {row.more:,} marks more'] if row.more else ())])
    yield ''
    if row.source:
        yield from ('The pickle as Python source:', '', *_block(row.source.splitlines()), '')
