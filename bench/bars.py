"""The form of the tables of bench/run: a heading, what is measured, the bars, and for each row whether they hold.

bars.py TABLES prints what bench/RESULTS.md has above these tables: when and where it was measured, how many rows hold, and which do not.
"""

from __future__ import annotations

import re
import sys
import textwrap
from pathlib import Path
from typing import Dict, List, NamedTuple, Optional

HOLDS, MISSED, SHORT = 'holds', '**missed**', 'too short to say'
# The head of the last column, which says whether the bars of a row hold.
RESULT = 'result'
# The bars of instructions, besides those that are named after a command. All others are of times, but for bytes and MB.
COUNTED = ('twice the file', 'times as many', 'times as many instructions for twice as many')
# A time of fewer seconds says nothing: times are counted in hundredths, and other work of the machine is in them.
SHORTEST = 0.1


def heading(title: str, text: str, *columns: str) -> str:
    """What stands above the rows of a table: its title, what it has, and which bars, in sentences. The last column is that of the verdict."""
    heads = (*columns, RESULT)
    rules = '|'.join(['---'] + ['---:'] * (len(heads) - 2) + ['---'])
    return f'\n## {title}\n\n{textwrap.fill(text, 100, break_on_hyphens=False)}\n\n| {" | ".join(heads)} |\n|{rules}|'


class Compared(NamedTuple):
    """A measured value, its bar, and whether it holds. None: one of the times in it is too short to say."""

    value: float
    bar: float
    holds: Optional[bool]

    def __str__(self) -> str:
        """Both, the value with so many digits that it does not look like the bar."""
        fewest = 0 if self.bar >= 100 or self.value % 1 == 0 else 2
        digits = next(digits for digits in range(fewest, 20) if self.value == self.bar or round(self.value, digits) != self.bar)
        return f'({self.value:,.{digits}f}, bar {self.bar:,})'


def at_most(value: float, bar: float, *seconds: float) -> Compared:
    """A value that may be as large as its bar. `seconds` are the times in it."""
    return Compared(value, bar, None if seconds and min(seconds) < SHORTEST else value <= bar)


def at_least(value: float, bar: float) -> Compared:
    """A value that may be as small as its bar."""
    return Compared(value, bar, value >= bar)


def verdict(bars: Dict[str, Compared]) -> str:
    """The last cell of a row. Each bar has a name: the head of its column, or its unit."""
    missed = [f'{name} {compared}' for name, compared in bars.items() if compared.holds is False]
    short = [name for name, compared in bars.items() if compared.holds is None]
    if len(short) == len(bars):
        return SHORT
    said = f'{MISSED}: {", ".join(missed)}' if missed else HOLDS
    return f'{said}; {SHORT}: {", ".join(short)}' if short else said


def kind_of(bar: str) -> str:
    """What a bar is about: instructions, memory, or time."""
    if bar in COUNTED or bar.startswith('`'):
        return 'instructions'
    return 'memory' if 'bytes' in bar or bar == 'MB' else bar if bar == 'status' else 'time'


def summary(tables: str) -> str:
    """When and where it was measured, how many rows hold, and which do not."""
    when, _, _ = tables.partition('\n## ')
    title, held, unsaid = '', 0, 0
    missed: List[List[str]] = []
    for line in tables.splitlines():
        title = line[3:] if line.startswith('## ') else title
        cells: List[str] = [cell.strip() for cell in re.split(r'(?<!\\)\|', line)[1:-1]]
        held += bool(cells) and cells[-1].startswith(HOLDS)
        unsaid += bool(cells) and cells[-1] == SHORT
        if cells and cells[-1].startswith(MISSED):
            bars = re.findall(r'([^(), ][^(]*) \((\S+), bar (\S+)\)', cells[-1].partition(': ')[2])
            missed += [[title, cells[0], what, value, bar, kind_of(what)] for what, value, bar in bars]
    rows = held + unsaid + len({(title, name) for title, name, *_ in missed})
    counts = [f'{rows} rows were measured. {held} of them miss no bar.']
    counts += [f'Rows of which all times are too short to say: {unsaid}.'] if unsaid else []
    counts += [f'These {len(missed)} bars are missed:'] if missed else []
    table = ['', '| Table | Row | What | Measured | Bar | Kind |', '|---|---|---|---:|---:|---|', *(f'| {" | ".join(row)} |' for row in missed)]
    return '\n'.join(['## In short', '', when.strip(), '', textwrap.fill(' '.join(counts), 100), *(table if missed else [])])


if __name__ == '__main__':
    print(summary(Path(sys.argv[1]).read_text(encoding='utf-8')))
