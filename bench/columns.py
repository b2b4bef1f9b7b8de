"""Prints tables of Markdown, from standard input, as columns of text. All else stays as it is."""

from __future__ import annotations

import itertools
import re
import sys


def cells(row: str) -> list[str]:
    """The cells of a row, without the bars between them, and without what only Markdown needs."""
    return [cell.strip().replace('`', '').replace('**', '').replace('\\|', '|') for cell in re.split(r'(?<!\\)\|', row.strip()[1:-1])]


def show(rows: list[list[str]]) -> None:
    """Prints rows, the first column to the left and the others to the right."""
    widths = [max(len(row[place]) if place < len(row) else 0 for row in rows) for place in range(max(map(len, rows)))]
    for row in rows:
        parts = [cell.rjust(width) if place else cell.ljust(width) for place, (cell, width) in enumerate(zip(row, widths))]
        print('    ' + '  '.join(parts).rstrip(), flush=True)


def main() -> None:
    """Goes over the lines; a table ends with the first line that is none of its rows."""
    rows: list[list[str]] = []
    for line in itertools.chain(sys.stdin, ['']):
        if line.startswith('|'):
            if not re.fullmatch(r'[|\-:\s]+', line):
                rows.append(cells(line))
            continue
        if rows:
            show(rows)
            rows = []
        print(line, end='', flush=True)


main()
