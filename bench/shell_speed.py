#!/usr/bin/env python3
"""How fast `picklestep shell` answers in pickles of a million opcodes: PYTHONPATH=python bench/shell_speed.py

For each line the milliseconds of the wall until its answer. An edit is answered before the pickle is read again: how long the line after it
waits, where it comes at once, is printed too. Lines that read or write the whole pickle come last.
"""

from __future__ import annotations

import contextlib
import pickle
import time
from typing import Callable, Dict, List

from picklestep.shell.shell import Shell, WordError

RECORDS = 50_000


def milliseconds(work: Callable[[], object]) -> float:
    """How long some work takes."""
    start = time.perf_counter()
    work()
    return 1000 * (time.perf_counter() - start)


def lines_of(half: int) -> List[str]:
    """What is typed. The numbers are those of opcodes and objects that there are in both pickles."""
    looks = ['where', 'list', 'hex', 'explain', 'stack', 'memo', 'objects', 'who 0', 'who 1', 'show 1', 'find APPENDS', 'calls']
    breaks = ['break opcode STOP', 'break', 'off 1', 'on 1', 'clear 1', 'help', f'until {half + 100}', f'go {half // 2}', f'goto {half}']
    edits = [f'insert {half} NONE', 'where', 'undo', 'where', 'redo', 'where', f'delete {half}', 'where', 'undo', 'undo', 'where',
             f'replace {half} NONE', 'undo', 'where', 'set 1 to 7', 'where', 'undo', 'where']
    whole = ['run', 'where', 'back', 'run back', 'insert 0 NONE', 'diff', 'undo', 'source', 'rename no.such other']
    return ['step', 'step 5', 'back', *looks, f'goto {half}', 'step', 'back', *looks, *breaks, *edits, *whole]


def answered(shell: Shell, line: str) -> None:
    """Obeys a line, also where it says that it cannot."""
    with contextlib.suppress(WordError):
        shell.obey(line)


def measure(data: bytes) -> Dict[str, float]:
    """The times of lines, by their words."""
    shells: List[Shell] = []
    taken = {'opened': milliseconds(lambda: shells.append(Shell(data, '')))}
    with shells[0] as shell:
        lines = lines_of(len(shell.pickle.lines) // 2)
        time.sleep(5)  # (somebody reads)
        for line in lines:
            taken[f'{line} ({len(taken)})'] = milliseconds(lambda line=line: answered(shell, line))  # type: ignore[misc]
    return taken


def main() -> None:
    """Prints a line for each word of each pickle."""
    records = [{'id': number, 'name': f'user{number}', 'score': number * 0.5, 'tags': ['a', 'b', str(number)]} for number in range(RECORDS)]
    for name, value in (('a million integers', [number % 256 for number in range(1_000_000)]), (f'{RECORDS:,} records', records)):
        for line, taken in measure(pickle.dumps(value, 4)).items():
            print(f'{name}: {line}: {taken:.1f}')


if __name__ == '__main__':
    main()
