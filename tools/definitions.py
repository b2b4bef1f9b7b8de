#!/usr/bin/env python3
"""Prints an index of the definitions: the head of each file of `crates/*/specs`, and where it is.

    python3 tools/definitions.py

The head is the comment at the top of the file: what it defines, and the source. Neither files that only name others (`Lib.antt`)
nor those for a crate's own proofs (`specs/Inside`) have one. The status is 1 where another file has none.
"""

from __future__ import annotations

import signal
import sys
import textwrap
from pathlib import Path
from typing import Iterator

ROOT = Path(__file__).resolve().parent.parent


def head_of(file: Path) -> str:
    """The lines of the comment at the top, as one text."""
    words = []
    for line in file.read_text(encoding='utf-8').splitlines():
        if not line.startswith('--'):
            break
        words.append(line[2:].strip())
    return ' '.join(words)


def files() -> Iterator[Path]:
    """The files of definitions, by crates in the order of crates.txt."""
    for line in (ROOT / 'crates.txt').read_text(encoding='utf-8').splitlines():
        name, colon, _ = line.partition(':')
        if colon and not name.startswith('#'):
            for file in sorted((ROOT / 'crates' / name / 'specs').glob('*.antt')):
                if file.stem not in ('Lib', 'Inside'):
                    yield file


def main() -> int:
    """Prints the index; the status is 1 where a file has no head."""
    signal.signal(signal.SIGPIPE, signal.SIG_DFL)  # (a reader such as `head` may stop)
    bare = []
    crate = ''
    for file in files():
        if file.parent.parent.name != crate:
            crate = file.parent.parent.name
            print(f'\n{crate}\n')
        head = head_of(file)
        if not head:
            bare.append(file)
        print(f'  {file.stem}')
        print(textwrap.fill(head, 96, initial_indent='      ', subsequent_indent='      '))
    for file in bare:
        print(f'no head: {file.relative_to(ROOT)}', file=sys.stderr)
    return 1 if bare else 0


if __name__ == '__main__':
    sys.exit(main())
