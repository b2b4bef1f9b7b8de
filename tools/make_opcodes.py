#!/usr/bin/env python3
"""Prints python/picklestep/opcodes.py with the rows of what the program answers to `opcodes --json`.

    python3 tools/make_opcodes.py [PROGRAM] >made.py && mv made.py python/picklestep/opcodes.py

Without PROGRAM it asks the one that ./picklestep starts.
"""

from __future__ import annotations

import json
import subprocess
import sys
from pathlib import Path

ROOT = Path(__file__).resolve().parents[1]
# The fields of a line of the program, in the order of the record's. What the record calls `kind` is the line's `object_is`: its `kind` says of what kind the
# line is.
FIELDS = ('name', 'code', 'protocol', 'form', 'argument', 'takes', 'leaves', 'makes', 'row', 'object_is')

FILE = ROOT / 'python' / 'picklestep' / 'opcodes.py'
# What stands before the rows and behind them.
BEGIN, END = 'TABLE = (\n', ')\n\nBY_NAME'


def table(program: str) -> str:
    """The rows of the file. Raises CalledProcessError where the program has no answer."""
    lines = subprocess.run([program, 'opcodes', '--json'], capture_output=True, check=True).stdout.splitlines()
    infos = [json.loads(line) for line in lines]
    return ''.join(f'    OpcodeInfo({", ".join(repr(info[field]) for field in FIELDS)},\n               {info["sentence"]!r}),\n' for info in infos)


def text(program: str) -> str:
    """The whole file: all but its rows stays as it is."""
    before, begin, rest = FILE.read_text(encoding='utf-8').partition(BEGIN)
    _, end, behind = rest.partition(END)
    return f'{before}{begin}{table(program)}{end}{behind}'


if __name__ == '__main__':
    sys.stdout.write(text(sys.argv[1] if len(sys.argv) > 1 else str(ROOT / 'picklestep')))
