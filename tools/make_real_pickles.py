#!/usr/bin/python3
"""Writes the real pickles that this repository keeps as test data, and what Python reads of them.

Run it as /usr/bin/python3 of Debian 12 (Python 3.11) with the packages python3-numpy, python3-pandas, python3-sklearn and
libpython3.11-testsuite, from anywhere, without arguments. It writes

    crates/real_pickles/data/NAME.pickle    the pickles
    crates/real_pickles/args, stdout        their names, and what the program real_pickles is to print

and removes what it wrote before under other names. Nothing of this project is run, and no hostile pickle is loaded: the items
are those of Python's pickletools, and where this project ends its reading elsewhere, real_pickles/answers.py says why. The same
versions of the packages write the same bytes.
"""

from __future__ import annotations

import os
import pickletools
import sys

if os.environ.get('PYTHONHASHSEED') != '0':
    # (the order of a set of texts depends on it)
    os.execve(sys.executable, [sys.executable, *sys.argv], {**os.environ, 'PYTHONHASHSEED': '0', 'LC_ALL': 'C.UTF-8'})

from pathlib import Path
from typing import Any

sys.dont_write_bytecode = True
ROOT = Path(__file__).resolve().parent.parent
sys.path[:0] = [str(ROOT / 'equipment' / 'real_pickles'), str(ROOT / 'equipment')]

import from_cpython_tests
import hostile
import written_by_libraries
import written_by_python
from answers import OWN, document_of

KINDS: tuple[Any, ...] = (written_by_python, written_by_libraries, from_cpython_tests, hostile)


def printed_of(data: bytes) -> list[str]:
    """What the program real_pickles prints of the document: the items, and how reading ended."""
    items, fault = document_of(data)
    end = 'stopped' if fault is None else 'not stopped: %s at %d' % (fault[1].split()[0], fault[0])
    return [*('%d %s' % (read.start, read.name) for read in items), end]


def main() -> None:
    program = ROOT / 'crates' / 'real_pickles'
    for old in (program / 'data').glob('*.pickle'):
        old.unlink()
    pickles = [(name + '.pickle', content) for module in KINDS for name, content, _ in module.pickles()]
    assert len(dict(pickles)) == len(pickles), 'two pickles of one name'
    assert {name + '.pickle' for name in OWN} <= dict(pickles).keys(), 'a refusal of our own, and no pickle'
    for name, content in pickles:
        (program / 'data' / name).write_bytes(content)
    printed = [line for name, content in pickles for line in (name, *printed_of(content), 'same')]
    (program / 'args').write_text(''.join(name + '\n' for name, _ in pickles), encoding='ascii')
    (program / 'stdout').write_text(''.join(line + '\n' for line in (*printed, 'edits: same', 'cuts: same')), encoding='ascii')
    listed = {read.name for _, content in pickles for read in document_of(content)[0]}
    assert len(listed) == len(pickletools.opcodes), 'an opcode that no pickle has'


main()
