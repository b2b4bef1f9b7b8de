#!/usr/bin/env python3
"""Compares the rows of crates/pickle_names/src/rows.rt with Python's own `_compat_pickle`, and with the length that
`short_value` allows a name. Rows that only some versions of Python have are named below."""

from __future__ import annotations

import _compat_pickle
import pathlib
import re
import sys

# Python 3.13 has no tkinter.tix. Its names then import the module Tix, which there is none of either.
GONE = {(3, 13): {'Tix'}, (3, 14): {'Tix'}}
LONGEST = 32
NAMES = re.compile(r'\(\s*"([^"]*)",\s*"([^"]*)",\s*"([^"]*)",\s*"([^"]*)",?\s*\)')
MODULES = re.compile(r'\(\s*"([^"]*)",\s*"([^"]*)",?\s*\)')


def rows_of(crates: pathlib.Path) -> tuple[list[tuple[str, ...]], list[tuple[str, ...]]]:
    """The rows of names, and those of modules."""
    names, modules = (crates / 'pickle_names/src/rows.rt').read_text().split('pub static MODULES')
    return NAMES.findall(names), MODULES.findall(modules)


def main() -> None:
    names, modules = rows_of(pathlib.Path(__file__).resolve().parent.parent / 'crates')
    wanted_names = [(*old, *new) for old, new in _compat_pickle.NAME_MAPPING.items()]
    wanted_modules = list(_compat_pickle.IMPORT_MAPPING.items())
    gone = GONE.get(sys.version_info[:2], set())
    faults = []
    if names != wanted_names:
        faults.append(f'NAMES: {set(names) ^ set(wanted_names) or "another order"}')
    if [row for row in modules if row[0] not in gone] != wanted_modules:
        faults.append(f'MODULES: {set(modules) ^ set(wanted_modules) or "another order"}')
    if len(set(row[:2] for row in names)) != len(names) or len(set(row[0] for row in modules)) != len(modules):
        faults.append('a name has two rows')
    too_long = [word for row in names + modules for word in row if len(word) > LONGEST or any(ord(letter) > 127 for letter in word)]
    if too_long:
        faults.append(f'no names of at most {LONGEST} bytes of ASCII: {too_long}')
    if faults:
        sys.exit('\n'.join(faults))
    print(f'{len(names)} names and {len(modules)} modules, as in Python {sys.version.split()[0]}')


if __name__ == '__main__':
    main()
