"""Names that are known to run, load, write or connect what they are given: the lines of known.txt."""

from __future__ import annotations

import os
from functools import lru_cache
from typing import Dict, List, Optional

from .names import Names

__all__ = ['known_anywhere', 'known_names', 'known_note']


@lru_cache(maxsize=None)
def _lines() -> Dict[str, List[str]]:
    """The lines by the first part of their names; those that begin with a star are under ''. (There are hundreds, and a file has few names.)"""
    found: Dict[str, List[str]] = {'': []}
    with open(os.path.join(os.path.dirname(os.path.realpath(__file__)), 'known.txt'), encoding='utf-8') as lines:
        for line in lines.read().splitlines():
            part = line.partition('.')[0]
            if line and part[0] != '#':
                found.setdefault('' if '*' in part else part, []).append(line)
    return found


@lru_cache(maxsize=None)
def _names_of(part: str) -> Names:
    return Names(_lines()[part], is_checked=True)


@lru_cache(maxsize=None)
def known_names() -> Names:
    """All the names, each with what a call of it would do."""
    return Names((line for lines in _lines().values() for line in lines), is_checked=True)


@lru_cache(maxsize=None)
def known_anywhere() -> Names:
    """The known names that are reached through whatever stands before them."""
    return Names((line for line in _lines()[''] if line.startswith('**.')), is_checked=True)


def known_note(name: str) -> Optional[str]:
    """What a call of a known name would do. None of any other name.

    >>> known_note('os.system'), known_note('six.moves.os'), known_note('collections.OrderedDict')
    ('runs a shell command', 'all that Python itself has, by other names', None)
    """
    part = name.partition('.')[0]
    note = _names_of(part).note(name) if part and part in _lines() else None
    return _names_of('').note(name) if note is None else note
