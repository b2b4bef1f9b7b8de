"""Which rule is about a file, found without asking each rule: of most patterns a name in the path says that they may be about it."""

from __future__ import annotations

import os
import re
from functools import lru_cache
from typing import Dict, List, Optional, Sequence, Set

from ...patterns import pattern
from .model import Rule

__all__ = ['RuleIndex', 'inner_path']

_SPECIAL = pattern(r'[*?\[\\]')


def inner_path(root: 'os.PathLike[str]', path: str) -> Optional[str]:
    """A path from a folder on, or None where it is not in that. Links are not followed."""
    if '://' in path:
        return None
    folder, name = os.path.split(path)
    if name in ('', '.', '..'):
        folder, name = path, ''
    begin = _inner_folder(os.fspath(root), os.getcwd(), folder)
    return None if begin is None else f'{begin}/{name}'.strip('/')


@lru_cache(maxsize=1024)
def _inner_folder(root: str, here: str, folder: str) -> Optional[str]:
    """The same of a folder, as it is named in a folder where this process is. That of the root is ''."""
    inner = os.path.relpath(os.path.join(here, folder), root).replace(os.sep, '/')
    return None if inner == '..' or inner.startswith('../') else '' if inner == '.' else inner


class RuleIndex:
    """The rules of a policy by what a path has that they are about: a name, or how a name begins or ends."""

    def __init__(self, rules: Sequence[Rule]) -> None:
        self._rules = rules
        self._by_name: Dict[str, List[int]] = {}
        # By the length of a beginning, or of an ending, and by that.
        self._by_begin: Dict[int, Dict[str, List[int]]] = {}
        self._by_end: Dict[int, Dict[str, List[int]]] = {}
        self._others: List[int] = []
        for number, rule in enumerate(rules):
            for text in rule.target.paths:
                if not text.startswith('!'):
                    self._add(text, number)

    def _add(self, text: str, number: int) -> None:
        parts = [part for part in text.strip('/').split('/') if part != '**']
        plain = next((part for part in reversed(parts) if not _SPECIAL.search(part)), None)
        begin = _SPECIAL.split(parts[-1], maxsplit=1)[0] if parts else ''
        end = '' if not parts or re.search(r'[\[\]\\]', parts[-1]) else re.split(r'[*?]', parts[-1])[-1]
        if plain is not None:
            self._by_name.setdefault(plain, []).append(number)
        elif begin:
            self._by_begin.setdefault(len(begin), {}).setdefault(begin, []).append(number)
        elif end:
            self._by_end.setdefault(len(end), {}).setdefault(end, []).append(number)
        else:
            self._others.append(number)

    def rule_for(self, inner: str) -> Optional[Rule]:
        """The last rule whose paths have a file; None where none has it."""
        found: Set[int] = set(self._others)
        for name in inner.split('/'):
            found.update(self._by_name.get(name, ()))
            for size, begins in self._by_begin.items():
                found.update(begins.get(name[:size], ()))
            for size, ends in self._by_end.items():
                found.update(ends.get(name[-size:], ()))
        return next((self._rules[number] for number in sorted(found, reverse=True) if self._rules[number].target.patterns.covers(inner)), None)
