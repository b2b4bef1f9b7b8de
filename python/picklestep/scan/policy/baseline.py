"""A baseline: the marks that are known today, by the content of their files. What is new is a finding."""

from __future__ import annotations

import json
import os
from typing import Any, Dict, Iterable, List, Sequence, Set, Tuple

from ...wording import shown
from ..looks import Look
from ..results import Result
from .model import BadPolicy

__all__ = ['IN_BASELINE', 'Baseline', 'Key', 'Marks', 'key_of']

# What is said of a mark that a baseline takes.
IN_BASELINE = 'in the baseline'

_VERSION = 1
# A mark by the digest of its file, its place there, its rule and its name.
Key = Tuple[str, Tuple[str, ...], str, str]


def key_of(digest: str, look: Look) -> Key:
    """What a mark is known by."""
    return digest, look.where, look.rule, look.name


class Baseline:
    """Marks that were written into files."""

    def __init__(self, paths: Iterable[str], most: int = 1 << 28) -> None:
        """Raises BadPolicy where a file is no baseline, or has more bytes than that."""
        self.keys: Set[Key] = set()
        self.digests: Dict[str, str] = {}
        for path in paths:
            for mark in _marks_in(path, most):
                try:
                    key = (str(mark['sha256']), tuple(map(str, mark['where'])), str(mark['rule']), str(mark['name']))
                except (KeyError, TypeError):
                    raise BadPolicy(f'{shown(path)}: a mark of it has no sha256, where, rule or name') from None
                self.keys.add(key)
                self.digests[key[0]] = str(mark.get('path', ''))

    def has(self, result: Result, look: Look) -> bool:
        """Whether a mark is in it. What has no digest, such as a value of a server, is in none."""
        return bool(result.digest) and key_of(result.digest, look) in self.keys


def _marks_in(path: str, most: int) -> List[Any]:
    if os.path.exists(path) and not os.path.isfile(path):
        raise BadPolicy(f'{shown(path)}: it is no file')
    try:
        with open(path, 'rb') as file:
            content = file.read(most + 1)
        made = json.loads(content) if len(content) <= most else None
    except OSError as error:
        more = '; --write-baseline writes it' if isinstance(error, FileNotFoundError) else ''
        raise BadPolicy(f'{shown(path)}: {error.strerror}{more}') from error
    except (ValueError, RecursionError):
        made = None
    if not isinstance(made, dict) or made.get('picklestep-baseline') != _VERSION or not isinstance(made.get('marks'), list):
        raise BadPolicy(f'{shown(path)}: it is no baseline, as --write-baseline writes it')
    marks: List[Any] = made['marks']
    return marks


class Marks:
    """Keeps the marks of a run, to be written as a baseline."""

    def __init__(self) -> None:
        self._marks: Dict[Key, str] = {}
        # How many cannot be kept, since their files have no digest.
        self.left = 0

    def add(self, result: Result, looks: Sequence[Look]) -> None:
        """Keeps the marks of a file."""
        for look in looks:
            if result.digest:
                self._marks.setdefault(key_of(result.digest, look), result.path)
            else:
                self.left += 1

    def text(self) -> str:
        """The baseline, a line for each mark."""
        lines = [json.dumps({'path': path, 'sha256': digest, 'where': where, 'rule': rule, 'name': name})
                 for (digest, where, rule, name), path in sorted(self._marks.items(), key=lambda each: (each[1], each[0]))]
        return f'{{"picklestep-baseline": {_VERSION}, "marks": [\n' + ',\n'.join(lines) + '\n]}\n'
