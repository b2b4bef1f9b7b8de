"""Patterns of paths as gitignore has them. None takes long, whatever the pattern and the path are: both may be a stranger's."""

from __future__ import annotations

import fnmatch
import re
from functools import lru_cache
from typing import Iterable, List, Pattern, Set, Tuple, Union

__all__ = ['PathPattern', 'PathPatterns']

# A part of a pattern: a name, a name with signs that stand for others, or `**` for any folders.
_Part = Union[str, 'Pattern[str]', None]
_ANY = None


class PathPattern:
    """One pattern. A pattern with a `/` before its end is about a path from the folder of the policy on, any other about a name at any depth.
    What covers a folder covers all in it, and with a `/` at its end a pattern covers folders alone. `*` and `?` stand for signs but `/`, `[ab]`
    for one of these, and `**` between slashes for any folders.

    >>> [PathPattern(text).covers('models/old/a.pkl') for text in ('*.pkl', 'old/', '/old', 'models/*', 'models/**/a.pkl', 'a.pkl/')]
    [True, True, False, True, True, False]
    """

    def __init__(self, text: str) -> None:
        self.text = text
        bare = text.rstrip('/')
        self._folders_alone = bare != text
        begin = bare[1:] if bare.startswith('/') else bare
        # (a name at any depth is one behind any folders)
        spelled = begin if '/' in bare else f'**/{begin}'
        self._parts = tuple(_ANY if part == '**' else _part(part) for part in spelled.split('/'))
        *before, self._last = self._parts
        # Most patterns are a name at any depth, or one in a folder that is named: these are compared at once.
        self._is_anywhere = before == [_ANY] and self._last is not _ANY
        self._folder = ''.join(f'{part}/' for part in before) if self._last is not _ANY and all(isinstance(part, str) for part in before) else None

    def covers(self, path: str) -> bool:
        """Whether this covers a file, or a folder that it is in. The path has no `.` and no `..` in it."""
        if self._is_anywhere:
            names = path.split('/')
            return any(_fits(self._last, name) for name in (names[:-1] if self._folders_alone else names))
        if self._folder is not None:
            name, slash, _ = path[len(self._folder):].partition('/')
            return path.startswith(self._folder) and _fits(self._last, name) and (not self._folders_alone or slash != '')
        return _covers(self._parts, path.split('/'), self._folders_alone)


class PathPatterns:
    """Several patterns. The last one that covers a path decides, and `!` before a pattern takes away what those before it cover."""

    def __init__(self, texts: Iterable[str]) -> None:
        self._patterns = [(PathPattern(text[1:] if text.startswith('!') else _unescaped(text)), not text.startswith('!')) for text in texts]

    def covers(self, path: str) -> bool:
        """Whether these cover a path.

        >>> [PathPatterns(['*.pkl', '!good.pkl']).covers(path) for path in ('a/b.pkl', 'a/good.pkl', 'a.pt')]
        [True, False, False]
        """
        return next((takes for pattern, takes in reversed(self._patterns) if pattern.covers(path)), False)


def _unescaped(text: str) -> str:
    return text[1:] if text.startswith('\\!') else text


@lru_cache(maxsize=4096)
def _part(text: str) -> _Part:
    """A part as a name, where no sign in it stands for others, or as what names are compared with (which goes back over no sign twice)."""
    if not re.search(r'[*?\[\\]', text):
        return text
    # (fnmatch has no sign that takes the meaning from the next one, and its brackets negate by `!` alone)
    spelled = re.sub(r'\\(.)', lambda found: f'[{found[1]}]' if found[1] in '*?[' else found[1], text, flags=re.DOTALL)
    return re.compile(fnmatch.translate(spelled.replace('[^', '[!')))


def _fits(part: _Part, name: str) -> bool:
    """Whether a part stands for a name."""
    return part == name if isinstance(part, str) else part is not _ANY and part.match(name) is not None


def _covers(parts: Tuple[_Part, ...], names: List[str], folders_alone: bool) -> bool:
    """Whether the parts stand for the names, or for the first of them. All places that are reached in the parts go on together."""
    end = len(parts)
    places = _with_skipped({0}, parts)
    for number, name in enumerate(names, 1):
        reached: Set[int] = set()
        for place in places:
            if place == end:
                continue
            part = parts[place]
            if part is _ANY:
                reached.add(place)
                if place + 1 == end:  # (at the end `**` stands for what is in a folder, and not for the folder)
                    reached.add(end)
            elif _fits(part, name):
                reached.add(place + 1)
        if end in reached and (number < len(names) or not folders_alone):
            return True
        places = _with_skipped(reached, parts)
        if not places:
            return False
    return False


def _with_skipped(places: Set[int], parts: Tuple[_Part, ...]) -> Set[int]:
    """The places, and those behind each `**` among them that stands for no folder."""
    found = set(places)
    for place in places:
        while place < len(parts) - 1 and parts[place] is _ANY:
            place += 1
            found.add(place)
    return found
