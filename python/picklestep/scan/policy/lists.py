"""Lists of names that many rules have: each is read once, and several allow together what each of them allows."""

from __future__ import annotations

from typing import Dict, FrozenSet, Iterable, List, Optional, Sequence, Tuple

from ..allow import read_names
from ..names import Names

__all__ = ['Lists']


class _Several(Names):
    """Several lists as one, without copying them."""

    def __init__(self, parts: Sequence[Names]) -> None:
        super().__init__(())
        self._parts = parts

    def note(self, name: str) -> Optional[str]:
        return next((note for note in (part.note(name) for part in self._parts) if note is not None), None)

    def lines_of(self, name: str) -> List[str]:
        return list(dict.fromkeys(line for part in self._parts for line in part.lines_of(name)))

    def words_of(self, name: str) -> List[FrozenSet[str]]:
        return [words for part in self._parts for words in part.words_of(name)]

    def wants_alone(self, name: str) -> bool:
        return any(part.wants_alone(name) for part in self._parts)

    def entries(self) -> List[str]:
        return [entry for part in self._parts for entry in part.entries()]

    def entries_for(self, names: Iterable[str]) -> List[str]:
        names = list(names)
        return [entry for part in self._parts for entry in part.entries_for(names)]


class Lists:
    """Sets and files, each read when it is first wanted."""

    def __init__(self) -> None:
        self._read: Dict[Tuple[str, bool], Names] = {}

    def names(self, words: Iterable[str], with_needed: bool = True) -> Names:
        """What some lists have together. Raises OSError and NoList as `read_names` does."""
        parts = []
        for word in dict.fromkeys(words):
            if (word, with_needed) not in self._read:
                self._read[word, with_needed] = read_names([word], with_needed)
            parts.append(self._read[word, with_needed])
        return parts[0] if len(parts) == 1 else _Several(parts)
