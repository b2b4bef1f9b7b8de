"""Texts that the report, the lists and the lines of `check` have in common."""

from __future__ import annotations

from ..wording import count_of, shown
from .results import Place

__all__ = ['count_of', 'place_of', 'shown', 'times']


def place_of(path: str, where: Place) -> str:
    """A file, and the names of the members in it."""
    return ' > '.join(shown(name) for name in (path, *where))


def times(count: int) -> str:
    """How often.

    >>> times(1), times(3)
    ('once', '3 times')
    """
    return 'once' if count == 1 else f'{count} times'
