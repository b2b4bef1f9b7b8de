"""Where opcodes are that a mark holds together: from the mark up to the opcode that takes it."""

from __future__ import annotations

from .opened import Opened

__all__ = ['behind_next', 'behind_mark']


def behind_next(pickle: Opened, place: int) -> int:
    """The place behind the opcode at a place; where that sets a mark, the one behind the opcode that takes this mark.

    >>> from contextlib import closing
    >>> with closing(Opened(b'N(K\\x01K\\x02t.', '')) as pickle:
    ...     behind_next(pickle, 0), behind_next(pickle, 1)
    (1, 5)
    """
    return pickle.lines.up_to(place + 1, _marks(pickle, place))


def behind_mark(pickle: Opened, place: int) -> int:
    """The place behind the opcode that takes the mark which was set last before a place.

    >>> from contextlib import closing
    >>> with closing(Opened(b'N(K\\x01K\\x02t.', '')) as pickle:
    ...     behind_mark(pickle, 3)
    5
    """
    return pickle.lines.up_to(place + 1, _marks(pickle, place) - 1)


def _marks(pickle: Opened, place: int) -> int:
    return pickle.lines.marks(place) if place < len(pickle.lines) else 0
