"""Texts from outside, and numbers of things, as they are shown."""

from __future__ import annotations

__all__ = ['count_of', 'shown']


def shown(text: str) -> str:
    """A text from outside, on one line and without signs that a terminal obeys.

    >>> shown('a\\nb\\x1b[2J')
    'a\\\\nb\\\\x1b[2J'
    """
    return text if text.isprintable() else ''.join(sign if sign.isprintable() else ascii(sign)[1:-1] for sign in text)


def count_of(count: int, one: str, more: str = '') -> str:
    """A number of things. More than one of them have an `s` at the end unless it is said otherwise.

    >>> count_of(1, 'file'), count_of(0, 'file')
    ('1 file', '0 files')
    """
    return f'{count} {one if count == 1 else more or one + "s"}'
