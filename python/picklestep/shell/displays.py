"""What the shell displays at each stop: the value of an expression, or what a word that looks answers."""

from __future__ import annotations

from typing import NamedTuple, Optional

from .expressions import Expression, ExpressionError
from .words import WORDS, understood

__all__ = ['Display', 'made_display']

# Words that look and are not displayed: these are about displays, or go on where they were last.
_NOT_SHOWN = ('display', 'undisplay', 'find')


class Display(NamedTuple):
    """An expression, or a word and what comes after it. `said` is how it was typed."""

    number: int
    said: str
    expression: Optional[Expression]
    word: str = ''
    text: str = ''

    def __str__(self) -> str:
        return f'{self.number}: {self.said}{" = " if self.expression else chr(10)}'


def made_display(number: int, said: str) -> Display:
    """What is displayed from here on. Raises ExpressionError where a line is neither an expression nor a word that looks.

    >>> str(made_display(1, 'top')), made_display(2, 'x/4xb @0').word
    ('1: top = ', 'hex')
    """
    try:
        return Display(number, said, Expression(said))
    except ExpressionError:
        name, text = understood(said)
        if name not in WORDS or WORDS[name].group != 'look' or name in _NOT_SHOWN:
            raise
        return Display(number, said, None, name, text)
