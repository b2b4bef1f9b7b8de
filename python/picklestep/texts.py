"""Lines that the program prints for people, with other numbers."""

from __future__ import annotations

from typing import Callable, Iterator, Tuple

__all__ = ['renumbered']

_DIGITS = '0123456789'


def renumbered(line: str, moved: Callable[[int], object]) -> str:
    """A line whose objects have other numbers, which a function says. What stands in quotes is no number.

    >>> renumbered("#3 inst 'a' '#1' (#1)", lambda number: number + 4)
    "#7 inst 'a' '#1' (#5)"
    """
    return ''.join(part if is_quoted else _moved(part, moved) for part, is_quoted in _quoted_parts(line))


def _quoted_parts(line: str) -> Iterator[Tuple[str, bool]]:
    """The parts of a line, and which of them stand in quotes. A quote that no other one ends is no more than a sign.

    >>> list(_quoted_parts(r"#3 'it\\'s #1' (#1)"))
    [('#3 ', False), ("'it\\\\'s #1'", True), (' (#1)', False)]
    """
    begin = 0
    while (quote := line.find("'", begin)) >= 0:
        end = line.find("'", quote + 1)
        while end >= 0 and _is_escaped(line, end):
            end = line.find("'", end + 1)
        if end < 0:
            break
        yield line[begin:quote], False
        yield line[quote:end + 1], True
        begin = end + 1
    yield line[begin:], False


def _is_escaped(line: str, at: int) -> bool:
    """Whether the quote at a place stands behind a backslash that is none of a pair. (A quote is before all of them.)"""
    begin = at
    while line[begin - 1] == '\\':
        begin -= 1
    return (at - begin) % 2 == 1


def _moved(text: str, moved: Callable[[int], object]) -> str:
    """A text without quotes, whose objects have other numbers."""
    first, *others = text.split('#')
    behind = [each.lstrip(_DIGITS) for each in others]
    numbers = [each[:len(each) - len(rest)] for each, rest in zip(others, behind)]
    return first + ''.join(f'#{moved(int(number)) if number else ""}{rest}' for number, rest in zip(numbers, behind))
