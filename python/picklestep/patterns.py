"""Regular expressions that are compiled when they are first used. A module has many of them, and most runs use few."""

from __future__ import annotations

import re
from typing import Any, AnyStr, Pattern, cast

__all__ = ['pattern']


class _Later:
    """Stands for a compiled pattern. What is asked of it is kept, so that it is found at once from then on."""

    def __init__(self, text: Any, flags: int) -> None:
        self._text, self._flags = text, flags

    def __getattr__(self, name: str) -> Any:
        found = self.__dict__[name] = getattr(re.compile(self._text, self._flags), name)
        return found


def pattern(text: AnyStr, flags: int = 0) -> Pattern[AnyStr]:
    """The same as `re.compile`, for a pattern of a module.

    >>> pattern('a+').fullmatch('aa')
    <re.Match object; span=(0, 2), match='aa'>
    """
    return cast('Pattern[AnyStr]', _Later(text, flags))
