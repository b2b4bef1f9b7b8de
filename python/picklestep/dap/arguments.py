"""The arguments of a request, each by its name and its type."""

from __future__ import annotations

from typing import List, Optional

from .wire import Fields

__all__ = ['Arguments', 'RequestError']


class RequestError(Exception):
    """A request that cannot be done, and why."""


class Arguments:
    """What a request asks for. Raises RequestError where something is not there, or is of another type. (What is null is not there: so some clients
    write empty arrays.)

    >>> Arguments({'count': 3}).number('count')
    3
    """

    def __init__(self, fields: Fields) -> None:
        self._fields = {name: value for name, value in fields.items() if value is not None}

    def text(self, name: str, otherwise: Optional[str] = None) -> str:
        """A text; `otherwise`, where that is given and there is none."""
        value = self._fields.get(name, otherwise)
        if not isinstance(value, str):
            raise RequestError(f'{name} has to be a text')
        return value

    def number(self, name: str, otherwise: Optional[int] = None) -> int:
        """An integer."""
        value = self._fields.get(name, otherwise)
        if not isinstance(value, int) or isinstance(value, bool):
            raise RequestError(f'{name} has to be an integer')
        return value

    def flag(self, name: str, otherwise: bool = False) -> bool:
        """True or false."""
        value = self._fields.get(name, otherwise)
        if not isinstance(value, bool):
            raise RequestError(f'{name} has to be true or false')
        return value

    def inner(self, name: str) -> Arguments:
        """What is in an object; nothing where there is none."""
        value = self._fields.get(name, {})
        if not isinstance(value, dict):
            raise RequestError(f'{name} has to be an object')
        return Arguments(value)

    def each(self, name: str) -> List[Arguments]:
        """The objects of an array; none where there is none."""
        value = self._fields.get(name, [])
        if not isinstance(value, list) or not all(isinstance(each, dict) for each in value):
            raise RequestError(f'{name} has to be an array of objects')
        return [Arguments(each) for each in value]

    def texts(self, name: str) -> List[str]:
        """The texts of an array; none where there is none."""
        value = self._fields.get(name, [])
        if not isinstance(value, list) or not all(isinstance(each, str) for each in value):
            raise RequestError(f'{name} has to be an array of texts')
        return value

    def has(self, name: str) -> bool:
        """Whether there is something of a name."""
        return name in self._fields
