"""The types of PostgreSQL: which columns have bytes or text, as they are or in arrays, and which may have some and are not read."""

from __future__ import annotations

from typing import Any, Dict, Iterable, List, Optional, Tuple

from .sql import Column

__all__ = ['QUERY', 'Types']

# Each type: what it is made of, and of which types its values are.
QUERY = """
    SELECT t.oid::bigint, t.typname::text, t.typtype::text, t.typcategory::text, t.typlen::int, t.typbasetype::bigint, t.typelem::bigint,
           t.typrelid::bigint, r.rngsubtype::bigint
    FROM pg_type t LEFT JOIN pg_range r ON t.oid = r.rngtypid OR t.oid::text = to_jsonb(r) ->> 'rngmultitypid'"""

_BYTES, _TEXT, _NOTHING, _ARRAY = 'bytes', 'text', '', '[]'
_COMPOSITE, _RANGE, _OTHER = 'columns of composite types', 'columns of ranges', 'columns of other types'

# Types with text in them that are in no category of their own, and categories of values that are numbers, dates and the like.
_TEXTS = ('json', 'jsonb', 'xml')
_OF_NUMBERS = 'BDEGINTP'
_STRINGS, _ARRAYS = 'S', 'A'


class Types:
    """What columns of a type hold. `rows` are those of QUERY, `fields` the types of the columns of each relation that is a type, too."""

    def __init__(self, rows: Iterable[Tuple[Any, ...]], fields: Dict[int, List[int]]) -> None:
        self._rows = {int(row[0]): row[1:] for row in rows}
        self._fields = fields
        self._known: Dict[int, str] = {}

    def column(self, name: str, number: int) -> Tuple[Optional[Column], str]:
        """A column of this type, which holds nothing where it is None; and what such columns are called where they are not read."""
        kind = self._kind(number)
        plain = kind[:-len(_ARRAY)] if kind.endswith(_ARRAY) else kind
        is_read = plain in (_BYTES, _TEXT)
        return Column(name, plain == _TEXT, kind != plain) if kind != _NOTHING else None, '' if is_read else kind

    def _kind(self, number: int) -> str:
        if number not in self._known:
            self._known[number] = _OTHER  # (should a type be within itself)
            self._known[number] = self._made_of(*self._rows[number]) if number in self._rows else _OTHER
        return self._known[number]

    def _made_of(self, name: str, how: str, category: str, size: int, base: int, element: int, relation: int, part: Optional[int]) -> str:
        if how == 'd':
            return self._kind(base)
        if how in 'rm':
            return _RANGE if part is None or self._kind(part) != _NOTHING else _NOTHING
        if how == 'c':
            fields = self._fields.get(relation)
            return _COMPOSITE if fields is None or any(self._kind(each) != _NOTHING for each in fields) else _NOTHING
        if category == _ARRAYS and element:
            inner = self._kind(element)
            return inner + _ARRAY if inner in (_BYTES, _TEXT) else _OTHER if inner.endswith(_ARRAY) else inner
        if name == 'bytea':
            return _BYTES
        if category == _STRINGS or name in _TEXTS:
            return _TEXT
        return _NOTHING if how != 'b' or category in _OF_NUMBERS or size > 0 else _OTHER
