"""The header of numpy's own layout (.npy), read as loosely as some version of numpy may read it."""

from __future__ import annotations

import ast
from typing import Any, Tuple

from ..patterns import pattern
from .begins import HEAD
from .blobs import Blob

__all__ = ['array_header']

# Items of arrays that are no objects, as numpy writes them. It takes many other spellings ('1O', 'i4,O', 'object'), so all else counts as
# objects.
_PLAIN_ITEM = pattern(r'[<>=|]?([?]|[biufc][0-9]{1,2}|[SUVa][0-9]+|[mM]8(\[[0-9A-Za-z/]+\])?)')


def array_header(blob: Blob) -> Tuple[int, bool]:
    """Where the header of numpy's own layout ends, and whether the array may hold objects."""
    begin = blob.read(0, 12)
    width = 2 if begin[6:7] == b'\x01' else 4
    length = int.from_bytes(begin[8:8 + width], 'little')
    text = blob.read(8 + width, min(length, HEAD)).decode('latin-1')
    try:
        return 8 + width + length, not _is_plain(ast.literal_eval(text.strip())['descr'])
    except (ValueError, SyntaxError, KeyError, TypeError, MemoryError, RecursionError):
        return 8 + width + length, True  # numpy may read it another way


def _is_plain(description: Any) -> bool:
    """Whether a description of an array's items is known to have no objects: a word, a list of fields, or a pair of items and a shape."""
    if isinstance(description, str):
        return _PLAIN_ITEM.fullmatch(description) is not None
    if isinstance(description, list):
        return all(isinstance(field, tuple) and len(field) in (2, 3) and _is_plain(field[1]) and all(map(_is_shape, field[2:]))
                   for field in description)
    return isinstance(description, tuple) and len(description) == 2 and _is_plain(description[0]) and _is_shape(description[1])


def _is_shape(shape: Any) -> bool:
    return all(isinstance(count, int) for count in (shape if isinstance(shape, tuple) else (shape,)))
