"""numpy's .npy in the form that numpy.save writes: the exact header, then exactly as many bytes as it says, or one pickle.

Source: numpy/lib/format.py (1.7 to 2.x): magic, version, length, `{'descr': .., 'fortran_order': .., 'shape': (..), }`, blanks, a newline,
in all a multiple of 64 bytes (16 before 1.14).
"""

from __future__ import annotations

import ast
import re
from typing import Optional, Tuple

from ...patterns import pattern
from ..blobs import Blob, Budget
from .forms import Form, Member, count_of_shape, require, wrong
from .items import Item, item_of_description

__all__ = ['verify']

_HEADER = pattern(r"\{'descr': (.*), 'fortran_order': (True|False), 'shape': (\([0-9, ]*\)), \} *\n", re.DOTALL)
_LONGEST = 1 << 20
_ODD = 'the header is not as numpy.save writes it'


def verify(blob: Blob, budget: Optional[Budget] = None) -> Form:
    """The numbers of an array, or its pickle. (It takes no time, so nothing is counted on a budget.)"""
    start, (size, has_objects), count = _header(blob)
    if has_objects:
        require(start < blob.size, 'the pickle of an array of objects is missing')
        return Form((Member('(objects)', start, blob.size - start, 'pickle'),))
    require(blob.size - start == size * count, f'the header says {size * count:,} bytes, and {blob.size - start:,} are there', start)
    return Form((Member('(numbers)', start, blob.size - start, 'numbers'),))


def _header(blob: Blob) -> Tuple[int, Item, int]:
    """Where the header ends, the items, and how many there are."""
    begin = blob.read(0, 12)
    require(begin[:6] == b'\x93NUMPY' and len(begin) == 12, 'no header of numpy')
    version = (begin[6], begin[7])
    require(version in ((1, 0), (2, 0), (3, 0)), f'version {version[0]}.{version[1]}', 6)
    width = 2 if version == (1, 0) else 4
    length = int.from_bytes(begin[8:8 + width], 'little')
    start = 8 + width + length
    require(start % 16 == 0 and length <= _LONGEST and start <= blob.size, f'a header of {length} bytes', 8)
    try:
        text = blob.read(8 + width, length).decode('utf-8' if version == (3, 0) else 'latin-1')
        found = _HEADER.fullmatch(text)
        require(found is not None, _ODD, 10)
        assert found is not None
        described, shape = ast.literal_eval(found[1]), ast.literal_eval(found[3])
    except (ValueError, SyntaxError, TypeError, MemoryError, RecursionError):
        wrong(_ODD, 10)
    require(repr(described) == found[1] and repr(shape) == found[3], _ODD, 10)
    return start, item_of_description(described), count_of_shape(shape)
