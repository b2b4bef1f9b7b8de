"""The files of Django's cache (`FileBasedCache`): a pickle with the time at which it ends, then a pickle in zlib.

The first pickle holds a plain number or None, and nothing else; the second begins as `zlib.compress` begins, with a byte that is no opcode. So
no loader of pickles goes on where these bytes are taken for a cache file. All else is read as pickles.

cachelib (Flask) writes the time as a pickle too, or as four bytes, and then the value as a pickle. These are read without help.
"""

from __future__ import annotations

import zlib
from typing import TYPE_CHECKING, Optional, Sequence

from ...opcodes import BY_CODE, BY_NAME, codes_of, of_kinds, of_rows
from ..begins import HEAD
from ..containers import Held
from ..walk import walk

if TYPE_CHECKING:
    from ..looking import Looker

__all__ = ['end_of_expiry', 'look_into']

_MOST_OF_EXPIRY = 128

# What is before a number (PROTO and FRAME), what it is made by, and what is behind it.
_BEFORE, _BEHIND = of_rows('protocol', 'nothing'), of_rows('put', 'memoize', 'stop')
_NUMBERS = ('INT', *of_kinds('none', 'int', 'long-line', 'float', 'float-line'))

# (What protocol 2 has for them comes behind PROTO.)
_BEGINS = codes_of(('PROTO', *(name for name in _NUMBERS if BY_NAME[name].protocol < 2)))

# `zlib.compress` writes an `x` first.
_STOP_AND_ZLIB = b'.x'


def end_of_expiry(head: bytes) -> Optional[int]:
    """Where the first pickle ends, if it is a plain number and what is behind it unpacks.

    >>> end_of_expiry(b'\\x80\\x04K\\x05.' + zlib.compress(b'N.')), end_of_expiry(b'\\x80\\x04K\\x05.'), end_of_expiry(b'N.(S')
    (5, None, None)
    """
    if head[:1] not in _BEGINS or _STOP_AND_ZLIB not in head[:_MOST_OF_EXPIRY + 1]:
        return None
    way = walk(head[:_MOST_OF_EXPIRY], 0)
    if not way.stops or not head.startswith(_STOP_AND_ZLIB, way.end - 1):
        return None
    return way.end if _is_number([BY_CODE[head[at]].name for at in way.passed]) and _unpacks(head[way.end:]) else None


def _is_number(names: Sequence[str]) -> bool:
    """Whether a pickle of these opcodes holds a plain number or None and nothing else."""
    rest = [name for name in names if name not in _BEFORE]
    return len(rest) > 1 and rest[0] in _NUMBERS and all(name in _BEHIND for name in rest[1:])


def _unpacks(packed: bytes) -> bool:
    """Whether a stream of zlib begins here, of which a first part unpacks."""
    stream = zlib.decompressobj()
    try:
        return bool(stream.decompress(packed, 1)) or stream.eof
    except zlib.error:
        return False


def look_into(looker: 'Looker', held: Held) -> bool:
    """Looks at the time and at the value."""
    from .values import Values
    blob, where, depth = held.blob, held.where, held.depth + 1
    end = end_of_expiry(blob.read(0, HEAD))
    assert end is not None
    values = Values(looker)
    values.add(blob.read(0, end), where + ('(expiry)',), depth)
    values.add_blob(blob.part(end, blob.size - end), where + ('(value)',), depth)
    values.flush()
    return True
