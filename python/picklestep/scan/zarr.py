"""Metadata of zarr: whether the items of an array are pickles (`numcodecs.Pickle`), which zarr loads when it reads one."""

from __future__ import annotations

import json
from typing import Any, Sequence

from .blobs import Blob

__all__ = ['has_pickles']

# As stores name them: of an array in version 2 and in version 3, and of all arrays together.
_NAMES = ('.zarray', 'zarr.json', '.zmetadata')
_MOST_BYTES = 16 << 20
_CODECS = ('pickle', 'numcodecs.pickle')


def has_pickles(blob: Blob, names: Sequence[str]) -> bool:
    """Whether these bytes are metadata of zarr that name this codec. What is too large to tell does."""
    if not any(name.replace('\\', '/').rpartition('/')[2] in _NAMES for name in names):
        return False
    if blob.size > _MOST_BYTES:
        return True
    try:
        # (to make a number of a million digits would take time without end)
        return _names_codec(json.loads(blob.read(0, blob.size), parse_int=str))
    except (ValueError, RecursionError):
        return b'pickle' in blob.read(0, blob.size)


def _names_codec(value: Any) -> bool:
    if isinstance(value, dict):
        return any(key in ('id', 'name') and each in _CODECS or _names_codec(each) for key, each in value.items())
    return isinstance(value, list) and any(map(_names_codec, value))
