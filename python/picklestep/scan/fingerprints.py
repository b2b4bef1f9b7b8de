"""What a mark is known by where the file changes around it."""

from __future__ import annotations

import hashlib
import json

from ..patterns import pattern
from .looks import Look

__all__ = ['fingerprint']

_NUMBER = pattern(r'[0-9]+')


def fingerprint(look: Look) -> str:
    """What stays of a mark where a file is moved, or bytes are put before it: its place among members, its rule, and its name, or the text
    without its numbers.

    >>> one, other = (Look((), 'unusual-form', f'not in the form: at {place}') for place in (7, 9))
    >>> fingerprint(one) == fingerprint(other)
    True
    """
    about = [*look.where, look.rule, look.name or _NUMBER.sub('0', look.text)]
    return hashlib.sha256(json.dumps(about).encode()).hexdigest()
