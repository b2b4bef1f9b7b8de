"""Lines of JSON for texts of the program, field by field, as equipment/json_of_texts.py makes them."""

from __future__ import annotations

import json
import sys
from typing import Any, Iterable, Mapping

from pickles import ROOT

sys.path.append(str(ROOT / 'equipment'))

from json_of_texts import of_listing, of_object, of_objects  # noqa: E402

__all__ = ['listed', 'made', 'of_object']


def listed(text: str) -> bytes:
    """The lines of `list --json` for a text of `list`."""
    return _lines(of_listing(text))


def made(text: str) -> bytes:
    """The lines of `objects --json` for a text of `objects`."""
    return _lines(of_objects(text))


def _lines(all_fields: Iterable[Mapping[str, Any]]) -> bytes:
    return b''.join(json.dumps(fields, separators=(',', ':')).encode('ascii') + b'\n' for fields in all_fields)
