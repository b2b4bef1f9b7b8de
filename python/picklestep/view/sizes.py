"""Where the bytes of a pickle go, as the page shows it."""

from __future__ import annotations

from typing import Any, Dict

from ..sizing.command import heading
from ..sizing.measure import measured, sizes_of
from ..sizing.treemap import svg

__all__ = ['sizes_shown']

# The least and the most pixels of a side of the drawing.
_LEAST_SIDE, _MOST_SIDE = 200, 4000


def sizes_shown(content: bytes, many: bool, unframed: bool, width: int, height: int) -> Dict[str, Any]:
    """The drawing of about so many pixels, and what is said above it."""
    found = measured(content, many, unframed)
    drawing = svg(found, (max(_LEAST_SIDE, min(width, _MOST_SIDE)), max(_LEAST_SIDE, min(height, _MOST_SIDE))))
    return {'heading': list(heading(sizes_of(found, 1))), 'drawing': drawing}
