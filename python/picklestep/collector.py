"""Python's collector of garbage, where many objects are made and none is garbage."""

from __future__ import annotations

import contextlib
import gc
from typing import Iterator

__all__ = ['without_collector']


@contextlib.contextmanager
def without_collector() -> Iterator[None]:
    """Many objects are made and none is garbage: the collector would look at all of them again and again.

    >>> with without_collector():
    ...     gc.isenabled()
    False
    """
    was_on = gc.isenabled()
    gc.disable()
    try:
        yield
    finally:
        if was_on:
            gc.enable()
