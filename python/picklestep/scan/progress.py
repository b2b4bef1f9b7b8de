"""How far a scan is, where Python asks for it: a bar in notebooks, what `with_progress` shows elsewhere, or a call for each result."""

from __future__ import annotations

from contextlib import closing
from importlib import import_module
from typing import Callable, Generator, Union

from ..waiting import with_progress
from .results import Result

__all__ = ['progress_of']


def progress_of(results: Generator[Result, None, None], total: int,
                progress: Union[bool, Callable[[int, int], None]]) -> Generator[Result, None, None]:
    """The results as they come, with a bar for notebooks and terminals where `progress` is true, or a call of it for each."""
    if progress is False:
        return results
    if progress is not True:
        return _told(results, total, progress)
    try:
        bar = import_module('tqdm.auto')
    except ImportError:
        return with_progress(results, total)
    return (result for result in bar.tqdm(results, total=total, unit='file'))


def _told(results: Generator[Result, None, None], total: int, tell: Callable[[int, int], None]) -> Generator[Result, None, None]:
    with closing(results):
        for done, result in enumerate(results, 1):
            tell(done, total)
            yield result
