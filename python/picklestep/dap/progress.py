"""What an editor is told while something takes long."""

from __future__ import annotations

import contextlib
from itertools import count
from typing import Callable

from ..waiting import Waiting
from .wire import Fields

__all__ = ['Progress']

_TITLE = 'picklestep'
_NUMBERS = count(1)


class Progress(Waiting):
    """Within it an editor that shows such things is told how long something takes, from two seconds on."""

    def __init__(self, event: Callable[[str, Fields], None], is_told: bool) -> None:
        super().__init__()
        self._event = event
        self._is_told = is_told
        self._shown: Fields = {}

    def _is_seen(self) -> bool:
        return self._is_told

    def _put(self, text: str, is_first: bool) -> None:
        with contextlib.suppress(OSError):  # (the editor has left, which is seen elsewhere)
            if is_first:
                self._shown = {'progressId': str(next(_NUMBERS))}
                self._event('progressStart', {**self._shown, 'title': _TITLE, 'message': text})
            else:
                self._event('progressUpdate', {**self._shown, 'message': text})

    def _take_away(self) -> None:
        self._event('progressEnd', self._shown)
