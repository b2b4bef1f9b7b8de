"""What is told while something takes long."""

from __future__ import annotations

import contextlib
import os
import sys
import threading
import time
from importlib import import_module
from typing import Any, Generator, Iterable, Iterator, Optional, TypeVar

__all__ = ['Waiting', 'counted', 'with_progress']

_WIPE = '\r\x1b[K'
_TOLD_AFTER, _TOLD_EACH = 2, 0.5  # seconds
_Result = TypeVar('_Result')


class Waiting:
    """Within it somebody at a terminal is told how long something takes, from two seconds on. What is told is wiped out at the end."""

    def __init__(self, text: str = 'working') -> None:
        self._text = text
        self._begin = time.monotonic()
        self._is_shown = self._is_quiet = False
        self._writes = threading.Lock()
        self._ended = threading.Event()
        self._thread: Optional[threading.Thread] = None

    def __enter__(self) -> Waiting:
        if self._is_seen():
            self._thread = threading.Thread(target=self._tell, daemon=True)
            self._thread.start()
        return self

    def __exit__(self, *error: object) -> None:
        self.end()

    def progress(self, text: str) -> None:
        """Takes how far it is."""
        self._text = text

    def show(self, text: str) -> None:
        """Takes how far it is, and tells it at once."""
        self._text = text
        if self._thread is not None:
            self._write()

    @contextlib.contextmanager
    def quiet(self) -> Iterator[None]:
        """Within it nothing is told, so that something else can be printed."""
        with self._writes:
            self._is_quiet = True
            self._wipe()
        try:
            yield
        finally:
            self._is_quiet = False

    @contextlib.contextmanager
    def asking(self) -> Iterator[None]:
        """Within it somebody is asked something, which takes a time that is not counted."""
        begin = time.monotonic()
        with self.quiet():
            yield
        self._begin += time.monotonic() - begin

    def end(self) -> None:
        """Tells nothing more."""
        self._ended.set()
        if self._thread is not None:
            self._thread.join()
        self._wipe()

    def _tell(self) -> None:
        while not self._ended.wait(_TOLD_EACH if self._is_shown else _TOLD_AFTER):
            self._write()

    def _write(self) -> None:
        with self._writes:
            if not self._is_quiet:
                is_first, self._is_shown = not self._is_shown, True
                self._put(f'{self._text} .. {time.monotonic() - self._begin:.0f} s', is_first)

    def _wipe(self) -> None:
        if self._is_shown:
            self._take_away()
            self._is_shown = False

    # --- Where it is shown ---

    def _is_seen(self) -> bool:
        """Whether anybody sees what is told."""
        return sys.stderr.isatty() and os.environ.get('TERM') != 'dumb'

    def _put(self, text: str, is_first: bool) -> None:
        """Shows a text in the place of the one before, if there is one."""
        print(f'{_WIPE}{text} (Ctrl-C ends it)', end='', file=sys.stderr, flush=True)

    def _take_away(self) -> None:
        """Shows nothing more."""
        print(_WIPE, end='', file=sys.stderr, flush=True)


def counted(results: Iterable[_Result], total: int, what: str = 'files') -> Generator[_Result, None, None]:
    """The results as they come. Somebody at a terminal is told how many there were, but not while a result is printed."""
    done = 0
    with Waiting(f'0 of {total} {what}') as waiting:
        for result in results:
            done += how_many(result)
            with waiting.quiet():
                yield result
                sys.stdout.flush()
            waiting.show(f'{done} of {total} {what}')


def with_progress(results: Iterable[_Result], total: int, what: str = 'files') -> Generator[_Result, None, None]:
    """The results as they come, with the progress shown on standard error where that is a terminal: how many of `what` are done.

    It is a bar where `rich` is installed, else one line that counts. Where the results go to the terminal too there is the line alone, since it can be
    wiped out before each of them.
    """
    if not sys.stderr.isatty():
        return (result for result in results)
    if sys.stdout.isatty():
        return counted(results, total, what)
    try:
        progress, console = import_module('rich.progress'), import_module('rich.console')
    except ImportError:
        return counted(results, total, what)
    return _with_bar(results, total, what, progress, console.Console(stderr=True))


def _with_bar(results: Iterable[_Result], total: int, what: str, progress: Any, console: Any) -> Generator[_Result, None, None]:
    columns = (progress.TextColumn(f'{{task.completed}} of {{task.total}} {what}'), progress.BarColumn(), progress.TimeRemainingColumn())
    with progress.Progress(*columns, console=console, transient=True, redirect_stdout=False) as bar:
        task = bar.add_task('scan', total=total)
        for result in results:
            yield result
            bar.advance(task, how_many(result))


def how_many(result: Any) -> int:
    """How many are done with a result: one file, or as many keys of a server."""
    return max(1, getattr(result, 'keys', 1))
