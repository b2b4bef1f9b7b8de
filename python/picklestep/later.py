"""Work that goes on while the prompt waits for a line."""

from __future__ import annotations

import threading
from typing import Callable, Generic, List, Optional, TypeVar

__all__ = ['Later']

Answer = TypeVar('Answer')


class Later(Generic[Answer]):
    """Some work, which goes on once it is started. Whoever keeps it where the work itself can see it starts it afterwards: what the work then finds
    there is no question of time.

    >>> Later(lambda: 6 * 7).start().result()
    42
    """

    def __init__(self, work: Callable[[], Answer]) -> None:
        self._work = work
        self._answers: List[Answer] = []
        self._error: Optional[BaseException] = None
        self._thread = threading.Thread(target=self._run, daemon=True)

    def start(self) -> 'Later[Answer]':
        """Begins the work, and answers itself."""
        self._thread.start()
        return self

    def _run(self) -> None:
        try:
            self._answers.append(self._work())
        except BaseException as error:
            self._error = error

    @property
    def is_done(self) -> bool:
        """Whether the work has ended."""
        return not self._thread.is_alive()

    @property
    def is_good(self) -> bool:
        """Whether the work has ended well."""
        return self.is_done and self._error is None

    def wait(self) -> None:
        """Waits until the work has ended."""
        self._thread.join()

    def result(self) -> Answer:
        """What came of the work, or the exception that it raised, once it has ended."""
        self.wait()
        if self._error is not None:
            raise self._error
        return self._answers[0]
