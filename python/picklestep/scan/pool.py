"""Several files, or keys of servers, that are looked at at once, each by a process of its own."""

from __future__ import annotations

from dataclasses import dataclass
from typing import TYPE_CHECKING, Generator, Iterable, Union

from ..pool import do_all
from .looking import Options, work_on
from .results import Result

if TYPE_CHECKING:
    from .stores.server import Task

__all__ = ['Looks', 'look_at_all']


@dataclass(frozen=True)
class Looks:
    """Looking at files, and at the keys of servers, in the way that options say."""

    options: Options
    writes: bool = False

    def do(self, task: Union[str, Task]) -> Result:
        """What is found there."""
        return work_on(task, self.options)

    def lost(self, task: Union[str, Task], why: str) -> Result:
        """That nothing is known of it."""
        return Result(str(task), error=why)


def look_at_all(paths: Iterable[Union[str, Task]], options: Options, jobs: int) -> Generator[Result, None, None]:
    """The results of the files and of the keys of servers, as they are ready."""
    return do_all(paths, Looks(options), jobs)
