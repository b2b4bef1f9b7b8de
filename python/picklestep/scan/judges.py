"""Who judges a file: one judge for all, or one for each rule of a policy, which may also take marks that are known."""

from __future__ import annotations

from typing import Iterator, List, NamedTuple, Tuple, Union

from .allow import read_names
from .looks import Judge, Look
from .names import Names
from .results import Result

__all__ = ['Given', 'Judges', 'judges_of']


class Given(NamedTuple):
    """What the command line says beside the policy: lists that it allows and denies, whether known names are marked, baselines,
    and the baseline that is to be written."""

    allow: Tuple[str, ...] = ()
    deny: Tuple[str, ...] = ()
    with_known: bool = True
    baselines: Tuple[str, ...] = ()
    to_write: str = ''

    def judge(self) -> Judge:
        """The judge without a policy."""
        return Judge(read_names(self.allow) if self.allow else None, read_names(self.deny, with_needed=False), self.with_known)


class Judges:
    """One judge for all files. A policy has others, and says which marks it takes."""

    # Whether there is a list of allowed names for some file.
    has_lists = False

    def __init__(self, judge: Judge) -> None:
        self._judge = judge
        self.has_lists = judge.allowed is not None

    def of(self, path: str) -> Judge:
        """The judge of a file."""
        return self._judge

    def lists(self) -> Tuple[Names, ...]:
        """The lists of all judges: by each of them the gate is asked about each pickle."""
        return self._judge.lists()

    def has_asked(self, result: Result) -> bool:
        """Whether the gate was asked by all lists that a result is judged by. (It may be one of an earlier run.)"""
        return {names.digest for names in self.of(result.path).lists()} <= set(result.lists)

    def settled(self, result: Result, looks: Iterator[Look]) -> Iterator[Look]:
        """The marks of a file, each with whether it is taken, and why."""
        return looks

    def looks(self, result: Result) -> List[Look]:
        """All marks of a file, also those that are taken."""
        return list(self.settled(result, self.of(result.path).looks(result)))

    def lines(self) -> Tuple[str, ...]:
        """What the summary says of them."""
        return ()


def judges_of(judge: Union[Judge, Judges]) -> Judges:
    """Judges, of which there may be one."""
    return Judges(judge) if isinstance(judge, Judge) else judge
