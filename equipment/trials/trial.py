"""Trials, the groups that they come in, and what is printed of them."""

from __future__ import annotations

import shlex
from collections.abc import Callable, Iterator, Sequence, Set
from concurrent.futures import ThreadPoolExecutor
from dataclasses import dataclass, field
from typing import Optional, Union


class Skip(Exception):
    """A trial cannot run here; the text says what it needs."""


class Lack(Skip):
    """The same where the whole of ./test has first installed what it needs, or where it has to try that: there it fails."""


@dataclass(frozen=True)
class Noted:
    """What is wrong, or an empty text, with words that are printed after the trial's name."""

    why: str
    note: str


@dataclass(frozen=True)
class Trial:
    """A check with the name that `./test NAME` takes. `run` returns what is wrong, or an empty text."""

    name: str
    run: Callable[[], Union[str, Noted]]


@dataclass(frozen=True)
class Verdict:
    """How a trial ended. `name` runs it again, if it can be run alone; `text` may say more, for example a count."""

    name: str
    text: str
    why: str
    is_skipped: bool = False
    is_lacking: bool = False


def judge(trial: Trial) -> Verdict:
    """Runs a trial. A fault of the trial itself is a failure, so that the other trials still run."""
    try:
        found = trial.run()
    except Skip as lack:
        return Verdict(trial.name, trial.name, str(lack), is_skipped=True, is_lacking=isinstance(lack, Lack))
    except Exception as fault:
        return Verdict(trial.name, trial.name, f"{type(fault).__name__}: {fault}"[:600])
    if isinstance(found, Noted):
        return Verdict(trial.name, trial.name + found.note, found.why)
    return Verdict(trial.name, trial.name, found)


@dataclass(frozen=True)
class Group:
    """Trials under one name. They are made only when they are needed, since some read many files.

    `closing` says at the end how much was tried, and is printed as one more trial. A group runs in a
    process of its own; `begin` is called there first. `lanes` is how many processors it uses most of the time: so many of its trials
    run at once.
    """

    name: str
    make: Callable[[], Sequence[Trial]]
    closing: Optional[Callable[[], str]] = None
    begin: Optional[Callable[[], None]] = None
    lanes: int = 1

    def names(self) -> list[str]:
        return [trial.name for trial in self.make()]

    def verdicts(self, wanted: Optional[Set[str]]) -> Iterator[Verdict]:
        """Runs the trials of these names, or the whole group. A group that tries nothing has failed."""
        if self.begin is not None:
            self.begin()
        chosen = [trial for trial in self.make() if wanted is None or trial.name in wanted]
        with ThreadPoolExecutor(self.lanes) as pool:
            yield from pool.map(judge, chosen) if self.lanes > 1 else map(judge, chosen)
        if wanted is None and (self.closing is not None or not chosen):
            text = self.closing() if self.closing is not None else self.name
            yield Verdict(self.name, text, "" if chosen else "nothing was tried")


@dataclass
class Report:
    """Prints each verdict as it comes, and counts. In the whole of ./test what lacks something has failed."""

    is_whole: bool = False
    passed: int = 0
    failed: int = 0
    failures: list[str] = field(default_factory=list)

    def take(self, verdict: Verdict) -> None:
        if verdict.is_skipped and not (self.is_whole and verdict.is_lacking):
            print(f"skip {verdict.text}: {verdict.why}", flush=True)
        elif not verdict.why:
            print(f"ok   {verdict.text}", flush=True)
            self.passed += 1
        else:
            again = f"\n    alone: ./test {shlex.quote(verdict.name)}" if verdict.name else ""
            self.fail(f"FAIL {verdict.text}: {verdict.why}{again}", 1)

    def fail(self, text: str, count: int) -> None:
        """Counts failures, and keeps what is printed of them for the end."""
        print(text, flush=True)
        self.failures.append(text)
        self.failed += count

    def close(self) -> int:
        """Prints the failures again, where nobody has to look for them, and returns the status."""
        for text in self.failures:
            print(text)
        print(f"{self.passed} passed, {self.failed} failed", flush=True)
        return int(self.failed > 0)
