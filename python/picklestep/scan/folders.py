"""A folder from Python: what is found in its files, as it comes."""

from __future__ import annotations

import os
from collections import Counter
from contextlib import closing
from dataclasses import dataclass, replace
from importlib import import_module
from pathlib import Path
from typing import Any, Callable, Dict, Generator, Iterable, Iterator, List, Optional, Tuple, Union

from .files import find_files
from .judges import Given, Judges
from .looking import Options
from .looks import Look
from .pool import look_at_all
from .progress import progress_of
from .results import Result
from .severity import STEPS, rank, status_of, worst_of

__all__ = ['Found', 'Scan', 'folder', 'to_dataframe']

# What is told how many files are done, and of how many.
Progress = Callable[[int, int], None]


@dataclass(frozen=True)
class Found:
    """What was found in a file, its marks, the worst first, and those that a policy takes."""

    result: Result
    looks: Tuple[Look, ...]
    taken: Tuple[Look, ...] = ()

    @property
    def path(self) -> str:
        """The path of the file."""
        return self.result.path

    @property
    def severity(self) -> Optional[str]:
        """The worst severity of its marks; None without one."""
        return worst_of(look.severity for look in self.looks)

    def _repr_html_(self) -> str:
        """What notebooks show: the worst mark, and all of them where that is opened."""
        from .notebook import html_of_found  # (which reads this)
        return html_of_found(self)


class Scan:
    """The files of a folder, one after another, as they are ready. What was counted so far is in `files`, `severities` and `status`.

    >>> import tempfile
    >>> with tempfile.TemporaryDirectory() as place:
    ...     _ = Path(place, 'a.pkl').write_bytes(b'cposix\\nsystem\\n.')
    ...     scan = folder(place)
    ...     [(os.path.basename(found.path), found.severity) for found in scan]
    [('a.pkl', 'critical')]
    >>> scan.files, scan.status, scan.summary()
    (1, 1, '1 file, 1 critical')
    """

    def __init__(self, results: Generator[Result, None, None], judges: Judges) -> None:
        self._results = results
        self._judges = judges
        self.files = 0
        # How many files have which worst severity.
        self.severities: 'Counter[str]' = Counter()

    def __iter__(self) -> Iterator[Found]:
        with closing(self._results):
            for result in self._results:
                yield self._found(result)

    def _found(self, result: Result) -> Found:
        looks = sorted(self._judges.looks(result), key=lambda look: rank(look.severity))
        found = Found(result, tuple(look for look in looks if not look.is_taken), tuple(look for look in looks if look.is_taken))
        self.files += 1
        self.severities.update([found.severity] if found.severity is not None else ())
        return found

    @property
    def status(self) -> int:
        """The status that `picklestep scan` would have."""
        return status_of(self.severities)

    def summary(self) -> str:
        """The counts, in a line."""
        counts = [f'{self.severities[name]} {name}' for name in STEPS if self.severities[name]]
        return ', '.join([f'{self.files} file{"" if self.files == 1 else "s"}', *counts])

    def to_dataframe(self) -> Any:
        """All that is yet to come, as a table of pandas: see `to_dataframe`."""
        return to_dataframe(self)


def folder(path: Union[str, 'os.PathLike[str]'], *, policy: Union[str, 'os.PathLike[str]', None] = None, allow: Iterable[str] = (),
           deny: Iterable[str] = (), jobs: int = 1, progress: Union[bool, Progress] = False, options: Options = Options()) -> Scan:
    """Looks at the files of a folder, or at one file, so many at once, and answers what it finds as it comes.

    `policy` is the path of a policy, which is followed whole; without it there is none. `allow` and `deny` are sets and files, as the command takes
    them. `progress` shows a bar (by tqdm or rich, where one of these is installed), or is called with how many files are done, and of how many.
    Raises OSError where a list cannot be read, and PicklestepError where a list or a policy has no meaning.
    """
    given = Given(tuple(allow), tuple(deny))
    judges = Judges(given.judge()) if policy is None else _judges_of_policy(policy, given)
    options = replace(options, digest=True, lists=judges.lists())
    found = find_files([os.fspath(path)])
    results = _in_a_row(found.results, look_at_all([*found.paths, *found.opened], options, jobs))
    total = len(found.results) + len(found.paths) + len(found.opened)
    return Scan(progress_of(results, total, progress), judges)


def _judges_of_policy(policy: Union[str, 'os.PathLike[str]'], given: Given) -> Judges:
    from .policy.judging import PolicyJudges
    from .policy.reader import read_policy
    return PolicyJudges(read_policy(Path(policy)), given)


def _in_a_row(first: Iterable[Result], results: Generator[Result, None, None]) -> Generator[Result, None, None]:
    with closing(results):
        yield from first
        yield from results


def to_dataframe(found: Iterable[Found]) -> Any:
    """A table of pandas: a row for each mark, and one for each file without marks, whose severity is None. Raises ImportError without pandas."""
    pandas = import_module('pandas')
    rows: List[Dict[str, object]] = []
    for each in found:
        about = {'path': each.path, 'size': each.result.size, 'sha256': each.result.digest, 'kinds': ' '.join(each.result.kinds)}
        looks: Tuple[Optional[Look], ...] = each.looks or (None,)
        rows.extend({**about, **{name: getattr(look, name, None) for name in ('severity', 'rule', 'name', 'offset', 'text')},
                     'where': ' > '.join(look.where) if look is not None else None} for look in looks)
    return pandas.DataFrame(rows, columns=['path', 'severity', 'rule', 'name', 'where', 'offset', 'text', 'size', 'sha256', 'kinds'])
