"""All that a run writes: what it prints, and files of other forms, which are written at its end."""

from __future__ import annotations

import json
import os
import sys
from contextlib import ExitStack
from functools import partial
from typing import TYPE_CHECKING, Callable, Dict, List, Optional, Protocol, Sequence, Tuple

from ..errors import PicklestepError
from .looking import Options
from .judges import Judges
from .looks import Look
from .report import Report
from .results import Result

if TYPE_CHECKING:
    import argparse
    from .policy.baseline import Marks
    from .written import Used

__all__ = ['WRITES', 'Output', 'leave']

# The options that name a file to write.
WRITES = ('sarif', 'report', 'junit', 'code_quality', 'write_baseline', 'write_allow')
# With these options a terminal shows lines as they come, and no table.
_IN_LINES = ('json', 'lines', 'full', 'follow')


class _Collector(Protocol):
    """What keeps results for a file."""

    def add(self, result: Result, looks: Sequence[Look]) -> None:
        """Keeps what is said of a file."""


class Output:
    """All that a run writes: the report, and files of other forms that are written at its end."""

    def __init__(self, words: argparse.Namespace, judges: Judges, options: Options, policy: str = '') -> None:
        """Raises PicklestepError where a file that is wanted cannot be written, or is no list to add names to: at the end the work would be
        lost."""
        _check([path for option in WRITES for path in _paths(words, option)], words.write_allow)
        self.report = _report(words, judges)
        self.summary = sys.stderr if words.json else sys.stdout
        # What keeps results, and what writes each file at the end.
        self._collectors: List[_Collector] = []
        self._files: List[Callable[[], None]] = []
        self._marks: Optional[Marks] = None
        self._add_taken: Callable[[Result, Sequence[Look]], None] = lambda result, looks: None
        self._open_files(words, options, policy)
        # Whether the reader of standard output has left.
        self.is_left = False

    def _open_files(self, words: argparse.Namespace, options: Options, policy: str) -> None:
        """Begins each file that is wanted. What makes one is imported where it is wanted alone."""
        if words.sarif is not None:
            from .sarif import Sarif
            sarif = Sarif()
            self._collectors.append(sarif)
            self._write_at_end(words.sarif, lambda: json.dumps(sarif.object(), indent=1) + '\n')
        reports = _reports(words)
        if reports:
            from .reports import About, Findings
            findings, about = Findings(options), About.now(policy, options.everywhere)
            self._collectors.append(findings)
            self._add_taken = findings.add_taken
            for path, maker in reports:
                self._write_at_end(path, partial(maker, findings, about))
        if words.write_baseline is not None:
            from .policy.baseline import Marks
            self._marks = Marks()
            self._write_at_end(words.write_baseline, self._marks.text)
        if words.write_allow is not None:
            from .written import Used
            used = Used()
            self._collectors.append(used)
            self._files.append(lambda: _write_list(words.write_allow, used))

    def _write_at_end(self, path: str, text: Callable[[], str]) -> None:
        self._files.append(lambda: _write(path, text()))

    def add(self, result: Result, is_new: bool = True) -> None:
        """Writes a result. Where other files are wanted the run goes on though the reader of this output has left."""
        looks = self.report.count(result)
        if is_new and not self.is_left:
            try:
                self.report.write(result, looks)
            except BrokenPipeError:
                if not self._files:
                    raise
                self.is_left = True
                leave()
        in_force = [look for look in looks if not look.is_taken]
        for collector in self._collectors:
            collector.add(result, in_force)
        self._add_taken(result, [look for look in looks if look.is_taken])
        if self._marks is not None:  # (a new baseline has what an older one takes)
            from .policy.baseline import IN_BASELINE
            self._marks.add(result, [look for look in looks if not look.is_taken or look.remark == IN_BASELINE])

    def end(self, is_whole: bool) -> None:
        """Writes the summary, and the other files where the run came to its end: each of them, also where another cannot be written.

        Raises BrokenPipeError where the reader of standard output has left, and PicklestepError where a file cannot be written.
        """
        with ExitStack() as files:
            for write in self._files if is_whole else ():
                files.callback(write)
            if self.is_left:
                raise BrokenPipeError
            for line in self.report.summary():
                print(line, file=self.summary)
            self.summary.flush()
            sys.stdout.flush()  # (one of the files may be standard output)


def _check(paths: Sequence[str], names: Optional[str]) -> None:
    """Raises PicklestepError where a file cannot be written, or the one that is to have `names` is no list."""
    if not paths:
        return
    from ..saving import check_writable, naming
    for path in paths:
        with naming(path):
            check_writable(path)
    if names is not None:
        from .written import check_list
        with naming(names):
            check_list(names)


def _report(words: argparse.Namespace, judges: Judges) -> Report:
    """What prints: a table on a terminal, where several files are looked at."""
    if sys.stdout.isatty() and not any(getattr(words, name) for name in _IN_LINES):
        from .table import Table, wants_table
        if wants_table(words.paths):
            return Table(sys.stdout, judges, words.fail_on, words.brief)
    return Report(sys.stdout, judges, words.json, words.brief, words.fail_on)


def _paths(words: argparse.Namespace, option: str) -> List[str]:
    """The files that an option names."""
    value = getattr(words, option)
    return [] if value is None else value if isinstance(value, list) else [value]


def _reports(words: argparse.Namespace) -> List[Tuple[str, Callable[..., str]]]:
    """The files for reports, each with what makes it. Raises PicklestepError where the ending of a name says no form."""
    if not any(_paths(words, option) for option in ('report', 'junit', 'code_quality')):
        return []
    from .reports.markdown import markdown_report
    from .reports.page import html_report
    from .reports.servers import code_quality, junit
    makers: Dict[str, Callable[..., str]] = {'.html': html_report, '.htm': html_report, '.md': markdown_report}
    wanted: List[Tuple[str, Callable[..., str]]] = []
    for path in _paths(words, 'report'):
        ending = os.path.splitext(path)[1].lower()
        if ending not in makers:
            raise PicklestepError('--report wants a name that ends in .html or .md')
        wanted.append((path, makers[ending]))
    return [*wanted, *((path, junit) for path in _paths(words, 'junit')), *((path, code_quality) for path in _paths(words, 'code_quality'))]


def leave() -> None:
    """The reader of standard output has left. What is still held cannot be written, at the end of Python neither."""
    os.dup2(os.open(os.devnull, os.O_WRONLY), sys.stdout.fileno())


def _write(path: str, text: str) -> None:
    from ..saving import naming, open_text
    with naming(path), open_text(path) as file:
        file.write(text)


def _write_list(path: str, used: 'Used') -> None:
    from ..saving import naming
    from .written import write_list
    with naming(path):
        write_list(path, used)
