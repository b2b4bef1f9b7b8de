"""The command line."""

from __future__ import annotations

import io
import json
import os
import re
import sys
from contextlib import closing, suppress
from itertools import chain
from types import SimpleNamespace
from typing import TYPE_CHECKING, Any, Dict, Generator, Iterable, Iterator, List, Optional, TextIO, Tuple, Union, cast

from ..errors import PicklestepError
from ..opens import is_at_server, split
from ..place import find_program
from ..waiting import with_progress
from ..wording import shown
from .allow import SETS
from .files import NoNames, find_files
from .looking import Options, is_unchanged, is_url, look, work_on
from .outputs import Output, leave
from .results import Result, from_json
from .settings import Settings
from .severity import FAILING

if TYPE_CHECKING:
    import argparse
    from .stores.server import Task

__all__ = ['Work', 'escape_names', 'main', 'scan_words']

# The status of a program that SIGPIPE ended, as a shell gives it.
_OF_NO_READER = 128 + 13
_UNITS = {'': 1, 'K': 1 << 10, 'M': 1 << 20, 'G': 1 << 30}
# What is not done with --follow, which looks at one value after another without end.
_NOT_FOLLOWED = ('brief', 'jobs', 'cluster', 'resume', 'sample', 'null')
# What says something of the keys of a server alone.
_OF_SERVERS = ('match', 'sample')


def _bytes(text: str) -> int:
    """A number of bytes, with K, M or G after it where it counts these."""
    match = re.fullmatch(r'([0-9]+)([KMG]?)', text.upper())
    if match is None:
        import argparse
        raise argparse.ArgumentTypeError(f'{text!r} is no number of bytes')
    return int(match[1]) * _UNITS[match[2]]


def _positive(text: str) -> int:
    try:
        number = int(text)
    except ValueError:
        number = 0
    if number < 1:
        import argparse
        raise argparse.ArgumentTypeError(f'{text!r} is no whole number above 0')
    return number


class _Defaults:
    """What a parser finds where only names are given. (To make one takes longer than to look at a file.)"""

    def __init__(self) -> None:
        self.found = SimpleNamespace()

    def add_argument(self, name: str, **said: Any) -> None:
        """Takes an option as a parser does."""
        default = said.get('default', False if said.get('action') == 'store_true' else None)
        setattr(self.found, name.lstrip('-').replace('-', '_'), default.copy() if isinstance(default, list) else default)


_Taking = Union['argparse.ArgumentParser', _Defaults]


def _parser(fewest: str = '+') -> argparse.ArgumentParser:
    """The options and names. `fewest` is how many names there are to be, as argparse has it."""
    import argparse
    parser = argparse.ArgumentParser(
        prog='picklestep scan', description='Prints what the pickles in files import and call, with ! before what to look at first. Nothing of them is run '
                                           'or loaded.',
        epilog='Status: 0 if nothing is marked; 1 if something is found; 3 if nothing is found, and something could not be looked at; 2 if it '
               'could not begin, or could not write; 130 after Ctrl-C; 141 if whoever read the output has left. Good files have marks too, and a file '
               'without a mark may still do harm.')
    _add_options(parser, fewest)
    return parser


def _add_options(parser: _Taking, fewest: str = '+') -> None:
    parser.add_argument('paths', metavar='PATH', nargs=fewest,
                        help='a file, a folder, a server (redis://, memcached://, postgresql://, mysql://), a URL for fsspec, an address that '
                             'scan printed, or - for names on standard input')
    _add_lists(parser)
    _add_policy(parser)
    parser.add_argument('--json', action='store_true', help='print a line of JSON for each file, and the summary on standard error')
    parser.add_argument('--report', metavar='FILE', action='append',
                        help='also write a report for people to FILE, whose name ends in .html or .md. It may be given again, for another FILE')
    parser.add_argument('--sarif', metavar='FILE', help='also write what is marked to FILE, as SARIF 2.1.0')
    parser.add_argument('--junit', metavar='FILE', help='also write a test for each file to FILE, as JUnit writes it')
    parser.add_argument('--code-quality', metavar='FILE', help="also write what is marked to FILE, in the form of GitLab's code quality")
    parser.add_argument('--fail-on', metavar='SEVERITY', choices=FAILING,
                        help=f'end with status 1 only for findings of this severity or a worse one: {", ".join(FAILING)}')
    parser.add_argument('--brief', action='store_true', help='print only what is marked, and the summary')
    parser.add_argument('--lines', action='store_true', help="print all lines of the program about each pickle")
    parser.add_argument('--full', action='store_true', help='print whole arguments: neither texts nor tuples are cut')
    parser.add_argument('--everywhere', action='store_true',
                        help='look for pickles at each offset of a file, in texts that stand for bytes, and inside of the texts and bytes of pickles')
    parser.add_argument('--jobs', metavar='N', type=_positive, default=1, help='look at N files at once')
    parser.add_argument('--cluster', metavar='ADDRESS', help='let the Dask cluster at this address look at the files')
    parser.add_argument('--resume', metavar='LOG', help='leave out the files that an earlier run with --json wrote to LOG')
    parser.add_argument('--match', metavar='PATTERN', help='look only at keys of a server that match')
    parser.add_argument('--sample', metavar='N', type=_positive, help='look only at the first N keys that a server lists')
    parser.add_argument('--follow', action='store_true', help='look at new values of a Redis server as they come, and print a line of JSON for each')
    parser.add_argument('--null', action='store_true', help='each name on standard input ends in a NUL byte')
    _add_limits(parser)


def _add_limits(parser: _Taking) -> None:
    parser.add_argument('--max-bytes', metavar='N', type=_bytes, help='unpack at most N bytes of a file (1G)')
    parser.add_argument('--max-members', metavar='N', type=_positive, help='look at N members of a file at most (100000)')
    parser.add_argument('--max-depth', metavar='N', type=_positive, help='open containers in one another to this depth (4)')
    parser.add_argument('--max-seconds', metavar='N', type=_positive, help='take at most N seconds of processor time for a file (60)')
    parser.add_argument('--max-memory', metavar='N', type=_bytes, help='let all processes take at most N bytes of memory for a file (1G)')
    parser.add_argument('--max-lines', metavar='N', type=_positive, help='read at most N lines of the answers about a file (10000000)')


def _add_lists(parser: _Taking) -> None:
    parser.add_argument('--allow', metavar='FILE', action='append', default=[],
                        help='mark each import that the list FILE does not allow. FILE may also be one of the sets '
                             f'{", ".join(SETS)}. You may give several lists: a name is allowed if one of them allows it')
    parser.add_argument('--deny', metavar='FILE', action='append', default=[], help='mark the names of the list FILE, even if they are allowed')
    parser.add_argument('--no-known', action='store_true', help='do not mark a name only because it is known to run what it is given')
    parser.add_argument('--write-allow', metavar='FILE',
                        help='write a list for --allow with the names that these files import. If FILE is there, add to it the names that it lacks')


def _add_policy(parser: _Taking) -> None:
    parser.add_argument('--policy', metavar='FILE', help='follow the policy FILE. Without it a picklestep.toml that is found in the folder of the files, '
                                                         'or in one above it, adds marks and takes none away')
    parser.add_argument('--no-policy', action='store_true', help='follow no policy')
    parser.add_argument('--baseline', metavar='FILE', help='do not mark what the baseline FILE has')
    parser.add_argument('--write-baseline', metavar='FILE', help='write what is marked today to FILE, for --baseline')


def scan_words(words: List[str]) -> argparse.Namespace:
    """What the words say. All behind the first `--` are names of files, whatever they look like: argparse, where options and names come in
    any order, would take some for options."""
    if words and not any(word.startswith('-') for word in words):
        defaults = _Defaults()
        _add_options(defaults)
        defaults.found.paths = words[:]
        return cast('argparse.Namespace', defaults.found)
    at = words.index('--') if '--' in words else len(words)
    files = words[at + 1:]
    parsed = _parser('*' if files else '+').parse_intermixed_args(words[:at])
    parsed.paths = [*(parsed.paths or ()), *(os.path.join('.', name) if name == '-' else name for name in files)]
    return parsed


def _earlier(log: Optional[str]) -> Dict[str, Result]:
    """The results of an earlier run. A line that is cut, as the last may be, counts as not there, and a file that could not be read is
    tried again."""
    earlier: Dict[str, Result] = {}
    if log is None:
        return earlier
    with open(log, encoding='utf-8', errors='replace') as lines:
        for line in lines:
            try:
                result = from_json(json.loads(line))
                if result.error is None and result.left is None:
                    earlier[result.path] = result
            except (ValueError, KeyError, TypeError, AttributeError, RecursionError):
                continue
    return earlier


def _end_cut_line(log: str, out: TextIO) -> None:
    """Ends the log's last line where it is cut and the output goes on in that file, so that the next line is one of its own."""
    with open(log, 'rb') as file:
        size = file.seek(0, os.SEEK_END)
        file.seek(max(0, size - 1))
        is_cut = file.read() not in (b'', b'\n')
        try:
            other = os.fstat(out.fileno())
        except OSError:  # an output that is no file, such as one in memory
            return
        if is_cut and os.path.samestat(os.fstat(file.fileno()), other):
            out.write('\n')


def _is_same(path: str, earlier: Result) -> bool:
    """Whether a file is still the one that was looked at. That of a URL is taken to be."""
    if is_url(path):
        return True
    try:
        return is_unchanged(path, earlier)
    except OSError:
        return False


class Work:
    """All that the words name: the files, the servers, and results of paths at which there is nothing to look at. Raises NoNames."""

    def __init__(self, words: argparse.Namespace) -> None:
        self._words = words
        self._at = [word for word in words.paths if split(word) is not None]
        others = [word for word in words.paths if word not in self._at]
        self._servers = [word for word in others if is_at_server(word)]
        self._found = find_files((word for word in others if not is_at_server(word)), b'\0' if words.null else b'\n')
        self.paths = self._found.paths
        self.results_without_files = self._found.results

    def results(self, settings: Settings, paths: List[str]) -> Generator[Result, None, None]:
        """The results of some of the files, of what is opened and of the keys of servers, as they come. A terminal shows how far it is."""
        opened = self._found.opened
        # (Where a server does not answer, the result that says so comes when the others have come.)
        failed: List[Result] = []
        keys, count_of_keys = self._keys(failed) if self._servers else (iter(()), 0)
        first = chain((_look_at(word, settings.options) for word in self._at), (look(path, settings.options) for path in opened))
        results = _in_a_row(first, self._results(settings, paths, keys), failed)
        files = len(paths) + len(opened) + len(self._at)
        total = files + count_of_keys
        what = 'files' if not self._servers else 'files and keys' if files else 'keys'
        with closing(with_progress(results, total, what)) as shown, closing(results):
            yield from shown

    def _keys(self, failed: List[Result]) -> Tuple[Iterator[Task], int]:
        """The keys of the servers, and how many there are. Results of servers that do not answer are added to a list."""
        from .stores.address import Address
        from .stores.server import Wanted, tasks, total_of
        servers, wanted = list(map(Address, self._servers)), Wanted(self._words.match, self._words.sample)
        count = sum(total_of(server, wanted) for server in servers)
        return chain.from_iterable(tasks(server, wanted, failed.append) for server in servers), count

    def _results(self, settings: Settings, paths: List[str], keys: Iterable[Task]) -> Generator[Result, None, None]:
        """The results of files and keys, of those that are looked at in one way after another. Keys come with the first of them."""
        jobs, cluster = self._words.jobs, self._words.cluster
        for number, (options, group) in enumerate(settings.groups(paths) or [(settings.options, [])]):
            tasks_of: Iterable[Union[str, Task]] = chain(group, keys if number == 0 else ())
            with closing(_looked_at(tasks_of, options, jobs, cluster)) as results:
                yield from results


def _looked_at(tasks: Iterable[Union[str, Task]], options: Options, jobs: int, cluster: Optional[str]) -> Generator[Result, None, None]:
    """The results of files and keys, as they are ready. (What lets others look at them is imported where there are some.)"""
    if cluster is not None:
        from .cluster import look_on_cluster
        return look_on_cluster(tasks, options, cluster)
    if jobs > 1:
        from .pool import look_at_all
        return look_at_all(tasks, options, jobs)
    return (work_on(task, options) for task in tasks)


def _look_at(address: str, options: Options) -> Result:
    from .finder import look_at  # (most runs look at files)
    return look_at(address, options)


def _in_a_row(first: Iterable[Result], results: Generator[Result, None, None], others: List[Result]) -> Generator[Result, None, None]:
    """Results, one kind behind another; the last are those that were added to a list by then."""
    with closing(results):
        yield from first
        yield from results
    yield from others


def _output(words: argparse.Namespace, settings: Settings) -> Output:
    words.fail_on = settings.fail_on
    return Output(words, settings.judges, settings.options, settings.about())


def _follow(words: argparse.Namespace) -> int:
    """Looks at new values until Ctrl-C, or until its reader has left: other files are written then, since this run has no other end."""
    if len(words.paths) != 1 or not is_at_server(words.paths[0]):
        raise PicklestepError('--follow wants one server')
    parser = _parser()
    for name in _NOT_FOLLOWED:
        if getattr(words, name) != parser.get_default(name):
            raise PicklestepError(f'--follow takes no --{name}')
    words.json = True
    from .stores.address import Address
    from .stores.follow import follow  # (with what it asks a server by)
    from .stores.server import Wanted
    settings = Settings(words)
    output = _output(words, settings)
    with suppress(KeyboardInterrupt):
        for result in follow(Address(words.paths[0]), settings.options, Wanted(words.match)):
            output.add(result)
            if output.is_left:
                break
    output.end(is_whole=True)
    return 130


def _refuse_useless(words: argparse.Namespace) -> None:
    """Refuses options that would do nothing with these paths."""
    if not any(map(is_at_server, words.paths)):
        for name in _OF_SERVERS:
            if getattr(words, name) is not None:
                raise PicklestepError(f'--{name} wants a server')
    if words.null and '-' not in words.paths:
        raise NoNames('--null wants -, which stands for names on standard input')


def _scan(words: argparse.Namespace) -> int:
    _refuse_useless(words)
    settings = Settings(words)
    output = _output(words, settings)
    earlier = _earlier(words.resume)
    if words.resume is not None and words.json:
        _end_cut_line(words.resume, sys.stdout)
    paths: List[str] = []
    interrupted = False
    try:
        work = Work(words)
        for result in work.results_without_files:
            output.add(result)
        for path in work.paths:
            if path in earlier and settings.judges.has_asked(earlier[path]) and _is_same(path, earlier[path]):
                output.add(earlier[path], is_new=False)
            else:
                paths.append(path)
        with closing(work.results(settings, paths)) as results:
            for result in results:
                output.add(result)
    except KeyboardInterrupt:
        interrupted = True
    if interrupted:
        print(f'interrupted: this is what was found in {output.report.counts["files"]} files', file=output.summary)
    output.end(is_whole=not interrupted)
    return 130 if interrupted else output.report.status


def escape_names() -> None:
    """Lets the streams take names of files that hold what the encoding of the terminal does not."""
    for stream in (sys.stdout, sys.stderr):
        if isinstance(stream, io.TextIOWrapper):
            stream.reconfigure(errors='backslashreplace')


def main(words: Optional[List[str]] = None) -> int:
    """Does what the words say, and answers the status."""
    parsed = scan_words(sys.argv[1:] if words is None else words)
    escape_names()
    try:
        find_program()
        return _follow(parsed) if parsed.follow else _scan(parsed)
    except BrokenPipeError:
        leave()
        return _OF_NO_READER
    except OSError as error:
        why = error.strerror or str(error)
        print(f'picklestep: {why if error.filename is None else f"cannot open {shown(str(error.filename))}: {why}"}', file=sys.stderr)
    except (PicklestepError, UnicodeDecodeError) as error:
        print(f'picklestep: {error}', file=sys.stderr)
    return 2
