"""`picklestep rename OLD NEW FILE..`: imports get other names, in many files. Nothing of them is run."""

from __future__ import annotations

import argparse
import sys
from collections import deque
from contextlib import closing
from itertools import chain
from typing import Dict, Generator, List, Optional, Sequence, Tuple

from .. import library
from ..edits import EditError
from ..errors import PicklestepError, reason
from ..place import find_program
from ..printing import print_text
from ..waiting import counted, with_progress
from ..wording import count_of, shown
from .files import Done, Renames, Sought, find, targets_of
from .pairs import Pairs, pairs_in, pairs_of

__all__ = ['main']

_INTERRUPTED = 130
_HINT = 'nothing is imported from {0}: where {1} is a name in the module {2}, write {2}:{1}'


def main(arguments: List[str]) -> int:
    """Writes a line for each import that gets another name, and for each file that is left, and then how many there were."""
    parser = _parser()
    at = arguments.index('--') if '--' in arguments else len(arguments)
    options = parser.parse_intermixed_args(arguments[:at])
    words = [*options.words, *arguments[at + 1:]]
    if options.in_place and options.save is not None:
        parser.error('--in-place and --save are two ways')
    if options.save == '':
        parser.error('--save takes a folder')
    try:
        find_program()
        pairs, files = _read(parser, options.pairs, words)
        sought = find(files)
        targets = None if options.save is None else targets_of(sought, options.save)
        if options.dry_run:
            options.in_place, targets = False, None
        return _rename(sought, Renames(pairs, sought.named, options.in_place, targets), options, words)
    except (EditError, OSError, PicklestepError) as error:
        print(f'picklestep: {shown(reason(error))}', file=sys.stderr)
        return 2


def _parser() -> argparse.ArgumentParser:
    parser = argparse.ArgumentParser(
        prog='picklestep rename', usage='%(prog)s OLD NEW FILE.. [--in-place | --save DIR] [--dry-run] [--jobs N]\n'
                                        '       %(prog)s --pairs PAIRS FILE.. [--in-place | --save DIR] [--dry-run] [--jobs N]',
        description='Gives other names to what the pickles in files and folders import, and changes nothing else. Nothing of them is run. Without '
                    '--in-place and --save nothing is written. OLD is MODULE (with all modules below it), MODULE.* (those below it alone), '
                    'MODULE:NAME (one name), MODULE:* (all names in it) or MODULE:NAME.* (names below that name), and NEW has the same form; for '
                    'MODULE:NAME it may be a name alone.',
        epilog='Status: 0 if all was done; 1 if something was left as it was; 2 if it could not begin; 130 after Ctrl-C.')
    parser.add_argument('words', metavar='OLD NEW FILE', nargs='*', help='the old name, the new one, and files or folders')
    parser.add_argument('--pairs', metavar='PAIRS', help='take pairs from the file PAIRS: OLD NEW, a line each. The first that fits an import counts')
    parser.add_argument('--in-place', action='store_true', help='replace each file')
    parser.add_argument('--save', metavar='DIR', help='write the files that get other names into the folder DIR')
    parser.add_argument('--dry-run', action='store_true', help='only say what would be done')
    parser.add_argument('--jobs', metavar='N', type=_positive, default=1, help='work at N files at once')
    return parser


def _positive(text: str) -> int:
    if not text.isascii() or not text.isdigit() or not int(text):
        raise argparse.ArgumentTypeError(f'{text!r} is no whole number above 0')
    return int(text)


def _read(parser: argparse.ArgumentParser, path: Optional[str], words: Sequence[str]) -> Tuple[Pairs, Sequence[str]]:
    """The pairs, and the files. Raises EditError where a pair is none."""
    files = words if path is not None else words[2:]
    if not files:
        parser.error('it is: OLD NEW FILE.. or --pairs PAIRS FILE..')
    if path is None:
        return pairs_of([(words[0], words[1])]), files
    try:
        with open(path, encoding='utf-8-sig') as file:  # (some editors begin a file with a mark of its encoding)
            return pairs_in(file.read()), files
    except UnicodeDecodeError:
        raise EditError(f'cannot read {path}: it is not UTF-8') from None
    except EditError as error:
        raise EditError(f'{path}: {error}') from None


def _rename(sought: Sought, work: Renames, options: argparse.Namespace, words: Sequence[str]) -> int:
    """Does it, says what was done, and answers the status."""
    counts = _Counts(len(sought.paths) + len(sought.left))
    is_interrupted = False
    try:
        with closing(_all_done(sought, work, options.jobs)) as results:
            for done in chain(sought.left, results):
                counts.add(done)
    except KeyboardInterrupt:
        is_interrupted = True
    print_text(counts.last_line(is_written=work.in_place or work.targets is not None, is_chosen=options.dry_run, is_interrupted=is_interrupted))
    old = words[0]
    if not counts.imports and options.pairs is None and '.' in old and ':' not in old and not old.endswith('.*'):
        module, _, name = old.rpartition('.')
        print(f'picklestep: {shown(_HINT.format(old, name, module))}', file=sys.stderr)
    return _INTERRUPTED if is_interrupted else 1 if counts.left else 0


def _all_done(sought: Sought, work: Renames, jobs: int) -> Generator[Done, None, None]:
    """What was done with the files, in their order."""
    if jobs == 1 or len(sought.paths) == 1:
        yield from counted(map(work.do, sought.paths), len(sought.paths))
        return
    from ..pool import do_all  # (one process alone needs nothing of it)
    library.load()  # (the copies of this process have it then)
    waiting: Dict[str, Done] = {}
    left = deque(sought.paths)
    with closing(do_all(sought.paths, work, jobs)) as results, closing(with_progress(results, len(sought.paths))) as shown_results:
        for done in shown_results:
            waiting[done.path] = done
            while left and left[0] in waiting:
                yield waiting.pop(left.popleft())


class _Counts:
    """What was done, a line each, and how often."""

    def __init__(self, total: int) -> None:
        self.imports = 0
        self.left = 0
        self._total = total
        self._files = 0
        self._others = 0

    def add(self, done: Done) -> None:
        """Says what was done with a file, or with the members of an archive."""
        self._others += done.is_other
        self._files += any(each.imports for each in (done, *done.members))
        lines: List[str] = []
        for part in (done, *done.members):
            self.imports += len(part.imports)
            self.left += bool(part.left)
            lines += [f'{part.path}: {each}' for each in part.imports] or ([f'{part.path}: left as it was: {part.left}'] if part.left else [])
        if lines:
            print_text(''.join(f'{shown(line)}\n' for line in lines))

    def last_line(self, is_written: bool, is_chosen: bool, is_interrupted: bool) -> str:
        """How much it was. What nobody has chosen to leave unwritten is said."""
        done = 'renamed' if is_written else 'would be renamed'
        parts = [f'{count_of(self.imports, "import")} {done} in {self._files} of {count_of(self._total, "file")}']
        parts += [f'{self.left} left as {"it was" if self.left == 1 else "they were"}'] if self.left else []
        parts += [f'{count_of(self._others, "other file")} without the old names'] if self._others else []
        parts += ['interrupted'] if is_interrupted else []
        parts += [] if is_written or is_chosen else ['nothing is written without --in-place or --save DIR']
        return f'{"; ".join(parts)}\n'
