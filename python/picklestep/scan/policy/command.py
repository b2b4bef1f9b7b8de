"""`picklestep policy check`: what is odd about a policy, and what nothing uses of it."""

from __future__ import annotations

import argparse
import sys
from contextlib import closing
from itertools import chain
from typing import List, Optional

from ...errors import PicklestepError
from ...wording import shown
from ..command import Work, escape_names, scan_words
from ..files import NoNames
from ..judges import Given
from ..settings import Settings, chosen_policy
from ..wording import count_of
from .checks import Used, faults
from .judging import PolicyJudges
from .model import BadPolicy, Policy

__all__ = ['main']

_OF_CTRL_C = 130


def _parser() -> argparse.ArgumentParser:
    parser = argparse.ArgumentParser(
        prog='picklestep policy', description='Says what is odd about a policy: exceptions that have ended, and rules that another one hides. If there are PATHs, it '
                                             'looks at them as scan does, and also says which rules and exceptions nothing uses.',
        epilog='Status: 0 if there is nothing to say, 1 if there is, 2 if the policy cannot be read, 130 after Ctrl-C.')
    parser.add_argument('action', choices=('check',), help='check the policy')
    parser.add_argument('paths', metavar='PATH', nargs='*', help='what the policy is for: a file, a folder, a server, a URL')
    parser.add_argument('--policy', metavar='FILE', help='the policy; without it the picklestep.toml of this folder, or of the nearest one above it')
    return parser


def main(words: Optional[List[str]] = None) -> int:
    """Does what the words say, and answers the status."""
    parsed = _parser().parse_intermixed_args(words)  # (in any order)
    escape_names()
    try:
        policy = chosen_policy(parsed.policy, parsed.paths, way_out='')
        if policy is None:
            raise BadPolicy('there is no picklestep.toml here, nor in a folder above: name one by --policy')
        judges = PolicyJudges(policy, Given())
        judges.all_judges()  # (which reads all of its lists)
        lines = list(faults(policy, _used(policy, parsed.paths), judges.today))
    except OSError as error:
        print(f'picklestep: {shown(str(error.filename or ""))}: {error.strerror}', file=sys.stderr)
        return 2
    except (PicklestepError, NoNames) as error:
        print(f'picklestep: {error}', file=sys.stderr)
        return 2
    except KeyboardInterrupt:
        return _OF_CTRL_C
    for line in lines:
        print(line)
    print(f'{shown(str(policy.path))}: {count_of(len(policy.rules), "rule")}, {count_of(len(policy.exceptions), "exception")}, '
          f'{count_of(len(lines), "thing to say", "things to say")}')
    return int(bool(lines))


def _used(policy: Policy, paths: List[str]) -> Optional[Used]:
    """What the paths use of a policy, as it judges them where it is named. None without paths."""
    if not paths:
        return None
    scan = scan_words(['--policy', str(policy.path), '--', *paths])
    settings = Settings(scan)
    assert isinstance(settings.judges, PolicyJudges)
    used, work = Used(settings.judges), Work(scan)
    with closing(work.results(settings, work.paths)) as results:
        for result in chain(work.results_without_files, results):
            used.add(result)
    return used
