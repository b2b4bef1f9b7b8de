"""The words of `picklestep source`."""

from __future__ import annotations

import argparse
import sys
from typing import List

from ..addresses import given
from ..errors import PicklestepError, reason
from ..printing import print_text
from ..waiting import Waiting
from .code import source

__all__ = ['main']


def _count(text: str) -> int:
    if not text.isdecimal():
        raise argparse.ArgumentTypeError(f'{text!r} is no number of opcodes')
    return int(text)


def _parser() -> argparse.ArgumentParser:
    parser = argparse.ArgumentParser(
        prog='picklestep source', description='Prints a pickle as Python source. Read it, and do not run it: running it does what loading the pickle does.',
        epilog='Status: 0 if the pickle was read to its STOP, or as far as --first says; 1 if reading ended early; 2 if there is no source.')
    parser.add_argument('file', metavar='FILE', help='the pickle, or its address')
    parser.add_argument('--many', action='store_true', help='FILE has several pickles that follow one another')
    parser.add_argument('--unframed', action='store_true', help='ignore the lengths of frames, so that a pickle that was cut off is read to the cut')
    parser.add_argument('--first', metavar='N', type=_count, help='read only the first N opcodes, and print the stack after them')
    parser.add_argument('--full', action='store_true', help='print long texts, lists and dictionaries whole, by the proved program (with --first by Python)')
    return parser


def main(arguments: List[str]) -> int:
    """Writes the source of a pickle. The status is 1 where reading ended early, and 2 where there is no answer."""
    options = _parser().parse_args(arguments)
    if options.full and options.first is None:
        return _by_program(options)
    try:
        with Waiting():
            answer = source(given(options.file)[0], full=options.full, many=options.many, unframed=options.unframed, first=options.first)
        print_text(answer.text)
    except (OSError, PicklestepError) as error:
        print(f'picklestep: {reason(error)}', file=sys.stderr)
        return 2
    return 0 if answer.end.is_stopped or answer.end.how == 'part' else 1


def _by_program(options: argparse.Namespace) -> int:
    """The same by the program, which shows everything whole, and whose answer is proved."""
    from ..answering import main as answer
    modes = [mode for mode, is_given in (('--many', options.many), ('--unframed', options.unframed)) if is_given]
    return answer(['source', *modes, '--', options.file])
