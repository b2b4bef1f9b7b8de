"""`picklestep mend FILE --save OUT`: what can be kept of a pickle that is cut off or damaged. Nothing of it is run."""

from __future__ import annotations

import argparse
import sys
from typing import Iterator, List

from .addresses import check_out, given, saved
from .errors import PicklestepError, reason
from .mending import Mended, Try, mended
from .printing import print_text
from .saving import is_same_file
from .session import Session
from .waiting import Waiting

__all__ = ['main']


def main(arguments: List[str]) -> int:
    """Writes a line for each edit, and saves the result. The status is 0 where the pickle was whole, 1 where it was mended or is followed by what
    was not read, 2 where there is no result."""
    parser = argparse.ArgumentParser(
        prog='picklestep mend', description='Makes a whole pickle from one that was cut off or damaged. Nothing of it is run.',
        epilog='Status: 0 if the pickle was whole; 1 if it was mended, or if bytes after it were not read; 2 if there is no result.')
    parser.add_argument('file', metavar='FILE', help='the pickle, or its address; it stays as it is')
    parser.add_argument('--many', action='store_true', help='FILE has several pickles that follow one another')
    parser.add_argument('--save', metavar='OUT', help='write the result to this file, which cannot be FILE')
    parser.add_argument('--choose', metavar='N', type=int, help='take try N, and not the one that keeps most')
    options = parser.parse_args(arguments)
    if is_same_file(options.file, options.save):
        print('picklestep: OUT is FILE, which stays as it is', file=sys.stderr)
        return 2
    try:
        pickle, found = given(options.file)
        if options.save is not None:
            check_out(options.save, '' if found is None else found.path)
        with Waiting():
            answer = mended(pickle, options.many, options.choose)
        print_text(''.join(f'{line}\n' for line in _tried(answer)))
        kept = (f'{answer.kept} bytes after STOP are not read (try --many)',) if answer.kept else ()
        print_text(''.join(f'{step}\n' for step in (*answer.steps, *kept)) or 'it is whole\n')
        if options.save is not None:
            with Session(answer.content, many=options.many) as session:
                session.save(options.save)
            print_text(saved(options.save, found))
    except (OSError, PicklestepError) as error:
        print(f'picklestep: {reason(error)}', file=sys.stderr)
        return 2
    return 1 if answer.steps or answer.kept else 0


def _tried(answer: Mended) -> Iterator[str]:
    """A line for each try, with what it keeps; none where there is no way but one."""
    for number, each in enumerate(answer.tries, 1):
        adds = f', adds {_lines(len(each.added))} of `calls`' if each.added else ''
        yield f'try {number} keeps {each.opcodes} opcodes{adds}: {_edits(each)}'
    if answer.tries:
        changes = f' ({answer.changes} changes were tried)' if answer.changes else ''
        yield f'try {answer.taken} is taken; --choose N takes another{changes}'


def _edits(tried: Try) -> str:
    first, *others = tried.steps
    return f'{first}, and {len(others)} more edit{"s" if len(others) > 1 else ""}' if others else first


def _lines(count: int) -> str:
    return f'{count} lines' if count > 1 else '1 line'
