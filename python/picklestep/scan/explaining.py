"""`picklestep gate --explain NAME [LIST ..]`: which lines of lists have a name, and which sets of the package have one that does.

Whether a line has a name the program says: it is asked about a pickle that imports the name and does nothing more.
"""

from __future__ import annotations

import argparse
import sys
from typing import Iterable, Iterator, List, Optional, Tuple

from ..errors import PicklestepError, reason
from ..wording import shown
from .allow import SETS, placed_lines
from .entries import asked, text_of
from .names import Line

__all__ = ['main']

# Pickles that do what is no import, by the words of a list.
_OTHERS = {'persistent': b'\x80\x02X\x01\0\0\0aq\0Q.', 'buffer': b'\x80\x05\x97.'}
_EXTENSION = 'ext '
_OPCODES = ((1, b'\x82'), (2, b'\x83'), (4, b'\x84'))  # how many bytes the number of an extension has, and the opcode

Placed = Tuple[str, str, Line]


def main(words: List[str]) -> int:
    """Does what the words behind `gate` say, and answers the status."""
    given = _parser().parse_args(words)
    try:
        content = _importing(given.explain)
        if content is None:
            raise PicklestepError(f'no name of an import: {shown(given.explain)}')
        found = list(_having(placed_lines(given.LIST), content))
        sets = [placed for word in SETS for placed in _having(placed_lines([word], with_needed=False), content) if placed not in found]
    except (PicklestepError, OSError) as error:
        print(f'picklestep: {reason(error)}', file=sys.stderr)
        return 2
    if not found and (given.LIST or not sets):
        print(f'no line of {"these lists" if given.LIST else "a set"} has {shown(given.explain)}')
    for line in found:
        print(_told(line))
    for line in sets:
        print(f'the set {_told(line)}')
    return 0 if found or not given.LIST and sets else 1


def _told(placed: Placed) -> str:
    place, _, line = placed
    return shown(f'{place}: {line.entry}' + f'  # {line.note}' * bool(line.note))


def _parser() -> argparse.ArgumentParser:
    parser = argparse.ArgumentParser(prog='picklestep gate', usage='picklestep gate --explain NAME [--list LIST] [LIST ..]')
    parser.add_argument('--explain', metavar='NAME', required=True)
    parser.add_argument('--list', dest='LIST', action='append')
    parser.add_argument('LIST', nargs='*', action='extend')
    return parser


def _having(lines: Iterable[Placed], content: bytes) -> Iterator[Placed]:
    """The lines that have what a pickle imports. They are asked about one by one only where all of them together have it."""
    entries = [placed for placed in lines if placed[2].entry]
    if entries and asked(text_of(line.entry for _, _, line in entries), content):
        yield from (placed for placed in entries if asked(text_of([placed[2].entry]), content))


def _importing(name: str) -> Optional[bytes]:
    r"""A pickle that imports a name, and does nothing with it. None where it is no name.

    >>> _importing('a.b.c'), _importing('ext 300'), _importing('os')
    (b'\x80\x03ca.b\nc\nq\x00.', b'\x80\x02\x83,\x01.', None)
    """
    if name in _OTHERS:
        return _OTHERS[name]
    if name.startswith(_EXTENSION) and name[len(_EXTENSION):].isdecimal():
        return _extension(int(name[len(_EXTENSION):]))
    module, _, last = name.rpartition('.')
    return b'\x80\x03c%b\n%b\nq\0.' % (module.encode(), last.encode()) if module and last and name.isprintable() else None


def _extension(code: int) -> Optional[bytes]:
    size, opcode = next((fitting for fitting in _OPCODES if code < 1 << 8 * fitting[0]), (0, b''))
    return b'\x80\x02' + opcode + code.to_bytes(size, 'little') + b'.' if size and code else None
