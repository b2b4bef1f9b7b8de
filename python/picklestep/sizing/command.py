"""The words of `picklestep size`."""

from __future__ import annotations

import argparse
import json
import sys
from dataclasses import asdict
from pathlib import Path
from typing import Any, Dict, Iterator, List, Sequence, Tuple

from ..addresses import check_out, given
from ..errors import PicklestepError, reason
from ..printing import print_text
from ..saving import is_same_file, naming, written_whole
from ..waiting import Waiting
from ..wording import count_of
from .measure import MOST, Measured, measured, sizes_of
from .records import PathSize, Saving, Sized, Sizes
from .savings import NEWEST, OLDEST
from .treemap import svg

__all__ = ['heading', 'main']

_MOST_ROWS = 1000
# A path of more letters is shown by its beginning and its end.
_MOST_OF_PATH = 200
# What each kind of overhead is.
_OVERHEAD = {'memo': 'opcodes of the memo', 'marks': 'MARK', 'fill': 'what fills containers and gives states', 'frames': 'FRAME',
             'protocol': 'PROTO and STOP', 'stack': 'what throws away or doubles', 'views': 'READONLY_BUFFER of what is read-only'}
_SAVINGS = {'optimize': 'picklestep optimize', 'out of band': 'buffers out of band'}


def _rows(text: str) -> int:
    if not text.isdecimal() or not 0 < int(text[:7]) <= _MOST_ROWS:
        raise argparse.ArgumentTypeError(f'{text!r} is no number of rows from 1 to {_MOST_ROWS:,}')
    return int(text)


def _parser() -> argparse.ArgumentParser:
    parser = argparse.ArgumentParser(
        prog='picklestep size', description='Prints where the bytes of a pickle go: in which opcodes, for what, at which path and in which objects. It also '
        'says what could be saved. Nothing of it is run.', epilog='Status: 0 if the pickle was read to its STOP; 1 if reading ended early; 2 if there is no answer.')
    parser.add_argument('file', metavar='FILE', help='the pickle, or its address')
    parser.add_argument('--many', action='store_true', help='FILE has several pickles that follow one another')
    parser.add_argument('--unframed', action='store_true', help='ignore the lengths of frames, so that a pickle that was cut off is read to the cut')
    parser.add_argument('--rows', metavar='N', type=_rows, default=MOST, help=f'print at most N rows of each table ({MOST})')
    parser.add_argument('--protocol', metavar='N', type=int, choices=range(OLDEST, NEWEST + 1), default=NEWEST,
                        help=f'say what a pickler of protocol N would save, from {OLDEST} to {NEWEST} ({NEWEST})')
    parser.add_argument('--json', action='store_true', help='print an object of JSON in each line')
    parser.add_argument('--svg', metavar='OUT', help='also write a drawing: each object has an area as large as its bytes')
    return parser


def main(arguments: List[str]) -> int:
    """Writes where the bytes go. The status is 1 where reading ended early, and 2 where there is no answer or it cannot be written."""
    options = _parser().parse_args(arguments)
    if is_same_file(options.file, options.svg):
        print('picklestep: OUT is FILE, which stays as it is', file=sys.stderr)
        return 2
    try:
        with Waiting():
            pickle, opened = given(options.file)
            if options.svg is not None:
                check_out(options.svg, '' if opened is None else opened.path)
            found = measured(pickle, options.many, options.unframed)
            answer = sizes_of(found, options.rows, options.protocol)
        if options.svg is not None:
            _write(found, options.svg)
        lines = _in_json(answer) if options.json else _in_words(answer, options.rows)
        print_text(''.join(f'{line}\n' for line in lines))
    except (OSError, PicklestepError) as error:
        print(f'picklestep: {reason(error)}', file=sys.stderr)
        return 2
    return 0 if answer.end.is_stopped else 1


def _write(found: Measured, path: str) -> None:
    with naming(path), written_whole(Path(path), 'utf-8') as file:
        file.write(svg(found))


# --- For people ---

def heading(answer: Sizes) -> Iterator[str]:
    """How many bytes there are, and of what."""
    protocol = '' if answer.protocol is None else f', protocol {answer.protocol}'
    yield (f'{count_of(answer.size, "byte")}: {count_of(answer.objects_count, "object")} of {count_of(answer.objects, "byte")}, '
           f'{answer.size - answer.unread - answer.objects} of overhead{protocol}')
    if answer.unread:
        yield f'{count_of(answer.unread, "byte")} not read: {_why(answer)}'
    if answer.elsewhere:
        yield f'{count_of(answer.elsewhere, "byte")} of objects that are in no result'


def _in_words(answer: Sizes, rows: int) -> Iterator[str]:
    yield from heading(answer)
    yield from _table('bytes', '', 'opcode', _of_opcodes(answer.opcodes, answer.size), rows)
    yield from _table('bytes', '', 'overhead', [(each.size, _share(each.size, answer.size), f'{_OVERHEAD[each.what]}, {each.count:,} times')
                                                for each in answer.overhead], rows)
    yield from _table('bytes', '', 'path, with all that is in it', _of_paths(answer.paths, answer.size), rows)
    yield from _table('bytes', 'at', 'largest objects', [(each.own, str(each.offset), f'{each.kind} {_path(each)}') for each in answer.largest], rows)
    yield from _table('bytes', 'times', 'written again and again', [(each.size, str(each.count), f'{each.text} at {each.offset}') for each in answer.again],
                      rows)
    if answer.memo.unused:
        taken = 'never taken' if answer.end.is_stopped else 'not taken up to there'
        yield from ('', f'memo: {answer.memo.unused:,} of {count_of(answer.memo.stored, "entry", "entries")} are {taken}: '
                    f'{count_of(answer.memo.unused_size, "byte")}')
    yield from _table('bytes', 'left', 'could be saved', [(each.size, str(each.left), _saving(each)) for each in answer.savings], rows)


def _why(answer: Sizes) -> str:
    return 'they follow the STOP' if answer.end.is_stopped else answer.end.text


def _saving(saving: Saving) -> str:
    how = _SAVINGS.get(saving.how, f'pickled again with {saving.how}')
    return how if saving.known == 'exactly' else f'{how}, {saving.known}'


def _of_opcodes(opcodes: Sequence[Sized], whole: int) -> List[Tuple[int, str, str]]:
    return [(each.size, _share(each.size, whole), f'{each.what}, {each.count:,} times' if each.count != 1 else each.what) for each in opcodes]


def _of_paths(paths: Sequence[PathSize], whole: int) -> List[Tuple[int, str, str]]:
    return [(each.size, _share(each.size, whole), _path(each)) for each in paths]


def _path(place: PathSize) -> str:
    path = place.path
    if len(path) <= _MOST_OF_PATH:
        return path
    return f'{path[:_MOST_OF_PATH // 2]} .. {len(path) - _MOST_OF_PATH:,} letters .. {path[-_MOST_OF_PATH // 2:]}'


def _share(part: int, whole: int) -> str:
    return f'{100 * part / whole:.1f}%'


def _table(first: str, second: str, title: str, rows: Sequence[Tuple[int, str, str]], most: int) -> Iterator[str]:
    if not rows:
        return
    yield ''
    yield f'{first:>11} {second:>7}  {title}'
    yield from (f'{size:>11} {more:>7}  {text}' for size, more, text in rows[:most])
    if len(rows) > most:
        yield f'{sum(size for size, _, _ in rows[most:]):>11} {"":>7}  .. {count_of(len(rows) - most, "row")} more'


# --- For programs ---

def _in_json(answer: Sizes) -> Iterator[str]:
    yield _json('size', size=answer.size, unread=answer.unread, opcodes=answer.count, objects=answer.objects_count, objects_size=answer.objects,
                elsewhere=answer.elsewhere, protocol=answer.protocol)
    yield from (_json('opcode', opcode=each.what, count=each.count, size=each.size) for each in answer.opcodes)
    yield from (_json('overhead', what=each.what, count=each.count, size=each.size) for each in answer.overhead)
    for kind, places in (('path', answer.paths), ('largest', answer.largest)):
        yield from (_json(kind, path=each.path, object=each.number, made=each.kind, offset=each.offset, own=each.own, size=each.size, depth=each.depth)
                    for each in places)
    yield _json('memo', **asdict(answer.memo))
    yield from (_json('again', **asdict(each)) for each in answer.again)
    yield from (_json('saving', **asdict(each)) for each in answer.savings)
    end = answer.end
    yield _json('end', how=end.how, code=end.code, text=None if end.is_stopped else end.text, offset=end.offset, status=int(not end.is_stopped))


def _json(kind: str, **fields: Any) -> str:
    kept: Dict[str, Any] = {name: value for name, value in fields.items() if value is not None}
    return json.dumps({'kind': kind, **kept}, separators=(',', ':'))
