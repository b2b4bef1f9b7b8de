"""Reads what is kept of a pickle: the answers of `list --json`, of `objects --json` and of `calls --json`."""

from __future__ import annotations

import contextlib
import os
from itertools import islice
from typing import Callable, Iterable, Iterator, List, NamedTuple, Optional, Sequence, Tuple

from .conversation import ITEM, elements_in
from .lines import CODE_BY_NAME, silent
from .listed import FRAME_SIZE, frames_in, whole_lines
from .object_lines import ObjectLines, read_objects
from .opcode_lines import OpcodeLines
from .program import Process
from .reaches import check_texts
from .sources import Input
from .tasks import left_out

__all__ = ['Read', 'add_items', 'read_all', 'read_answers', 'read_calls', 'read_calls_of']

# So many bytes are read of `calls`, in which a long name may stand again and again.
_MOST_CALLS = 3 << 26
_LEFT_OUT = b'{"kind":"end"}\n'
# An input of at most so many bytes is read by three runs of the program at once.
_MOST_AT_ONCE = 1 << 26
_FRAME = CODE_BY_NAME['FRAME']


class Read(NamedTuple):
    """What was read of a pickle: its opcodes, its objects, the lines of `calls --json`, and whether these are only the first."""

    lines: OpcodeLines
    objects: ObjectLines
    calls: bytes
    is_part: bool


def read_all(given: Input, lines: OpcodeLines, options: Sequence[str] = (), progress: Callable[[str], None] = silent) -> Read:
    """Reads a pickle into lines of opcodes, which may have them already. The program works on all questions at once where the input is not large. Of a
    pickle that is read unframed, `calls` comes after `list`, which says where the FRAMEs are that it leaves out."""
    of_opcodes, of_objects, of_calls = _words(options)
    is_framed = '--unframed' not in options
    with contextlib.ExitStack() as running:
        def start(words: List[str]) -> Process:
            process = Process([*words, given.path], given.files)
            running.callback(process.close)
            return process
        words = [*([] if lines.is_read else [of_opcodes]), of_objects, *([of_calls] if is_framed else [])]
        started = map(start, words)  # (it starts each where it is asked for)
        processes = iter(list(started)) if os.stat(given.path).st_size <= _MOST_AT_ONCE else started
        if not lines.is_read:
            lines.read(next(processes).blocks(), progress)
        objects = read_objects(next(processes).blocks(), progress)
        progress('calls ..')
        holes = running.enter_context(left_out(() if is_framed else _frames_of(lines)))
        calls, is_part = read_calls((next(processes) if is_framed else start([*of_calls, *holes])).blocks(),
                                    lambda: start([word for word in (*of_calls, *holes) if word != '--json']).blocks())
    return Read(lines, objects, calls, is_part)


def _frames_of(lines: OpcodeLines) -> Iterator[Tuple[int, int]]:
    """The offset and the size of each FRAME."""
    return ((lines.offset(place), FRAME_SIZE) for place in lines.with_code(_FRAME, 0, 1))


def read_calls_of(given: Input, options: Sequence[str] = ()) -> Tuple[bytes, bool]:
    """The lines of `calls --json` alone, or the first of them, and whether these are only the first."""
    words = _words(options)[2]
    with contextlib.ExitStack() as running:
        def blocks(words: List[str]) -> Iterator[bytes]:
            return running.enter_context(contextlib.closing(Process([*words, given.path], given.files).blocks()))
        frames = (frame for lines in whole_lines(blocks(['list', '--json', *options])) for frame in frames_in(lines)) if '--unframed' in options else ()
        holes = running.enter_context(left_out(frames))
        answer = read_calls(blocks([*words, *holes]), lambda: blocks([word for word in (*words, *holes) if word != '--json']))
    return answer


def _words(options: Sequence[str]) -> List[List[str]]:
    """What the program is asked about a pickle: `list`, `objects` and `calls`."""
    return [['list', '--json', *options], ['objects', '--json', *options], ['calls', '--json', *([] if '--many' in options else ['--first'])]]


def read_answers(answer: Callable[[List[str]], Optional[bytes]], lines: OpcodeLines, options: Sequence[str] = ()) -> Optional[Read]:
    """The same of what is answered at once. None where something is not, and of a pickle that is read unframed."""
    if '--unframed' in options:
        return None
    of_opcodes, *others = _words(options)
    texts = [b'' if lines.is_read else answer(of_opcodes), *map(answer, others)]
    listing, objects, calls = texts
    if listing is None or objects is None or calls is None:
        return None
    if not lines.is_read:
        lines.read([listing])
    of_calls = read_calls([calls], lambda: [answer([word for word in others[1] if word != '--json']) or b''])
    return Read(lines, read_objects([objects], silent), *of_calls)


def read_calls(blocks: Iterable[bytes], printed: Callable[[], Iterable[bytes]]) -> Tuple[bytes, bool]:
    """The lines of `calls --json`, or the first where these are very long, and whether others are left out so. `printed` gives what `calls` prints."""
    lines = bytearray()
    for block in blocks:
        lines += block
        if len(lines) > _MOST_CALLS:
            return bytes(lines[:lines.rfind(b'\n') + 1]) + _LEFT_OUT, True
    return check_texts(bytes(lines), lambda: b''.join(printed())), False


def add_items(lines: OpcodeLines, given: Input, options: Sequence[str] = ()) -> None:
    """Adds the opcodes that `list` does not have, since it ends where an opcode is refused."""
    with contextlib.closing(Process(['debug', '--json', *options, given.path], given.files, stdin=True)) as process:
        os.write(process.stdin, b'items\nquit\n')
        lines.add(islice(elements_in(process.blocks(), ITEM), len(lines), None))
