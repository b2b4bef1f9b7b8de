"""The questions about a whole input: its listing, its objects, its imports and calls.

The library answers about a small one. What starts the program, and what opens containers, is imported where that is needed: it takes longer than such
an answer.
"""

from __future__ import annotations

import operator
import os
import time
from contextlib import contextmanager
from dataclasses import replace
from typing import TYPE_CHECKING, Callable, Dict, Generator, Iterable, Iterator, List, Optional, Tuple

from . import library
from .answers import Calls, Listing, Objects
from .errors import NotOpened, ProgramError
from .listed import check_whole, frames_in, last_opcode
from .opens import BETWEEN, is_taken_apart, may_have_arrays, split
from .reaches import check_texts
from .sources import Input, Source, is_read_once, small_content
from .wording import shown

if TYPE_CHECKING:
    from .addresses import Opened
    from .program import Process
    from .short_records import Member, OtherForm, ReachAnswer

__all__ = ['Asked', 'AskedOfSession', 'calls', 'calls_of', 'form', 'frames', 'frames_of', 'left_out', 'listing', 'listing_of', 'members', 'modes', 'objects', 'objects_of', 'reach']

# What lines of JSON have where an opcode was refused.
_REFUSED = b'"how":"refused"'
# More of them do not stand on a command line: a file has them.
_MOST_HOLES = 1000
# About an input of up to so many bytes the program may work ahead of who asks. (It takes some tens of times as much memory.)
_MOST_AHEAD = 1 << 24


def listing(source: Source, *, many: bool = False, unframed: bool = False, timeout: Optional[float] = None,
            memory: Optional[int] = None) -> Listing:
    """The opcodes of a pickle; with `many`, of several pickles one after another.

    With `unframed` a FRAME is an opcode like others, whose length nobody checks: a pickle that was cut off is then listed up to the cut.

    `timeout` is in seconds, and `memory` in bytes: how long the program may run, and how much address space it may take. What a file object or
    /dev/stdin takes to give its bytes is not counted. Raises ValueError where `timeout` is below 0 or above 2,147,483.

    >>> for opcode in listing(b'K\\x01K\\x02\\x86.'):
    ...     print(opcode.offset, opcode.name, opcode.argument)
    0 BININT1 1
    2 BININT1 2
    4 TUPLE2 None
    5 STOP None
    """
    with Asked(source, timeout, memory) as asked:
        return listing_of(asked, many, unframed)


def objects(source: Source, *, many: bool = False, unframed: bool = False, timeout: Optional[float] = None,
            memory: Optional[int] = None) -> Objects:
    """The objects that a pickle makes, in the order in which it makes them. `many` and `unframed` are as for `listing`.

    >>> answer = objects(b'K\\x01K\\x02\\x86.')
    >>> answer[2].kind, answer[2].parts, answer.results
    ('tuple', (0, 1), (2,))
    """
    with Asked(source, timeout, memory) as asked:
        return objects_of(asked, many, unframed)


def calls(source: Source, *, first: bool = False, memo_kept: bool = False, full: bool = False, many: bool = True,
          skip: Optional[Iterable[Tuple[int, int]]] = None, timeout: Optional[float] = None, memory: Optional[int] = None) -> Calls:
    """What pickles that follow one another import and call. Up to where the lines end, an accepted opcode without a line makes no object from
    elsewhere or from a call, and changes none.

    With `first` only the first pickle is read. With `memo_kept` they are read as by one unpickler that loads again and again, and keeps
    its memo. With `full` arguments are whole: texts of more than 64 characters, tuples of more than 16 parts. `many` changes nothing.
    `skip` has the offset and the length of bytes that are left out, in order: what is left is read, with the offsets of the source. Without it the
    numbers of arrays are left out of the file or the address of a path, where joblib wrote it, or torch before 1.6; `skipped` of the answer says
    which bytes these are.

    >>> for reach in calls(b'cposix\\nsystem\\n(X\\x02\\x00\\x00\\x00idtR.'):
    ...     print(reach.offset, reach.text)
    0 import 'posix' 'system' as #0
    23 call 'posix' 'system' ('id') as #3
    >>> [reach.offset for reach in calls(b'cposix\\nsystem\\n....(X\\x02\\x00\\x00\\x00idtR.', skip=[(14, 4)])]
    [0, 27]
    """
    with Asked(source, timeout, memory) as asked:
        return calls_of(asked, first, memo_kept, full, asked.holes() if skip is None else skip)


def form(source: Source, *, timeout: Optional[float] = None, memory: Optional[int] = None) -> Optional[OtherForm]:
    """Where a source is first in another form than one pickle that picklers write, and why; None where it is in that form.

    >>> form(b'K\\x01.') is None
    True
    >>> form(b'J\\x01\\x00\\x00\\x00.').reason
    'a number that has a shorter form'
    """
    from .verdicts import other_form
    with Asked(source, timeout, memory) as asked:
        return other_form(asked.lines(['form', '--json']))


def reach(source: Source, *, extensions: bool = False, persistent_ids: bool = False, buffers: bool = False, timeout: Optional[float] = None,
          memory: Optional[int] = None) -> ReachAnswer:
    r"""Whether any loader that begins at the first byte of a source comes to an import, a call, an extension code, a persistent id, a buffer, or
    to something from elsewhere that it fills or gives a state, whatever it does with frames. The answer is true where one may.

    The options say what the loader was given besides the bytes: extension codes, a `persistent_load`, buffers. Without them it was given what
    `pickle.load` has: nothing but the file.

    >>> bool(reach(b'\x93NUMPY\x01\x00')), reach(b'K\x01cos\nsystem\n.').offset
    (False, 2)
    >>> [bool(reach(b'P1\n.', persistent_ids=given)) for given in (False, True)]
    [False, True]
    """
    from .verdicts import reach_answer
    words = [word for word, given in (('--extensions', extensions), ('--persistent-ids', persistent_ids), ('--buffers', buffers)) if given]
    with Asked(source, timeout, memory) as asked:
        return reach_answer(asked.lines(['reach', '--json', *words]))


def members(source: Source, *, timeout: Optional[float] = None, memory: Optional[int] = None) -> Tuple[Member, ...]:
    """The members of a zip archive or a tar archive in the form in which usual writers write: all readers find exactly these, and nothing is
    unpacked; or what a file opens to that gzip or zlib packed. Raises NotOpened where it is in another form. `source` may also be the address of an
    archive in another container.

    >>> import zipfile
    >>> with zipfile.ZipFile('a.zip', 'w') as archive:
    ...     archive.writestr('a.pkl', b'N.')
    >>> members('a.zip')
    (Member(name='a.pkl', offset=35, size=2, deflated=None, address='a.zip > a.pkl'),)
    """
    from .verdicts import members_of, why_unlisted
    path = os.fsdecode(source) if isinstance(source, (str, os.PathLike)) else ''
    with Asked(source if split(path) is None else _bytes_at(path), timeout, memory, is_opened=False) as asked:
        found, end = members_of(asked.lines(['members', '--json']))
    if end['how'] != 'whole':
        raise NotOpened(why_unlisted(end))
    return tuple(replace(each, address=f'{path}{BETWEEN}{shown(each.name)}') for each in found) if path else tuple(found)


def _bytes_at(address: str) -> bytes:
    from .addresses import bytes_at
    return bytes_at(address)


def frames(source: Source, many: bool = False) -> List[Tuple[int, int]]:
    r"""What `calls` leaves out where a pickle is read unframed: the offset and the length of each FRAME.

    >>> data = b'\x80\x04\x95\x40\0\0\0\0\0\0\0cos\ngetcwd\n)R'
    >>> frames(data), calls(data, skip=frames(data)).calls
    ([(2, 9)], 1)
    """
    with Asked(source, None, None) as asked:
        return frames_of(asked, many)


def frames_of(asked: Asked, many: bool) -> List[Tuple[int, int]]:
    """The same of what is asked about."""
    return list(frames_in(check_whole(asked.lines(['list', '--json', *modes(many, True)]))))


def listing_of(asked: Asked, many: bool, unframed: bool = False) -> Listing:
    """The opcodes of what is asked about."""
    answer = Listing(asked.lines(['list', '--json', *modes(many, unframed)]))
    answer.said = asked.said
    return answer


def objects_of(asked: Asked, many: bool, unframed: bool) -> Objects:
    """The objects that it makes."""
    words = modes(many, unframed)
    answer = Objects(asked.lines(['objects', '--json', *words]))
    # (it counts opcodes and not bytes: a listing says at which offset one was refused)
    answer = answer if answer.end.how != 'refused' else Objects(answer.json, asked.refused_at(words))
    answer.said = asked.said
    return answer


def calls_of(asked: Asked, first: bool, memo_kept: bool, full: bool, skip: Iterable[Tuple[int, int]] = ()) -> Calls:
    """What it imports and calls."""
    if first and memo_kept:
        raise ValueError('first and memo_kept are two readings')
    options = ['--first'] if first else ['--memo', 'kept'] if memo_kept else []
    options += ['--full'] if full else []
    skipped = tuple((offset, size) for offset, size in skip)
    # (A listing does not read on as one unpickler does, and leaves nothing out: where that was refused only the place is known.)
    with left_out(skipped) as words:
        lines = check_texts(asked.lines(['calls', '--json', *options, *words]), lambda: asked.lines(['calls', *options, *words]))
    answer = Calls(lines)
    if _REFUSED in lines and answer.end.item is not None and not (memo_kept or skipped):
        answer = Calls(lines, asked.refused_at(modes(not first)))
    answer.skipped, answer.said = skipped, asked.said
    return answer


@contextmanager
def left_out(skip: Iterable[Tuple[int, int]]) -> Iterator[List[str]]:
    """The words for bytes that are left out."""
    holes = [(operator.index(offset), operator.index(size)) for offset, size in skip]
    if any(offset < 0 or size < 0 for offset, size in holes):
        raise ValueError('skip has offsets and lengths, which are not below 0')
    texts = [f'{offset}:{size}' for offset, size in holes]
    if len(texts) <= _MOST_HOLES:
        yield [word for text in texts for word in ('--skip', text)]
        return
    import tempfile
    with tempfile.TemporaryDirectory() as folder:
        path = os.path.join(folder, 'holes')
        with open(path, 'w', encoding='ascii') as file:
            file.writelines(f'{text}\n' for text in texts)
        yield ['--skip', f'@{path}']


def modes(many: bool, unframed: bool = False) -> List[str]:
    """The words for how an input is read."""
    return [*(['--many'] if many else []), *(['--unframed'] if unframed else [])]


class Asked:
    """A source that is asked about: a small one in this process, another as an input of the program, from when that is needed."""

    def __init__(self, source: Source, timeout: Optional[float], memory: Optional[int], is_opened: bool = True) -> None:
        """With `is_opened` what is in a container is asked about, and else the container."""
        if timeout is not None:
            from .program import check_timeout
            check_timeout(timeout)
        self._opened = _opened_in(source) if is_opened else None
        self._file = os.fsdecode(source) if self._opened is None and isinstance(source, (str, os.PathLike)) else ''
        source = source if self._opened is None else self._opened.content
        self._memory = memory
        self._timeout = timeout
        self._begun = 0.0
        self._content = small_content(source, library.MOST_BYTES) if timeout is None else None
        self._source = source if self._content is None else self._content
        self._input: Optional[Input] = None
        self._started: Dict[Tuple[str, ...], Process] = {}

    @property
    def said(self) -> Tuple[str, ...]:
        """What is said of what was opened."""
        return () if self._opened is None else self._opened.said

    def holes(self) -> Tuple[Tuple[int, int], ...]:
        """The bytes of a path that are no opcodes: the numbers of arrays. Raises OSError."""
        if self._opened is not None:
            return self._opened.skip
        if not self._file or not may_have_arrays(self._file):
            return ()
        from .addresses import arrays_of
        return arrays_of(self._file)[0]

    def answer(self, words: List[str]) -> str:
        """The text that the program writes about it with these words."""
        return self.lines(words).decode('ascii')

    def lines(self, words: List[str]) -> bytes:
        """The same as bytes."""
        answer = self.in_process(words)
        if answer is None:
            process = self._started.pop(tuple(words), None)
            answer = self._run(words) if process is None else process.communicate(None, None)
        if not answer.endswith(b'\n'):
            raise ProgramError('the program gave no whole answer')
        return answer

    def _run(self, words: List[str]) -> bytes:
        from .program import run_program
        given = self._given()
        self._begun = time.monotonic()
        return run_program([words[0], given.path, *words[1:]], given.files, timeout=self._timeout, memory=self._memory)

    def start(self, words: List[str]) -> None:
        """Lets the program work on these words already, whose lines are asked for later. That is not done where the program has a timeout, or would take
        too much memory beside others."""
        if self._content is None and self._timeout is None and self.size() <= _MOST_AHEAD:
            self._started[tuple(words)] = self._process(words)

    def refused_at(self, words: List[str]) -> Optional[int]:
        """The offset of the opcode that is refused, which a listing by these words ends in."""
        last = last_opcode(self.blocks(['list', '--json', *words]))
        return None if last is None else int(last['offset'])

    def blocks(self, words: List[str]) -> Generator[bytes, None, None]:
        """The text that the program writes with these words, some of it at a time. (Who ends before its end closes this.)"""
        answer = self.in_process(words)
        if answer is not None:
            yield answer
        else:
            yield from self._blocks_of(self._process(words))

    @contextmanager
    def begun(self, words: List[str]) -> Iterator[Iterable[bytes]]:
        """The same, of a program that works from now on, and not only when the text is read."""
        answer = self.in_process(words)
        if answer is not None:
            yield [answer]
            return
        process = self._process(words)
        try:
            yield self._blocks_of(process)
        finally:
            process.close()

    def _blocks_of(self, process: Process) -> Generator[bytes, None, None]:
        yield from process.blocks(self._left())

    def size(self) -> int:
        """How many bytes it has."""
        return self._given().size() if self._content is None else len(self._content)

    def _left(self) -> Optional[float]:
        """The time that is left, in seconds."""
        self._begun = self._begun or time.monotonic()
        return None if self._timeout is None else max(0.0, self._timeout - (time.monotonic() - self._begun))

    def _process(self, words: List[str]) -> Process:
        from .program import Process
        given = self._given()
        return Process([words[0], given.path, *words[1:]], given.files, self._memory)

    def in_process(self, words: List[str]) -> Optional[bytes]:
        return None if self._content is None else library.answer(words, self._content, self._memory)

    def _given(self) -> Input:
        if self._input is None:
            self._input = self._made_input()
        return self._input

    def _made_input(self) -> Input:
        # (A FIFO is read once, and a second question would wait for ever. With a timeout it is the program that waits for its writer.)
        return Input(self._source, own=self._timeout is None and is_read_once(self._source))

    def __enter__(self) -> Asked:
        return self

    def __exit__(self, *error: object) -> None:
        for process in self._started.values():
            process.close()
        if self._input is not None:
            self._input.close()


def _opened_in(source: Source) -> Optional[Opened]:
    """The pickle in a container, or at an address. None where the source is read as it is."""
    if not isinstance(source, (str, os.PathLike)) or not is_taken_apart(os.fsdecode(source)):
        return None
    from .addresses import opened
    return opened(os.fsdecode(source))


class AskedOfSession(Asked):
    """A pickle as the edits of a session leave it, which is made when it is needed: of one that is not `small` the library is not asked."""

    def __init__(self, made: Callable[[], bytes], small: bool, timeout: Optional[float], memory: Optional[int]) -> None:
        super().__init__(b'', timeout, memory)
        self._is_small = small and timeout is None
        self._made = made
        self._whole: Optional[bytes] = None

    def _bytes(self) -> bytes:
        if self._whole is None:
            self._whole = self._made()
        return self._whole

    def in_process(self, words: List[str]) -> Optional[bytes]:
        return library.answer(words, self._bytes(), self._memory) if self._is_small else None

    def _made_input(self) -> Input:
        return Input(self._bytes())
