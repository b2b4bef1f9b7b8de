"""A session: one pickle that is stepped forwards and backwards, looked at and edited."""

from __future__ import annotations

import abc
import contextlib
import html
import os
import threading
import time
import weakref
from operator import index
from pathlib import Path
from typing import ContextManager, Dict, Iterator, List, Optional, Sequence, Tuple, Union, overload

from . import conversation, library
from .addresses import check_out, opened_in
from .answers import Calls, Listing
from .arguments import ArgumentValue, encoded
from .conversation import Entry, Memo, Stack, read
from .errors import ProgramError, TimedOut
from .listed import Fields
from .listing_records import Object
from .made import object_of
from .program import Process, check_timeout, run_program
from .saving import written_whole
from .session_answers import Heap, Items, ShownObjects
from .session_records import Made, Ran, Step, Where
from .sources import Input, OwnFile, Source, is_opened, is_word, small_content
from .tasks import AskedOfSession, calls_of, frames_of, listing_of, modes

__all__ = ['SHIFTS', 'Session']

_Bytes = bytes  # (a session has a method of this name)
_SHOWN = 1000


# The edits, and how many opcodes more there are after each.
SHIFTS: Dict[str, int] = {'replace': 0, 'insert': 1, 'delete': -1, 'frame': 1, 'unframe': -1}
# How answers begin that say more than a place.
_NOTED = (conversation.REFUSED, *conversation.EDITS)
_NEWLINE = 'a line of a session cannot hold a newline'


class _Talk(abc.ABC):
    """Lines to a session and their answers, one after another. (A signal's handler may ask in the midst of an answer.)"""

    def __init__(self) -> None:
        self.alone = threading.RLock()
        self._edits: List[bytes] = []
        self._undone: List[bytes] = []

    def ask(self, line: bytes) -> bytes:
        """The answer to a line, which is a line of JSON."""
        with self.alone:
            answer = self._answer(line)
            if answer.startswith(_NOTED):
                self._note(line, read(answer))
        return answer

    def fields(self, line: bytes) -> Fields:
        """The fields of the answer to a line."""
        return read(self.ask(line))

    def edits(self) -> List[bytes]:
        """The lines of the edits that are not undone. Other threads may go on with the session."""
        with self.alone:
            return list(self._edits)

    def undone(self) -> List[bytes]:
        """The lines of the edits that are undone, the one that is made again first at the end."""
        with self.alone:
            return list(self._undone)

    def _note(self, line: bytes, answer: Fields) -> None:
        """Keeps the edits that are not undone, each with the place that it was made at. Raises Refused where the line was."""
        if answer['kind'] == 'refused':
            raise conversation.refused_by(answer)
        if answer['kind'] == 'edited':
            words = line.split()
            words[1] = b'%d' % answer['place']
            self._edits.append(b' '.join(words) + b'\n')
            self._undone.clear()
        elif answer['kind'] == 'undone':
            self._undone.append(self._edits.pop())
        else:
            self._edits.append(self._undone.pop())

    @abc.abstractmethod
    def _answer(self, line: bytes) -> bytes:
        """The answer to a line."""

    def content(self) -> Optional[bytes]:
        """The bytes of the pickle as it is, where they are to be had without a second run."""
        return None

    @abc.abstractmethod
    def close(self) -> None:
        """Ends it. Ending it twice does no harm."""


class _InLibrary(_Talk):
    """A session of the library, in this process."""

    def __init__(self, kept: library.Kept) -> None:
        super().__init__()
        self._kept = kept

    def _answer(self, line: bytes) -> bytes:
        if b'\n' in line:
            raise ValueError(_NEWLINE)
        return self._kept.ask(line)

    def content(self) -> bytes:
        with self.alone:
            return self._kept.content()

    def close(self) -> None:
        with self.alone:
            self._kept.close()


class _InProgram(_Talk):
    """A conversation with the program, in a process of its own."""

    def __init__(self, process: Process, timeout: Optional[float]) -> None:
        super().__init__()
        self._process = process
        self._timeout = timeout
        self._stdin, self._stdout = process.stdin, process.stdout
        self._is_open = True
        with contextlib.suppress(OSError, AttributeError):  # (older versions on Windows have no such pipes)
            os.set_blocking(self._stdin, False)

    def _answer(self, line: bytes) -> bytes:
        if b'\n' in line:
            raise ValueError(_NEWLINE)
        if not self._is_open:
            raise ValueError('the session is closed')
        try:
            deadline = None if self._timeout is None else time.monotonic() + self._timeout
            self._send(line + b'\n', deadline)
            return self._receive(deadline)
        except (BrokenPipeError, EOFError):
            self._is_open = False
            self._process.fail()
        except BaseException:  # an answer that nobody read would be taken for the next one
            self.close()
            raise

    def _send(self, data: bytes, deadline: Optional[float]) -> None:
        while True:
            try:
                data = data[os.write(self._stdin, data):]
            except BlockingIOError:
                pass
            if not data:
                return
            with self._in_time(self._stdin, deadline, writes=True):
                pass

    def _receive(self, deadline: Optional[float]) -> bytes:
        """An answer, up to the end of its line."""
        answer = bytearray()
        while True:
            with self._in_time(self._stdout, deadline):
                block = os.read(self._stdout, 1 << 16)
            if not block:
                raise EOFError
            answer += block
            if block.endswith(b'\n'):
                return bytes(answer)

    @contextlib.contextmanager
    def _in_time(self, file: int, deadline: Optional[float], writes: bool = False) -> Iterator[None]:
        """Within it the file is read or written, which has to be possible in time."""
        if deadline is None and not writes:
            yield
            return
        try:
            with self._process.waiting(file, deadline, writes):
                yield
        except TimedOut:
            raise TimedOut(f'no answer within {self._timeout} seconds') from None

    def close(self) -> None:
        """Ends the program."""
        self._is_open = False
        self._process.close()


def _close(talk: _Talk, files: contextlib.ExitStack) -> None:
    talk.close()
    files.close()


class Session(ContextManager['Session']):
    """A conversation with the program about one pickle, or with `many` about several that follow one another.

    A place counts the opcodes before it; `at` names it by its offset in the pickle as it is. What the program refuses raises `Refused`,
    and the session is as it was before. With `window`, only that many steps are remembered to go back by; unless memory runs out the
    answers are the same. `unframed` is as for `listing`; frames are not edited then. `timeout` is in seconds for each line, and `memory` the
    most bytes of address space that the program may take.

    >>> with Session(b'cos\\ngetcwd\\n)R.') as session:
    ...     session.run().why, session.show(2)[0].object.kind
    ('end', 'call')
    """

    def __init__(self, source: Source, window: Optional[int] = None, many: bool = False, *, unframed: bool = False,
                 timeout: Optional[float] = None, memory: Optional[int] = None) -> None:
        check_timeout(timeout)
        self._limits = (timeout, memory)
        opened = opened_in(source)
        # The file that the pickle was opened in, if it was: it is not written over.
        self._container = '' if opened is None else opened.path
        self._many, self._unframed = many, unframed
        self._window = None if window is None else index(window)
        self._source = source if opened is None else opened.content
        self._input: Optional[Input] = None
        self._files = contextlib.ExitStack()
        try:
            self._talk = self._opened() or self._started()
        except BaseException:
            self._files.close()
            raise
        self._finalizer = weakref.finalize(self, _close, self._talk, self._files)
        try:
            self.where()  # a pickle that cannot be opened is reported here
        except BaseException:
            self.close()
            raise

    def _opened(self) -> Optional[_Talk]:
        """A session in this process, if it can be had. (Where time or memory are limited, a process is: it can be ended.)"""
        if self._limits != (None, None):
            return None
        content = small_content(self._source, library.MOST_KEPT)
        if content is None:
            content = self._given().small_content(library.MOST_KEPT)
        kept = None if content is None else library.open_session(content, self._many, self._unframed, self._window)
        if content is None or kept is None:
            return None
        self._source = content
        return _InLibrary(kept)

    def _started(self) -> _Talk:
        """A conversation with the program, which is started for it."""
        timeout, memory = self._limits
        given = self._given()
        window = ['--window', str(self._window)] if self._window is not None else []
        return _InProgram(Process([*self._words(), *window], given.files, memory, stdin=True), timeout)

    def _given(self) -> Input:
        """The pickle as it was, for runs of the program."""
        if self._input is None:
            self._input = Input(self._source, own=True)
            self._files.callback(self._input.close)
        return self._input

    def _words(self) -> List[str]:
        """What starts a conversation about it."""
        return ['debug', '--json', self._given().path, *modes(self._many, self._unframed)]

    def close(self) -> None:
        """Ends the session. Closing it twice does no harm.

        >>> session = Session(b'N.')
        >>> session.step(), session.close()
        (1, None)
        >>> session
        <Session: closed>
        """
        self._finalizer()

    def __exit__(self, *error: object) -> None:
        self.close()

    # --- Moving ---

    def step(self) -> int:
        """Goes over one opcode, and answers the place after it.

        >>> with Session(b'N.') as session:
        ...     session.step(), session.step()
        (1, 2)
        """
        return self._to(b'step')

    def back(self) -> int:
        """Goes back over one opcode, and answers the place before it.

        >>> with Session(b'N.') as session:
        ...     session.step(), session.back()
        (1, 0)
        """
        return self._to(b'back')

    def goto(self, place: Optional[int] = None, *, at: Optional[int] = None) -> int:
        """Goes to a place.

        >>> with Session(b'K\\x01K\\x02\\x86.') as session:
        ...     session.goto(3), session.goto(at=2)
        (3, 1)
        """
        return self._to(b'goto ' + _place(place, at))

    def run(self) -> Ran:
        """Steps on to the end, to a breakpoint, or to an opcode that the machine refuses.

        >>> with Session(b'N.') as session:
        ...     session.run()
        Ran(place=2, why='end', text='end, stopped')
        """
        return conversation.ran_of(self._talk.fields(b'run'))

    def set_break(self, place: Optional[int] = None, *, at: Optional[int] = None) -> int:
        """Sets a breakpoint on the opcode at a place, and answers the place.

        >>> with Session(b'NN0.') as session:
        ...     session.set_break(2), session.run().why
        (2, 'breakpoint')
        """
        return self._to(b'break ' + _place(place, at))

    def clear_break(self, place: Optional[int] = None, *, at: Optional[int] = None) -> int:
        """Takes the breakpoint on the opcode at a place away, and answers the place.

        >>> with Session(b'N.') as session:
        ...     session.set_break(1), session.clear_break(1), session.run().why
        (1, 1, 'end')
        """
        return self._to(b'clear ' + _place(place, at))

    # --- Edits ---

    @overload
    def replace(self, place: int, name: str, /, *values: ArgumentValue, raw: Optional[_Bytes] = None) -> int: ...

    @overload
    def replace(self, name: str, /, *values: ArgumentValue, at: int, raw: Optional[_Bytes] = None) -> int: ...

    def replace(self, *words: ArgumentValue, at: Optional[int] = None, raw: Optional[_Bytes] = None) -> int:
        """Puts an opcode where the one at a place is, and answers the place.

        The argument is given as its value (two values for GLOBAL and INST), or whole as `raw` bytes.

        >>> with Session(b'K\\x01.') as session:
        ...     session.replace(0, 'BININT2', 258), session.bytes()
        (0, b'M\\x02\\x01.')
        """
        return self._put(b'replace', words, at, raw)

    @overload
    def insert(self, place: int, name: str, /, *values: ArgumentValue, raw: Optional[_Bytes] = None) -> int: ...

    @overload
    def insert(self, name: str, /, *values: ArgumentValue, at: int, raw: Optional[_Bytes] = None) -> int: ...

    def insert(self, *words: ArgumentValue, at: Optional[int] = None, raw: Optional[_Bytes] = None) -> int:
        """Puts an opcode before the one at a place, and answers the place.

        >>> with Session(b'.') as session:
        ...     session.insert(0, 'GLOBAL', 'os', 'getcwd'), session.bytes()
        (0, b'cos\\ngetcwd\\n.')
        """
        return self._put(b'insert', words, at, raw)

    def delete(self, place: Optional[int] = None, *, at: Optional[int] = None) -> int:
        """Takes the opcode at a place out, and answers the place.

        >>> with Session(b'NN0.') as session:
        ...     session.delete(2), session.delete(0), session.bytes()
        (2, 0, b'N.')
        """
        return self._to(b'delete ' + _place(place, at))

    def frame(self, place: Optional[int] = None, count: int = 0, *, at: Optional[int] = None) -> int:
        """Puts a frame around `count` opcodes from a place on, and answers the place.

        >>> with Session(b'N.') as session:
        ...     session.frame(0, 2), session.bytes()
        (0, b'\\x95\\x02\\x00\\x00\\x00\\x00\\x00\\x00\\x00N.')
        """
        return self._to(b'frame %s %d' % (_place(place, at), index(count)))

    def unframe(self, place: Optional[int] = None, *, at: Optional[int] = None) -> int:
        """Takes the FRAME at a place away and leaves what is in the frame, and answers the place.

        >>> with Session(b'N.') as session:
        ...     session.frame(0, 2), session.unframe(0), session.bytes()
        (0, 0, b'N.')
        """
        return self._to(b'unframe ' + _place(place, at))

    def undo(self) -> int:
        """Takes the latest edit back, and answers its place.

        >>> with Session(b'N.') as session:
        ...     session.insert(1, 'POP'), session.undo(), session.bytes()
        (1, 1, b'N.')
        """
        return self._to(b'undo')

    def redo(self) -> int:
        """Makes the edit again that was taken back last, and answers its place.

        >>> with Session(b'N.') as session:
        ...     session.insert(1, 'POP'), session.undo(), session.redo(), session.bytes()
        (1, 1, 1, b'N0.')
        """
        return self._to(b'redo')

    def _put(self, word: _Bytes, words: Sequence[ArgumentValue], at: Optional[int], raw: Optional[_Bytes]) -> int:
        """An edit that names an opcode: a place (unless it is named by `at`), the name, and its values."""
        place, (name, *values) = (words[0], words[1:]) if at is None else (None, words)
        if not isinstance(name, str) or not name.isidentifier():
            raise TypeError(f'the name of an opcode is wanted, and not {name!r:.100}')
        if raw is not None and values:
            raise TypeError('an argument is given as values or as raw bytes, and not as both')
        argument = encoded(name, values) if raw is None else _Bytes(raw)
        where = _place(None if place is None else index(place), at)  # type: ignore[arg-type]
        return self._to(b'%s %s %s %s' % (word, where, name.encode('utf-8'), argument.hex().encode('ascii')))

    # --- Questions ---

    def where(self) -> Where:
        """Where the session is, and how the pickle ends.

        >>> with Session(b'N.') as session:
        ...     session.step(), session.where().offset
        (1, 1)
        """
        return conversation.where_of(self._talk.fields(b'where'))

    def items(self, first: Optional[int] = None, stop: Optional[int] = None) -> Items:
        """The opcodes with their places: all of them, or those from a place on before another.

        >>> with Session(b'K\\x07NN.') as session:
        ...     session.items()[0], [item.place for item in session.items(1, 3)]
        (Item(place=0, offset=0, name='BININT1', argument=7, at_cursor=True, has_break=False), [1, 2])
        """
        return Items(self._talk.ask(b'items' + _range(first, stop)))

    def objects(self, first: Optional[int] = None, stop: Optional[int] = None) -> Heap:
        """The objects that were made so far: all of them, or those from a number on before another.

        >>> with Session(b'K\\x07NN.') as session:
        ...     session.goto(3), session.objects()[0].text, [made.number for made in session.objects(1, 3)]
        (3, 7, [1, 2])
        """
        return Heap(self._talk.ask(b'objects' + _range(first, stop)))

    def breaks(self) -> Tuple[int, ...]:
        """The places of the opcodes that have a breakpoint.

        >>> with Session(b'NN0.') as session:
        ...     session.set_break(2), session.set_break(1), session.breaks()
        (2, 1, (1, 2))
        """
        return tuple(self._talk.fields(b'breaks')['places'])

    def trace(self) -> Step:
        """What the step over the opcode before the cursor did. Raises Refused at the start, or if `window` steps back no record of it is kept.

        >>> with Session(b']K\\x01a.') as session:
        ...     session.goto(3), session.trace().name, session.trace().changed
        (3, 'APPEND', Changed(number=0, changes=1))
        """
        return conversation.step_of(self._talk.fields(b'trace'))

    def made(self, number: int) -> Made:
        """Which opcode made an object, and which opcodes changed it, of those before the cursor; with `window`, of those whose record is kept.
        Raises Refused if no object has this number yet.

        >>> with Session(b']K\\x01a.') as session:
        ...     session.goto(3), session.made(0).place, session.made(0).changed
        (3, 0, (Changer(place=2, offset=3, changes=1),))
        """
        return conversation.made_of(self._talk.fields(b'made %d' % index(number)))

    def show(self, number: int) -> ShownObjects:
        """An object and all that it holds.

        >>> with Session(b'NN\\x86.') as session:
        ...     session.run().place, [(line.depth, line.number) for line in session.show(2)]
        (4, [(0, 2), (1, 0), (1, 1)])
        """
        with self._talk.alone:
            return ShownObjects(index(number), self._talk.ask)

    def stack(self) -> Tuple[Entry, ...]:
        """The objects and marks on the stack, from the bottom.

        >>> with Session(b'(N.') as session:
        ...     session.goto(2), session.stack()
        (2, (Mark(place=0), Ref(number=0)))
        """
        return self._stack().all()

    def memo(self) -> Dict[int, int]:
        """The number of the object under each key of the memo.

        >>> with Session(b'Nq\\x05.') as session:
        ...     session.goto(2), session.memo()
        (2, {5: 0})
        """
        return self._memo().all()

    def _stack(self) -> Stack:
        """The same as `stack`, of which no more is read than is asked for."""
        return Stack(self._talk.ask(b'stack'))

    def _memo(self) -> Memo:
        """The same as `memo`, of which no more is read than is asked for."""
        return Memo(self._talk.ask(b'memo'))

    def _object(self, number: int) -> Object:
        """An object as it is where the session is. What it holds is named by number."""
        return object_of(self._talk.fields(b'show %d' % number))

    def _to(self, line: _Bytes) -> int:
        """The place in the answer to a line."""
        place: int = read(self._talk.ask(line))['place']
        return place

    def ask(self, line: str) -> str:
        """What `debug` prints of its answer to a line, which is made of the answer in JSON; or this itself, where a word has no text.

        >>> with Session(b'N.') as session:
        ...     session.ask('where')
        'at 0 of 2, offset 0, buffers 0, result none, end stopped\\n'
        """
        words = line.split()
        if not words:
            return ''
        if words[0] == 'quit':
            raise ValueError('a session is closed by close()')
        answer = self._talk.ask(line.encode('utf-8'))
        return self.show(int(words[1])).text if words[0] == 'show' else conversation.text_of(answer)

    # --- The pickle as it is ---

    def bytes(self) -> _Bytes:
        """The pickle with the edits that are not undone.

        >>> with Session(b'N.') as session:
        ...     session.replace(0, 'BININT1', 5), session.bytes()
        (0, b'K\\x05.')
        """
        content = self._talk.content()
        if content is not None:
            return content
        edits = self._talk.edits()
        if edits or not self._finalizer.alive:
            return self._bytes_after(edits)
        return b''.join(self._given().blocks(0))

    def listing(self) -> Listing:
        """The opcodes of the pickle with the edits that are not undone, as `picklestep.listing` shows them.

        >>> with Session(b'N.') as session:
        ...     session.replace(0, 'BININT1', 5), session.listing()[0].name
        (0, 'BININT1')
        """
        with self._asked() as asked:
            return listing_of(asked, self._many, self._unframed)

    def calls(self, *, first: bool = False, memo_kept: bool = False, full: bool = False) -> Calls:
        """What the pickle with the edits that are not undone imports and calls, as `picklestep.calls` answers it; of a pickle
        that is read unframed without its FRAMEs.

        >>> with Session(b'.') as session:
        ...     session.insert(0, 'GLOBAL', 'os', 'getcwd'), session.calls()[0].text
        (0, "import 'os' 'getcwd' as #0")
        """
        with self._asked() as asked:
            skip = frames_of(asked, not first) if self._unframed else ()
            return calls_of(asked, first, memo_kept, full, skip)

    def _asked(self) -> AskedOfSession:
        if not self._finalizer.alive:
            raise ValueError('the session is closed')
        small = isinstance(self._talk, _InLibrary) or self._given().small_content(library.MOST_BYTES) is not None
        return AskedOfSession(self.bytes, small, *self._limits)

    def save(self, path: Union[str, 'os.PathLike[str]']) -> None:
        """Writes the pickle with the edits that are not undone into a file, which may be the one that was opened. Raises PicklestepError where that is
        a container: nothing is written into one, or in its place.

        >>> import pathlib, tempfile
        >>> with tempfile.TemporaryDirectory() as folder, Session(b'N.') as session:
        ...     path = pathlib.Path(folder, 'saved.pickle')
        ...     session.replace(0, 'BININT1', 5), session.save(path), path.read_bytes()
        (0, None, b'K\\x05.')
        """
        name = os.path.join(os.getcwd(), os.fsdecode(path))
        check_out(os.fsdecode(path), self._container)
        content = self._talk.content()  # (edits that are made again may come in another order, if a signal's handler edits)
        if content is None and is_word(name) and not is_opened(name, to_write=True):
            self._save(name, [], self._talk.edits())
        else:
            content = self.bytes() if content is None else content
            try:
                with written_whole(Path(name)) as file:
                    file.write(content)
            except OSError as error:
                raise ProgramError(f'cannot write: {error.strerror or error}') from error

    def _bytes_after(self, edits: List[_Bytes]) -> _Bytes:
        """The pickle with edits."""
        with OwnFile(is_saved_to=True) as file:
            self._save(file.path, file.files, edits)
            return file.content()

    def _save(self, path: str, files: List[int], edits: List[_Bytes]) -> None:
        """Makes edits in a second run of the program, so that this one goes on."""
        if not self._finalizer.alive:
            raise ValueError('the session is closed')
        answer = run_program([*self._words(), '--save', path], [*self._given().files, *files], b''.join(edits), *self._limits)
        if answer.count(conversation.EDITS[0]) != len(edits):
            raise ProgramError(f'an edit was not made again: {answer.decode("ascii")[-_SHOWN:]}')

    # --- For notebooks ---

    def __repr__(self) -> str:
        return f'<Session: {self._text()[0]}>'

    def _repr_html_(self) -> str:
        return f'<pre>{html.escape(chr(10).join(self._text()))}</pre>'

    def _text(self) -> List[str]:
        """Where the session is, with its stack and its memo, cut where they are long."""
        if not self._finalizer.alive:
            return ['closed']
        answers = (self.ask(word).rstrip('\n') for word in ('where', 'stack', 'memo'))
        return [answer if len(answer) <= _SHOWN else answer[:_SHOWN] + ' ..' for answer in answers]


def _range(first: Optional[int], stop: Optional[int]) -> bytes:
    """The words of a range; none where all is wanted."""
    if (first is None) != (stop is None):
        raise TypeError('a range has a first number and one behind its last')
    return b'' if first is None else b' %d %d' % (index(first), index(stop))  # type: ignore[arg-type]


def _place(place: Optional[int], at: Optional[int]) -> bytes:
    """A place as the program takes it: a number, or an offset behind '@'."""
    if (place is None) == (at is None):
        raise TypeError('a place is wanted, or at=OFFSET, and not both')
    return b'@%d' % index(at) if at is not None else b'%d' % index(place)  # type: ignore[arg-type]
