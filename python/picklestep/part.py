"""A pickle of which the first part alone may be read: what is said of that, what the whole imports and calls, and how the whole is written."""

from __future__ import annotations

import contextlib
import time
from pathlib import Path
from typing import Callable, List, Optional, Tuple

from .answers import Calls
from .document import Document, Reaches
from .errors import ProgramError, Refused
from .first import First, first_of
from .lines import silent
from .opcode_lines import OpcodeLines
from .pickle_lines import read_calls_of
from .saving import written_whole
from .session import Session
from .sources import LIMIT, Input, Source, rereadable
from .took import seconds_of_programs

__all__ = ['Part', 'reaches_of_whole', 'said_of_time']

# So many bytes each opcode takes besides what is kept of it and the line of its object, and so many times all of this is there: in this process, in the
# session's program, and in those that answer.
_OF_OPCODE = 30
_OF_PROGRAMS = 2


class Part(Document):
    """A document of a pickle, or of its first part. What is edited there is saved with the rest, as that was."""

    tell: Callable[[str], None] = staticmethod(silent)
    _first: Optional[First] = None
    _read_first: Optional[OpcodeLines] = None  # the opcodes that were read to find the first part
    _seconds = 0.0  # of a processor, that it took to read this
    _all_reaches: Tuple[int, Optional[Reaches]] = (0, None)  # what all of the pickle imports and calls, in which version

    def __init__(self, source: Source, name: str, many: bool = False, progress: Callable[[str], None] = silent, *, unframed: bool = False,
                 whole: bool = False) -> None:
        """Reads a pickle: of a long one only the first part, unless it is the `whole` that is wanted. While that goes on, `progress` is given how
        far it is; later `tell` is, where something takes long."""
        source = rereadable(source)
        begin = time.process_time() + seconds_of_programs()
        if not whole:
            self._first, self._read_first = first_of(source, many, unframed, progress, self.items)
        self._source = source if self._first is None else self._first.content
        try:
            super().__init__(self._source, name, many, progress, unframed)
        except BaseException:
            self._close_first()
            raise
        self._seconds = time.process_time() + seconds_of_programs() - begin

    def _begun(self, content: bytes) -> OpcodeLines:
        lines, self._read_first = self._read_first, None
        if lines is None:
            return super()._begun(content)
        lines.content = content
        return lines

    def close(self) -> None:
        """Ends the session, and lets the copy of the whole go."""
        super().close()
        self._close_first()

    @property
    def is_part(self) -> bool:
        """Whether only the first part of the pickle is read."""
        return self._first is not None

    @property
    def rest_size(self) -> int:
        """How many bytes are not read."""
        return 0 if self._first is None else self._first.rest_size

    @property
    def end_text(self) -> str:
        """What is at the end."""
        return 'the end of what is read' if self.is_part else f'the end: {self.session.where().end.text}'

    @property
    def closing(self) -> List[str]:
        """What the program says behind the opcodes; of a part, that the rest is not read."""
        return [f'the first {len(self.lines):,} opcodes: the rest is not read'] if self.is_part else self.lines.closing

    @property
    def of_whole(self) -> Tuple[int, int]:
        """How many seconds and bytes of memory it may take to read the whole of a part, as far as the part tells that."""
        first = self._first
        if first is None:
            return 0, 0
        times = first.size / max(1, len(first.content))
        kept = self.lines.size + len(self._final.text) + _OF_OPCODE * len(self.lines)
        return int(times * self._seconds), int(times * kept * _OF_PROGRAMS) + first.size

    @property
    def kept(self) -> List[str]:
        """A line of the bytes after STOP, where there are some, or of those behind a part: nothing of them is in the session."""
        if self.is_part:
            return ['(The rest is not read: `whole` reads it.)']
        kept = self.lines.kept
        return [f'kept: {kept} bytes after STOP (try --many)'] if kept else []

    def all_reaches(self) -> Reaches:
        """What all of the pickle imports and calls, as it is: of a part, the program is asked about the whole."""
        first = self._first
        if first is None:
            return self.reaches
        version, reaches = self._all_reaches
        if reaches is None or version != self.version:
            self.tell('asking what all of it imports and calls')
            reaches = reaches_of_whole(first, self._options, self.content() if self._edits else None)
            self._all_reaches = self.version, reaches
        return reaches

    def read_whole(self) -> bytes:
        """Reads all of the pickle, with the edits of its first part, and answers the bytes that were not read. Where that fails or is interrupted, all
        is as it was."""
        first, before = self._first, dict(vars(self))
        if first is None:
            return b''
        here, undone = self.session.where().place, self.session._talk.undone()
        self.tell('opening')
        source = b''.join(first.given.blocks(0))
        session = self._session_after(source, [*self.session._talk.edits(), *reversed(undone)])
        try:
            for _ in undone:
                session.undo()
            self.session, self._source, self._first, self._progress = session, source, None, self.tell
            self._read()
            self._return(here)
        except BaseException:
            vars(self).update(before)
            session.close()
            raise
        self._progress = silent
        before['session'].close()
        first.close()
        return source[len(first.content):]

    def _session_after(self, source: Source, edits: List[bytes]) -> Session:
        """A session of a pickle, after edits."""
        session = Session(source, many=self.is_many, unframed=self.is_unframed)
        try:
            for line in edits:
                session._talk.ask(line.rstrip(b'\n'))
        except BaseException:
            session.close()
            raise
        return session

    def _return(self, here: int) -> None:
        """Goes back to a place, or as near to it as the pickle can be stepped."""
        with contextlib.suppress(Refused):
            self.session.goto(here)

    def _write(self, path: Path) -> None:
        """Writes the pickle as it is: a part with the rest, as that was."""
        first = self._first
        if first is None:
            super()._write(path)
            return
        content = self.content()
        if len(content) + first.rest_size > LIMIT:
            raise ValueError(f'cannot write: the pickle would have more than {LIMIT:,} bytes')
        try:
            with written_whole(path) as file:
                file.write(content)
                file.writelines(first.rest())
        except OSError as error:
            raise ProgramError(f'cannot write: {error.strerror or error}') from error

    def _close_first(self) -> None:
        """Closes the copy of the whole, which nobody needs any more."""
        if self._first is not None:
            self._first.close()


def said_of_time(seconds: int, size: int) -> str:
    """What is said before all of a pickle is read, which may take so many seconds and bytes.

    >>> said_of_time(130, 5_200_000_000)
    'It may take 2 minutes and 5.2 GB of memory.'
    """
    time = f'{seconds} seconds' if seconds < 120 else f'{seconds // 60} minutes'
    memory = f'{size / 1e9:.1f} GB' if size > 1e9 else f'{size // 1_000_000} MB'
    return f'It may take {time} and {memory} of memory.'


def reaches_of_whole(first: First, options: List[str], content: Optional[bytes]) -> Reaches:
    """What all of a pickle imports and calls, of which the first part is as it was, or became these bytes."""
    if content is None:
        return _reaches_of(first.given, options)
    with Input(b''.join((content, *first.rest()))) as given:
        return _reaches_of(given, options)


def _reaches_of(given: Input, options: List[str]) -> Reaches:
    calls, is_cut = read_calls_of(given, options)
    return Reaches(Calls(calls), is_cut)
