"""The pickle that an editor steps through: where its lines and its bytes are, and what the editor is told of changes."""

from __future__ import annotations

import os
import tempfile
from typing import Callable, List, Optional

from ..edits import Edit
from ..errors import PicklestepError
from ..patterns import pattern
from ..session_records import Where
from ..shell.opened import Opened
from ..shell.shell import Shell, WordError
from .arguments import Arguments, RequestError
from .wire import Fields

__all__ = ['MOST_LISTED', 'Target']

# So many opcodes are in the listing, each in a line of its own. Those behind them are only in the disassembly.
MOST_LISTED = 200_000
_LINE_OF_SOURCE = pattern(r'  # ([0-9]+)\b')
_NO_LETTER = pattern(r'[^A-Za-z0-9._-]')
_ADDRESS = pattern(r'0x[0-9a-fA-F]{1,16}|[0-9]{1,20}')


class Target:
    """A shell and its pickle. An opcode's line in the listing is its place, and its address is its offset."""

    def __init__(self, shell: Shell, name: str, send: Callable[[str, Fields], None], first_line: int, first_column: int) -> None:
        self.shell = shell
        self.send = send
        self.name = name
        self.first_line = first_line
        self.first_column = first_column
        self.edition = 0  # how often the pickle was edited: each time its listing is another source
        self._python: List[str] = []
        self._folder: 'Optional[tempfile.TemporaryDirectory[str]]' = None

    @property
    def pickle(self) -> Opened:
        """The pickle, once it is read after an edit."""
        return self.shell.settled()

    def here(self) -> Where:
        """Where the cursor is. Objects are shown as they are there."""
        return self.pickle.at_cursor()

    # --- Places ---

    def address(self, place: int) -> str:
        """The address of an opcode; of the number of opcodes, that of the end."""
        lines = self.pickle.lines
        if place < len(lines):
            return hex(lines.offset(place))
        end = self.pickle.session.where().end
        return hex(end.offset if end.offset is not None else lines.offset(len(lines) - 1) + 1)

    @staticmethod
    def offset(reference: str) -> int:
        """The offset that an address says."""
        if not _ADDRESS.fullmatch(reference):
            raise RequestError(f'{reference[:40]!r} is no address')
        return int(reference, 0 if reference.startswith('0x') else 10)

    def place_at(self, offset: int) -> int:
        """The place of the opcode that begins at an offset."""
        lines = self.pickle.lines
        place = lines.place_of(offset) if len(lines) else 0
        if place >= len(lines) or lines.offset(place) != offset:
            raise RequestError(f'no opcode begins at offset {offset}')
        return place

    # --- Sources ---

    @property
    def listing(self) -> Fields:
        """The listing, as a source."""
        return self._source('opcodes', 1, 'picklestep list')

    @property
    def python(self) -> Fields:
        """The Python code, as a source."""
        return self._source('Python', 2, 'picklestep source')

    def _source(self, what: str, at: int, origin: str) -> Fields:
        where: Fields = {'path': self._file(what)} if self._folder is not None else {'sourceReference': 2 * self.edition + at}
        return {'name': f'{self.name} ({what})', 'origin': origin, **where}

    def is_python(self, given: Arguments) -> bool:
        """Whether a source is the Python code, and not the listing. Raises RequestError where it is neither."""
        reference = given.number('sourceReference', 0)
        if 0 < reference <= 2 * self.edition + 2:
            return reference % 2 == 0
        for path in (given.text('path', ''), given.text('name', '')):
            for is_python, known in enumerate((self.listing, self.python)):
                if path and (path == known.get('path') or path.endswith(known['name'])):
                    return bool(is_python)
        raise RequestError('breakpoints are set in the listing or in the Python code, which loadedSources names')

    # --- Files, for editors that show nothing else ---

    def write_files(self) -> None:
        """From here on the listing and the Python code are in files of a folder that only its owner can read."""
        self._folder = tempfile.TemporaryDirectory(prefix='picklestep-')
        self._rewrite()

    def _file(self, what: str) -> str:
        """The name of a file. (It does not end in .py, so that nothing runs it by mistake.)"""
        assert self._folder is not None
        return os.path.join(self._folder.name, f'{_NO_LETTER.sub("_", self.name)}.{what.lower()}.txt')

    def _rewrite(self) -> None:
        if self._folder is not None:
            for what, lines in (('opcodes', self._listed()), ('Python', self.python_lines())):
                with open(self._file(what), 'w', encoding='utf-8', errors='backslashreplace') as file:
                    file.write('\n'.join(lines) + '\n')

    def close(self) -> None:
        """Ends the session, and takes the files away."""
        self.shell.pickle.close()
        if self._folder is not None:
            self._folder.cleanup()

    # --- What is in them ---

    def content(self, given: Arguments) -> Fields:
        """What is in a source."""
        if self.is_python(given):
            return {'content': '\n'.join(self.python_lines()) + '\n', 'mimeType': 'text/x-python'}
        return {'content': '\n'.join(self._listed()) + '\n'}

    def shows(self, text: str) -> bool:
        """Whether a text stands in a line of what the editor was given to show. (Such a text may be of whoever made the pickle.)"""
        return any(text in line for line in (*self._listed(), *self._python))

    def _listed(self) -> List[str]:
        """The lines of the listing, each with what its opcode imports or calls."""
        pickle = self.pickle
        count = min(len(pickle.lines), MOST_LISTED)
        rows = pickle.first_lines(count)
        for at, offset in enumerate(pickle.reaches.offsets):
            place = pickle.lines.place_of(offset)
            if place >= count:
                break
            rows[place] += f'   <- {pickle.reaches.text(at)}'
        more = [f'.. {len(pickle.lines) - count} opcodes more: the disassembly has them'] if count < len(pickle.lines) else []
        return [*rows, *more, *pickle.closing]

    def python_lines(self) -> List[str]:
        """The lines of the Python code."""
        if not self._python:
            self.shell.settled()
            self._python = self.shell.source().split('\n')[:-1]
        return self._python

    def place_of_line(self, given: Arguments, line: int) -> int:
        """The place of the opcode that a line of a source shows; in the Python code only lines with an offset do."""
        at = line - self.first_line
        if not self.is_python(given):
            if 0 <= at < min(len(self.pickle.lines), MOST_LISTED):
                return at
            raise RequestError('this line has no opcode')
        code = self.python_lines()
        found = _LINE_OF_SOURCE.search(code[at]) if 0 <= at < len(code) else None
        if found is None:
            raise RequestError('this line has no offset: set the breakpoint in the listing')
        return self.place_at(int(found[1]))

    def shown_at(self, place: int) -> Fields:
        """Where an opcode is shown."""
        is_listed = place <= MOST_LISTED
        return {'line': place + self.first_line if is_listed else 0, 'column': self.first_column if is_listed else 0,
                **({'source': self.listing} if is_listed else {})}

    # --- Edits ---

    def edit_ahead(self, edits: List[Edit]) -> str:
        """Makes edits of opcodes that were not stepped over yet. Raises Refused where one was."""
        where = self.here()
        for edit in edits:
            if edit.place < where.place:
                self.pickle.session.ask(f'delete {edit.place}')  # (it is refused, with the program's code)
                raise RequestError('this opcode was stepped over')
        text = self.shell.edit(edits)
        self.edited()
        return text

    def edited(self) -> None:
        """Says that the pickle is another one, once it is read."""
        try:
            self.pickle.at_cursor()
        except (WordError, PicklestepError) as error:
            raise RequestError(str(error)) from error
        was = self.listing, self.python
        self.edition += 1
        self._python = []
        self._rewrite()
        for before, now in zip(was, (self.listing, self.python)):
            if before == now:
                self.send('loadedSource', {'reason': 'changed', 'source': now})
            else:
                self.send('loadedSource', {'reason': 'removed', 'source': before})
                self.send('loadedSource', {'reason': 'new', 'source': now})
        self.send('invalidated', {'areas': ['all']})

    def say(self, text: Optional[str], category: str = 'console') -> None:
        """Shows a text in the editor's console."""
        if text:
            self.send('output', {'category': category, 'output': text.rstrip('\n') + '\n'})
