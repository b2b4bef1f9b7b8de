"""What is shown of one pickle: a session, and what the program says of the pickle as it is."""

from __future__ import annotations

import contextlib
import os
from array import array
from bisect import bisect_left, bisect_right
from itertools import chain, islice
from pathlib import Path
from typing import Any, Callable, Dict, Iterator, List, NamedTuple, Optional, Set, Tuple

from . import library
from .addresses import is_in
from .answers import Calls
from .errors import ProgramError, Refused
from .lines import CUT, cut_text, silent
from .listed import text_of, whole_lines
from .object_lines import ObjectLines, ObjectsAsked
from .opcode_lines import OpcodeLines
from .pickle_lines import add_items, read_all, read_answers
from .reaches import CALLS, IMPORTS, Fields, fields_of, said_in
from .records import Reach, Ref
from .searching import Sought
from .session import SHIFTS, Session
from .session_records import Where
from .sources import Input, Source
from .tasks import Asked, modes
from .wording import shown

__all__ = ['MOST_EXACT', 'MOST_TEXT', 'Document', 'Done', 'Fields', 'Reaches', 'places_edited']

# Up to this many objects, with texts of this many bytes, are asked of the session at each step. Above that they are shown as they are at the end.
MOST_EXACT = 20_000
MOST_TEXT = 1 << 24
# The most bytes of a line of `calls` that are shown.
_MOST_SAID = 4000
# So many marks are open before the lines that are shown of a listing, one after another: each has four blanks for each of them.
_MOST_MARKS = 1 << 26
# How closing lines begin that say that not all of a file was read.
_OF_CONTAINER = 'begins like a container: '
_WARNING = 'warning: '
_EARLY = ('refused: ', 'fault: ', 'kept: ', _OF_CONTAINER)


class Reaches:
    """What the pickle imports and calls, by the offsets of the opcodes."""

    def __init__(self, answer: Calls, is_part: bool = False) -> None:
        """Takes the answer of `calls`; with `is_part` its first lines, of which there are more that were too long to be read."""
        self.answer = answer
        self.is_part = is_part
        self.offsets = array('Q')
        self.kinds: List[str] = []
        self._places = array('Q')
        for start, fields in zip(answer._find(), answer.fields()):
            self.offsets.append(int(fields['offset']))
            self.kinds.append(fields['kind'])
            self._places.append(start)

    @property
    def behind(self) -> List[str]:
        """The container that the bytes begin like, whether an import leads to the unpickler, a line for each part (what loaders may reach where this
        reading has ended), and where else to look."""
        if self.is_part:
            return [f'imports and calls: the first {len(self.kinds):,} alone, long as they are (picklestep calls shows all)']
        container = self.answer.container
        within = [f'{_OF_CONTAINER}{container} (picklestep scan looks into it)'] if container else []
        parts = [f'{part.heading}: {part.imports} imports, {part.calls} calls (picklestep calls shows them)' for part in self.answer.parts]
        warning = [f'{_WARNING}{self.answer.warning}'] if self.answer.warning else []
        return [*within, *warning, *parts, *self.answer.hints]

    @property
    def counts(self) -> Tuple[int, int]:
        """How many imports and calls there are."""
        return _counted(self.kinds) if self.is_part else (self.answer.imports, self.answer.calls)

    def kind_at(self, offset: int) -> str:
        """How the line at an offset is coloured: 'call', 'import', 'other' or ''."""
        at = bisect_left(self.offsets, offset)
        kinds = self.kinds[at:bisect_right(self.offsets, offset)]
        if any(kind in CALLS for kind in kinds):
            return 'call'
        if any(kind in IMPORTS for kind in kinds):
            return 'import'
        return 'other' if kinds else ''

    def text(self, at: int) -> str:
        """A line, without its offset; with its beginning alone where it is long."""
        return cut_text(said_in(self._fields(at)), _MOST_SAID)

    def _fields(self, at: int) -> Fields:
        start = self._places[at]
        return fields_of(self.answer.json[start:self.answer.json.index(b'\n', start)])

    def texts_at(self, offset: int) -> List[str]:
        """What `calls` says of the opcode at an offset."""
        return [self.answer[at].text for at in range(bisect_left(self.offsets, offset), bisect_right(self.offsets, offset))]

    def text_at(self, offset: int) -> str:
        """What the opcode at an offset imports or calls, or ''."""
        at = bisect_left(self.offsets, offset)
        return self.text(at) if at < len(self.offsets) and self.offsets[at] == offset else ''


def _counted(kinds: List[str]) -> Tuple[int, int]:
    return sum(map(IMPORTS.__contains__, kinds)), sum(map(CALLS.__contains__, kinds))


class Done(NamedTuple):
    """An edit that was made: its word, its place, and the opcode that was put there. `is_joined` says that it belongs to the one before, `was` is
    the code of the opcode that was there, where it is known, `put` what is known of the one that was put there."""

    what: str
    place: int
    name: str = ''
    is_joined: bool = False
    was: int = 0
    put: Any = None

    def __str__(self) -> str:
        return f'{self.what}{self.name and " " + self.name} at {self.place}'


class Document:
    """A pickle that is looked at and edited; with `many`, several that follow one another."""

    def __init__(self, source: Source, name: str, many: bool = False, progress: Callable[[str], None] = silent, unframed: bool = False) -> None:
        """Reads a pickle. While that goes on, `progress` is given how far it is."""
        self.name = name
        # The file that the pickle was opened in, if it was: it is not written over.
        self.container = ''
        # What is said of how it was opened.
        self.said: List[str] = []
        self._progress = progress
        self.session = Session(source, many=many, unframed=unframed)
        self._options = modes(many, unframed)
        self._edits: List[Done] = []
        self._undone: List[Done] = []
        self.version = 0
        self.place = 0
        try:
            self._read()
        except BaseException:
            self.session.close()
            raise
        self._progress = silent

    def close(self) -> None:
        """Ends the session."""
        self.session.close()

    # --- The pickle as it is ---

    def _read(self) -> None:
        """Reads the opcodes, the objects, and what is imported and called."""
        is_as_it_was = not self._edits and not self.version
        content = self.session.bytes()
        lines = self._begun(content) if is_as_it_was else self._no_lines(content)
        self._take(*self._lists(lines, self.session.where(), self._progress, is_as_it_was))
        self.version += 1
        self._heap: Optional[ObjectLines] = None
        self.edited = places_edited(self._edits)

    def _take(self, lines: OpcodeLines, final: ObjectLines, reaches: Reaches, listed: int) -> None:
        """Keeps what the program says."""
        self.lines, self._final, self.reaches, self.listed = lines, final, reaches, listed
        here = self.session.where().place
        lines.makers.finish(final.readonly_count, self._makes_object)
        self.session.goto(here)

    def _no_lines(self, content: bytes) -> OpcodeLines:
        """The lines of opcodes before any was read. The session is asked for what they say, so they are asked for no more once it has other edits."""
        return OpcodeLines(content, self.items)

    def _begun(self, content: bytes) -> OpcodeLines:
        """The same of the pickle as it was at first, of which some may have been read."""
        return self._no_lines(content)

    def items(self, first: int, stop: int) -> List[Fields]:
        """The fields of opcodes from a place on before another, as the session has them."""
        found: List[Fields] = self.session._talk.fields(b'items %d %d' % (first, stop))['items']
        return found

    def _lists(self, lines: OpcodeLines, where: Where, progress: Callable[[str], None], is_as_it_was: bool = False
               ) -> Tuple[OpcodeLines, ObjectLines, Reaches, int]:
        """What the program says of a pickle, in which a session is somewhere, and of how many opcodes `list` has a line. The session is not asked."""
        with contextlib.ExitStack() as files:
            def given() -> Input:
                return self.session._given() if is_as_it_was else files.enter_context(Input(lines.content))

            read = (read_answers(lambda words: library.answer(words, lines.content), lines, self._options)
                    or read_all(given(), lines, self._options, progress))
            reaches = Reaches(Calls(read.calls), read.is_part)
            lines.closing += reaches.behind
            lines.ends_at = where.end.offset
            listed = len(lines)
            if listed < where.places:
                add_items(lines, given(), self._options)
        return lines, read.objects, reaches, listed

    def _makes_object(self, place: int, number: int) -> bool:
        """Whether the opcode at a place makes the object of this number. It moves the session."""
        try:
            self.session.goto(place + 1)
        except Refused:
            return False
        return self.session.where().objects > number

    @property
    def is_many(self) -> bool:
        """Whether these are several pickles that follow one another."""
        return '--many' in self._options

    @property
    def is_unframed(self) -> bool:
        """Whether the lengths of frames are ignored."""
        return '--unframed' in self._options

    # --- All objects, as they are at the end ---

    def left(self) -> Optional[Set[int]]:
        """The results, and the objects on the stack where reading ends early. None where an opcode is refused, behind which there may be more."""
        where = self.session.where()
        here, why = where.place, 'end'
        if here < where.places:
            try:
                why = self.session.run().why
            except Refused:  # (the opcode at the cursor)
                why = 'refused'
        where = self.session.where()
        stack = [] if where.end.is_stopped else [entry.number for entry in self.session.stack() if isinstance(entry, Ref)]
        self.session.goto(here)
        return {*where.results, *stack} if why == 'end' else None

    def names_of_imports(self) -> Dict[int, Tuple[int, int]]:
        """The objects that STACK_GLOBAL takes for names, by the numbers of what it imports."""
        return {number: (module, name) for number, module, name in self._final.named_by_texts()}

    def held_as_data(self, numbers: Set[int]) -> Set[int]:
        """Which of these others hold, and not only as the names of imports."""
        return set(filter(self._final.is_data, numbers))

    def imports(self) -> Iterator[Reach]:
        """What is imported, in its order."""
        return (self.reaches.answer[at] for at, kind in enumerate(self.reaches.kinds) if kind in IMPORTS)

    def makes(self, place: int) -> Optional[int]:
        """The number of the object that the opcode at a place makes, if it makes one."""
        number = self.numbers_before(place)
        return number if number < min(len(self._final), self.numbers_before(place + 1)) else None

    def numbers_before(self, place: int) -> int:
        """How many objects the opcodes before a place make."""
        return self.lines.makers.before(place)

    def maker(self, number: int) -> Optional[int]:
        """The place of the opcode that makes an object, if there is such an object."""
        return self.lines.makers.place(number) if 0 <= number < len(self._final) else None

    # --- Objects ---

    def _made(self) -> int:
        """How many objects were made before the cursor."""
        return self.made_before(self.place)[0]

    def _is_exact(self) -> bool:
        return self._final.whole <= MOST_TEXT and self._made() <= MOST_EXACT

    def _objects(self) -> ObjectLines:
        """The objects at the cursor; where they are many, as they are at the end."""
        if not self._is_exact():
            return self._final
        if self._heap is None:
            self._heap = ObjectsAsked(self.session._talk.ask, self.session.where().objects)
        return self._heap

    def brief(self, number: int) -> str:
        """An object in a line: its kind, its text, and the first of what it holds."""
        heap = self._objects()
        return heap.shown(number) if 0 <= number < len(heap) else ''

    # --- For reports: the objects as they are at the end ---

    @property
    def missing(self) -> List[str]:
        """Why a report has not all of the file: reading ended early or at STOP, or these are a container, or there is an array of joblib."""
        return [line for line in self.lines.closing if line.startswith(_EARLY)] + list(self.reaches.answer.hints)

    def made_before(self, place: int) -> Tuple[int, int]:
        """How many objects were made before a place, and how many at all."""
        return min(self.lines.makers.before(place), len(self._final)), len(self._final)

    def offset_of_maker(self, number: int) -> Optional[int]:
        """The offset of the opcode that made an object."""
        return self.lines.offset(self.lines.makers.place(number)) if number < len(self.lines.makers) else None

    def final_brief(self, number: int) -> str:
        """An object as it is at the end, in a line."""
        return self._final.shown(number)

    # --- Searches ---

    def find(self, text: str, after: int) -> Optional[int]:
        """The place that a search finds: that of an offset, or the next opcode with a text in its name, its argument or its note, or with a number that is
        no offset here; where there is none up to the end, the first from the start."""
        count = len(self.lines)
        if text.isdecimal() and count and int(text) <= self.lines.offset(count - 1):
            return self.lines.place_of(int(text))
        ahead = (Sought(text).places(self.lines, place, 1, in_names=True) for place in (after + 1, 0))
        return next(chain.from_iterable(ahead), None) if text else None

    def first_lines(self, count: int) -> List[str]:
        """The first lines of `list`, so many or all, with long texts cut. Raises ProgramError where there is hardly more in them than blanks for marks."""
        count = min(count, len(self.lines))
        if self.lines.marks_before(count) > _MOST_MARKS:
            raise ProgramError('too many marks are open at once to be shown')
        with Asked(self.lines.content, None, None) as asked, contextlib.closing(asked.blocks(['list', *self._options])) as blocks:
            rows = [cut_text(line, CUT) for line in islice(_of_opcodes(blocks), min(count, self.listed))]
        return rows + [text_of(self.lines.at(place)) for place in range(len(rows), count)]

    # --- Edits ---

    def content(self) -> bytes:
        """The bytes of the pickle as it is."""
        return self.lines.content

    def _changed(self, edits: List[Done], undone: List[Done], back: Callable[[], object]) -> None:
        """Reads the pickle after the session's edits became these. Where that fails, `back` is called, and all is as it was."""
        before = dict(vars(self))
        self._edits, self._undone = edits, undone
        try:
            self._read()
        except BaseException:
            vars(self).update(before)
            back()
            raise

    def save(self, name: str) -> None:
        """Writes the pickle as it is. A file that is there is written over."""
        if not name.strip():
            raise ValueError('a name is wanted')
        path = Path(os.path.abspath(os.path.expanduser(name)))
        if is_in(str(path), self.container) or is_in(name, self.container):
            raise ValueError(f'cannot write {shown(name)}: nothing is written into a container')
        self._write(path)

    def _write(self, path: Path) -> None:
        """Writes the pickle as it is."""
        self.session.save(path)


def _of_opcodes(blocks: Iterator[bytes]) -> Iterator[str]:
    """The lines of opcodes in a listing."""
    return (line for lines in whole_lines(blocks) for line in lines.decode('ascii').split('\n') if line.lstrip(' ')[:1].isdigit())


def places_edited(edits: List[Done]) -> Set[int]:
    """The places that edits touched, each where it is after those that came later."""
    places: Set[int] = set()
    for what, at, *_ in edits:
        shift = SHIFTS[what]
        if shift > 0:
            places = {place + 1 if place >= at else place for place in places}
        elif shift < 0:
            places = {place - 1 if place > at else place for place in places if place != at}
        places.add(at)
    return places
