"""The pickle that a shell works on: a session with its listing, its objects, and what it reaches."""

from __future__ import annotations

import contextlib
import sys
import threading
from itertools import islice
from typing import Any, Callable, Dict, Iterator, List, NamedTuple, Optional, Sequence, Tuple, Union

from ..changes import changed
from ..comparing import shown_value
from ..document import Document, Done, Reaches, places_edited
from ..edits import Edit
from ..errors import NoResult, Refused
from ..later import Later
from ..lines import CODE_BY_NAME, silent
from ..listed import Line
from ..listing_records import Object
from ..made import object_of
from ..object_lines import HeldObject, ObjectLines
from ..opcode_lines import OpcodeLines
from ..part import Part
from ..python_source.shapes import BRACKETS
from ..records import Global, Ref
from ..session import SHIFTS
from ..session_records import Mark, Step, Where
from ..sources import Source
from ..values import PLAIN_KINDS, kind_value
from .between import MOST_EDITS, Between, Objects, Put, Unknown, is_known_edit
from .traced import Changers, Did, changers, did

__all__ = ['REFUSED', 'Opened']

# What stands before why an opcode is refused, where a run says it.
REFUSED = 'refused, '

_MOST_ITEMS = 4
_MOST_KEY = 4  # levels of tuples and frozen sets


class _Base(NamedTuple):
    """What was read last: its lists, and the edits up to then."""

    lists: Dict[str, Any]
    edits: List[Done]
    undone: List[Done]


class _Read(NamedTuple):
    """What was read beside the prompt."""

    lines: OpcodeLines
    final: ObjectLines
    reaches: Reaches
    listed: int
    is_finished: bool  # it is known which opcodes make objects


class _Stale(Exception):
    """Nobody wants to know any more."""


class Opened(Part):
    """A document whose objects can be described by their values, and that is edited at any place.

    After an edit the pickle is read while the prompt waits for a line: call `settle` before anything else, or within `unread` make do with what is
    known before. What was read before an edit is kept: where that is undone, the pickle is the same again.
    """

    _reading: Optional[Later[Any]] = None
    _moving: Optional[Later[None]] = None  # the cursor goes back, and reading goes on without the session
    _base: Optional[_Base] = None  # what was read before edits of which a little is known
    _between: Optional[Between] = None
    _shown: Optional[Between] = None  # that, while it is shown
    _most_waited = 100_000  # opcodes that are read before the next line is answered
    _here = 0  # where the cursor goes back to after an edit
    _changers: Tuple[int, Dict[int, Changers]] = (0, {})  # what changed objects, in which version
    _edition = 0
    _codes = b''  # those of all opcodes after the edits
    _edited_codes = bytearray()  # the same while edits are made
    _known: Optional[Dict[str, Any]] = None  # what was read before the latest change
    _turn = ''  # the word of that: '' is an edit

    def __init__(self, source: Source, name: str, many: bool = False, progress: Callable[[str], None] = silent, *, unframed: bool = False,
                 whole: bool = False) -> None:
        """Reads a pickle: of a long one only the first part, unless it is the `whole` that is wanted. While that goes on, `progress` is given how
        far it is; later `tell` is, where something takes long."""
        self.tell: Callable[[str], None] = silent
        self._free = threading.Event()  # whoever reads beside the prompt may go on
        self._free.set()
        super().__init__(source, name, many, progress, unframed=unframed, whole=whole)

    def reopen(self) -> None:
        """Has a session anew, after one that was interrupted within an answer: with the edits, and where the cursor was."""
        edits = self.session._talk.edits()[:len(self._edits)]
        self.session.close()
        self.session = self._session_after(self._source, edits)
        self._undone = []
        self._return(self.place)

    def read_whole(self) -> bytes:
        """Reads all of the pickle, with the edits of its first part, and answers the bytes that were not read. Where that fails or is interrupted, all
        is as it was."""
        self.settle()
        if not self.is_part:
            return b''
        self._edition += 1
        known, self._known = self._known, None
        try:
            return super().read_whole()
        except BaseException:
            self._known = known
            self._edition += 1
            raise

    # --- The pickle ---

    def close(self) -> None:
        """Ends the session, which nobody uses any more then."""
        self._edition += 1
        for work in (self._moving, self._reading):
            if work is not None:
                work.wait()
        super().close()

    def settle(self) -> None:
        """Waits until the pickle is read after an edit. Where that failed, the edits were taken back, and it is raised why."""
        moving, reading = self._moving, self._reading
        if reading is not None:
            if moving is not None:
                moving.wait()
            reading.wait()
            self._reading = self._moving = None
            if self._base is None:
                reading.result()
            else:
                self._take_beside(reading, self._base)

    def take_read(self) -> bool:
        """Takes what was read after an edit, if it has been read by now. Answers whether the pickle is read."""
        if self.is_unread and all(work is not None and work.is_good for work in (self._moving, self._reading)):
            self.settle()
        return not self.is_unread

    def _take_beside(self, reading: Later[_Read], base: _Base) -> None:
        """Takes what was read beside the prompt. Where that failed, the edits since the last reading are taken back."""
        self._base = self._between = None
        try:
            read = reading.result()
        except BaseException:
            here, count = self.session.where().place, len(self._edits) - len(base.edits)
            self.session.goto(0)
            for _ in range(count):
                self.session.undo()
            self._edits, self._undone, self._known = base.edits, base.undone, None
            self._return(here)
            raise
        self.lines, self._final, self.reaches, self.listed = read.lines, read.final, read.reaches, read.listed
        self.version += 1
        self._heap, self.edited = None, places_edited(self._edits)
        if not read.is_finished:
            here = self.session.where().place
            self.lines.makers.finish(self._final.readonly_count, self._makes_object)
            self.session.goto(here)

    @property
    def is_unread(self) -> bool:
        """Whether the pickle is still being read after edits, and a little of it is known before."""
        return self._between is not None

    @property
    def is_read(self) -> bool:
        """Whether `settle` has nothing to wait for."""
        return all(work is None or work.is_done for work in (self._moving, self._reading))

    @contextlib.contextmanager
    def unread(self) -> Iterator[None]:
        """Within it there is only what is known before the pickle is read; all else raises Unknown. Reading waits meanwhile."""
        between, lists = self._between, {name: vars(self)[name] for name in _READ}
        assert between is not None
        self._free.clear()
        try:
            if self._moving is not None:
                self._moving.result()
            between.sure = max(between.sure, self.session.where().place)
            self._shown, self.lines, self._final = between, between, Objects(between)  # type: ignore[assignment]
            self.reaches = between.calls  # type: ignore[assignment]
            yield
        finally:
            self._shown = None
            vars(self).update(lists)
            self._free.set()

    def reach(self, place: int) -> int:
        """Lets the session step over the opcode at a place, and over those behind it that are shown with it. Answers the place behind them."""
        here, end = self.session.where().place, min(place + _SHOWN_AFTER, len(self._codes))
        if place < here:
            return here
        with self._at(end):
            return end

    def stack_at(self, place: int) -> Tuple[Union[Ref, Mark], ...]:
        """What is on the stack at a place, from the bottom."""
        with self._at(place):
            return self.session.stack()

    def keys_at(self, place: int, number: int) -> List[int]:
        """The keys of the memo under which an object is stored at a place."""
        with self._at(place):
            return self.session._memo().keys_of(number)

    @contextlib.contextmanager
    def _at(self, place: int) -> Iterator[None]:
        """For a while the cursor is at a place. Raises Unknown where that is far, or where an opcode is refused on the way."""
        here = self.session.where().place
        if abs(place - here) > _MOST_AHEAD:
            raise Unknown
        try:
            self.session.goto(place)
        except Refused:
            raise Unknown from None
        try:
            yield
        finally:
            self.session.goto(here)

    def _read_beside(self, edits: List[bytes], where: Where, edition: int) -> _Read:
        """Reads the pickle as it is after edits, beside the prompt. A session of it is somewhere."""
        def progress(text: str) -> None:
            self._free.wait()
            if self._edition != edition:
                raise _Stale

        content = self.session._bytes_after(edits)
        progress('')
        lines, final, reaches, listed = self._lists(self._no_lines(content), where, progress)
        is_finished = _READONLY not in lines.codes
        if is_finished:
            lines.makers.finish(final.readonly_count, lambda place, number: False)
        return _Read(lines, final, reaches, listed, is_finished)

    def content(self) -> bytes:
        """The bytes of the pickle as it is."""
        if self._shown is not None:
            raise Unknown
        self.settle()
        return super().content()

    def _changed(self, edits: List[Done], undone: List[Done], back: Callable[[], object], turn: str = '') -> None:
        here, base, was_unread = self._here, self._base, self._base is not None
        self._edition += 1
        self._codes = bytes(self._edited_codes)
        if base is None:
            base = _Base({name: vars(self)[name] for name in _READ}, self._edits, self._undone)
            known = self._known if turn == ('redo' if self._turn == 'undo' else 'undo') else None
            is_kept = self.lines.size + len(self._final.text) <= _MOST_KEPT
            self._known, self._turn = base.lists if is_kept else None, turn
        else:
            known = base.lists if edits == base.edits else None
            self._known, self._turn = None, turn
        self._base = self._between = None
        if known is not None:
            self._read_known(known, edits, undone, here)
            return
        between = self._between_of(base, edits)
        if between is not None or was_unread:
            self._base, self._between, self._edits, self._undone = base, between, edits, undone
            sent, where, edition = self.session._talk.edits(), self.session.where(), self._edition
            self._moving = Later(lambda: self._return(here))
            self._reading = Later(lambda: self._read_beside(sent, where, edition))
            self._moving.start()
            self._reading.start()
            return

        def back_and_return() -> None:
            self._known = None
            self.session.goto(0)
            back()
            self._return(here)

        def read() -> None:
            self._return(here)
            Document._changed(self, edits, undone, back_and_return)
        self._reading = Later(read)
        self._reading.start()

    def _between_of(self, base: _Base, edits: List[Done]) -> Optional[Between]:
        """What is known after edits before the pickle is read anew, if something is."""
        more, lists = edits[len(base.edits):], base.lists
        if edits[:len(base.edits)] != base.edits or not all(edit.put for edit in more) or len(more) > MOST_EDITS:
            return None
        if not Between.is_known_after(lists['lines'], lists['listed'], lists['reaches'], more, self._codes):
            return None
        try:
            return Between(lists['lines'], lists['_final'], lists['reaches'], more, self._codes, self)
        except Unknown:
            return None

    def _read_known(self, known: Dict[str, Any], edits: List[Done], undone: List[Done], here: int) -> None:
        """The pickle is again what it was as this was read."""
        version = self.version + 1
        vars(self).update(known)
        self._edits, self._undone, self.edited, self._heap = edits, undone, places_edited(edits), None
        self.version = version
        self._reading = Later(lambda: self._return(here))
        self._reading.start()

    @property
    def array_at(self) -> Optional[int]:
        """Where joblib's first array begins, as `calls` says it."""
        if self._shown is None:
            return self.reaches.answer.array_at
        if self._base is not None and self._base.lists['reaches'].answer.array_at is None:
            return None
        raise Unknown

    def maker(self, number: int) -> Optional[int]:
        """The place of the opcode that makes an object, if there is such an object."""
        if self._shown is not None and not self._shown.has_made(number):
            raise Unknown
        return super().maker(number)

    def changers(self, number: int, most: int = sys.maxsize) -> Changers:
        """The places of the opcodes that change an object: all, or of more than `most` at least the first ones."""
        version, known = self._changers
        if version != self.version:
            known = {}
            self._changers = self.version, known
        found = known.get(number)
        if found is None or found.left and len(found.places) <= most:
            until = self.listed - int(self.lines.is_refused)
            with self._back():
                found = known[number] = changers(self.session, self.lines, self._final, number, until, most, self.tell)
        return found

    def did(self, begin: int, end: int, known: int, most: int) -> Did:
        """What the opcodes from a place on before another did, of which so many objects were known before, and the last entries of the memo."""
        with self._back():
            return did(self.session, self.lines.codes, begin, end, known, most)

    @contextlib.contextmanager
    def _back(self) -> Iterator[None]:
        """Within it the cursor may go anywhere. Then it is back."""
        here = self.session.where().place
        try:
            yield
        finally:
            self.session.goto(here)

    def calls_at(self, place: int, line: Line) -> List[str]:
        """What `calls` says of the opcode at a place, of which this is the line."""
        return self.reaches.texts_at(line.offset) if self._shown is None else self._shown.calls_at(place, line)

    def edit_all(self, edits: Sequence[Edit]) -> List[int]:
        """Makes edits, all or none, with the cursor before them, and goes back to the opcode where it was. Answers their places."""
        here = self._here = self.session.where().place
        done: List[Done] = []

        def back() -> None:
            for _ in done:
                self.session.undo()
        first = min((edit.place for edit in edits), default=here)
        if first < here:
            self.session.goto(first)
        self._edited_codes = self._codes_now()
        may_wait = len(self._edited_codes) > self._most_waited and len(edits) <= MOST_EDITS
        try:
            for edit in edits:
                code = self._edited_codes[edit.place] if edit.place < len(self._edited_codes) else 0
                put = Put.of(edit.word, edit.name, edit.values, edit.raw) if may_wait and is_known_edit(code, edit.word, edit.name) else None
                place = self._edit_one(edit)
                done.append(Done(edit.word, place, edit.name, bool(done), self._put_code(edit.word, place, CODE_BY_NAME.get(edit.name, 0)), put))
                self._here += SHIFTS[edit.word] if edit.place < self._here else 0
        except BaseException:
            back()
            self._return(here)
            raise
        self._changed([*self._edits, *done], [], back)
        return [edit.place for edit in done]

    def _codes_now(self) -> bytearray:
        """The codes of all opcodes."""
        return bytearray(self.lines.codes if self._base is None else self._codes)

    def _put_code(self, word: str, place: int, code: int) -> int:
        """Edits the codes of all opcodes, and answers the code that was at the place."""
        codes = self._edited_codes
        if word in ('insert', 'frame'):
            codes.insert(place, code or _FRAME)
            return 0
        was = codes[place]
        codes[place:place + 1] = bytes([code]) if word == 'replace' else b''
        return was

    def _put_back(self, edit: Done) -> None:
        """Takes an edit of the codes back."""
        if edit.what in ('insert', 'frame'):
            del self._edited_codes[edit.place]
        elif edit.what == 'replace':
            self._edited_codes[edit.place] = edit.was
        else:
            self._edited_codes.insert(edit.place, edit.was)

    def _return(self, here: int) -> None:
        """Goes back to a place, or as near to it as the pickle can be stepped."""
        reached = self.session.where().place
        if reached < here:
            here = min(here, self.session.where().places)
            with contextlib.suppress(Refused):  # (the next opcode is refused)
                self.run_to(here)

    def run_to(self, place: int) -> str:
        """Steps to a place, or to the opcode before it that is refused. Answers why it is not at the place, or nothing."""
        where = self.session.where()
        if where.place < place:
            end = min(place, where.places)
            with contextlib.suppress(Refused):  # (an opcode on the way is refused)
                for at in range(where.place + _PIECE, end, _PIECE):
                    self.session.goto(at)
                    self.tell(f'at {at:,}')
                self.session.goto(end)
                return ''
        if place >= where.places:
            ran = self.session.run()
            return '' if ran.why == 'end' else ran.text
        self.session.set_break(place)
        try:
            ran = self.session.run()
        finally:
            self.session.clear_break(place)
        return '' if ran.place == place else ran.text

    def _is_exact(self) -> bool:
        return super()._is_exact() if self._shown is None else self._shown.is_exact(self._made())

    @contextlib.contextmanager
    def before(self, place: int) -> Iterator[bool]:
        """For a while the cursor is at a place, and objects are as they are there. It is not where that is far, or behind a refused opcode."""
        here = self.session.where().place
        is_there = abs(place - here) <= _MOST_WALKED
        if is_there and place != here:
            try:
                self.session.goto(place)
            except Refused:
                is_there = False
        self.place, self._heap = self.session.where().place, None
        try:
            yield is_there
        finally:
            self.session.goto(here)
            self.place, self._heap = here, None

    def refusal(self) -> str:
        """Why the opcode at the cursor is refused; nothing where it is not."""
        return self.step_ahead()[1]

    def step_ahead(self) -> Tuple[Optional[Step], str]:
        """What the step over the opcode at the cursor does; or none, and why it is refused."""
        try:
            self.session.step()
        except Refused as error:
            return None, error.refusal
        step = self.session.trace()
        self.session.back()
        return step, ''

    @property
    def is_exact(self) -> bool:
        """Whether objects are shown as they are at the cursor, and not as they are at the end."""
        return self._is_exact()

    def _edit_one(self, edit: Edit) -> int:
        session = self.session
        if edit.word in ('replace', 'insert'):
            put = session.replace if edit.word == 'replace' else session.insert
            place = put(edit.place, edit.name, *edit.values, raw=edit.raw)
        elif edit.word == 'frame':
            place = session.frame(edit.place, edit.members)
        else:
            place = getattr(session, edit.word)(edit.place)
        return place

    def undo_back(self, is_redo: bool) -> List[Done]:
        """Undoes what was edited last, or makes it again, from before its places where the cursor is behind them. Answers the edits."""
        self._here = self.session.where().place
        step, back = (self.session.redo, self.session.undo) if is_redo else (self.session.undo, self.session.redo)
        edits = _together(self._undone, is_redo) if is_redo else _together(self._edits, is_redo)
        if self._shown is not None and (is_redo or self._base is None or len(self._edits) - len(edits) < len(self._base.edits)):
            raise Unknown
        self.session.goto(min([self._here, *(edit.place for edit in edits)]))
        try:
            for _ in range(len(edits) or 1):
                step()
        except Refused:
            self._return(self._here)
            raise
        self._edited_codes = self._codes_now()
        for edit in edits:
            if is_redo:
                self._put_code(edit.what, edit.place, CODE_BY_NAME.get(edit.name, 0))
            else:
                self._put_back(edit)
            shift = SHIFTS[edit.what] if edit.place < self._here else 0
            self._here += shift if is_redo else -shift
        count, turned = len(edits), list(edits)
        left, more = (self._undone[:-count], self._edits) if is_redo else (self._edits[:-count], self._undone)
        lists = ([*more, *turned], left) if is_redo else (left, [*more, *turned])
        self._changed(*lists, lambda: [back() for _ in edits], 'redo' if is_redo else 'undo')
        return edits

    @property
    def edits_made(self) -> Tuple[Done, ...]:
        """The edits that are not undone."""
        return tuple(self._edits)

    def at_cursor(self) -> Where:
        """Where the session is. From here on objects are shown as they are there."""
        where = self.session.where()
        self.place, self._heap = where.place, None
        return where

    # --- Objects by their values ---

    def is_plain(self, number: int) -> bool:
        """Whether an object is a plain value."""
        return self.final_kind(number) in PLAIN_KINDS

    def is_short(self, number: int) -> bool:
        """Whether an object holds so little that an expression looks at all of it."""
        return not self._final.is_long(number, _MOST_HELD)

    def object_at(self, number: int) -> Optional[Object]:
        """An object, unless its text is so long that it was not kept whole."""
        heap = self._objects()
        return None if not 0 <= number < len(heap) or heap.is_long(number, _MOST_LINE) else object_of(heap.fields(number))

    def held(self, number: int) -> Iterator[Tuple[Optional[int], str, int]]:
        """What an object holds: for each the object that is its key, if it has one, how it was put in, and its number."""
        heap = self._objects()
        keys: List[int] = []
        is_dict = self.kind(number) == 'dict'
        for place, held in enumerate(heap.held(number) if 0 <= number < len(heap) else ()):
            if held.how == 'key' or is_dict and not held.how and not place % 2:
                keys.append(held.number)
            else:
                yield keys.pop() if keys else None, held.how, held.number

    def held_count(self, number: int) -> int:
        """How many there are of these."""
        heap = self._objects()
        return heap.held_count(number) if 0 <= number < len(heap) else 0

    def first_held(self, number: int, most: int) -> Tuple[List[HeldObject], int]:
        """The first of what an object holds, each key apart, and how many there are besides."""
        heap = self._objects()
        if not 0 <= number < len(heap):
            return [], 0
        first = list(islice(heap.held(number), most))
        return first, heap.held_count(number, apart=True) - len(first)

    def kind(self, number: int) -> str:
        """The kind of an object, if there is such an object."""
        heap = self._objects()
        return heap.kind(number) if 0 <= number < len(heap) else ''

    def final_kind(self, number: int) -> str:
        """The kind of an object of this number, wherever the cursor is."""
        return self._final.kind(number)

    def final_object(self, number: int) -> Optional[Object]:
        """An object as it is at the end, unless its line is long."""
        return None if self._final.is_long(number, _MOST_LINE) else object_of(self._final.fields(number))

    def described(self, number: int, depth: int = 1) -> str:
        """An object in a few words: its value, or what is called."""
        with contextlib.suppress(NoResult):  # (how it is changed is not known)
            made = self.object_at(number)
            if made is not None:
                return self._described(made, depth)
        return self.brief(number)[:120]

    def _described(self, made: Object, depth: int) -> str:
        if made.kind in PLAIN_KINDS:
            value = kind_value(made.kind, made.text)
            return shown_value(changed(value, made, self._key, self._key) if isinstance(value, bytearray) else value)
        if made.kind in ('global', 'stack-global', 'inst'):
            named = shown_value(self._named(made))
            return named if made.kind != 'inst' else named + self._inside(made.parts, depth, _CALL)
        if made.kind in BRACKETS:
            return self._container(made, depth)
        return self._called(made, depth)

    def _named(self, made: Object) -> Global:
        if isinstance(made.text, tuple):
            return Global(*made.text)
        texts = [self.object_at(part) for part in made.parts]
        module, name = (text.text if text is not None and isinstance(text.text, bytes) else b'?' for text in texts)
        return Global(module, name)

    def _container(self, made: Object, depth: int) -> str:
        held = changed(list(made.parts), made, self._key)
        if made.kind != 'dict':
            members = list({self._key(number): number for number in reversed(held)}.values())[::-1] if 'set' in made.kind else held
            return self._inside(members, depth, BRACKETS[made.kind], made.kind)
        keys: Dict[Any, int] = {}
        values: Dict[Any, int] = {}
        for key, value in zip(held[::2], held[1::2]):
            keys.setdefault(self._key(key), key)
            values[self._key(key)] = value
        if keys and depth <= 0:
            return f'dict of {len(keys)}'
        shown = [f'{self.described(key, 0)}: {self.described(value, depth - 1)}' for key, value in islice(zip(keys.values(), values.values()), _MOST_ITEMS)]
        return '{' + ', '.join(shown + _more(len(keys))) + '}'

    def _key(self, number: int, depth: int = _MOST_KEY) -> Any:
        """An object as a key, a member or an index, so that those are the same that Python takes for the same: else a Ref."""
        made = self.object_at(number)
        value: Any = Ref(number)
        if made is not None and made.kind in ('tuple', 'frozenset') and depth:
            parts = [self._key(part, depth - 1) for part in made.parts]
            return tuple(parts) if made.kind == 'tuple' else frozenset(parts)
        if made is not None and made.kind == 'global':
            value = self._named(made)
        elif made is not None and made.kind in PLAIN_KINDS and made.kind != 'bytearray':
            value = kind_value(made.kind, made.text)
        return value if value == value else Ref(number)  # (NaN is itself alone)

    def _inside(self, numbers: Sequence[int], depth: int, brackets: Tuple[str, str], kind: str = '') -> str:
        if kind and numbers and depth <= 0:
            return f'{kind} of {len(numbers)}'
        if 'set' in kind and not numbers:
            return f'{kind}()'
        shown = [self.described(number, depth - 1) for number in numbers[:_MOST_ITEMS]] if depth > 0 else ['..'] * bool(numbers)
        comma = ',' if kind == 'tuple' and len(numbers) == 1 else ''
        return brackets[0] + ', '.join(shown + (_more(len(numbers)) if depth > 0 else [])) + comma + brackets[1]

    def _called(self, made: Object, depth: int) -> str:
        if made.kind in ('persistent', 'buffer', 'readonly', 'ext'):
            given = [shown_value(made.text)] if made.text is not None else [self.described(part, 0) for part in made.parts]
            return f'{made.kind}({", ".join(given)})'
        name, *rest = made.parts
        arguments = self.object_at(rest[0]) if made.kind != 'obj' and rest else None
        numbers = rest if made.kind == 'obj' else arguments.parts if arguments is not None and arguments.kind == 'tuple' else rest
        return self.described(name, 0) + ('.__new__' if made.kind.startswith('new') else '') + self._inside(numbers, depth, _CALL)


# What is read of a pickle.
_READ = ('lines', '_final', 'reaches', 'listed', 'version')
# Of at most so many bytes it is kept.
_MOST_KEPT = 1 << 28
_MOST_LINE = 400
_MOST_HELD = 20_000  # (letters of its line)
_CALL = '(', ')'
_FRAME = CODE_BY_NAME['FRAME']
_READONLY = CODE_BY_NAME['READONLY_BUFFER']
_MOST_WALKED = 100_000
_PIECE = 50_000  # (opcodes that are stepped over at once)
# So far from the cursor something is shown before the pickle is read, and so many opcodes are shown behind one.
_MOST_AHEAD = 20_000
_SHOWN_AFTER = 3


def _more(count: int) -> List[str]:
    return [f'.. {count - _MOST_ITEMS} more'] if count > _MOST_ITEMS else []


def _together(edits: List[Done], is_redo: bool) -> List[Done]:
    """The edits of one line, which are the last of these: the latest first, or where they are made again, the earliest."""
    found: List[Done] = []
    for edit in reversed(edits):
        if is_redo and found and not edit.is_joined:
            break
        found.append(edit)
        if not is_redo and not edit.is_joined:
            break
    return found
