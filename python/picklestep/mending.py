"""What can be kept of a pickle that is cut off or damaged, as a pickle that reads to its STOP.

`mending_tries` finds what a copy in text mode added, or one wrong byte. Where that keeps no more, what cannot be read is cut off. Frames that do not fit
are taken away, a protocol that there is not is replaced, bytes that are no opcodes are cut off, and a STOP is added. What was under way is closed as
picklers close it: what stands above a mark goes into the list, set or dictionary below the mark, else into a tuple. Nothing is called, and no state is
given, that the pickle had not called and given by then.

The edits are those of a session, so it is the proved program that makes them and says how the pickle ends.
"""

from __future__ import annotations

import contextlib
from dataclasses import dataclass
from itertools import islice
from typing import Dict, List, Optional, Sequence, Set, Tuple

from .addresses import content_in
from .conversation import REFUSED, ran_of, text_of
from .errors import PicklestepError, Refused
from .listed import FRAME_SIZE, fields_of
from .listing_records import Object
from .mending_tries import Try, byte_tries, frame_tries, opcodes_of, without_returns
from .opcodes import BY_NAME
from .program import run_program
from .records import End
from .session import Session
from .session_records import Item, Mark
from .sources import Input, OwnFile, Source
from .tasks import modes

__all__ = ['Mended', 'TooCrooked', 'Try', 'mended']

# A pickle with more frames that do not fit, or more places to cut, is not mended.
_MOST_ROUNDS = 200
# So many objects are dropped one by one; more than these together with all down to the mark.
_MOST_DROPPED = 1000
# So many opcodes are gone back over to find the bytes of what is dropped one by one; and so many of the bytes are shown.
_MOST_GONE_BACK = 100_000
_MOST_IN_HEX = 16
# The bytes of a NONE and a STOP that were added.
_ADDED = 2
# So many objects are looked at to see whether one can be a key.
_MOST_LOOKED_AT = 10_000

# The faults of frames.
# The refusal of a PROTO whose protocol is above the highest, the protocol that has this opcode, and its size.
_OF_PROTOCOL = 'S6'
_HIGHEST = 5
# The faults of a pickle that ends after a whole opcode before its STOP, within an opcode, and within a frame.
_ENDED, _TRUNCATED, _PAST_END = 'F1', 'F3', 'F7'
# A pickle that ends within an opcode was likely cut off if no more bytes of the opcode are there.
_MOST_OF_OPCODE = 9
_OF_PROTO = 2
_PROTO_SIZE = 2

_UNHASHABLE = ('list', 'dict', 'set', 'bytearray')
_FILLERS = {'list': 'APPENDS', 'set': 'ADDITEMS', 'dict': 'SETITEMS', 'append': 'APPENDS', 'add': 'ADDITEMS', 'set in': 'SETITEMS'}
_TUPLES = {2: 'TUPLE2', 3: 'TUPLE3'}


class TooCrooked(PicklestepError):
    """A pickle with so many faults that nothing is mended.

    >>> import picklestep
    >>> picklestep.mended(b'N' + b'\\x95\\xff\\xff\\0\\0\\0\\0\\0\\0' * 300)
    Traceback (most recent call last):
     ...
    picklestep.mending.TooCrooked: it has more than 200 faults
    """


@dataclass(frozen=True)
class Mended:
    """A pickle that reads to its STOP, and what was done to it, a line each. There are none where it was whole. `kept` is how many bytes come after
    its STOP, which stay as they are and were not read.

    Where something else than to cut the pickle off keeps a part of it, `tries` has what each way keeps, and `taken` is the number of the one that was
    taken, from 1. `changes` is how many changes of a byte or a length were made to find them.

    >>> import picklestep
    >>> picklestep.mended(b']K\\x01a').steps
    ('4: STOP added: F1 ended at 4',)
    """

    content: bytes
    steps: Tuple[str, ...]
    kept: int = 0
    tries: Tuple[Try, ...] = ()
    taken: int = 0
    changes: int = 0


def mended(source: Source, many: bool = False, choose: Optional[int] = None) -> Mended:
    """What can be kept of a pickle; with `many`, of several pickles one after another. Nothing of it is run.

    Of all tries the one is taken that keeps most opcodes, but none with a changed byte that adds an import or a call. `choose` is the number of another.
    Raises PicklestepError where there is no such try, and where the pickle has too many faults.

    >>> made = mended(b'\\x80\\x04\\x95\\x40\\0\\0\\0\\0\\0\\0\\0]\\x94(K\\x01K\\x02M')
    >>> made.content
    b'\\x80\\x04]\\x94(K\\x01K\\x02e.'
    >>> for step in made.steps:
    ...     print(step)
    2: FRAME 64 taken away: F7 frame past the end at 2
    9: 1 byte cut off (4d): F3 truncated at 9
    9: STOP added
    9: APPENDS added: 2 objects into list #0
    """
    content = content_in(source)
    end, _ = _ending(content, many)
    tries, changes = ([], 0) if end.code in (None, _OF_PROTOCOL) else _tries(content, many, end)
    if choose is None or end.code is None:
        taken = next((number for number, each in enumerate(tries, 1) if not each.added), 0)
    elif 0 < choose <= len(tries):
        taken = choose
    else:
        raise PicklestepError(f'there is no try {choose}')
    if taken:
        chosen = tries[taken - 1]
        return Mended(chosen.content, chosen.steps, chosen.kept, tuple(tries), taken, changes)
    return _mended_by_cutting(content, many)


def _tries(content: bytes, many: bool, end: End) -> Tuple[List[Try], int]:
    """Ways to mend what reads to an end, the best one first, and how many changes of bytes were tried. None where there is no way but to cut it off."""
    plain: Optional[Try] = None
    found: List[Try] = []
    changes, less = 0, without_returns(content)
    if less is not None:
        plain, other = _by_cutting(content, many), _by_cutting(less[0], many, less[1])
        found = [other] if other.opcodes > plain.opcodes else []
    if not found and end.code == _PAST_END:
        found, changes = frame_tries(content, many, end)
    elif not (found or _is_no_damage(content, many, end)):
        found, changes = byte_tries(content, many, end)
    if not found:
        return [], changes
    plain = plain or _by_cutting(content, many)
    better = [each for each in found if each.opcodes >= plain.opcodes]
    # (the sort keeps the order of equal ones: what changes no byte comes first)
    return sorted([plain, *better], key=lambda each: -each.opcodes) if better else [], changes


def _is_no_damage(content: bytes, many: bool, end: End) -> bool:
    """Whether a pickle was likely cut off, or is one of several by a pickler that keeps its memo: it is refused where objects of earlier ones come."""
    is_short = end.code == _TRUNCATED and len(content) - (end.offset or 0) <= _MOST_OF_OPCODE
    return end.code == _ENDED or is_short or many and end.how == 'refused'


def _by_cutting(content: bytes, many: bool, *before: str) -> Try:
    made = _mended_by_cutting(content, many, *before)
    return Try(made.content, made.steps, opcodes_of(made.content, many), kept=made.kept)


def _mended_by_cutting(content: bytes, many: bool, *before: str) -> Mended:
    """The pickle without what cannot be read, after these steps."""
    steps = list(before)
    is_cut = False
    for _ in range(_MOST_ROUNDS):
        end, read = _ending(content, many)
        if end.code is None or end.offset is None:
            return Mended(_closed(content, many, steps) if is_cut else content, tuple(steps), len(content) - read)
        code, offset, text = end.code, end.offset, end.text
        if end.of_frame:
            content = _without_frame(content, many, offset, text, code == 'F8', steps)
        elif code == _OF_PROTOCOL:
            content = _with_protocol(content, many, offset, text, steps)
        elif many and offset < len(content) and _ending(content[:offset], many)[0].is_stopped:
            steps.append(_cut_off(content, offset, text))
            content = content[:offset]
        else:
            content, is_cut = _cut(content, offset, f'refused, {text}' if end.how == 'refused' else text, steps), True
    raise TooCrooked(f'it has more than {_MOST_ROUNDS} faults')


def _ending(content: bytes, many: bool) -> Tuple[End, int]:
    """How reading ends, and at which offset. (A listing would say so, too, but has four blanks for each open mark in each line.)"""
    with Session(content, many=many) as session:
        text, code = _run(session)
        where = session.where()
        return End('refused', code, text, where.offset, where.place) if text else where.end, where.offset


def _run(session: Session) -> Tuple[str, str]:
    """Runs to the end, or to an opcode that is refused: then it answers why, and the code of that."""
    try:
        ran = session.run()
        return ran.refusal, ran.code
    except Refused as error:  # (it is the first one)
        return error.refusal, error.inner


def _with_protocol(content: bytes, many: bool, offset: int, text: str, steps: List[str]) -> bytes:
    """The bytes with a PROTO that loaders know: of the protocol that the opcodes need. (Without one, names would be those of Python 2.)"""
    known = content[:offset + 1] + bytes([_HIGHEST]) + content[offset + _PROTO_SIZE:]
    with Session(known, many=many) as session:
        _run(session)
        names = {item.name for item in islice(session.items(), session.where().place) if item.offset >= offset}
    protocol = max([BY_NAME[name].protocol for name in names - {'PROTO'}] + [_OF_PROTO])
    steps.append(f'{offset}: PROTO {content[offset + 1]} replaced by PROTO {protocol}: {text}')
    return content[:offset + 1] + bytes([protocol]) + content[offset + _PROTO_SIZE:]


def _without_frame(content: bytes, many: bool, offset: int, text: str, is_crossed: bool, steps: List[str]) -> bytes:
    """The bytes without the FRAME that does not fit: the one at an offset, or the last before it, which an opcode crosses."""
    if is_crossed:
        with Session(content, many=many) as session:
            items = session.items()
        offset = next(item.offset for item in map(items.__getitem__, range(len(items) - 1, -1, -1)) if item.name == 'FRAME')
    length = int.from_bytes(content[offset + 1:offset + FRAME_SIZE], 'little')
    steps.append(f'{offset}: FRAME {length} taken away: {text}')
    return content[:offset] + content[offset + FRAME_SIZE:]


def _cut(content: bytes, offset: int, text: str, steps: List[str]) -> bytes:
    """The bytes up to an offset, then NONE (since STOP is refused where nothing is built) and STOP."""
    count = len(content) - offset
    if count:
        steps.append(_cut_off(content, offset, text))
    steps.append(f'{offset}: STOP added' + ('' if count else f': {text}'))
    return content[:offset] + b'N.'


def _cut_off(content: bytes, offset: int, text: str) -> str:
    """The step that cuts off what comes from an offset on."""
    return f'{offset}: {_bytes(len(content) - offset)} cut off ({_in_hex(content[offset:])}): {text}'


def _in_hex(piece: bytes) -> str:
    """How bytes that are dropped begin."""
    return piece[:_MOST_IN_HEX].hex(' ') + (' ..' if len(piece) > _MOST_IN_HEX else '')


def _closed(content: bytes, many: bool, steps: List[str]) -> bytes:
    """A pickle that ends in NONE and STOP which were added, with what was under way closed."""
    with Session(content, many=many) as session, _Dropped(content, many) as dropped:
        session.goto(session.where().places - 2)
        closing = _Closing(session, many, steps, dropped)
        if closing.close():
            closing.script.append(f'delete {closing.place}')
    with Input(content) as given, OwnFile(is_saved_to=True) as made:
        script = ''.join(f'{line}\n' for line in (*closing.script, 'run'))
        words = ['debug', '--json', given.path, *modes(many), '--save', made.path]
        answers = run_program(words, [*given.files, *made.files], script.encode('ascii')).splitlines()
        if any(line.startswith(REFUSED) for line in answers) or ran_of(fields_of(answers[-1])).why != 'end':
            raise PicklestepError(f'what was under way cannot be closed: {text_of(answers[-1]).rstrip()}')
        return made.content()


class _Dropped(contextlib.ExitStack):
    """Where the bytes are that built what is on the stack before an added NONE and STOP. It goes back through a session of its own: what is asked
    later lies lower on the stack."""

    def __init__(self, content: bytes, many: bool) -> None:
        super().__init__()
        self._content, self._many = content, many
        self._session: Optional[Session] = None
        self._left = _MOST_GONE_BACK

    def of_mark(self, place: int) -> str:
        """Those from a mark on, which is at a place."""
        session = self._opened()
        session.goto(place)
        return self._said(session.where().offset, len(self._content) - _ADDED)

    def of_objects(self, heights: Sequence[int], mark: int) -> List[str]:
        """Those of the uppermost objects, of which each has so many objects and marks below it; the highest comes first. `mark` is the place of the last
        mark below them. From there on they are told together where it is too far to go back."""
        said: List[str] = []
        end = len(self._content) - _ADDED
        for height in heights:
            begin = self._begin(height)
            if begin is None:
                return [*said, *[f'among {self.of_mark(mark)}'] * (len(heights) - len(said))]
            said.append(self._said(begin, end))
            end = begin
        return said

    def _begin(self, height: int) -> Optional[int]:
        """The offset from which the object was built that has so many objects and marks below it: there were no more the last time."""
        session = self._opened()
        where = session.where()
        while where.on_stack + where.marks > height:
            if not self._left:
                return None
            self._left -= 1
            session.back()
            where = session.where()
        return where.offset

    def _opened(self) -> Session:
        if self._session is None:
            self._session = self.enter_context(Session(self._content, many=self._many))
            self._session.goto(self._session.where().places - 2)
        return self._session

    def _said(self, begin: int, end: int) -> str:
        where = f'bytes {begin} to {end - 1}' if end - begin > 1 else f'byte {begin}'
        return f'{where}: {_in_hex(self._content[begin:end])}'


class _Closing:
    """Closes what is under way before the NONE at the cursor. `script` has the edits, as lines of a session: there may be as many as open marks."""

    def __init__(self, session: Session, many: bool, steps: List[str], dropped: _Dropped) -> None:
        where = session.where()
        self.session = session
        self._dropped = dropped
        self._many = many
        self.script: List[str] = []
        # The place of the NONE as the session has it, and with the edits.
        self._begin = self.place = where.place
        self.steps = steps
        # What is on the stack, from the bottom: the numbers of objects, cut at the marks.
        self.sections: List[List[int]] = [[]]
        # The places of the open marks, and how many objects and marks there are up to each.
        self._marks: List[Tuple[int, int]] = []
        for height, entry in enumerate(session.stack(), 1):
            if isinstance(entry, Mark):
                self.sections.append([])
                self._marks.append((entry.place, height))
            else:
                self.sections[-1].append(entry.number)
        self.made = where.objects
        self.added: List[Object] = []  # (the numbers of these come after those of the objects that were made)
        self._offset = where.offset
        self._fillers: Dict[int, Tuple[Optional[str], str]] = {}
        self._keys: Set[int] = set()  # objects that can be keys

    def close(self) -> bool:
        """Answers whether one object is on the stack then; else there is none."""
        while len(self.sections) > 1:
            self._close_mark(self.sections.pop(), *self._marks.pop())
        bottom = self.sections[0]
        if len(bottom) > 1:
            self._gather(len(bottom))
        elif not bottom:
            self.steps.append(f'{self._offset}: NONE added: nothing was built')
        return bool(bottom)

    # --- What stands above a mark ---

    def _close_mark(self, items: List[int], mark: int, height: int) -> None:
        below = self.sections[-1]
        filler, target = self._filler(below[-1]) if below else (None, '')
        if not items:
            self._add('POP_MARK', 'nothing stands above the mark')
        elif filler is None:
            self._add('TUPLE', f'{_objects(len(items))} above the mark')
            below.append(self._new(items))
        else:
            self._fill(items, filler, target, mark, height)

    def _filler(self, number: int) -> Tuple[Optional[str], str]:
        """The opcode by which a pickler fills the object below a mark. None where that is no container."""
        if number not in self._fillers:
            self._fillers[number] = self._filler_of(self._object(number))
        return self._fillers[number]

    def _filler_of(self, made: Object) -> Tuple[Optional[str], str]:
        ways = [change.how if change.key is None else 'set in' for change in made.changes if change.how in ('append', 'add', 'set')]
        way = made.kind if made.kind in ('list', 'set', 'dict') else ways[-1] if ways else ''
        return _FILLERS.get(way), f'{made.kind} #{made.number}'

    def _fill(self, items: List[int], filler: str, target: str, mark: int, height: int) -> None:
        kept = len(items)
        if filler == 'SETITEMS':
            kept = next((at for at in range(0, len(items) - 1, 2) if not self._can_be_key(items[at])), len(items) // 2 * 2)
        elif filler == 'ADDITEMS':
            kept = next((at for at, number in enumerate(items) if not self._can_be_key(number)), len(items))
        if not kept or len(items) - kept > _MOST_DROPPED:
            self._add('POP_MARK', f'{_objects(len(items))} above the mark dropped ({self._dropped.of_mark(mark)}): no whole item of {target}')
            return
        left = range(len(items) - 1, kept - 1, -1)
        for at, said in zip(left, self._dropped.of_objects([height + at for at in left], mark) if left else ()):
            self._add('POP', f'#{items[at]} dropped ({said}): no whole item of {target}')
        self._add(filler, f'{_objects(kept)} into {target}')

    # --- What is left ---

    def _gather(self, count: int) -> None:
        """Puts all that is left on the stack into a tuple."""
        if count in _TUPLES:
            self._add(_TUPLES[count], f'{_objects(count)} on the stack')
            return
        first = self._first()
        self.script.append(f'insert {first.place} MARK')
        self.place += 1
        self._offset += 1
        self.steps.append(f'{first.offset}: MARK added')
        self._add('TUPLE', f'{_objects(count)} on the stack')

    def _first(self) -> Item:
        """The first opcode of the pickle that makes something: that behind PROTO. (Of several pickles the last one is under way.)"""
        begin = 0
        if self._many:
            items = self.session.items(0, self._begin)
            begin = next((at for at in range(self._begin, 0, -1) if items[at - 1].name == 'STOP'), 0)
        first, second = self.session.items(begin, begin + 2)
        return second if first.name == 'PROTO' else first

    # --- Edits and objects ---

    def _add(self, name: str, why: str) -> None:
        """Puts an opcode, which is a byte alone, behind all that was built."""
        self.script.append(f'insert {self.place} {name}')
        self.steps.append(f'{self._offset}: {name} added: {why}')
        self.place += 1
        self._offset += 1

    def _new(self, items: List[int]) -> int:
        """The number of the tuple of these items that was made last."""
        number = self.made + len(self.added)
        self.added.append(Object(number, 'tuple', None, tuple(items), ()))
        return number

    def _object(self, number: int) -> Object:
        return self.session._object(number) if number < self.made else self.added[number - self.made]

    def _can_be_key(self, number: int) -> bool:
        """Whether an object can be a key or a member of a set, as far as the pickle shows it."""
        waiting, seen = [number], {number}
        for _ in range(_MOST_LOOKED_AT):
            if not waiting:
                self._keys |= seen
                return True
            made = self._object(waiting.pop())
            if made.kind in _UNHASHABLE:
                return False
            if made.kind in ('tuple', 'frozenset'):
                new = set(made.parts) - self._keys - seen
                seen |= new
                waiting.extend(new)
        return False


def _bytes(count: int) -> str:
    return f'{count} bytes' if count > 1 else '1 byte'


def _objects(count: int) -> str:
    return f'{count} objects' if count > 1 else '1 object'
