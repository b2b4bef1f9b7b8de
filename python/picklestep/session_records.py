"""Records of the answers to lines of a session."""

from __future__ import annotations

from dataclasses import dataclass, field
from typing import Optional, Tuple

from .listing_records import Object
from .records import SLOTS, Argument, End

__all__ = ['Changed', 'Changer', 'Item', 'Made', 'Mark', 'Ran', 'Shown', 'Step', 'Stored', 'Where']


@dataclass(frozen=True, **SLOTS)
class Item:
    """A line of a session's `items`: an opcode with its place, whether the cursor is at it, and whether it has a breakpoint.

    >>> import picklestep
    >>> with picklestep.Session(b'N.') as session:
    ...     session.items()[1]
    Item(place=1, offset=1, name='STOP', argument=None, at_cursor=False, has_break=False)
    """

    place: int
    offset: int
    name: str
    argument: Argument
    at_cursor: bool
    has_break: bool


@dataclass(frozen=True, **SLOTS)
class Mark:
    """An open mark on the stack, and the place of the opcode that set it.

    >>> import picklestep
    >>> with picklestep.Session(b'(N.') as session:
    ...     session.step(), session.stack()
    (1, (Mark(place=0),))
    """

    place: int


@dataclass(frozen=True, **SLOTS)
class Shown:
    """A line of a session's `show`: an object and how deep it lies. An object that comes again is only its number.

    >>> import picklestep
    >>> with picklestep.Session(b'N.') as session:
    ...     session.step(), session.show(0)[0].depth
    (1, 0)
    """

    depth: int
    number: int
    object: Optional[Object]


@dataclass(frozen=True, **SLOTS)
class Ran:
    """Where a session's `run` stopped, and why: 'end', 'breakpoint' or 'refused'. `text` is the program's words for it, and `refusal` why the opcode
    there is refused, if it is. `code` is the code of the refusal, or of the fault at the end, or ''.

    >>> import picklestep
    >>> with picklestep.Session(b'N0g5\\n.') as session:
    ...     ran = session.run()
    >>> ran, ran.refusal
    (Ran(place=2, why='refused', text='refused, S3 no memo entry 5'), 'S3 no memo entry 5')
    """

    place: int
    why: str
    text: str
    refusal: str = field(default='', repr=False, compare=False)
    code: str = field(default='', repr=False, compare=False)


@dataclass(frozen=True, **SLOTS)
class Where:
    """Where a session is: the cursor's place, the number of places, the cursor's offset, how many buffers were asked for, the numbers
    of the results (none before STOP), and how the pickle ends; and how many objects were made, and how many objects, marks and entries are on the
    stack and in the memo.

    >>> import picklestep
    >>> with picklestep.Session(b'N.') as session:
    ...     where = session.where()
    >>> where.place, where.places, where.objects, where.end.how
    (0, 2, 0, 'stopped')
    """

    place: int
    places: int
    offset: int
    buffers: int
    results: Tuple[int, ...]
    end: End
    objects: int = 0
    on_stack: int = 0
    marks: int = 0
    in_memo: int = 0


@dataclass(frozen=True, **SLOTS)
class Changed:
    """An object that a step changed, and how many changes it got: its last ones.

    >>> import picklestep
    >>> with picklestep.Session(b']Na.') as session:
    ...     session.goto(3), session.trace().changed
    (3, Changed(number=0, changes=1))
    """

    number: int
    changes: int


@dataclass(frozen=True, **SLOTS)
class Stored:
    """An entry that a step put into the memo: its key, the object under it, and the one that was there before, if there was one.

    >>> import picklestep
    >>> with picklestep.Session(b'Nq\\x05.') as session:
    ...     session.goto(2), session.trace().stored
    (2, Stored(key=5, number=0, before=None))
    """

    key: int
    number: int
    before: Optional[int]


@dataclass(frozen=True, **SLOTS)
class Step:
    """What the step over an opcode did: whether a further pickle began with it; the object that it made, and the one that it put on the stack; the
    objects that it took off the stack, the lowest first, without one that it changed; the place of the MARK that it took, and whether it set a mark;
    the object that it changed; the entry of the memo; and how many buffers were asked for after it, and the results.

    >>> import picklestep
    >>> with picklestep.Session(b'K\\x01K\\x02\\x86.') as session:
    ...     session.goto(3), session.trace().made, session.trace().took
    (3, 2, (0, 1))
    """

    place: int
    offset: int
    name: str
    argument: Argument
    begins: bool
    made: Optional[int]
    pushed: Optional[int]
    took: Tuple[int, ...]
    cut_mark: Optional[int]
    set_mark: bool
    changed: Optional[Changed]
    stored: Optional[Stored]
    buffers: int
    results: Tuple[int, ...]


@dataclass(frozen=True, **SLOTS)
class Changer:
    """An opcode that changed an object: its place and its offset, and how many changes the object got.

    >>> import picklestep
    >>> with picklestep.Session(b']Na.') as session:
    ...     session.goto(3), session.made(0).changed
    (3, (Changer(place=2, offset=2, changes=1),))
    """

    place: int
    offset: int
    changes: int


@dataclass(frozen=True, **SLOTS)
class Made:
    """Which opcode made an object, by its place and its offset, and the opcodes that changed it, the earliest first. All of these are before the cursor.
    `since` is the first place whose record is kept: with a `window` nothing is known of what is before it, and `place` and `offset` may be None.

    >>> import picklestep
    >>> with picklestep.Session(b'NK\\x01\\x86.') as session:
    ...     session.goto(3), session.made(1)
    (3, Made(number=1, place=1, offset=1, changed=(), since=0))
    """

    number: int
    place: Optional[int]
    offset: Optional[int]
    changed: Tuple[Changer, ...]
    since: int
