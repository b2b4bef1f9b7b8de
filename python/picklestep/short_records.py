"""Records of short answers: those of `form`, `gate`, `reach`, `members` and `same`."""

from __future__ import annotations

from dataclasses import dataclass
from typing import Optional, Tuple

from .records import SLOTS

__all__ = ['GateAnswer', 'Member', 'OtherForm', 'ReachAnswer', 'SameAnswer']


@dataclass(frozen=True, **SLOTS)
class OtherForm:
    """Where a pickle is first in another form than picklers write, and why. `item` counts the opcodes before that, `offset` the bytes. `rule` is the
    name of the reason.

    >>> import picklestep
    >>> picklestep.form(b'](Ne.')
    OtherForm(item=3, offset=3, reason='items that picklers give in another number at once', rule='batch_size')
    """

    item: int
    offset: int
    reason: str
    rule: str


@dataclass(frozen=True, **SLOTS)
class GateAnswer:
    """What `gate` says of a file. It is true where it passes.

    `line` is the program's line. `kind` is 'passes', 'not allowed' (no list allows something that it does, or what it gives to a
    call), 'other form' (no writer writes it so) or 'ended' (it does not come to its STOP); or of a member of an archive 'broken' (it does not open)
    or 'an archive', which is not looked at; or of what a packed file opens to 'a container', which is not either; or of a whole file 'not looked at'
    (for its names, or for what it unpacks to). `reason` says what that is, and `offset` where: in the member, if `member` names one, which is the
    first that does not pass, and in its packed bytes, if it is broken; in what a packed file opens to, if `member` is '(gzip)' or '(zlib)'; or in
    what is behind the header of an `.npy` file, if `is_behind_header`. `address` is that of what was opened before, and is said of alone; '' where that
    is the source itself.

    >>> import picklestep
    >>> bool(picklestep.gate(b'N.')), picklestep.gate(b'J\\x01\\0\\0\\0.').kind
    (True, 'other form')
    """

    passes: bool
    line: str
    kind: str
    reason: str = ''
    offset: Optional[int] = None
    member: Optional[str] = None
    is_behind_header: bool = False
    address: str = ''

    def __bool__(self) -> bool:
        return self.passes


@dataclass(frozen=True, **SLOTS)
class ReachAnswer:
    """What `reach` says of bytes. It is true where a loader reaches something, or may do so.

    `text` is the line that the program prints of it. Where something is reached, `offset` is where the opcode begins by which it is, `line` has
    this opcode and its argument, and `names` the two texts of GLOBAL and INST; `what` is 'import', 'extension', 'persistent' or 'buffer'. One loader
    that reaches it does with frames what `frames` says ('ignored', 'buffered' or 'held'), and so many bytes of one are still ahead, `in_buffer` or
    only shown. Where nothing is, each loader ends at `offset` or before it; `whatever_follows` says that nothing is reached either where other bytes
    follow these. Where there are too many ways to read the bytes, something counts as reached, and `offset` is None.

    >>> import picklestep
    >>> answer = picklestep.reach(b'K\\x01cos\\nsystem\\n.')
    >>> answer.line, answer.what, answer.names
    ("GLOBAL 'os' 'system'", 'import', (b'os', b'system'))
    """

    reached: bool
    text: str
    offset: Optional[int] = None
    line: str = ''
    whatever_follows: bool = False
    what: str = ''
    names: Optional[Tuple[bytes, bytes]] = None
    frames: str = ''
    in_buffer: int = 0

    def __bool__(self) -> bool:
        return self.reached


@dataclass(frozen=True, **SLOTS)
class Member:
    """A member of an archive: its name, where its bytes begin, how many it has, and to how many they are `deflated` (None where they are stored as
    they are). `address` is what other functions open it by, where the archive is a file.

    >>> Member('a.pkl', 35, 3).deflated is None
    True
    """

    name: str
    offset: int
    size: int
    deflated: Optional[int] = None
    address: str = ''


@dataclass(frozen=True, **SLOTS)
class SameAnswer:
    """Whether two pickles make the same objects. It is true where they do. `text` is the line that the program prints: it says how they differ.

    >>> import picklestep
    >>> answer = picklestep.same(b'K\\x05.', b'K\\x06.')
    >>> bool(answer), answer.text
    (False, 'another object #0')
    """

    is_same: bool
    text: str

    def __bool__(self) -> bool:
        return self.is_same
