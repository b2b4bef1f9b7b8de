"""Where bytes lead the loaders of pickles that begin at the first of them. The program's `reach` says it, proved: whatever a loader does with
frames, and whatever is around it.

That is asked for loaders that have nothing but the bytes. A loader that knows persistent ids, numbers of copyreg or buffers goes on where these
end: of it `calls` says where it comes to, which is proved for each of its readings. Only from the fourth pickle on, as torch has it, a persistent
id counts by itself, since images begin with one.
"""

from __future__ import annotations

from dataclasses import dataclass, field, replace
from typing import TYPE_CHECKING, NamedTuple, Optional, Sequence, Tuple

from .. import library
from ..errors import OutOfMemory, PicklestepError, ProgramError, TimedOut
from ..question import granted
from ..sources import LIMIT
from ..verdicts import reach_answer
from .begins import HEAD
from .blobs import Blob, Budget, BytesBlob, FileBlob, Limits, PartMet, spooled
from .like_imports import is_begun_alone, is_text, may_be_imported
from .reading import Asked, Summary
from .walk import is_opcode, length_at

if TYPE_CHECKING:
    from ..short_records import ReachAnswer

__all__ = ['FRAME', 'LIKE_IMPORT', 'Leads', 'Reach', 'leads_in', 'leads_of', 'may_be_opcode', 'may_lead_on', 'reach_behind', 'reach_of']

# What is counted in which a loader would import something that is a text by its looks.
LIKE_IMPORT = 'like an import'

# What a loader was given besides the bytes.
_NOTHING: Tuple[str, ...] = ()
_PERSISTENT = ('--persistent-ids',)
# So many first bytes are asked about in this process, one after another, and then all by the program.
_HEADS = (HEAD, 1 << 20)
FRAME, _STOP = b'\x95', b'.'
# Opcodes at which a loader goes on that was given more than the bytes: persistent ids, buffers, extension codes. At an import it goes on if its own
# find_class takes a name that can be no module's.
_GIVEN = frozenset(b'PQ\x97\x82\x83\x84ci\x93')
# So many pickles torch loads before one in which it knows persistent ids.
_BEFORE_TORCH = 3
_LINES = frozenset(b'ciP')
# A text that names a module, and what some loaders strip of a text in quotes.
_TEXT, _BLANKS = b'U\x02os', bytes(range(0x21))
# How the reading of first bytes ends where no loader goes on, whatever is behind them.
_NO_OPCODE = 'F2'


@dataclass(frozen=True)
class Reach:
    """The opcode by which something is reached first, with its argument, and where it is. `is_beyond` is set where `calls` may not show it: by a mix
    of frames, or by a loader of Python 2."""

    what: str
    offset: int
    is_beyond: bool = False
    # The module and the name, where the opcode imports by its two lines.
    names: Optional[Tuple[bytes, bytes]] = field(default=None, repr=False, compare=False)

    def __str__(self) -> str:
        return f'{self.what} at {self.offset}'


class Leads(NamedTuple):
    """What loaders come to. `stops` says that a pickle ends, and nothing is reached in it. `like` is what is reached where that is a text by its
    looks: it does not count as a pickle."""

    reach: Optional[Reach] = None
    stops: bool = False
    like: Optional[Reach] = None

    def __bool__(self) -> bool:
        return self.reach is not None or self.stops


def may_be_opcode(begin: bytes) -> bool:
    """Whether some loader takes the first of these bytes for an opcode. (Where there is none, another may stand there by now.)"""
    return not begin or is_opcode(begin[0])


def reach_of(blob: Blob, budget: Optional[Budget] = None) -> Optional[Reach]:
    """What is reached first by some loader that has nothing but the bytes, or that is torch's; None where nothing is."""
    reach = _first(blob, budget, is_whole=True).reach
    return None if reach is None else _confirmed(blob, budget, reach, is_whole=True).reach


def reach_behind(blob: Blob, offset: int, budget: Optional[Budget] = None) -> Optional[Reach]:
    """The same from an offset on, for a loader that made texts before it."""
    return reach_of(_Behind(blob, offset), budget)


def leads_of(blob: Blob, budget: Optional[Budget] = None) -> Leads:
    """What loaders come to, those too that were given more than the bytes."""
    return _leads(blob, budget, is_whole=True)


def may_lead_on(head: bytes, is_whole: bool) -> bool:
    """Whether some loader gets to an import, to a call or to a STOP in these first bytes or, unless they are all, perhaps behind them.

    >>> [may_lead_on(head, True) for head in (b'cos\\nsystem\\n', b'{"a": 1}', b'}.')], may_lead_on(b'}', False)
    ([True, False, True], True)
    """
    return bool(leads_in(head, is_whole))


def leads_in(head: bytes, is_whole: bool) -> Leads:
    """What loaders come to in these first bytes or, unless they are all, perhaps behind them.

    >>> leads_in(b'commit.yaml: x\\nfoo\\n', True).like
    Reach(what="GLOBAL 'ommit.yaml: x' 'foo'", offset=0, is_beyond=False)
    """
    return _leads(BytesBlob(head), None, is_whole)


def _leads(blob: Blob, budget: Optional[Budget], is_whole: bool) -> Leads:
    reach, end, is_settled, like = _first(blob, budget, is_whole)
    if end < 0:
        return Leads()
    if reach is not None:
        return _confirmed(blob, budget, reach, is_whole)
    return _of_given(blob, budget, end, is_settled, is_whole)._replace(like=like)


def _of_given(blob: Blob, budget: Optional[Budget], end: int, is_settled: bool, is_whole: bool) -> Leads:
    """What loaders come to that were given more than the bytes, where all others end by this offset."""
    passed = blob.read(0, min(end + 1, library.MOST_BYTES))
    if end >= library.MOST_BYTES or not is_whole and not is_settled:
        return Leads(stops=True)  # (it may be; who reads it will see)
    if not (_STOP in passed or FRAME in passed or _may_be_given(blob, end)):
        return Leads()
    return _by_calls(blob, budget, is_whole)


def _confirmed(blob: Blob, budget: Optional[Budget], reach: Reach, is_whole: bool) -> Leads:
    """What is reached, if `calls` shows it too: it goes by the stack, and shows names that cannot be there."""
    behind = blob.read(reach.offset, library.MOST_BYTES - reach.offset) if blob.size > library.MOST_BYTES else b'\n\n'
    if reach.is_beyond or behind.count(b'\n') < 2:
        return Leads(reach)  # (`calls` is asked about the first bytes, which have not all lines of the opcode)
    answer = _asked(blob, budget)
    if answer.names or answer.is_sure:
        return Leads(reach)
    like = reach if answer.is_doubtful else None
    if _begun_alone(reach.names) is not None:
        return _stops(answer, blob, is_whole, like)
    passed = blob.read(0, reach.offset)
    if not answer.is_over and b'p' in passed and b'g' in passed and passed.count(b'\n') > 1:
        return Leads(replace(reach, is_beyond=True))  # (by such keys of the memo Python 2 may take other objects out of it)
    is_cut = not is_whole and not answer.is_over and answer.end.code != _NO_OPCODE
    return Leads(stops=answer.end.is_stopped or is_cut, like=like)


def _may_be_given(blob: Blob, end: int) -> bool:
    """Whether a loader that was given more than the bytes may go on where others end. (No persistent id has other signs than ASCII.)"""
    code = blob.read(end, 1)
    if code == b'P':
        return blob.read(end, max(1, blob.find(b'\n', end) - end)).isascii()
    return code != b'' and code[0] in _GIVEN


class _First(NamedTuple):
    """What is reached first; or the offset by which all loaders end where nothing is (-1 where none begins), and whether they do so whatever follows.
    What only loaders of Python 2 reach, and what is a text by its looks, is `like`."""

    reach: Optional[Reach]
    end: int = 0
    is_settled: bool = False
    like: Optional[Reach] = None


def _first(blob: Blob, budget: Optional[Budget], is_whole: bool) -> _First:
    if not may_be_opcode(blob.read(0, 1)):
        return _First(None, -1)
    answer = _answer_of(blob, budget, _NOTHING, is_whole)
    if answer.reached:
        return _First(_reach(blob, answer))
    end = answer.offset or 0
    passed = blob.read(0, min(end + 1, library.MOST_BYTES))
    if FRAME in passed:
        if passed.count(_STOP) >= _BEFORE_TORCH:
            answer = _answer_of(blob, budget, _PERSISTENT, is_whole)
        return _First(_reach(blob, answer) if answer.reached else None, end, answer.whatever_follows)
    return _behind_lines(blob, budget, is_whole, answer)


def _behind_lines(blob: Blob, budget: Optional[Budget], is_whole: bool, answer: ReachAnswer) -> _First:
    """The same for loaders of Python 2, which go on where others end: they know no frames, and take any line for a key of the memo."""
    end = answer.offset or 0
    at = _after_line(blob, end)
    while at is not None:
        answer = _answer_of(_Behind(blob, at), budget, _NOTHING, is_whole)
        offset = at + max(0, (answer.offset or 0) - len(_TEXT))
        if answer.offset is None or answer.reached:
            reach = Reach(answer.line or answer.text, offset, is_beyond=True)
            names = _begun_alone(answer.names)
            if names is None or may_be_imported(*names) or not is_text(blob.read(0, min(offset, library.MOST_BYTES))):
                return _First(reach)
            return _First(None, offset, answer.whatever_follows, like=reach)
        end = offset
        at = _after_line(blob, end)
    return _First(None, end, answer.whatever_follows)


def _begun_alone(names: Optional[Tuple[bytes, bytes]]) -> Optional[Tuple[bytes, bytes]]:
    """The module and the name that an opcode imports by its two lines; None where it has none, or Python may import all of them."""
    return names if names is not None and is_begun_alone(names[0]) else None


def _after_line(blob: Blob, end: int) -> Optional[int]:
    """Where the bytes go on behind a key, or a text in quotes with blanks around it. None where there is neither."""
    code = blob.read(end, 1)
    newline = blob.find(b'\n', end) if code == b'S' or end and code in (b'p', b'g') else -1
    if newline < 0:
        return None
    text = blob.read(end + 1, newline - end - 1).strip(_BLANKS) if code == b'S' else b"''"
    return newline + 1 if len(text) > 1 and text[:1] == text[-1:] and text[:1] in b'\'"' else None


class _Behind(Blob):
    """The bytes behind an offset, after a text that names a module: one may have been made before it."""

    def __init__(self, whole: Blob, at: int) -> None:
        self.whole = whole
        self.at = at
        self.size = len(_TEXT) + whole.size - at

    def read(self, offset: int, count: int) -> bytes:
        before = _TEXT[offset:offset + count]
        return before + self.whole.read(self.at + max(0, offset - len(_TEXT)), count - len(before))


def _by_calls(blob: Blob, budget: Optional[Budget], is_whole: bool) -> Leads:
    """The same by what `calls` says of the first bytes: loaders that were given more go on behind what they were given."""
    answer = _asked(blob, budget)
    if answer.is_sure or answer.names:
        pickle = answer.pickle((), blob.size)
        first = pickle.imports[0] if pickle.imports else None
        return Leads(Reach(pickle.calls[0].text, pickle.calls[0].offset) if first is None else Reach(f'an import of {first.name}', first.offset))
    return _stops(answer, blob, is_whole)


def _stops(answer: Summary, blob: Blob, is_whole: bool, like: Optional[Reach] = None) -> Leads:
    """Whether a loader that was given more, such as its own find_class, comes to a STOP."""
    is_cut = answer.end.code != _NO_OPCODE and (not is_whole or blob.size > library.MOST_BYTES)
    return Leads(stops=answer.end.is_stopped or is_cut or answer.trouble is not None, like=like)


def _reach(blob: Blob, answer: ReachAnswer) -> Reach:
    if answer.offset is None:
        return Reach(answer.text, 0, is_beyond=True)
    return Reach(answer.line, answer.offset, any(FRAME in piece for piece in blob.part(0, answer.offset).chunks()), answer.names)


# --- Asking ---

def _asked(blob: Blob, budget: Optional[Budget]) -> Summary:
    """What `calls` says of the first bytes."""
    with Asked(BytesBlob(blob.read(0, library.MOST_BYTES))) as asked:
        return asked.summary(budget or Budget(Limits()))


def _answer_of(blob: Blob, budget: Optional[Budget], given: Sequence[str], is_whole: bool = True) -> ReachAnswer:
    """What the program says. Of many bytes it is asked about the first ones, as long as more of them may change the answer."""
    if budget is not None:
        budget.count(1)
    for size in _HEADS:
        head = blob.read(0, size)
        text = library.reach(head, granted(given))
        if text is None:
            break
        answer = _read(text)
        if len(head) == blob.size or not is_whole or _is_settled(head, answer, blob.size):
            return answer
    return _read(_of_program(blob, budget, ('reach', '--json', *given)))


def _read(text: bytes) -> ReachAnswer:
    try:
        return reach_answer(text)
    except (ProgramError, ValueError) as error:
        raise PartMet('the program does not say whether a loader gets anywhere in it') from error


def _is_settled(head: bytes, answer: ReachAnswer, size: int) -> bool:
    """Whether what is said of the first bytes is so of all. There are so many.

    >>> from ..short_records import ReachAnswer
    >>> ends = ReachAnswer(False, '', 1)
    >>> _is_settled(b'NX\\5\\0\\0\\0', ends, 99), _is_settled(b'NX\\5\\0\\0\\0', ends, 9)
    (False, True)
    """
    end = answer.offset
    if answer.whatever_follows or end is None or end >= len(head) or FRAME in head[:end + 1]:
        return answer.whatever_follows
    if answer.reached:
        return head[end] not in _LINES or b'\n' in head[end:]
    return end + length_at(head, end) > size  # (all read alike, and end in an argument of which not all is there)


def _of_program(blob: Blob, budget: Optional[Budget], words: Sequence[str]) -> bytes:
    """What the program says of all bytes, within the time and the memory that are left."""
    path = blob.path() if isinstance(blob, FileBlob) else None
    most = LIMIT if path is not None or budget is None else min(LIMIT, budget.most_held())
    if blob.size > most:
        raise PartMet(f'a loader may go on behind the {most:,} bytes that are looked at here at most: it is not looked at whole')
    if path is not None:
        return _run(path, budget, words)
    copy = spooled(blob.chunks())
    with copy.file:
        return _run(copy.path(), budget, words)


def _run(path: str, budget: Optional[Budget], words: Sequence[str]) -> bytes:
    from ..program import run_program, time_to_wait
    try:
        return run_program([*words, path], memory=None if budget is None else budget.memory(),
                           timeout=None if budget is None else time_to_wait(budget.seconds))
    except (OutOfMemory, TimedOut) as error:
        raise PartMet('to see whether a loader gets anywhere in it takes more time or memory than there is') from error
    except PicklestepError as error:
        raise PartMet(f'the program does not say whether a loader gets anywhere in it: {error}') from error
