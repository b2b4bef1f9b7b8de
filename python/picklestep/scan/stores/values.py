"""Looks at the values of a store: a pickle, packed or encoded, behind a length or a sign, one in another.

Most values are small and there are many, so those that read as pickles wait, and the program is asked about all of them at once.
"""

from __future__ import annotations

from typing import TYPE_CHECKING, Callable, Iterator, List, NamedTuple, Optional, Sequence, Set, Tuple

from ..begins import HEAD
from ..blobs import STEPS, Blob, BytesBlob, JoinedBlob, LimitMet
from ..canonical.streams import Stream
from ..containers import MAY_BE_STORE, Container, kind_of, store_of
from ..costs import cost_of_tuples
from ..reach import leads_of, may_lead_on
from ..reading import Summary, is_odd_name, is_plain_name
from ..results import Pickle, Place
from ...unread import kind_of_long, kind_of_short
from ..walk import is_opcode, stops_at_end, walk
from . import SMALL, anywhere
from .asking import MOST_BYTES, MOST_PICKLES, NOTHING, answers
from .early import CUT, Early, EarlySearch, may_be_behind_few
from .encodings import UNFINISHED, decoded, is_word
from .framed import framing_of
from .inside import Text, bytes_of, texts_in
from .long_texts import LongText
from .telling import LEAST, PREFIX, is_json, may_hold, packed_places, prefixes, stands_for_bytes

if TYPE_CHECKING:
    from concurrent.futures import Future
    from ..looking import Looker

__all__ = ['Values', 'key_name', 'not_looked_at']

# Texts are looked at in windows of this size, each with so much of the next. What is longer and goes on is decoded piece by piece.
_OVERLAP = 128 << 10

# All values together may be unpacked to so many times their size.
_MOST_TIMES = 100

# A value takes as long as so many opcodes, after which the time is looked at.
_STEPS_OF_A_VALUE = 64

# The time is looked at after so many values that take little.
_QUICK_ONES = 4096

# Values up to this size are kept in mind, up to so many, where nothing is in them: a column often has the same few again and again.
_SHORT = 64
_MOST_SHORT = 10_000

# A value of this size may be any container.
_LEAST_LONG = 128

# So many bytes has a database or a file of dbm at least.
_LEAST_STORE = 512

# From where to where a pickle is.
_Span = Tuple[int, int]

# So much of what was packed shows whether it may be a pickle.
_FIRST_PART = 4096

# No other container begins with this byte than a tar archive, whose sign is here.
_PROTO, _TAR = 0x80, 257
_LAST_PROTOCOL = 5
_STOP = ord('.')

_MOST_OF_KEY = 200

# So many bytes has a pickle at least that takes tuples out of its memo again and again, or has them deep in one another.
_LEAST_HEAVY = 100

# How what is imported by a number of copyreg is shown.
_EXTENSION = 'ext '


def key_name(key: bytes) -> str:
    """A key as a part of a place. Of a long one the first signs are shown, and its length.

    >>> key_name(b'user:1'), key_name(b'\\xff'), key_name(b'k' * 1000)[-15:]
    ('user:1', '\\\\xff', '.. (1000 bytes)')
    """
    text = key[:4 * _MOST_OF_KEY].decode('utf-8', 'backslashreplace')
    return text if len(key) <= _MOST_OF_KEY else f'{text[:_MOST_OF_KEY]}.. ({len(key)} bytes)'


def not_looked_at(what: str, names: Sequence[str]) -> str:
    """What is said of some things of a store that are not looked at.

    >>> not_looked_at('views', ['first', 'second'])
    'views are not looked at (2, such as first)'
    """
    return f'{what} are not looked at ({len(names)}, such as {key_name(names[0].encode("utf-8", "surrogateescape"))})'


def _names_something(answer: Summary, content: bytes) -> bool:
    """Whether an answer imports something, or by a number of copyreg that is called at last; or says nothing. Raw numbers that are taken for a
    pickle do not.
    """
    pickle = answer.pickle((), 0)
    has_number = any(found.name.startswith(_EXTENSION) for found in pickle.imports)
    return answer.is_empty or _imports_something(pickle) or has_number and anywhere.ends_in_call(content)


def _imports_something(pickle: Pickle) -> bool:
    """Whether a pickle imports something by a plain name, or does something with what it imports by an odd one that may be there."""
    used = {done.name for done in pickle.calls}
    return any(is_plain_name(found.name) or is_odd_name(found.name) and found.name in used for found in pickle.imports)


def _with_others(limit: LimitMet, count: int) -> str:
    """What is said of a limit that others meet as well."""
    return f'{limit} (this value, and {count} behind it)'


def _is_store(head: bytes) -> bool:
    """Whether a store that is a file begins so, which is not looked at as pickles."""
    found = store_of(head) if MAY_BE_STORE.match(head) is not None else None
    return found is not None and not found.is_pickles


def _stream_of(kind: Optional[Container]) -> Optional[Stream]:
    """How bytes of a kind are unpacked, where all of them are packed ones."""
    return kind.stream if kind is not None and kind.stream is not None and kind.stream.is_whole else None


class _Waiting(NamedTuple):
    """Bytes that end with an opcode STOP, and of which value they are.

    `guessed`: nothing but these bytes says that they are a pickle. `depth` is set where they only begin and end as one, and may be
    something else: how deep they are in others. `further` is that depth where something may be behind their first bytes, if they are none.
    """

    content: bytes
    where: Place
    value: int
    guessed: bool
    depth: Optional[int] = None
    further: Optional[int] = None


class Values:
    """Looks at values, each at its place, and hands what it finds to a looker. `flush` comes last."""

    def __init__(self, looker: 'Looker') -> None:
        self.looker = looker
        self.count = 0
        # Set where values come again and again, or one is looked for.
        self.is_new: Optional[Callable[[bytes, Place], bool]] = looker.wants_value
        self._size = self._unpacked = self._quick = 0
        self._outer = looker.budget
        self._found: Set[int] = set()
        self._waiting: List[_Waiting] = []
        # While the program reads, the next values are looked at.
        from concurrent.futures import ThreadPoolExecutor  # (a file without values needs none)
        self._background = ThreadPoolExecutor(1)
        self._asked: List[_Waiting] = []
        self._answers: 'Optional[Future[List[Optional[Summary]]]]' = None
        self._bytes = 0
        # Whether what begins and ends as a pickle is taken for one until the program says that it is none; and what was none.
        self._trusts = True
        self._again: List[_Waiting] = []
        self._nothing: Set[Tuple[bytes, int]] = set()

    # --- Values ---

    def add(self, content: bytes, where: Place, depth: int = 0) -> None:
        """Looks at a value in memory, if it is new."""
        if self.is_new is not None and not self.is_new(content, where):
            return
        if self._again:
            self._look_again()
        if self._is_quick(content, where, depth):
            return
        self.begin(where, len(content))
        notes = len(self.looker.notes)
        try:
            found = self._look(content, where, depth, guessed=False)
        except LimitMet as limit:
            self._met(limit)
            return
        if not found and len(content) <= _SHORT and len(self._nothing) < _MOST_SHORT and len(self.looker.notes) == notes:
            self._nothing.add((content, depth))

    def _is_quick(self, content: bytes, where: Place, depth: int) -> bool:
        """Takes a value that begins and ends as a pickle: the program says whether it is one. Takes a short one that holds nothing.

        Raises LimitMet as `begin`.
        """
        if len(content) <= _SHORT and content and ((content, depth) in self._nothing or is_word(content)):
            is_pickle = False
        elif self._trusts and not self.looker.options.everywhere and content[:1] == b'\x80' and content[-1] == _STOP and content[1] <= _LAST_PROTOCOL and content[_TAR:_TAR + 5] != b'ustar':
            is_pickle = True
        else:
            return False
        self._size += len(content)
        self.looker.at = where
        self._quick += 1
        if self._quick >= _QUICK_ONES:
            self._quick = 0
            self._spend(STEPS)
        self.count += 1
        if is_pickle:
            self._wait(_Waiting(content, where, self.count, False, depth))
        return True

    def add_blob(self, blob: Blob, where: Place, depth: int = 0) -> None:
        """Looks at a value that may be large."""
        if blob.size <= SMALL:
            self.add(blob.read(0, blob.size), where, depth)
            return
        if not self.looker.wants(where):
            return
        self.begin(where, blob.size)
        found, others = len(self.looker.pickles), self.looker.others
        try:
            self.looker.look_at(blob, where, (), depth)
            if len(self.looker.pickles) == found and not self.looker.options.everywhere:
                self.look_at_texts(blob, where, depth)
        except LimitMet as limit:
            self._met(limit)
        if len(self.looker.pickles) > found:
            self._found.add(self.count)
        self.looker.others = others

    def begin(self, where: Place, size: int) -> None:
        """Begins a value. Its bytes and members are counted as those of a file; time, memory and lines are those of the whole.

        Raises LimitMet where there is no more of these, or the values before it were unpacked to very much more than they have. What was
        found by then is kept.
        """
        self._size += size
        if self.looker.budget is not self._outer:
            self._unpacked += self.looker.budget.unpacked
            self._outer.lines = min(self._outer.lines, self.looker.budget.lines)
            self._outer.answered = max(self._outer.answered, self.looker.budget.answered)
        self.looker.budget = self._outer
        self.looker.at = where
        self._spend(_STEPS_OF_A_VALUE)
        self.count += 1
        self.looker.budget = self._outer.of_value(size)

    def _spend(self, steps: int) -> None:
        """Raises LimitMet where a limit of the whole is met."""
        try:
            if self._unpacked > _MOST_TIMES * self._size + self._outer.limits.unpacked:
                raise LimitMet(f'more than {_MOST_TIMES} times the bytes of all values are unpacked: the rest of them is not looked at')
            if self._outer.lines < 0:
                raise LimitMet(f'the answers about the file have more than {self._outer.limits.lines:,} lines: the rest of it is not looked at')
            self._outer.count(steps)
        except LimitMet:
            self.flush()
            raise

    def _met(self, limit: LimitMet) -> None:
        """Notes that a value met a limit. Raises LimitMet where it is one of the whole."""
        self._spend(STEPS)
        self.looker.note(self.looker.at, str(limit), missed=True)

    def _look_again(self) -> None:
        """Looks anew at values that only begin and end as a pickle."""
        again, self._again = self._again, []
        for number, each in enumerate(again):
            count, self.count = self.count, each.value
            budget = self.looker.budget = self._outer.of_value(len(each.content))
            try:
                if each.further is None:
                    self._look(each.content, each.where, each.depth or 0, each.guessed)
                elif self._look_further(each.content, each.where, each.further):
                    self._found.add(each.value)
            except LimitMet as limit:
                is_last = self._outer.seconds <= 0
                self.looker.note(each.where, _with_others(limit, len(again) - number - 1) if is_last else str(limit), missed=True)
                if is_last:
                    return
            finally:
                self.count = count
                self._unpacked += budget.unpacked
                self.looker.budget = self._outer

    def flush(self) -> None:
        """Asks about what waits. It counts the values that are no pickles, too."""
        self._ask()
        self._settle()
        while self._again:
            self._look_again()
            self._ask()
            self._settle()
        self._background.shutdown()
        self.looker.budget = self._outer
        self._found.discard(0)  # (what a search before the first value found)
        self.looker.others += self.count - len(self._found)
        self.count, self._found = 0, set()

    def _look(self, content: bytes, where: Place, depth: int, guessed: bool) -> bool:
        """Looks at bytes: a container, a pickle, or what holds one. Answers whether there is one."""
        if len(content) < 2:
            return False
        self.looker.at = where
        if content[0] == _PROTO and stops_at_end(content) and content[_TAR:_TAR + 5] != b'ustar':
            self.look_inside(BytesBlob(content), where, depth)
            return self._wait(_Waiting(content, where, self.count, guessed))
        head = content[:HEAD]
        found = self._look_into(head, content, where, depth, guessed)
        if stops_at_end(content):
            self.look_inside(BytesBlob(content), where, depth)
            return self._wait(_Waiting(content, where, self.count, guessed, further=depth)) or found
        if found:
            return True
        if self._may_begin(content, guessed) and self._is_read(content, where, guessed):
            self.look_inside(BytesBlob(content), where, depth)
            return True
        return self._look_further(content, where, depth)

    def _may_begin(self, content: bytes, guessed: bool) -> bool:
        """Whether a pickle may begin here that does not end where the bytes do."""
        if not is_opcode(content[0]):
            return False
        way = walk(content, 0)
        has_proto = content[0] == _PROTO and content[1] <= _LAST_PROTOCOL
        if guessed and not way.is_likely:
            return False
        return has_proto and not way.lacks or bool(leads_of(BytesBlob(content), self.looker.budget))

    def _is_read(self, content: bytes, where: Place, guessed: bool) -> bool:
        """Asks about bytes that are not a pickle and nothing else."""
        before, notes = len(self.looker.pickles), len(self.looker.notes)
        way = walk(content, 0)
        if guessed and way.stops:
            return self._wait(_Waiting(content[:way.end], where, self.count, guessed))
        self.looker.is_read(BytesBlob(content), content[:HEAD], where, ())
        if len(self.looker.pickles) == before:
            return False
        if guessed and not _imports_something(self.looker.pickles[-1]):
            self.looker.pickles.pop()
            del self.looker.notes[notes:]
            return False
        self._found.add(self.count)
        return True

    # --- Containers ---

    def _look_into(self, head: bytes, content: bytes, where: Place, depth: int, guessed: bool) -> bool:
        """Looks into a container. False where it is none, or nothing is in it."""
        kind = kind_of(head)
        if kind is not None and _stream_of(kind) is not None:
            return self._unpack(kind, content, where, depth, guessed)
        unread = kind_of_short(head) if guessed or len(content) < _LEAST_LONG else kind_of_long(head)
        if kind is None and unread is None and (len(content) < _LEAST_STORE or not _is_store(head)):
            return False
        found, others = len(self.looker.pickles), self.looker.others
        self.looker.look_at(BytesBlob(content), where, (), depth)
        self.looker.others = others
        if len(self.looker.pickles) > found:
            self._found.add(self.count)
        return True

    def _unpack(self, kind: Container, content: bytes, where: Place, depth: int, guessed: bool) -> bool:
        limits, stream = self.looker.options.limits, kind.stream
        assert stream is not None
        if depth >= limits.depth:
            self.looker.note(where, f'{kind}: containers are opened to a depth of {limits.depth}: this one is not', missed=True)
            return True
        unpacking = stream.unpacking(BytesBlob(content))
        inner, size = [], 0
        for piece in unpacking.pieces():
            self.looker.budget.unpack(len(piece))
            inner.append(piece)
            size += len(piece)
            if size > SMALL:
                return self._look_large(content, where, depth)
        if unpacking.trouble is not None:
            if stream.is_weak and not size:
                return False  # two bytes that happen to be these
        found = self._look(b''.join(inner), where + (f'({kind})',), depth + 1, guessed and unpacking.trouble is not None)
        if unpacking.trouble is not None and (found or not guessed):  # (a checksum that happens to begin so leaves no note)
            self.looker.note(where + (f'({kind})',), unpacking.trouble, missed=True)
        if unpacking.trouble is None and unpacking.end < len(content):
            place = f'(bytes {unpacking.end} to {len(content)})'
            found = self._look(content[unpacking.end:], where + (place,), depth + 1, guessed=True) or found
        return found

    def _look_large(self, content: bytes, where: Place, depth: int) -> bool:
        found = len(self.looker.pickles)
        self.looker.look_at(BytesBlob(content), where, (), depth)
        if len(self.looker.pickles) > found:
            self._found.add(self.count)
        return True

    # --- What holds a pickle without saying so ---

    def look_inside(self, blob: Blob, where: Place, depth: int) -> None:
        """Looks, if `everywhere` is set, at the texts and bytes that a pickle holds, as at values."""
        if not self.looker.options.everywhere:
            return
        for text in texts_in(blob):
            offset = blob.offset_of(text.offset) if isinstance(blob, JoinedBlob) else text.offset
            self._spend(_STEPS_OF_A_VALUE if text.size >= LEAST else 1)
            self._look_at_held(blob, text, where + (f'(held at {offset})',), depth)

    def _look_at_held(self, blob: Blob, text: Text, where: Place, depth: int) -> None:
        """Looks at what an opcode of a pickle holds."""
        is_deep = depth >= self.looker.options.limits.depth
        if text.size > SMALL and not is_deep:
            self.looker.look_at(blob.part(text.start, text.size), where, (), depth + 1)
        for inner in bytes_of(text, blob.read(text.start, text.size)) if LEAST <= text.size <= SMALL else ():
            if is_deep and stops_at_end(inner) and walk(inner, 0).is_likely:
                self.looker.note(where, f'pickles in others are looked at to a depth of {depth}: this one is not', missed=True)
            elif not is_deep and not (len(inner) <= _SHORT and is_word(inner)) and may_hold(inner):
                self._look(inner, where, depth + 1, guessed=True)

    def _look_further(self, content: bytes, where: Place, depth: int) -> bool:
        """Looks behind lengths and signs, and at what texts stand for. These are guesses: what is none of them leaves no note."""
        if depth >= self.looker.options.limits.depth:
            return False
        blob = BytesBlob(content)
        framing = framing_of(blob)
        if framing is not None:
            return self.records(blob, where, depth)
        few = self.look_behind_few(blob, content, where, depth)
        if few is not None:
            if few[-1][1] < len(content):  # (others may follow, as in a queue)
                self.look_everywhere(blob, where, known=few, depth=depth)
            return True
        found = False
        for offset, name, inner in decoded(content):
            found = self._look(inner, where + (f'({name} at {offset})',), depth + 1, guessed=True) or found
        if self.looker.options.everywhere and not found:
            return self.look_everywhere(blob, where, depth=depth)
        return found

    def records(self, blob: Blob, where: Place, depth: int) -> bool:
        """Looks at records with a length before each, and at what is behind the last of them."""
        framing = framing_of(blob)
        if framing is None:
            return False
        end = 0
        for number, (start, length) in enumerate(framing.records(blob), 1):
            self._look(blob.read(start, min(length, SMALL)), where + (f'(record {number} at {start})',), depth + 1, guessed=False)
            if length > SMALL:
                self.looker.look_at(blob.part(start, length), where + (f'(record {number} at {start})',), (), depth + 1)
            end = start + length
        if end < blob.size:
            self.looker.note(where, f'records with a length: that at {end} is cut short', missed=True)
            self.look_everywhere(blob.part(end, blob.size - end), where, end, depth=depth)
        return True

    def look_behind_few(self, blob: Blob, content: bytes, where: Place, depth: int) -> Optional[List[_Span]]:
        """Looks behind a few bytes, such as a sign of a library, a time or a checksum: at a pickle, or at packed bytes that may be one. Answers
        from where to where each is that is there. Of a large blob `content` is the beginning.
        """
        found = [(offset, walk(content, offset).end) for offset in prefixes(content) if self._look_at_guess(content, offset, where)]
        found = found or self._look_at_early(blob, content, where)
        for offset, end in found:
            self.look_inside(blob.part(offset, end - offset), where + (f'(at {offset})',), depth)
        if found:
            return found
        for offset in packed_places(content):
            if self._may_unpack(content[offset:]) and self._look(content[offset:], where + (f'(at {offset})',), depth + 1, guessed=True):
                return [(offset, len(content))]
        return None

    def _look_at_early(self, blob: Blob, content: bytes, where: Place) -> List[_Span]:
        """Asks at once about all places where nothing but opcodes says that a pickle begins, and answers where there is one. What begins within
        another is asked about only where that is not a whole pickle.
        """
        search = EarlySearch(blob, content)
        places = search.places()
        found, whole = self._ask_early(blob, content, [each for each in places if not each.within], where)
        inside = [each for each in places if each.within and whole.isdisjoint(each.within) and search.is_called(each)]
        more, _ = self._ask_early(blob, content, inside, where)
        if search.is_cut:
            self.looker.note(where, CUT, missed=True)
        return sorted(found + more)

    def _ask_early(self, blob: Blob, content: bytes, places: List[Early], where: Place) -> Tuple[List[_Span], Set[int]]:
        """Asks about places, and answers at which there is a pickle, and at which of them it is whole."""
        found: List[_Span] = []
        whole: Set[int] = set()
        ends = {each.offset: each.end for each in places}
        at = 0
        while at < len(places):
            asked, size = at, 0
            while at < len(places) and (at == asked or size < MOST_BYTES):
                size += (places[at].end or len(content)) - places[at].offset
                at += 1
            for offset, is_whole in self._asked_early(blob, content, places[asked:at], where):
                found.append((offset, ends[offset] or walk(content, offset).end))
                whole.update([offset] if is_whole else [])
        return found, whole

    def _asked_early(self, blob: Blob, content: bytes, places: List[Early], where: Place) -> Iterator[Tuple[int, bool]]:
        inner = [content[each.offset:each.end or None] for each in places]
        options = self.looker.options
        for each, piece, answer in zip(places, inner, answers(inner, [True] * len(inner), self._outer, options.lines, options.full)):
            before = len(self.looker.pickles)
            place = where + (f'(at {each.offset})',)
            if not each.end and blob.size > len(content):
                part = blob.part(each.offset, blob.size - each.offset)
                self.looker.is_read(part, part.read(0, HEAD), place, ())
            elif answer is not None and not answer.is_empty:
                self._keep(_Waiting(piece, place, self.count, True), answer)
            if len(self.looker.pickles) > before:
                self._found.add(self.count)
                yield each.offset, bool(each.end) and self.looker.pickles[-1].end.is_stopped

    @staticmethod
    def _may_unpack(packed: bytes) -> bool:
        """Whether these may be packed bytes of a pickle. (Images and fonts have packed bytes near their beginning.)"""
        stream = _stream_of(kind_of(packed[:HEAD]))
        if stream is None:
            return kind_of_short(packed[:HEAD]) is not None
        unpacking = stream.unpacking(BytesBlob(packed), has_several=False)
        begin = next(unpacking.pieces(), b'')[:_FIRST_PART]
        if not begin:
            return False
        is_whole = len(begin) < _FIRST_PART
        if may_lead_on(begin, is_whole) or kind_of(begin) is not None or framing_of(BytesBlob(begin)) is not None or is_json(begin):
            return True
        return may_be_behind_few(begin, len(begin) if is_whole else SMALL) or stands_for_bytes(begin[:PREFIX])

    def _look_at_guess(self, content: bytes, offset: int, where: Place) -> bool:
        """Looks at a place where a pickle may begin."""
        way = walk(content, offset)
        if not way.is_likely:
            return False
        inner = content[offset:way.end if way.stops else None]
        place = where + (f'(at {offset})',)
        return self._take(inner, place)

    def look_at_texts(self, blob: Blob, where: Place, depth: int) -> None:
        """Looks at what texts in these bytes stand for."""
        start = 0
        while start < blob.size:
            window = blob.read(start, SMALL + _OVERLAP)
            following = start + SMALL
            for offset, name, inner in decoded(window, start + len(window) < blob.size):
                if offset >= SMALL or start + offset < following - SMALL:
                    continue
                if name != UNFINISHED:
                    self._look(inner, where + (f'({name} at {start + offset})',), depth + 1, guessed=True)
                else:
                    following = max(following, self._look_at_long(blob, start + offset, where, depth))
            start = following

    def _look_at_long(self, blob: Blob, at: int, where: Place, depth: int) -> int:
        """Looks at what a long text stands for, and answers where it ends."""
        text = LongText(blob, at)
        if depth < self.looker.options.limits.depth:
            before = len(self.looker.pickles), self.looker.others
            self.looker.look_at_pieces(text.pieces(), where + (f'({text.name} at {at})',), depth + 1)
            if len(self.looker.pickles) > before[0]:
                self._found.add(self.count)
            self.looker.others = before[1]
        return text.end

    def look_everywhere(self, blob: Blob, where: Place, shift: int = 0, known: Optional[List[_Span]] = None, depth: int = 0) -> bool:
        """Looks at each offset at which a pickle may begin, but at those of what is known."""
        found = False
        try:
            for offset, inner in anywhere.candidates(blob):
                if known is not None and any(start <= offset < end for start, end in known):
                    continue
                place = where + (f'(at {offset + shift})',)
                if self._take(inner, place):
                    found = True
                    self.look_inside(BytesBlob(inner), place, depth)
        except LimitMet as limit:
            self.looker.note(where, str(limit), missed=True)
        return found

    # --- Questions ---

    def _take(self, inner: bytes, where: Place) -> bool:
        """Asks about bytes that are only guessed to be a pickle."""
        if stops_at_end(inner):
            return self._wait(_Waiting(inner, where, self.count, True))
        return self._is_read(inner, where, True)

    def _wait(self, each: _Waiting) -> bool:
        self._waiting.append(each)
        self._bytes += len(each.content)
        if len(self._waiting) >= MOST_PICKLES or self._bytes >= MOST_BYTES:
            self._ask()
        return True

    def _ask(self) -> None:
        """Asks about what waits, in the background, when the answers to what was asked before are kept."""
        waiting, self._waiting, self._bytes = self._waiting, [], 0
        self._settle()
        options = self.looker.options
        if waiting:
            contents = [each.content for each in waiting]
            is_whole = [each.depth is None for each in waiting]
            self._asked = waiting
            budget = self._outer
            self._answers = self._background.submit(lambda: list(answers(contents, is_whole, budget, options.lines, options.full)))

    def _settle(self) -> None:
        asked, future = self._asked, self._answers
        self._asked, self._answers = [], None
        try:
            found = future.result() if future is not None else []
        except LimitMet as limit:
            self.looker.note(asked[0].where, _with_others(limit, len(asked) - 1), missed=True)
            return
        for each, answer in zip(asked, found):
            if answer is not None and len(each.content) >= _LEAST_HEAVY and not each.guessed:
                self.looker.note_costs(each.where, BytesBlob(each.content))
            if answer is NOTHING:
                self.looker.take_plain(each.content, each.where)
                self._found.add(each.value)
            elif answer is None:
                self._trusts = False
                self._again.append(each)
            else:
                self._keep(each, answer)

    def _keep(self, each: _Waiting, answer: Summary) -> None:
        if answer.trouble is not None:
            self.looker.note(each.where, answer.trouble, missed=True)
        if answer.is_empty and answer.end.is_stopped:
            self.looker.take_plain(each.content, each.where)
            self._found.add(each.value)
        elif each.guessed and not _names_something(answer, each.content):
            return
        elif answer.is_sure or answer.end.is_stopped or answer.trouble is not None:
            pickle = answer.pickle(each.where, len(each.content))
            # (Names that are no plain ones are no picklers': whether the rest has their form is noted, as of a file.)
            if each.guessed or all(is_plain_name(found.name) for found in pickle.imports) or not self._is_kept(each):
                self.looker.take(self.looker.judged(pickle, BytesBlob(each.content)), BytesBlob(each.content))
            self._found.add(each.value)
        elif (not each.guessed or walk(each.content, 0).is_called) and self._is_kept(each):
            # The program refused it before an import. What a loader makes of it is asked as it is for a file.
            self._found.add(each.value)
        elif each.further is not None:
            self._again.append(each)

    def _is_kept(self, each: _Waiting) -> bool:
        """Asks about a value alone, as about a file. Answers whether it is a pickle."""
        return self.looker.is_read(BytesBlob(each.content), each.content[:HEAD], each.where, ())
