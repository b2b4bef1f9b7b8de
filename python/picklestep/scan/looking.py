"""Looks at one file: opens containers, finds the pickles in them, and asks the program about each.

A container that is in the one form that its usual writers write (`canonical`) is read by that. Whatever is in another form gets a note that
says so, and is then looked at by the lenient readers, as all kinds that some reader may take it for. The kinds are in `containers`,
what opens them in `opening` and `stores`.
"""

from __future__ import annotations

import os
import stat
import struct
import zlib
from collections import Counter
from contextlib import suppress
from dataclasses import dataclass, replace
from functools import reduce
from importlib import import_module
from io import FileIO
from operator import or_
from typing import TYPE_CHECKING, Any, BinaryIO, Callable, Iterator, List, Optional, Sequence, Tuple, Union, cast

from ..errors import PicklestepError
from ..hints import IN_FRAMES, OLD_TORCH
from ..opens import begins_gated
from ..patterns import pattern
from ..sources import LIMIT, is_opened
from . import stores
from .begins import HEAD, is_pickle_name, is_storage_name
from .blobs import CHUNK, Blob, Budget, BytesBlob, FileBlob, JoinedBlob, LimitMet, Limits, OpenedBlob, PartMet, spooled
from .canonical import Form, NotCanonical, NotKnown
from .canonical.forms import WRITERS
from .canonical.kinds import asked_form, begun_form, kinds_of
from .canonical.layouts import Layout, layout_of
from .containers import CONTAINERS, TAR, ZIP_TAIL, Container, Held
from .costs import cost_of_tuples, many_layers
from .names import Names
from .other_forms import ending, forms_of
from .other_loaders import another_import
from .packed import Unpacking
from .passing import MOST_GATED, verdicts, verdicts_of_file
from .reach import LIKE_IMPORT, Leads, Reach, leads_in, leads_of, reach_of
from .reading import Asked, Summary, why_unread
from .results import UNKNOWN, FileVerdict, Note, Pickle, Place, Result, Verdict
from ..unread import kind_by_end
from .zarr import has_pickles

if TYPE_CHECKING:
    from .stores.server import Task

__all__ = ['OF_ARRAYS', 'Looker', 'Options', 'Reads', 'Unpacked', 'is_unchanged', 'look', 'look_at_bytes', 'look_by', 'work_on']

_URL = pattern(r'[A-Za-z][A-Za-z0-9+.-]*(::|://)')
# The bytes by which a member is known to be a container: its first ones, and where the record is that closes a zip archive.
_GLANCE = HEAD + ZIP_TAIL
# Kinds that readers find at the end of something else.
_AT_END = tuple(each for each in CONTAINERS if each.opener_at_end)
# Of a pickle that is too large for the program, this much is looked at.
_FIRST_BYTES = 64 << 20
# Where pickles are that joblib has within arrays.
OF_ARRAYS = '(arrays of objects)'
# What reads the pickles of some bytes strictly.
Reads = Callable[[Blob, Budget], Layout]


@dataclass(frozen=True)
class Options:
    """How files are looked at: the limits for each of them, whether every line of the program is kept, whether each offset is tried at
    which a pickle may begin, whether arguments are kept in full, whether results have a digest of the bytes, by which lists the gate is asked, and
    what lists have besides: it is left to a loader that knows more than Python's own. (Without it there are no arrays between opcodes either.)"""

    limits: Limits = Limits()
    lines: bool = False
    everywhere: bool = False
    full: bool = False
    digest: bool = False
    lists: Tuple[Names, ...] = ()
    left: Tuple[str, ...] = ('persistent', 'buffer')


class Looker:
    """Goes through the containers of one file, and keeps what it finds."""

    def __init__(self, options: Options) -> None:
        self.options = options
        self.budget = self._of_file = Budget(options.limits)
        self.pickles: List[Pickle] = []
        self.notes: List[Note] = []
        self.others = 0
        self.forms: Counter[str] = Counter()
        self.plain = 0
        self.at: Place = ()
        self.name = ''
        # What readers take the file itself for.
        self.kinds_of_file: Tuple[str, ...] = ()
        # The same of what it packs, if it packs one other.
        self._kinds_packed: Tuple[str, ...] = ()
        # Whether all of a file is looked at; and whether a pickle was read in parts: with arrays between its opcodes, or as one of several in a row.
        self.is_whole = True
        self._has_parts = False
        # Whether a value is looked at, where not all of them are.
        self.wants_value: Optional[Callable[[bytes, Place], bool]] = None

    def wants(self, where: Place) -> bool:
        """Whether a member or a value is looked at. (Who looks for one alone leaves others out.)"""
        return True

    def take(self, pickle: Pickle, blob: Blob, raw: Sequence[Tuple[int, int]] = ()) -> None:
        """Keeps what is known of a pickle: that of these bytes, but for the raw ones, each from one offset to another."""
        self.pickles.append(pickle)

    def judged(self, pickle: Pickle, opcodes: Blob) -> Pickle:
        """A pickle with what the gate says of it by each list."""
        if not self.options.lists:
            return pickle
        if not self.options.left and isinstance(opcodes, JoinedBlob):
            self.note_odd(pickle.where, f'not in the form that {WRITERS["pickle"]}: bytes of arrays stand between its opcodes')
        try:
            found = verdicts(pickle, opcodes, self.options.lists, self.options.left, self.budget)
        except (LimitMet, NotCanonical, PicklestepError) as error:
            self.note(pickle.where, f'whether it passes a list is not known: {error}', missed=True)
            return self.not_judged(pickle)
        return replace(pickle, verdicts=found)

    def judged_whole(self, blob: Blob) -> Tuple[FileVerdict, ...]:
        """What the gate says of the file as a whole by each list, where it takes all of it. (A file that is one pickle was asked about as that.) It knows
        fewer forms of tar archives than are read here, and of others nothing is said."""
        lists = self.options.lists
        is_asked = lists and self._is_gated() and self.is_whole and self.pickles and max(blob.size, self.budget.unpacked) <= MOST_GATED
        if not is_asked or not begins_gated(blob.read(0, HEAD)):
            return ()
        try:
            found = verdicts_of_file(self.pickles, blob, lists, self.options.left, self.budget)
        except (LimitMet, NotCanonical, PicklestepError) as error:
            self.note((), f'whether it passes a list is not known: {error}', missed=True)
            return ()
        is_tar = TAR.name in (*self.kinds_of_file, *self._kinds_packed)
        return tuple(verdict for verdict in found if not (is_tar and verdict.is_of_form and verdict.member in ('', *map(_inside, self.kinds_of_file))))

    def _is_gated(self) -> bool:
        """Whether the gate takes a file of these kinds: a zip archive, a tar archive, an array of numpy, or what gzip or zlib packed if that is one pickle,
        an array or a tar archive."""
        kinds = self.kinds_of_file
        if kinds not in (('gzip',), ('zlib',)):
            return kinds in (('zip',), ('tar',), ('npy',))
        inside = _inside(kinds[0])
        return self._kinds_packed == (TAR.name,) or not self._has_parts and all(pickle.where in ((inside,), (inside, '(objects)')) for pickle in self.pickles)

    def not_judged(self, pickle: Pickle) -> Pickle:
        """The same where the gate has not answered."""
        return replace(pickle, verdicts=tuple(Verdict(names.digest, UNKNOWN) for names in self.options.lists))

    def take_plain(self, content: bytes, where: Place) -> None:
        """Counts a value that is a pickle which imports and calls nothing."""
        self.plain += 1

    def note(self, where: Place, text: str, missed: bool = False) -> None:
        """Keeps something to know about a place."""
        self.notes.append(Note(where, text, missed))

    def note_odd(self, where: Place, text: str) -> None:
        """Keeps that a form is not the one that its usual writers write. It is looked at as whatever some reader may take it for."""
        self.notes.append(Note(where, text, odd=True))

    def _count_other(self, where: Place, form: str = '') -> None:
        """Counts what is no pickle, with its ending or the form given. (A value of a store, which has a budget of its own, has neither.)"""
        self.others += 1
        if self.budget is self._of_file:
            self.forms[form or ending(where[-1] if where else self.name)] += 1

    def note_costs(self, where: Place, opcodes: Blob) -> None:
        """Says what of a pickle may end a loader, or takes it without end."""
        cost = cost_of_tuples(opcodes, self.budget)
        if cost is not None:
            self.notes.append(Note(where, cost.text, missed=not cost.is_known, odd=cost.is_known))

    def note_form(self, where: Place, writers: str, reason: NotCanonical) -> None:
        """Says that something is not in the form that its usual writers write."""
        self.note_odd(where, f'not in the form that {writers}: {reason}')

    # --- Bytes at hand ---

    def look_at(self, blob: Blob, where: Place, names: Tuple[str, ...], depth: int, is_gap: bool = False) -> None:
        """Looks at bytes: a container, a pickle, or neither."""
        self.at = where
        self.budget.look(min(blob.size, _GLANCE))
        head = blob.read(0, HEAD)
        if has_pickles(blob, names):
            self.note(where, 'an array of zarr whose items are pickles (numcodecs.Pickle): zarr loads them, and its chunks may be packed by what is not '
                             'opened here', missed=True)
        kinds = [] if is_gap else self._kinds(blob, head, where, names)
        if not where and not is_gap:
            self.kinds_of_file = tuple(map(str, kinds))
        elif where == tuple(map(_inside, self.kinds_of_file)) and not is_gap:
            self._kinds_packed = tuple(map(str, kinds))
        spans: List[Tuple[int, int]] = []
        opened = False
        for kind in kinds:
            opened = self._open(Held(kind, blob, where, names, depth, spans)) or opened
        for kind in _AT_END:
            if not is_gap and kind not in kinds:
                opened = kind.look_at_end(self, Held(kind, blob, where, names, depth, spans), head) or opened
        if not opened:
            self._look_at_leaf(blob, head, where, names, depth, is_gap)
        elif kinds and self._may_be_pickle_too(kinds, blob, where, names):
            self.is_read(blob, head, where, names, depth=depth)

    def _kinds(self, blob: Blob, head: bytes, where: Place, names: Tuple[str, ...]) -> List[Container]:
        """The kinds of containers that some reader may take these bytes for. Several, or another one than the name asks for, are noted."""
        kinds = kinds_of(blob, head)
        name = names[0] if names else ''
        # (pandas gives a member the name of its archive, behind which `check` puts the ending .pt)
        asked = asked_form(name) if self.name not in (name, f'{name}.pt') or not where else None
        if asked is not None and not kinds and asked.is_empty is not None and asked.is_empty(blob):
            kinds = [asked]
        if asked is not None and asked not in kinds:
            self.note_odd(where, f'its name says {asked}, and it is not in the form that {asked.writers}')
        begun = begun_form(head) if not kinds else None
        if begun is not None and begun is not asked:
            self.note_odd(where, f'it begins like {begun}, and is not in the form that {begun.writers}')
        if any(kind.is_odd_as(name) for kind in kinds):
            self.note_odd(where, f'its name is that of a pickle, and it is {" or ".join(map(str, kinds))}')
        if len(kinds) > 1:
            named = ' or '.join(map(str, kinds))
            self.note_odd(where, f'not in one form: readers take it for {named}: it is looked at as each of them')
        return kinds

    def _may_be_pickle_too(self, kinds: List[Container], blob: Blob, where: Place, names: Tuple[str, ...]) -> bool:
        """Whether a container is opcodes, too, and some loader of pickles comes to an import or a call in them."""
        if all(kind.is_pickles for kind in kinds) and not any(map(is_pickle_name, names)):
            return False  # (its first pickle was looked at as one)
        return self._leads(blob, where).reach is not None

    def _look_at_leaf(self, blob: Blob, head: bytes, where: Place, names: Tuple[str, ...], depth: int, is_gap: bool) -> None:
        """Looks at what is no container: a pickle by its name or its first bytes, or where a loader gets somewhere in it; or records."""
        begins = _begins_as_pickle(head, names)
        leads = Leads() if begins else self._leads(blob, where)
        before = len(self.pickles)
        if (begins or leads) and self.is_read(blob, head, where, names, is_sure=begins, depth=depth):
            stores.look_behind(self, self.pickles[before], blob, where, depth)
        elif not stores.look_further(self, blob, where, depth, is_gap):
            self._count_other(where, LIKE_IMPORT if leads.like else '')

    def leads_somewhere(self, blob: Blob, where: Place) -> bool:
        """Whether a loader of pickles comes to an import, to a call or to a STOP in these bytes."""
        return bool(self._leads(blob, where))

    def _leads(self, blob: Blob, where: Place) -> Leads:
        """What loaders come to in these bytes. Where that cannot be said it is noted."""
        try:
            return leads_of(blob, self.budget)
        except PartMet as limit:
            self.note(where, str(limit), missed=True)
            return Leads()

    def _reach(self, blob: Blob, where: Place) -> Optional[Reach]:
        """The same for loaders that have nothing but the bytes."""
        try:
            return reach_of(blob, self.budget)
        except PartMet as limit:
            self.note(where, str(limit), missed=True)
            return None

    def look_at_numbers(self, blob: Blob, where: Place, names: Tuple[str, ...], depth: int) -> None:
        """Raw numbers of the size that a pickle or a header gives. They are not read, but no loader may get anywhere from their beginning."""
        self.at = where
        head = blob.read(0, HEAD)
        kinds = kinds_of(blob, head, tries=False)
        reach = self._reach(blob, where)
        if not kinds and reach is None:
            self._count_other(where, 'numbers')
            return
        found = f'begin as {" or ".join(map(str, kinds))}' if reach is None else f'lead a loader of pickles to {reach}'
        self.note_odd(where, f'raw numbers that {found}: they are looked at as that')
        self.look_at(blob, where, names, depth)

    # --- Pickles ---

    def is_read(self, blob: Blob, head: bytes, where: Place, names: Tuple[str, ...], reads: Reads = layout_of,
                is_sure: bool = False, calls: Optional[bytes] = None, depth: Optional[int] = None) -> bool:
        """Asks the program, and keeps its answer where the bytes are a pickle. False where they are none. `calls` is its answer, if it was
        asked. What the pickle holds may be looked at where it is said in how many others it is."""
        self.at = where
        layout, layout_note = self._layout(blob, reads, where)
        opcodes = JoinedBlob(blob, layout.raw) if layout is not None and layout.raw else blob
        self._has_parts = self._has_parts or layout is None or layout.pickles != 1 or opcodes is not blob
        pickle = self._asked(opcodes, blob, where, is_sure or _begins_as_pickle(head, names), calls)
        if pickle is None:
            return False
        pickle = pickle if pickle.size == blob.size else replace(pickle, size=blob.size)
        is_known = layout_note is None or not layout_note.missed
        self.take(self.judged(pickle, opcodes) if is_known else self.not_judged(pickle), blob, () if layout is None else layout.raw)
        why = why_unread(head, pickle)
        if why is not None:
            self.note(where, why)
        if layout_note is not None:
            self.notes.append(layout_note)
        self.note_costs(where, opcodes)
        layers = many_layers(opcodes, (found.name for found in pickle.imports), self.budget)
        if layers is not None:
            self.note_odd(where, layers)
        if layout is not None and layout.inner:
            self._look_at_inner(blob, layout, where)
        if depth is not None:
            stores.look_inside(self, opcodes, where, depth)
        return True

    def _layout(self, blob: Blob, reads: Reads, where: Place) -> Tuple[Optional[Layout], Optional[Note]]:
        """Which bytes are opcodes, or why that is not known. A note says what is odd."""
        try:
            with self.budget.half():
                layout = reads(blob, self.budget)
        except NotCanonical as reason:
            kind = 'torch-legacy' if OLD_TORCH in blob.read(0, 32) else 'pickle'
            is_known = not isinstance(reason, NotKnown)
            return None, Note(where, f'not in the form that {WRITERS[kind]}: {reason}', missed=not is_known, odd=is_known)
        except PartMet as limit:
            return None, Note(where, f'{limit}: its form is not known', missed=True)
        other = another_import(layout, blob, self.budget)
        if other is None:
            return layout, None
        return layout, Note(where, f'another loader, which keeps its memo from pickle to pickle or knows no raw arrays, imports {other}', odd=True)

    def _asked(self, opcodes: Blob, blob: Blob, where: Place, is_pickle: bool, calls: Optional[bytes] = None) -> Optional[Pickle]:
        """What the program says of opcodes, with offsets in `blob`. None where they are no pickle."""
        offset_of = opcodes.offset_of if isinstance(opcodes, JoinedBlob) else None
        # (What is no file is copied into memory for the program.)
        most = LIMIT if isinstance(opcodes, FileBlob) else min(LIMIT, self.budget.most_held())
        if opcodes.size > most:
            first = min(most, _FIRST_BYTES)
            self.note(where, f'its opcodes have more than {most:,} bytes, which is too large: the first {first:,} are looked at', missed=True)
            opcodes = opcodes.part(0, first)
        if opcodes.size > _GLANCE:
            self.budget.look(opcodes.size - _GLANCE)
        with Asked(opcodes) as asked:
            answer = asked.summary(self.budget, self.options.lines, offset_of, self.options.full, calls)
            is_pickle = is_pickle or answer.is_sure or answer.end.is_stopped or answer.end.code in IN_FRAMES
            if answer.trouble is not None:
                self.note(where, answer.trouble, missed=True)
                is_pickle = is_pickle or not answer.is_empty
            if not is_pickle and not self._is_reached(blob, answer, where):
                return None
            if answer.end.item is not None:
                offset = asked.offset_of_item(answer.end.item, self.budget)
                answer.end = replace(answer.end, offset=offset if offset is None or offset_of is None else offset_of(offset))
        return answer.pickle(where, opcodes.size)

    def _is_reached(self, blob: Blob, answer: Summary, where: Place) -> bool:
        """Whether a loader may import something in bytes of which the program's answer does not show that they are a pickle. Where no frame comes
        before that, what it imports is in the answer, and only then."""
        if answer.names:
            return True
        reach = self._reach(blob, where)
        return reach is not None and reach.is_beyond

    def _look_at_inner(self, blob: Blob, layout: Layout, where: Place) -> None:
        """Looks at the pickles within joblib's arrays of objects. Each has a memo of its own, so they are read as pickles in a row."""
        cut, at = [], 0
        for start, end in layout.inner:
            cut.append((at, start))
            at = end
        opcodes = JoinedBlob(blob, [*cut, (at, blob.size)])
        pickle = self._asked(opcodes, opcodes, where + (OF_ARRAYS,), True)
        assert pickle is not None
        self.take(self.judged(pickle, opcodes), opcodes)
        self.note_costs(pickle.where, opcodes)

    # --- Containers ---

    def _open(self, held: Held) -> bool:
        """Looks into a container. False where the bytes only begin like one."""
        if not held.kind.opener:
            self._count_other(held.where, held.kind.name)
            self.note(held.where, f'{held.kind.name}: this kind of container is not opened', missed=True)
            return True
        return self.is_too_deep(held) or held.kind.look_into(self, held)

    def is_too_deep(self, held: Held) -> bool:
        """Whether a container is in too many others to be opened, which is noted."""
        most = self.options.limits.depth
        if held.depth >= most:
            self.note(held.where, f'{held.kind}: containers are opened to a depth of {most}: this one is not', missed=True)
        return held.depth >= most

    def form(self, held: Held, verify: Callable[[Blob, Budget], Form]) -> Optional[Form]:
        """The strict form of a container, or None, which is noted."""
        try:
            return verify(held.blob, self.budget)
        except NotCanonical as reason:
            self.note_form(held.where, held.kind.writers, reason)
        except struct.error:
            self.note_form(held.where, held.kind.writers, NotCanonical('the file became shorter'))
        return None

    def note_name(self, name: str, where: Place, seen: 'Counter[str]') -> None:
        """Reports a name that comes again, and one that leads elsewhere."""
        seen[name] += 1
        if seen[name] == 2:
            self.note(where, 'several members have this name: each is looked at')
        if name.startswith('/') or '..' in name.split('/'):
            self.note(where, 'this name leads out of the folder of whoever unpacks it')

    def look_at_gap(self, blob: Blob, start: int, end: int, where: Place, names: Tuple[str, ...], depth: int) -> None:
        """Looks at bytes that belong to no member."""
        inner = where + (f'(bytes {start} to {end})',)
        self.note(inner, 'these bytes belong to no member: they are looked at')
        is_whole = start == 0 and end == blob.size
        self.look_at(blob.part(start, end - start), inner, names, depth, is_gap=is_whole)

    # --- Compressed bytes ---

    def _counted(self, unpacking: Unpacking, holder: 'Unpacked') -> Iterator[bytes]:
        """The unpacked bytes, counted on the budget."""
        for piece in unpacking.pieces():
            self.budget.unpack(len(piece))
            holder.take(piece)
            yield piece

    def look_at_unpacked(self, unpacking: Unpacking, where: Place, names: Tuple[str, ...], depth: int, holder: 'Unpacked') -> None:
        """Looks at what a stream unpacks to.

        All of it is unpacked, so that its end is seen too. It is kept (in memory) only where its beginning, its name or its end gives
        a reason to look at it.
        """
        self.at = where
        pieces = self._counted(unpacking, holder)
        begin: List[bytes] = []
        while sum(map(len, begin)) < HEAD:
            piece = next(pieces, None)
            if piece is None:
                break
            begin.append(piece)
        head = b''.join(begin)[:HEAD]
        is_whole = holder.size < HEAD  # (of a stream that is not at its end the size is not known)
        leads = leads_in(head, is_whole)
        asks = bool(kinds_of(BytesBlob(head), head) or leads or holder.closing)
        asks = asks or _begins_as_pickle(head, ()) or not is_whole and not head.strip(b'\0')  # (zeros are empty streams of lzma)
        asks = asks or self.options.everywhere or stores.asks(b''.join(begin), holder.size if is_whole else stores.SMALL)
        if asks or any(is_pickle_name(name) or asked_form(name) for name in names):
            self._look_at_held(_joined(begin, pieces), where, names, depth, holder)
        elif self._ends_as_container(begin, pieces):
            again = Unpacking(unpacking.packed, unpacking.start, unpacking.offset, unpacking.several)
            self._look_at_held(self._counted(again, Unpacked()), where, names, depth, holder)
        else:
            self._count_other(where, LIKE_IMPORT if leads.like else '')

    def look_at_pieces(self, pieces: Iterator[bytes], where: Place, depth: int) -> None:
        """Looks at bytes that come piece by piece, and counts them as unpacked ones. Raises LimitMet."""
        def counted() -> Iterator[bytes]:
            for piece in pieces:
                self.budget.unpack(len(piece))
                yield piece
        self.at = where
        self._look_at_held(counted(), where, (), depth, Unpacked())

    def _look_at_held(self, pieces: Iterator[bytes], where: Place, names: Tuple[str, ...], depth: int, holder: 'Unpacked') -> None:
        """Looks at unpacked bytes. Where they are more than may be held, the first of them."""
        copy = spooled(holder.first(pieces, self.budget.most_held()))
        self.budget.held += copy.size
        try:
            with copy.file:
                if holder.is_cut:
                    self.note(where, f'it unpacks to more than the {copy.size:,} bytes that may be held at once: the first of them are '
                                     'looked at', missed=True)
                holder.has_closing = any(copy.find(closing) >= 0 for closing in holder.closing)
                self.look_at(copy, where, names, depth)
        finally:
            self.budget.held -= copy.size

    @staticmethod
    def _ends_as_container(begin: List[bytes], pieces: Iterator[bytes]) -> bool:
        """Whether the record that ends a zip archive may be near the end, or it ends as another container."""
        tail = b''.join(begin)
        for piece in pieces:
            tail = (tail + piece)[-ZIP_TAIL:]
        return b'PK\x05\x06' in tail[-ZIP_TAIL:] or kind_by_end(tail) is not None


class Unpacked:
    """What is known of a stream when it was unpacked: how many bytes, their checksum, and whether only the first were held.

    `closing` are records with their directories that close a zip archive for some readers of the packed bytes; `has_closing` is set where
    the unpacked bytes have one too.
    """

    def __init__(self, closing: List[bytes] = []) -> None:
        self.size = 0
        self.checksum = 0
        self.is_cut = False
        self.closing = closing
        self.has_closing = False

    def take(self, piece: bytes) -> None:
        """Counts unpacked bytes."""
        self.size += len(piece)
        self.checksum = zlib.crc32(piece, self.checksum)

    def first(self, pieces: Iterator[bytes], most: int) -> Iterator[bytes]:
        """The pieces, up to so many bytes."""
        for piece in pieces:
            if len(piece) > most:
                self.is_cut = True
                yield piece[:most]
                return
            most -= len(piece)
            yield piece


def _inside(kind: str) -> str:
    """The name of what a file of this kind packs."""
    return f'({kind})'


def _begins_as_pickle(head: bytes, names: Tuple[str, ...]) -> bool:
    """Whether bytes are reported as a pickle whatever the program finds in them: by a name, or since they begin with PROTO."""
    for name in names:
        if is_pickle_name(name):
            return True
    return head[:1] == b'\x80' and head[1:2] <= b'\x05' and not any(is_storage_name(name) for name in names)


def _joined(begin: List[bytes], pieces: Iterator[bytes]) -> Iterator[bytes]:
    yield from begin
    yield from pieces


# --- Files ---

def _state(file: FileIO) -> Tuple[int, int, int, int]:
    state = os.fstat(file.fileno())
    return state.st_mode, state.st_size, state.st_mtime_ns, state.st_ctime_ns


# (Windows has only the last of these; a FIFO is no file there.)
_FLAGS = os.O_RDONLY | reduce(or_, (getattr(os, flag, 0) for flag in ('O_NONBLOCK', 'O_CLOEXEC', 'O_NOCTTY', 'O_BINARY')))


def _look_at_file(looker: Looker, path: str) -> Result:
    with FileIO(os.open(path, _FLAGS), 'rb') as file:  # (a FIFO does not make it wait)
        state = mode, size, modified, changed = _state(file)
        if stat.S_ISFIFO(mode) and is_opened(path):
            return _look_at_pipe(looker, file, path)
        if not stat.S_ISREG(mode):
            return left_out(path, mode, is_named=True)
        beside = _digest_beside(path) if looker.options.digest else ''
        result = _gone_through(looker, FileBlob(cast(BinaryIO, file), size, path), path, modified, changed)
        if looker.options.digest:
            state_of = os.fstat(file.fileno())
            result = replace(result, device=state_of.st_dev, inode=state_of.st_ino, digest=_digest(file), beside=beside)
        if _state(file) == state and (not looker.options.digest or _digest_beside(path) == beside):
            return result
        return replace(result, notes=result.notes + (Note((), 'it changed while it was looked at', True),))


def _digest(file: FileIO) -> str:
    import hashlib  # (most runs want no digests)
    file.seek(0)
    digest = hashlib.sha256()
    for piece in iter(lambda: file.read(CHUNK), b''):
        digest.update(piece)
    return digest.hexdigest()


def _digest_beside(path: str) -> str:
    """The digest of what is beside a file and read with it. It is empty where nothing is."""
    import hashlib
    digests = []
    for each in stores.paths_beside(path):
        with suppress(OSError), FileIO(os.open(each, _FLAGS), 'rb') as file:
            digests.append(f'{os.path.basename(each)} {_digest(file)}')
    return hashlib.sha256('\n'.join(digests).encode('utf-8', 'surrogateescape')).hexdigest() if digests else ''


def is_unchanged(path: str, earlier: Result) -> bool:
    """Whether a path still names the file that was looked at, and this and the files beside it have the same bytes. Times alone do not show
    that: two files of one tick of the clock have the same, and they stay where folders are renamed."""
    with FileIO(os.open(path, _FLAGS), 'rb') as file:
        state = os.fstat(file.fileno())
        now = state.st_size, state.st_mtime_ns, state.st_ctime_ns, state.st_dev, state.st_ino
        then = earlier.size, earlier.modified, earlier.changed, earlier.device, earlier.inode
        is_same = stat.S_ISREG(state.st_mode) and now == then and _digest(file) == earlier.digest
        return is_same and _digest_beside(path) == earlier.beside


def _look_at_pipe(looker: Looker, file: FileIO, path: str) -> Result:
    """What a pipe gives is held in memory, and where it is too much for that, the first of it."""
    if hasattr(os, 'set_blocking'):  # (Windows has none, and no flag against waiting either)
        os.set_blocking(file.fileno(), True)
    holder = Unpacked()
    copy = spooled(holder.first(iter(lambda: file.read(CHUNK), b''), looker.budget.most_held()))
    with copy.file:
        if holder.is_cut:
            looker.note((), f'it gives more than the {copy.size:,} bytes that may be held at once: the first of them are looked at', missed=True)
        looker.budget.held += copy.size
        return _gone_through(looker, copy, path)


def left_out(path: str, mode: int, is_named: bool) -> Result:
    """That what has this mode is left out. Who has named it expects it to be looked at."""
    kinds = ((stat.S_ISFIFO, 'a FIFO'), (stat.S_ISSOCK, 'a socket'), (stat.S_ISDIR, 'a folder'))
    left = next((kind for test, kind in kinds if test(mode)), 'a device')
    return Result(path, left=left, notes=(Note((), f'{left} is not looked at', missed=True),) if is_named else ())


def _look_at_url(looker: Looker, path: str) -> Result:
    try:
        fsspec = import_module('fsspec')
    except ImportError:
        return Result(path, error='fsspec is not installed, which opens URLs: pip install fsspec')
    try:
        opened = fsspec.open(path, 'rb')
    except ImportError as error:  # (fsspec names the package that it needs for such URLs)
        return Result(path, error=f'{error}: pip install {_package_of(fsspec, path)}')
    with opened as file:
        return _gone_through(looker, OpenedBlob(file), path)


def _package_of(fsspec: Any, path: str) -> str:
    """The package by which fsspec opens a URL."""
    known = fsspec.registry.known_implementations.get(path.partition(':')[0], {})
    return str(known.get('class', 'fsspec')).partition('.')[0]


def is_url(path: str) -> bool:
    """Whether a path is one for fsspec: it begins like a URL, and no file has this name."""
    return _URL.match(path) is not None and not os.path.lexists(path)


def _gone_through(looker: Looker, blob: Blob, path: str, modified: int = 0, changed: int = 0) -> Result:
    """The result of a file, also where a limit is met or reading fails on the way."""
    error = None
    gated: Tuple[FileVerdict, ...] = ()
    looker.budget.size = blob.size
    looker.name = path.rpartition('/')[2]
    try:
        if not stores.look_beside(looker, blob, path):
            looker.look_at(blob, (), (looker.name,), 0)
            gated = looker.judged_whole(blob)
    except LimitMet as limit:
        looker.note(looker.at, str(limit), missed=True)
    except OSError as failure:
        error = failure.strerror or str(failure)
    return Result(path, blob.size, modified, tuple(looker.pickles), looker.others, tuple(looker.notes), error, changed=changed,
                  plain=looker.plain, forms=forms_of(looker.others, looker.forms), kinds=looker.kinds_of_file,
                  lists=tuple(names.digest for names in looker.options.lists), verdicts=gated)


def look(path: Union[str, 'os.PathLike[str]'], options: Options = Options()) -> Result:
    """All that is found in a file. Whatever is wrong with it becomes part of the result."""
    return look_by(Looker(options), os.fspath(path))


def work_on(task: Union[str, Task], options: Options) -> Result:
    """What a task answers: the path of a file, or keys of a server."""
    return look(task, options) if isinstance(task, str) else task.look(options)


def look_by(looker: Looker, path: str) -> Result:
    """The same by a looker."""
    return _whatever_happens(looker, path, lambda: _look_at_url(looker, path) if is_url(path) else _look_at_file(looker, path))


def look_at_bytes(name: str, content: bytes, options: Options = Options()) -> Result:
    """All that is found in the content of a file that somebody else read, such as Spark.

    >>> look_at_bytes('a.pkl', b'cposix\\nsystem\\n.').pickles[0].imports
    (Import(name='posix.system', count=1, offset=0, part='', member=''),)
    """
    looker = Looker(options)
    return _whatever_happens(looker, name, lambda: _gone_through(looker, BytesBlob(content), name))


def _whatever_happens(looker: Looker, path: str, work: Callable[[], Result]) -> Result:
    """What the work answers, or a result that says why it did not."""
    try:
        return work()
    except OSError as error:
        return Result(path, error=error.strerror or str(error))
    except Exception as error:  # a hostile file must not end the others
        return Result(path, pickles=tuple(looker.pickles), notes=tuple(looker.notes), error=f'{type(error).__name__}: {error}')
