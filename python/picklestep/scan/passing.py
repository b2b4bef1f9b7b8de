"""Whether pickles and files pass lists: what the program's gate says of each, proved. What is in another form than picklers write passes no list."""

from __future__ import annotations

from typing import TYPE_CHECKING, Dict, Iterator, List, NamedTuple, Optional, Sequence, Tuple

from .. import library
from ..reaches import ASKED, CHANGES, Fields, reach_of
from ..records import Global, Name, Reach, Ref
from ..sources import Input
from .blobs import Blob, Budget, JoinedBlob
from .canonical.formed import BEHIND, answer_of_program, content_of, require_form
from .canonical.forms import NotCanonical, NotKnown
from .entries import answer_of, text_of
from .names import Names
from .reading import Asked, is_plain_name, shown_name
from .results import OTHER_FORM, Call, FileVerdict, Pickle, Verdict

if TYPE_CHECKING:
    from ..short_records import GateAnswer

__all__ = ['MOST_GATED', 'verdicts', 'verdicts_of_file']

# The gate is asked about a file as a whole up to this size, if it unpacks to no more: it reads all of it, where `scan` reads headers and pickles.
MOST_GATED = 64 << 20

# Of pickles in a row so many bytes are looked at first for the end of one.
_GLANCE = 1 << 16
# Of a pickle that does not pass so many places are told beside its imports. Where it has more lines, or a list has not more of its names, that is the
# first of them, or none.
_MOST_PLACES = 20
_MOST_LINES = 200_000
_MOST_NAMES = 1_000
_FILLS = ('append', 'set', 'add')
# No list lets this pass, which Python 2 wrote for some instances.
_INST = 'inst'


def verdicts(pickle: Pickle, opcodes: Blob, lists: Sequence[Names], more: Sequence[str], budget: Budget) -> Tuple[Verdict, ...]:
    """What the gate says of pickles in a row by each list. Each has to pass by itself; one that is not in the form that picklers write does not, whatever
    the list. `more` are lines that each list has besides. Raises LimitMet, and NotKnown where there is no answer."""
    imported = sorted({found.name for found in pickle.imports})
    lines = _Lines(pickle, opcodes, budget)
    found: Dict[bytes, Tuple[str, Tuple[Call, ...]]] = {}
    given: List[Verdict] = []
    try:
        for names in lists:
            entries = text_of([*names.entries_for(imported), *more])
            if entries not in found:  # (several lists may say the same of these names)
                found[entries] = _judged(entries, opcodes, [name for name in imported if names.note(name) is None and is_plain_name(name)], lines, budget)
            given.append(Verdict(names.digest, *found[entries]))
    except NotCanonical as other:
        if isinstance(other, NotKnown):
            raise
        return tuple(Verdict(names.digest, f'{OTHER_FORM}: {other}') for names in lists)
    return tuple(given)


def verdicts_of_file(pickles: Sequence[Pickle], blob: Blob, lists: Sequence[Names], more: Sequence[str], budget: Budget) -> Tuple[FileVerdict, ...]:
    """What the gate says of a whole file by each list, in which these pickles were found. Raises LimitMet, and NotKnown where there is no answer."""
    imported = sorted({found.name for pickle in pickles for found in pickle.imports})
    given: List[FileVerdict] = []
    answers: Dict[bytes, GateAnswer] = {}
    for names in lists:
        entries = text_of([*names.entries_for(imported), *more])
        if entries not in answers:  # (several lists may say the same of these names)
            answers[entries] = _ask(entries, blob, budget, budget.unpacked)
        answer = answers[entries]
        given.append(FileVerdict(names.digest, '' if answer.passes else answer.line, answer.kind, answer.member or ''))
    return tuple(given)


def _judged(entries: bytes, opcodes: Blob, not_there: Sequence[str], lines: '_Lines', budget: Budget) -> Tuple[str, Tuple[Call, ...]]:
    """The first line by which one does not pass a list, which has not these of the names, and the places. Raises NotCanonical where one is in another
    form."""
    line = ''
    places: Dict[_Done, Call] = {}
    for at, part, answer in _answers(entries, opcodes, budget):
        line = line or ('' if answer.passes else answer.line)
        for refused in _refused(entries, at, part, answer, not_there, lines, budget):
            done = lines.done(at, refused)
            if done not in places:
                places[done] = lines.place(at, refused)
    return line, tuple(places.values())


def _answers(entries: bytes, opcodes: Blob, budget: Budget) -> Iterator[Tuple[int, Blob, GateAnswer]]:
    """The pickles in a row, each with its offset and the answer about it. Raises NotCanonical where one is in another form."""
    answer = _ask(entries, opcodes, budget)
    if answer.passes:
        yield 0, opcodes, answer
        return
    for at, part in _in_a_row(opcodes, budget):
        yield at, part, answer if part is opcodes else _ask(entries, part, budget)


def _in_a_row(opcodes: Blob, budget: Budget) -> Iterator[Tuple[int, Blob]]:
    """The pickles in a row, each with its offset. Raises NotCanonical where one is in another form."""
    at, size = 0, opcodes.size  # (mostly there is one)
    while at < opcodes.size or not at:
        part = opcodes if (at, size) == (0, opcodes.size) else opcodes.part(at, size)
        budget.spend()
        try:
            require_form(part, budget)
            end = part.size
        except NotCanonical as other:
            if other.reason != BEHIND:
                if isinstance(other, NotKnown) or at + size >= opcodes.size:
                    raise
                size *= 2
                continue
            end = _offset_in(part, other.offset)
        yield at, part if end == part.size else opcodes.part(at, end)
        at, size = at + end, _GLANCE


def _offset_in(part: Blob, offset: int) -> int:
    """Where an offset of the file is among opcodes that are not all of it. (Of pickles without others between them it is the same.)"""
    if not isinstance(part, JoinedBlob):
        return offset
    index = max(index for index, start in enumerate(part.offsets) if start <= offset)
    return part.starts[index] + offset - part.offsets[index]


def _ask(entries: bytes, blob: Blob, budget: Budget, unpacked: int = 0) -> GateAnswer:
    return answer_of(_said(entries, blob, budget, unpacked), lambda: _said(entries, blob, budget, unpacked, is_json=False))


def _said(entries: bytes, blob: Blob, budget: Budget, unpacked: int, *, is_json: bool = True) -> bytes:
    # (What a small file unpacks to may be large, and hostile: in this process there is no limit of time.)
    content = content_of(blob) if unpacked <= library.MOST_BYTES else None
    said = None if content is None else library.gate(entries, content, budget.memory(), is_json)
    if said is None:
        with Input(entries) as listed:
            said = answer_of_program(['gate', *['--json'] * is_json, listed.path], blob, budget, listed.files, unpacked)
    return said


def _refused(entries: bytes, at: int, part: Blob, answer: GateAnswer, not_there: Sequence[str], lines: '_Lines', budget: Budget) -> Iterator[GateAnswer]:
    """What the gate says of a pickle, again and again: by a list that has also the names that it has not, and of each place before that by which it is
    allowed."""
    if not answer.passes and not_there:
        if len(not_there) > _MOST_NAMES:
            return
        entries += text_of(not_there)
        answer = _ask(entries, part, budget)
    for _ in range(_MOST_PLACES):
        if answer.passes or answer.offset is None:
            return
        yield answer
        done = lines.done(at, answer)
        if not done.granted or done.what == _INST:
            return
        entries += text_of([done.granted])
        last, answer = answer, _ask(entries, part, budget)
        if answer.offset == last.offset:  # (no list allows it)
            return


class _Done(NamedTuple):
    """What a line of `calls` does: its first word, the name of what it is done with, and the name by which a list allows it."""

    what: str
    name: str
    granted: str


def _listed(name: Optional[Name]) -> str:
    """A name as a list has it, which may be one that is shown in two parts."""
    if isinstance(name, Global) and isinstance(name.module, bytes) and isinstance(name.name, bytes):
        return (name.module + b'.' + name.name).decode('utf-8', 'surrogatepass')
    return shown_name(name)


class _Lines:
    """The lines of `calls` about pickles in a row, which are asked for where one does not pass."""

    def __init__(self, pickle: Pickle, opcodes: Blob, budget: Budget) -> None:
        self._pickle = pickle
        self._opcodes = opcodes
        self._budget = budget
        self._found: Optional[Dict[int, Tuple[_Done, str]]] = None
        self._imported: Dict[int, str] = {}
        self._made: Dict[int, str] = {}

    def done(self, at: int, answer: GateAnswer) -> _Done:
        """What is done where the gate does not let the pickle pass that begins there. Without its line only the first word is known, and of a change
        the object at its end."""
        found = self._all().get(self._offset(at, answer))
        if found is not None:
            return found[0]
        # (a line of `gate --json` has what stands there as words alone)
        what, number = answer.reason.partition(' ')[0], answer.reason.rpartition('#')[2]
        return self._done_with(what, 'fill' if what in _FILLS else what, int(number)) if what in CHANGES else _Done(what, '', '')

    def place(self, at: int, answer: GateAnswer) -> Call:
        """The same as a record. How often the same is done is known where it is not allowed the first time."""
        done, offset = self.done(at, answer), self._offset(at, answer)
        known = next((each for each in self._pickle.calls if (each.what, each.name, each.offset) == (done.what, done.name, offset)), None)
        if known is not None:
            return known
        same = [place for place, (each, _) in self._all().items() if each == done]
        text = self._all().get(offset, (done, answer.reason))[1]
        return Call(done.what, done.name, len(same) if same[:1] == [offset] else 0, offset, text)

    def _offset(self, at: int, answer: GateAnswer) -> int:
        offset = at + (answer.offset or 0)
        return self._opcodes.offset_of(offset) if isinstance(self._opcodes, JoinedBlob) else offset

    def _all(self) -> Dict[int, Tuple[_Done, str]]:
        """What is done, and the lines, by their offsets. Of pickles with many lines nothing is known."""
        if self._found is None:
            budget = self._budget.of_value(self._opcodes.size)
            budget.lines = _MOST_LINES
            found: Dict[int, Tuple[_Done, str]] = {}

            def each(place: int, fields: Fields) -> None:
                self._budget.count(1)
                reach = reach_of(fields)
                found[place] = self._done(reach), reach.text

            with Asked(self._opcodes) as asked:
                answer = asked.summary(budget, False, self._opcodes.offset_of if isinstance(self._opcodes, JoinedBlob) else None, each=each)
            self._found = found if answer.trouble is None else {}
        return self._found

    def _done(self, reach: Reach) -> _Done:
        """What a line does, after those before it."""
        if reach.what == 'import' or reach.what in ASKED:
            done = _Done(reach.what, shown_name(reach.name), _listed(reach.name) or reach.what)
            self._imported[-1 if reach.number is None else reach.number] = done.granted
        elif reach.target is not None:
            done = self._done_with(reach.what, 'fill' if reach.what in _FILLS else reach.what, reach.target)
        elif isinstance(reach.name, Ref):
            done = self._done_with(reach.what, 'new' if reach.what == 'new' else 'call', reach.name.number)
        else:
            done = _Done(reach.what, shown_name(reach.name), _listed(reach.name))
        self._made[-1 if reach.number is None else reach.number] = done.granted
        return done

    def _done_with(self, what: str, word: str, number: int) -> _Done:
        """What is done with an object: an import, or what a call made."""
        if number in self._imported:
            return _Done(what, self._imported[number], self._imported[number])
        name = self._made.get(number, '')
        return _Done(f'made-{word}' if name else what, name, name)
