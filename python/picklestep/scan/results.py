"""What scanning a file found: records that the report, the lines of JSON and the workers of a cluster all use."""

from __future__ import annotations

from dataclasses import dataclass
from typing import Any, Callable, Dict, Optional, Tuple, TypeVar, Union

from ..records import End

__all__ = ['ODD', 'OF_ARGUMENTS', 'OF_OFFSETS', 'OTHER_FORM', 'UNKNOWN', 'Call', 'Import', 'FileVerdict', 'Note', 'Pickle', 'Result', 'Verdict', 'from_json', 'to_json']

# The word of a `Call` that numpy believes, and that no pickler writes.
ODD = 'odd'
# The name of what is odd where something calls what it is given, and the arguments are worked out.
OF_ARGUMENTS = 'arguments'
# The same where pandas makes an object of a class that a call is given, if the call fails.
OF_OFFSETS = 'offsets'
# How the line of a `Verdict` begins about a pickle that no pickler writes so, and what it is where the gate has not answered.
OTHER_FORM = 'not in form'
UNKNOWN = 'not known'
_Record = TypeVar('_Record')
# Where something is inside a file: the names of members, from the outermost container to the innermost.
Place = Tuple[str, ...]


@dataclass(frozen=True)
class Import:
    """A name that a pickle imports, how often, and at which offset first.

    `part` is the heading of the part where this stands: what loaders may reach behind the end of the strict reading. It is '' before that.
    `member` is what is named behind the module, where that has a point (`Outer.Inner`), and else ''.
    """

    name: str
    count: int
    offset: int
    part: str = ''
    member: str = ''


@dataclass(frozen=True)
class Call:
    """What a pickle does with one thing: how often, at which offset first, and the program's line for that first time.

    `what` is the line's first word ('call', 'new', 'state', 'persistent', ..). `name` is what is called, or '' where that is an object
    that the pickle itself made. `part` is as in `Import`. `given` is set where that is done by something else that is given what to call. A count of 0
    is not known.
    """

    what: str
    name: str
    count: int
    offset: int
    text: str
    part: str = ''
    given: bool = False


@dataclass(frozen=True)
class Verdict:
    """What the program's gate says of pickles in a row by a list, which has this digest. Where they pass, the line is empty; else it is the first by
    which one of them does not, and the places are what is not allowed besides imports that the list has not. Where nothing is known of that, the line
    says so, and a note why."""

    list: str
    line: str = ''
    places: Tuple[Call, ...] = ()

    @property
    def passes(self) -> bool:
        """Whether all of them do."""
        return not self.line

    @property
    def is_known(self) -> bool:
        """Whether the gate has answered."""
        return self.line != UNKNOWN


@dataclass(frozen=True)
class FileVerdict:
    """What the gate says of a whole file by a list, which has this digest. Where it passes, the line is empty. `kind` is as in `GateAnswer`, and `member`
    the first member that does not pass, if it is that."""

    list: str
    line: str = ''
    kind: str = 'passes'
    member: str = ''

    @property
    def passes(self) -> bool:
        """Whether it does."""
        return not self.line

    @property
    def is_of_form(self) -> bool:
        """Whether it does not since something is in another form."""
        return self.kind == 'other form'


@dataclass(frozen=True)
class Pickle:
    """A member (or a whole file) that was read as one pickle or as several in a row.

    `verdicts` are those of the lists that there were.
    """

    where: Place
    size: int
    imports: Tuple[Import, ...]
    calls: Tuple[Call, ...]
    end: End
    lines: Tuple[str, ...] = ()
    verdicts: Tuple[Verdict, ...] = ()


@dataclass(frozen=True)
class Note:
    """Something to know about a place in a file. `missed` is set where something there was not looked at, and `odd` where all of it was, and
    its form is not the one that its usual writers write."""

    where: Place
    text: str
    missed: bool = False
    odd: bool = False

    @property
    def is_marked(self) -> bool:
        """Whether it is to be looked at."""
        return self.missed or self.odd


@dataclass(frozen=True)
class Result:
    """All that was found in a file.

    `others` counts what is no pickle. `error` says why the file cannot be read, `left` why it was left out (a FIFO, a link to a folder).
    `size`, `modified` and `changed` (nanoseconds; the last change of the content, and of the inode, which nobody can choose), `device`, `inode`
    and `digest` (SHA-256 of the bytes, where that was asked for) show `--resume` whether the file is still the one that was looked at, and
    `beside` (of what is beside it and read with it) whether that is. `keys` is how many keys of a server this is about (several results may be
    of one server), and 0 where it is about a file. `plain` counts pickles that are values of a store, import and call nothing, and end with STOP:
    there may be millions, so they are not in `pickles`. `forms` says of what is no pickle how many have which ending, are numbers, or are texts in
    which a loader would import something. `kinds` are the kinds of containers that readers take the file for. `lists` are the digests of the lists
    that the gate was asked by. `verdicts` are what it says of the file as a whole, where it takes that.
    """

    path: str
    size: int = 0
    modified: int = 0
    pickles: Tuple[Pickle, ...] = ()
    others: int = 0
    notes: Tuple[Note, ...] = ()
    error: Optional[str] = None
    left: Optional[str] = None
    changed: int = 0
    keys: int = 0
    plain: int = 0
    forms: Tuple[Tuple[str, int], ...] = ()
    device: int = 0
    inode: int = 0
    digest: str = ''
    beside: str = ''
    kinds: Tuple[str, ...] = ()
    lists: Tuple[str, ...] = ()
    verdicts: Tuple[FileVerdict, ...] = ()

    def _repr_html_(self) -> str:
        """The report about the file, for notebooks."""
        from .notebook import html_of  # (which reads results)
        return html_of(self)


def to_json(result: Result) -> Dict[str, Any]:
    """The object that stands for a result in a line of JSON."""
    return {'path': result.path, 'size': result.size, 'modified': result.modified, 'changed': result.changed,
            'pickles': [_pickle_object(pickle) for pickle in result.pickles], 'not_pickles': result.others, 'forms': dict(result.forms),
            'notes': [dict(vars(note)) for note in result.notes], 'error': result.error, 'skipped': result.left,
            **({'device': result.device, 'inode': result.inode, 'sha256': result.digest} if result.digest else {}),
            **{name: value for name, value in (('beside', result.beside), ('keys', result.keys), ('plain', result.plain), ('kinds', result.kinds), ('lists', result.lists),
                                             ('verdicts', [dict(vars(verdict)) for verdict in result.verdicts])) if value}}


def _object(each: Union[Import, Call]) -> Dict[str, Any]:
    """The object that stands for an import or a call: without a part where it stands before all headings, and without what is usual."""
    return {name: value for name, value in vars(each).items() if value or name not in ('part', 'member', 'given')}


def _pickle_object(pickle: Pickle) -> Dict[str, Any]:
    end = pickle.end
    made = {'where': pickle.where, 'size': pickle.size, 'imports': [_object(each) for each in pickle.imports],
            'calls': [_object(each) for each in pickle.calls],
            'end': {'how': end.how, 'code': end.code, 'text': end.text, 'offset': end.offset, 'item': end.item}}
    verdicts = [{**vars(verdict), 'places': [_object(each) for each in verdict.places]} for verdict in pickle.verdicts]
    return {**made, **({'lines': pickle.lines} if pickle.lines else {}), **({'verdicts': verdicts} if verdicts else {})}


def from_json(made: Dict[str, Any]) -> Result:
    """The result that such an object stands for."""
    return Result(
        made['path'], made['size'], made['modified'], tuple(_pickle(pickle) for pickle in made['pickles']), made['not_pickles'],
        tuple(Note(tuple(note['where']), note['text'], note['missed'], note.get('odd', False)) for note in made['notes']), made['error'], made['skipped'],
        made['changed'], made.get('keys', 0), made.get('plain', 0), tuple(made['forms'].items()),
        made.get('device', 0), made.get('inode', 0), made.get('sha256', ''), made.get('beside', ''), tuple(made.get('kinds', ())), tuple(made.get('lists', ())),
        tuple(FileVerdict(**each) for each in made.get('verdicts', ())),
    )


def _pickle(made: Dict[str, Any]) -> Pickle:
    return Pickle(
        tuple(made['where']), made['size'], tuple(_record(Import, each) for each in made['imports']), tuple(_record(Call, each) for each in made['calls']),
        End(**made['end']), tuple(made.get('lines', ())), tuple(map(_verdict, made.get('verdicts', ()))),
    )


def _verdict(made: Dict[str, Any]) -> Verdict:
    return Verdict(made['list'], made['line'], tuple(_record(Call, each) for each in made['places']))


def _record(kind: Callable[..., _Record], made: Dict[str, Any]) -> _Record:
    """A record from an object of JSON, which also says whether it is allowed."""
    return kind(**{name: value for name, value in made.items() if name != 'allowed'})
