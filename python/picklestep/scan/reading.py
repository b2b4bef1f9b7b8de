"""What the program says of one pickle, summed up by name."""

from __future__ import annotations

from contextlib import closing, contextmanager
from functools import lru_cache
from itertools import groupby
from typing import Any, Callable, Dict, Iterable, Iterator, List, NamedTuple, Optional, Sequence, Set, Tuple

from .. import library
from ..errors import OutOfMemory, PicklestepError, ProgramError, TimedOut
from ..hints import OLD_TORCH
from ..listed import whole_lines
from ..patterns import pattern
from ..reaches import CHANGES, EVENTS, HEADINGS, IMPORTS, Fields, end_of, name_of, plainly_in, said_in, text_of
from ..records import End, Extension, Global, Name, Ref
from ..verdicts import IN_FORM
from .blobs import CHUNK, Blob, Budget, FileBlob, Spooled, spooled
from .canonical.formed import SIGN_OF_ARRAYS, content_of
from .canonical.methods import names_methods
from .item_kinds import ItemKinds
from .like_imports import is_dotted, is_text, may_be_begun, may_be_imported
from .results import OF_ARGUMENTS, OF_OFFSETS, ODD, Call, Import, Pickle, Place

__all__ = ['Asked', 'Enough', 'Summary', 'begun_module', 'calls_in_form', 'calls_words', 'is_odd_name', 'is_plain_name', 'is_worked_out', 'shown_name', 'why_unread']

# How the loader treats frames that goes on right where the lines ended.
_GOES_ON = 'ignored'

# These lines name what they import or call.
_WITH_NAME = ('import', 'inst', 'call', 'new')

# These lines alone show no pickle: many texts begin with the letters P and Q, and what a loader does with such an id is its own.
_WEAK = ('persistent', 'buffer', 'readonly')

# This much of an answer is kept (names and the lines that come first), as bytes.
_MOST_KEPT = 64 << 20

# Each line has the whole name: one that has half a million bytes and is called again and again makes gigabytes of a small file.
_MOST_ANSWERED = 1 << 30

# How reading ended where the program did not come to an end.
_NOT_KNOWN = End('unknown', text='not known')

# A pickle cannot take more memory than this for each of its bytes, so a small one needs no limit (and starts faster).
_MEMORY_OF_A_BYTE = 4096

# With less processor time left, in seconds, nothing is asked in this process, which cannot be stopped.
_LITTLE_TIME = 1

# Of a name with at most so many letters it is kept what it means, and of so many of them: most files have the same.
_SHORT = 200
_MOST_NAMES = 4096

# Names as `shown_name` shows them.
_PLAIN = pattern(r"'?[^\W\d]\w*(\.[^\W\d]\w*)*('? #[0-9]+)?")
# (A folder may be named so, and Python imports from it.)
_ODD = pattern(r"'(?=[^']*[^\W\d])[\w.+@-]+' '?[^\W\d]\w*(\.[^\W\d]\w*)*'?")
# A module that is none, and what Python imports of it.
_BEGUN = pattern(r"'([\w+@-]+)\.[\w.+@-]*[^\w.+@'-]")
_WORKED_OUT = pattern(r'^#| #[0-9]+$|^ext ')

# Opcodes that import by lines, as texts have them; and one that calls, as none has it behind such lines.
_OF_LINES, _REDUCE = (b'c', b'i'), b'R'

_LEGACY_TORCH = b'\x80\x02' + OLD_TORCH + b'.'


class Enough(Exception):
    """A limit of the answer is met; the text says which."""


# What lines have in common that are counted together: what they do, and the name, by its parts if these are texts; of changes the name of what is
# changed.
_Key = Tuple[str, object]


class Summary:
    """What the program says of some bytes, summed up by name while it comes. What only some loaders reach counts as well, and is kept
    with the heading under which it stands.

    `is_sure` says that they import something that can be there, or call something. `names` are the modules and names that a loader may import,
    however odd they are (`_` stands for what is worked out). `trouble` says why the answer is not whole, if it is not.
    """

    def __init__(self, budget: Budget, keep_lines: bool, offset_of: Optional[Callable[[int], int]] = None,
                 each: Optional[Callable[[int, Fields], None]] = None, printed: Optional[Callable[[int], str]] = None) -> None:
        """`offset_of` says where an offset of the program is in the file, where the program got only some of the bytes. `each` is given each line and
        its offset there, and `printed` gives one that is too long for JSON, by how many are before it."""
        self.is_sure = False
        self.names: Set[Tuple[str, str]] = set()
        self.end = _NOT_KNOWN
        self.trouble: Optional[str] = None
        self._budget = budget
        self._offset_of = offset_of
        self._each = each
        self._printed = printed
        self._found: Dict[Tuple[_Key, str], _Found] = {}
        self._imported: Dict[int, str] = {}
        # The lines that say how the strict reading ended, by their kinds, and how many lines people are shown up to here.
        self._closing: Dict[str, Fields] = {}
        self._rows = 0
        self._lines: Optional[List[str]] = [] if keep_lines else None
        self._count = 0
        self._kept = 0
        self._begun = 0
        self._part = ''
        # Set where loaders that go on under a heading raised at an import that cannot be there.
        self._is_over = False
        # Whether all imports so far cannot be there, of which texts have many: then nothing that is called or filled shows a pickle.
        self._is_doubtful: Optional[bool] = None
        # The first such import of which a loader imports what begins the module's name, with its parts; and the first call so far.
        self._begun_import: Optional[Tuple[int, Tuple[str, str]]] = None
        self._doubtful_call: Optional[int] = None
        self._kinds = ItemKinds()
        # The first call of something that is given to it by arguments which are not shown.
        self._hidden: Optional[Tuple[int, str, str]] = None
        # The first call that has pandas make an object where it fails.
        self._offsets: Optional[Tuple[int, str, str]] = None
        self.oddness = ''

    def ask(self, blob: Blob, budget: Budget) -> None:
        """Asks the bytes where lines do not show whether what numpy gets fits, or what loaders call, or whether this is a text."""
        if self._begun_import is not None:
            offset, parts = self._begun_import
            if not is_text(blob.read(0, offset)) or blob.read(offset, 1) not in _OF_LINES:
                self.names.add(parts)
        if self._doubtful_call is not None and blob.read(self._doubtful_call, 1) == _REDUCE:
            self.is_sure = True
        if self._kinds.unsure is not None and (self._kinds.of_numpy or self._kinds.makes_texts or names_methods(blob)):
            from .canonical.items import oddness
            self.oddness = oddness(blob, budget, self._kinds.of_numpy, self._kinds.makes_texts)

    @property
    def is_over(self) -> bool:
        """Whether loaders raised at an import that cannot be there, or no import can."""
        return self._is_over or self.is_doubtful

    @property
    def is_doubtful(self) -> bool:
        """Whether they import something, and all of it is what no module has."""
        return bool(self._is_doubtful)

    @property
    def is_empty(self) -> bool:
        """Whether there was no line."""
        return not self._count

    def take(self, pieces: Iterable[bytes]) -> None:
        """Reads the program's answer to its end."""
        rest: List[bytes] = []
        kind = ''
        for piece in pieces:
            self._check_cost(len(piece))
            whole, newline, begun = piece.rpartition(b'\n')
            if not newline:
                rest.append(begun)
                self._begun += len(begun)
                self._check_kept()
                continue
            lines = b''.join([*rest, whole, newline])
            rest, self._begun = [begun], len(begun)
            kind = self.take_fields(*plainly_in(lines))
        if any(rest) or kind != 'end':
            raise ProgramError('the program gave no whole answer')

    def take_fields(self, lines: Sequence[Fields], signs: bytes) -> str:
        """Reads lines, which have these signs, and answers the kind of the last one."""
        for is_event, group in groupby(lines, lambda fields: fields['kind'] in EVENTS):
            if is_event:
                self._take_lines(list(group), signs)
                continue
            for fields in group:
                if fields['kind'] == 'heading':
                    self._begin_part(fields)
                elif not self._part:
                    self._closing[fields['kind']] = fields
                self._rows += bool(text_of(fields))
                if fields['kind'] == 'end' and not self._part:
                    self._take_end()
        return str(lines[-1]['kind'])

    def _take_lines(self, lines: Sequence[Fields], signs: bytes) -> None:
        """Counts lines that come from opcodes."""
        for row, fields in enumerate(lines, self._rows):
            if 'text' not in fields and self._printed is not None:
                fields['text'] = self._printed(row)
        self._kinds.read(lines, signs, self._part)
        for fields in lines:
            if fields['kind'] in ('call', 'inst'):
                self._take_given(fields)
            self._count += 1
            self._budget.lines -= 1
            if self._budget.lines < 0:
                raise Enough(f'the answers about the file have more than {self._budget.limits.lines:,} lines')
            self._found_by(fields).count += 1
            if self._lines is not None:
                self._keep_line(fields)
            if self._each is not None:
                self._each(self._place(int(fields['offset'])), fields)
            self._rows += 1

    def _take_given(self, fields: Fields) -> None:
        """Counts a call of what is given to something that calls it, as one by the pickle itself, and finds what pandas makes where a call fails."""
        arguments, pair = fields.get('args'), (fields.get('module'), fields.get('name'))
        if fields['kind'] == 'call' and self._offsets is None and _is_of_offsets(arguments) and pair not in _GIVEN_OFFSETS:
            self._offsets = int(fields['offset']), said_in(fields), self._part
        what, at = _GIVERS.get(pair, ('', 0))
        if not what:
            return
        if not isinstance(arguments, list):
            if arguments is not None and arguments['kind'] == 'object':
                self._hidden = self._hidden or (int(fields['offset']), said_in(fields), self._part)
            return
        given = arguments[at] if at < len(arguments) else {}
        name = name_of(given) if given.get('kind') == 'global' and 'object' not in given else None
        if not isinstance(name, Global) or name.raw or name.module == b'builtins':
            return
        key = (f'given {what}', name), self._part
        found = self._found.get(key)
        if found is None:
            text = said_in(fields)
            self._keep(text)
            found = self._found[key] = _Found(what, _known(name).shown, self._place(int(fields['offset'])), text, self._part, given=True)
        found.count += 1

    def _begin_part(self, fields: Fields) -> None:
        """Goes on with what is under a heading."""
        if not self._part:
            self._take_end()
        if 'text' not in fields:
            raise ProgramError('the program is of an earlier version than the package')
        self._part = HEADINGS[fields['frames']]
        self._is_over = self._is_over and fields['frames'] == _GOES_ON
        if self._lines is not None:
            self._lines.append(text_of(fields))

    def _take_end(self) -> None:
        """Keeps how the strict reading ended."""
        closing = self._closing
        if self._offset_of is not None:
            closing = {kind: {**fields, 'offset': self._place(int(fields['offset']))} if 'offset' in fields else fields for kind, fields in closing.items()}
        self.end = end_of(closing)

    def _found_by(self, fields: Fields) -> '_Found':
        """What a line is counted by. It is kept with the first line of its kind about its name."""
        what = fields['kind']
        if what in CHANGES:
            name = self._imported.get(fields['object'], '')
            return self._found.get(((what, name), self._part)) or self._first_of(fields, name, _Known(name, False))
        known: Optional[_Known] = None
        of: object = ''
        if what in _WITH_NAME:
            parts = fields.get('module'), fields.get('name')
            # (a name that is no text is a number, or an object of the pickle)
            known = _known(name_of(fields)) if None in parts else None
            of = parts if known is None else known.shown
        found = self._found.get(((what, of), self._part)) or self._first_of(fields, of, known or _known_as(of))
        if what == 'import':
            self._imported[fields['object']] = found.name
        return found

    def _first_of(self, fields: Fields, of: object, known: '_Known') -> '_Found':
        """Keeps the first line of its kind about a name."""
        what, offset, text = fields['kind'], int(fields['offset']), said_in(fields)
        self._keep(text)
        if what in IMPORTS:
            # (a loader of the strict lines may go on: torch has an answer for a name with `Storage` of any module)
            self._is_over = self._is_over or self._part != '' and known.is_impossible
            self._is_doubtful = known.is_impossible and self._is_doubtful is not False
        if not self._is_over:
            self._keep_doubts(what, known, offset)
            self.is_sure = self.is_sure or (known.can_be_there if what in IMPORTS else what not in _WEAK and not self._is_doubtful)
            self.names.update([known.parts] if what in IMPORTS and known.parts is not None and not known.is_impossible else ())
        found = self._found[(what, of), self._part] = _Found(what, known.shown, self._place(offset), text, self._part, member=known.member)
        return found

    def _keep_doubts(self, what: str, known: '_Known', offset: int) -> None:
        """Keeps the first import and the first call of what no module has, where the bytes decide whether they are a pickle."""
        if self._is_doubtful and what in IMPORTS and known.begins and self._begun_import is None:
            assert known.parts is not None
            self._begun_import = offset, known.parts
        if self._is_doubtful and what == 'call' and self._doubtful_call is None:
            self._doubtful_call = offset

    def _keep_line(self, fields: Fields) -> None:
        """Keeps a whole line."""
        assert self._lines is not None
        said = said_in(fields)
        line = text_of(fields) if self._offset_of is None else f'{self._place(int(fields["offset"])):>5}: {said}'
        self._keep(line)
        self._lines.append(line)

    def _place(self, offset: int) -> int:
        return offset if self._offset_of is None else self._offset_of(offset)

    def _keep(self, text: str) -> None:
        self._kept += len(text)
        self._check_kept()

    def _check_cost(self, count: int) -> None:
        """Counts bytes of the answer, and looks at the time that reading them takes."""
        self._budget.answered += count
        if self._budget.answered > _MOST_ANSWERED:
            raise Enough(f'the answers about the file have more than {_MOST_ANSWERED:,} bytes')
        if self._budget.seconds <= 0:
            raise Enough(f'it took {self._budget.limits.seconds:g} seconds of processor time')

    def _check_kept(self) -> None:
        """Counts a line that has not ended yet, too: an argument in full may be long."""
        if self._kept + self._begun > _MOST_KEPT:
            raise Enough(f'the answer about it has more than {_MOST_KEPT:,} bytes of different lines')

    def pickle(self, where: Place, size: int) -> Pickle:
        """What was found, by names, in the order in which they come first."""
        imports: Dict[Tuple[str, str], Tuple[_Found, int]] = {}
        done: Dict[Tuple[str, str, str, bool], Tuple[_Found, int]] = {}
        for found in self._found.values():
            name, part = found.name, found.part
            if found.what in IMPORTS:
                first, count = imports.get((name, part), (found, 0))
                first.member = first.member or found.member
                imports[name, part] = first, count + found.count
            if found.what != 'import':
                key = found.what, name, part, found.given
                first, count = done.get(key, (found, 0))
                done[key] = first, count + found.count
        odd = self._kinds.odd or (self._kinds.unsure if self.oddness else None)
        if odd is not None:
            offset, text, part = odd
            name = self._kinds.name(self.oddness)
            done[ODD, name, part, False] = _Found(ODD, name, self._place(offset), text, part, 1), 1
        for name, first_line in ((OF_ARGUMENTS, self._hidden), (OF_OFFSETS, self._offsets)):
            if first_line is not None:
                offset, text, part = first_line
                done[ODD, name, part, False] = _Found(ODD, name, self._place(offset), text, part, 1), 1
        return Pickle(where, size, tuple(Import(first.name, count, first.offset, first.part, first.member) for first, count in imports.values()),
                      tuple(Call(first.what, first.name, count, first.offset, first.text, first.part, first.given) for first, count in done.values()),
                      self.end, tuple(self._lines or ()))


class _Found:
    """Lines of one kind about one name, in one part: how many, and the offset and the text of the first."""

    __slots__ = 'what', 'name', 'offset', 'text', 'part', 'count', 'member', 'given'

    def __init__(self, what: str, name: str, offset: int, text: str, part: str = '', count: int = 0, member: str = '', given: bool = False) -> None:
        self.what, self.name, self.offset, self.text = what, name, offset, text
        self.part, self.count, self.member, self.given = part, count, member, given


class _Known(NamedTuple):
    """What is known of a name: how it is shown, whether its import shows that the bytes are a pickle, its member where that has a point, and its
    parts. It is impossible where no loader imports something by these, unless it `begins` with a module."""

    shown: str
    can_be_there: bool
    member: str = ''
    parts: Optional[Tuple[str, str]] = None
    is_impossible: bool = False
    begins: bool = False


def _known(name: Optional[Name]) -> _Known:
    """A name shows a pickle where its module can have this name, or the pickle works it out.

    A number of copyreg's alone does not: one of a hundred files of raw numbers begins with its opcode.
    """
    if not isinstance(name, Global):
        return _Known(shown_name(name), False)
    member = name.name.decode() if isinstance(name.name, bytes) and b'.' in name.name and is_dotted(name.name) else ''
    module, named = (part if isinstance(part, bytes) else b'_' for part in (name.module, name.name))
    parts = module.decode('utf-8', 'backslashreplace'), named.decode('utf-8', 'backslashreplace')
    is_possible = may_be_imported(module, named)
    return _Known(shown_name(name), is_dotted(module) and is_possible, member, parts, not is_possible,
                  not is_possible and may_be_begun(module))


# What calls (or makes, with `new`) one of the things that it is given: which of them.
_GIVERS: Dict[Tuple[Any, Any], Tuple[str, int]] = {('copyreg', '__newobj__'): ('new', 0), ('copyreg', '__newobj_ex__'): ('new', 0), ('copyreg', '_reconstructor'): ('call', 1),
           ('numpy.random._pickle', '__bit_generator_ctor'): ('call', 0), ('numpy.random._pickle', '__generator_ctor'): ('call', 1),
           ('numpy.random._pickle', '__randomstate_ctor'): ('call', 1), ('torch._tensor', '_rebuild_from_type_v2'): ('call', 0)}
# Where pandas' date offsets are, and what picklers write calls of that are given such a class. `pandas.read_pickle` calls `__new__` of it where the
# call raises a TypeError.
_OFFSETS = ('pandas._libs.tslibs.offsets', 'pandas.tseries.offsets')
_GIVEN_OFFSETS = {('copyreg', '_reconstructor'), ('copy_reg', '_reconstructor'), ('copyreg', '__newobj__'), ('copy_reg', '__newobj__'),
                  ('functools', 'partial')}


def _is_of_offsets(arguments: object) -> bool:
    """Whether the first argument is a class of date offsets."""
    return isinstance(arguments, list) and len(arguments) > 0 and arguments[0]['kind'] == 'global' and arguments[0].get('module') in _OFFSETS


def _known_as(of: object) -> _Known:
    """What is known of a name by two texts, or of no name."""
    if not isinstance(of, tuple):
        return _Known('', False)
    return _known_by(*of) if len(of[0]) + len(of[1]) <= _SHORT else _known_of(*of)


def _known_of(module: str, name: str) -> _Known:
    return _known(Global(module.encode('utf-8'), name.encode('utf-8')))


_known_by = lru_cache(maxsize=_MOST_NAMES)(_known_of)


def calls_words(full: bool) -> List[str]:
    """The words by which the program is asked, with arguments in full or cut."""
    return ['calls', '--json', '--full'] if full else ['calls', '--json']


# The signals by which a system ends a program at its limit of time. (Windows has no such limit.)
_ENDED = ('SIGXCPU', 'SIGKILL')


def calls_in_form(blob: Blob, budget: Budget) -> Optional[bytes]:
    """What the program says that a small pickle calls, where it is in the form that picklers write and nothing in it can be a joblib array."""
    content = content_of(blob)
    if content is None or SIGN_OF_ARRAYS in content or library.answer(['form', '--json'], content) != IN_FORM or budget.spend() < _LITTLE_TIME:
        return None
    return library.answer(calls_words(False), content, budget.memory())


class Asked:
    """Bytes that are asked about: a few of them in this process, others as a file that the program opens, from when that is needed.

    In this process there is no limit of time, and a small one of memory. What is not answered there within that, or where little time is
    left, the program is asked, under the limits of the budget.
    """

    def __init__(self, blob: Blob) -> None:
        self._blob = blob
        self._content = content_of(blob)
        self._copy: Optional[Spooled] = None

    def __enter__(self) -> Asked:
        return self

    def __exit__(self, *error: object) -> None:
        if self._copy is not None:
            self._copy.file.close()

    def summary(self, budget: Budget, keep_lines: bool = False, offset_of: Optional[Callable[[int], int]] = None, full: bool = False,
                calls: Optional[bytes] = None, is_kept: bool = False, each: Optional[Callable[[int, Fields], None]] = None) -> Summary:
        """What they import and call, as one pickle or several in a row. What was found before a limit or a failure is kept.

        With `full` arguments are whole. `calls` is what the program says where they are not, if it was asked. With `is_kept` they are read by
        one unpickler that keeps its memo.
        """
        words = [*calls_words(full), *(('--memo', 'kept') if is_kept else ())]
        summary = Summary(budget, keep_lines, offset_of, each, self._printed([word for word in words if word != '--json'], budget))
        seconds = budget.spend()
        text = self._in_process(words, budget, seconds) if calls is None or full else calls
        if text is None:
            self._ask_program(words, summary, budget)
        else:
            with self._troubles_of(summary, budget):
                summary.take(text[at:at + CHUNK] for at in range(0, len(text), CHUNK))
        summary.ask(self._blob, budget)
        return summary

    def offset_of_item(self, item: int, budget: Budget) -> Optional[int]:
        """Where an opcode begins. `item` counts the opcodes before it. None where a limit is met first."""
        lines = self._in_process(['list', '--json', '--many'], budget, budget.seconds)
        if lines is not None:
            from ..answers import Listing  # (hardly a pickle is asked so)
            opcodes = Listing(lines)
            return opcodes[item].offset if item < len(opcodes) else None
        from ..program import run_program
        from ..listed import fields_of
        try:
            answer = run_program(['debug', '--json', self._path(), '--many', '--window', '1'], script=b'goto %d\nwhere\n' % item,
                                 timeout=max(1, budget.seconds), memory=budget.memory())
            return int(fields_of(answer.splitlines()[-1])['offset'])
        except PicklestepError:
            return None

    def _in_process(self, words: List[str], budget: Budget, seconds: float) -> Optional[bytes]:
        """The answer, where it can be had here within the time that is left."""
        if self._content is None or seconds < _LITTLE_TIME:
            return None
        return library.answer(words, self._content, budget.memory())

    def _printed(self, words: List[str], budget: Budget) -> Callable[[int], str]:
        """What gives a line of the answer for people, by how many are before it. They are asked for one after another."""
        def blocks() -> Iterator[bytes]:
            text = self._in_process(words, budget, budget.seconds)
            if text is not None:
                yield text
                return
            from ..program import Process, time_to_wait
            process = Process([*words, self._path()], memory=budget.memory())
            process.limit_seconds(budget.seconds)
            yield from process.blocks(time_to_wait(budget.seconds))

        lines = enumerate(line for block in whole_lines(blocks()) for line in block.decode('ascii').splitlines())
        return lambda row: next((line for at, line in lines if at == row), '')

    def _path(self) -> str:
        """The path under which the program can open these bytes: an open file, or a copy of our own."""
        path = self._blob.path() if isinstance(self._blob, FileBlob) else None
        if path is not None:
            return path
        if self._copy is None:
            self._copy = spooled(self._blob.chunks())
        return self._copy.path()

    def _ask_program(self, words: List[str], summary: Summary, budget: Budget) -> None:
        from ..program import Process, time_to_wait  # (most pickles are asked about in this process)
        may_take = budget.memory()
        with self._troubles_of(summary, budget):
            process = Process([*words, self._path()], memory=may_take if self._blob.size * _MEMORY_OF_A_BYTE > may_take else None)
            process.limit_seconds(budget.seconds)
            with closing(process.blocks(time_to_wait(budget.seconds))) as pieces:
                summary.take(pieces)

    @contextmanager
    def _troubles_of(self, summary: Summary, budget: Budget) -> Iterator[None]:
        """Where a limit is met within it, or the program fails, the summary says so, and keeps what was found before."""
        may_take, seconds = budget.memory(), budget.limits.seconds
        try:
            yield
        except Enough as limit:
            summary.trouble = f'{limit}: the rest of it is not looked at'
        except OutOfMemory:
            summary.trouble = f'the program had no more memory (it may take {may_take:,} bytes): the rest of it is not looked at'
        except TimedOut:
            summary.trouble = f'the program took more than {seconds:g} seconds: the rest of it is not looked at'
        except ProgramError as error:
            summary.trouble = f'the program did not read all of it: {error.words}'
            if _is_of_time(error.signal) and budget.seconds <= 1:
                summary.trouble = f'the program took more than {seconds:g} seconds: the rest of it is not looked at'


def _is_of_time(number: Optional[int]) -> bool:
    import signal
    return number in [getattr(signal, name) for name in _ENDED if hasattr(signal, name)]


def _part(part: object) -> str:
    """A part of a name that is no plain word: quoted, or the object that gives it."""
    if isinstance(part, Ref):
        return f'#{part.number}'
    assert isinstance(part, bytes)
    return ascii(part)[1:]


def shown_name(name: Optional[Name]) -> str:
    """A name as it is printed and compared: `os.path.join`, `ext 7`, or its two parts in quotes where one of them is no plain word.

    >>> shown_name(Global(b'os', b'system')), shown_name(Global(b'os ', b'x')), shown_name(Global(b'os', Ref(5)))
    ('os.system', "'os ' 'x'", "'os' #5")
    >>> shown_name(Global(b'\\xff', b'x', ('module',)))
    "raw '\\\\xff' 'x'"
    """
    if isinstance(name, Extension):
        return f'ext {name.code}'
    if not isinstance(name, Global):
        return ''
    if isinstance(name.module, bytes) and isinstance(name.name, bytes) and is_dotted(name.module) and is_dotted(name.name):
        return f'{name.module.decode()}.{name.name.decode()}'
    module, attribute = (f'{"raw " if which in name.raw else ""}{_part(part)}' for which, part in (('module', name.module), ('name', name.name)))
    return f'{module} {attribute}'


def is_plain_name(name: str) -> bool:
    """Whether a name that is shown is a plain one, or one of which the pickle works out the second part.

    >>> [is_plain_name(name) for name in ('os.system', "'os' #5", "'os ' 'x'")]
    [True, True, False]
    """
    return _PLAIN.fullmatch(name) is not None


def is_odd_name(name: str) -> bool:
    """Whether a name that is shown is no plain one, and yet may be that of something that is there.

    >>> [is_odd_name(name) for name in ("'lib-dynload._ctypes' 'dlopen'", "'os ' 'x'", 'os.system')]
    [True, False, False]
    """
    return _ODD.fullmatch(name) is not None


def begun_module(name: str) -> str:
    """What Python imports of a name that is shown, if its module is none: what stands before the first point.

    >>> begun_module("'this.a b' 'x'"), begun_module("'lib-dynload._ctypes' 'dlopen'"), begun_module("'os ' 'x'")
    ('this', '', '')
    """
    begun = _BEGUN.match(name)
    return '' if begun is None else begun[1]


def is_worked_out(name: str) -> bool:
    """Whether a pickle makes a part of a name that is shown, or it is a number of copyreg's.

    >>> [is_worked_out(name) for name in ('os.system', "'os' #5", 'ext 7')]
    [False, True, True]
    """
    return _WORKED_OUT.search(name) is not None


def why_unread(head: bytes, pickle: Pickle) -> Optional[str]:
    """What is known of a layout that cannot be read whole."""
    if pickle.end.is_stopped:
        return None
    if head.startswith(_LEGACY_TORCH):
        return ("torch's layout before zip archives: the raw numbers of its tensors stand after its pickles, so reading ends in them. "
                'torch.load reads five pickles and then the numbers.')
    if any(found.name.startswith('joblib.numpy_pickle') for found in pickle.imports):
        return ("joblib's layout: the raw numbers of arrays stand between the opcodes, so reading ends at the first array. "
                'What stands after it is not looked at.')
    return None
