"""Answers: sequences over the program's own lines, each of which is read when it is asked for."""

from __future__ import annotations

import abc
from array import array
from functools import cached_property
from itertools import chain, islice
from typing import TYPE_CHECKING, Callable, ClassVar, Dict, Iterator, List, Optional, Sequence, Tuple, TypeVar, Union, overload

from . import held, listed, made, reaches
from .records import End, Reach

if TYPE_CHECKING:
    from .listing_records import Object, Opcode

__all__ = ['Answer', 'Calls', 'Line', 'Listing', 'Objects', 'Part', 'Reached']

Line = TypeVar('Line')

# So many lines are shown in a notebook, and so many letters of each.
_SHOWN_LINES = 200
_SHOWN_LETTERS = 1000
_BLOCK = 1 << 16
# How lines of `calls --json` begin that do not come from opcodes.
_HEADING, _UNSURE = b'{"kind":"heading"', b'{"kind":"unsure"'
_CLOSING = b'{"kind":"begins"', b'{"kind":"counts"', b'{"kind":"hole"'


class Answer(Sequence[Line]):
    """An answer of the program: a sequence over lines, and the program's `text`.

    What the program printed is kept, and 8 bytes for each line once there was an index or a length: a line is read each time it is asked for. `said` has
    lines about what was opened, as words say it on standard error: there are none of bytes, and of a file that is read as it is.

    >>> import picklestep
    >>> answer = picklestep.listing(b'N.')
    >>> answer.text
    '    0: N    NONE\\n    1: .    STOP\\nhighest protocol among opcodes = 0\\n'
    """

    _what: ClassVar[str] = 'lines'
    text: str
    said: Tuple[str, ...] = ()

    @cached_property
    def _starts(self) -> 'array[int]':
        """Where the lines begin."""
        return array('Q', self._find())

    @abc.abstractmethod
    def _find(self) -> Iterator[int]:
        """Where the lines begin, one after another."""

    @abc.abstractmethod
    def _at(self, start: int) -> Line:
        """The line that begins at a place."""

    def __len__(self) -> int:
        return len(self._starts)

    @overload
    def __getitem__(self, index: int) -> Line: ...

    @overload
    def __getitem__(self, index: slice) -> Sequence[Line]: ...

    def __getitem__(self, index: Union[int, slice]) -> Union[Line, Sequence[Line]]:
        if isinstance(index, slice):
            return [self._at(start) for start in self._starts[index]]
        return self._at(self._starts[index])

    def __iter__(self) -> Iterator[Line]:
        return map(self._at, self._find())

    def _summary(self) -> str:
        return f'{len(self)} {self._what}'

    def __repr__(self) -> str:
        return f'<{type(self).__name__}: {self._summary()}>'

    def _shown(self) -> Tuple[List[str], int]:
        """The first lines of the text, and how many there are besides."""
        *lines, more = self.text.split('\n', _SHOWN_LINES)
        return lines, more.count('\n')

    def _repr_html_(self) -> str:
        """The first lines of the text, for notebooks."""
        import html  # (a notebook has it)
        lines, count = self._shown()
        shown = html.escape('\n'.join(line if len(line) <= _SHOWN_LETTERS else line[:_SHOWN_LETTERS] + ' ..' for line in lines))
        return f'<pre>{shown}{f"{chr(10)}.. {count} lines more" if count else ""}</pre><p>{html.escape(self._summary())}</p>'


class _OfLines(Answer[Line]):
    """An answer that is read of lines of JSON."""

    # How the lines begin that it has.
    _begins: ClassVar[bytes]

    def __init__(self, json: bytes) -> None:
        """Takes the lines. Raises ProgramError where they are not whole."""
        self.json = listed.check_whole(json)

    @staticmethod
    @abc.abstractmethod
    def _printed_of(fields: listed.Fields) -> List[str]:
        """What the program prints of a line without `--json`."""

    def _find(self) -> Iterator[int]:
        return listed.starts_in(self.json, self._begins)

    def _fields(self, start: int) -> listed.Fields:
        return listed.fields_of(self.json[start:self.json.index(b'\n', start)])

    @cached_property
    def _end(self) -> listed.Fields:
        return self._fields(self.json.rfind(b'\n', 0, -1) + 1)

    @property
    def text(self) -> str:  # type: ignore[override]
        """What the program prints without `--json`. It is made of the lines of JSON each time it is asked for.

        >>> import picklestep
        >>> picklestep.listing(b'K').text, picklestep.objects(b'K').text
        ('fault: F3 truncated at 0\\n', 'fault: F3 truncated at 0\\n')
        """
        return ''.join(f'{line}\n' for line in self._printed())

    def _blocks(self) -> Iterator[bytes]:
        return (self.json[at:at + _BLOCK] for at in range(0, len(self.json), _BLOCK))

    def _all(self) -> Iterator[listed.Fields]:
        """The fields of all lines."""
        for lines in listed.whole_lines(self._blocks()):
            yield from listed.fields_in(lines)

    def _printed(self) -> Iterator[str]:
        return chain.from_iterable(map(self._printed_of, self._all()))

    def _shown(self) -> Tuple[List[str], int]:
        lines = list(islice(self._printed(), _SHOWN_LINES))
        return lines, max(0, self.json.count(b'\n') + len(self._printed_of(self._end)) - 1 - len(lines))


class Listing(_OfLines['Opcode']):
    """The opcodes of a pickle.

    >>> import picklestep
    >>> answer = picklestep.listing(b'N.')
    >>> answer[0].name, len(answer), answer.end.how, answer.protocol
    ('NONE', 2, 'stopped', 0)
    """

    _what = 'opcodes'
    _begins = listed.OPCODE

    @staticmethod
    def _printed_of(fields: listed.Fields) -> List[str]:
        return listed.printed(fields)

    def _at(self, start: int) -> Opcode:
        return listed.opcode_of(self._fields(start))

    def __iter__(self) -> Iterator[Opcode]:
        return listed.opcodes_of(self._blocks())

    def each(self, read: Callable[[listed.Fields], listed.Read]) -> Iterator[Tuple[int, listed.Read]]:
        """The offset of each opcode, and what a function makes of the other fields of its line. Of lines that are the same but for the offset it is
        asked once, or a few times: so it costs less than to make all records.

        >>> import picklestep
        >>> list(picklestep.listing(b'K\\x01.').each(lambda fields: fields.get('argument')))
        [(0, 1), (2, None)]
        """
        return listed.each_of(self._blocks(), read)

    @cached_property
    def end(self) -> End:
        """How reading ended.

        >>> import picklestep
        >>> picklestep.listing(b'N0.').end
        End(how='refused', code='S2', text='S2 stack underflow', offset=2, item=2)
        """
        return listed.end_of(self._end, (self[-1].offset, len(self) - 1) if self._end['how'] == 'refused' else (None, None))

    @property
    def protocol(self) -> Optional[int]:
        """The highest protocol among the opcodes, where there are any.

        >>> import picklestep
        >>> picklestep.listing(b']K\\x01a.').protocol, picklestep.listing(b'').protocol
        (1, None)
        """
        protocol: Optional[int] = self._end.get('protocol')
        return protocol

    @property
    def kept(self) -> int:
        """How many bytes are after STOP. With `many` there are none.

        >>> import picklestep
        >>> picklestep.listing(b'N.N.').kept, picklestep.listing(b'N.N.', many=True).kept
        (2, 0)
        """
        return int(self._end.get('kept', 0))

    @property
    def left(self) -> List[Tuple[int, int]]:
        """How many objects and marks each STOP left on the stack, of those that left any.

        >>> import picklestep
        >>> picklestep.listing(b'NN(N.').left
        [(2, 1)]
        """
        return listed.left_of(self.json)

    def _summary(self) -> str:
        return f'{len(self)} opcodes, {self.end.text}'


class Objects(_OfLines['Object']):
    """The objects that a pickle makes.

    >>> import picklestep
    >>> answer = picklestep.objects(b']N\\x85.')
    >>> answer[2], answer.results
    (Object(number=2, kind='tuple', text=None, parts=(1,), changes=()), (2,))
    """

    _what = 'objects'
    _begins = made.OBJECT

    def __init__(self, json: bytes, refused_at: Optional[int] = None) -> None:
        """Takes the lines of `objects --json`, and the offset of a refused opcode, which they do not show. Raises ProgramError where they are not whole."""
        super().__init__(json)
        self._refused_at = refused_at

    @staticmethod
    def _printed_of(fields: made.Fields) -> List[str]:
        return made.printed(fields)

    def _at(self, start: int) -> Object:
        return made.object_of(self._fields(start))

    def __iter__(self) -> Iterator[Object]:
        return map(made.object_of, self.fields())

    def fields(self) -> Iterator[made.Fields]:
        """The fields of the lines of objects.

        >>> import picklestep
        >>> list(picklestep.objects(b'N.').fields())
        [{'kind': 'object', 'object': 0, 'is': 'none'}]
        """
        return chain.from_iterable(made.made_in(self._blocks()))

    def tails(self) -> Iterator[List[str]]:
        """What stands behind the numbers in the lines of objects, some at a time.

        >>> import picklestep
        >>> list(picklestep.objects(b'N.').tails())
        [['none"}']]
        """
        return held.tails_in(self._blocks())

    @cached_property
    def end(self) -> End:
        """How reading ended.

        >>> import picklestep
        >>> picklestep.objects(b'N0.').end
        End(how='refused', code='S2', text='S2 stack underflow', offset=2, item=2)
        """
        return made.end_of(self._end, self._refused_at)

    @cached_property
    def results(self) -> Tuple[int, ...]:
        """The numbers of the objects that STOP took, one for each pickle.

        >>> import picklestep
        >>> picklestep.objects(b'NN\\x86.]K\\x07a.', many=True).results
        (2, 3)
        """
        return made.results_in(self.json)

    def _summary(self) -> str:
        return f'{len(self)} objects, {self.end.text}'


class Reached(Answer[Reach]):
    """Lines of `calls` with the counts and the end that stand after them: those of `Calls`, or those of a `Part`.

    >>> import picklestep
    >>> isinstance(picklestep.calls(b'N.'), picklestep.Reached)
    True
    """

    def __init__(self, json: bytes, start: int, end: int, refused_at: Optional[int] = None) -> None:
        """Takes lines of `calls --json`, of which these are its own."""
        self.json = json
        self._refused_at = refused_at
        self._start, self._end = start, end

    @cached_property
    def _behind(self) -> int:
        """Where its lines end that come from opcodes."""
        return min((at for at in (self.json.find(sign, self._start, self._end) for sign in _CLOSING) if at >= 0), default=self._end)

    @property
    def text(self) -> str:  # type: ignore[override]
        """What `calls` prints of this and of all parts. It is made of the lines of JSON each time it is asked for.

        >>> import picklestep
        >>> picklestep.calls(b'N.').text
        '0 imports, 0 calls\\n'
        """
        return ''.join(f'{line}\n' for line in self._printed())

    def _printed(self) -> Iterator[str]:
        return filter(None, map(reaches.text_of, self._fields(0, len(self.json))))

    def _shown(self) -> Tuple[List[str], int]:
        lines = list(islice(self._printed(), _SHOWN_LINES + 1))
        return lines[:_SHOWN_LINES], 0 if len(lines) <= _SHOWN_LINES else self.json.count(b'\n') - 1 - _SHOWN_LINES

    def _blocks(self, start: int, end: int) -> Iterator[bytes]:
        return (self.json[at:min(at + _BLOCK, end)] for at in range(start, end, _BLOCK))

    def _fields(self, start: int, end: int) -> Iterator[reaches.Fields]:
        return chain.from_iterable(map(reaches.fields_in, listed.whole_lines(self._blocks(start, end))))

    def fields(self) -> Iterator[reaches.Fields]:
        """The fields of the lines that come from opcodes.

        >>> import picklestep
        >>> [fields['kind'] for fields in picklestep.calls(b'cos\\ngetcwd\\n.').fields()]
        ['import']
        """
        return self._fields(self._start, self._behind)

    def _find(self) -> Iterator[int]:
        at = self._start
        while at < self._behind:
            yield at
            at = self.json.index(b'\n', at) + 1

    def _at(self, start: int) -> Reach:
        return reaches.reach_of(reaches.fields_of(self.json[start:self.json.index(b'\n', start)]))

    def __iter__(self) -> Iterator[Reach]:
        return map(reaches.reach_of, self.fields())

    @cached_property
    def _closing(self) -> Dict[str, reaches.Fields]:
        """The lines behind those of opcodes, by their kinds."""
        return {fields['kind']: fields for fields in self._fields(self._behind, self._end)}

    def _count(self, name: str) -> int:
        return int(self._closing.get('counts', {}).get(name, 0))

    @property
    def imports(self) -> int:
        """How many imports there are. An INST is one, and a call too.

        >>> import picklestep
        >>> picklestep.calls(b'(ios\\ngetcwd\\n.').imports
        1
        """
        return self._count('imports')

    @property
    def calls(self) -> int:
        """How many calls there are.

        >>> import picklestep
        >>> picklestep.calls(b'cos\\ngetcwd\\n)R.').calls
        1
        """
        return self._count('calls')

    @cached_property
    def end(self) -> End:
        """How reading ended.

        >>> import picklestep
        >>> picklestep.calls(b'cos\\ngetcwd\\nR.').end
        End(how='refused', code='S2', text='S2 stack underflow', offset=11, item=1)
        """
        return reaches.end_of(self._closing, self._refused_at)

    @property
    def warning(self) -> Optional[str]:
        """What the program warns of: that an import leads to the unpickler itself, so that what stands behind its line may do what no line shows;
        or else that a tuple is nested so deep that to hash it may take without end. None where neither is so.

        >>> import picklestep
        >>> picklestep.calls(b'cgc\\nget_objects\\n.').warning
        '#0 leads to the unpickler'
        """
        fields = self._closing.get('warning')
        return None if fields is None else f'#{fields["object"]} {fields["words"]}'

    def _summary(self) -> str:
        return f'{self.imports} imports, {self.calls} calls, {self.end.text}{f", {self.warning}" if self.warning else ""}'


class Part(Reached):
    """What loaders may reach behind the end of the strict reading, under a heading of `calls`. `heading` is its words.

    >>> import picklestep
    >>> part, = picklestep.calls(b'cos\\ngetcwd\\nU\\x01aR.').parts
    >>> part.heading, part[0].text, part.calls, part.end.how
    ('a loader may go on', "call 'os' 'getcwd' string 'a' as #2", 1, 'stopped')
    """

    def __init__(self, json: bytes, start: int, end: int) -> None:
        begin = json.index(b'\n', start) + 1
        super().__init__(json, begin, end)
        self.heading = reaches.HEADINGS[reaches.fields_of(json[start:begin - 1])['frames']]


def _taken(fields: reaches.Fields) -> str:
    return reaches.text_of(fields).strip() or f'{fields["offset"]}: {fields["opcode"]}'


class Calls(Reached):
    """What pickles import and call: the lines of the strict reading. What loaders may reach behind its end is in `parts`.

    >>> import picklestep
    >>> answer = picklestep.calls(b'cos\\ngetcwd\\n)R.')
    >>> answer.imports, answer.calls, answer[1].what, answer[1].name
    (1, 1, 'call', Global(module=b'os', name=b'getcwd'))
    """

    def __init__(self, json: bytes, refused_at: Optional[int] = None) -> None:
        """Takes the lines of `calls --json`. Raises ProgramError where they are not whole."""
        last = listed.check_whole(json).rfind(b'\n', 0, -1) + 1
        mixed = json.rfind(b'\n' + _UNSURE, 0, last) + 1
        unsure, *behind = [reaches.fields_of(line) for line in json[mixed:last].splitlines()] if json.startswith(_UNSURE, mixed) else [{}]
        # What the line says where frames may be mixed; and behind it what loaders may take that mix them.
        self._mixed = listed.words_of(unsure) if unsure.get('code') == 'U3' else None
        self._mixes = () if self._mixed is None else tuple(_taken(fields) for fields in behind if fields['kind'] in ('taken', 'too_many_ways'))
        last = last if self._mixed is None else mixed
        headings = [*listed.starts_in(json, _HEADING), last]
        super().__init__(json, 0, headings[0], refused_at)
        # The bytes that were left out, each with its offset and its length.
        self.skipped: Tuple[Tuple[int, int], ...] = ()
        self._parts = tuple(Part(json, start, end) for start, end in zip(headings, headings[1:]))

    @property
    def mixed(self) -> Optional[str]:
        """What the program says where a loader may take one frame in one way and another frame in the other: from there on it may do what no line shows.
        None where none may.

        >>> import picklestep
        >>> picklestep.calls(b'\\x95\\x03\\0\\0\\0\\0\\0\\0\\0NM\\x01\\x000\\x95\\x01\\0\\0\\0\\0\\0\\0\\0.').mixed
        'U3 frames may be mixed at 10'
        """
        return self._mixed

    @property
    def mixes(self) -> Tuple[str, ...]:
        """What loaders may take that mix frames, each opcode with its offset, as `calls` prints it: no more is done by one of them. Empty where no frames
        may be mixed, and where no opcode imports, calls or changes anything; one line where there are too many ways.

        >>> import picklestep
        >>> picklestep.calls(b'\\x95\\x03\\0\\0\\0\\0\\0\\0\\0NM\\x01\\x000\\x95\\x01\\0\\0\\0\\0\\0\\0\\0cos\\ngetpid\\n)R.').mixes
        ("23: GLOBAL 'os' 'getpid'", '35: REDUCE')
        """
        return self._mixes

    @property
    def parts(self) -> Tuple[Part, ...]:
        """The parts under headings, each with a line at least: of what loaders reach where the strict reading does not end with STOP.

        >>> import picklestep
        >>> picklestep.calls(b'N.').parts
        ()
        """
        return self._parts

    def everything(self) -> Iterator[Reach]:
        """The lines of the strict reading and those of all parts.

        >>> import picklestep
        >>> [reach.what for reach in picklestep.calls(b'cos\\ngetcwd\\nU\\x01aR.').everything()]
        ['import', 'call']
        """
        return chain(self, *self._parts)

    @property
    def container(self) -> Optional[str]:
        """The container that the bytes begin like, into which `picklestep.scan` looks.

        >>> import picklestep
        >>> picklestep.calls(b'PK\\x03\\x04').container
        'a zip archive'
        """
        container: Optional[str] = self._closing.get('begins', {}).get('like')
        return container

    @cached_property
    def _watch(self) -> reaches.FieldsWatch:
        watch = reaches.FieldsWatch()
        for lines in listed.whole_lines(self._blocks(0, len(self.json))):
            watch.feed(lines)
        return watch

    @property
    def array_at(self) -> Optional[int]:
        """Where joblib's first array begins, whose numbers are no opcodes: `picklestep.scan` reads it, and what is behind it.

        >>> import picklestep
        >>> picklestep.calls(b'cjoblib.numpy_pickle\\nNumpyArrayWrapper\\n)\\x81}b\\x01').array_at
        43
        """
        return self._watch.array_at

    @property
    def hints(self) -> Tuple[str, ...]:
        """Where else to look for what the lines do not show, in words for people: behind joblib's arrays, and in a frame at which reading ended.

        >>> import picklestep
        >>> picklestep.calls(b'\\x80\\x04\\x95\\x09\\0\\0\\0\\0\\0\\0\\0N.').hints[0][:34]
        'what is in that frame is not read:'
        """
        return self._watch.hints_of_frames if self.skipped else self._watch.hints

    @property
    def kept(self) -> int:
        """How many bytes are after STOP, with `first`.

        >>> import picklestep
        >>> picklestep.calls(b'N.cos\\ngetcwd\\n.', first=True).kept
        12
        """
        return int(self._closing['ending'].get('kept', 0)) if 'ending' in self._closing else 0
