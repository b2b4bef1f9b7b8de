"""The lines of `debug --json`, read: what a session answers to each line. docs/reference/json.md has their fields.

An object of such a line is called its fields here, as in `listed`. `text_of` writes what `debug` prints of an answer for people.
"""

from __future__ import annotations

import json
from typing import Any, Callable, Dict, Iterable, Iterator, List, Optional, Sequence, Tuple, TypeVar, Union

from . import made
from .errors import Refused
from .listed import Fields, argument_of, shown_argument, words_of
from .records import End, Ref
from .session_records import Changed, Changer, Item, Made, Mark, Ran, Step, Stored, Where

__all__ = ['EDITS', 'ITEM', 'Entry', 'Memo', 'REFUSED', 'Stack', 'element_at', 'elements_in', 'item_of', 'made_of', 'ran_of', 'read', 'refused_by',
           'shown_text', 'starts_of', 'step_of', 'text_of', 'where_of']

# An entry of the stack.
Entry = Union[Ref, Mark]
_Word = TypeVar('_Word')

# How answers begin: the first field is the kind. No text in a line has a quote that is not escaped.
REFUSED = b'{"kind":"refused"'
EDITS = b'{"kind":"edited"', b'{"kind":"undone"', b'{"kind":"redone"'
# How an opcode begins in the answer to `items`. (An object in that to `objects` begins as a line of `objects --json` does.)
ITEM = b'{"kind":"opcode","place":'
_STACK, _MARKS, _MARK = b'{"kind":"stack","stack":[', b'],"marks":[', b'{"kind":"mark"'
_MEMO, _ENTRY = b'{"kind":"memo","entries":[', b'{"kind":"entry"'
# How a key stands in an entry; a large one has quotes.
_KEYS = b',"memo":%d,', b',"memo":"%d",'
_ENDS = b']}\n'
# All is read of an answer that has no more bytes, or where so many elements are asked for.
_SHORT = 1000
# (`raw_decode` is a function in Python around this one)
_scan: Callable[[str, int], Tuple[Any, int]] = vars(json.JSONDecoder())['scan_once']
_STOPPED = End('stopped')


# --- Refusals ---

def refused_by(fields: Fields) -> Refused:
    """Why a line was refused, by the answer to it.

    >>> refused = refused_by({'kind': 'refused', 'code': 'C9', 'words': 'no such item', 'edit': 'E1'})
    >>> refused.text, refused.code, refused.inner
    ('C9 E1 no such item', 'C9', 'E1')
    """
    end = fields.get('end', {})
    inner = end['code'] if end.get('how') == 'refused' else fields.get('edit', fields.get('fault', ''))
    return Refused(_refusal_of(fields), fields['code'], inner, _refusal_in(end))


def _refusal_of(fields: Fields) -> str:
    """What a line was refused for, as `debug` prints it behind `refused: `."""
    code, words = fields['code'], fields['words']
    written = _REFUSALS.get(code)
    return f'{code} {words if written is None else written(words, fields)}'


_REFUSALS: Dict[str, Callable[[str, Fields], str]] = {
    'C2': lambda words, fields: f'{words}, {_end_text(fields["end"])}',
    'C3': lambda words, fields: f'item {fields["end"]["item"]}: {words_of(fields["end"])}',
    'C8': lambda words, fields: f'edit at {fields["place"]} behind the cursor',
    'C9': lambda words, fields: f'{fields["edit"]} {words}',
    'X8': lambda words, fields: f'{fields["fault"]} {words}',
    'V2': lambda words, fields: f'no item at offset {fields["offset"]}'}


def _refusal_in(end: Fields) -> str:
    """Why an opcode is refused, by how a run ended; nothing where none is."""
    return words_of(end) if end.get('how') == 'refused' else ''


# --- Short answers ---

def where_of(fields: Fields) -> Where:
    """What the answer to `where` says."""
    end = fields['end']
    return Where(fields['place'], fields['length'], fields['offset'], fields['buffers'], tuple(fields['results']),
                 _STOPPED if end['how'] == 'stopped' else made.end_of(end, None), fields['objects'], fields['stack_size'], fields['marks'], fields['memo_size'])


def ran_of(fields: Fields) -> Ran:
    """What the answer to `run` says.

    >>> ran_of({'kind': 'ran', 'place': 2, 'how': 'refused', 'code': 'S2', 'words': 'stack underflow'})
    Ran(place=2, why='refused', text='refused, S2 stack underflow')
    """
    how = fields['how']
    why = 'end' if how in ('stopped', 'fault') else how
    return Ran(fields['place'], why, why if how == 'breakpoint' else f'{why}, {_end_text(fields)}', _refusal_in(fields), fields.get('code', ''))


class Stack:
    """What is on the stack, by the answer to `stack`, of which no more is read than is asked for: there may be millions of objects.

    >>> stack = Stack(b'{"kind":"stack","stack":[0,4],"marks":[{"kind":"mark","item":2,"below":1}]}\\n')
    >>> stack.all(), stack.last(2), len(stack)
    ((Ref(number=0), Mark(place=2), Ref(number=4)), [Mark(place=2), Ref(number=4)], 3)
    """

    def __init__(self, line: bytes) -> None:
        self._line = line

    def __len__(self) -> int:
        numbers, marks = self._arrays()
        return _count(numbers) + marks.count(_MARK)

    def all(self) -> Tuple[Entry, ...]:
        """All of it, from the bottom."""
        fields = read(self._line)
        return tuple(_entries(fields['stack'], fields['marks'], 0))

    def marks(self) -> List[int]:
        """The places of the opcodes that set the open marks, the lowest first."""
        return [mark['item'] for mark in _elements(self._arrays()[1])]

    def last(self, most: int) -> List[Entry]:
        """The highest entries, the lowest of them first."""
        if len(self._line) <= _SHORT:
            found = list(self.all())
        else:
            numbers, marks = self._arrays()
            objects = _last_of(numbers, b'', most)
            found = _entries(objects, _last_of(marks, _MARK, most), _count(numbers) - len(objects))
        return found[max(0, len(found) - most):]

    def _arrays(self) -> Tuple[bytes, bytes]:
        """The numbers of the objects, and the marks, without the brackets around them."""
        numbers, _, marks = self._line.rpartition(_MARKS)
        return numbers[len(_STACK):], marks[:-len(_ENDS)]


def read(line: bytes) -> Fields:
    """The fields of an answer, which is whole."""
    fields: Fields = _scan(line.decode('ascii'), 0)[0]
    return fields


def _count(numbers: bytes) -> int:
    return numbers.count(b',') + 1 if numbers else 0


def _elements(elements: bytes) -> List[Any]:
    """The elements of an array, of which these are the bytes between its brackets."""
    found: List[Any] = _scan(f'[{elements.decode("ascii")}]', 0)[0]
    return found


def _last_of(elements: bytes, begins: bytes, most: int) -> List[Any]:
    """The last elements of an array, each of which begins so."""
    parts = elements.rsplit(b',' + begins, most) if most < _SHORT else [elements]
    found = _elements(b','.join([begins + part for part in parts[1:]]) if len(parts) > most else elements)
    return found[max(0, len(found) - most):]


def _entries(numbers: Sequence[int], marks: Sequence[Fields], under: int) -> List[Entry]:
    """Objects and marks as they lie on the stack, from the bottom. So many objects are under the first."""
    objects: List[Entry] = list(map(Ref, numbers))
    return _merged(objects, [(mark['below'] - under, Mark(mark['item'])) for mark in marks]) if marks else objects


def _merged(objects: Sequence[_Word], marks: Iterable[Tuple[int, _Word]]) -> List[_Word]:
    """Objects and marks as they lie on the stack, from the bottom. With each mark stands how many of the objects are under it."""
    found: List[_Word] = []
    begin = 0
    for below, mark in marks:
        end = max(begin, below)
        found += objects[begin:end]
        found.append(mark)
        begin = end
    return [*found, *objects[begin:]]


class Memo:
    """The memo, by the answer to `memo`, of which no more is read than is asked for.

    >>> memo = Memo(b'{"kind":"memo","entries":[{"kind":"entry","memo":0,"object":0},{"kind":"entry","memo":5,"object":3}]}\\n')
    >>> memo.all(), memo.last(1), memo.get(5), memo.get(6), memo.keys_of(3), len(memo)
    ({0: 0, 5: 3}, [(5, 3)], 3, None, [5], 2)
    """

    def __init__(self, line: bytes) -> None:
        self._line = line

    @property
    def _entries(self) -> bytes:
        return self._line[len(_MEMO):-len(_ENDS)]

    def __len__(self) -> int:
        return self._entries.count(_ENTRY)

    def all(self) -> Dict[int, int]:
        """The number of the object under each key."""
        return {int(entry['memo']): entry['object'] for entry in read(self._line)['entries']}

    def get(self, key: int) -> Optional[int]:
        """The number of the object under a key, if there is one."""
        at = max(self._line.find(form % key) for form in _KEYS)
        return None if at < 0 else read(self._line[at - len(_ENTRY):self._line.index(b'}', at) + 1])['object']

    def keys_of(self, number: int) -> List[int]:
        """The keys under which an object is."""
        ends = [each.rpartition(b':')[2] for each in self._line.split(b',"object":%d}' % number)[:-1]]
        return [int(end.strip(b'"')) for end in ends]

    def last(self, most: int) -> List[Tuple[int, int]]:
        """The highest keys, the lowest of them first, each with the number of the object under it."""
        return [(int(entry['memo']), entry['object']) for entry in _last_of(self._entries, _ENTRY, most)]


# --- Many opcodes or objects ---

def starts_of(line: bytes, begins: bytes) -> Iterator[int]:
    """Where the opcodes or the objects of an answer begin.

    >>> list(starts_of(b'{"kind":"items","items":[{"kind":"opcode","place":0},{"kind":"opcode","place":1}]}\\n', ITEM))
    [25, 53]
    """
    at = line.find(begins)
    while at >= 0:
        yield at
        at = line.find(begins, at + 1)


def element_at(line: bytes, start: int, begins: bytes) -> Fields:
    """The opcode or the object that begins at a place."""
    return read(line[start:line.find(begins, start + 1)])


def elements_in(blocks: Iterable[bytes], begins: bytes) -> Iterator[Fields]:
    """The opcodes or the objects of an answer that comes in blocks, read some at a time.

    >>> [each['place'] for each in elements_in([b'{"kind":"items","items":[{"kind":"opcode","place":0},{"kind":"opcode","place":1}]}\\n'], ITEM)]
    [0, 1]
    """
    rest = b''
    for block in blocks:
        rest += block
        end = rest.rfind(b',' + begins)
        if end >= 0:
            yield from _elements(rest[rest.find(begins):end])
            rest = rest[end + 1:]
    begin = rest.find(begins)
    if begin >= 0:
        yield from _elements(rest[begin:rest.index(b'\n') - len(_ENDS) + 1])


def item_of(fields: Fields) -> Item:
    """An opcode of `items`.

    >>> item_of({'place': 0, 'offset': 0, 'opcode': 'BININT1', 'argument': 7, 'cursor': True, 'breakpoint': False})
    Item(place=0, offset=0, name='BININT1', argument=7, at_cursor=True, has_break=False)
    """
    return Item(fields['place'], int(fields['offset']), fields['opcode'], argument_of(fields), fields['cursor'], fields['breakpoint'])


# --- What a step did ---

def step_of(fields: Fields) -> Step:
    """What the answer to `trace` says.

    >>> step_of({'place': 0, 'offset': 0, 'opcode': 'NONE', 'made': 0, 'pushed': 0, 'took': [], 'buffers': 0, 'results': []}).made
    0
    """
    changed, entry = fields.get('changed'), fields.get('memo')
    return Step(fields['place'], int(fields['offset']), fields['opcode'], argument_of(fields), fields.get('begins', False), fields.get('made'),
                fields.get('pushed'), tuple(fields['took']), fields.get('cut_mark'), fields.get('set_mark', False),
                None if changed is None else Changed(changed['object'], changed['changes']),
                None if entry is None else Stored(int(entry['memo']), entry['object'], entry.get('before')), fields['buffers'], tuple(fields['results']))


def made_of(fields: Fields) -> Made:
    """What the answer to `made` says.

    >>> made_of({'object': 3, 'since': 2, 'changed': [{'kind': 'changer', 'item': 5, 'offset': 9, 'changes': 2}]})
    Made(number=3, place=None, offset=None, changed=(Changer(place=5, offset=9, changes=2),), since=2)
    """
    offset = fields.get('offset')
    return Made(int(fields['object']), fields.get('item'), None if offset is None else int(offset),
                tuple(Changer(each['item'], int(each['offset']), each['changes']) for each in fields['changed']), fields.get('since', 0))


# --- The same as `debug` prints it ---

def text_of(line: bytes) -> str:
    """What `debug` prints of an answer, each line with its newline. (That to `show` is of one object alone: `shown_text` has the others too.) An answer
    that has no text stays what it is.

    >>> text_of(b'{"kind":"at","place":3}\\n'), text_of(b'{"kind":"refused","code":"V1","words":"no such object","object":9}\\n')
    ('at 3\\n', 'refused: V1 no such object\\n')
    """
    fields = read(line)
    texts = _TEXTS.get(fields['kind'])
    return line.decode('ascii') if texts is None else ''.join(f'{each}\n' for each in texts(fields))


def item_text(fields: Fields) -> str:
    """The line of an opcode of `items`."""
    argument = shown_argument(fields)
    signs = f'{">" if fields["cursor"] else " "}{"*" if fields["breakpoint"] else " "}'
    return f'{signs}{fields["place"]:>5} {int(fields["offset"]):>5}: {fields["opcode"]}{argument and " "}{argument}'


def shown_text(depth: int, number: int, fields: Optional[Fields]) -> str:
    """A line of `show`: an object and how deep it lies, or its number alone."""
    return f'{depth} #{number}' if fields is None else f'{depth} {made.line_of(fields)}'


def _of_where(fields: Fields) -> List[str]:
    results = ' '.join(f'#{number}' for number in fields['results']) or 'none'
    return [f'at {fields["place"]} of {fields["length"]}, offset {fields["offset"]}, buffers {fields["buffers"]}, result {results}, '
            f'end {_end_text(fields["end"])}']


def _of_stack(fields: Fields) -> List[str]:
    words = [f'#{number}' for number in fields['stack']]
    return [' '.join(['stack', *_merged(words, [(mark['below'], f'({mark["item"]}') for mark in fields['marks']])])]


def _end_text(fields: Fields) -> str:
    return 'stopped' if fields['how'] == 'stopped' else words_of(fields)


def _with_place(word: str) -> Callable[[Fields], Sequence[str]]:
    return lambda fields: [f'{word} {fields["place"]}']


_TEXTS: Dict[str, Callable[[Fields], Iterable[str]]] = {
    'at': _with_place('at'), 'broke': _with_place('break'), 'cleared': _with_place('clear'), 'edited': _with_place('edited'),
    'undone': _with_place('undone'), 'redone': _with_place('redone'), 'where': _of_where, 'stack': _of_stack,
    'ran': lambda fields: [f'at {fields["place"]}: {ran_of(fields).text}'],
    'memo': lambda fields: [' '.join(['memo', *(f'{entry["memo"]}=#{entry["object"]}' for entry in fields['entries'])])],
    'items': lambda fields: map(item_text, fields['items']), 'objects': lambda fields: map(made.line_of, fields['objects']),
    'object': lambda fields: [made.line_of(fields)], 'refused': lambda fields: [f'refused: {_refusal_of(fields)}'],
    'nothing': lambda fields: [], 'quit': lambda fields: []}
