"""The lines of `objects --json`, read: each object, the results, and how reading ended. docs/reference/json.md has their fields.

An object of such a line is called its fields here, as in `listed`. `held` reads many of them. `line_of` and `closing_of` write what `objects` prints of them for people.
"""

from __future__ import annotations

from functools import lru_cache
from typing import TYPE_CHECKING, Any, Iterable, Iterator, List, Optional, Tuple, Type

from .listed import Fields, argument_of, ended, fields_in, fields_of, shown_argument, starts_in, whole_lines, words_of
from .records import Argument, End

if TYPE_CHECKING:
    from .listing_records import Change, Object

__all__ = ['OBJECT', 'Fields', 'end_of', 'given', 'line_of', 'made_in', 'object_of', 'printed', 'results_in']

# How the line of an object begins.
OBJECT = b'{"kind":"object"'
_RESULT = b'{"kind":"result"'


def object_of(fields: Fields) -> Object:
    """The object of a line.

    >>> object_of({'object': 3, 'is': 'list', 'parts': [1], 'changes': [{'kind': 'append', 'value': 4}]})
    Object(number=3, kind='list', text=None, parts=(1,), changes=(Change(how='append', value=4, key=None),))
    """
    return _records()[0](fields['object'], fields['is'], given(fields), tuple(fields.get('parts', ())), tuple(map(_change, fields.get('changes', ()))))


def given(fields: Fields) -> Argument:
    """What its opcode gave it."""
    return int(fields['number']) if 'number' in fields else argument_of(fields)


def _change(fields: Fields) -> Change:
    return _records()[1](fields['kind'], fields['value'], fields.get('key'))


@lru_cache(maxsize=None)
def _records() -> Tuple[Type[Object], Type[Change]]:
    from .listing_records import Change, Object  # (who asks for imports and calls needs none)
    return Object, Change


def made_in(blocks: Iterable[bytes]) -> Iterator[List[Fields]]:
    """The fields of the objects of an answer that comes in blocks, some at a time.

    >>> [[fields['object'] for fields in some] for some in made_in([b'{"kind":"object","object":0,"is":"none"}\\n{"kind":"end"}\\n'])]
    [[0]]
    """
    for lines in whole_lines(blocks):
        yield [fields for fields in fields_in(lines) if fields['kind'] == 'object']


def results_in(lines: bytes) -> Tuple[int, ...]:
    """The numbers of the objects that STOP took.

    >>> results_in(b'{"kind":"object","object":0,"is":"none"}\\n{"kind":"result","object":0}\\n{"kind":"end","how":"stopped"}\\n')
    (0,)
    """
    last = lines[max(0, lines.rfind(OBJECT)):]  # (they stand behind all objects)
    return tuple(int(fields_of(last[at:last.index(b'\n', at)])['object']) for at in starts_in(last, _RESULT))


def end_of(fields: Fields, refused_at: Optional[int]) -> End:
    """How reading ended, by the last line. Of an opcode that is refused its offset is given.

    >>> end_of({'how': 'refused', 'code': 'S2', 'words': 'stack underflow', 'item': 2}, 4)
    End(how='refused', code='S2', text='S2 stack underflow', offset=4, item=2)
    """
    how = fields['how']
    if how == 'stopped':
        return End(how)
    return ended(how, fields, fields['offset'] if how == 'fault' else refused_at, fields.get('item'))


# --- The same as `objects` prints it ---

def line_of(fields: Fields) -> str:
    """The line of an object.

    >>> line_of({'object': 3, 'is': 'dict', 'parts': [1, 2], 'changes': [{'kind': 'set', 'key': 4, 'value': 5}, {'kind': 'state', 'value': 6}]})
    '#3 dict (#1 #2) [#4]=#5 !#6'
    """
    given = str(fields['number']) if 'number' in fields else shown_argument(fields)
    parts = ' '.join(f'#{part}' for part in fields.get('parts', ()))
    return ' '.join(filter(None, (f'#{fields["object"]}', fields['is'], given, parts and f'({parts})', *map(_shown, fields.get('changes', ())))))


def _shown(change: Any) -> str:
    return f'[#{change["key"]}]=#{change["value"]}' if 'key' in change else f'{_SIGNS[change["kind"]]}#{change["value"]}'


_SIGNS = {'append': '+', 'add': '&', 'state': '!'}


def printed(fields: Fields) -> List[str]:
    """The lines that `objects` prints of a line of JSON; none of a kind that is not known.

    >>> printed({'kind': 'result', 'object': 3}), printed({'kind': 'end', 'how': 'stopped'})
    (['result #3'], [])
    """
    if fields['kind'] == 'object':
        return [line_of(fields)]
    if fields['kind'] == 'result':
        return [f'result #{fields["object"]}']
    if fields['kind'] != 'end' or fields['how'] == 'stopped':
        return []
    place = f'item {fields["item"]}: ' if 'item' in fields else ''
    return [f'{fields["how"]}: {place}{words_of(fields)}']
