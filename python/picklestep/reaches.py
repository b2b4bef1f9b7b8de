"""The lines of `calls --json`, read: what is imported and called, and how reading ended. docs/reference/json.md has their fields.

An object of such a line is called its fields here, as in `listed`.
"""

from __future__ import annotations

import codecs
import json
import struct
from typing import Any, Callable, Dict, Iterable, List, Optional, Set, Tuple, Union

from .hints import WRAPPER, Watch
from .listed import Fields, ended, fields_in, fields_of, starts_in
from .records import Brief, Briefs, End, Extension, Global, Name, Reach, Ref, Value

__all__ = ['ASKED', 'CALLED', 'CALLS', 'CHANGES', 'EVENTS', 'HEADINGS', 'IMPORTS', 'Fields', 'FieldsWatch', 'alike_by', 'check_texts', 'end_of',
           'fields_in', 'fields_of', 'name_of', 'plainly_in', 'reach_of', 'renumbered_fields', 'said_in', 'text_of', 'value_of']

# The kinds of lines that come from an opcode. The others say how it all ended. (INST imports and calls.)
IMPORTS = ('import', 'inst')
CALLED = ('inst', 'call', 'new')
CHANGES = ('state', 'append', 'set', 'add')
# What is asked of the program that loads the pickle.
ASKED = ('persistent', 'buffer')
EVENTS = frozenset((*IMPORTS, *CALLED, *CHANGES, *ASKED, 'readonly'))
# What the program counts as calls.
CALLS = (*CALLED, *CHANGES)
# What stands above the lines of a loader that goes on behind the end, by how it treats frames.
HEADINGS = {'ignored': 'a loader may go on', 'buffered': 'a loader that buffers frames may go on', 'held': 'a loader that keeps its buffer may go on'}
_CONSTANTS: Dict[str, Optional[bool]] = {'none': None, 'true': True, 'false': False}
# What a text is called that cannot be decoded, by its kind.
_RAW = {'text': 'raw', 'string': 'raw string'}


# --- Texts ---

def _text(fields: Fields, name: str) -> Tuple[Optional[bytes], bool]:
    """The value of a text, whatever its field is called, and whether it cannot be decoded: then these are the bytes as they stand in the pickle."""
    text = fields.get(name)
    if text is not None:
        return text.encode('utf-8'), False
    for ending, decode in _DECODERS:
        text = fields.get(f'{name}_{ending}')
        if text is not None:
            return decode(bytes.fromhex(text)), ending == 'raw_hex'
    return None, False


_DECODERS: Tuple[Tuple[str, Callable[[bytes], Any]], ...] = (
    ('hex', bytes), ('raw_hex', bytes), ('raw_unicode_escape_hex', lambda text: text.decode('raw_unicode_escape').encode('utf-8', 'surrogatepass')),
    ('string_escape_hex', lambda text: codecs.escape_decode(_escaped(text))[0]))
# How the names of fields end whose texts are spelled by escapes.
_ESCAPED_NAME = '_escape_hex"'
_ESCAPED = _ESCAPED_NAME.encode('ascii')
# What a backslash of Python's literals may stand before.
_ESCAPES = frozenset(b'\n\'"abfnrtvx01234567')


def _escaped(text: bytes) -> bytes:
    """The same text, where each backslash that stands for itself is escaped: Python warns of others.

    >>> _escaped(rb'\\n\\q\\\\x')
    b'\\\\n\\\\\\\\q\\\\\\\\x'
    """
    parts = (part.split(b'\\') for part in text.split(b'\\\\'))
    return b'\\\\'.join(begin + b''.join(b'\\' * (1 if set(each[:1]) & _ESCAPES else 2) + each for each in rest) for begin, *rest in parts)


def plainly_in(lines: bytes) -> Tuple[List[Fields], bytes]:
    """The fields of lines, each with its newline, and the lines. A text that is spelled by escapes stands in both as the text that it says, under the
    name that it has without escapes: whoever looks for a name finds it however it is spelled.

    >>> plainly_in(b'{"kind":"import","module_string_escape_hex":"5c7836656f","name":"x"}\\n')
    ([{'kind': 'import', 'module': 'no', 'name': 'x'}], b'{"kind":"import","module":"no","name":"x"}\\n')
    """
    fields = fields_in(lines)
    if _ESCAPED not in lines:
        return fields, lines
    plain: List[Fields] = [_plainly(each) for each in fields]
    return plain, b''.join(_compact(each).encode('ascii') + b'\n' for each in plain)


def _plainly(value: Any) -> Any:
    if isinstance(value, list):
        return [_plainly(each) for each in value]
    return dict(_plain_field(name, each) for name, each in value.items()) if isinstance(value, dict) else value


def _plain_field(name: str, value: Any) -> Tuple[str, Any]:
    for ending, decode in _DECODERS[2:]:
        plain, found, _ = name.rpartition(f'_{ending}')
        if found:
            try:
                return _field_of(plain, decode(bytes.fromhex(value)))
            except ValueError:
                return name, value
    return name, _plainly(value)


def _field_of(name: str, text: bytes) -> Tuple[str, str]:
    """The field of a text by its value, as the program writes it. (One that is no UTF-8 has lone surrogates.)"""
    try:
        return name, text.decode('utf-8')
    except UnicodeDecodeError:
        return f'{name}_hex', text.hex()


# Fields that are numbers of objects, beside those that end in `_object`.
_NUMBERED = ('object', 'callee', 'of')


def renumbered_fields(value: Any, moved: Callable[[Any], object], name: str = '') -> Any:
    """The fields of a line, or the value of a field, whose objects have other numbers, which a function says.

    >>> renumbered_fields({'kind': 'call', 'callee': 3, 'args': [{'kind': 'object', 'object': 4}, {'kind': 'int', 'value': 4}]}, lambda number: number - 3)
    {'kind': 'call', 'callee': 0, 'args': [{'kind': 'object', 'object': 1}, {'kind': 'int', 'value': 4}]}
    """
    if isinstance(value, dict):
        return {key: renumbered_fields(each, moved, key) for key, each in value.items()}
    if isinstance(value, list):
        return [renumbered_fields(each, moved) for each in value]
    return moved(value) if name in _NUMBERED or name.endswith('_object') else value


def alike_by(fields: Fields) -> str:
    """What a line says wherever it stands, whatever the numbers of its objects, and however its texts are spelled: its fields without these, as JSON.

    >>> alike_by({'kind': 'state', 'offset': 4, 'state': {'kind': 'none'}, 'object': 7, 'text': '    4: state none to #7'})
    '{"kind":"state","state":{"kind":"none"},"object":null}'
    """
    said = {name: value for name, value in fields.items() if name not in ('offset', 'text')}
    if fields['kind'] == 'persistent' and 'id' not in fields:  # (a line that is an id says the same as a text)
        said = {'kind': 'persistent', 'id': {'kind': 'text', **{name.replace('line', 'value'): said[name] for name in said if name.startswith('line')}},
                'object': None}
    alike = renumbered_fields(said, lambda number: None)
    text = _compact(alike)
    return _compact(_plainly(alike)) if _ESCAPED_NAME in text else text


def _compact(fields: Fields) -> str:
    return json.dumps(fields, separators=(',', ':'))


def _pair(fields: Fields, before: str = '') -> Optional[Global]:
    """The two parts of a name, if there are some."""
    parts: List[Union[bytes, Ref]] = []
    raw = []
    for name in ('module', 'name'):
        text, is_raw = _text(fields, before + name)
        if is_raw:
            raw.append(name)
        if text is None and f'{before}{name}_object' not in fields:
            return None
        parts.append(Ref(int(fields[f'{before}{name}_object'])) if text is None else text)
    return Global(parts[0], parts[1], tuple(raw))


def name_of(fields: Fields) -> Optional[Name]:
    """What a line imports or calls.

    >>> name_of({'module': 'posix', 'name': 'system'}), name_of({'extension': 7}), name_of({'callee': 3})
    (Global(module=b'posix', name=b'system'), Extension(code=7), Ref(number=3))
    """
    if 'extension' in fields:
        return Extension(int(fields['extension']))
    return Ref(int(fields['callee'])) if 'callee' in fields else _pair(fields)


# --- Values ---

def _brief(fields: Fields) -> Brief:
    """A value in a line."""
    kind, more = fields['kind'], int(fields.get('more', 0))
    if kind == 'object':
        return Brief(kind, Ref(int(fields['object'])))
    if kind in _CONSTANTS:
        return Brief(kind, _CONSTANTS[kind])
    if kind == 'global':
        return Brief(kind, Ref(int(fields['object'])) if 'object' in fields else _pair(fields))
    if kind == 'extension':
        return Brief('ext', Extension(int(fields['number'])))
    if kind == 'int' and 'le_hex' in fields:
        content = bytes.fromhex(fields['le_hex'])
        return Brief(kind, content if more else int.from_bytes(content, 'little', signed=True), more)
    if kind == 'int':
        return Brief(kind, int(fields['value'] if 'value' in fields else fields['digits']), more)
    if kind == 'float':
        return Brief(kind, struct.unpack('>d', bytes.fromhex(fields['f8_hex']))[0], more)
    text, is_raw = _text(fields, 'value')
    return Brief(_RAW[kind] if is_raw else kind, text, more)


def value_of(fields: Fields, name: str) -> Optional[Value]:
    """The arguments, the state or the persistent id in a line, by the name of its field. An array has the items of a tuple.

    >>> value_of({'args': [{'kind': 'text', 'value': 'id'}]}, 'args')
    Briefs(items=(Brief(kind='text', value=b'id', more=0),), more=0)
    """
    value = fields.get(name)
    if isinstance(value, list):
        return Briefs(tuple(map(_brief, value)), int(fields.get(f'{name}_more', 0)))
    return None if value is None else _brief(value)


# --- Lines ---

def said_in(fields: Fields) -> str:
    """What `calls` prints of a line, without its offset.

    >>> said_in({'offset': 23, 'text': '   23: state #1 to #0'})
    'state #1 to #0'
    """
    return text_of(fields)[max(_OFFSET_WIDTH, len(str(fields['offset']))) + 2:]


# An offset is aligned to the right in so many letters, with a colon and a blank behind it.
_OFFSET_WIDTH = 5


def reach_of(fields: Fields) -> Reach:
    """What a line says that comes from an opcode.

    >>> reach_of({'kind': 'state', 'offset': 4, 'state': {'kind': 'none'}, 'object': 0, 'text': '    4: state none to #0'})
    Reach(offset=4, what='state', text='state none to #0', name=None, value=Brief(kind='none', value=None, more=0), keywords=None, count=None, number=None, target=0, said=None)
    """
    what, offset, number = fields['kind'], int(fields['offset']), int(fields['object'])
    if what in CHANGES:
        count = int(fields['count']) if 'count' in fields else None
        return Reach(offset, what, said_in(fields), value=value_of(fields, 'state'), count=count, target=number)
    if what == 'persistent':
        text, is_raw = _text(fields, 'line')
        value = value_of(fields, 'id') if text is None else Brief('raw' if is_raw else 'text', text)
        return Reach(offset, what, said_in(fields), value=value, number=number)
    if what == 'buffer':
        return Reach(offset, what, said_in(fields), count=int(fields['number']), number=number)
    if what == 'readonly':
        return Reach(offset, what, said_in(fields), target=int(fields['of']), number=number)
    return Reach(offset, what, said_in(fields), name=name_of(fields), value=value_of(fields, 'args'), keywords=value_of(fields, 'keywords'),
                 number=number, said=_pair(fields, 'for_'))


# --- How reading ended ---

def end_of(closing: Dict[str, Fields], refused_at: Optional[int] = None) -> End:
    """How reading ended, by the last lines, each under its kind. Of an opcode that is refused its offset may be given.

    >>> end_of({'ending': {'how': 'fault', 'code': 'F1', 'words': 'ended', 'offset': 3}}).text
    'F1 ended at 3'
    """
    if 'hole' in closing:
        hole = closing['hole']
        return End('refused', text=f'hole {hole["offset"]}:{hole["size"]} ends behind the last of {hole["bytes"]} bytes')
    fields = closing.get('ending', {'how': 'stopped'})  # (of what is cut the end is not known)
    if fields['how'] == 'stopped' and 'unsure' not in closing:
        return End('stopped')
    if fields['how'] == 'refused':
        return ended('refused', fields, refused_at, int(fields['item']))
    fields = fields if fields['how'] != 'stopped' else closing['unsure']
    return ended(fields.get('how', 'unsure'), fields, int(fields['offset']))


# --- Where else to look ---

# What stands in lines that may name joblib's class, however its name is spelled.
_NAMES_OF_WRAPPERS = WRAPPER, b'"name_'
_ENDING = b'{"kind":"ending"'


class FieldsWatch(Watch):
    """Reads an answer of `calls --json` as it comes, in pieces of whole lines. Most have no line that is looked at.

    >>> watch = FieldsWatch()
    >>> watch.feed(b'{"kind":"new","module":"x","name":"NumpyArrayWrapper","object":2}\\n{"kind":"state","offset":44,"object":2}\\n')
    >>> watch.array_at
    45
    """

    def __init__(self) -> None:
        super().__init__()
        self._objects: Set[int] = set()

    def feed(self, lines: bytes) -> None:
        """Reads some lines."""
        if self.array_at is None and (self._objects or any(name in lines for name in _NAMES_OF_WRAPPERS)):
            self._look(fields_in(lines))
        end = None if self._is_behind else next(starts_in(lines, _ENDING), None)
        if end is not None:
            self._is_behind, self.is_at_frame = True, fields_of(lines[end:lines.index(b'\n', end)]).get('of_frame', False)

    def _look(self, lines: Iterable[Fields]) -> None:
        """Looks for an object of joblib's class that gets its state."""
        for fields in lines:
            kind = fields['kind']
            if kind == 'state' and fields['object'] in self._objects:
                self.array_at = int(fields['offset']) + 1
                return
            if kind in CALLED and (_is_wrapper(fields) or isinstance(fields.get('args'), list) and any(map(_is_wrapper, fields['args']))):
                self._objects.add(fields['object'])


def _is_wrapper(fields: Fields) -> bool:
    """Whether a line, or a value in it, names joblib's class."""
    name, _ = _text(fields, 'name')
    return name is not None and name.endswith(WRAPPER)


# --- Lines for people ---

def text_of(fields: Fields) -> str:
    """The line that `calls` prints; an empty one where it prints none."""
    text: str = fields.get('text', '')
    return text


def check_texts(lines: bytes, printed: Callable[[], bytes]) -> bytes:
    """The same lines, each with its text: one that is too long for a line of JSON is taken from what `calls` prints."""
    if lines.count(_TEXT) >= lines.count(b'\n') - 1:
        return lines
    texts = iter(printed().decode('ascii').split('\n'))
    found, is_in_part = [], False
    for fields in fields_in(lines):
        is_in_part = is_in_part or fields['kind'] == 'heading'
        is_silent = fields['kind'] == 'end' or fields['kind'] == 'ending' and fields['how'] == 'stopped' and not fields['kept'] and not is_in_part
        found.append(fields if is_silent else {**fields, 'text': next(texts)})
    return b''.join(_compact(fields).encode('ascii') + b'\n' for fields in found)


_TEXT = b',"text":"'
