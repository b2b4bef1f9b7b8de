"""Edits by values as Python has them: which opcode can hold a value."""

from __future__ import annotations

from ast import literal_eval
from typing import TYPE_CHECKING, Dict, NamedTuple, Optional, Sequence, Union

from .arguments import ArgumentValue, encoded
from .opcodes import BY_NAME, of_kinds, of_rows, spellings_of
from .patterns import pattern

if TYPE_CHECKING:
    from .renaming.small import Small
    from .document import Document
    from .shell.opened import Opened

__all__ = ['Edit', 'EditError', 'of_object', 'of_value', 'of_words', 'unquoted']

# Opcodes that can hold a value of a type, the shortest first.
_HOLDERS: Dict[type, Sequence[str]] = {
    bool: (*of_kinds('true', 'false'), 'INT'), type(None): of_kinds('none'), float: of_kinds('float') + of_kinds('float-line'),
    bytearray: of_kinds('bytearray'), int: (*spellings_of('BININT'), *spellings_of('LONG1'), 'INT', *of_kinds('long-line')),
    bytes: spellings_of('BINBYTES'), str: spellings_of('BINUNICODE') + of_kinds('text-line')}
_PLAIN = frozenset(of_rows('push', 'buffer')).difference(of_kinds('global', 'persistent'))
_MADE = pattern(r'(bytearray|float)\((.*)\)|-?(?:inf|nan)')
# Texts of Python 2, and what is put in their place where a sign is beyond ASCII: Python 3 would not load its bytes, or another text of them.
_LEGACY = {'STRING': 'UNICODE', 'BINSTRING': 'BINUNICODE', 'SHORT_BINSTRING': 'BINUNICODE'}


class Edit(NamedTuple):
    """An edit: its word, the place, and for `replace` and `insert` an opcode with its values, or its argument as bytes."""

    word: str
    place: int
    name: str = ''
    values: Sequence[ArgumentValue] = ()
    raw: Optional[bytes] = None
    members: int = 0


class EditError(ValueError):
    """An edit that cannot be made, and why."""


def of_words(word: str, place: int, text: str) -> Edit:
    """The edit that words after a place say: the name of an opcode with values, its bytes in hexadecimal after `hex`, or a value alone."""
    name, _, rest = text.partition(' ')
    if name not in BY_NAME:
        return Edit(word, place, values=(_value(text),))
    if rest.split(' ')[0] == 'hex':
        return Edit(word, place, name, raw=bytes.fromhex(rest[3:]))
    if not BY_NAME[name].argument:
        if rest.strip():
            raise EditError(f'{name} has no argument')
        return Edit(word, place, name)
    value = _value(rest)
    return Edit(word, place, name, value if isinstance(value, tuple) else (value,))


def _value(text: str) -> ArgumentValue:
    """A value as Python shows it."""
    text = text.strip()
    made = _MADE.fullmatch(text)
    try:
        if made is None:
            value: ArgumentValue = literal_eval(text)
            return value
        inner = literal_eval(made[2]) if made[1] else made[0]
        return bytearray(memoryview(inner)) if made[1] == 'bytearray' else float(inner)  # (of a number it would make so many bytes)
    except (ValueError, TypeError, SyntaxError, MemoryError, RecursionError) as error:
        raise EditError(f'{text[:60]!r} is no value of Python (a text has quotes), and no opcode') from error


def unquoted(text: str) -> str:
    """A text that may be in quotes, as Python shows it.

    >>> unquoted('"bob"'), unquoted('bob')
    ('bob', 'bob')
    """
    try:
        value = literal_eval(text) if text[:1] in ('"', "'") else text
    except (ValueError, TypeError, SyntaxError, MemoryError, RecursionError):
        return text
    return value if isinstance(value, str) else text


def of_value(pickle: 'Union[Document, Small]', edit: Edit, now: str) -> Edit:
    """An edit that names its opcode: the one that is there, or else the shortest of the pickle's protocol that can hold the value."""
    if edit.name:
        return edit
    value = edit.values[0]
    if edit.word == 'replace' and now and now not in _PLAIN:
        return _of_other(edit, now, value)
    holders = _HOLDERS.get(type(value), ())
    protocol = max([BY_NAME[name].protocol for name in (now,) if name in BY_NAME] + [_protocol(pickle)])
    known = [name for name in holders if BY_NAME[name].protocol <= protocol]
    if isinstance(value, str) and now in _LEGACY:
        known.insert(0, now if value.isascii() else _LEGACY[now])
    elif now in known:
        known.insert(0, now)
    for name in known:
        found = _fitting(edit, name, value)
        if found is not None:
            return found
    raise EditError(f'no opcode of protocol {protocol} holds {value!r:.60}')


def _of_other(edit: Edit, now: str, value: ArgumentValue) -> Edit:
    """The edit where no plain value is: of the argument that the opcode has."""
    found = _fitting(edit, now, value) if BY_NAME[now].argument else None
    if found is None:
        raise EditError(f'{now} cannot hold {value!r:.60}; name the opcode that is to be there')
    return found


def _fitting(edit: Edit, name: str, value: ArgumentValue) -> 'Edit | None':
    """The edit with this opcode, if its argument can be the value."""
    if not BY_NAME[name].argument:
        return edit._replace(name=name, values=()) if name in ('NONE', 'NEWTRUE' if value is True else 'NEWFALSE') else None
    try:
        encoded(name, [value])
    except (ValueError, TypeError, OverflowError):
        return None
    return edit._replace(name=name)


def _protocol(pickle: 'Union[Document, Small]') -> int:
    """The protocol of the pickle, by its first opcode."""
    first = pickle.lines.at(0) if len(pickle.lines) else None
    return int(first.argument) if first is not None and first.name == 'PROTO' else 1


def of_object(pickle: 'Opened', number: int, text: str) -> Edit:
    """The edit of the opcode that made an object."""
    maker = pickle.maker(number)
    if maker is None:
        raise EditError(f'there is no object #{number}')
    return of_words('replace', maker, text)
