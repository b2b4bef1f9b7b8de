"""Plain values: what an opcode's argument, or an object that is made of it, is in Python.

Which form an argument has says the table of opcodes, as in `arguments`, whose inverse this is. A value that a loader
would not take (a text that is no UTF-8, a line that is no number) stays as the bytes that it is.
"""

from __future__ import annotations

import codecs
import math
import re
from typing import Any, Callable, Dict, Optional, Tuple, Union

from .opcodes import BY_NAME
from .patterns import pattern

__all__ = ['Argument', 'PLAIN_KINDS', 'PlainValue', 'Unread', 'Unreadable', 'argument_value', 'kind_value', 'read_form', 'unescaped']

# The argument of an opcode as it is shown: a number, a text as its bytes, the two lines of GLOBAL and INST, or none.
Argument = Union[None, int, float, bytes, Tuple[bytes, bytes]]

# What Python has as a plain value.
PlainValue = Union[None, bool, int, float, str, bytes, bytearray, Tuple[Union[str, bytes], Union[str, bytes]]]


class Unreadable(ValueError):
    """An argument of which a loader makes no value."""


class Unread(bytes):
    """The bytes of a text or a number that no loader reads, or only one that is given an encoding. `kind` is that of its object."""

    def __new__(cls, data: bytes, kind: str) -> Unread:
        made = super().__new__(cls, data)
        made.kind = kind
        return made

    kind: str


def _text(data: bytes) -> str:
    return data.decode('utf-8', 'surrogatepass')


def _escaped(data: bytes) -> str:
    return data.decode('raw-unicode-escape')


def _legacy(data: bytes) -> str:
    return data.decode('ascii')


def unescaped(data: bytes) -> bytes:
    """The bytes of a line of STRING. Raises ValueError where an escape is none."""
    found: Any = codecs.escape_decode(data[1:-1])  # (it is what pickle itself calls, and has no documentation)
    return bytes(found[0])


def _quoted(data: bytes) -> str:
    return unescaped(data).decode('ascii')


# What C's `strtol` takes for a number: one that begins with 0 is octal.
_C_NUMBER = pattern(rb'[ \t\v\f\r]*([+-]?)(0[xX][0-9a-fA-F]+|0[0-7]*|[1-9][0-9]*)')


def _up_to_nul(data: bytes) -> bytes:
    """What C reads of the line of a number."""
    return data.partition(b'\0')[0]


def _decimal(data: bytes) -> Union[bool, int]:
    """The line of INT as C reads it, which takes all that Python takes. A number of two letters that is 0 or 1 is a truth value.

    Where `strtol` does not read the whole line, or the number is too large for it, the line is read as `int` does.
    """
    line = _up_to_nul(data)
    number = _c_number(line) if line or not data else 0
    if number is None:
        return int(line, 0)
    return bool(number) if len(data) == 2 and number in (0, 1) else number


def _c_number(line: bytes) -> Optional[int]:
    found = _C_NUMBER.fullmatch(line)
    if found is None:
        return None
    digits = found[2]
    number = int(found[1] + digits, 16 if digits[:2] in (b'0x', b'0X') else 8 if digits[:1] == b'0' else 10)
    return number if -1 << 63 <= number < 1 << 63 else None


def _long(data: bytes) -> int:
    return int(_up_to_nul(data[:-1] if data.endswith(b'L') else data), 0)


# What C's `PyOS_string_to_double` takes: no blanks, no underscores, and nothing that is too large.
_C_FLOAT = pattern(rb'[+-]?(?:([0-9]+\.?[0-9]*|\.[0-9]+)(?:e[+-]?[0-9]+)?|inf(?:inity)?|nan)', re.IGNORECASE)


def _float(data: bytes) -> float:
    found = _C_FLOAT.fullmatch(_up_to_nul(data))
    value = float(found[0]) if found is not None else 0.0
    if found is None or found[1] is not None and math.isinf(value):
        raise ValueError('no float, or one that is too large')
    return value


_READERS: Dict[str, Callable[[bytes], Union[bool, int, float, str, bytes, bytearray]]] = {
    'decimalnl_short': _decimal, 'decimalnl_long': _long, 'floatnl': _float, 'stringnl': _quoted, 'stringnl_noescape': _legacy,
    'unicodestringnl': _escaped, 'string1': _legacy, 'string4': _legacy, 'unicodestring1': _text,
    'unicodestring4': _text, 'unicodestring8': _text, 'bytearray8': bytearray}

_CONSTANTS: Dict[str, PlainValue] = {'NONE': None, 'NEWTRUE': True, 'NEWFALSE': False}

# The kinds of objects that are plain values, each with an opcode that makes it, or the value itself.
_MADE_BY = {
    'int': 'BININT', 'int-line': 'INT', 'long-line': 'LONG', 'float': 'BINFLOAT', 'float-line': 'FLOAT', 'string': 'BINSTRING',
    'string-line': 'STRING', 'text': 'BINUNICODE', 'text-line': 'UNICODE', 'bytes': 'BINBYTES', 'bytearray': 'BYTEARRAY8',
    'none': 'NONE', 'true': 'NEWTRUE', 'false': 'NEWFALSE'}
PLAIN_KINDS = frozenset(_MADE_BY)


def read_form(name: str, data: bytes) -> PlainValue:
    """What a loader makes of the bytes that an opcode of this name holds. Raises Unreadable where it would fail.

    >>> read_form('BINUNICODE', b'caf\\xc3\\xa9'), read_form('LONG', b'7L'), read_form('BINBYTES', b'x')
    ('café', 7, b'x')
    """
    try:
        reader = _READERS.get(BY_NAME[name].argument)
        return data if reader is None else reader(data)
    except ValueError as error:
        raise Unreadable(str(error)) from error


def argument_value(name: str, argument: Argument) -> PlainValue:
    """The value of an opcode's argument; of NONE, NEWTRUE and NEWFALSE what they make.

    >>> argument_value('UNICODE', b'\\\\u20ac'), argument_value('GLOBAL', (b'os', b'getcwd')), argument_value('BININT1', 3)
    ('€', ('os', 'getcwd'), 3)
    """
    if isinstance(argument, tuple):
        return _line_of_two(argument[0]), _line_of_two(argument[1])
    if isinstance(argument, bytes):
        return _as_bytes_if_unreadable(name, argument)
    return _CONSTANTS.get(name) if argument is None else argument


def _line_of_two(data: bytes) -> Union[str, bytes]:
    """A line of GLOBAL or INST."""
    try:
        return _text(data)
    except ValueError:
        return data


def _as_bytes_if_unreadable(name: str, data: bytes) -> PlainValue:
    try:
        return read_form(name, data)
    except Unreadable:
        return data


def kind_value(kind: str, argument: Argument) -> PlainValue:
    """The value of an object of a plain kind.

    >>> kind_value('text', b'id'), kind_value('true', None)
    ('id', True)
    """
    return argument_value(_MADE_BY[kind], argument)
