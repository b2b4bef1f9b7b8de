"""Arguments of opcodes, made from values.

Which form an argument has says the table of opcodes. A value is written as Python's own picklers write it. Bytes
are taken as they are: as the payload of a form with a length, and as the line (without its newline) of a form that is a line. So the
`argument` of an `Opcode` can be given back.
"""

from __future__ import annotations

import pickle
import struct
from typing import Callable, Dict, Sequence, Tuple, Union

from .opcodes import BY_NAME

__all__ = ['ArgumentValue', 'encoded', 'opcode']

# What an opcode's argument can be made from.
ArgumentValue = Union[bool, int, float, str, bytes, Tuple[Union[str, bytes], Union[str, bytes]]]


def encoded(name: str, values: Sequence[ArgumentValue]) -> bytes:
    """The whole argument of an opcode, with its length and its newlines. An opcode that is not known has none.

    >>> encoded('BININT2', [1]), encoded('GLOBAL', ['os', 'getcwd']), encoded('BINUNICODE', ['id'])
    (b'\\x01\\x00', b'os\\ngetcwd\\n', b'\\x02\\x00\\x00\\x00id')
    """
    if len(values) == 1 and isinstance(values[0], tuple):
        values = values[0]
    if name not in BY_NAME:
        return b''
    wanted, write = _WANTED[name]
    if len(values) != wanted:
        raise TypeError(f'{name} takes {wanted} values, and {len(values)} were given')
    try:
        return write(values[0]) if wanted == 1 else b''.join(map(write, values))
    except (struct.error, AttributeError) as error:
        raise ValueError(f'{name} does not take {values!r:.100}: {error}') from error


def opcode(name: str, *values: ArgumentValue) -> bytes:
    """A whole opcode that is known.

    >>> opcode('BININT1', 7), opcode('STOP')
    (b'K\\x07', b'.')
    """
    return _CODES[name] + encoded(name, values)


def _fixed(layout: str) -> Callable[[ArgumentValue], bytes]:
    return struct.Struct(layout).pack


def _counted(width: int) -> Callable[[ArgumentValue], bytes]:
    """A writer of texts and bytes after a length of this many bytes."""

    def write(value: ArgumentValue) -> bytes:
        data = _bytes_of(value)
        return len(data).to_bytes(width, 'little') + data

    return write


def _counted_long(width: int) -> Callable[[ArgumentValue], bytes]:
    """A writer of whole numbers after a length of this many bytes."""

    def write(value: ArgumentValue) -> bytes:
        data = value if isinstance(value, bytes) else pickle.encode_long(_whole(value))
        return len(data).to_bytes(width, 'little') + data

    return write


def _bytes_of(value: ArgumentValue) -> bytes:
    if isinstance(value, str):
        return value.encode('utf-8', 'surrogatepass')
    if isinstance(value, (bytes, bytearray, memoryview)):
        return bytes(value)
    raise TypeError(f'a text or bytes are wanted, and not {value!r:.100}')


def _whole(value: ArgumentValue) -> int:
    if isinstance(value, int):
        return value
    raise TypeError(f'a whole number is wanted, and not {value!r:.100}')


def _line(text: ArgumentValue) -> bytes:
    """A line, which is one line."""
    data = _bytes_of(text)
    if b'\n' in data:
        raise ValueError('a line cannot hold a newline')
    return data + b'\n'


def _decimal(value: ArgumentValue) -> bytes:
    """A whole number in a line. Python's picklers write the truth values as 00 and 01."""
    if isinstance(value, bytes):
        return _line(value)
    return b'0%d\n' % value if isinstance(value, bool) else b'%d\n' % _whole(value)


def _long_decimal(value: ArgumentValue) -> bytes:
    return _line(value) if isinstance(value, bytes) else b'%dL\n' % _whole(value)


def _float(value: ArgumentValue) -> bytes:
    if isinstance(value, (int, float)):
        return repr(float(value)).encode('ascii') + b'\n'
    return _line(value)


def _quoted(value: ArgumentValue) -> bytes:
    """A text in quotes, with Python's escapes. Bytes are the line as it is, with its quotes."""
    return _line(repr(value.encode('utf-8', 'surrogatepass'))[1:]) if isinstance(value, str) else _line(value)


def _escaped(value: ArgumentValue) -> bytes:
    """A text in a line, with the escapes of Python's picklers."""
    if not isinstance(value, str):
        return _line(value)
    for sign in '\\\0\n\r\x1a':
        value = value.replace(sign, f'\\u{ord(sign):04x}')
    return value.encode('raw-unicode-escape') + b'\n'


_WRITERS: Dict[str, Callable[[ArgumentValue], bytes]] = {
    'uint1': _fixed('<B'), 'uint2': _fixed('<H'), 'uint4': _fixed('<I'), 'uint8': _fixed('<Q'), 'int4': _fixed('<i'),
    'float8': _fixed('>d'), 'decimalnl_short': _decimal, 'decimalnl_long': _long_decimal, 'floatnl': _float, 'stringnl': _quoted,
    'stringnl_noescape': _line, 'stringnl_noescape_pair': _line, 'unicodestringnl': _escaped, 'string1': _counted(1),
    'string4': _counted(4), 'bytes1': _counted(1), 'bytes4': _counted(4), 'bytes8': _counted(8), 'bytearray8': _counted(8),
    'unicodestring1': _counted(1), 'unicodestring4': _counted(4), 'unicodestring8': _counted(8), 'long1': _counted_long(1),
    'long4': _counted_long(4)}
# How many values each opcode takes, and what writes each of them.
_WANTED = {info.name: (2 if info.argument == 'stringnl_noescape_pair' else 1 if info.argument else 0, _WRITERS.get(info.argument, _line))
           for info in BY_NAME.values()}
_CODES = {info.name: bytes((info.code,)) for info in BY_NAME.values()}
