"""Plain values as Python source."""

from __future__ import annotations

import math
import struct
from typing import List, Sequence

from .listed import Fields, argument_of, content_of
from .values import PlainValue, Unreadable, read_form, unescaped

__all__ = ['Failing', 'MOST_DECIMAL_BITS', 'literal', 'of_bytes', 'of_floats', 'of_line', 'of_number', 'of_numbers', 'of_text']

# Python shows integers up to this many bits in decimal digits (it has a limit of 4,300 digits). Larger ones are hexadecimal.
MOST_DECIMAL_BITS = 14000


class Failing(str):
    """The source of what is no value: it raises where a loader does."""


def literal(value: PlainValue) -> str:
    """A value as Python shows it, so that it can be read back.

    >>> literal(2.5), literal('it\\'s'), literal(float('-inf')), literal(bytearray(b'x'))
    ('2.5', '"it\\'s"', "float('-inf')", "bytearray(b'x')")
    """
    if isinstance(value, float) and not math.isfinite(value):
        return f'-float({str(-value)!r})' if math.isnan(value) and math.copysign(1, value) < 0 else f'float({str(value)!r})'
    if isinstance(value, int) and value.bit_length() > MOST_DECIMAL_BITS:
        return hex(value)
    return repr(value)


def of_number(fields: Fields) -> str:
    """The whole number of an opcode."""
    found = fields.get('argument')
    return str(found) if found is not None else fields.get('argument_digits') or literal(argument_of(fields))


def of_numbers(opcodes: Sequence[Fields]) -> List[str]:
    """The whole numbers of opcodes whose arguments are of up to four bytes."""
    return [str(fields['argument']) for fields in opcodes]


def of_floats(opcodes: Sequence[Fields]) -> List[str]:
    """The floats of opcodes."""
    values = struct.unpack(f'>{len(opcodes)}d', bytes.fromhex(''.join([fields['argument_f8_hex'] for fields in opcodes])))
    return list(map(repr if all(map(math.isfinite, values)) else literal, values))


def of_text(fields: Fields) -> str:
    """A text. What no loader decodes fails in the source as it would in a loader."""
    text = fields.get('argument')
    if text is not None:
        return repr(text)
    data = content_of(fields)
    try:
        return repr(data.decode('utf-8', 'surrogatepass'))
    except UnicodeDecodeError:
        return Failing(f"{data!r}.decode('utf-8', 'surrogatepass')")


def of_bytes(fields: Fields) -> str:
    """Bytes."""
    return repr(content_of(fields))


def of_line(fields: Fields) -> str:
    """The line of an opcode of an older protocol. What is no value there fails in the source as it would in a loader."""
    data, name = content_of(fields), fields['opcode']
    try:
        return literal(read_form(name, data))
    except Unreadable:
        return Failing(_failing_string(data) if name == 'STRING' else _FAILING.get(name, "{!r}.decode('ascii')").format(data))


def _failing_string(data: bytes) -> str:
    try:
        return f"{unescaped(data)!r}.decode('ascii')"
    except ValueError:
        return f"{data[1:-1]!r}.decode('unicode_escape')"  # (it fails at what makes the other fail)


_FAILING = {'INT': 'int({!r}, 0)', 'LONG': 'int({!r}, 0)', 'FLOAT': "float({!r} + b' is no float')", 'UNICODE': "{!r}.decode('raw-unicode-escape')"}
