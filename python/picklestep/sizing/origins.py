"""What the opcode says that makes an object: the kind of this, and its value in a few letters."""

from __future__ import annotations

import struct
from typing import Any, Dict

from ..lines import Makers
from ..literals import literal
from ..opcodes import BY_CODE, BY_NAME, OpcodeInfo
from ..values import PLAIN_KINDS, Argument, kind_value
from .opcodes import TEXTS, Opcodes

__all__ = ['Origins']

# So many letters of a value are shown, and so many bytes of a text or of a line are read for them.
_MOST_LETTERS, _MOST_BYTES = 64, 1 << 10
# What `objects` calls what opcodes make where the table does not say it.
_INT = BY_NAME['INT'].code
_TRUTHS = {b'00': 'false', b'01': 'true'}
_KINDS: Dict[int, str] = {**{code: info.kind for code, info in BY_CODE.items()}, _INT: 'int-line', BY_NAME['NEXT_BUFFER'].code: 'buffer',
                          BY_NAME['READONLY_BUFFER'].code: 'readonly'}


class Origins:
    """The opcodes that make objects, by the numbers of these: their `codes`, and what they say."""

    def __init__(self, opcodes: Opcodes, makers: Makers) -> None:
        self.codes = bytes(makers.of_makers(opcodes.codes))
        self._opcodes, self._makers = opcodes, makers

    def kind(self, number: int) -> str:
        """The kind of an object, in the word of `objects`."""
        code = self.codes[number]
        return _TRUTHS.get(self._given(number), 'int-line') if code == _INT else _KINDS[code]

    def shown(self, number: int) -> str:
        """A plain value in a few letters; of another object its number."""
        kind, info = self.kind(number), BY_CODE[self.codes[number]]
        if kind not in PLAIN_KINDS:
            return f'#{number}'
        said = None if kind in _TRUTHS.values() else _argument(info, self._given(number))
        value: Any = said.decode('utf-8', 'ignore') if kind == 'text' and isinstance(said, bytes) else kind_value(kind, said)
        if isinstance(value, (str, bytes, bytearray)):
            return literal(value[:_MOST_LETTERS]) + ('..' if len(value) > _MOST_LETTERS else '')
        text = literal(value)
        return text if len(text) <= _MOST_LETTERS else f'{text[:_MOST_LETTERS]}..'

    def _given(self, number: int) -> bytes:
        """The argument of the opcode. One that is no binary number is cut where it is long, between its escapes."""
        place = self._makers.place(number)
        code = self._opcodes.codes[place]
        data = self._opcodes.argument(place, _MOST_BYTES if code in TEXTS or code in _LINES else None)
        if len(data) < _MOST_BYTES or code not in _ESCAPED:
            return data
        escape = data.rfind(b'\\', -10)
        return data if escape < 0 else data[:escape].rstrip(b'\\')


_LINES = frozenset(code for code, info in BY_CODE.items() if info.form == 'line')
_ESCAPED = frozenset(BY_NAME[name].code for name in ('STRING', 'UNICODE'))


def _argument(info: OpcodeInfo, data: bytes) -> Argument:
    """The argument of an opcode that makes a plain value."""
    if info.argument in ('uint1', 'uint2', 'int4', 'long1', 'long4'):
        return int.from_bytes(data, 'little', signed=not info.argument.startswith('u'))
    if info.argument == 'float8':
        value: float = struct.unpack('>d', data)[0]
        return value
    return data if info.argument else None
