"""Opcodes in the spelling of a protocol: the shortest that its picklers write, the keys of its memo, and what it cannot say."""

from __future__ import annotations

import struct
from dataclasses import replace
from typing import Dict, List, Sequence, Tuple, Union

from ..arguments import ArgumentValue, opcode
from ..opcodes import BY_NAME, TABLE
from .reading import Op

__all__ = ['shared', 'spelled']

_BYTE, _TWO_BYTES, _FOUR_BYTES = 1 << 8, 1 << 16, 1 << 32
_INT = range(-(1 << 31), 1 << 31)
# Python reads no line of a number that has more digits. (So many have 4,300 of them.)
_MOST_BITS = 14_281
_OF_MEMOIZE, _OF_SHORT_TEXTS, _OF_TRUTHS, _OF_LONGS = 4, 4, 2, 2
# The name of an opcode, and the values that its argument is made of.
_Spelling = Tuple[str, List[ArgumentValue]]


class NotSpelled(ValueError):
    """What a protocol cannot say."""


def shared(ops: Sequence[Op]) -> List[Op]:
    """The opcodes, where what is shared is made once: the next time it is taken from the memo, by a key below all others."""
    if not any(op.shared for op in ops):
        return list(ops)
    keys: Dict[Tuple[object, ...], int] = {}
    free = min((op.value for op in ops if op.name == 'PUT' and isinstance(op.value, int)), default=0)
    result: List[Op] = []
    for op in ops:
        known = keys.get((op.name, op.value))
        if not op.shared:
            result.append(op)
        elif known is not None:
            result.append(Op('GET', known, offset=op.offset))
        else:
            free = keys[op.name, op.value] = min(free, 0) - 1
            result += (replace(op, shared=False), Op('PUT', free, offset=op.offset))
    return result


def spelled(ops: Sequence[Op], protocol: int) -> Tuple[List[bytes], List[str]]:
    """The bytes of each opcode, and lines about those that the protocol cannot say. Keys of the memo count its entries, as picklers' do."""
    alone = {info.name: opcode(info.name) for info in TABLE if not info.argument and info.protocol <= protocol}
    gets: Dict[object, bytes] = {}
    count = 0
    result: List[bytes] = []
    problems: List[str] = []
    for op in ops:
        name = op.name
        if name in alone:
            result.append(alone[name])
        elif name == 'GET':
            result.append(gets[op.value])
        elif name == 'PUT':
            result.append(alone['MEMOIZE'] if protocol >= _OF_MEMOIZE else _memo(name, count, protocol))
            gets[op.value] = _memo('GET', count, protocol)
            count += 1
        else:
            try:
                result.append(_written(*_spelling(op, protocol), protocol))
            except NotSpelled as error:
                problems.append(f'{op.offset}: {name}: {error}')
    return result, problems


def _written(name: str, values: List[ArgumentValue], protocol: int) -> bytes:
    """An opcode of a protocol."""
    if BY_NAME[name].protocol > protocol:
        raise NotSpelled(f'it needs protocol {BY_NAME[name].protocol}')
    if name != 'BINFLOAT':
        return opcode(name, *values)
    data = values[0]  # (all bits of a NaN are kept)
    assert isinstance(data, bytes)
    return bytes([BY_NAME[name].code]) + data


def _memo(name: str, key: int, protocol: int) -> bytes:
    return opcode(name if not protocol else f'BIN{name}' if key < _BYTE else f'LONG_BIN{name}', key)


def _spelling(op: Op, protocol: int) -> _Spelling:
    """The name of an opcode in a protocol, and the value of its argument."""
    name, value = op.name, op.value
    if name == 'BININT':
        assert isinstance(value, int)
        return _whole(value, protocol), [value]
    if name == 'LONG1':
        assert isinstance(value, int)
        return _long(value, protocol), [value]
    if name in ('NEWTRUE', 'NEWFALSE') and protocol < _OF_TRUTHS:
        return 'INT', [name == 'NEWTRUE']
    if name == 'BINFLOAT':
        assert isinstance(value, bytes)
        return _float(value, protocol)
    if name == 'BINUNICODE':
        assert isinstance(value, (str, bytes))
        return _text(value, protocol)
    if name == 'BINBYTES':
        assert isinstance(value, bytes)
        return _sized('BINBYTES', len(value), 3, protocol), [value]
    if name in ('BINSTRING', 'SHORT_BINSTRING') and not protocol:
        return 'STRING', [repr(value)[1:].encode('ascii')]
    return name, [] if value is None else [value]


def _whole(value: int, protocol: int) -> str:
    if value not in _INT:
        return _long(value, protocol)
    if not protocol:
        return 'INT'
    return 'BININT1' if 0 <= value < _BYTE else 'BININT2' if 0 <= value < _TWO_BYTES else 'BININT'


def _long(value: int, protocol: int) -> str:
    if protocol >= _OF_LONGS:
        return 'LONG1' if value.bit_length() < 8 * (_BYTE - 1) else 'LONG4'
    if value.bit_length() > _MOST_BITS:
        raise NotSpelled('a line of its digits would have too many of them for Python to load')
    return 'LONG'


def _float(data: bytes, protocol: int) -> _Spelling:
    if protocol:
        return 'BINFLOAT', [data]
    value: float = struct.unpack('>d', data)[0]
    if struct.pack('>d', float(repr(value))) != data:
        raise NotSpelled('a NaN with a sign or bits of its own, which digits do not say')
    return 'FLOAT', [value]


def _text(value: Union[str, bytes], protocol: int) -> _Spelling:
    if protocol:
        data = value if isinstance(value, bytes) else value.encode('utf-8', 'surrogatepass')
        return _sized('BINUNICODE', len(data), _OF_SHORT_TEXTS, protocol), [data]
    if not isinstance(value, str):
        raise NotSpelled('a text that is no UTF-8')
    return 'UNICODE', [value]


def _sized(name: str, size: int, of_short: int, protocol: int) -> str:
    """The name of the opcode for so many bytes, where the one with a short length is of a later protocol than the usual one."""
    return f'SHORT_{name}' if size < _BYTE and protocol >= of_short else name if size < _FOUR_BYTES else f'{name}8'
