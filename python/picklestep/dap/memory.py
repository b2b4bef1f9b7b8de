"""The bytes of the pickle as an editor's memory, and its opcodes as instructions. An address is an offset in the pickle as it is."""

from __future__ import annotations

import base64
import binascii
from typing import Callable, Dict, List

from ..edits import Edit
from ..lines import CODE_BY_NAME
from .arguments import Arguments, RequestError
from .target import Target
from .wire import Fields

__all__ = ['Memory']

_NAMES = {code: name for name, code in CODE_BY_NAME.items()}
_MOST_BYTES = 1 << 24
_MOST_INSTRUCTIONS = 10_000
_MOST_SHOWN = 16  # bytes of an instruction


class Memory:
    """Reads and writes bytes, and shows opcodes."""

    def __init__(self, target: Target) -> None:
        self._target = target
        self.requests: Dict[str, Callable[[Arguments], Fields]] = {
            'readMemory': self._read, 'writeMemory': self._write, 'disassemble': self._disassemble, 'source': self._source,
            'loadedSources': self._sources}

    def _offset(self, arguments: Arguments) -> int:
        return self._target.offset(arguments.text('memoryReference')) + arguments.number('offset', 0)

    def _read(self, arguments: Arguments) -> Fields:
        begin, count = self._offset(arguments), arguments.number('count')
        if count < 0:
            raise RequestError('count has to be 0 or above')
        content = self._target.pickle.content()
        data = content[begin:begin + min(count, _MOST_BYTES)] if begin >= 0 else b''
        return {'address': hex(begin) if begin >= 0 else '0x0', 'unreadableBytes': count - len(data), 'data': base64.b64encode(data).decode('ascii')}

    def _write(self, arguments: Arguments) -> Fields:
        begin = self._offset(arguments)
        try:
            data = base64.b64decode(arguments.text('data'), validate=True)
        except binascii.Error as error:
            raise RequestError(f'data is no base64: {error}') from error
        edits = self._edits(begin, data)
        if edits:
            self._target.edit_ahead(edits)
        return {'bytesWritten': len(data)}

    def _edits(self, begin: int, data: bytes) -> List[Edit]:
        """The edits that put bytes where others are: of each opcode that has one of them, with all of its new bytes."""
        pickle = self._target.pickle
        content, count = pickle.content(), len(pickle.lines)
        ends = int(self._target.address(count), 16)
        if not 0 <= begin <= begin + len(data) <= ends:
            raise RequestError(f'the opcodes are in the bytes from 0 to {ends}')
        after = content[:begin] + data + content[begin + len(data):]
        edits = []
        place = pickle.lines.place_of(begin)
        while place < count and (first := pickle.lines.offset(place)) < begin + len(data):
            last = pickle.lines.offset(place + 1) if place + 1 < count else ends
            if after[first:last] != content[first:last]:
                if after[first] not in _NAMES:
                    raise RequestError(f'no opcode has the byte {after[first]:#04x}')
                edits.append(Edit('replace', place, _NAMES[after[first]], raw=after[first + 1:last]))
            place += 1
        return edits

    def _disassemble(self, arguments: Arguments) -> Fields:
        pickle = self._target.pickle
        begin, count = self._offset(arguments), arguments.number('instructionCount')
        if not 0 <= count <= _MOST_INSTRUCTIONS:
            raise RequestError(f'instructionCount has to be from 0 to {_MOST_INSTRUCTIONS:,}')
        ends = int(self._target.address(len(pickle.lines)), 16)
        first = pickle.lines.place_of(begin) if begin < ends else len(pickle.lines)
        first += arguments.number('instructionOffset', 0)
        return {'instructions': [self._instruction(place) for place in range(first, first + count)]}

    def _instruction(self, place: int) -> Fields:
        """An opcode; where there is none, what says so."""
        pickle = self._target.pickle
        if not 0 <= place < len(pickle.lines):
            at = '0x0' if place < 0 else hex(int(self._target.address(len(pickle.lines)), 16) + place - len(pickle.lines))
            return {'address': at, 'instruction': '..', 'presentationHint': 'invalid'}
        line, content = pickle.lines.at(place), pickle.content()
        ends = int(self._target.address(place + 1), 16)
        more = ' ..' if ends - line.offset > _MOST_SHOWN else ''
        reached = pickle.reaches.text_at(line.offset)
        shown = self._target.shown_at(place)
        return {'address': self._target.address(place), 'instruction': f'{"  " * line.marks}{line.name} {line.argument}'.rstrip(),
                'instructionBytes': content[line.offset:min(ends, line.offset + _MOST_SHOWN)].hex(' ') + more,
                **({'symbol': reached} if reached else {}), **({'location': shown['source'], 'line': shown['line']} if 'source' in shown else {})}

    def _source(self, arguments: Arguments) -> Fields:
        given = arguments.inner('source')
        return self._target.content(given if given.has('sourceReference') else arguments)

    def _sources(self, arguments: Arguments) -> Fields:
        return {'sources': [self._target.listing, self._target.python]}
