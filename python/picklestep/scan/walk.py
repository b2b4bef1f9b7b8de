"""Goes from opcode to opcode over bytes in memory: quick enough to be tried at many places.

It finds where pickles may begin and end, so it decides which bytes the program is asked about. What is in a pickle, the program says. All it
knows of the opcodes is what their table has.
"""

from __future__ import annotations

from typing import List, Optional, Set, Tuple

from ..opcodes import BY_NAME, TABLE, OpcodeInfo, of_kinds
from ..patterns import pattern

__all__ = ['CHECKSUM', 'MOST', 'Walk', 'is_opcode', 'length_at', 'may_begin', 'stops_at_end', 'walk']

_PAIR, _LINE, _ONE, _FOUR, _EIGHT, _UNKNOWN = -1, -2, -3, -4, -5, -6

# Opcodes that call something, and those that end a walk.
_CALLS = frozenset((*of_kinds('call', 'new', 'new-ex', 'inst', 'obj'), 'BUILD'))
_IMPORTS = frozenset(of_kinds('global', 'stack-global', 'inst'))
_NUMBERS = frozenset({'INT', 'LONG', 'GET', 'PUT'})
_STOP, _FRAME, _POP = ord('.'), 0x95, ord('0')

# A line of a checksum in hexadecimal, or of base64: nothing that is imported has such a name.
CHECKSUM = rb'(?:[0-9a-f]{16,}|[0-9A-F]{16,}|(?=[A-Za-z]*[0-9]+[A-Za-z]+[0-9])(?=[a-z0-9]*[A-Z])(?=[A-Z0-9]*[a-z])[A-Za-z0-9]{20,})\r?\n'
# The lines of GLOBAL and INST, where the first can be a module.
_MODULE = pattern(rb'(?=[^\n]*[A-Za-z_\x80-\xff])[A-Za-z0-9_\x80-\xff][A-Za-z0-9_.+@\x80-\xff-]*\n(?!%b)' % CHECKSUM)

# So many opcodes are gone over at a place that was only guessed.
MOST = 20_000


# How the end of an argument is found whose length is not always the same.
_ENDS = {'none': 1, 'line': _LINE, 'quoted': _LINE, 'decimal': _LINE, 'lines': _PAIR, 'bytes1': _ONE, 'bytes4': _FOUR, 'bytes4_signed': _FOUR, 'bytes8': _EIGHT}


def _step_of(info: OpcodeInfo) -> int:
    """The length of an opcode with its argument where that is always the same, else how the argument's end is found."""
    return _ENDS[info.form] if info.form in _ENDS else 1 + int(info.form[-1])


def _needs_of(info: OpcodeInfo) -> Tuple[int, bool, int]:
    """What an opcode takes from the stack (above a mark or not), whether it takes a mark, and what it leaves."""
    if info.name.endswith('PUT'):
        return 0, False, 0  # (a guess may begin behind what it stores)
    names, leaves = ([word for word in words.split(', ') if word] for words in (info.takes, info.leaves))
    return (names.index('mark'), True, len(leaves)) if info.takes_mark else (len(names), False, len(leaves))


_STEPS: List[int] = [_UNKNOWN] * 256
_NEEDS: List[Tuple[int, bool, int]] = [(0, False, 0)] * 256
_WHAT: List[int] = [0] * 256  # 1: imports, 2: calls, 3: both
for _each in TABLE:
    _STEPS[_each.code] = _step_of(_each)
    _NEEDS[_each.code] = _needs_of(_each)
    _WHAT[_each.code] = (_each.name in _IMPORTS) + 2 * (_each.name in _CALLS)
_TAKES_NUMBER = frozenset(each.code for each in TABLE if each.name in _NUMBERS)
_MARK, _STACK_GLOBAL = BY_NAME['MARK'].code, BY_NAME['STACK_GLOBAL'].code


def _variable(content: bytes, at: int, step: int) -> int:
    """The length of an opcode whose argument has none of its own; 0 where it has no end, -1 where no loader takes a word for its number."""
    if step in (_PAIR, _LINE):
        if content[at] in _TAKES_NUMBER and content[at + 1:at + 2].isalpha():
            return -1
        end = content.find(b'\n', at + 1)
        if step == _PAIR and end >= 0:
            end = content.find(b'\n', end + 1)
        return end + 1 - at if end >= 0 else 0
    if step == _UNKNOWN:
        return 0
    width = 1 if step == _ONE else 4 if step == _FOUR else 8
    return 1 + width + int.from_bytes(content[at + 1:at + 1 + width], 'little')


def length_at(content: bytes, at: int) -> int:
    """The length of the opcode at an offset with its argument, which may reach out of these bytes; 0 where it is none, or a line in it has no end.

    >>> length_at(b'NC\\5abc', 0), length_at(b'NC\\5abc', 1), length_at(b'w', 0)
    (1, 7, 0)
    """
    step = _STEPS[content[at]]
    return step if step >= 0 else max(0, _variable(content, at, step))


def is_opcode(byte: int) -> bool:
    """Whether a byte is an opcode.

    >>> is_opcode(ord('N')), is_opcode(ord('w'))
    (True, False)
    """
    return _STEPS[byte] != _UNKNOWN


def may_begin(byte: int) -> bool:
    """Whether a byte is an opcode that takes nothing from the stack, as the first one of a pickle.

    >>> may_begin(ord('N')), may_begin(ord('R'))
    (True, False)
    """
    return is_opcode(byte) and not _NEEDS[byte][0] and not _NEEDS[byte][1]


def stops_at_end(content: bytes) -> bool:
    """Whether opcodes follow one another up to the last byte, and that is a STOP: one pickle or several, and nothing else.

    >>> stops_at_end(b'K.N.'), stops_at_end(b'NK.'), stops_at_end(b'text.')
    (True, False, False)
    """
    size = len(content)
    if not size or content[-1] != _STOP:
        return False
    at, code = 0, -1
    while at < size:
        code = content[at]
        step = _STEPS[code]
        if step == _ONE and at + 1 < size:
            step = 2 + content[at + 1]
        elif step < 0:
            step = _variable(content, at, step)
            if step <= 0:
                return False
        elif code == _FRAME and at + 9 + int.from_bytes(content[at + 1:at + 9], 'little') > size:
            return False  # (a frame that reaches out of these bytes would take in what comes after them)
        at += step
    return at == size and code == _STOP


class Walk:
    """How far a loader may go from a place on.

    `end` is where it ends: behind a STOP if `stops`. `imports` and `calls` say what it comes to. `lacks` says that an opcode takes more
    from the stack than the walk has put there, so that the pickle, if it is one, begins before; `goes_on`, that it met its limit. `needs` is
    how many bytes there must be for the opcode whose argument reaches out of them, or 0. `passed` are the offsets of its opcodes.
    """

    # (most walks are short: what they do not come to is not set for each)
    end = 0
    stops = False
    imports = False
    calls = False
    is_called = False
    lacks = False
    goes_on = False
    needs = 0
    opcodes = 0

    def __init__(self) -> None:
        self.passed: List[int] = []

    @property
    def is_likely(self) -> bool:
        """Whether it is worth a question: it imports and then calls (with all that the call takes), or it is whole and more than a constant."""
        return self.is_called or not self.lacks and (self.goes_on or self.stops and self.opcodes > 3)

    def note(self, content: bytes, at: int) -> None:
        """Notes that the walk comes to an opcode that imports, calls, or does both."""
        code = content[at]
        if _WHAT[code] & 1 and (code == _STACK_GLOBAL or _MODULE.match(content, at + 1)):
            self.imports = True
        if _WHAT[code] & 2:
            self.calls = True
            self.is_called = self.imports


def _depth_after(code: int, depth: int, marks: List[int]) -> int:
    """How much is on the stack after an opcode; -1 where it takes more than is there. `marks` has how much was below each MARK."""
    if code == _MARK:
        marks.append(depth)
        return depth
    if code == _POP and marks and marks[-1] == depth:
        marks.pop()
        return depth
    needs, takes_mark, leaves = _NEEDS[code]
    if takes_mark:
        if not marks:
            return -1
        depth = marks.pop()
    return depth + leaves - needs if depth - needs >= (marks[-1] if marks else 0) else -1


def walk(content: bytes, at: int, until: Optional[int] = None, most: int = MOST, dead: Optional[Set[int]] = None,
         learns: bool = True) -> Walk:
    """Goes over opcodes from a place on, and counts what they put on the stack, as far as some loader could go on (or up to `until`, or
    `most` opcodes). From the offsets in `dead` no way leads to a call or a STOP, with what an earlier walk had on the stack; those of
    this walk are added if it is such a one and `learns`.
    """
    found = Walk()
    size = len(content)
    depth = 0
    marks: List[int] = []
    passed = found.passed
    while at < size and at != until and not (dead and at in dead):
        if found.opcodes >= most:
            found.goes_on = True
            break
        passed.append(at)
        code = content[at]
        step = _STEPS[code]
        if step < 0:
            step = _variable(content, at, step)
        if step <= 0 or at + step > size:
            found.needs = at + step if step > 0 else size + 1 if not step and _STEPS[code] in (_PAIR, _LINE) else 0
            break
        depth = _depth_after(code, depth, marks)
        if depth < 0:
            found.lacks = True
            break
        if _WHAT[code]:
            found.note(content, at)
        found.opcodes += 1
        at += step
        if code == _STOP:
            found.stops = True
            break
    found.end = at
    if dead is not None and learns and not (found.stops or found.calls or found.goes_on):
        dead.update(passed)
    return found
