"""A pickle as opcodes that are written anew: what each of them means, whatever its spelling, and which stretch of opcodes each object on the stack
comes from."""

from __future__ import annotations

import struct
from dataclasses import dataclass
from typing import Callable, Dict, Iterator, List, Mapping, NamedTuple, Optional, Sequence, Set, Tuple, TypeVar, Union

from ..answers import Listing, Objects
from ..listed import Fields, argument_of
from ..opcodes import BY_NAME, OpcodeInfo, of_rows, spellings_of
from ..patterns import pattern
from ..records import SLOTS
from ..values import argument_value, read_form

__all__ = ['GETS', 'PUTS', 'Op', 'Rewriting', 'Slot', 'Taken', 'are_spellings', 'read', 'walk']

PUTS, GETS = of_rows('put', 'memoize'), of_rows('get')
# Opcodes that mean the same with the same value have one of their names; how it is spelled in a protocol is said in `spelling`. MEMOIZE says no key.
_MEANS: Dict[str, str] = {name: means for means in ('BININT', 'LONG1', 'BINUNICODE', 'BINBYTES', 'PUT', 'GET') for name in spellings_of(means)}
_MEANS.update({name: 'PUT' for name in of_rows('memoize')})
# A line that all loaders read alike, by its opcode: other lines stay as they are.
_PLAIN_LINES = {'INT': pattern(rb'-?(?:0|[1-9][0-9]{0,18})'), 'LONG': pattern(rb'-?(?:0|[1-9][0-9]{0,4000})L?'),
                'FLOAT': pattern(rb'-?(?:[0-9]+(?:\.[0-9]+)?(?:e[+-]?[0-9]+)?|inf|nan)')}
_MAKES = {name: info.makes for name, info in BY_NAME.items()}
_TRUTHS = {b'00': 'NEWFALSE', b'01': 'NEWTRUE'}

_Value = Union[None, int, float, str, bytes, Tuple[str, str], Tuple[bytes, bytes]]


@dataclass(**SLOTS)  # (that is made in a third of the time of a tuple with names)
class Op:
    """An opcode by its meaning: a key of the memo is any number. `stands` is the number of the source's object that what it makes stands for; None
    where that has no counterpart. `protocol` is what PROTO said before it, and `shared` says that what it makes is kept in the memo for the next."""

    name: str
    value: _Value = None
    stands: Optional[int] = None
    offset: int = 0
    protocol: int = 0
    shared: bool = False


def read(opcodes: Listing, made: Objects) -> Iterator[List[Op]]:
    """The opcodes of each pickle, without PROTO and FRAME."""
    ops: List[Op] = []
    number = protocol = 0
    for offset, (name, value) in opcodes.each(_meaning):
        if name == 'PROTO':
            protocol = int(value)  # type: ignore[arg-type]
        elif name != 'FRAME':
            makes = _MAKES[name]
            if name == 'READONLY_BUFFER':  # (of a buffer it makes a view)
                makes = number < len(made) and made[number].kind == 'readonly'
            ops.append(Op(name, value, number if makes else None, offset, protocol))
            number += makes
            if name == 'STOP':
                yield ops
                ops, protocol = [], 0


def are_spellings(one: str, other: str) -> bool:
    """Whether two opcodes make the same object of the same value, and have more than one spelling.

    >>> are_spellings('BININT1', 'BININT'), are_spellings('INT', 'BININT'), are_spellings('NONE', 'NONE')
    (True, False, False)
    """
    return one in _MEANS and _MEANS[one] == _MEANS.get(other)


def _meaning(fields: Fields) -> Tuple[str, _Value]:
    """The name and the value of an opcode."""
    name = fields['opcode']
    if name == 'MEMOIZE':
        return 'PUT', int(fields['memo'])
    if name == 'BINFLOAT':  # (a number would not tell the bits of a NaN)
        return name, bytes.fromhex(fields['argument_f8_hex'])
    argument = argument_of(fields)
    if name in ('INT', 'LONG', 'FLOAT', 'UNICODE'):
        assert isinstance(argument, bytes)
        return _of_line(name, argument)
    meant = _MEANS.get(name, name)
    return meant, argument_value(name, argument) if meant == 'BINUNICODE' else argument  # type: ignore[return-value]


def _of_line(name: str, line: bytes) -> Tuple[str, _Value]:
    """The meaning of a line. One that not all loaders read alike stays."""
    if name == 'INT' and line in _TRUTHS:
        return _TRUTHS[line], None
    if name == 'UNICODE':
        try:
            return 'BINUNICODE', str(read_form(name, line))
        except ValueError:
            return name, line
    if not _PLAIN_LINES[name].fullmatch(line):
        return name, line
    if name != 'FLOAT':
        return 'BININT' if name == 'INT' else 'LONG1', int(line.rstrip(b'L'))
    try:
        value = read_form(name, line)
    except ValueError:  # (it is too large)
        return name, line
    return 'BINFLOAT', struct.pack('>d', value)


# --- The stack ---

class Slot:
    """What stands on the stack: an object or a mark, the place where the opcodes begin that it comes from, the place behind them (once it is taken),
    and the places of those that made and changed it."""

    __slots__ = ('begin', 'end', 'is_mark', 'places')

    def __init__(self, begin: int, place: int, is_mark: bool = False) -> None:
        self.begin = begin
        self.end = -1
        self.is_mark = is_mark
        self.places = [place]


class Taken(NamedTuple):
    """What an opcode takes: objects from the top of the stack, and where it takes a mark, that and the objects above it."""

    named: List[Slot]
    mark: Optional[Slot] = None
    items: Sequence[Slot] = ()


Step = TypeVar('Step')


def obey(step: Step, rules: Mapping[str, Callable[[Step, int, Op, Taken], object]], ops: Sequence[Op]) -> None:
    """Does at each opcode what its rule says, if it has one."""
    if rules.keys().isdisjoint({op.name for op in ops}):
        return
    for place, op, taken in walk(ops):
        rule = rules.get(op.name)
        if rule is not None:
            rule(step, place, op, taken)


def walk(ops: Sequence[Op]) -> Iterator[Tuple[int, Op, Taken]]:
    """Each opcode with its place and what it takes. (Only of a pickle that the program has read to its STOP.)"""
    stack: List[Slot] = []
    for place, op in enumerate(ops):
        name = op.name
        count, takes_mark, leaves, makes = _SHAPES[name]
        taken = _take(stack, count, takes_mark, place) if count or takes_mark else _NOTHING
        yield place, op, taken
        if not leaves:
            continue
        lowest = taken.named[0] if taken.named else taken.mark
        if lowest is not None:
            if makes:
                stack.append(Slot(lowest.begin, place))
            else:  # (it is the same object, changed or kept)
                lowest.places.append(place)
                stack.append(lowest)
            leaves -= 1
        for _ in range(leaves):
            stack.append(Slot(place, place, name == 'MARK'))


def _shape(info: OpcodeInfo) -> Tuple[int, bool, int, bool]:
    """How many objects an opcode takes below the mark or from the top, whether it takes a mark, how many it leaves, and whether it makes one."""
    words = info.takes.split(', ') if info.takes else []
    count = words.index('mark') if info.takes_mark else len(words)
    return count, info.takes_mark, len(info.leaves.split(', ')) if info.leaves else 0, info.makes


_SHAPES = {name: _shape(info) for name, info in BY_NAME.items()}
_NOTHING = Taken([])


def _take(stack: List[Slot], count: int, takes_mark: bool, place: int) -> Taken:
    """Takes so many objects from the stack, and a mark with what is above it where it does."""
    items: List[Slot] = []
    mark = None
    end = place
    if takes_mark:
        while not stack[-1].is_mark:
            items.append(stack.pop())
            items[-1].end, end = end, items[-1].begin
        mark = stack.pop()
        mark.end, end = end, mark.begin
    named = stack[len(stack) - count:] if count else []
    del stack[len(stack) - count:]
    for slot in reversed(named):
        slot.end, end = end, slot.begin
    return Taken(named, mark, items[::-1])


# --- Writing anew ---

class Rewriting:
    """Opcodes of which some are replaced, and before which others are put. `problems` has what cannot be."""

    def __init__(self, ops: Sequence[Op]) -> None:
        self.ops = ops
        self.problems: List[str] = []
        self._before: Dict[int, List[Op]] = {}
        self._instead: Dict[int, List[Op]] = {}

    def put_before(self, place: int, *ops: Op) -> None:
        """Puts opcodes before a place, and before what was put there already: what is larger comes later and begins no later."""
        self._before.setdefault(place, [])[:0] = ops

    def take_back(self, place: int, count: int) -> None:
        """Takes the first of those away that were put before a place."""
        del self._before[place][:count]

    def put(self, place: int, *ops: Op) -> None:
        """Puts opcodes, or none, in the place of one."""
        self._instead[place] = list(ops)

    def at(self, place: int) -> List[Op]:
        """What stands in the place of an opcode."""
        return self._instead.get(place, [self.ops[place]])

    def refuse(self, place: int, why: str, name: str = '') -> None:
        """Says that an opcode cannot be written."""
        self.problems.append(f'{self.ops[place].offset}: {name or self.ops[place].name}: {why}')

    def made(self) -> List[Op]:
        """The opcodes as they are now."""
        if not self._before and not self._instead:
            return list(self.ops)
        result: List[Op] = []
        for place, op in enumerate(self.ops):
            if place in self._before:
                result += self._before[place]
            if place in self._instead:
                result += self._instead[place]
            else:
                result.append(op)
        return result

    def taken_keys(self) -> Set[_Value]:
        """The keys of the memo that somebody takes."""
        return {op.value for op in self.ops if op.name == 'GET'}

    def is_alone(self, slot: Slot) -> bool:
        """Whether one opcode makes an object, and others only store it."""
        return slot.end - slot.begin == len(slot.places) and all(self.ops[place].name == 'PUT' for place in slot.places[1:])
