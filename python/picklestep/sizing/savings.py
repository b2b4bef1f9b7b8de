"""What `optimize`, another protocol and buffers out of band would save of a pickle, by the sizes of its opcodes."""

from __future__ import annotations

from array import array
from itertools import chain, compress
from typing import Callable, Dict, Iterator, Optional

from ..opcode_lines import table_of
from ..opcodes import BY_CODE, BY_NAME, OpcodeInfo
from ..optimizing import SPELLINGS, frames_around
from .heap import Heap
from .memo import TAKES, Memo
from .opcodes import GETS, Opcodes, size_before
from .records import Saving

__all__ = ['NEWEST', 'OLDEST', 'savings']

# The protocols whose picklers are asked about: those before have no opcode for a new object.
OLDEST, NEWEST = 2, 5
_OF_MEMOIZE = _OF_FRAMES = 4
_FRAME_SIZE, _PROTO_SIZE = 9, 2
_FRAME = BY_NAME['FRAME'].code
# How long a text may be, by the form of its opcode.
_MOST = {'bytes1': (1 << 8) - 1, 'bytes4': (1 << 32) - 1, 'bytes4_signed': (1 << 31) - 1, 'bytes8': (1 << 64) - 1}
# Items go into a container so many at a time.
_BATCH = 1000
# From so many bytes on an argument is worth a buffer of its own.
_LEAST_BUFFER = 1 << 10


def savings(opcodes: Opcodes, heap: Heap, memo: Memo, protocol: int = NEWEST) -> Iterator[Saving]:
    """What could be saved of one pickle that was read to its end, also by this protocol; the most comes first."""
    if len(opcodes.stops) != 1 or opcodes.unread or not opcodes.end.is_stopped:
        return
    whole = opcodes.read
    found = [Saving('optimize', whole - _optimized(opcodes, memo), 0)]
    if (opcodes.protocol or 0) < min(protocol, _OF_FRAMES):
        found.append(Saving(f'protocol {protocol}', whole - _newer(opcodes, heap, memo, protocol), 0, 'about'))
    buffers = [size for size in map(opcodes.sizes.__getitem__, opcodes.places(_BUFFERS)) if size >= _LEAST_BUFFER]
    found.append(Saving('out of band', sum(buffers) - 2 * len(buffers), 0, 'at most'))
    for each in sorted(found, key=lambda saving: -saving.size):
        if each.size > 0:
            yield Saving(each.how, each.size, whole - each.size, each.known)


_BUFFERS = table_of(info.code for info in BY_CODE.values() if info.argument in ('bytes1', 'bytes4', 'bytes8', 'bytearray8'))


# --- optimize ---

def _optimized(opcodes: Opcodes, memo: Memo) -> int:
    """How many bytes `optimize` leaves."""
    protocol = opcodes.proto if opcodes.proto is not None else opcodes.protocol or 0
    new = opcodes.sizes[:]
    for code in opcodes.kinds:
        shorter = _shorter(BY_CODE[code], protocol)
        if shorter is not None:
            _change(new, opcodes, code, shorter)
    if protocol >= 1:
        for place, size in opcodes.shorter_numbers():
            new[place] = size
    if memo.once:
        _with_short_memo(opcodes, new, memo, protocol)
    frames = 0
    if _FRAME in opcodes.kinds:
        _change(new, opcodes, _FRAME, _nothing)
        frames = _FRAME_SIZE * sum(1 for _ in frames_around(new[int(opcodes.proto is not None):]))
    return min(opcodes.read, sum(new) + frames)


def _change(new: 'array[int]', opcodes: Opcodes, code: int, size_of: Callable[[int], int]) -> None:
    """Gives the opcodes of a code other sizes."""
    for place in opcodes.places(table_of([code])):
        new[place] = size_of(new[place])


def _shorter(info: OpcodeInfo, protocol: int) -> 'Optional[Callable[[int], int]]':
    """How many bytes an opcode of this kind and of so many bytes has in its shortest spelling; None where it has no other one."""
    group = next((names for names in SPELLINGS if info.name in names), ())
    names = [BY_NAME[name] for name in group[:group.index(info.name)]] if group else []
    others = [each for each in names if each.form in _MOST and each.protocol <= protocol]
    if info.form not in _MOST or not others:
        return None
    own = size_before(info)

    def size_of(size: int) -> int:
        return next((size - own + size_before(each) for each in others if size - own <= _MOST[each.form]), size)
    return size_of


def _with_short_memo(opcodes: Opcodes, new: 'array[int]', memo: Memo, protocol: int) -> None:
    """Puts the sizes of the opcodes of a memo that has only the entries that somebody takes, with the lowest keys."""
    for place in memo.unused():
        new[place] = 0
    for key, place in enumerate(compress(memo.stored, memo.is_taken)):
        name = BY_CODE[opcodes.codes[place]].name
        new[place] = 1 if protocol >= _OF_MEMOIZE or name == 'MEMOIZE' else _size_of_key(name, key, protocol, new[place])
    if 1 in opcodes.codes.translate(_LONG_GETS):
        keys = {key: number for number, key in enumerate(compress(memo.keys, memo.is_taken))}
        for place, key in zip(opcodes.places(_LONG_GETS), opcodes.keys(_LONG_GETS)):
            new[place] = _size_of_key(BY_CODE[opcodes.codes[place]].name, keys.get(key, key), protocol, new[place])


# (BINGET cannot be shorter.)
_LONG_GETS = table_of(GETS - {BY_NAME['BINGET'].code})


def _size_of_key(name: str, key: int, protocol: int, now: int) -> int:
    """How many bytes the shortest opcode has that does the same with a key."""
    if protocol >= 1 and name not in ('BINPUT', 'BINGET') and key < 1 << 8 or name in ('BINPUT', 'BINGET'):
        return 2
    if name.startswith('LONG_'):
        return 5
    return 5 if protocol >= 1 and key < 1 << 32 else 2 + len(str(key))


# --- A newer protocol ---

def _newer(opcodes: Opcodes, heap: Heap, memo: Memo, protocol: int) -> int:
    """How many bytes a pickler of a newer protocol would about write of the same objects."""
    new, has_frames = opcodes.sizes[:], protocol >= _OF_FRAMES
    changed = _IN_NEWEST if has_frames else _IN_MIDDLE
    for place, size in chain(opcodes.shorter_numbers(), opcodes.values_of_lines()):
        new[place] = size
    for code in opcodes.kinds:
        info = BY_CODE[code]
        shorter = changed.get(info.name) or _shorter(info, protocol)
        if shorter is not None:
            _change(new, opcodes, code, shorter)
    for number, place in enumerate(memo.stored):
        new[place] = 1 if has_frames else _size_of_key_in_binary(number)
    numbers = {key: number for number, key in enumerate(memo.keys)}
    for place, key in zip(opcodes.places(TAKES), opcodes.keys(TAKES)):
        new[place] = _size_of_key_in_binary(numbers.get(key, 0))
    filled = sum(_filled(*held) for held in heap.counts()) + (_of_imports(opcodes) if has_frames else 0)
    frames = sum(1 for _ in frames_around(new + array('I', [1]) * filled)) if has_frames else 0
    return _PROTO_SIZE + sum(new) + filled + _FRAME_SIZE * frames


def _nothing(size: int) -> int:
    return 0


def _one(size: int) -> int:
    return 1


def _of_mark(size: int) -> int:
    return size + 1


# Opcodes that a newer pickler writes in another way. What fills containers and imports is counted by the objects.
_IN_NEWEST: Dict[str, Callable[[int], int]] = {
    **dict.fromkeys(('PROTO', 'FRAME', 'MARK', 'APPEND', 'APPENDS', 'SETITEM', 'SETITEMS', 'ADDITEMS', 'GLOBAL'), _nothing),
    **dict.fromkeys(('LIST', 'DICT'), _one), **dict.fromkeys(('POP_MARK', 'OBJ', 'INST', 'FROZENSET'), _of_mark),
    'UNICODE': _shorter(BY_NAME['BINUNICODE'], NEWEST) or _one}
# Before protocol 4 imports are lines, and no text is a short one.
_IN_MIDDLE = {name: size for name, size in _IN_NEWEST.items() if name not in ('GLOBAL', 'UNICODE')}


def _size_of_key_in_binary(key: int) -> int:
    """How many bytes an opcode has that puts or gets an entry of the memo."""
    return 2 if key < 1 << 8 else 5


def _filled(kind: str, items: int, pairs: int, members: int) -> int:
    """How many bytes the opcodes have that fill a container."""
    if kind == 'tuple':
        return int(items > 3)
    return sum(0 if not count else 1 if count == 1 else 2 * -(-count // _BATCH) for count in (items, pairs)) + 2 * -(-members // _BATCH)


def _of_imports(opcodes: Opcodes) -> int:
    """How many bytes imports by GLOBAL have where texts are written for them: the first time with an entry of the memo, which is taken then."""
    known: Dict[bytes, int] = {}
    size = 0
    for place in opcodes.places(_GLOBALS):
        for name in opcodes.argument(place).split(b'\n'):
            if name in known:
                size += _size_of_key_in_binary(known[name])
            else:
                known[name] = len(known)
                size += len(name) + (2 if len(name) < 1 << 8 else 5) + 1
        size += 1
    return size


_GLOBALS = table_of([BY_NAME['GLOBAL'].code])
