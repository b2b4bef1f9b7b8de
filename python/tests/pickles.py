"""Pickles for the tests, and what Python says of them."""

from __future__ import annotations

import io
import pickletools
import random
import re
from dataclasses import dataclass
from pathlib import Path
from typing import Dict, Iterable, Iterator, List, Optional, TypeVar

from picklestep.place import find_program, is_module

T = TypeVar('T')

ROOT = Path(__file__).resolve().parent.parent.parent
REAL = sorted((ROOT / 'crates' / 'real_pickles' / 'data').glob('*.pickle'))

# The usual dump of [1] in protocol 4.
LIST = b'\x80\x04\x95\x06\x00\x00\x00\x00\x00\x00\x00]\x94K\x01a.'
HOSTILE = b'cposix\nsystem\n(X\x02\x00\x00\x00idtR.'


@dataclass(frozen=True)
class Known:
    """An opcode as Python's own `pickletools` reads it: its argument as the bytes that are in the file."""

    offset: int
    name: str
    raw: bytes
    value: object


def known_opcodes(data: bytes) -> List[Known]:
    """The opcodes of a pickle up to STOP, or up to where Python cannot read on."""
    found: List[Known] = []
    stream = io.BytesIO(data)
    try:
        for opcode, value, offset in pickletools.genops(stream):
            assert offset is not None
            found.append(Known(offset, opcode.name, data[offset + 1:stream.tell()], value))
    except (ValueError, UnicodeDecodeError):
        pass
    return found


@dataclass(frozen=True)
class Shown:
    """An opcode as `pickletools.dis` shows it."""

    offset: int
    name: str
    marks: int
    note: str


_LINE = re.compile(r' *([0-9]+): (\S+) +([A-Z][A-Z0-9_]*)(.*)')


def disassembled(data: bytes) -> Optional[List[Shown]]:
    """What `pickletools.dis` shows, where it goes to the end."""
    text = io.StringIO()
    try:
        pickletools.dis(data, text)
    except (ValueError, UnicodeDecodeError, IndexError, KeyError):
        return None
    shown: List[Shown] = []
    for line in text.getvalue().splitlines()[:-1]:
        match = _LINE.match(line)
        if match is None:
            return None
        note = re.search(r' \((MARK at [0-9]+|as [0-9]+)\)$', match[4])
        shown.append(Shown(int(match[1]), match[3], (match.start(3) - match.end(1) - 7) // 4, note[1] if note else ''))
    return shown


def chosen(items: Iterable[T], most: int) -> List[T]:
    """All of them; where the program is the module, whose every start takes a tenth of a second, at most so many of them."""
    found = list(items)
    if len(found) <= most or not is_module(find_program()):
        return found
    return [found[at] for at in sorted(random.Random(most).sample(range(len(found)), most))]


def real_pickles() -> Dict[str, bytes]:
    """The real pickles of the repository, by their names."""
    return {path.stem: path.read_bytes() for path in REAL}


def changed_pickles() -> Iterator[bytes]:
    """Pickles of plain data in which each kind of object is changed twice, in each way, also where loading fails."""
    made = [b'K\x05', b'N', b'\x88', b'X\x01\0\0\0x', b'\x96\x02\0\0\0\0\0\0\0xy', b'\x96\0\0\0\0\0\0\0\0', b']', b'](K\x05K\x06e', b'(K\x05l',
            b'K\x05\x85', b')', b'}', b'}K\x01K\x05s', b'(K\x01K\x05K\x01K\x06d', b'\x8f', b'\x8f(K\x01K\x01\x90', b'(\x91', b'(K\x01K\x01\x91']
    changes = [b'', b'Nb', b'}b', b'NN\x86b', b'N}\x86b', b'K\x01a', b'(K\x01K\x02e', b'K\x00K\x01s', b'I01\nK\x02s', b'J\xff\xff\xff\xffK\x02s', b'K\x07K\x01s',
               b'NK\x01s', b'K\x01\x85Ns', b'(K\x00K\x01K\x00K\x02u', b'(K\x01I01\nG?\xf0\0\0\0\0\0\0\x90', b'(K\x00\x85K\x00\x85\x90', b'(\x90']
    yield from (thing + one + other + b'.' for thing in made for one in changes for other in changes)
