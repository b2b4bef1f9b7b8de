"""What `size` answers."""

from __future__ import annotations

import sys
from dataclasses import dataclass
from typing import Any, Dict, Optional, Tuple

from ..records import End

__all__ = ['Again', 'MemoSize', 'PathSize', 'Saving', 'Sized', 'Sizes']

_SLOTS: Dict[str, Any] = {'slots': True} if sys.version_info >= (3, 10) else {}


@dataclass(frozen=True, **_SLOTS)
class Sized:
    """Opcodes of one name, or for one purpose: how many there are, and how many bytes they have with their arguments.

    >>> import picklestep
    >>> picklestep.size(b'K\\x01.').opcodes[0]
    Sized(what='BININT1', count=1, size=2)
    """

    what: str
    count: int
    size: int


@dataclass(frozen=True, **_SLOTS)
class PathSize:
    r"""An object, at the first path that leads to it.

    `number` is that of the object, `kind` its word in `objects`, and `offset` where the opcode is that makes it. `own` is how many bytes this opcode
    has, and `size` the same of all that the object holds, as far as nothing before it holds that. `depth` is how many objects lead to it.

    >>> import picklestep
    >>> [(each.path, each.size) for each in picklestep.size(b']X\x01\x00\x00\x00aa.').paths]
    [('result', 7), ('[0]', 6)]
    """

    path: str
    number: int
    kind: str
    offset: int
    own: int
    size: int
    depth: int


@dataclass(frozen=True, **_SLOTS)
class MemoSize:
    """The memo: how many entries are `stored` and how often one is `taken`, with the bytes of these opcodes; and how many entries nobody takes.

    >>> import picklestep
    >>> picklestep.size(b']q\\x00.').memo
    MemoSize(stored=1, taken=0, size=2, unused=1, unused_size=2)
    """

    stored: int
    taken: int
    size: int
    unused: int
    unused_size: int


@dataclass(frozen=True, **_SLOTS)
class Again:
    r"""A text, or bytes, that opcodes write more than once: its beginning, where it is first, how often it is written, and how many bytes all but the
    first have.

    >>> import picklestep
    >>> picklestep.size(b'X\x01\x00\x00\x00aX\x01\x00\x00\x00a\x86.').again
    (Again(text="'a'", offset=0, count=2, size=6),)
    """

    text: str
    offset: int
    count: int
    size: int


@dataclass(frozen=True, **_SLOTS)
class Saving:
    """What could be saved: how ('optimize', 'protocol 5', 'out of band'), how many bytes that is, and how many are left. `known` is 'exactly', 'about'
    or 'at most'.

    >>> import picklestep
    >>> picklestep.size(b'\\x80\\x02]q\\x00.').savings[0]
    Saving(how='optimize', size=2, left=4, known='exactly')
    """

    how: str
    size: int
    left: int
    known: str = 'exactly'


@dataclass(frozen=True, **_SLOTS)
class Sizes:
    """Where the bytes of a pickle go.

    `size` is how many bytes there are: those of the opcodes that make objects, those of `overhead`, and `unread` ones. `opcodes` has all opcodes by
    their names, the largest first. `paths` has the largest objects with what they hold, in the order of the tree, and `largest` the largest by
    themselves. `elsewhere` is how many bytes objects have that are in no result. `again` has the texts that are written more than once, and `savings`
    what could be saved. `end` says how reading ended: what was not read is in none of them.

    >>> import picklestep
    >>> answer = picklestep.size(b'](K\\x01K\\x02e.')
    >>> answer.size, answer.objects, [(each.what, each.size) for each in answer.overhead]
    (8, 5, [('fill', 1), ('marks', 1), ('protocol', 1)])
    """

    size: int
    unread: int
    count: int
    objects: int
    objects_count: int
    elsewhere: int
    protocol: Optional[int]
    opcodes: Tuple[Sized, ...]
    overhead: Tuple[Sized, ...]
    paths: Tuple[PathSize, ...]
    largest: Tuple[PathSize, ...]
    memo: MemoSize
    again: Tuple[Again, ...]
    savings: Tuple[Saving, ...]
    end: End
