"""What takes without end to load, or ends Python itself, though nothing in it is told: whether a pickle may have it, by the opcodes that this takes.

Tuples may hold one another so often that nobody can hash them: one of 200 bytes takes 2^60 steps, and as a key it is hashed while it is loaded. So may what
calls made, such as named tuples. And there may be many keys that take long, each of them not too long. Tuples may be so deep in one another that hashing
them takes all of C's stack, and so may objects whose freeing goes from each to the next. torch goes through the
layers of a recurrent network, as many as its state says. Whether it is so is asked in `depths`.
"""

from __future__ import annotations

import re
from typing import Iterable, NamedTuple, Optional

from ..opcodes import codes_of, of_kinds, of_rows
from ..patterns import pattern
from .blobs import Blob, Budget

__all__ = ['MOST_OF_MADE', 'MOST_OF_TUPLES', 'MOST_STEPS', 'Cost', 'cost_of_tuples', 'many_layers']

# So many steps take some seconds. To come to as many, a pickle has to take tuples, or what calls made, out of its memo: each time doubles at most what its
# bytes say. (What puts them there otherwise is not in the form that picklers write, which is marked.)
MOST_STEPS = 100_000_000
_GETS = codes_of(of_rows('get'))
_MOST_GETS = 27
_PUT = pattern(rb'[\x85\x86\x87tR\x81\x92o\n](?:\x94|q|r...\0|p[0-9])', re.DOTALL)
_OF_PUT = 6
# CPython hashes 140,000 tuples in one another by as many calls in C, and a thread may have little room for these.
MOST_OF_TUPLES = 100
# It frees what calls made by calls in C, 75,000 at least, if each holds the next in its own way (a deque does). Between two of them there are no more
# tuples than that. No pickler gets so far, but where its program has set another limit.
MOST_OF_MADE = 1_000
# The opcodes that make tuples (by one of them, and from a mark on).
_TUPLES = codes_of(name for name in of_kinds('tuple') if name in of_rows('take'))
_MARK, _FROM_MARK = b'(', b't'
_CALLS = codes_of(of_kinds('call', 'new', 'new-ex', 'inst', 'obj'))
# torch's recurrent networks.
_NETWORKS = 'torch.nn.modules.rnn.'


class Cost(NamedTuple):
    """What is to be said of a pickle that takes too much to load. `is_known` is false where it could not be counted."""

    text: str
    is_known: bool = True


def cost_of_tuples(blob: Blob, budget: Budget) -> Optional[Cost]:
    """What is to be said of a pickle with a tuple, or what a call made, that takes too many steps to be hashed, or with keys and members that do all
    together; or with a tuple that is too deep in others; or where what calls made is too deep in one another.

    >>> from .blobs import BytesBlob, Limits
    >>> levels = b''.join(b'h%c\\x86\\x94' % number for number in range(40))
    >>> cost_of_tuples(BytesBlob(b'\\x80\\x04))\\x86\\x94' + levels + b'.'), Budget(Limits())).text
    'to hash the tuple #27 in it takes more than 100,000,000 steps: who loads it as a key, or as a member of a set, waits for that'
    >>> cost_of_tuples(BytesBlob(b'}N' + b'\\x85' * 101 + b'Ns.'), Budget(Limits())).text
    'the tuple #102 in it is nested deeper than 100: as a key, or as a member of a set, it may end the Python that loads it'
    """
    counted = _Counted(blob)
    if not (counted.may_be_heavy or counted.may_be_deep or counted.may_be_nested):
        return None
    from .depths import cost_in_objects
    return cost_in_objects(blob, budget, counted.may_be_nested)


def many_layers(blob: Blob, names: Iterable[str], budget: Budget) -> Optional[str]:
    """What is to be said of a pickle that imports these names, and has a network of very many layers."""
    if not any(name.startswith(_NETWORKS) for name in names):
        return None
    from .depths import layers_in_objects
    return layers_in_objects(blob, budget)


class _Counted:
    """Which opcodes bytes have often enough, whatever else they are."""

    def __init__(self, blob: Blob) -> None:
        self._found = {each: 0 for each in (*_GETS, *_TUPLES, _MARK, _FROM_MARK, *_CALLS)}
        has_put, last, size = False, b'', 0
        self.may_be_heavy = self.may_be_deep = self.may_be_nested = False
        for piece in blob.chunks():
            for each in self._found:
                self._found[each] += piece.count(each)
            has_put = has_put or _PUT.search(last + piece) is not None
            last = piece[1 - _OF_PUT:]
            size += len(piece)
            tuples = self._sum(_TUPLES) + min(self._found[_MARK], self._found[_FROM_MARK])
            gets = min(self._sum(_GETS), _MOST_GETS)
            self.may_be_heavy = has_put and gets > 0 and size << gets > MOST_STEPS
            self.may_be_deep = tuples > MOST_OF_TUPLES
            self.may_be_nested = self._sum(_CALLS) > MOST_OF_MADE
            if self.may_be_heavy and self.may_be_deep and self.may_be_nested:
                return

    def _sum(self, opcodes: Iterable[bytes]) -> int:
        return sum(self._found[each] for each in opcodes)
