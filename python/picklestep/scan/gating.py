"""The gate: whether the program says that a pickle does nothing but what lists allow."""

from __future__ import annotations

import os
from dataclasses import replace
from typing import Iterable, Optional

from ..addresses import gated
from ..program import check_timeout
from ..short_records import GateAnswer
from ..sources import Source, content_of
from .allow import names_of
from .entries import asked, text_of

__all__ = ['gate']


def gate(source: Source, *, allow: Iterable[str] = (), names: Iterable[str] = (), timeout: Optional[float] = None,
         memory: Optional[int] = None) -> GateAnswer:
    r"""Whether a source is one pickle that does nothing but what lists allow; an array of numbers, or of objects with such a pickle; one of these
    that gzip or zlib packed; or an archive each member of which is such a pickle, or gives nothing to a loader. The answer is true where it passes.
    At an address, and in a container of another kind, a pickle is opened first, by the readers of `scan`, which are tested and not proved: what is said
    is said of that pickle alone, and `address` of the answer says which it is.

    `allow` has sets and files as `scan --allow` takes them, and `names` names and patterns; without both no import is allowed. `timeout` and
    `memory` are as for `calls`. Who loads a file loads the bytes that passed, and not the file again: it may change.

    The program decides by the lines of the lists, and this is proved of it: where it says that the bytes pass, CPython's unpicklers, as they are
    defined for the proofs, import nothing but names that the list has, whatever is around them. They call, make, fill and change nothing but what
    the list grants this use to, and ask for no extension, persistent object or buffer without a line for that. What calls are given has a shape
    of the list, where it has some for them.

    Not proved: that the package gives the program all of the list, and no more.
    Not said at all: what allowed code does with what it is given, what methods do that run unseen (`__hash__`), and what a loader does that has
    another `find_class`, or is none of CPython's. A pickle that passes may still do harm by these.

    Raises NoList where a line of a list has no meaning, OSError where something cannot be read, and ProgramError where there is no answer.

    >>> ordered = b'\x80\x02ccollections\nOrderedDict\nq\x00)Rq\x01.'
    >>> bool(gate(ordered, names=['collections.OrderedDict: call']))
    True
    >>> answer = gate(ordered, names=['collections.OrderedDict:'])
    >>> answer.passes, answer.kind, answer.offset
    (False, 'not allowed', 30)
    """
    words, lines = ([given] if isinstance(given, str) else list(given) for given in (allow, names))
    entries = text_of(names_of(words, lines).entries())
    check_timeout(timeout)
    found = gated(os.fsdecode(source)) if isinstance(source, (str, os.PathLike)) else None
    answer = asked(entries, content_of(source) if found is None else found.content, timeout, memory)
    return answer if found is None else replace(answer, address=found.address)
