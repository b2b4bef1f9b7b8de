"""The library of the program: it answers about a few bytes in microseconds, where the start of the program takes a millisecond. Where it is a
module, one process of Node answers for all.

It has the same proofs as the program (`picklestep.h` says what they are about), and no limit of time. So what is asked here is small, and its
memory has a limit: then its time has one, too. Whatever it does not answer, the program is asked.
"""

from __future__ import annotations

import os
from typing import Any, Dict, Optional, Protocol, Sequence, Tuple

from . import place
from .errors import ProgramError
from .place import find_library, find_program, is_module
from .question import Question, question, question_of_gate, question_of_members, question_of_reach, question_of_same, reading
from .sources import LIMIT

__all__ = ['MOST_BYTES', 'MOST_KEPT', 'Kept', 'answer', 'form', 'gate', 'is_in_process', 'load', 'members', 'open_session', 'reach', 'same']

# Inputs up to this size are asked about here. For a larger one the start of the program is a small part of its time.
MOST_BYTES = 1 << 16
# Of inputs up to this size a session is kept here. A hostile pickle takes some thousand times its size of memory, and of one that is larger a
# process of its own may run out of memory.
MOST_KEPT = 1 << 24
# The most steps that a session can be told to remember.
_MOST_STEPS = 1_000_000
# A list may be larger than what it is about: that of a set has tens of thousands of bytes.
_MOST_OF_LIST = 1 << 20
# Whether something is reached is asked in a time that grows as the input does.
_MOST_OF_REACH = 1 << 20
# So much memory an answer may take here.
_MOST_MEMORY = 16 << 20
# Of an archive the names and the places of all members are answered at once: so much memory is taken by some 300,000 of them.
_MOST_OF_MEMBERS = 64 << 20
# So much of a limit of memory the program needs for itself.
_OF_PROGRAM = 8 << 20


class Kept(Protocol):
    """A session that stays open from line to line."""

    def ask(self, line: bytes) -> bytes:
        """The answer to a line, which has no newline, as a line of JSON."""
        ...

    def content(self) -> bytes:
        """The bytes of the pickle as it is."""
        ...

    def close(self) -> None:
        """Closes it."""
        ...


class _Library(Protocol):
    # Whether it reads the memory of this process, so that an input is not copied.
    is_in_process: bool

    def ask(self, asked: Question, memory: int) -> Optional[bytes]:
        """The text, where it can be had in so much memory."""
        ...

    def open(self, content: bytes, options: int, window: int) -> Optional[Kept]:
        """A session of this input, where the library keeps some."""
        ...


# Those that were looked for, by what PICKLESTEP_PROGRAM says and where the package is.
_libraries: Dict[Tuple[Optional[str], str], Optional[_Library]] = {}


def _library() -> Optional[_Library]:
    """The library that belongs to the program that would be started. Where several threads look for it at once, all have the same one then."""
    key = os.environ.get('PICKLESTEP_PROGRAM'), place._HERE
    return _libraries[key] if key in _libraries else _libraries.setdefault(key, _found())


def _found() -> Optional[_Library]:
    try:
        found = find_program()
        path = find_library(found)
        if path is None:
            return None
        if is_module(found):
            from .in_node import InNode
            return InNode(path, _MOST_MEMORY)
        from .in_process import InProcess  # (a Python that was built without libffi has no ctypes)
        return InProcess(path)
    except (ProgramError, OSError, AttributeError, ImportError):
        return None


def load() -> None:
    """Loads the library, if there is one."""
    _library()


def answer(words: Sequence[str], content: bytes, memory: Optional[int] = None) -> Optional[bytes]:
    """What the program writes about these bytes with these words, or None where it has to be asked.

    `memory` is the limit of the program's address space in bytes.

    >>> answer(['calls'], b'N' * 100_000) is None
    True
    """
    return _ask(question(words, content), memory)


def open_session(content: bytes, many: bool, unframed: bool, window: Optional[int] = None) -> Optional[Kept]:
    """A session of these bytes that is kept in this process, read as one pickle or as `many`. None where the program has to be started for it.

    >>> open_session(b'N.', False, False, window=0) is None
    True
    """
    if len(content) > MOST_KEPT or not (window is None or 0 < window <= _MOST_STEPS):
        return None
    library = _library()
    return None if library is None else library.open(content, reading(many, unframed), window or 0)


def gate(entries: bytes, content: bytes, memory: Optional[int] = None, is_json: bool = True) -> Optional[bytes]:
    """What the program says of these bytes and of a list, with `--json` or without it. None where the program has to be asked.

    >>> gate(b'a.b:\\n', b'N' * 100_000) is None
    True
    """
    return _ask(question_of_gate(entries, content, is_json), memory, MOST_BYTES - len(content), _MOST_OF_LIST - len(entries))


def reach(content: bytes, granted: int = 0, memory: Optional[int] = None) -> Optional[bytes]:
    """What the program says with `--json` of whether a loader of these bytes reaches something. `granted` is the sum of what it was given besides:
    1 extension codes, 2 a persistent_load, 4 buffers. None where the program has to be asked.

    >>> reach(b'N' * 10_000_000) is None
    True
    """
    return _ask(question_of_reach(content, granted), memory, _MOST_OF_REACH - len(content))


def form(content: bytes, memory: Optional[int] = None) -> Optional[bytes]:
    """What the program says with `--json` of the form of these bytes. None where the program has to be asked. (It takes some milliseconds a megabyte.)

    >>> form(b'N' * 20_000_000) is None
    True
    """
    return _ask(question(['form', '--json'], content), memory, MOST_KEPT - len(content))


def is_in_process() -> bool:
    """Whether there is a library that reads the memory of this process."""
    library = _library()
    return library is not None and library.is_in_process


def members(content: Any, memory: Optional[int] = None) -> Optional[bytes]:
    """What the program says with `--json` of the members of an archive: of bytes, or of an array of ctypes where the library is in this process. None
    where the program has to be asked. (It takes a time that grows as the headers of the members do.)

    >>> members(b'PK\\3\\4' + b'x' * 40, memory=0) is None
    True
    """
    return _ask(question_of_members(content), memory, LIMIT - len(content), most=_MOST_OF_MEMBERS)


def same(one: bytes, other: bytes, many: bool = False, memory: Optional[int] = None) -> Optional[bytes]:
    """What the program says with `--json` of whether two pickles, or several in each, make the same objects. None where the program has to be asked.

    >>> same(b'N' * 100_000, b'N.') is None
    True
    """
    return _ask(question_of_same(one, other, many), memory)


def _ask(asked: Optional[Question], memory: Optional[int], *room: int, most: int = _MOST_MEMORY) -> Optional[bytes]:
    """What the library answers, if there is one and it is to be asked about so many bytes in so much memory. `room` is what the inputs leave of
    their limits, where they have some of their own, and `most` the most memory that the answer may take."""
    most = most if memory is None else min(most, memory - _OF_PROGRAM)
    if asked is None or most <= 0:
        return None
    if min(room or (MOST_BYTES - sum([len(content) for content, _ in asked.inputs]),)) < 0:
        return None
    library = _library()
    return None if library is None else library.ask(asked, most)
