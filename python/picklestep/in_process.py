"""The library in this process: it answers about a few bytes in microseconds. This alone of the package needs ctypes."""

from __future__ import annotations

import ctypes
import threading
from typing import Any, Callable, List, Optional, cast

from .errors import ProgramError
from .question import FUNCTIONS, Question

__all__ = ['InProcess', 'Kept']

# Most texts have room in so much.
_ROOM = 1 << 16

_DONE, _OUT_OF_MEMORY, _NO_ROOM, _NO_TASK, _LOST = 0, 1, 3, 4, 5
# What the program answers to a line that it did not obey since memory ran out.
_RAN_OUT = b'{"kind":"refused","code":"M","words":"out of memory"}\n'
_NO_LIMIT = ctypes.c_size_t(-1).value


class _Written(ctypes.Structure):
    """The size and the status of a text."""

    _fields_ = [('size', ctypes.c_size_t), ('status', ctypes.c_uint8)]


class _Handle(ctypes.Structure):
    """Where a session is, and whether one is open."""

    _fields_ = [('at', ctypes.c_void_p), ('open', ctypes.c_size_t)]


# Of each thread: `room`, memory for a text, which is not there while an answer uses it, and `memory`, the limit of the answer that is under way.
# (A signal's handler may ask too, in the midst of it: it takes memory of its own, and leaves the limit as it was.)
_own = threading.local()


class InProcess:
    """The functions of a library."""

    is_in_process = True

    def __init__(self, path: str) -> None:
        library = ctypes.CDLL(path)
        self._limit: Any = library.picklestep_limit_memory
        self._limit.argtypes = [ctypes.c_size_t]
        self._limit.restype = None
        # (a library of an earlier version has not all of them)
        self._functions = {name: _declared(library, name, *counts) for name, counts in FUNCTIONS.items() if hasattr(library, name)}
        self._sessions = _Sessions(library) if hasattr(library, 'picklestep_ask_json') else None

    def open(self, content: bytes, options: int, window: int) -> Optional[Kept]:
        """A session of this input that remembers so many steps, or all where `window` is 0. None where the library has no such sessions, or
        refuses to open one."""
        if self._sessions is None:
            return None
        kept = Kept(self._sessions)
        return kept if kept.open(content, options, window) else None

    def ask(self, asked: Question, memory: int) -> Optional[bytes]:
        """The text, where it can be had in so much memory."""
        own = _own.__dict__
        room: _Room = own.pop('room', None) or _Room()
        before = own.get('memory', _NO_LIMIT)
        try:
            own['memory'] = memory
            self._limit(memory)
            return self._text(asked, memory, room)
        finally:
            own['memory'] = before
            self._limit(before)
            own['room'] = room

    def _text(self, asked: Question, memory: int, room: _Room) -> Optional[bytes]:
        function = self._functions.get(asked.function)
        if function is None:
            return None
        given: List[Any] = [*asked.options]
        for content, size in asked.inputs:
            given += _aligned(content, size), len(content) // size
        answer = function(*given, *room.at)
        if answer == _NO_ROOM and room.written.size <= memory:
            room = _Room(room.written.size)
            answer = function(*given, *room.at)
        return room.taken() if answer == _DONE else None


class _Room:
    """Memory for a text, and for what is told of it. (A number is handed to a function in less time than a pointer.)"""

    def __init__(self, size: int = _ROOM) -> None:
        self.text, self.size, self.written = ctypes.create_string_buffer(size), size, _Written()
        # What had no room here, if a signal's handler has fetched it.
        self.fetched: Optional[bytes] = None
        self.at = ctypes.addressof(self.text), size, ctypes.addressof(self.written)

    def taken(self) -> bytes:
        """The text."""
        return cast(bytes, self.text[:self.written.size])


class _Sessions:
    """The functions for sessions that stay open from call to call."""

    def __init__(self, library: ctypes.CDLL) -> None:
        handle, text = ctypes.c_void_p, [ctypes.c_void_p, ctypes.c_size_t, ctypes.c_void_p]
        self.open = _typed(library.picklestep_open, [ctypes.c_uint32, ctypes.c_size_t, ctypes.c_char_p, ctypes.c_size_t, handle])
        self.ask = _typed(library.picklestep_ask_json, [handle, ctypes.c_char_p, ctypes.c_size_t, *text])
        self.again = _typed(library.picklestep_again, [handle, *text])
        self.bytes = _typed(library.picklestep_bytes, [handle, *text])
        self.close = _typed(library.picklestep_close, [handle])


class Kept:
    """A session of the library. It answers one call at a time."""

    def __init__(self, functions: _Sessions) -> None:
        self._functions = functions
        self._obey = functions.ask
        self._handle = _Handle()
        self._at = ctypes.addressof(self._handle)
        # The room of the answer that is under way.
        self._room: Optional[_Room] = None
        # Most edits leave the pickle about as large as it was.
        self._most = _ROOM

    def open(self, content: bytes, options: int, window: int) -> bool:
        """Opens it, if the library does."""
        self._most += len(content)
        return self._functions.open(options, window, content, len(content), self._at) == _DONE

    def ask(self, line: bytes) -> bytes:
        """The answer to a line, which has no newline, as a line of JSON. (A signal's handler may ask in the midst of it.)"""
        own = _own.__dict__
        room: _Room = own.pop('room', None) or _Room()
        outer, room.written.size, room.fetched = self._room, 0, None
        if outer is not None:
            self._fetch(outer)
        self._room = room
        try:
            answer = self._obey(self._at, line, len(line), *room.at)
            if answer == _DONE:
                return room.taken()
            if answer == _NO_ROOM:
                self._fetch(room)
            return self._answer(answer, self._functions.again, room.written.size) if room.fetched is None else room.fetched
        finally:
            self._room = outer
            own['room'] = room

    def _fetch(self, room: _Room) -> None:
        """Fetches the text of the latest line, if that had no room here, and nobody has it: the next line takes its place."""
        if room.written.size > room.size and room.fetched is None:
            larger = _Room(room.written.size)
            if self._functions.again(self._at, *larger.at) == _DONE and room.fetched is None:
                room.fetched = larger.taken()

    def content(self) -> bytes:
        """The bytes of the pickle as it is."""
        room = _Room(self._most)
        answer = self._functions.bytes(self._at, *room.at)
        return room.taken() if answer == _DONE else self._answer(answer, self._functions.bytes, room.written.size)

    def _answer(self, answer: int, again: Callable[..., int], size: int) -> bytes:
        """The text of this size, which had no room, from a function that gives it again; or what became of the session."""
        if answer == _NO_ROOM:
            room = _Room(size)
            answer = again(self._at, *room.at)
            if answer == _DONE:
                return room.taken()
        elif answer == _OUT_OF_MEMORY and again is self._functions.again:
            return _RAN_OUT
        if answer == _NO_TASK:
            raise ValueError('the session is closed')
        raise ProgramError('out of memory: a line was obeyed or refused, and the answer that says which is lost' if answer == _LOST else 'out of memory')

    def close(self) -> None:
        """Closes it. Closing it twice does no harm."""
        self._functions.close(self._at)


def _typed(function: Any, types: List[Any]) -> Callable[..., int]:
    """A function of the library, with its types."""
    function.argtypes = types
    function.restype = ctypes.c_uint8
    return cast(Callable[..., int], function)


def _declared(library: ctypes.CDLL, name: str, options: int, inputs: int) -> Callable[..., int]:
    """A function that answers about inputs: so many options and so many inputs come before the room for the text."""
    given: List[Any] = [ctypes.c_char_p, ctypes.c_size_t] * inputs
    return _typed(getattr(library, name), [*[ctypes.c_uint32] * options, *given, ctypes.c_void_p, ctypes.c_size_t, ctypes.c_void_p])


def _aligned(content: bytes, size: int) -> Any:
    """An input where the numbers in it may stand. (What is in bytes may stand anywhere.)"""
    return content if size == 1 or not content else ctypes.create_string_buffer(content)
