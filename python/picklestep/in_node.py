"""The library where the system has none: a module in a process of Node, which is asked again and again. A start of Node takes longer than any
answer about a few bytes.
"""

from __future__ import annotations

import os
import threading
import weakref
from pathlib import Path
from typing import Optional

from .errors import ProgramError
from .place import node_path
from .program import Process
from .took import count_ended, count_seconds
from .question import Question

__all__ = ['InNode']

_SCRIPT = str(Path(__file__).with_name('in_node.mjs'))
_PAGE = 1 << 16
# So much memory the module takes besides that of an answer: its stack, its own data, an input and a text.
_OF_MODULE = 4 << 20

_DONE = 0


class _Link:
    """A process of Node, and what has come from it and is not read yet."""

    def __init__(self, module: str, most: int) -> None:
        node = node_path()
        if node is None:
            raise ProgramError('Node is not on the path')
        self.process = Process([], stdin=True, command=[node, _SCRIPT, module, str((most + _OF_MODULE) // _PAGE)])
        self._held = bytearray()
        # The processor time that it has taken.
        self.seconds = 0.0
        self.owner = os.getpid()

    def ask(self, asked: Question) -> Optional[bytes]:
        """The text, where it can be had in its memory. Raises EOFError or OSError where the process is gone."""
        options = ','.join(map(str, asked.options)) or '-'
        sizes = ','.join(f'{len(content)}/{size}' for content, size in asked.inputs)
        data = f'{asked.function} {options} {sizes}\n'.encode('ascii') + b''.join(content for content, _ in asked.inputs)
        while data:
            data = data[os.write(self.process.stdin, data):]
        while b'\n' not in self._held:
            self._read()
        line, _, rest = bytes(self._held).partition(b'\n')
        answer, size, used = map(int, line.split())
        count_seconds(used / 1e6 - self.seconds)
        self.seconds = used / 1e6
        self._held[:] = rest
        while len(self._held) < size:
            self._read()
        text = bytes(self._held[:size])
        del self._held[:size]
        return text if answer == _DONE else None

    def _read(self) -> None:
        block = os.read(self.process.stdout, _PAGE)
        if not block:
            raise EOFError
        self._held += block


def _end(process: Process, owner: int) -> None:
    """Ends the process. (In a copy of this one, which fork made, it is the parent's.)"""
    if owner == os.getpid():
        process.close()


class InNode:
    """Answers of the library as a module, each in so much memory at most. Threads take turns."""

    is_in_process = False

    def __init__(self, module: str, most: int) -> None:
        self._module = module
        self._most = most
        self._link: Optional[_Link] = None
        self._renew_turn()
        if node_path() is None:
            raise ProgramError('Node is not on the path')
        if hasattr(os, 'register_at_fork'):
            os.register_at_fork(after_in_child=self._renew_turn)

    def _renew_turn(self) -> None:
        """A new lock. (In a copy of this process, which fork made, nobody would give back the one that a thread had.)"""
        self._is_asked = False
        self._turn = threading.RLock()

    def ask(self, asked: Question, memory: int) -> Optional[bytes]:
        """The text, or None where it cannot be had in that memory, which is the same for all, or where Node does not answer."""
        if memory < self._most:
            return None
        with self._turn:
            if self._is_asked:  # (a signal's handler asks, in the midst of another answer of this thread)
                return None
            try:
                self._is_asked = True
                return self._open().ask(asked)
            except (EOFError, OSError, ValueError, ProgramError):
                self._close()
                return None
            except BaseException:  # an answer that nobody read would be taken for the next one
                self._close()
                raise
            finally:
                self._is_asked = False

    def open(self, content: bytes, options: int, window: int) -> None:
        """None: a session that takes memory for good has a process of its own, so that another cannot use it up."""

    def _open(self) -> _Link:
        if self._link is None or self._link.owner != os.getpid():
            self._link = _Link(self._module, self._most)
            weakref.finalize(self._link, _end, self._link.process, self._link.owner)
        return self._link

    def _close(self) -> None:
        if self._link is not None:
            _end(self._link.process, self._link.owner)
            if self._link.owner == os.getpid():
                count_ended(self._link.seconds)
            self._link = None
