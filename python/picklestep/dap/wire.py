"""Messages of the protocol on a stream: a header that says how long the message is, an empty line, and JSON."""

from __future__ import annotations

import json
import os
import queue
import re
import threading
from typing import Any, BinaryIO, Dict, Optional, Union

from ..patterns import pattern

__all__ = ['Fields', 'Inbox', 'Malformed', 'Wire']

Fields = Dict[str, Any]

_LENGTH = pattern(rb'Content-Length: *([0-9]{1,12})\r\n', re.IGNORECASE)
# A message has at most so many bytes.
_MOST = 1 << 26
_LONGEST = 100  # (bytes of a line of a header)
# Requests that end a run of opcodes, and the one after which an editor has nothing more to say.
_ENDING = ('pause', 'terminate', 'disconnect')
_LAST = 'disconnect'
# (On Windows Ctrl-C does not end a wait that has no end.)
_PATIENCE = 1.0 if os.name == 'nt' else None


class Malformed(Exception):
    """What comes is not framed as the protocol says, so that nobody knows where the next message begins."""


class Wire:
    """Reads and writes messages.

    A header has the length and nothing else. So what a page in a browser sends to a port, which has other lines, is never taken for a message.
    """

    def __init__(self, reader: BinaryIO, writer: BinaryIO) -> None:
        self._reader = reader
        self._writer = writer

    def read(self) -> Optional[bytes]:
        """The next message, or None at the end of the input. Raises Malformed.

        >>> import io
        >>> Wire(io.BytesIO(b'Content-Length: 2\\r\\n\\r\\n{}'), io.BytesIO()).read()
        b'{}'
        """
        line = self._reader.readline(_LONGEST)
        if not line:
            return None
        match = _LENGTH.fullmatch(line)
        if match is None:
            raise Malformed(f'a message begins with Content-Length, and not with {line[:40]!r}')
        if self._reader.readline(_LONGEST) != b'\r\n':
            raise Malformed('an empty line is wanted behind Content-Length')
        length = int(match[1])
        if length > _MOST:
            raise Malformed(f'a message of {length:,} bytes is too long: the most are {_MOST:,}')
        content = self._reader.read(length)
        if len(content) < length:
            raise Malformed(f'the input ends in a message: {len(content):,} of {length:,} bytes are there')
        return content

    def write(self, message: Fields) -> None:
        """Sends a message."""
        content = json.dumps(message).encode('ascii')
        self._writer.write(b'Content-Length: %d\r\n\r\n%s' % (len(content), content))
        self._writer.flush()


class Inbox:
    """Messages as they come. A thread reads them, so that it is known while one is being done that another ends this.

    Behind a `disconnect` it reads nothing until it is asked for more: there is nothing more, and nobody waits for what will never come.
    """

    def __init__(self, wire: Wire) -> None:
        self._wire = wire
        self._come: 'queue.Queue[Union[bytes, None, Malformed, OSError, ValueError]]' = queue.Queue()
        self._ending: 'queue.SimpleQueue[str]' = queue.SimpleQueue()  # those that have come and end what is being done
        self._goes_on = threading.Event()
        self._is_last = self._is_closed = False
        threading.Thread(target=self._read, daemon=True).start()

    def next(self) -> Optional[bytes]:
        """The next message, or None at the end of the input. Raises Malformed, or OSError where nothing can be read."""
        if self._is_last:
            self._goes_on.set()
        while True:
            try:
                found = self._come.get(timeout=_PATIENCE)
                break
            except queue.Empty:
                pass
        if isinstance(found, Exception):
            raise found
        command = '' if found is None else _command_of(found)
        self._is_last = command == _LAST
        if command in _ENDING:
            self._ending.get()
        return found

    def is_ending(self) -> bool:
        """Whether a message has come that ends what is being done."""
        return not self._ending.empty()

    def close(self) -> None:
        """Reads no further."""
        self._is_closed = True
        self._goes_on.set()

    def _read(self) -> None:
        found: Optional[bytes] = b''
        while found is not None and not self._is_closed:
            try:
                found = self._wire.read()
            except (Malformed, OSError, ValueError) as error:  # (ValueError: it was closed)
                self._come.put(error)
                return
            command = '' if found is None else _command_of(found)
            if command in _ENDING:
                self._ending.put(command)
            self._come.put(found)
            if command == _LAST:
                self._goes_on.wait()
                self._goes_on.clear()


def _command_of(message: bytes) -> str:
    """The command of a request that ends something; nothing for other messages."""
    if not any(command.encode() in message for command in _ENDING):
        return ''
    try:
        command = json.loads(message)['command']
    except (ValueError, RecursionError, LookupError, TypeError):
        return ''
    return command if isinstance(command, str) else ''
