"""An editor, as far as the tests of `picklestep dap` need one."""

from __future__ import annotations

import contextlib
import json
import os
import queue
import subprocess
import sys
import threading
from typing import IO, Any, Callable, Dict, List, Optional

from dap_schema import faults
from picklestep.dap.command import converse
from scan_support import environment

__all__ = ['Client', 'Failed', 'framed', 'messages_in']

# So many seconds a message may take.
_PATIENCE = 600

Fields = Dict[str, Any]


class Failed(Exception):
    """An answer that says why the request was not done."""


def framed(content: bytes) -> bytes:
    """A message as it is sent."""
    return b'Content-Length: %d\r\n\r\n%s' % (len(content), content)


def messages_in(data: bytes) -> List[Fields]:
    """The messages that were written, which have to be all that there is."""
    found = []
    while data:
        head, _, rest = data.partition(b'\r\n\r\n')
        assert head.startswith(b'Content-Length: ') and b'\n' not in head, head[:80]
        length = int(head.partition(b': ')[2])
        found.append(json.loads(rest[:length]))
        data = rest[length:]
    return found


class Client:
    """Asks an adapter, and keeps the events. Each message is held against the specification."""

    def __init__(self, reader: IO[bytes], writer: IO[bytes], wait: Callable[[], int]) -> None:
        """`wait` answers the status once the adapter has ended."""
        self._reader, self._writer, self._wait = reader, writer, wait
        self._asked = 0
        self._heard = 0
        self.events: List[Fields] = []
        self._messages: 'queue.Queue[Optional[Fields]]' = queue.Queue()
        self._listener = threading.Thread(target=self._listen, daemon=True)
        self._listener.start()

    @classmethod
    def started(cls, folder: str) -> Client:
        """A client of an adapter that is a process of its own."""
        process = subprocess.Popen([sys.executable, '-m', 'picklestep', 'dap'], stdin=subprocess.PIPE, stdout=subprocess.PIPE, cwd=folder, env=environment())
        assert process.stdin is not None and process.stdout is not None
        return cls(process.stdout, process.stdin, lambda: process.wait(_PATIENCE))

    @classmethod
    def here(cls) -> Client:
        """A client of an adapter in this process, which takes less time."""
        (their_in, our_out), (our_in, their_out) = os.pipe(), os.pipe()
        statuses: List[int] = []

        def adapt() -> None:
            with os.fdopen(their_in, 'rb') as reader, os.fdopen(their_out, 'wb') as writer:
                statuses.append(converse(reader, writer))

        thread = threading.Thread(target=adapt, daemon=True)
        thread.start()

        def wait() -> int:
            thread.join(_PATIENCE)
            return statuses[0]

        return cls(os.fdopen(our_in, 'rb'), os.fdopen(our_out, 'wb'), wait)

    def _listen(self) -> None:
        while True:
            head = self._reader.readline()
            if not head:
                self._messages.put(None)
                return
            assert self._reader.readline() == b'\r\n'
            self._messages.put(json.loads(self._reader.read(int(head.partition(b':')[2]))))

    def _next(self) -> Fields:
        message = self._messages.get(timeout=_PATIENCE)
        if message is None:
            raise EOFError
        found = list(faults(message))
        assert not found, (found, message)
        self._heard += 1
        assert message['seq'] == self._heard
        return message

    def send(self, content: bytes) -> None:
        self._writer.write(framed(content))
        self._writer.flush()

    def answer(self) -> Fields:
        """The next response. Events before it are kept."""
        while True:
            message = self._next()
            if message['type'] == 'response':
                return message
            self.events.append(message)

    def ask(self, command: str, **arguments: Any) -> Any:
        """The body of the answer to a request. Raises Failed where it was not done."""
        self._asked += 1
        self.send(json.dumps({'seq': self._asked, 'type': 'request', 'command': command, 'arguments': arguments}).encode())
        answer = self.answer()
        assert (answer['request_seq'], answer['command']) == (self._asked, command), answer
        if not answer['success']:
            error = answer['body']['error']
            assert error['format'].format(**error['variables']) == answer['message']
            raise Failed(answer['message'])
        return answer['body']

    def event(self, name: str) -> Fields:
        """The body of the next event of a name."""
        while True:
            for at, message in enumerate(self.events):
                if message['event'] == name:
                    del self.events[:at + 1]
                    body: Fields = message['body']
                    return body
            message = self._next()
            assert message['type'] == 'event', message
            self.events.append(message)

    # --- What editors do ---

    def launch(self, program: str, **arguments: Any) -> Fields:
        """Opens a pickle, and answers where it has stopped first."""
        self.ask('initialize', adapterID='pickle', clientID='test', linesStartAt1=True, columnsStartAt1=True)
        self.ask('launch', program=program, **arguments)
        self.event('initialized')
        return self.configured()

    def configured(self) -> Fields:
        self.ask('configurationDone')
        return self.event('stopped')

    def go(self, command: str, **arguments: Any) -> Fields:
        """Moves, and answers where that ended."""
        self.events.clear()
        self.ask(command, threadId=1, **arguments)
        return self.event('stopped')

    def frames(self) -> List[Fields]:
        found = self.ask('stackTrace', threadId=1)
        frames: List[Fields] = found['stackFrames']
        assert len(frames) == found['totalFrames']
        return frames

    def offset(self) -> int:
        """The offset of the opcode where it is."""
        return int(self.frames()[0]['instructionPointerReference'], 16)

    def line(self) -> int:
        line: int = self.frames()[0]['line']
        return line

    def scope(self, name: str, frame: Optional[int] = None) -> Fields:
        frame = self.frames()[0]['id'] if frame is None else frame
        found: Fields
        found, = [scope for scope in self.ask('scopes', frameId=frame)['scopes'] if scope['name'] == name]
        return found

    def variables(self, holder: Fields, **arguments: Any) -> List[Fields]:
        found: List[Fields] = self.ask('variables', variablesReference=holder['variablesReference'], **arguments)['variables']
        return found

    def shown(self, name: str) -> Dict[str, str]:
        """The values in a scope, by their names."""
        return {each['name']: each['value'] for each in self.variables(self.scope(name))}

    def type(self, line: str, context: str = 'repl') -> str:
        """What the console answers."""
        result: str = self.ask('evaluate', expression=line, context=context)['result']
        return result

    def leave(self) -> int:
        """Ends, and answers the status."""
        self.ask('disconnect')
        status = self._wait()
        self.close()
        return status

    def close(self) -> None:
        """Leaves without a word."""
        with contextlib.suppress(OSError):
            self._writer.close()
        self._listener.join(_PATIENCE)
        self._reader.close()
