"""Requests of an editor and their answers, from the first message to the last."""

from __future__ import annotations

import json
import threading
from functools import partial
from typing import Any, Callable, Dict, Optional

from ..addresses import given, said_of
from ..edits import EditError
from ..errors import PicklestepError, Refused, reason
from ..lines import silent
from ..plain import plainly
from ..shell.shell import Shell, WordError
from .arguments import Arguments, RequestError
from .breakpoints import FILTERS, Breakpoints
from .console import Console
from .memory import Memory
from .moves import MOVES, Moves
from .progress import Progress
from .target import Target
from .variables import Variables
from .wire import Fields

__all__ = ['Adapter']

_MOST_COMMAND = 60  # (letters of a command that are shown)

# What there is, and nothing else.
_CAPABILITIES: Fields = {
    **dict.fromkeys(
        ('supportsConfigurationDoneRequest', 'supportsFunctionBreakpoints', 'supportsInstructionBreakpoints', 'supportsDataBreakpoints',
         'supportsConditionalBreakpoints', 'supportsEvaluateForHovers', 'supportsStepBack', 'supportsSteppingGranularity', 'supportsSetVariable',
         'supportsGotoTargetsRequest', 'supportsCompletionsRequest', 'supportsDelayedStackTraceLoading', 'supportsLoadedSourcesRequest',
         'supportsExceptionInfoRequest', 'supportsReadMemoryRequest', 'supportsWriteMemoryRequest', 'supportsDisassembleRequest',
         'supportsTerminateRequest'), True),
    'completionTriggerCharacters': [' ', '@'],
    'exceptionBreakpointFilters': [{'filter': name, 'label': label, 'default': False} for name, label in FILTERS.items()]}


class Adapter:
    """Answers messages, one after another. `is_ending` says whether one has come that ends a run of opcodes, `is_over` that the editor has left."""

    def __init__(self, write: Callable[[Fields], None], is_ending: Callable[[], bool] = lambda: False) -> None:
        self._write = write
        self._is_ending = is_ending
        self._sent = 0
        self._sends = threading.Lock()
        self._is_told = False  # whether the editor shows how long something takes
        self._tell: Callable[[str], None] = silent  # what is told how far a request is
        self._after: Optional[Callable[[], None]] = None  # what is done once the request is answered
        self._first_line, self._first_column = 1, 1
        self._adapter = ''  # what the editor calls this adapter
        self._target: Optional[Target] = None
        self._breakpoints: Optional[Breakpoints] = None
        self._moves: Optional[Moves] = None
        self._variables: Optional[Variables] = None
        self._stops_first = True
        self._requests: Dict[str, Callable[[Arguments], Fields]] = {
            'initialize': self._initialize, 'launch': self._launch, 'configurationDone': self._configured, 'terminate': self._terminate,
            'disconnect': self._disconnect}
        self.is_over = False

    def close(self) -> None:
        """Ends the session of the pickle."""
        if self._target is not None:
            self._target.close()

    # --- Messages ---

    def _send(self, fields: Fields) -> None:
        with self._sends:
            self._sent += 1
            self._write({'seq': self._sent, **fields})

    def _event(self, name: str, body: Fields) -> None:
        self._send({'type': 'event', 'event': name, 'body': body})

    def _waiting(self) -> Progress:
        return Progress(self._event, self._is_told)

    def complain(self, text: str, seq: int = 0, command: str = '') -> None:
        """Answers a message that says nothing, or a request that cannot be done."""
        error = {'id': 1, 'format': '{text}', 'variables': {'text': text}, 'showUser': True}
        self._send({'type': 'response', 'request_seq': seq, 'success': False, 'command': command, 'message': text, 'body': {'error': error}})

    def take(self, content: bytes) -> None:
        """Does what a message says."""
        try:
            message = json.loads(content)
        except (ValueError, RecursionError) as error:
            self.complain(f'this is no JSON: {error}')
            return
        if not isinstance(message, dict):
            self.complain('a message is an object of JSON')
            return
        seq, command = message.get('seq'), message.get('command')
        seq = seq if isinstance(seq, int) and not isinstance(seq, bool) else 0
        if message.get('type') != 'request' or not isinstance(command, str):
            self.complain('this message is no request', seq)
            return
        self._answer(seq, command, message.get('arguments'))

    def _answer(self, seq: int, command: str, arguments: Any) -> None:
        self._after = None
        try:
            if not isinstance(arguments, (dict, type(None))):
                raise RequestError('arguments have to be an object')
            with self._waiting() as waiting:
                self._tell = waiting.progress
                if self._target is not None:
                    self._target.shell.pickle.tell = waiting.progress
                body = self._do(command, Arguments(arguments or {}))
        except (RequestError, WordError, EditError) as error:
            self.complain(str(error), seq, command[:_MOST_COMMAND])
            return
        except Refused as error:
            self.complain(f'refused: {plainly(error.text, error.code, error.inner)}', seq, command)
            return
        except (OSError, PicklestepError) as error:
            self.complain(reason(error), seq, command)
            return
        except Exception as error:  # (edits are not lost for what went wrong in one request)
            self.complain(f'{command[:_MOST_COMMAND]} failed: {type(error).__name__}: {error}', seq, command[:_MOST_COMMAND])
            return
        if self._breakpoints is not None:
            self._breakpoints.tell()
        self._send({'type': 'response', 'request_seq': seq, 'success': True, 'command': command, 'body': body})
        if self._after is not None:
            self._after()

    def _do(self, command: str, arguments: Arguments) -> Fields:
        if command in MOVES and self._moves is not None and self._variables is not None:
            arguments.number('threadId')
            self._variables.forget()
            self._after = partial(self._moves.move, command, arguments)
            return {'allThreadsContinued': True} if command == 'continue' else {}
        if command not in self._requests:
            raise RequestError('nothing is launched' if command in (*MOVES, 'pause') else f'there is no request {command[:_MOST_COMMAND]!r}')
        body = self._requests[command](arguments)
        if command == 'pause' and self._moves is not None:
            self._after = self._moves.paused()
        return body

    # --- From the first to the last ---

    def _initialize(self, arguments: Arguments) -> Fields:
        self._first_line = int(arguments.flag('linesStartAt1', True))
        self._first_column = int(arguments.flag('columnsStartAt1', True))
        self._is_told = arguments.flag('supportsProgressReporting')
        self._adapter = arguments.text('adapterID', '')
        return _CAPABILITIES

    def _launch(self, arguments: Arguments) -> Fields:
        if self._target is not None:
            raise RequestError('a pickle is open')
        program = arguments.text('program')
        many, unframed, is_in_files = arguments.flag('many'), arguments.flag('unframed'), arguments.flag('files')
        self._stops_first = arguments.flag('stopOnEntry', True)
        pickle, found = given(program)
        path, container = (program, '') if found is None else ('', found.path)
        shell = Shell(pickle, path, many, unframed=unframed, container=container, progress=self._tell, whole=arguments.flag('whole'))
        target = Target(shell, program.rpartition('/')[2], self._event, self._first_line, self._first_column)
        breakpoints, variables = Breakpoints(target), Variables(target)
        moves = Moves(target, breakpoints, self._is_ending, self._waiting)
        console = Console(target, variables, self._moved, self._adapter)
        self._target, self._breakpoints, self._variables, self._moves = target, breakpoints, variables, moves
        for requests in (breakpoints.requests, variables.requests, moves.requests, console.requests, Memory(target).requests):
            self._requests.update(requests)
        if is_in_files:
            target.write_files()
        said = said_of(program, found)

        def launched() -> None:
            target.say('\n'.join([*said, *target.shell.hints(), *([] if target.pickle.is_part else target.pickle.closing)]))
            self._event('initialized', {})

        self._after = launched
        return {}

    def _moved(self, begin: int) -> None:
        """Tells, once the request is answered, that the pickle moved from a place."""
        moves, variables = self._moves, self._variables
        assert moves is not None and variables is not None
        variables.forget()
        self._after = partial(moves.stopped, 'step', None, begin)

    def _configured(self, arguments: Arguments) -> Fields:
        moves = self._moves
        if moves is None:
            raise RequestError('nothing is launched')
        self._after = partial(moves.stopped, 'entry') if self._stops_first else partial(moves.move, 'continue', Arguments({}))
        return {}

    def _terminate(self, arguments: Arguments) -> Fields:
        self._after = partial(self._event, 'terminated', {})
        return {}

    def _disconnect(self, arguments: Arguments) -> Fields:
        if self._target is not None and self._target.shell.is_unsaved:
            self._target.say('the edits were not saved', 'important')
        self.is_over = True
        return {}
