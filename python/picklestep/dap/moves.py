"""How an editor goes through the pickle: forwards, back, and to places."""

from __future__ import annotations

import contextlib
from functools import partial
from typing import Callable, Dict, Iterator, List, Optional, Sequence

from ..errors import PicklestepError, Refused
from ..plain import plainly
from ..shell.breaks import is_hit
from ..shell.nests import behind_mark, behind_next
from ..shell.opened import REFUSED
from ..shell.shell import WordError
from .arguments import Arguments, RequestError
from .breakpoints import Breakpoints
from .progress import Progress
from .target import Target
from .wire import Fields

__all__ = ['MOVES', 'Moves', 'THREAD']

# The one thread that there is.
THREAD = 1


class _Paused(Exception):
    """The editor does not want that this goes on."""


class Moves:
    """Goes where the editor says, and tells it where that ended. The frames are the open marks, with the pickle below them.

    While it goes on, `is_ending` says whether the editor has sent something that ends this, and what `waiting` makes tells how long it takes.
    """

    def __init__(self, target: Target, breakpoints: Breakpoints, is_ending: Callable[[], bool], waiting: Callable[[], Progress]) -> None:
        self._target = target
        self._breakpoints = breakpoints
        self._is_ending = is_ending
        self._waiting = waiting
        self._paused_from: Optional[int] = None  # where it began to go, where it was paused and the editor does not know that yet
        self._refused: Optional[Refused] = None  # why the opcode is refused at which it has stopped
        self.requests: Dict[str, Callable[[Arguments], Fields]] = {
            'threads': self._threads, 'pause': self._pause, 'stackTrace': self._stack_trace, 'gotoTargets': self._goto_targets, 'exceptionInfo': self._exception_info}

    # --- Going ---

    def move(self, command: str, arguments: Arguments) -> None:
        """Does a request after which the pickle is somewhere else, and tells where."""
        begin = self._target.here().place
        reason = 'step'
        refused: Optional[Refused] = None
        try:
            with self._asking():
                reason, why = MOVES[command](self, arguments)
                # (the shell answers a text: why the opcode there is refused, the session says)
                refused = self._refusal() if why.startswith(REFUSED) else None
        except _Paused:
            self._paused_from = begin
            return
        except Refused as error:
            refused = error if error.refusal else None
        except (RequestError, WordError, PicklestepError) as error:
            self._target.say(str(error), 'stderr')
        self.stopped(reason, refused, begin)

    def _refusal(self) -> Optional[Refused]:
        """Why the opcode is refused that is next, if it is."""
        try:
            self._target.pickle.session.step()
        except Refused as error:
            return error if error.refusal else None
        self._target.pickle.session.back()
        return None

    @contextlib.contextmanager
    def _asking(self) -> Iterator[None]:
        """Within it the shell asks now and then whether it is to go on. Raises _Paused where it is not: the cursor is where it came to."""
        def ask(text: str) -> None:
            if self._is_ending():
                raise _Paused
            waiting.progress(text)

        pickle = self._target.pickle
        with self._waiting() as waiting:
            before, pickle.tell = pickle.tell, ask
            try:
                yield
            finally:
                pickle.tell = before

    def _pause(self, arguments: Arguments) -> Fields:
        """What was going on has ended by now, whichever thread is named: there is one."""
        return {}

    def paused(self) -> Optional[Callable[[], None]]:
        """What tells the editor where a run was paused, if one was that it does not know of."""
        begin, self._paused_from = self._paused_from, None
        return None if begin is None else partial(self.stopped, 'pause', None, begin)

    def stopped(self, reason: str, refused: Optional[Refused] = None, begin: int = -1) -> None:
        """Tells where the pickle is, after it moved from a place, and why the opcode there is refused, if it is."""
        where = self._target.here()
        self._refused = refused
        hit = [point for point in self._target.shell.breaks if where.place != begin and is_hit(self._target.pickle, point, where.place)]
        reason = 'exception' if refused else self._breakpoints.reason(hit) if hit else reason
        ends = {0: 'You are at the start.', where.places: f'You are at {self._target.pickle.end_text}.'}
        said = f'The next opcode is refused: {plainly(refused.refusal, refused.inner)}' if refused else ends.get(where.place, '')
        self._target.send('stopped', {
            'reason': reason, 'threadId': THREAD, 'allThreadsStopped': True, **({'description': said} if said else {}),
            **({'text': refused.refusal} if refused else {}), **({'hitBreakpointIds': self._breakpoints.numbers(hit)} if hit else {})})

    def _next(self, arguments: Arguments) -> 'tuple[str, str]':
        place = self._target.here().place
        is_one = arguments.text('granularity', 'statement') == 'instruction'
        return 'step', self._target.shell.run(place + 1 if is_one else behind_next(self._target.pickle, place))

    def _step_in(self, arguments: Arguments) -> 'tuple[str, str]':
        return 'step', self._target.shell.run(self._target.here().place + 1)

    def _step_out(self, arguments: Arguments) -> 'tuple[str, str]':
        return 'step', self._target.shell.run(behind_mark(self._target.pickle, self._target.here().place))

    def _step_back(self, arguments: Arguments) -> 'tuple[str, str]':
        self._target.pickle.session.goto(max(0, self._target.here().place - 1))
        return 'step', ''

    def _go_on(self, arguments: Arguments) -> 'tuple[str, str]':
        return 'pause', self._target.shell.run()

    def _go_back(self, arguments: Arguments) -> 'tuple[str, str]':
        self._target.shell.run_back()
        return 'pause', ''

    def _goto(self, arguments: Arguments) -> 'tuple[str, str]':
        place, here = arguments.number('targetId'), self._target.here()
        if not 0 <= place <= here.places:
            raise RequestError(f'there is no target {place}')
        if place > here.place:
            return 'goto', self._target.pickle.run_to(place)
        self._target.pickle.session.goto(place)
        return 'goto', ''

    # --- Where it is ---

    def _threads(self, arguments: Arguments) -> Fields:
        return {'threads': [{'id': THREAD, 'name': self._target.name}]}

    def _stack_trace(self, arguments: Arguments) -> Fields:
        frames = self._frames()
        start, levels = max(0, arguments.number('startFrame', 0)), arguments.number('levels', 0)
        return {'stackFrames': frames[start:start + levels if levels > 0 else None], 'totalFrames': len(frames)}

    def _frames(self) -> List[Fields]:
        """The frames, the innermost first. Each is where the next one inside it was set, the innermost where the pickle is."""
        here = self._target.here().place
        marks = self._target.pickle.session._stack().marks()
        return [self._frame(depth, marks, place) for depth, place in enumerate([*marks, here])][::-1]

    def _frame(self, depth: int, marks: Sequence[int], place: int) -> Fields:
        name = f'mark of {marks[depth - 1]}' if depth else self._target.name
        return {'id': depth + 1, 'name': name, **self._target.shown_at(place), 'instructionPointerReference': self._target.address(place)}

    def _goto_targets(self, arguments: Arguments) -> Fields:
        line = arguments.number('line')
        try:
            place = self._target.place_of_line(arguments.inner('source'), line)
        except RequestError:
            return {'targets': []}
        return {'targets': [{'id': place, 'label': f'opcode {place}', 'line': line, 'instructionPointerReference': self._target.address(place)}]}

    def _exception_info(self, arguments: Arguments) -> Fields:
        refused = self._refused
        if refused is None:
            raise RequestError('the next opcode is not refused')
        return {'exceptionId': refused.inner, 'description': plainly(refused.refusal, refused.inner), 'breakMode': 'always'}


MOVES: 'Dict[str, Callable[[Moves, Arguments], tuple[str, str]]]' = {
    'next': Moves._next, 'stepIn': Moves._step_in, 'stepOut': Moves._step_out, 'stepBack': Moves._step_back, 'continue': Moves._go_on,
    'reverseContinue': Moves._go_back, 'goto': Moves._goto}
