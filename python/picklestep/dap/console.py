"""The shell's words in an editor's console, and what is shown where the editor points at."""

from __future__ import annotations

from typing import Callable, Dict, Optional

from ..opcodes import BY_NAME
from ..patterns import pattern
from ..records import Ref
from ..shell.complete import completions
from ..shell.expressions import Expression, ExpressionError
from ..shell.words import WORDS, understood
from .arguments import Arguments, RequestError
from .target import Target
from .variables import Variables
from .wire import Fields

__all__ = ['Console']

_OBJECT = pattern(r'#([0-9]+)')
# What Kate calls an adapter. Its command line sends what is behind `print` as a watch, and it sends no other watches by itself. (Another editor does, at
# each stop: there a watch never edits or saves.)
_KATE = 'qdap'
# What is typed there before a line of the console. (Kate's *Print Value* sends what is selected in the listing as a watch, too. That is text of whoever
# made the pickle, and may be `save` and the name of a file.)
_TYPED = '!'


def _is_look(line: str) -> bool:
    """Whether a line shows something, and changes nothing."""
    try:
        name, _ = understood(line)
    except ValueError:
        return False
    return name in WORDS and WORDS[name].group == 'look'


def _expression(line: str) -> Optional[Expression]:
    """The expression that a line is, if it is one."""
    try:
        return Expression(line)
    except ExpressionError:
        return None


class Console:
    """Does what is typed. `moved` is told where the pickle was before a line that let it go elsewhere. `adapter` is what the editor calls this."""

    def __init__(self, target: Target, variables: Variables, moved: Callable[[int], None], adapter: str) -> None:
        self._target = target
        self._variables = variables
        self._moved = moved
        self._is_kate = adapter == _KATE
        self.requests: Dict[str, Callable[[Arguments], Fields]] = {'evaluate': self._evaluate, 'completions': self._completions}

    def _evaluate(self, arguments: Arguments) -> Fields:
        line, context = arguments.text('expression').strip(), arguments.text('context', 'repl')
        if self._is_kate and context == 'watch' and line.startswith(_TYPED):
            if self._target.shows(line):
                raise RequestError('this line stands in the pickle, so it is not done: write it with another number of blanks')
            line, context = line[len(_TYPED):].strip(), 'repl'
        found = _OBJECT.fullmatch(line)
        if found is not None:
            return self._object(int(found[1]))
        if context == 'hover' and line.upper() in BY_NAME:
            return {'result': BY_NAME[line.upper()].sentence, 'variablesReference': 0}
        if context != 'repl':
            expression = _expression(line)
            if expression is not None:
                return self._value(expression)
            if not _is_look(line):
                others = f'; {_TYPED} before the line lets it do others' if self._is_kate else ''
                raise RequestError(f'outside of the console only a value (#3, top) or a word that shows something is evaluated{others}')
        if '\n' in line:
            raise RequestError('one line at a time is done')
        return {'result': self._obey(line), 'variablesReference': 0}

    def _value(self, expression: Expression) -> Fields:
        self._target.here()
        try:
            value = expression.value(self._target.pickle)
        except ExpressionError as error:
            raise RequestError(str(error)) from error
        if isinstance(value, Ref):
            return self._object(value.number)
        return {'result': expression.shown(self._target.pickle), 'variablesReference': 0}

    def _object(self, number: int) -> Fields:
        self._target.here()
        if not 0 <= number < self._target.pickle.made_before(self._target.pickle.place)[0]:
            raise RequestError(f'object #{number} is not made yet')
        shown = self._variables.shown(self._variables.of_object(f'#{number}', number))
        return {'result': shown.pop('value'), **{name: value for name, value in shown.items() if name not in ('name', 'evaluateName')}}

    def _obey(self, line: str) -> str:
        """What the shell answers to a line. The editor is told of what changes by it."""
        shell, before = self._target.shell, self._target.here().place
        known = self._target.pickle.edits_made, self._target.pickle.is_part
        try:
            return shell.obey(line)
        finally:
            if (self._target.pickle.edits_made, self._target.pickle.is_part) != known:
                self._target.edited()
            if self._target.here().place != before:
                self._moved(before)
            if shell.is_over:
                self._target.send('terminated', {})

    def _completions(self, arguments: Arguments) -> Fields:
        text = arguments.text('text')
        column = min(max(0, arguments.number('column') - self._target.first_column), len(text))
        begun = text[:column].rpartition(' ')[2]
        found = completions(self._target.pickle, text[:column])
        return {'targets': [{'label': each, 'start': column - len(begun) + self._target.first_column, 'length': len(begun)} for each in found]}
