"""The breakpoints of an editor. Each is one or more breaks of the shell, which stop before the opcode."""

from __future__ import annotations

from dataclasses import replace
from typing import Any, Callable, Dict, List, Optional, Sequence, Tuple

from ..shell.breaks import BREAKS, Break
from ..shell.shell import WordError
from .arguments import Arguments, RequestError
from .target import Target
from .wire import Fields

__all__ = ['FILTERS', 'Breakpoints']

# What stops at each import or call, and the words for it.
FILTERS = {'import': 'Each import', 'call': 'Each call'}
_ALWAYS = '*'


class Breakpoints:
    """What was set, by the request that set it: another such request sets all of that kind anew."""

    def __init__(self, target: Target) -> None:
        self._target = target
        self._set: Dict[str, List[Tuple[int, ...]]] = {}  # the breaks of each breakpoint
        self._told: Dict[int, Break] = {}  # the breaks as the editor knows them
        self.requests: Dict[str, Callable[[Arguments], Fields]] = {
            'setBreakpoints': self._lines, 'setFunctionBreakpoints': self._functions, 'setInstructionBreakpoints': self._instructions,
            'setDataBreakpoints': self._data, 'setExceptionBreakpoints': self._filters}

    def reason(self, hit: Sequence[Break]) -> str:
        """Why it has stopped, where it has at these breaks."""
        for reason in ('function', 'data', 'instruction'):
            known = {number for group in self._set.get(reason, []) for number in group}
            if known & {point.number for point in hit}:
                return f'{reason} breakpoint'
        return 'breakpoint'

    def numbers(self, hit: Sequence[Break]) -> List[int]:
        """The breakpoints at these breaks. (A break that was typed is one itself.)"""
        firsts = self._firsts()
        return sorted({firsts.get(point.number, point.number) for point in hit})

    def _firsts(self) -> Dict[int, int]:
        return {number: group[0] for groups in self._set.values() for group in groups for number in group}

    def tell(self) -> None:
        """Tells which breaks are new, gone, or elsewhere since they were told of last: by a line that was typed, or by an edit."""
        now, firsts = self._known(), self._firsts()
        for number in sorted({*now, *self._told}):
            if firsts.get(number, number) == number and now.get(number) != self._told.get(number):
                reason = 'removed' if number not in now else 'changed' if number in self._told else 'new'
                self._target.send('breakpoint', {'reason': reason, 'breakpoint': self._shown(number, now.get(number))})
        self._told = now

    def _known(self) -> Dict[int, Break]:
        return {point.number: replace(point) for point in self._target.shell.breaks}

    def _shown(self, number: int, point: Optional[Break]) -> Fields:
        """A breakpoint as it is told of."""
        if point is None or not point.is_on:
            return {'id': number, 'verified': False, 'message': 'it is off' if point is not None else 'it is gone'}
        return {'id': number, 'verified': True, **(self._place(int(point.text)) if point.what == 'at' else {'message': str(point)})}

    def _place(self, place: int) -> Fields:
        return {**self._target.shown_at(place), 'instructionReference': self._target.address(place)}

    def _anew(self, kind: str, wanted: Sequence[Callable[[], Tuple[List[Break], Fields]]]) -> Fields:
        """Sets breakpoints in the place of those of a kind. Each of `wanted` sets one, or raises RequestError or WordError."""
        for group in self._set.pop(kind, []):
            for number in group:
                self._target.shell.clear_break(number)
        groups, answers = [], []
        for each in wanted:
            try:
                points, fields = each()
            except (RequestError, WordError) as error:
                answers.append({'verified': False, 'message': str(error)})
                continue
            groups.append(tuple(point.number for point in points))
            answers.append({'id': points[0].number, 'verified': True, **fields})
        self._set[kind] = groups
        self._told = self._known()
        return {'breakpoints': answers}

    def _at(self, place: int, each: Arguments) -> Tuple[List[Break], Fields]:
        return [self._target.shell.set_break('at', str(place), each.text('condition', ''))], self._place(place)

    def _lines(self, arguments: Arguments) -> Fields:
        given = arguments.inner('source')

        def of_line(each: Arguments) -> Tuple[List[Break], Fields]:
            line = each.number('line')
            found, fields = self._at(self._target.place_of_line(given, line), each)
            return found, {**fields, 'line': line} if not is_python else {'line': line, 'instructionReference': fields['instructionReference']}

        try:
            is_python = self._target.is_python(given)
        except RequestError as error:
            return {'breakpoints': [{'verified': False, 'message': str(error)} for _ in arguments.each('breakpoints')]}
        return self._anew('python' if is_python else 'lines', [_bound(of_line, each) for each in arguments.each('breakpoints')])

    def _functions(self, arguments: Arguments) -> Fields:
        def of_name(each: Arguments) -> Tuple[List[Break], Fields]:
            kind, _, rest = each.text('name').strip().partition(' ')
            kinds, pattern = ([kind], rest.strip()) if rest and kind in FILTERS else (list(FILTERS), each.text('name').strip())
            if not pattern:
                raise RequestError('a name or a pattern is wanted, as os.*')
            if not any(next(BREAKS[kind](self._target.pickle, pattern, 0, 1), None) is not None for kind in kinds):
                raise RequestError(f'nothing that the pickle imports or calls is {pattern[:60]!r}')
            return [self._target.shell.set_break(kind, pattern, each.text('condition', '')) for kind in kinds], {}

        return self._anew('function', [_bound(of_name, each) for each in arguments.each('breakpoints')])

    def _instructions(self, arguments: Arguments) -> Fields:
        def of_address(each: Arguments) -> Tuple[List[Break], Fields]:
            offset = self._target.offset(each.text('instructionReference')) + each.number('offset', 0)
            return self._at(self._target.place_at(offset), each)

        return self._anew('instruction', [_bound(of_address, each) for each in arguments.each('breakpoints')])

    def _data(self, arguments: Arguments) -> Fields:
        def of_datum(each: Arguments) -> Tuple[List[Break], Fields]:
            what, _, number = each.text('dataId').partition(' ')
            if what not in ('change', 'store'):
                raise RequestError('this is no dataId of dataBreakpointInfo')
            return [self._target.shell.set_break(what, number, each.text('condition', ''))], {}

        return self._anew('data', [_bound(of_datum, each) for each in arguments.each('breakpoints')])

    def _filters(self, arguments: Arguments) -> Fields:
        def of_filter(name: str) -> Tuple[List[Break], Fields]:
            if name not in FILTERS:
                raise RequestError(f'there is no filter {name!r:.40}')
            return [self._target.shell.set_break(name, _ALWAYS)], {}

        return self._anew('filter', [_bound(of_filter, name) for name in arguments.texts('filters')])


def _bound(work: Callable[[Any], Tuple[List[Break], Fields]], given: object) -> Callable[[], Tuple[List[Break], Fields]]:
    """The work on what is given."""
    return lambda: work(given)
