"""What an editor shows of the pickle where it is: stack, memo, marks, result, what is imported and called, and the opcodes."""

from __future__ import annotations

from itertools import islice
from typing import Callable, Dict, Iterator, List, NamedTuple, Optional, Tuple, Union

from ..edits import EditError, of_value, of_words
from ..records import Ref
from ..session_records import Mark
from .arguments import Arguments, RequestError
from .target import Target
from .wire import Fields

__all__ = ['Variables']

# So many are shown where the editor does not say how many it wants, and from so many on it is told to ask for them by their places.
_MOST = 1000
_PAGED = 100


class _Holder(NamedTuple):
    """What holds variables: a scope of a frame, or an object."""

    what: str
    number: int = 0


class _Row(NamedTuple):
    """A variable: its name, its value, and what can be done with it. `place` is that of the opcode that an edit of it edits."""

    name: str
    value: str
    kind: str = ''
    holder: Optional[_Holder] = None
    object: Optional[int] = None
    key: Optional[str] = None
    place: Optional[int] = None


class Variables:
    """The scopes and what is in them, each read when it is asked for. References are good until the pickle moves or is edited."""

    def __init__(self, target: Target) -> None:
        self._target = target
        self._edition = target.edition
        self._holders: List[_Holder] = []
        self._rows: Dict[Tuple[int, str], _Row] = {}  # what was shown, by its reference and its name
        self._ways: Dict[str, Tuple[str, Callable[[int], int], Callable[[int, int, int], Iterator[_Row]]]] = {
            'stack': ('Stack', self._stack_count, self._stack_rows), 'memo': ('Memo', self._memo_count, self._memo_rows),
            'marks': ('Marks', self._marks_count, self._marks_rows), 'result': ('Result', self._result_count, self._result_rows),
            'reaches': ('Imports and calls', self._reaches_count, self._reaches_rows),
            'opcodes': ('Opcodes', self._opcodes_count, self._opcodes_rows),
            'object': ('', self._object_count, self._object_rows)}
        self.requests: Dict[str, Callable[[Arguments], Fields]] = {
            'scopes': self._scopes, 'variables': self._variables, 'setVariable': self._set_variable, 'dataBreakpointInfo': self._data_info}

    def forget(self) -> None:
        """The references are no good any more."""
        self._holders.clear()
        self._rows.clear()

    def _renew(self) -> None:
        if self._edition != self._target.edition:
            self.forget()
            self._edition = self._target.edition

    def _reference(self, holder: _Holder) -> int:
        self._renew()
        self._holders.append(holder)
        return len(self._holders)

    def _holder(self, arguments: Arguments) -> _Holder:
        self._renew()
        reference = arguments.number('variablesReference')
        if not 0 < reference <= len(self._holders):
            raise RequestError(f'nothing has the reference {reference} here')
        return self._holders[reference - 1]

    # --- Requests ---

    def _scopes(self, arguments: Arguments) -> Fields:
        frame = arguments.number('frameId')
        marks = self._marks_count(0)
        if not 1 <= frame <= marks + 1:
            raise RequestError(f'there is no frame {frame}')
        return {'scopes': [self._scope(_Holder(what, frame)) for what in self._ways if what != 'object']}

    def _scope(self, holder: _Holder) -> Fields:
        name, counted, _ = self._ways[holder.what]
        return {'name': name, 'variablesReference': self._reference(holder), 'indexedVariables': counted(holder.number),
                'expensive': holder.what in ('reaches', 'opcodes'), **({'presentationHint': 'locals'} if holder.what == 'stack' else {})}

    def _variables(self, arguments: Arguments) -> Fields:
        holder, reference = self._holder(arguments), arguments.number('variablesReference')
        start, count = max(0, arguments.number('start', 0)), arguments.number('count', 0)
        if arguments.text('filter', 'indexed') != 'indexed':
            return {'variables': []}
        _, counted, rows = self._ways[holder.what]
        self._target.here()
        stop = min(counted(holder.number), start + (count if count > 0 else _MOST))
        shown = []
        for row in rows(holder.number, start, stop):
            self._rows[reference, row.name] = row
            shown.append(self.shown(row))
        return {'variables': shown}

    def shown(self, row: _Row) -> Fields:
        """A variable as the editor gets it."""
        count = self._ways[row.holder.what][1](row.holder.number) if row.holder is not None else 0
        fields: Fields = {'name': row.name, 'value': row.value, 'variablesReference': 0}
        if row.kind:
            fields['type'] = row.kind
        if row.holder is not None and count:
            fields['variablesReference'] = self._reference(row.holder)
            if count > _PAGED:
                fields['indexedVariables'] = count
        if row.object is not None:
            fields['evaluateName'] = f'#{row.object}'
        if row.place is not None:
            fields['memoryReference'] = self._target.address(row.place)
        if row.place is None or row.place < self._target.pickle.place:
            fields['presentationHint'] = {'attributes': ['readOnly']}
        return fields

    def _set_variable(self, arguments: Arguments) -> Fields:
        self._holder(arguments)
        row = self._rows.get((arguments.number('variablesReference'), arguments.text('name')))
        if row is None or row.place is None:
            raise RequestError('this is no opcode, and no object that an opcode makes')
        now = self._target.pickle.lines.name(row.place)
        try:
            edit = of_value(self._target.pickle, of_words('replace', row.place, arguments.text('value')), now)
        except EditError as error:
            raise RequestError(str(error)) from error
        self._target.edit_ahead([edit])
        return {'value': self.opcode(row.place), 'variablesReference': 0}

    def _data_info(self, arguments: Arguments) -> Fields:
        self._renew()
        row = self._rows.get((arguments.number('variablesReference', 0), arguments.text('name')))
        if row is not None and row.key is not None:
            return {'dataId': f'store {row.key}', 'description': f'key {row.key} of the memo is set', 'accessTypes': ['write']}
        made = self._target.pickle.final_object(row.object) if row is not None and row.object is not None else None
        if row is None or row.object is None or made is not None and not made.changes:
            return {'dataId': None, 'description': 'nothing changes this'}
        return {'dataId': f'change {row.object}', 'description': f'#{row.object} changes', 'accessTypes': ['write']}

    # --- What there is ---

    def of_object(self, name: str, number: int, key: Optional[str] = None) -> _Row:
        """An object, as a variable."""
        pickle = self._target.pickle
        return _Row(name, pickle.described(number), pickle.kind(number), _Holder('object', number), number, key, pickle.maker(number))

    def opcode(self, place: int) -> str:
        """An opcode and its argument."""
        line = self._target.pickle.lines.at(place)
        return f'{line.name} {line.argument}'.rstrip()

    def _entries(self, frame: int) -> Tuple[Union[Ref, Mark], ...]:
        """The stack of a frame, from the bottom: what is below the mark of the next one inside it."""
        stack = self._target.pickle.session.stack()
        marks = [at for at, entry in enumerate(stack) if isinstance(entry, Mark)]
        return stack[:marks[frame - 1]] if 0 < frame <= len(marks) else stack

    def _of_entry(self, name: str, entry: Union[Ref, Mark]) -> _Row:
        return _Row(name, f'mark of {entry.place}', 'mark') if isinstance(entry, Mark) else self.of_object(name, entry.number)

    def _stack_count(self, frame: int) -> int:
        return len(self._entries(frame))

    def _stack_rows(self, frame: int, start: int, stop: int) -> Iterator[_Row]:
        """The top comes first. A name is the place in the stack, from the bottom."""
        stack = self._entries(frame)
        return (self._of_entry(str(len(stack) - 1 - at), stack[len(stack) - 1 - at]) for at in range(start, stop))

    def _memo_count(self, frame: int) -> int:
        return self._target.pickle.session.where().in_memo

    def _memo_rows(self, frame: int, start: int, stop: int) -> Iterator[_Row]:
        entries = islice(self._target.pickle.session.memo().items(), start, stop)
        return (self.of_object(str(key), number, str(key)) for key, number in entries)

    def _marks_count(self, frame: int) -> int:
        return self._target.pickle.session.where().marks

    def _marks_rows(self, frame: int, start: int, stop: int) -> Iterator[_Row]:
        marks = self._target.pickle.session._stack().marks()
        return (_Row(str(at), f'set by opcode {marks[at]}', 'mark', place=marks[at]) for at in range(start, stop))

    def _result_count(self, frame: int) -> int:
        return len(self._target.pickle.session.where().results)

    def _result_rows(self, frame: int, start: int, stop: int) -> Iterator[_Row]:
        results = self._target.pickle.session.where().results
        return (self.of_object('result' if len(results) == 1 else f'result {at}', results[at]) for at in range(start, stop))

    def _reaches_count(self, frame: int) -> int:
        return len(self._target.pickle.reaches.offsets)

    def _reaches_rows(self, frame: int, start: int, stop: int) -> Iterator[_Row]:
        pickle = self._target.pickle
        for at in range(start, stop):
            place = pickle.lines.place_of(pickle.reaches.offsets[at])
            yield _Row(f'{at}', f'{pickle.reaches.offsets[at]}: {pickle.reaches.text(at)}', pickle.reaches.kinds[at], place=place)

    def _opcodes_count(self, frame: int) -> int:
        return len(self._target.pickle.lines)

    def _opcodes_rows(self, frame: int, start: int, stop: int) -> Iterator[_Row]:
        return (_Row(str(place), self.opcode(place), 'opcode', place=place) for place in range(start, stop))

    def _object_count(self, number: int) -> int:
        return self._target.pickle.held_count(number)

    def _object_rows(self, number: int, start: int, stop: int) -> Iterator[_Row]:
        for at, (key, how, held) in enumerate(islice(self._target.pickle.held(number), start, stop), start):
            name = self._target.pickle.described(key, 0) if key is not None else f'{how} {at}'.strip()
            yield self.of_object(name, held)
