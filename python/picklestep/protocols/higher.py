"""Opcodes of a protocol as the picklers of a later one write them."""

from __future__ import annotations

from dataclasses import replace
from typing import Callable, Dict, List, Mapping, Optional, Sequence, Tuple

from ..opcodes import of_kinds
from .lower import sees
from .reading import Op, Rewriting, Slot, Taken, obey

__all__ = ['Names', 'raised']

# The names that Python 3 imports, by the number of the object.
Names = Mapping[int, Tuple[bytes, bytes]]

_BATCH = 1000
_BATCHES = {'APPEND': 'APPENDS', 'SETITEM': 'SETITEMS'}
_PLAIN = of_kinds('list', 'dict')


def raised(ops: Sequence[Op], protocol: int, names: Names) -> Tuple[List[Op], List[str]]:
    """The opcodes as a protocol's picklers write them, and lines about what cannot be said so."""
    result = list(ops)
    for since, rules in _STEPS:
        if protocol >= since:
            work = Rewriting(result)
            step = _Step(work, protocol, names)
            obey(step, rules, result)
            if work.problems:
                return result, work.problems
            step.batch()
            result = work.made()
    return result, []


class _Run:
    """Items that are put into one object one by one: where each begins, and the place of the opcode that puts it in."""

    def __init__(self, slot: Slot) -> None:
        self.slot = slot
        self.begins: List[int] = []
        self.places: List[int] = []


class _Step:
    """One step up, for what is to be of a protocol in the end."""

    def __init__(self, work: Rewriting, protocol: int, names: Names) -> None:
        self.work = work
        self._protocol = protocol
        self._names = names
        self._runs: Dict[int, _Run] = {}  # by the place where they end
        self._done: List[_Run] = []

    # --- To 1 ---

    def make_empty(self, place: int, op: Op, taken: Taken) -> None:
        """(The opcode comes right behind the mark, where nothing was done between them.)"""
        assert taken.mark is not None
        if not taken.items and place == taken.mark.begin + 1:
            self.work.put(taken.mark.begin)
            self.work.put(place, replace(op, name=f'EMPTY_{op.name}'))

    def run_on(self, place: int, op: Op, taken: Taken) -> None:
        """One item more for what was changed right before, or the first one."""
        begin = taken.named[1].begin
        run = self._runs.pop(begin - 1, None)
        if run is None or run.slot is not taken.named[0] or self.work.ops[run.places[0]].name != op.name:
            run = _Run(taken.named[0])
            self._done.append(run)
        run.begins.append(begin)
        run.places.append(place)
        self._runs[place] = run

    def batch(self) -> None:
        """Puts items in at once that were put in one by one."""
        for run in self._done:
            size, places = len(run.places), run.places
            if size == 1 or sees(self.work.ops, run.slot, run.begins[0], places[-1]):
                continue
            name = _BATCHES[self.work.ops[places[0]].name]
            is_plain = self.work.ops[run.slot.places[0]].name in _PLAIN
            for at in range(0, size, _BATCH):
                end = min(size, at + _BATCH)
                if end - at == 1 and not is_plain:  # (so do picklers)
                    continue
                self.work.put_before(run.begins[at], Op('MARK'))
                for place in places[at:end]:
                    self.work.put(place)
                self.work.put(places[end - 1], Op(name))

    def persistent(self, place: int, op: Op, taken: Taken) -> None:
        assert isinstance(op.value, bytes)
        if op.value.isascii():
            self.work.put(place, Op('BINUNICODE', op.value.decode('ascii')), replace(op, name='BINPERSID', value=None))

    # --- To 2 ---

    def make_tuple(self, place: int, op: Op, taken: Taken) -> None:
        assert taken.mark is not None
        count = len(taken.items)
        if 0 < count < 4 and taken.items[0].begin == taken.mark.begin + 1:
            self.work.put(taken.mark.begin)
            self.work.put(place, replace(op, name=f'TUPLE{count}'))

    # --- To 3 ---

    def rename(self, place: int, op: Op, taken: Taken) -> None:
        """Names of Python 2 become those that Python 3 imports for them: from protocol 3 on it does not translate them."""
        if op.stands is not None and op.protocol < 3:
            self.work.put(place, replace(op, value=self._names.get(op.stands, op.value)))

    # --- To 4 ---

    def check_dots(self, place: int, op: Op, taken: Taken) -> bool:
        """Says where a name would be taken apart."""
        assert isinstance(op.value, tuple)
        is_other = op.stands is not None and op.protocol < 4 and b'.' in op.value[1]  # type: ignore[operator]
        if is_other:
            self.work.refuse(place, 'protocol 4 would take a name apart that has a dot')
        return is_other

    def check_inst(self, place: int, op: Op, taken: Taken) -> None:
        self.check_dots(place, op, taken)

    def make_stack_global(self, place: int, op: Op, taken: Taken) -> None:
        assert isinstance(op.value, tuple)
        if self.check_dots(place, op, taken):
            return
        texts = [_text(each) for each in op.value]  # type: ignore[arg-type]
        if None not in texts:
            self.work.put(place, *(Op('BINUNICODE', text, None, op.offset, shared=True) for text in texts), replace(op, name='STACK_GLOBAL', value=None))


def _text(name: bytes) -> Optional[str]:
    try:
        return name.decode('utf-8')
    except UnicodeDecodeError:
        return None


_Rule = Callable[[_Step, int, Op, Taken], object]
_STEPS: Sequence[Tuple[int, Dict[str, _Rule]]] = (
    (1, {'LIST': _Step.make_empty, 'DICT': _Step.make_empty, 'TUPLE': _Step.make_empty, 'APPEND': _Step.run_on, 'SETITEM': _Step.run_on,
         'PERSID': _Step.persistent}),
    (2, {'TUPLE': _Step.make_tuple}),
    (3, {'GLOBAL': _Step.rename, 'INST': _Step.rename}),
    (4, {'GLOBAL': _Step.make_stack_global, 'INST': _Step.check_inst}))
