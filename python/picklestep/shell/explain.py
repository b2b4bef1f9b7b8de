"""What an opcode does, takes from the stack and makes: by the words of the table, and by what its step does."""

from __future__ import annotations

from typing import List, Optional, Sequence

from ..opcodes import BY_NAME
from ..plain import plainly
from ..session_records import Step
from .opened import Opened

__all__ = ['explained']

_MOST_TAKEN = 4


def explained(pickle: Opened, place: int, stack: Optional[str]) -> List[str]:
    """The lines about the opcode at a place. The top of the stack is given where the cursor is there."""
    line = pickle.lines.at(place)
    rows = [f'{line.name}: {BY_NAME[line.name].sentence}', *(f'here: {reached}' for reached in pickle.calls_at(place, line))]
    if stack is not None:
        rows.append(f'the stack before it: {stack}')
    number = pickle.makes(place)
    with pickle.before(place) as is_there:
        if number is not None:
            made = pickle.final_object(number)
            takes = _numbered(pickle, made.parts if made is not None else ())
            rows.append(f'it makes #{number}' + (f' of {takes}' if takes else ''))
        elif is_there:
            step, why = pickle.step_ahead()
            rows += [f'it is refused here: {plainly(why)}'] if step is None else _done(pickle, step)
        elif BY_NAME[line.name].takes:
            rows.append(f'it takes {BY_NAME[line.name].takes}')
    return rows


def _done(pickle: Opened, step: Step) -> List[str]:
    """What a step does besides, with the objects as they are before it."""
    marks = [f'the mark of {step.cut_mark}'] if step.cut_mark is not None else []
    objects = [_numbered(pickle, step.took)] if step.took else []
    rows = [f'it takes {", ".join(marks + objects)}'] if marks or objects else []
    if step.changed is not None:
        rows.append(f'it changes {_numbered(pickle, [step.changed.number])}')
    if step.stored is not None:
        rows.append(f'it stores {_numbered(pickle, [step.stored.number])} under {step.stored.key}')
    if step.pushed is not None:
        rows.append(f'it puts {_numbered(pickle, [step.pushed])} on the stack')
    return rows


def _numbered(pickle: Opened, objects: Sequence[int]) -> str:
    """Objects by their numbers, the first of them."""
    more = [f'.. {len(objects) - _MOST_TAKEN} more'] if len(objects) > _MOST_TAKEN else []
    return ', '.join([f'#{each} {pickle.described(each, 0)}' for each in objects[:_MOST_TAKEN]] + more)
