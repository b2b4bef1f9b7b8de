"""What a function of the library is asked: the words of the program as its name, its options and its inputs."""

from __future__ import annotations

import re
import struct
from functools import lru_cache
from typing import List, NamedTuple, Optional, Sequence, Tuple

from .patterns import pattern

__all__ = ['FUNCTIONS', 'Question', 'granted', 'question', 'question_of_gate', 'question_of_members', 'question_of_reach', 'question_of_same', 'reading']

_TASKS = ('list', 'objects', 'calls')
# How many options and inputs come before the room for the text. (Holes are an input of `calls`.)
FUNCTIONS = {
    'picklestep_form': (0, 1),
    'picklestep_form_json': (0, 1),
    'picklestep_gate': (0, 2),
    'picklestep_gate_json': (0, 2),
    'picklestep_reach': (1, 1),
    'picklestep_reach_json': (1, 1),
    'picklestep_members': (0, 1),
    'picklestep_members_json': (0, 1),
    'picklestep_assemble': (0, 1),
    'picklestep_same': (1, 2),
    'picklestep_same_json': (1, 2),
    **{f'picklestep_{task}_with': (1, 2 if task == 'calls' else 1) for task in _TASKS},
    'picklestep_list_json': (1, 1),
    'picklestep_objects_json': (1, 1),
    'picklestep_calls_json': (1, 2),
}
_MANY, _UNFRAMED = 1, 2
# What a loader was given besides the bytes, for `reach`.
_GRANTED = {'--extensions': 1, '--persistent-ids': 2, '--buffers': 4}
_OPTIONS = {'--many': _MANY, '--unframed': _UNFRAMED, '--first': 4, '--memo': 8, '--full': 16}
_HOLE = pattern(r'(\d+):(\d+)', re.ASCII)
_BYTE, _SIZE_OF_HOLE = 1, 16


class Question(NamedTuple):
    """A function, its options if it takes any, and its inputs: each with the size of what its length counts."""

    function: str
    options: Tuple[int, ...]
    inputs: Tuple[Tuple[bytes, int], ...]


def question(words: Sequence[str], content: bytes) -> Optional[Question]:
    """What is asked of these bytes with words of the program. None where the library has no function for that.

    >>> question(['calls', '--full', '--skip', '3:2'], b'N.').options
    (16,)
    >>> question(['list', '--many', '--json'], b'N.').function
    'picklestep_list_json'
    >>> question(['calls', '--json', '--skip', '3:2'], b'N.').function
    'picklestep_calls_json'
    >>> question(['scan'], b'N.') is None
    True
    """
    asked = _asked_by(tuple(words))
    return None if asked is None else Question(asked.function, asked.options, (*asked.inputs, (content, _BYTE)))


@lru_cache(maxsize=64)
def _asked_by(words: Tuple[str, ...]) -> Optional[Question]:
    """What words ask, before it is known of what."""
    task, *rest = words
    is_json = '--json' in rest
    if is_json:
        rest.remove('--json')
    if not rest and (task in ('form', 'members') or task == 'assemble' and not is_json):
        return Question(f'picklestep_{task}_json' if is_json else f'picklestep_{task}', (), ())
    if task == 'reach' and len({*rest}) == len(rest) and {*rest} <= {*_GRANTED}:
        return Question('picklestep_reach_json' if is_json else 'picklestep_reach', (granted(rest),), ())
    options = _options(rest)
    if task not in _TASKS or options is None or (options.holes and task != 'calls'):
        return None
    function = f'picklestep_{task}_{"json" if is_json else "with"}'
    holes = ((options.holes, _SIZE_OF_HOLE),) if task == 'calls' else ()
    return Question(function, (options.number,), holes) if function in FUNCTIONS else None


def reading(many: bool, unframed: bool) -> int:
    """How an input is read, as the library takes it.

    >>> reading(many=True, unframed=True)
    3
    """
    return _MANY * many | _UNFRAMED * unframed


def question_of_gate(entries: bytes, content: bytes, is_json: bool = True) -> Question:
    """Whether a list, as the program reads it, allows all that a pickle has, as JSON or as text."""
    return Question('picklestep_gate_json' if is_json else 'picklestep_gate', (), ((entries, _BYTE), (content, _BYTE)))


def question_of_members(content: bytes) -> Question:
    """Which members an archive has, as JSON."""
    return Question('picklestep_members_json', (), ((content, _BYTE),))


def question_of_same(one: bytes, other: bytes, many: bool) -> Question:
    """Whether two pickles, or several in each, make the same objects, as JSON."""
    return Question('picklestep_same_json', (int(many),), ((one, _BYTE), (other, _BYTE)))


def granted(words: Sequence[str]) -> int:
    """What a loader was given besides the bytes, as the library takes it.

    >>> granted([]), granted(['--persistent-ids', '--buffers'])
    (0, 6)
    """
    return sum(_GRANTED[word] for word in words)


def question_of_reach(content: bytes, granted: int) -> Question:
    """Whether a loader of these bytes reaches something, that was given this besides, as JSON."""
    return Question('picklestep_reach_json', (granted,), ((content, _BYTE),))


class _Options(NamedTuple):
    """The sum of the options, and the holes as the library takes them."""

    number: int
    holes: bytes


def _options(words: Sequence[str]) -> Optional[_Options]:
    """What these words ask for, if the library knows them all. (The program says what is wrong with others.)"""
    number, left = 0, iter(words)
    holes: List[int] = []
    for word in left:
        if word == '--skip':
            hole = _HOLE.fullmatch(next(left, ''))
            if hole is None:
                return None
            holes += map(int, hole.groups())
        elif word not in _OPTIONS or (word == '--memo' and next(left, '') != 'kept'):
            return None
        else:
            number |= _OPTIONS[word]
    try:
        return _Options(number, struct.pack(f'<{len(holes)}Q', *holes))
    except struct.error:
        return None
