"""Kinds of numpy's items: how many bytes one has, and whether it holds objects. As the header of .npy describes them, and as a pickle does.

Sources: numpy/lib/format.py (descr), numpy/core/src/multiarray/descriptor.c (dtype.__reduce__ and __setstate__), numpy 1.7 to 2.x.
"""

from __future__ import annotations

import re
from collections import Counter
from typing import Any, Optional, Tuple

from ...patterns import pattern
from ..blobs import Blob, Budget, LimitMet
from .forms import NotCanonical, count_of_shape, require, wrong
from .pickles import Pickle, read_pickle
from .values import Global, Made, PDict, text_of

__all__ = ['Item', 'item_of_description', 'item_of_pickled', 'oddness']

_WRONG_FLAGS = 'flags of a numpy.dtype that do not fit its fields'
# Bytes of an item, and whether it holds objects.
Item = Tuple[int, bool]

_CODE = pattern(r'([<>|=]?)([biufcSUVmMO])([0-9]*)(\[[0-9]*[A-Za-z]+(?:/[0-9]+)?\])?')
_SIZES = {'b': (1,), 'i': (1, 2, 4, 8), 'u': (1, 2, 4, 8), 'f': (2, 4, 8, 12, 16), 'c': (8, 16, 24, 32), 'm': (8,), 'M': (8,)}
# The flags of numpy.dtype: of texts and of objects.
_HAS_OBJECT = 1
_OF_TEXTS, _OF_OBJECTS = 8, 63
# What an item gets from its parts, and what it may have besides.
_HANDED_ON, _OF_STRUCTURE = 0x1B, 0x10 | 0x80
_ALIGNMENTS = (-1, 1, 2, 4, 8, 16)
_LARGEST_ITEM = 2 ** 31
# The versions of its state, each with its length. Of older ones numpy works the flags out again, and differently.
_STATES = ((3, 8), (4, 9))


def item_of_description(description: Any) -> Item:
    """The items that the header of an .npy file describes, in the form that numpy.save writes."""
    if isinstance(description, str):
        return _word(description)
    if isinstance(description, tuple):  # (a kind, a shape): within fields only
        require(len(description) == 2, 'a description that numpy does not write')
        size, has_objects = item_of_description(description[0])
        return size * count_of_shape(description[1]), has_objects
    require(isinstance(description, list) and bool(description), 'a description that numpy does not write')
    total, has_objects = 0, False
    for field in description:
        require(isinstance(field, tuple) and len(field) in (2, 3) and _is_field_name(field[0]), 'a field that numpy does not write')
        size, has = item_of_description(field[1])
        total += size * (count_of_shape(field[2]) if len(field) == 3 else 1)
        has_objects = has_objects or has
    return total, has_objects


def _is_field_name(name: Any) -> bool:
    """A name, or a title and a name."""
    return isinstance(name, str) or isinstance(name, tuple) and len(name) == 2 and all(isinstance(part, str) for part in name)


def _word(text: str) -> Item:
    """`<f8`, `|S5`, `|O`: what dtype.str gives."""
    found = _CODE.fullmatch(text)
    require(found is not None, f'items {text!a}')
    assert found is not None
    order, kind, digits, unit = found.groups()
    if kind == 'O':
        require(order == '|' and digits in ('', '4', '8') and not unit, f'items {text!a}')
        return 8, True
    require(digits != '' and (digits == '0' or digits[0] != '0') and len(digits) < 10, f'items {text!a}')
    number = int(digits)
    if kind in 'SUV':
        require(not unit, f'items {text!a}')
        return number * (4 if kind == 'U' else 1), False
    require(number in _SIZES[kind] and (not unit or kind in 'mM'), f'items {text!a}')
    require(order in ('<', '>') or number == 1 and order == '|', f'items {text!a}')
    return number, False


def item_of_pickled(value: Any) -> Item:
    """The items that a pickled numpy.dtype describes: a call of numpy.dtype with a code, given the state of dtype.__reduce__."""
    size, flags = _of_pickled(value, 0)
    return size, bool(flags & _HAS_OBJECT)


def _of_pickled(value: Any, depth: int) -> Tuple[int, int]:
    """The size of an item, and those of its flags that an item that has it as a part gets."""
    require(depth < 20, 'items of items of items')
    kind, number, state = _made(value)
    _, _, subarray, names, fields, size, alignment = state[:7]
    require(kind == 'V' or names is None and subarray is None and fields is None, 'parts of items that have none')
    require(type(size) is int and alignment in _ALIGNMENTS, 'items of an odd size')
    if kind not in 'SUV':
        size, flags = (8 if kind == 'O' else number), _OF_OBJECTS if kind == 'O' else 0
        require((kind == 'O' or number in _SIZES[kind]) and state[5] in (-1, size), 'items of an odd size')
    elif subarray is not None:
        flags = _of_subarray(subarray, size, depth)
    elif names is not None:
        flags = _of_fields(names, fields, size, depth)
    else:
        require(fields is None and 0 <= size < _LARGEST_ITEM and number in (None, size // (4 if kind == 'U' else 1)), 'items of an odd size')
        require(kind != 'U' or size % 4 == 0, 'items of an odd size')
        flags = _OF_TEXTS if kind == 'U' else 0
    # (numpy and joblib ask the flags, and not the fields, whether there are objects)
    any_of_these = 0 if (subarray, names) == (None, None) else _OF_STRUCTURE
    if subarray is not None and flags & _HAS_OBJECT:  # (it has all that its base has)
        any_of_these |= _OF_OBJECTS & ~_HANDED_ON
    require(type(state[7]) is int and -128 <= state[7] < 256 and (state[7] & 0xFF ^ flags) & ~any_of_these == 0, _WRONG_FLAGS)
    return size, flags & _HANDED_ON


def _made(value: Any) -> Tuple[str, Optional[int], Tuple[Any, ...]]:
    """The letter of a kind of items, the number behind it, if it has one, and the state that it gets."""
    if not isinstance(value, Made) or value.function != Global('numpy', 'dtype') or not isinstance(value.arguments, tuple):
        wrong('items that are no numpy.dtype')
    code, *others = value.arguments or (None,)
    # (not aligned, and a copy: a state changes nothing of numpy's own one)
    require(others == [False, True] and all(type(other) in (bool, int) for other in others), 'a numpy.dtype with other arguments')
    found = re.fullmatch(r'([biufcSUVmMO])([0-9]{1,9})', text_of(code)) if code not in _RECORDS else None
    require(found is not None or code in _RECORDS, 'items of an unknown kind')
    state = value.state
    if not isinstance(state, tuple) or len(state) not in (8, 9):
        wrong('a numpy.dtype with another state')
    require(type(state[0]) is int and (state[0], len(state)) in _STATES, 'a numpy.dtype whose state has another version')
    return ('V', None, state) if found is None else (found[1], int(found[2]), state)


def _of_subarray(subarray: Any, size: int, depth: int) -> int:
    """The flags of an item that is several of another kind."""
    require(isinstance(subarray, tuple) and len(subarray) == 2, 'items of an odd shape')
    shape = subarray[1] if isinstance(subarray[1], tuple) else (subarray[1],)
    base, flags = _of_pickled(subarray[0], depth + 1)
    require(base * count_of_shape(shape) == size < _LARGEST_ITEM, 'items of an odd size')
    return flags


def _of_fields(names: Any, fields: Any, size: int, depth: int) -> int:
    """The flags of an item with fields. Each one lies within the item, and none over objects of another."""
    if not isinstance(names, tuple) or not isinstance(fields, PDict):
        wrong('fields of an odd form')
    described = fields.by_text()
    titles = {text_of(field[2]) for field in described.values() if isinstance(field, tuple) and len(field) == 3}
    known = set(map(text_of, names))
    require(fields.is_whole and len(fields) == 2 * len(described) and len(known) == len(names), 'fields of an odd form')
    require(known <= set(described) <= known | titles and size < _LARGEST_ITEM, 'fields of an odd form')
    flags, end, end_of_objects = 0, 0, 0
    for at, length, of_field in sorted(_field(described[name], depth) for name in known):
        require(0 <= at and at + length <= size, 'a field that is not within its item')
        require(at >= (end if of_field & _HAS_OBJECT else end_of_objects) or not length, 'a field over the objects of another')
        end = max(end, at + length)
        end_of_objects = end if of_field & _HAS_OBJECT else end_of_objects
        flags |= of_field
    return flags


def _field(described: Any, depth: int) -> Tuple[int, int, int]:
    """Where a field begins, its size and its flags."""
    if not isinstance(described, tuple) or len(described) not in (2, 3) or type(described[1]) is not int:
        wrong('fields of an odd form')
    return (described[1], *_of_pickled(described[0], depth + 1))


def oddness(blob: Blob, budget: Budget, of_numpy: bool = True, makes_texts: bool = False) -> str:
    """What is odd in pickles in a row: 'attribute' where an object gets what is imported under a name that loaders call, 'items' where one gets an
    item that may make numpy take it for an array, 'array' where kinds of items are not as numpy describes them, or a state makes an array of an
    object, or gives one another number of objects than it has.
    `makes_texts` is set where a call may make any text. Where half of the time that is left does not suffice, nobody knows it."""
    at, is_odd = 0, False
    try:
        with budget.half():
            while at < blob.size:
                pickle = read_pickle(blob, at, None, budget, of_numpy)
                if pickle.gives_methods:
                    return 'attribute'
                if pickle.has_odd_items or makes_texts and pickle.has_made_items:
                    return 'items'
                if of_numpy:
                    is_odd = is_odd or pickle.has_odd_states
                    _require_kinds(pickle)
                at = pickle.end
    except (NotCanonical, LimitMet):
        is_odd = True
    return 'array' if is_odd else ''


def _require_kinds(pickle: Pickle) -> None:
    """Has all kinds of items as numpy describes them, and nothing else that could change their fields: numpy keeps the very dictionary."""
    states = [kind.state for kind in pickle.kinds if kind.state is not None]
    for kind in pickle.kinds:
        if kind.state is not None:
            item_of_pickled(kind)
    used = Counter(id(state[4]) for state in states)
    for state in states:
        if isinstance(state[4], PDict):
            require(id(state) not in pickle.gets and pickle.gets.get(id(state[4]), 0) + 1 == used[id(state[4])], 'fields that something else has')


_RECORDS = (Global('numpy', 'record'), Global('numpy', 'void'))
