"""Words of Rattle's standard library as the definitions of specs/*.antt use them, on Python's values.

A list is a tuple, a number an int, a truth value a bool, a record a dictionary, and what a constructor makes a Made.
"""

from __future__ import annotations

import functools
import itertools
from collections.abc import Callable, Mapping
from dataclasses import dataclass
from typing import Any

Value = Any


@dataclass(frozen=True)
class Made:
    """What a constructor makes of its parts; a pair is one of `,`."""

    name: str
    parts: tuple[Value, ...] = ()


class Function:
    """A function of so many values; with fewer it waits for the others."""

    def __init__(self, arity: int, run: Callable[..., Value]) -> None:
        self.arity = arity
        self.run = run


def apply(function: Value, *values: Value) -> Value:
    """A function of values, or a constructor with more parts."""
    if isinstance(function, Made):
        return Made(function.name, function.parts + values)
    arity = function.arity
    if len(values) == arity:
        return function.run(*values)
    if len(values) < arity:
        return Function(arity - len(values), lambda *more: function.run(*values, *more))
    return apply(function.run(*values[:arity]), *values[arity:])


NONE = Made("None")


def some(value: Value) -> Made:
    return Made("Some", (value,))


def _run(function: Value, arity: int = 1) -> Callable[..., Value]:
    """A function of so many values, to be called for each of many items."""
    return function.run if isinstance(function, Function) and function.arity == arity else functools.partial(apply, function)


def _place(test: Value, items: Value) -> int:
    """The place of the first item that passes; their number, if none does."""
    return next((at for at, found in enumerate(map(_run(test), items)) if found), len(items))


def _position(test: Value, items: Value) -> Value:
    at = _place(test, items)
    return some(at) if at < len(items) else NONE


def _find(test: Value, items: Value) -> Value:
    at = _place(test, items)
    return some(items[at]) if at < len(items) else NONE


def _compare(left: int, right: int) -> int:
    return (left > right) - (left < right)


def _insert_entry(compare: Value, entries: Value, key: Value, value: Value) -> Value:
    """Entries by rising key: an equal key stays and takes the value, a new one goes to its place."""
    low, high = 0, len(entries)
    while low < high:
        middle = (low + high) // 2
        order = apply(compare, key, entries[middle].parts[0])
        if order == 0:
            return (*entries[:middle], Made(",", (entries[middle].parts[0], value)), *entries[middle + 1:])
        low, high = (low, middle) if order < 0 else (middle + 1, high)
    return (*entries[:low], Made(",", (key, value)), *entries[low:])


def _lookup(test: Value, entries: Value) -> Value:
    found = _find(Function(1, lambda entry: apply(test, entry.parts[0])), entries)
    return some(found.parts[0].parts[1]) if found.parts else NONE


def _little_number(count: int, items: Value) -> int:
    return sum((items[at] if at < len(items) else 0) << 8 * at for at in range(count))


def _twos_complement(count: int, number: int) -> int:
    return number if number < 1 << max(0, 8 * count - 1) else number - (1 << 8 * count)


def _option_map(function: Value, option: Made) -> Made:
    return some(apply(function, option.parts[0])) if option.parts else NONE


def _decimal(number: int) -> tuple[int, ...]:
    return tuple(str(number).encode())


CONSTRUCTORS = {"true", "false", "zero", "suc", "[]", "∷", "Some", "None", "Ok", "Err", "tt", "refl"}
# These are plain values of Python's, and these operators expressions.
PLAIN: Mapping[str, str] = {"true": "True", "false": "False", "zero": "0", "suc": "W_suc", "[]": "()", "refl": "()"}
INFIX: Mapping[str, str] = {
    "&&": "({} and {})",
    "||": "({} or {})",
    "==": "({} == {})",
    "++": "({} + {})",
    "⧺": "({} + {})",
    "∷": "({}, *{})",
    "+": "({} + {})",
    "-": "max(0, {} - {})",
    "*": "({} * {})",
    "/": "({} // {})",
    "%": "({} % {})",
    "^": "({} ** {})",
}
WORDS: Mapping[str, Function] = {
    "suc": Function(1, lambda number: number + 1),
    "length": Function(1, len),
    "take": Function(2, lambda count, items: items[:count]),
    "drop": Function(2, lambda count, items: items[count:]),
    "slice_get": Function(2, lambda items, at: some(items[at]) if at < len(items) else NONE),
    "slice_index": Function(2, lambda items, at: items[at] if at < len(items) else 0),
    "slice_range": Function(3, lambda items, begin, end: items[begin:end]),
    "slice_set": Function(3, lambda items, at, value: (*items[:at], value, *items[at + 1:])),
    "replicate": Function(2, lambda count, value: (value,) * count),
    "map": Function(2, lambda function, items: tuple(map(_run(function), items))),
    "flat_map": Function(2, lambda function, items: tuple(itertools.chain.from_iterable(map(_run(function), items)))),
    "fold": Function(3, lambda step, value, items: functools.reduce(_run(step, 2), items, value)),
    "find": Function(2, _find),
    "position": Function(2, _position),
    "before_first": Function(2, lambda test, items: items[:_place(test, items)]),
    "after_first": Function(2, lambda test, items: items[_place(test, items) + 1:]),
    "list_any": Function(2, lambda test, items: _place(test, items) < len(items)),
    "list_all": Function(2, lambda test, items: all(map(_run(test), items))),
    "bytes_eq": Function(2, lambda left, right: left == right),
    "codes": Function(1, lambda text: tuple(map(ord, text))),
    "decimal": Function(1, _decimal),
    "signed_decimal": Function(1, _decimal),
    "encode_lower": Function(1, lambda items: tuple(bytes(items).hex().encode())),
    "not": Function(1, lambda value: not value),
    "nat_le": Function(2, lambda left, right: left <= right),
    "nat_lt": Function(2, lambda left, right: left < right),
    "int_lt": Function(2, lambda left, right: left < right),
    "pos": Function(1, lambda number: number),
    "max": Function(2, max),
    "nat_cmp": Function(2, _compare),
    "is_at": Function(2, lambda compare, key: apply(compare, key) == 0),
    "insert_entry": Function(4, _insert_entry),
    "lookup": Function(2, _lookup),
    "is_some": Function(1, lambda option: bool(option.parts)),
    "unwrap_or": Function(2, lambda option, value: option.parts[0] if option.parts else value),
    "option_map": Function(2, _option_map),
    "option_map_or": Function(3, lambda function, option, value: apply(function, option.parts[0]) if option.parts else value),
    "little_number": Function(2, _little_number),
    "little_bytes": Function(2, lambda count, number: tuple((number >> 8 * at) & 255 for at in range(count))),
    "twos_complement": Function(2, _twos_complement),
}
