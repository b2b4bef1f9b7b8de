"""What picklers write is in form: the program says so of pickles of this Python's picklers, and of real files. Other batches are not."""

from __future__ import annotations

import collections
import datetime
import decimal
import functools
import io
import pickle
import pickletools
import subprocess
from collections.abc import Callable, Iterator
from pathlib import Path
from typing import Any

from .room import Room
from .trial import Noted, Trial

IN_FORM = b"in form\n"
PROTOCOLS = range(pickle.HIGHEST_PROTOCOL + 1)
# The sizes at which picklers take another opcode, begin a batch, or write without a frame.
SIZES = (0, 1, 2, 3, 4, 255, 256, 257, 999, 1000, 1001, 1002, 2000, 2001, 65535, 65536, 70000)
NUMBERS = (0, 1, -1, 255, 256, 65535, 65536, 2**31 - 1, 2**31, -(2**31), -(2**31) - 1, 2**63, -(2**63), 2**2039, 2**2040, -(10**700))
FLOATS = (0.0, -0.0, 1.0, 0.1, 1e15, 1e16, 1e22, 1e-5, 5e-324, 1.7e308, -2.5e-10, float("inf"), float("-inf"), float("nan"))
TEXTS = ("", "a", "a\\b", "a\nb", "\0\r\x1a", "é\xff", "\u20ac", "\U0001f600", "\ud800", "it's \"so\"", "\\u0041")


class Node:
    """An object with a state."""

    def __init__(self, value: object = None) -> None:
        self.value = value


class Tupled(tuple):  # type: ignore[type-arg]
    """A tuple of a class of its own."""


class Listed(list):  # type: ignore[type-arg]
    """A list of a class of its own."""


class Mapped(dict):  # type: ignore[type-arg]
    """A dictionary of a class of its own."""


class Keyed:
    """An object that is made with keywords."""

    def __new__(cls, *values: object, **keywords: object) -> Keyed:
        made = object.__new__(cls)
        made.__dict__["count"] = len(keywords)
        return made

    def __getnewargs_ex__(self) -> tuple[tuple[int, ...], dict[str, int]]:
        return (1, 2), {f"k{key}": key for key in range(self.__dict__["count"])}


class Set(Node):
    """An object whose state is set by a call."""

    def __reduce_ex__(self, protocol: Any) -> Any:
        return Set, (), {"value": 1}, None, None, set_state


def set_state(node: Node, state: dict[str, object]) -> None:
    node.__dict__.update(state)


def recursive() -> Iterator[object]:
    """Objects that hold themselves."""
    for size in (1, 2, 3, 4):
        held: list[object] = []
        held.append((*range(size - 1), held))
        yield held[0]
        other: list[object] = []
        other.append(Tupled([*range(size - 1), other]))
        yield other[0]
    node = Node()
    node.value = frozenset([node])
    yield node.value
    node = Node()
    node.value = {"itself": node}
    yield node


def values() -> Iterator[object]:
    """What is pickled."""
    yield [None, True, False, (), [], {}, set(), frozenset(), len, Node, Node(Node), Set(), [Set(), Set()]]
    yield from ([*NUMBERS], [*FLOATS], [*TEXTS], [text.encode("utf-8", "surrogatepass") for text in TEXTS])
    yield [collections.OrderedDict(a=1), collections.deque([1]), datetime.date(2020, 1, 2), decimal.Decimal("1.5"), range(3), Tupled((1, 2))]
    for size in SIZES:
        yield ["x" * size, b"y" * size, bytearray(b"z" * size)] * 2
        if size <= 2001:
            yield [list(range(size)), tuple(range(size)), {key: str(key) for key in range(size)}, set(range(size)), [Node(key) for key in range(size)]]
            yield [Listed(range(size)), Mapped({key: [key] for key in range(size)}), frozenset(range(size)), collections.deque(range(size))]
            yield [collections.OrderedDict.fromkeys(range(size)), Keyed(**{f"k{key}": key for key in range(size)}), *[(key,) * (key % 6) for key in range(size)]]
    yield [[str(key) * 5 for key in range(5000)], b"large" * 20000, [str(key) * 5 for key in range(5000)], b"large" * 20000]
    yield from recursive()


def written(pickler: Callable[..., Any], value: object, protocol: int) -> bytes:
    page = io.BytesIO()
    pickler(page, protocol).dump(value)
    return page.getvalue()


def optimized(value: object, protocol: int) -> bytes:
    return pickletools.optimize(pickle.dumps(value, protocol))


FULL = b"N" * 1000
BATCH = "items that picklers give in another number at once"
FILLED = "items or a state for what picklers give none"
# Beginnings and ends around a thousand items or more, in protocol 3, and the reason if no pickler writes that.
BATCHES: tuple[tuple[bytes, str], ...] = (
    (b"](" + FULL + b"e", ""),
    (b"](" + FULL + b"eNa", ""),
    (b"](" + FULL + b"e(Ne", ""),
    (b"](" + FULL + b"e(e", BATCH),
    (b"](" + FULL + b"Ne", BATCH),
    (b"](" + FULL + b"e(NeNa", FILLED),
    (b"}(" + 2 * FULL + b"u", ""),
    (b"}(" + 2 * FULL + b"uNNs", ""),
    (b"}(" + 2 * FULL + b"u(NNu", ""),
    (b"}(" + 2 * FULL + b"u(u", ""),
    (b"}(" + 2 * FULL + b"u(u(u", FILLED),
    (b"}(" + 2 * FULL + b"NNu", BATCH),
)

WAYS: dict[str, Callable[[object, int], bytes]] = {
    "in C": pickle.dumps,
    "in C to a file": functools.partial(written, pickle.Pickler),
    "in Python": functools.partial(written, pickle._Pickler),
    "that pickletools.optimize makes": optimized,
}


def said(room: Room, path: Path) -> bytes:
    return subprocess.run([str(room.program), "form", str(path)], capture_output=True, timeout=600).stdout


def fault_of_way(room: Room, way: Callable[[object, int], bytes]) -> Noted:
    room.folder.mkdir(parents=True, exist_ok=True)
    path = room.folder / "form.pickle"
    count = 0
    for number, value in enumerate(values()):
        for protocol in PROTOCOLS:
            path.write_bytes(way(value, protocol))
            count += 1
            if said(room, path) != IN_FORM:
                return Noted(f"value {number} in protocol {protocol}: {said(room, path)!r}", "")
    return Noted("", f": {count} pickles")


def fault_of_files(room: Room) -> Noted:
    files = sorted(room.pickles.glob("*_protocol_[0-5].pickle"))
    wrong = [file.name for file in files if said(room, file) != IN_FORM]
    return Noted(f"not in form: {wrong}" if wrong or not files else "", f": {len(files)} files")


def fault_of_batches(room: Room) -> Noted:
    room.folder.mkdir(parents=True, exist_ok=True)
    path = room.folder / "form.pickle"
    for number, (opcodes, reason) in enumerate(BATCHES):
        path.write_bytes(b"\x80\x03" + opcodes + b".")
        answer = said(room, path)
        if answer != IN_FORM if not reason else not answer.endswith(f": {reason}\n".encode()):
            return Noted(f"batch {number}: {answer!r}", "")
    return Noted("", f": {len(BATCHES)} pickles")


def trials(room: Room) -> list[Trial]:
    """A trial for each pickler, and one of files."""
    made = [Trial(f"what a pickler writes {name} is in form", functools.partial(fault_of_way, room, way)) for name, way in WAYS.items()]
    made.append(Trial("a batch has at most a thousand items", functools.partial(fault_of_batches, room)))
    return [*made, Trial("real pickles of each protocol are in form", functools.partial(fault_of_files, room))]
