"""Whether what the definition did is what a real unpickler did: each act with its operands, and what is held after each STOP.

A value of the definition stands for one object: a literal for what the unpickler reads from its opcode, an answer of the environment for
what was answered, and what the unpickler makes itself for the object that is first seen in its place.
"""

from __future__ import annotations

import functools
import pickle
import struct
from collections.abc import Callable, Collection, Mapping, Sequence
from dataclasses import dataclass, field
from typing import Any

from antt_words import Made, Value
from definition import Run, Seen, seen, short
from recorded import Act, Planned, Record, Stop

TYPES: Mapping[str, type] = {
    "PyTuple": tuple, "PyList": list, "PyDict": dict, "PySet": set, "PyFrozenSet": frozenset, "PyByteArray": bytearray, "PyMemoryView": memoryview,
}
LINES = {"IntLine": b"I", "LongLine": b"L", "FloatLine": b"F", "TextLine": b"V", "LegacyLine": b"S"}
COUNTED = {"Bytes": b"B", "Text": b"X", "LegacyString": b"T", "Long": b"\x8b"}
CONSTANTS = {"None": b"N", "True": b"\x88", "False": b"\x89"}
WHAT = {"call": ("call", "instance"), "new": ("new", "instance")}
KEYED = ("PyDict", "PySet", "PyFrozenSet")
NOT_KNOWN = object()


class Unlike(Exception):
    """Something differs."""


@functools.lru_cache(maxsize=4096)
def literal(kind: Made, encoding: str, is_python: bool) -> Any:
    """What the unpickler reads from a literal; the one in Python takes more spellings of numbers. NOT_KNOWN where it raises."""
    name, parts = short(kind), kind.parts
    if name == "Int":
        return parts[0]
    if name in CONSTANTS:
        spelled = CONSTANTS[name]
    elif name == "Float":
        spelled = b"G" + bytes(parts[0])
    elif name in LINES:
        spelled = LINES[name] + bytes(parts[0]) + b"\n"
    else:
        spelled = COUNTED[name] + struct.pack("<I", len(parts[0])) + bytes(parts[0])
    loads: Callable[..., Any] = pickle._loads if is_python else pickle.loads  # type: ignore[attr-defined]
    try:
        return loads(spelled + b".", encoding=encoding)
    except Exception:
        return NOT_KNOWN


def _is_of(kind: type, found: Any) -> bool:
    """Whether an object is of this very type."""
    return type(found) is kind


@dataclass
class Likeness:
    """Holds which object stands for which value that the unpickler made."""

    run: Run
    record: Record
    encoding: str
    is_python: bool
    made: dict[int, Any] = field(default_factory=dict)
    places: dict[int, int] = field(default_factory=dict)

    # --- Values ---

    def match(self, value: Value, found: Any) -> None:
        """Ends where an object cannot stand for a value."""
        if not self.is_like(value, found):
            raise Unlike(f"{_shown(value)} is not {found!r:.80}")

    def is_like(self, value: Made, found: Any) -> bool:
        name = short(value)
        if name == "Plain":
            want = literal(value.parts[0], self.encoding, self.is_python)
            return type(want) is type(found) and (want == found or repr(want) == repr(found))
        if name == "Foreign":
            return self.record.answers[self.run.world.numbers[value.parts[1]]] is found
        kind, act = value.parts
        if act in self.made:
            return self.made[act] is found
        return self._is_first(short(kind), act, found)

    def _is_first(self, kind: str, act: int, found: Any) -> bool:
        """Whether an object can stand for what the unpickler made, and stood for nothing yet; tuples can be one where they are alike."""
        if not _is_of(TYPES[kind], found):
            return False
        if kind not in ("PyTuple", "PyFrozenSet") and self.places.setdefault(id(found), act) != act:
            return False
        self.made[act] = found
        return kind != "PyTuple" or self._is_tuple(self.run.acts[act].parts[1], found)

    def _is_tuple(self, items: Sequence[Made], found: Sequence[Any]) -> bool:
        return len(items) == len(found) and all(map(self.is_like, items, found))

    def object_of(self, value: Made) -> Any:
        """The object of a value, or NOT_KNOWN."""
        if short(value) == "Plain":
            return literal(value.parts[0], self.encoding, self.is_python)
        if short(value) == "Foreign":
            return self.record.answers[self.run.world.numbers[value.parts[1]]]
        if value.parts[1] not in self.made and short(value.parts[0]) == "PyTuple":
            return tuple(map(self.object_of, self.run.acts[value.parts[1]].parts[1]))
        return self.made.get(value.parts[1], NOT_KNOWN)

    # --- What containers hold ---

    def items(self, value: Made, place: int) -> list[Value]:
        """What was put into a container before an act, one after another."""
        act = value.parts[1]
        fills = (other for other in self.run.acts[act + 1:place] if short(other) == "Fill" and other.parts[1] == value)
        return [*self.run.acts[act].parts[1], *(item for fill in fills for item in fill.parts[2])]

    def is_set_by_place(self, value: Made) -> bool:
        """Whether something of a list is set at a place, which is not looked at."""
        return any(short(act) == "Fill" and act.parts[1] == value and short(act.parts[0]) == "SetItem" for act in self.run.acts)

    def match_items(self, value: Made, found: Sequence[Any], place: int) -> None:
        """Ends where a list or tuple does not hold what was put into it."""
        items = self.items(value, place)
        if short(value.parts[0]) == "PyList" and self.is_set_by_place(value):
            return
        if len(items) != len(found):
            raise Unlike(f"{len(items)} items are not {len(found)}")
        for item, one in zip(items, found):
            self.match(item, one)

    def match_members(self, value: Made, found: Collection[Any], place: int) -> dict[Any, Value]:
        """The same of the keys of a dictionary or the members of a set, where the objects of all are known; answers what each key has."""
        items = self.items(value, place)
        size = 2 if short(value.parts[0]) == "PyDict" else 1
        keys = [self.object_of(key) for key in items[::size]]
        if any(key is NOT_KNOWN for key in keys):
            return {}
        want = dict(zip(keys, items[size - 1::size]))
        if len(want) != len(found) or any(key not in want for key in found):
            raise Unlike(f"the keys {list(want)!r:.80} are not {list(found)!r:.80}")
        return want if size == 2 else {}

    def match_content(self, value: Made, found: Any, place: int) -> None:
        """Ends where a container of the unpickler's does not hold what was put into it."""
        kind = short(value.parts[0]) if short(value) == "Own" else ""
        if kind in ("PyList", "PyTuple"):
            self.match_items(value, found, place)
        elif kind in KEYED:
            for key, item in self.match_members(value, found, place).items():
                self.match(item, found[key])

    # --- Acts ---

    def match_arguments(self, value: Made, found: Sequence[Any], place: int) -> None:
        """What a value gives that is gone through."""
        kind = short(value.parts[0]) if short(value) == "Own" else ""
        if kind in ("PyList", "PyTuple"):
            self.match_items(value, found, place)
        elif kind in KEYED:
            self.match_members(value, found, place)
        elif not kind and [*map(repr, self.object_of(value))] != [*map(repr, found)]:
            raise Unlike(f"{_shown(value)} does not give {found!r:.80}")

    def match_names(self, value: Made, found: Mapping[str, Any], place: int) -> None:
        """The keywords of a call."""
        if short(value) == "Own":
            for key, item in self.match_members(value, found, place).items():
                self.match(item, found[key])
        elif {key: self.object_of(value)[key] for key in self.object_of(value).keys()} != found:
            raise Unlike(f"{_shown(value)} does not give {found!r:.80}")

    def match_name(self, name: Made, found: Any, code: str) -> None:
        """A text that is asked for."""
        part, = name.parts
        if short(name) == "Given":
            self.match(part, found)
        elif bytes(part).decode(code) != found:
            raise Unlike(f"{bytes(part)!r} is not {found!r}")

    def match_act(self, want: Seen, found: Act) -> None:
        if want.what not in WHAT.get(found.what, (found.what,)):
            raise Unlike(f"{want.what} is not {found.what}")
        target = None if want.target is None else self.record.answers[want.target]
        if target is not found.target:
            raise Unlike(f"{found.what} of another thing")
        self._match_operands(want, found)

    def _match_operands(self, want: Seen, found: Act) -> None:
        if want.what == "find":
            proto, module, name = want.operands
            if found.operands[2] not in (None, proto):
                raise Unlike(f"the protocol {proto} is not {found.operands[2]}")
            self.match_name(module, found.operands[0], "utf-8")
            self.match_name(name, found.operands[1], "utf-8")
        elif want.what == "persist":
            self.match_name(want.operands[0], found.operands[0], "ascii")
        elif want.what in ("call", "new"):
            self.match_arguments(want.operands[0], found.operands, want.place)
            if len(want.operands) > 1 or found.named:
                self.match_names(want.operands[1], dict(found.named), want.place)
        elif want.what == "instance":
            self._match_all(want.operands[0], found.operands)
        elif want.what in ("extension", "nextbuffer"):
            if want.operands != found.operands:
                raise Unlike(f"the number {want.operands} is not {found.operands}")
        else:
            self._match_all(want.operands, found.operands)

    def _match_all(self, want: Sequence[Value], found: Sequence[Any]) -> None:
        if len(want) != len(found):
            raise Unlike(f"{len(want)} operands are not {len(found)}")
        for value, one in zip(want, found):
            self.match(value, one)

    def match_acts(self, wanted: Sequence[Seen]) -> None:
        acts = self.record.acts
        if len(wanted) < len(acts):
            raise Unlike(f"{len(acts)} acts and not {len(wanted)}, the first more is {acts[len(wanted)].what}")
        for want, found in zip(wanted, acts):
            self.match_act(want, found)
        if self.record.end in ("", Planned.__name__) and len(wanted) != len(acts):
            raise Unlike(f"it ends after {len(acts)} acts, and the definition after {len(wanted)}")

    # --- STOP ---

    def match_stops(self) -> None:
        stops, others = self.record.stops, self.run.stops
        if len(others) < len(stops) or not self.record.end and len(others) != len(stops):
            raise Unlike(f"{len(stops)} loads end, and {len(others)} of the definition")
        for (value, last), stop in zip(others, stops):
            self.match_stop(value, last, stop)

    def match_stop(self, value: Made, last: Mapping[str, Any], found: Stop) -> None:
        """What a load answered and held, and what is in it."""
        held = [(value, found.value), *((entry.parts[1], found.memo.get(entry.parts[0])) for entry in last["memo"])]
        if {entry.parts[0] for entry in last["memo"]} != set(found.memo):
            raise Unlike(f"the memo has other keys than {list(found.memo)}")
        if found.is_shown:
            self._match_all(last["stack"], found.stack)
            if len(last["metastack"]) != len(found.metastack):
                raise Unlike("other marks")
            for section, one in zip(last["metastack"], reversed(found.metastack)):
                self._match_all(section, one)
        for want, one in held:
            self.match(want, one)
        for want, one in held:
            self.match_content(want, found.contents.get(id(one)), len(last["acts"]))


def _shown(value: Made) -> str:
    return f"{short(value)} {' '.join(short(part) if isinstance(part, Made) else str(part) for part in value.parts)}"[:80]


@dataclass(frozen=True)
class Verdict:
    """`why` says what a real unpickler did that the definition does not say; `is_all` says that it did all that the definition does."""

    why: str
    is_all: bool


def verdict(run: Run, record: Record, encoding: str, is_python: bool) -> Verdict:
    """Compares. Where a real unpickler raised, the definition may go on: an environment may raise at any opcode."""
    likeness = Likeness(run, record, encoding, is_python)
    wanted = list(seen(run))
    try:
        likeness.match_acts(wanted)
        likeness.match_stops()
        if record.opcodes > run.opcodes + (record.end == "EOFError"):
            raise Unlike(f"{record.opcodes} opcodes ran, and {run.opcodes} of the definition")
    except Unlike as unlike:
        return Verdict(str(unlike), False)
    is_all = len(wanted) == len(record.acts) and len(run.stops) == len(record.stops) and (not is_python or run.opcodes <= record.opcodes)
    return Verdict("", is_all)
