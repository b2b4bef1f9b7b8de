"""Real unpicklers in an environment that writes down each act with its operands. Nothing that a pickle names is imported.

What the environment answers, and where it raises, follows from a seed and from how many answers were before, so that the environment of
the definition (definition.py) answers the same.
"""

from __future__ import annotations

import copyreg
import functools
import pickle
import zlib
from collections.abc import Callable, Iterator, Sequence
from dataclasses import dataclass, field
from typing import Any

from load_readers import READERS, has_more
from load_worker import EXTENSIONS, EqualToItself, kind_of

# Codes of extensions, those too that only the unpickler in Python takes.
CODES = frozenset(EXTENSIONS)
# Of 1000 answers so many are of a kind: with things almost alone pickles go far, with all kinds they meet more cases.
CALM = [("raises", 4), ("buffer", 10), ("thing", 986)]
MIXED = [("raises", 20), ("str", 120), ("tuple", 40), ("dict", 40), ("buffer", 60), ("array", 60), ("thing", 660)]
TAKING = ("thing", "buffer", "array")
CONTAINERS = (list, dict, set, tuple, frozenset)


class Planned(Exception):
    """The environment raises."""


@dataclass(frozen=True)
class Plan:
    """What is answered, by the number of the answer."""

    seed: str
    is_calm: bool

    def _chance(self, what: str, number: int) -> int:
        return zlib.crc32(f"{self.seed} {what} {number}".encode()) % 1000

    def kind(self, number: int) -> str:
        left = self._chance("answer", number)
        for kind, share in CALM if self.is_calm else MIXED:
            left -= share
            if left < 0:
                return kind
        raise AssertionError("the shares are less than 1000")

    def raises(self, number: int) -> bool:
        """Whether what is answered raises when something is put into it or it gets a state."""
        return self._chance("fill", number) < (4 if self.is_calm else 25)


@dataclass(frozen=True)
class Act:
    """What was done, to what, and with which operands."""

    what: str
    target: Any = None
    operands: tuple[Any, ...] = ()
    named: tuple[tuple[str, Any], ...] = ()


@dataclass
class Stop:
    """What a load answered, and what the unpickler held then; whether it shows its stack, which the one in C does not.

    `contents` has what was in the value and in what the memo holds, by their id: a later load may put more in.
    """

    value: Any
    memo: dict[int, Any]
    is_shown: bool = False
    stack: Sequence[Any] = ()
    metastack: Sequence[Sequence[Any]] = ()
    contents: dict[int, Any] = field(default_factory=dict)

    def __post_init__(self) -> None:
        held = (thing for thing in (self.value, *self.memo.values()) if type(thing) in CONTAINERS)
        self.contents = {id(thing): type(thing)(thing) for thing in held}


@dataclass
class Record:
    """All that an unpickler did with the pickles of a file. `end` is what it raised, or an empty text."""

    plan: Plan
    acts: list[Act] = field(default_factory=list)
    answers: list[Any] = field(default_factory=list)
    stops: list[Stop] = field(default_factory=list)
    opcodes: int = 0
    end: str = ""

    def answer(self, act: Act) -> Any:
        self.acts.append(act)
        number = len(self.answers)
        kind = self.plan.kind(number)
        self.answers.append(None)
        if kind == "raises":
            raise Planned
        self.answers[number] = _answer(self, kind, number)
        return self.answers[number]

    def put(self, act: Act) -> None:
        """Something is put into an answer, or it gets a state."""
        self.acts.append(act)
        if self.plan.raises(act.target.number):
            raise Planned


class Taking:
    """What from elsewhere takes: a call, items, a state. `record` and `number` are attributes of each."""

    record: Record
    number: int

    def append(self, value: Any) -> None:
        self.record.put(Act("append", self, (value,)))

    def extend(self, values: Any) -> None:
        for value in values:
            self.append(value)

    def add(self, value: Any) -> None:
        self.record.put(Act("add", self, (value,)))

    def __setitem__(self, key: Any, value: Any) -> None:
        self.record.put(Act("set", self, (key, value)))

    def __setstate__(self, state: Any) -> None:
        self.record.put(Act("state", self, (state,)))

    def __call__(self, *values: Any, **named: Any) -> Any:
        return self.record.answer(Act("call", self, values, tuple(named.items())))


def _of_taking(name: str) -> property:
    """A method of Taking, of a class itself."""
    return property(lambda cls: functools.partial(getattr(Taking, name), cls))


class Meta(EqualToItself):
    """A thing is a class, so that it can be made too."""

    def __call__(cls: Any, *values: Any, **named: Any) -> Any:
        return Taking.__call__(cls, *values, **named)

    append, extend, add, __setstate__ = map(_of_taking, ("append", "extend", "add", "__setstate__"))

    def __setitem__(cls: Any, key: Any, value: Any) -> None:
        Taking.__setitem__(cls, key, value)


class Base(metaclass=Meta):
    def __new__(cls: Any, *values: Any, **named: Any) -> Any:
        return cls.record.answer(Act("new", cls, values, tuple(named.items())))


class Buffer(Taking, bytes):
    """A buffer that can only be read."""


class Array(Taking, bytearray):
    """A buffer that can be written."""


def _answer(record: Record, kind: str, number: int) -> Any:
    if kind == "thing":
        return type.__new__(Meta, "Thing", (Base,), {"record": record, "number": number})
    if kind in ("buffer", "array"):
        held: Any = (Buffer if kind == "buffer" else Array)(b"ab")
        held.record, held.number = record, number
        return held
    plain: dict[str, Any] = {"str": f"text {number}", "tuple": (f"item {number}",), "dict": {"key": f"value {number}"}}
    return plain[kind]


def _loader(kind: Any, record: Record) -> Any:
    """An unpickler of this kind whose every reach is written down."""

    class Loader(kind):  # type: ignore[misc]
        def find_class(self, module: str, name: str) -> Any:
            if module == "extension":
                return record.answer(Act("extension", None, (int(name),)))
            return record.answer(Act("find", None, (module, name, getattr(self, "proto", None))))

        def persistent_load(self, identity: Any) -> Any:
            return record.answer(Act("persist", None, (identity,)))

    if issubclass(kind, pickle._Unpickler):
        Loader.dispatch = {code: _counted(record, method) for code, method in pickle._Unpickler.dispatch.items()}
    return Loader


def _counted(record: Record, method: Callable[[Any], None]) -> Callable[[Any], None]:
    def run(self: Any) -> None:
        try:
            method(self)
        except pickle._Stop:  # type: ignore[attr-defined]
            record.opcodes += 1
            raise
        record.opcodes += 1
    return run


class Buffers:
    """The buffers beside a pickle."""

    def __init__(self, record: Record) -> None:
        self.record = record
        self.count = 0

    def __iter__(self) -> Iterator[Any]:
        return self

    def __next__(self) -> Any:
        self.count += 1
        return self.record.answer(Act("nextbuffer", None, (self.count - 1,)))


def load(name: str, data: bytes, plan: Plan, encoding: str, pickles: str = "All") -> Record:
    """What an unpickler does with the pickles of some bytes: the `First`, `All`, or all by one unpickler that keeps its `OneMemo`."""
    record = Record(plan)
    copyreg._extension_cache.clear()  # type: ignore[attr-defined]
    file = READERS[name](data)
    loader = _loader(kind_of(name), record)
    try:
        unpickler = None
        # (One unpickler may still hold bytes where its file has no more: it loads until it raises.)
        while unpickler is None or pickles == "OneMemo" or pickles == "All" and has_more(file, len(data)):
            if unpickler is None or pickles == "All":
                unpickler = loader(file, encoding=encoding, buffers=Buffers(record))
            value = unpickler.load()
            record.stops.append(_stop(unpickler, value))
    except Exception as error:
        record.end = type(error).__name__
    return record


def _stop(unpickler: Any, value: Any) -> Stop:
    if hasattr(unpickler, "stack"):
        return Stop(value, dict(unpickler.memo), True, list(unpickler.stack), [list(section) for section in unpickler.metastack])
    return Stop(value, unpickler.memo.copy())


def register_extensions() -> None:
    """Registers the codes."""
    for code in CODES:
        copyreg._inverted_registry[code] = ("extension", str(code))  # type: ignore[attr-defined]
