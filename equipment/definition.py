"""The definition of the unpickler, as crates/pickle_loader/specs has it, and what it does with the bytes of a file.

`Definition` evaluates that definition in the environment that recorded.py gives to real unpicklers: what it answers follows from the same
plan. What stands in specs/ is what is run: there is no second copy of a rule here.
"""

from __future__ import annotations

import pathlib
import sys
import threading
from collections.abc import Callable, Iterator, Sequence
from dataclasses import dataclass, field
from typing import Any, Optional, TypeVar

import antt
import old_names
from antt_words import Function, Made, Value
from recorded import CODES, TAKING, Plan

ROOT = pathlib.Path(__file__).resolve().parent.parent
STACK = 256 << 20
T = TypeVar("T")
LOADER = "Rattle.pickle_loader.specs"
TABLE = "Rattle.pickle_ops.specs.Table"
TYPES = {"str": "PyStr", "tuple": "PyTuple", "dict": "PyDict", "buffer": "PyOther", "array": "PyOther", "thing": "PyOther"}
ASKING = ("Find", "Persist", "NextBuffer", "Extension")
CALLING = ("Call", "New", "NewEx", "Instance")
RAISES = Made("Environment.Raises")
ANSWERS = Made("Environment.Answers", (Made("Environment.PyOther"),))


def short(made: Made) -> str:
    """The name of a constructor without its file."""
    return made.name.rpartition(".")[2]


@dataclass
class World:
    """An environment, as the definition has one, by a plan.

    `numbers` has the number of the answer that an act got, for each act that asks for one and is seen outside; an extension that was found
    before is in a cache.
    """

    plan: Plan
    strings_are_bytes: bool
    numbers: dict[int, int] = field(default_factory=dict)
    found: dict[int, int] = field(default_factory=dict)
    again: set[int] = field(default_factory=set)

    def record(self, is_python: bool) -> dict[str, Value]:
        return {
            "fails": Function(2, lambda before, op: False),
            "reply": Function(2, self.reply),
            "readonly": Function(2, lambda acts, value: self.kind(value) == "buffer"),
            "mapping": Function(2, lambda acts, value: self.kind(value) in ("thing", "dict")),
            "strings_are_bytes": self.strings_are_bytes,
            "looks_up_for_nothing": is_python,
        }

    def kind(self, value: Made) -> str:
        """What the environment answered; an empty text where a value is not from elsewhere."""
        return self.plan.kind(self.numbers[value.parts[1]]) if short(value) == "Foreign" else ""

    def reply(self, acts: Sequence[Made], act: Made) -> Made:
        what = short(act)
        if what in ASKING:
            return self._asked(acts, act)
        if what in CALLING:
            return self._next(len(acts)) if self.is_called(len(acts), act) else RAISES
        if what == "View":
            return ANSWERS if self.kind(act.parts[0]) in ("buffer", "array") else RAISES
        if what == "Method" or self.target(act) is None:
            return ANSWERS
        target = self.target(act)
        if self.kind(target) in TAKING:
            return RAISES if self.plan.raises(self.numbers[target.parts[1]]) else ANSWERS
        return ANSWERS if what == "SetState" or self.kind(target) == "dict" else RAISES

    def target(self, act: Made) -> Any:
        """What is filled or gets a state, if it is from elsewhere."""
        at = {"Fill": 1, "SetState": 0}.get(short(act))
        target = act.parts[at] if at is not None else None
        return target if isinstance(target, Made) and short(target) == "Foreign" else None

    def called(self, place: int, act: Made) -> Optional[int]:
        """The answer that an act of this number calls: for INST that of the act before."""
        value = act.parts[0]
        if short(act) == "Instance":
            if value == Made("None"):
                return self.numbers[place - 1]
            value = value.parts[0]
        return self.numbers[value.parts[1]] if short(value) == "Foreign" else None

    def is_called(self, place: int, act: Made) -> bool:
        """Whether the environment has to do with a call; else the unpickler itself raises."""
        number = self.called(place, act)
        kinds = ("thing",) if short(act) in ("New", "NewEx") else TAKING
        return number is not None and self.plan.kind(number) in kinds

    def _asked(self, acts: Sequence[Made], act: Made) -> Made:
        if short(act) != "Extension":
            return self._next(len(acts))
        code, = act.parts
        if code not in CODES:
            return RAISES
        if code in self.found and self.found[code] < len(acts):
            self.again.add(len(acts))
            self.numbers[len(acts)] = self.numbers[self.found[code]]
            return self._answers(self.numbers[len(acts)])
        self.found[code] = len(acts)
        return self._next(len(acts))

    def _next(self, act: int) -> Made:
        self.numbers = {at: number for at, number in self.numbers.items() if at < act}
        self.numbers[act] = max(self.numbers.values(), default=-1) + 1
        return self._answers(self.numbers[act])

    def _answers(self, number: int) -> Made:
        kind = self.plan.kind(number)
        return RAISES if kind == "raises" else Made("Environment.Answers", (Made(f"Environment.{TYPES[kind]}"),))


@dataclass
class Run:
    """What the definition does with some bytes: all acts, and for each STOP the value and the unpickler."""

    world: World
    acts: Sequence[Made] = ()
    stops: list[tuple[Made, dict[str, Value]]] = field(default_factory=list)
    opcodes: int = 0


def with_deep_stack(work: Callable[[], T]) -> T:
    """What this gives. Definitions call themselves once for each byte of a line. Ends the script where an error was raised."""
    found: list[T] = []
    sys.setrecursionlimit(1_000_000)
    threading.stack_size(STACK)
    thread = threading.Thread(target=lambda: found.append(work()))
    thread.start()
    thread.join()
    if not found:
        sys.exit(1)
    return found[0]


def program_of(crates: pathlib.Path) -> antt.Program:
    """The definitions of a folder of crates. Files of Rattle's list the opcodes, which are those of the table in its order, and names of Python 2."""
    table = antt.read_module(TABLE, (crates / "pickle_ops" / "specs" / "Table.antt").read_text())
    names = [text.split()[1].removeprefix("op.") for text in table.clauses["entry_of"]]
    rows = {name: _rows(words) for name, words in zip(("NAMES", "MODULES"), old_names.rows_of(crates))}
    return antt.Program(crates, {"ALL": tuple(Made(f"Opcode.{name}") for name in names), **rows})


def _rows(rows: Sequence[Sequence[str]]) -> Value:
    return tuple(Made(",", tuple({"now": tuple(word.encode())} for word in row)) for row in rows)


class Definition:
    """The definition, read from the specs/ of a folder of crates."""

    def __init__(self, crates: pathlib.Path = ROOT / "crates") -> None:
        self.program = program_of(crates)
        self.load_bytes = self.program.value(f"{LOADER}.Bytes", "load_bytes")
        self.load_next = self.program.value(f"{LOADER}.Bytes", "load_next")
        self.load_framed = self.program.value(f"{LOADER}.ByFrames", "load_framed")
        self.load_frames = self.program.value(f"{LOADER}.ByFrames", "load_frames")
        self.load_way = self.program.value(f"{LOADER}.Onward", "load_way")
        self.load_on = self.program.value(f"{LOADER}.Onward", "load_on")
        self.c_load_way = self.program.value(f"{LOADER}.CLoad", "c_load_way")
        self.c_load_on = self.program.value(f"{LOADER}.CLoad", "c_load_on")
        self.seen_onward = self.program.value(f"{LOADER}.CLoad", "seen_onward")
        self.seen_loaded = self.program.value(f"{LOADER}.CLoad", "seen_loaded")
        self.c_load_file = self.program.value(f"{LOADER}.ShownFile", "c_load_file")
        self.c_load_next = self.program.value(f"{LOADER}.ShownFile", "c_load_next")
        self.load_pipe = self.program.value(f"{LOADER}.ShortRead", "load_pipe")
        self.load_next_come = self.program.value(f"{LOADER}.ShortRead", "load_next")
        self.acts_of = self.program.value(f"{LOADER}.Dispatch", "acts_of")

    def python(self, data: bytes, plan: Plan, encoding: str) -> Run:
        """What the unpickler in Python does with all pickles of some bytes."""
        world = World(plan, encoding == "bytes")
        record = world.record(is_python=True)
        begin = self.load_bytes(record, True, tuple(data), 0)
        return self._run(Run(world), begin, lambda x: self.load_next(record, True, x))

    def by_frames(self, data: bytes, plan: Plan, encoding: str, pickles: str) -> Run:
        """The same of one load, of a loop of loads, or of one unpickler that loads again."""
        world, which = World(plan, encoding == "bytes"), Made(f"Pickles.{pickles}")
        record = world.record(is_python=True)
        begin = self.load_framed(record, which, tuple(data), 0)
        return self._run(Run(world), begin, lambda x: self.load_frames(record, which, x))

    def way(self, data: bytes, plan: Plan, encoding: str, pickles: str, frames: str) -> Run:
        """What the unpickler in Python does where it reads in this way, behind an end of the lines too."""
        world = World(plan, encoding == "bytes")
        record, way = world.record(is_python=True), _way(pickles, frames)
        begin = self.load_way(record, way, tuple(data), 0)
        return self._run(Run(world), begin, lambda x: self.load_on(record, way, x))

    def in_c(self, data: bytes, plan: Plan, encoding: str, pickles: str, frames: str) -> Run:
        """What the unpickler in C does where it reads in this way."""
        world = World(plan, encoding == "bytes")
        record, way = world.record(is_python=False), _way(pickles, frames)
        begin = self.c_load_way(record, way, tuple(data), 0)
        return self._run(Run(world), begin, lambda x: self.c_load_on(record, way, x), self.seen_onward)

    def in_file(self, data: bytes, plan: Plan, encoding: str, pickles: str, shown: Iterator[int]) -> Run:
        """What the unpickler in C does with a file that shows so many bytes at one look after another."""
        world, which, shows = World(plan, encoding == "bytes"), Made(f"Pickles.{pickles}"), _by_turn(shown)
        record = world.record(is_python=False)
        begin = self.c_load_file(record, shows, which, tuple(data), 0)
        return self._run(Run(world), begin, lambda x: self.c_load_next(record, shows, which, x), lambda x: {"now": self.seen_loaded(x["now"])})

    def in_pipe(self, data: bytes, plan: Plan, encoding: str, pickles: str, come: Iterator[int]) -> Run:
        """What the unpickler in Python does with a pipe, of which so many bytes come at one read after another beside the first."""
        world, which, comes = World(plan, encoding == "bytes"), Made(f"Pickles.{pickles}"), _by_turn(come)
        record = world.record(is_python=True)
        begin = self.load_pipe(record, comes, which, tuple(data), 0)
        return self._run(Run(world), begin, lambda x: self.load_next_come(record, comes, which, x))

    def _run(self, run: Run, begin: Value, step: Value, held: Callable[[Value], Value] = lambda x: x) -> Run:
        """Goes opcode by opcode, as the definition does it, until it ends. `held` is what the unpickler in Python would hold."""
        now, after = None, begin
        loaded = held(after)["now"]
        while after is not now and short(loaded) != "Failed":
            now = after
            after = step(now)
            loaded = held(after)["now"]
            if after is not now and short(loaded) != "Failed":
                run.opcodes += 1
            if after is not now and short(loaded) == "Ended":
                run.stops.append(loaded.parts)
        run.acts = self.acts_of(loaded)
        return run


def _by_turn(numbers: Iterator[int]) -> Function:
    """The number of each turn."""
    drawn: list[int] = []

    def of_turn(turn: int) -> int:
        while len(drawn) <= turn:
            drawn.append(next(numbers))
        return drawn[turn]
    return Function(1, of_turn)


def _way(pickles: str, frames: str) -> dict[str, Value]:
    return {"pickles": Made(f"Pickles.{pickles}"), "frames": Made(f"Frames.{frames}")}


# ---- what is seen of it outside


@dataclass(frozen=True)
class Seen:
    """An act as it is seen outside: `target` is the number of the answer to which it is done, and the operands are values."""

    what: str
    target: Optional[int]
    operands: tuple[Value, ...]
    place: int


def seen(run: Run) -> Iterator[Seen]:
    """The acts that the environment sees, one after another; of a fill each item or pair."""
    for place, act in enumerate(run.acts):
        yield from _seen(run, place, act)


def _seen(run: Run, place: int, act: Made) -> Iterator[Seen]:
    world, what = run.world, short(act)
    if what in CALLING and world.is_called(place, act):
        operands = act.parts[1:]
        yield Seen({"NewEx": "new"}.get(what, what.lower()), world.called(place, act), operands, place)
    elif what in ASKING and place in world.numbers and place not in world.again:
        yield Seen(what.lower(), None, act.parts, place)
    elif what in ("Fill", "SetState") and world.kind(world.target(act) or act.parts[0]) in TAKING:
        yield from _put(world, place, act)


def _put(world: World, place: int, act: Made) -> Iterator[Seen]:
    number = world.numbers[world.target(act).parts[1]]
    if short(act) == "SetState":
        yield Seen("state", number, act.parts[1:], place)
        return
    how, items = short(act.parts[0]), act.parts[2]
    size = 2 if how == "SetItem" else 1
    pairs = [items[at:at + size] for at in range(0, len(items), size)]
    for pair in pairs[:1] if world.plan.raises(number) else pairs:
        yield Seen({"SetItem": "set"}.get(how, how.lower()), number, tuple(pair), place)
