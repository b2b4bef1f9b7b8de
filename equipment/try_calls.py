#!/usr/bin/env python3
"""Compares lines of `calls`, and what the package reads of them, with the definition of these lines.

    try_calls.py [--crates FOLDER] PROGRAM FOLDER [PICKLE..]

The definitions of crates/*/specs, evaluated by antt.py, say which event each item has, in each reading that is in a text: of the rows of
calls.txt, of the pickles that try_lines.py has, and of those that are given. The program's lines, cut and in full, have to be what
`event_line` makes of these events, and what the package reads of a line has to be the event that it was made of. Whether a text has what
loaders that buffer frames read is taken from how the program ends its lines. What is printed is as of try_lines.py.
"""

from __future__ import annotations

import dataclasses
import functools
import json
import pathlib
from collections.abc import Sequence
from dataclasses import dataclass
from types import SimpleNamespace
from typing import Any, Optional, Union

import try_lines
from antt_words import NONE, Made, Value, some
from definition import program_of, short
from try_lines import OPS, SHOWN, Line, Program, Tally, float_of, kinds_of, text_of, words_of

from picklestep.reaches import EVENTS, Fields, reach_of
from picklestep.records import Brief, Briefs, Extension, Global, Name, Reach, Ref
from trials.trial import Trial

CALLS = "Rattle.pickle_calls.specs"
FURTHER = "Rattle.pickle_further.specs"
WORDS = (
    (f"{OPS}.Argument", ("long_of",)),
    ("Rattle.pickle_names.specs.Value", ("decode", "decode_all")),
    (f"{SHOWN}.Words", ("kind_text", "id_text")),
    (f"{CALLS}.Naming", ("in_ascii", "spelled_of", "pair_renamed", "pair_text", "import_text", "import_for", "names_text")),
    (f"{CALLS}.Brief", ("brief_text", "most_bytes", "most_characters", "most_objects")),
    ("Rattle.calls_laws.specs.LineLaws", ("names_of", "inst_names")),
    (f"{CALLS}.CallsLine", ("event_line",)),
    (f"{FURTHER}.Going", ("going", "stands_after")),
    (f"{FURTHER}.Parts", ("standing_first",)),
)
# What is asked of the same names again and again.
KEPT = ("decode_all", "renamed")
PAGES = ("calls.txt", *try_lines.PAGES)
# The options that ask for a reading, and for how much of an argument is shown.
READINGS: dict[str, tuple[str, ...]] = {"All": (), "First": ("--first",), "OneMemo": ("--memo", "kept")}
DETAILS: dict[str, tuple[str, ...]] = {"Cut": (), "Full": ("--full",)}
# The lines of a text, cut and in full.
Part = dict[str, list[Line]]
# How lines end otherwise than by STOP.
OPEN = ("refused: ", "fault: ", "unsure: ")
CONSTANTS = {"Kind.None": None, "Kind.True": True, "Kind.False": False}


@dataclass
class Reaches:
    """What the package has of events, by how names are read and which objects there are. `shown` has the kinds of values."""

    words: SimpleNamespace
    shown: set[str]
    naming: dict[str, Value]
    heap: Sequence[dict[str, Value]]

    @property
    def is_cut(self) -> bool:
        return short(self.naming["detail"]) == "Cut"

    @property
    def in_full(self) -> Reaches:
        return dataclasses.replace(self, naming={**self.naming, "detail": Made("Detail.Full")})

    # --- Texts and names ---

    def cut(self, items: Sequence[int], most: int) -> tuple[Sequence[int], int]:
        """The first items, and how many more there are."""
        return (items[:most], max(0, len(items) - most)) if self.is_cut else (items, 0)

    def payload(self, data: Sequence[int]) -> tuple[bytes, int]:
        first, more = self.cut(data, self.words.most_bytes)
        return bytes(first), more

    def text(self, word: str, spelled: dict[str, Value]) -> Brief:
        """A text, or where it cannot be read its bytes."""
        coding, data = spelled["coding"], spelled["bytes"]
        decoded = self.words.decode(coding, self.words.most_characters, data) if self.is_cut else self.words.decode_all(coding, data)
        if decoded["good"]:
            return Brief(word, bytes(decoded["value"]), len(decoded["rest"]))
        return Brief("raw" if word == "text" else f"raw {word}", *self.payload(data))

    def said(self, pair: dict[str, Value]) -> Global:
        """Two names as they are said."""
        parts: list[Any] = []
        raw = []
        for which, field in (("module", "from"), ("name", "name")):
            texts = [self.in_full.text("text", spelled) for spelled in pair[field].parts]
            parts += [text.value for text in texts] or [Ref(pair[f"{field}_id"])]
            raw += [which for text in texts if text.kind == "raw"]
        return Global(*parts, tuple(raw))

    def named(self, number: Made, pair: dict[str, Value]) -> tuple[Optional[Name], Optional[Global]]:
        """What is imported, or was as this object, and the names of Python 2 that are said for it: whichever the definition writes."""
        said = self.said(pair)
        ways: dict[Value, tuple[Name, Optional[Global]]] = {self.words.pair_text(pair): (said, None)}
        ways.update({self.words.id_text(known): (Ref(known), None) for known in number.parts})
        for new in self.words.pair_renamed(pair).parts:
            member = [bytes(name) for name in new["name"].parts]
            now = Global(bytes(new["from"]), *member) if member else dataclasses.replace(said, module=bytes(new["from"]))
            ways.update({self.words.import_text(new, pair): (now, None), self.words.import_for(new, pair): (now, said)})
        return ways.get(self.words.names_text(self.naming, number, pair), (None, None))

    def callee(self, number: int) -> Optional[Name]:
        made = self.heap[number]
        if short(made["kind"]) == "Ext":
            return Extension(made["kind"].parts[0])
        pairs = self.words.names_of(self.heap, made).parts
        return self.named(some(number), pairs[0])[0] if pairs else Ref(number)

    # --- Values ---

    def plain(self, kind: Made) -> tuple[Any, int]:
        """What the opcode of an object says of it, and how many bytes more there are."""
        if kind.name in CONSTANTS:
            return CONSTANTS[kind.name], 0
        value, = kind.parts
        if short(kind) in ("Int", "Ext"):
            return Extension(value) if short(kind) == "Ext" else value, 0
        if short(kind) == "Float":
            return float_of(value), 0
        first, more = self.payload(value)
        return int(self.words.long_of(value)) if short(kind) == "Long" and not more else first, more

    def brief(self, number: int) -> Brief:
        made = self.heap[number]
        self.shown.add(f"a value of {made['kind'].name}")
        if self.words.brief_text(self.naming, self.heap, number) == self.words.id_text(number):
            return Brief("object", Ref(number))
        for spelled in self.words.spelled_of(made["kind"]).parts:
            return self.text("string" if short(made["kind"]).startswith("Legacy") else "text", spelled)
        for pair in self.words.names_of(self.heap, made).parts:
            return Brief("global", self.named(some(number), pair)[0])
        return Brief(text_of(self.words.kind_text(made["kind"])).partition(" ")[0], *self.plain(made["kind"]))

    def briefs(self, numbers: Sequence[int]) -> Briefs:
        first, more = self.cut(numbers, self.words.most_objects)
        return Briefs(tuple(map(self.brief, first)), more)

    def value(self, number: int) -> Union[Brief, Briefs]:
        made = self.heap[number]
        return self.briefs(made["parts"]) if short(made["kind"]) == "Tuple" else self.brief(number)

    # --- Events ---

    def made(self, made: dict[str, Value]) -> dict[str, Any]:
        """What a line says of an object that was made, besides its number."""
        kind, parts = made["kind"], made["parts"]
        for pair in (*self.words.names_of(self.heap, made).parts, *self.words.inst_names(kind).parts):
            name, said = self.named(NONE, pair)
            return {"name": name, "said": said, "value": self.briefs(parts) if short(kind) == "Inst" else None}
        for spelled in self.words.in_ascii(*kind.parts).parts if short(kind) == "PersistentLine" else ():
            return {"value": self.in_full.text("text", spelled)}
        if short(kind) == "Ext":
            return {"name": Extension(kind.parts[0])}
        if short(kind) == "Buffer":
            return {"count": kind.parts[0]}
        if short(kind) == "ReadOnly":
            return {"target": parts[0]}
        if short(kind) == "Persistent":
            return {"value": self.value(parts[0])}
        values = [self.briefs(parts[1:])] if short(kind) == "Obj" else [self.value(part) for part in parts[1:]]
        return {"name": self.callee(parts[0]), **dict(zip(("value", "keywords"), values))}

    def reach(self, offset: int, text: str, event: Made) -> Reach:
        of = functools.partial(Reach, offset, text.split()[0], text)
        if short(event) == "Made":
            number, = event.parts
            return of(number=number, **self.made(self.heap[number]))
        if short(event) == "State":
            value, target = event.parts
            return of(value=self.value(value), target=target)
        return of(count=event.parts[1], target=event.parts[2])


class Events:
    """The lines of events. `shown` has what they showed: kinds of objects and of values, and what is put into objects."""

    def __init__(self, crates: pathlib.Path) -> None:
        program = program_of(crates)
        program.kept.update(KEPT)
        self.words = words_of(program, WORDS)
        values = (f"a value of {kind}" for kind in kinds_of(program, f"{CALLS}.Brief", "kind_brief"))
        self.kinds = {*kinds_of(program, f"{CALLS}.CallsLine", "made_words"), *values, "State", "Append", "SetItem", "Add"}
        self.shown: set[str] = set()
        # The lines of JSON that the program printed, by their texts.
        self.fields: dict[str, Fields] = {}

    def lacks(self) -> list[str]:
        return sorted(self.kinds - self.shown)

    def line(self, offset: int, naming: dict[str, Value], heap: Sequence[dict[str, Value]], event: Made) -> Line:
        what = event.parts[0]
        self.shown.add(heap[what]["kind"].name if short(event) == "Made" else short(what) if short(event) == "Filled" else short(event))
        text = text_of(self.words.event_line(offset, naming, heap, event))
        of = Reaches(self.words, self.shown, naming, heap).reach(offset, text.partition(": ")[2].rstrip("\n"), event)
        # (as a dictionary, since a text of an object lacks which names are raw)
        return Line(text, dataclasses.asdict(of), lambda line: dataclasses.asdict(reach_of(self.fields[line])))

    def of_reading(self, pickles: str, frames: str, data: bytes) -> Optional[Part]:
        """The lines of a reading. Where frames are buffered, those from the first item on that loses bytes, and None where none does."""
        found: Part = {detail: [] for detail in DETAILS}
        way = {"pickles": Made(f"Pickles.{pickles}"), "frames": Made(f"Frames.{frames}")}
        standing, closing, is_shown = self.words.standing_first(Made("Detail.Cut"), way["pickles"], tuple(data)), NONE, frames == "Ignored"
        while not closing.parts:
            going = self.words.going(way, standing)
            closing, is_shown = going["gone"]["closing"], is_shown or going["gone"]["lost"]
            for event in going["gone"]["event"].parts if is_shown else ():
                for detail, lines in found.items():
                    naming = {**standing["naming"], "detail": Made(f"Detail.{detail}")}
                    lines.append(self.line(standing["at"]["offset"], naming, going["state"]["heap"], event))
            standing = self.words.stands_after(standing, going)
        return found if is_shown else None

    def of_text(self, pickles: str, is_open: bool, data: bytes) -> Part:
        """The lines of a text, and of what loaders that buffer frames read, where the lines end otherwise than by STOP or one unpickler
        reads on."""
        is_one = pickles == "OneMemo"
        parts = [self.of_reading(pickles, "Ignored", data)]
        parts += [self.of_reading(pickles, "Buffered", data)] if is_open or is_one else []
        parts += [self.of_reading(pickles, "Held", data)] if is_one and parts[-1] else []
        return {detail: [line for part in parts if part for line in part[detail]] for detail in DETAILS}


def try_pickle(events: Events, program: Program, tally: Tally, data: bytes) -> None:
    program.file.write_bytes(data)
    for pickles, options in READINGS.items():
        texts = {detail: [*map(json.loads, program.lines("calls", "--json", *options, *more))] for detail, more in DETAILS.items()}
        meant = events.of_text(pickles, any(fields.get("text", "").startswith(OPEN) for fields in texts["Cut"]), data)
        for detail, lines in texts.items():
            events.fields = {fields["text"]: fields for fields in lines if fields["kind"] in EVENTS}
            tally.compare(data, [fields["text"] for fields in lines if fields["kind"] in EVENTS], meant[detail])


def trials(program: pathlib.Path, folder: pathlib.Path, pickles: pathlib.Path) -> list[Trial]:
    run = functools.partial(try_lines.run, __file__, program, folder, try_lines.some_of(pickles))
    return [Trial("lines of calls beside their definition", run)]


if __name__ == "__main__":
    try_lines.main(Events, try_pickle, PAGES)
