#!/usr/bin/env python3
"""Compares lines of the program, and what the package reads of them, with the definitions of these lines.

    try_lines.py [--crates FOLDER] PROGRAM FOLDER [PICKLE..]

The definitions of crates/*/specs, evaluated by antt.py, say what the opcodes of a pickle are, what each comes to, and where they end: of the
rows of texts.txt and conversations.txt, of each opcode alone and a few that are made, and of the pickles that are given. The program's listings
and reports have to be what `item_line`, `object_line` and the definitions of closing lines make of that, line by line, the stack and the memo
what `stack_text` and `memo_text` do, and what the package reads of a line has to be what the line was made of. FOLDER is for the file that the
program is asked about. What is printed is JSON: how many lines there were, which opcodes, kinds of objects and closing lines there are none of,
and what differs.
"""

from __future__ import annotations

import argparse
import functools
import hashlib
import itertools
import json
import pathlib
import re
import struct
import subprocess
import sys
from collections.abc import Callable, Iterator, Sequence
from dataclasses import dataclass, field
from random import Random
from types import SimpleNamespace
from typing import Any, NamedTuple, Optional, Protocol, TypeVar, Union

import antt
from antt_words import NONE, Made, Value, some
from definition import ROOT, program_of, short, with_deep_stack

sys.path.append(str(ROOT / "python"))

import conversations  # noqa: E402
import fuzz  # noqa: E402
import json_of_answers  # noqa: E402
import json_of_texts  # noqa: E402
from picklestep import listed, made  # noqa: E402
from picklestep.listing_records import Change, Object, Opcode  # noqa: E402
from picklestep.made import object_of  # noqa: E402
from picklestep.records import End, Ref  # noqa: E402
from picklestep.session_records import Mark  # noqa: E402
from picklestep.conversation import Memo, Stack  # noqa: E402
from trials.trial import Noted, Trial  # noqa: E402

OPS = "Rattle.pickle_ops.specs"
DOC = "Rattle.pickle_doc.specs"
MACHINE = "Rattle.pickle_machine.specs"
SHOWN = "Rattle.pickle_text.specs"
OBJECTS = "Rattle.object_texts.specs"
PAGES = ("texts.txt", "conversations.txt")
# The definitions that are evaluated, and the files that have them.
WORDS = (
    (f"{OPS}.Front", ("front_of",)),
    (f"{OPS}.Table", ("code_of", "name_of", "form_of")),
    (f"{OPS}.Text", ("is_long",)),
    (f"{OPS}.Argument", ("has_number", "number_of", "has_integer", "integer_of", "has_payload", "payload", "long_of", "texts_of")),
    (f"{DOC}.Tail", ("tail_fault",)),
    (f"{DOC}.Fitting", ("left_behind",)),
    (f"{MACHINE}.State", ("start", "stack_size")),
    (f"{MACHINE}.Move", ("fresh", "move")),
    ("Rattle.pickle_list.specs.Listing", ("note_with", "note_unless")),
    ("Rattle.pickle_list.specs.Line", ("item_line", "note_text", "refused_line", "left_line", "protocol_line", "highest_protocol")),
    (f"{SHOWN}.ReportLine", ("refusal_text", "fault_at", "fault_line")),
    (f"{SHOWN}.Closing", ("kept_line", "refused_item_line")),
    (f"{SHOWN}.Words", ("kind_text",)),
    (f"{OBJECTS}.Report", ("result_line",)),
    (f"{OBJECTS}.ObjectText", ("object_line",)),
    (f"{OBJECTS}.StackText", ("stack_text",)),
    (f"{OBJECTS}.MemoText", ("memo_text",)),
)
# A long number below 0, a float that is no number, each byte in quotes, and names with quotes, blanks and backslashes.
SPECIAL = (b"\x8a\x11" + bytes(16) + b"\x80.", b"G\xff\xf8\0\0\0\0\0\1.", b"B\0\1\0\0" + bytes(range(256)) + b".", b"c' '\\\n\\' (#1) +#2\n.")
# Each opcode alone.
SEED = 1
ALONE = tuple(fuzz.spelled(name, Random(SEED)) for name in fuzz.OPCODES)
# The closing lines.
CLOSINGS = ("refused_line", "refused_item_line", "fault_line", "left_line", "kept_line", "protocol_line", "result_line")
HOW = {"Append": "append", "Add": "add", "Build": "state"}
SCRIPT = "run\nstack\nmemo\n"
# How many differences are shown, and how much of a pickle.
MOST_SHOWN = 3
MOST_BYTES = 1000


@dataclass(frozen=True)
class Line:
    """A line as its definition writes it, and what it is made of, as the package has that."""

    text: str
    of: Any
    read: Callable[[str], Any]

    def reading(self, text: str) -> str:
        """What is read of a line of the program, or what the reader raises, as a text: 1.0 is equal to 1, and a float that is no number to none."""
        try:
            return repr(self.read(text))
        except Exception as fault:
            return f"{type(fault).__name__}: {fault}"


def text_of(codes: Sequence[int]) -> str:
    return bytes(codes).decode("ascii")


def float_of(payload: Sequence[int]) -> float:
    number: float = struct.unpack(">d", bytes(payload))[0]
    return number


def words_of(program: antt.Program, words: Sequence[tuple[str, Sequence[str]]]) -> SimpleNamespace:
    """The definitions of these names, each with the file that has it."""
    return SimpleNamespace(**{name: program.value(path, name) for path, names in words for name in names})


def kinds_of(program: antt.Program, path: str, name: str) -> list[str]:
    """The kinds of objects that a definition tells apart."""
    clauses = program.modules[path].clauses[name]
    return [f"Kind.{clause.split('kind.')[1].split()[0].rstrip(')')}" for clause in clauses if "kind." in clause]


def codes_in(program: antt.Program, name: str) -> list[str]:
    """The codes of the refusals, or of the faults, that a definition has words for. (Memory is refused nowhere here.)"""
    return re.findall(r'codes "([A-Z][0-9]+) ', "".join(program.modules[f"{SHOWN}.ReportLine"].clauses[name]))


def operation_of(front: Made) -> dict[str, Value]:
    return {"opcode": front.parts[0], "arg": front.parts[1]}


def reported_in(line: str, refused: Optional[int]) -> End:
    """How reading ended, as the package reads it of the line of JSON that says the same as this line of a report."""
    return made.end_of([*json_of_texts.of_objects(line)][-1], refused)


def results_of(line: str) -> Sequence[int]:
    return made.results_in(b"".join(json.dumps(fields, separators=(",", ":")).encode() + b"\n" for fields in json_of_texts.of_objects(line)))


def answer_in(line: str) -> bytes:
    """The answer of `debug --json` that says the same as this line of `debug`."""
    return json.dumps(json_of_answers.of_answer(line.split()[0], line, {}), separators=(",", ":")).encode("ascii") + b"\n"


def end_in(line: str, *refused: Optional[int]) -> End:
    """How reading ended, in the same way."""
    return listed.end_of(json_of_texts.of_end([line.rstrip("\n")]), refused)


def left_in(line: str) -> list[tuple[int, int]]:
    """What a STOP left, in the same way."""
    return listed.left_of("".join(json.dumps(found, separators=(",", ":")) + "\n" for found in json_of_texts.of_listing(line)).encode("ascii"))


def two_of(texts: dict[str, Value]) -> tuple[bytes, bytes]:
    return bytes(texts["first"]), bytes(texts["second"])


def change_of(change: Made) -> Change:
    if short(change) == "SetItem":
        key, value = change.parts
        return Change("set", value, key)
    return Change(HOW[short(change)], *change.parts)


class Closings(NamedTuple):
    """How a listing and a report say why they end."""

    listed: list[Line]
    reported: list[Line]


@dataclass
class Texts:
    """The lines of a listing and of a report, those of a listing of the first pickle alone where there is one, and the state behind them."""

    state: dict[str, Value]
    listing: list[Line] = field(default_factory=list)
    first: list[Line] = field(default_factory=list)
    report: list[Line] = field(default_factory=list)


class Lines:
    """The lines of pickles. `shown` has the opcodes, the kinds of objects, the closing lines and the codes in them that had one."""

    def __init__(self, crates: pathlib.Path) -> None:
        program = program_of(crates)
        self.words = words_of(program, WORDS)
        self.opcodes = [text_of(self.words.name_of(opcode)) for opcode in program.value(f"{OPS}.declared.opcode.TheConstants", "ALL")]
        self.kinds = kinds_of(program, f"{SHOWN}.Words", "kind_text")
        self.ends = [*codes_in(program, "refusal_words"), *codes_in(program, "tail_words")]
        self.shown: set[str] = set()

    def lacks(self) -> list[str]:
        return sorted({*self.opcodes, *self.kinds, *self.ends, *CLOSINGS} - self.shown)

    def argument(self, operation: dict[str, Value]) -> Union[None, int, float, bytes, tuple[bytes, bytes]]:
        form, arg = self.words.form_of(operation["opcode"]), operation["arg"]
        if self.words.is_long(operation["opcode"]):
            return int(self.words.long_of(self.words.payload(form, arg)))
        if self.words.has_number(form) or self.words.has_integer(form):
            return int(self.words.number_of(form, arg) if self.words.has_number(form) else self.words.integer_of(form, arg))
        if short(form) == "Two":
            return two_of(self.words.texts_of(arg))
        if not self.words.has_payload(form):
            return None
        is_float = text_of(self.words.name_of(operation["opcode"])) == "BINFLOAT"
        return float_of(arg) if is_float else bytes(self.words.payload(form, arg))

    def of_opcode(self, operation: dict[str, Value], state: dict[str, Value], offsets: Sequence[int], refusal: Made) -> Line:
        """The line of an opcode on the state before it. `offsets` are its own and those before it."""
        opcode, marked = operation["opcode"], state["marked"]
        top = some(offsets[marked[0]["place"]]) if marked else NONE
        note = self.words.note_unless(refusal, self.words.note_with(operation, state, top))
        said = text_of(self.words.note_text(note.parts[0]))[1:-1] if note.parts else ""
        name = text_of(self.words.name_of(opcode))
        self.shown.add(name)
        of = Opcode(offsets[-1], bytes([self.words.code_of(opcode)]), name, self.argument(operation), said, len(marked))
        return Line(text_of(self.words.item_line(operation, offsets[-1], len(marked), note)), of, lambda line: listed.opcode_of(json_of_texts.of_opcode(line)))

    def said(self, kind: Made) -> Union[None, int, float, bytes, tuple[bytes, bytes]]:
        """What the opcode of an object says of it."""
        if not kind.parts:
            return None
        value, = kind.parts
        if isinstance(value, dict):
            return two_of(value)
        if isinstance(value, int):
            return value
        return {"Long": self.words.long_of, "Float": float_of}.get(short(kind), bytes)(value)

    def of_object(self, number: int, made: dict[str, Value]) -> Line:
        kind = made["kind"]
        self.shown.add(kind.name)
        word = text_of(self.words.kind_text(kind)).partition(" ")[0]
        of = Object(number, word, self.said(kind), made["parts"], tuple(map(change_of, made["changes"])))
        return Line(text_of(self.words.object_line(number, made)), of, lambda line: object_of(json_of_texts.of_object(line)))

    def of_stack(self, state: dict[str, Value]) -> Line:
        under: list[Union[Ref, Mark]] = []
        for marked in reversed(state["marked"]):
            under += [*map(Ref, marked["section"]), Mark(marked["place"])]
        return Line(text_of(self.words.stack_text(state)), (*under, *map(Ref, state["top"])), lambda line: Stack(answer_in(line)).all())

    def of_memo(self, state: dict[str, Value]) -> Line:
        return Line(text_of(self.words.memo_text(state["memo"])), dict(entry.parts for entry in state["memo"]), lambda line: Memo(answer_in(line)).all())

    # --- Closing lines ---

    def closing(self, name: str, of: Any, read: Callable[[str], Any], *values: Value) -> list[Line]:
        """The line that this definition makes of values, if it makes one."""
        text = text_of(getattr(self.words, name)(*values))
        self.shown.update([name] if text else [])
        return [Line(text, of, read)] if text else []

    def end(self, how: str, text: str, offset: int, item: Optional[int] = None) -> End:
        code = text.split()[0]
        self.shown.add(code)
        return End(how, code, text, offset, item)

    def of_refusal(self, refusal: Made, offset: int, place: int) -> Closings:
        """How a listing and a report close where this opcode is refused."""
        end = self.end("refused", text_of(self.words.refusal_text(refusal)), offset, place)
        listed = self.closing("refused_line", end, lambda line: end_in(line, offset, place), refusal)
        return Closings(listed, self.closing("refused_item_line", end, lambda line: reported_in(line, offset), place, refusal))

    def of_fault(self, fault: Made, offset: int) -> Closings:
        """The same where the bytes cannot be read on."""
        end = self.end("fault", text_of(self.words.fault_at(fault, offset)), offset)
        listed = self.closing("fault_line", end, lambda line: end_in(line, None, None), fault, offset)
        return Closings(listed, self.closing("fault_line", end, lambda line: reported_in(line, None), fault, offset))

    def of_stop(self, state: dict[str, Value]) -> list[Line]:
        """What STOP left, behind its line."""
        left = self.words.stack_size(state), len(state["marked"])
        return self.closing("left_line", [left], left_in, *left)

    def of_kept(self, count: int) -> list[Line]:
        """The bytes behind STOP, where one pickle is read."""
        return self.closing("kept_line", count, lambda line: json_of_texts.of_end([line])["kept"], count)

    def of_protocol(self, operations: Sequence[dict[str, Value]]) -> list[Line]:
        highest = self.words.highest_protocol(tuple(operations))
        of = highest.parts[0] if highest.parts else None
        return self.closing("protocol_line", of, lambda line: json_of_texts.of_end([line]).get("protocol"), highest)

    def of_results(self, state: dict[str, Value]) -> list[Line]:
        return [line for number in state["results"] for line in self.closing("result_line", (number,), results_of, number)]

    # --- Texts ---

    def fronts(self, data: bytes) -> Iterator[tuple[int, Made, Made]]:
        """What is at the front of the bytes, with its offset, and then of those that are left: opcodes, up to a fault."""
        rest, left, fault = tuple(data), 0, NONE
        while not fault.parts:
            front = self.words.front_of(rest)
            fault = self.words.tail_fault(False, left, front)
            yield len(data) - len(rest), front, fault
            if not fault.parts:
                rest, left = front.parts[2], self.words.left_behind(False, left, operation_of(front))

    def follow(self, data: bytes) -> Texts:
        """The texts of these bytes, up to an opcode that is refused or a fault."""
        texts, closing = Texts(self.words.start(True)), Closings([], [])
        operations: list[dict[str, Value]] = []
        offsets: list[int] = []
        for offset, front, fault in self.fronts(data):
            if fault.parts:
                # (behind STOP the bytes may end)
                if short(front) != "Ended" or not texts.state["stopped"]:
                    closing = self.of_fault(*fault.parts, offset)
                break
            operations.append(operation_of(front))
            offsets.append(offset)
            moved = self.words.move(operations[-1], len(offsets) - 1, texts.state)
            refusal = some(*moved.parts) if short(moved) == "Err" else NONE
            texts.listing.append(self.of_opcode(operations[-1], self.words.fresh(texts.state), offsets, refusal))
            if refusal.parts:
                closing = self.of_refusal(*refusal.parts, offset, len(offsets) - 1)
                break
            texts.state, = moved.parts
            if texts.state["stopped"]:
                texts.listing += self.of_stop(texts.state)
                kept = self.of_kept(len(front.parts[2]))
                if kept and not texts.first:
                    texts.first = [*texts.listing, *kept, *self.of_protocol(operations)]
        texts.listing += [*closing.listed, *self.of_protocol(operations)]
        texts.report = [*itertools.starmap(self.of_object, enumerate(texts.state["heap"])), *self.of_results(texts.state), *closing.reported]
        return texts


def named(data: bytes) -> str:
    """A pickle as a difference has it: a long one by its sum."""
    if len(data) <= MOST_BYTES:
        return data.hex()
    return f"{data[:MOST_BYTES].hex()}.. ({len(data)} bytes, SHA-256 {hashlib.sha256(data).hexdigest()})"


@dataclass
class Tally:
    """How many lines were compared, what differs, and what no line shows."""

    lines: int = 0
    different: list[str] = field(default_factory=list)
    lacks: list[str] = field(default_factory=list)

    def compare(self, data: bytes, found: Sequence[str], meant: Sequence[Line]) -> None:
        pickle = named(data)
        if len(found) != len(meant):
            self.different.append(f"{len(found)} lines and not {len(meant)}: {pickle}")
        for text, line in zip(found, meant):
            self.lines += 1
            if f"{text}\n" != line.text:
                self.different.append(f"'{text}' and not '{line.text}': {pickle}")
            elif line.reading(text) != repr(line.of):
                self.different.append(f"of '{text}' is read {line.reading(text)} and not {line.of}")


@dataclass
class Program:
    """The program, asked about a file."""

    path: str
    file: pathlib.Path

    def lines(self, *words: str, script: str = "") -> list[str]:
        done = subprocess.run([self.path, *words, self.file], input=script.encode(), capture_output=True, check=False, timeout=600)
        return done.stdout.decode("ascii").split("\n")[:-1]


def try_pickle(lines: Lines, program: Program, tally: Tally, data: bytes) -> None:
    program.file.write_bytes(data)
    texts = lines.follow(data)
    tally.compare(data, program.lines("list", "--many"), texts.listing)
    tally.compare(data, program.lines("objects", "--many"), texts.report)
    if texts.first:
        tally.compare(data, program.lines("list"), texts.first)
    tally.compare(data, program.lines("debug", "--many", script=SCRIPT)[1:], [lines.of_stack(texts.state), lines.of_memo(texts.state)])


def pickles_of(pages: Sequence[str], given: Sequence[bytes]) -> Iterator[bytes]:
    """The pickles of rows, those that are made, and those that are given, each once."""
    yield from dict.fromkeys([*rows(pages), *SPECIAL, *ALONE, *given])


def rows(pages: Sequence[str]) -> Iterator[bytes]:
    for page in pages:
        for block in conversations.blocks_of((ROOT / "equipment" / page).read_text("utf-8")):
            yield block.pickle


def run(script: str, program: pathlib.Path, folder: pathlib.Path, pickles: Sequence[pathlib.Path]) -> Noted:
    """Runs this script, or the other that compares lines, in a process of its own."""
    folder.mkdir(parents=True, exist_ok=True)
    words = [sys.executable, "-B", script, str(program), str(folder), *map(str, pickles)]
    done = subprocess.run(words, capture_output=True, text=True, check=False, timeout=1800)
    if done.returncode != 0:
        return Noted(f"it ended with status {done.returncode}: {done.stderr.strip()[-300:]}", "")
    found = json.loads(done.stdout)
    different, lacks = found["different"], found["lacks"]
    why = f"{len(different)} differences, first {'; '.join(different[:MOST_SHOWN])}" if different else ""
    return Noted(why or (f"no line shows {', '.join(lacks)}" if lacks else ""), f": {found['lines']} lines")


def trials(program: pathlib.Path, folder: pathlib.Path, pickles: pathlib.Path) -> list[Trial]:
    return [Trial("lines beside their definitions", functools.partial(run, __file__, program, folder, some_of(pickles)))]


def some_of(pickles: pathlib.Path) -> list[pathlib.Path]:
    """Every fourth real pickle, since a definition takes long to evaluate. (All are compared with `pickletools` and with their lines of JSON.)"""
    return sorted(pickles.glob("*.pickle"))[::4]


class Shows(Protocol):
    def lacks(self) -> list[str]: ...


Of = TypeVar("Of", bound=Shows)


def main(read: Callable[[pathlib.Path], Of], try_one: Callable[[Of, Program, Tally, bytes], None], pages: Sequence[str]) -> None:
    """Reads the definitions, and tries each pickle by them: of these pages, those that are made, and those that are given."""
    parser = argparse.ArgumentParser()
    parser.add_argument("--crates", type=pathlib.Path, default=ROOT / "crates")
    parser.add_argument("program")
    parser.add_argument("folder", type=pathlib.Path)
    parser.add_argument("pickles", type=pathlib.Path, nargs="*")
    words = parser.parse_args()
    given = [path.read_bytes() for path in words.pickles]
    program = Program(words.program, words.folder / "tried.pickle")

    def tried() -> Tally:
        tally, definitions = Tally(), read(words.crates)
        for data in pickles_of(pages, given):
            try_one(definitions, program, tally, data)
        tally.lacks = definitions.lacks()
        return tally

    found = with_deep_stack(tried)
    print(json.dumps({**vars(found), "different": sorted(found.different, key=len)}))


if __name__ == "__main__":
    main(Lines, try_pickle, PAGES)
