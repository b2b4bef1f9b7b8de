"""Runs in which each request for memory is refused in turn, by equipment/refuse_memory.c.

LD_PRELOAD takes blanks for separators. So the library and its files are named from the folder of the sample files, `..`, by a
path that has none.
"""

from __future__ import annotations

import functools
import itertools
import threading
from collections.abc import Callable, Iterator
from dataclasses import dataclass, field
from pathlib import Path

from picklestep.opcodes import TABLE

from .room import Room, Run, Word, beginning
from .samples import HOSTILE_CALLS, MEMBERS, MEMBERS_JSON, NOT_ALLOWED, PAIR_JSON, PAIR_LISTING, PAIR_OBJECTS, PAIR_OBJECTS_JSON, REACHED, SEVERAL, TWICE_OBJECTS
from .trial import Noted, Trial

LIBRARY = "refuse_memory"
MOST = 10_000
NO_MEMORY = "picklestep: out of memory\n"
TEST_ENDS = "test result: ok"


def is_part(found: Run, whole: str) -> str:
    """A beginning of the text was written, and then the fault as the one line of errors."""
    if found.status != 2 or found.errors != NO_MEMORY.encode():
        return f"status {found.status}, with errors that begin: {beginning(found.errors)}"
    if not whole.encode().startswith(found.output):
        return f"no beginning of the text, but: {beginning(found.output)}"
    return ""


def is_nothing(found: Run, _: str) -> str:
    """Nothing was written but the fault."""
    return found.difference(2, "", NO_MEMORY)


@dataclass(frozen=True)
class Command:
    """A command of the program: what it writes with ample memory, and what is asked of it where a request is refused."""

    name: str
    words: tuple[str, ...]
    output: str
    refused: Callable[[Run, str], str]
    saved: str = ""
    status: int = 0


PAIR = Command("listing a pair", ("list", "pair.pickle"), PAIR_LISTING, is_part)
COMMANDS = (
    PAIR,
    Command("JSON of a pair", ("list", "--json", "pair.pickle"), PAIR_JSON, is_part),
    Command("the objects of a pair", ("objects", "pair.pickle"), PAIR_OBJECTS, is_nothing),
    Command("JSON of the objects of a pair", ("objects", "--json", "pair.pickle"), PAIR_OBJECTS_JSON, is_nothing),
    Command("the calls of a pickle", ("calls", "hostile.pickle"), HOSTILE_CALLS, is_part),
    Command("the objects of two pickles", ("objects", "--many", "twice.pickle"), TWICE_OBJECTS, is_nothing),
    Command("what a list does not allow", ("gate", "names.list", "hostile.pickle"), NOT_ALLOWED, is_nothing, status=1),
    Command("what a list says of an archive", ("gate", "names.list", "two.zip"), "passes\n", is_nothing),
    Command("what a list says of several files", ("gate", "names.list", "none.pickle", "hostile.pickle"), SEVERAL, is_part, status=1),
    Command("JSON of what a list says of an archive", ("gate", "--json", "names.list", "two.zip"), '{"kind":"verdict","how":"passes","text":"passes"}\n', is_nothing),
    Command("what is reached", ("reach", "hostile.pickle"), REACHED, is_nothing, status=1),
    Command("the members of an archive", ("members", "two.zip"), MEMBERS, is_nothing),
    Command("JSON of the members of an archive", ("members", "--json", "two.zip"), MEMBERS_JSON, is_nothing),
    Command("whether pickles make the same", ("same", "pair.pickle", "pair.pickle"), "the same objects\n", is_nothing),
    Command("the table of opcodes", ("opcodes",), "".join(f"{info.name}: {info.sentence}\n" for info in TABLE), is_nothing),
    Command("JSON of whether pickles make the same", ("same", "--json", "pair.pickle", "pair.pickle"), '{"kind":"same","how":"same"}\n', is_nothing),
    Command(
        "saving a pickle from a window",
        ("debug", "doubled.pickle", "--window", "2", "--save", "saved.pickle"),
        "",
        is_nothing,
        saved="doubled.pickle",
    ),
)

# Tests of crates that take 'out of memory' for an answer, and look at what is left then.
TESTS = (
    ("unit_tests", "plain::whole::refused_memory"),
    ("unit_tests", "plain::opcodes::refused_memory"),
    ("unit_tests", "plain::lists::refused_memory"),
    ("script_tests", "texts::refused_memory"),
    ("document_tests", "document::refused_memory"),
    ("document_tests", "document::refused_memory_of_many"),
    ("unit_tests", "machine::refused_memory"),
    ("document_tests", "texts::refused_memory"),
)
# The same where notes of what is shown after each line are made before, with ample memory. A line to standard output says so.
NOTED_TESTS = (
    ("script_tests", "conversations::refused_memory"),
    ("script_tests", "conversations::refused_memory_of_further"),
    ("script_tests", "conversations::refused_memory_of_many"),
    ("script_tests", "conversations::refused_memory_of_one_as_many"),
    ("script_tests", "conversations::refused_memory_of_further_as_many"),
)
# Real pickles under a script, with notes of the same kind.
SCRIPTS = ("sklearn_tree_protocol_4", "sklearn_pipeline_protocol_4", "sklearn_encoder_protocol_0")
# Two tests of a crate that ask for memory as often, and so what the second does besides asks for none.
ALIKE = (
    ("no step back and no free step asks for memory", "unit_tests", ("machine::forwards", "machine::there_and_back_again")),
    ("no free step and no way back of a session asks for memory", "unit_tests", ("session::forwards", "session::no_memory_for_free_steps")),
)


@dataclass
class Memory:
    """`said` has the commands that said, at least once, that they have no memory."""

    room: Room
    tried: dict[str, Noted] = field(default_factory=dict)
    said: set[str] = field(default_factory=set)
    locks: dict[str, threading.Lock] = field(default_factory=lambda: {command.name: threading.Lock() for command in COMMANDS})
    numbers: Iterator[int] = field(default_factory=itertools.count)

    def new_file(self) -> Path:
        """A path of its own for what a run says."""
        return self.room.folder / f"said{next(self.numbers)}"

    def observe(self, settings: dict[str, str], *words: Word) -> Run:
        """Runs a command under the library with these settings."""
        library = self.room.library(LIBRARY)
        given = [f"{name}={value}" for name, value in settings.items()]
        return self.room.observe("env", *given, f"LD_PRELOAD=../{library.name}", *words)

    def fault_of(self, command: Command, found: Run, is_refused: bool) -> str:
        if found.status != command.status and is_refused:
            if found.errors == NO_MEMORY.encode():
                self.said.add(command.name)
            return command.refused(found, command.output)
        why = found.difference(command.status, command.output, "")
        if not why and command.saved:
            files = self.room.files
            if (files / "saved.pickle").read_bytes() != (files / command.saved).read_bytes():
                why = f"saved.pickle is not {command.saved}"
        return why

    def in_turn(self, command: Command) -> Noted:
        """Runs a command with its first request refused, with its second, and so on, until a run has none of that number."""
        mark = self.new_file()
        why = ""
        for number in range(1, MOST + 1):
            mark.unlink(missing_ok=True)
            settings = {"FAIL_AT": str(number), "REFUSED_MARK": f"../{mark.name}"}
            found = self.observe(settings, self.room.proved, *command.words)
            why = self.fault_of(command, found, mark.exists())
            if why:
                why = f"with allocation {number} refused: {why}"
            if why or not mark.exists():
                break
        else:
            why = "there was no end of allocations"
        if not why and number == 1:
            why = "no allocation was refused"
        return Noted(why, f", with {number - 1} allocations refused in turn")

    def tried_once(self, command: Command) -> Noted:
        with self.locks[command.name]:
            if command.name not in self.tried:
                self.tried[command.name] = self.in_turn(command)
        return self.tried[command.name]

    def line_is_written(self) -> str:
        """Without this, a program that ended in silence would pass."""
        self.tried_once(PAIR)
        return "" if PAIR.name in self.said else "it was never written"

    def each(self, last_line: str, is_behind: bool, *words: Word) -> Noted:
        """Runs a command, and at each of its requests a copy in which this one is refused. All end well, and with this line."""
        report = self.new_file()
        settings = {"FAIL_EACH": f"../{report.name}", "LAST_LINE": last_line, "FAIL_BEHIND": str(int(is_behind))}
        found = self.observe(settings, *words)
        lines = report.read_text("utf-8").splitlines() if report.exists() else []
        # (the last line is 'N refused, M wrong')
        counts = [int(word) for word in lines[-1].split() if word.isdigit()] if lines else []
        refused, wrong = counts if len(counts) == 2 else (0, 0)
        why = ""
        if found.status != 0 or found.output.splitlines()[-1:] != [last_line.encode()]:
            why = f"status {found.status}, with errors that begin: {beginning(found.errors)}"
        elif refused == 0 or wrong != 0:
            why = f"{refused} refused, {wrong} wrong, first: {''.join(lines[:1])}"
        return Noted(why, f", with {refused} requests refused in turn")

    def of_test(self, crate: str, test: str, is_behind: bool) -> Noted:
        return self.each(TEST_ENDS, is_behind, self.room.built(crate, f"{crate}_tests"), test)

    def of_script(self, pickle: str) -> Noted:
        """Requests before the first text, which open the document, pass."""
        runs = self.room.built("session_tests", "session_tests")
        return self.each("as noted", True, runs, "memory", self.room.pickles / f"{pickle}.pickle")

    def requests_of(self, crate: str, test: str) -> int:
        count = self.new_file()
        count.write_bytes(b"")
        found = self.observe({"REQUESTS": f"../{count.name}"}, self.room.built(crate, f"{crate}_tests"), test)
        if found.status != 0 or found.output.splitlines()[-1:] != [TEST_ENDS.encode()]:
            raise ValueError(f"{test}: status {found.status}, with errors that begin: {beginning(found.errors)}")
        return count.stat().st_size

    def ask_alike(self, crate: str, tests: tuple[str, str]) -> Noted:
        first, second = (self.requests_of(crate, test) for test in tests)
        why = ""
        if first == 0 or first != second:
            why = f"{tests[0]} asks {first} times for memory, and {tests[1]} {second} times"
        return Noted(why, f", by {first} requests")


def prepare(room: Room) -> None:
    """Makes what the trials share, before they run side by side."""
    room.library(LIBRARY)
    assert room.files.is_dir()


def trials(room: Room) -> list[Trial]:
    memory = Memory(room)
    commands = [Trial(command.name, functools.partial(memory.tried_once, command)) for command in COMMANDS]
    commands.insert(1, Trial("the line of out of memory", memory.line_is_written))
    tests = [
        Trial(f"test {crate} {test}", functools.partial(memory.of_test, crate, test, is_behind))
        for rows, is_behind in ((TESTS, False), (NOTED_TESTS, True))
        for crate, test in rows
    ]
    scripts = [Trial(f"a script over {pickle}", functools.partial(memory.of_script, pickle)) for pickle in SCRIPTS]
    alike = [Trial(name, functools.partial(memory.ask_alike, crate, tests)) for name, crate, tests in ALIKE]
    return commands + tests + scripts + alike
