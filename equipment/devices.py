"""Runs the program with each of its reads and each of its writes failing in turn, from outside, by equipment/break_devices.c."""

from __future__ import annotations

import functools
import os
import pathlib
import subprocess
from collections.abc import Callable

import conversations
from trials.trial import Trial

HERE = pathlib.Path(__file__).parent
BLOCKS = [block for page in ("conversations.txt", "texts.txt") for block in conversations.blocks_of((HERE / page).read_text("utf-8"))]


def answered(pickled: bytes, script: str) -> tuple[bytes, str, str, int]:
    """The bytes, the lines that are given, and what the pages say that they are answered, with the status."""
    block = next((block for block in BLOCKS if block.pickle == pickled and block.script == script.splitlines()), None)
    if block is None:
        raise LookupError(f"no conversation of these bytes has this script alone: {script!r}")
    answers = "".join(answer + "\n" for answer in block.answers)
    return pickled, script, answers, int(any(answer.startswith("refused: ") for answer in block.answers))


def written(pickled: bytes, task: str) -> str:
    """What the pages say that a task writes of bytes."""
    block = next(block for block in BLOCKS if block.pickle == pickled and task in block.written)
    return "".join(line + "\n" for line in block.written[task])


BREAKPOINTS = answered(bytes.fromhex("80049506000000000000005d944b01612e"), "break 4\nrun\nrun\nrun\ngoto 0\nclear 4\nrun\n")
BY_MEMO = answered(bytes.fromhex("5d71002868006800652e"), "goto 6\nshow 0\nback\nobjects\nstack\n")
LISTING = written(BY_MEMO[0], "list")
OBJECTS = written(BY_MEMO[0], "objects")
CALLS = "0 imports, 0 calls\n"
FORM = "not in form: item 2 at 2: STOP where the stack has not one object\n"
# Two pickles in one input, of which the first leaves a mark.
SEVERAL = answered(bytes.fromhex("284e2e4e2e"), "goto 3\nstack\nstep\nstack\nback\nstack\n")
SEVERAL_LISTING = written(SEVERAL[0], "list")
SEVERAL_OBJECTS = written(SEVERAL[0], "objects")
# Scripts, with their names and the options of the program; and tasks with their options, the bytes, and what is written of them.
SCRIPTS: tuple[tuple[str, list[str], tuple[bytes, str, str, int]], ...] = (
    ("breakpoints", [], BREAKPOINTS),
    ("a list appended to itself by memo", [], BY_MEMO),
    ("several pickles", ["--many"], SEVERAL),
    ("breakpoints, unframed", ["--unframed"], BREAKPOINTS),
)
TASKS = (
    (["list"], BY_MEMO[0], LISTING),
    (["objects"], BY_MEMO[0], OBJECTS),
    (["calls"], BY_MEMO[0], CALLS),
    (["form"], SEVERAL[0], FORM),
    (["list", "--many"], SEVERAL[0], SEVERAL_LISTING),
    (["objects", "--many"], SEVERAL[0], SEVERAL_OBJECTS),
    (["calls", "--many"], SEVERAL[0], CALLS),
    (["list", "--unframed"], BY_MEMO[0], LISTING),
    (["objects", "--unframed"], BY_MEMO[0], OBJECTS),
)
Done = subprocess.CompletedProcess[bytes]
Ran = tuple[Done, int, int, int]


class Devices:
    """Runs over a file, where something is saved, and how many reads and writes failed."""

    def __init__(self, program: str, library: Callable[[], pathlib.Path], folder: pathlib.Path) -> None:
        self.program = program
        self.library = library
        self.folder = folder
        self.file = folder / "device.pickle"
        self.out = folder / "device.out"
        self.count = folder / "device.count"
        self.broken = 0

    def run(self, words: list[str], script: str, **breaks: object) -> Ran:
        self.out.unlink(missing_ok=True)
        (self.folder / "script").write_text(script)
        environment = dict(os.environ, LD_PRELOAD=str(self.library()), DEVICES=str(self.count))
        environment.update({name: str(value) for name, value in breaks.items()})
        with open(self.folder / "script", "rb") as given:
            done = subprocess.run([self.program, *words], stdin=given, capture_output=True, timeout=600, env=environment)
        reads, writes, again = (int(part.split()[0]) for part in self.count.read_text().split(","))
        return done, reads, writes, again

    def fault_of(self, done: Done, words: str, text: str) -> str:
        """What is wrong with a run that met a broken device."""
        if done.returncode != 2 or done.stderr != f"picklestep: {words}\n".encode():
            return f"status {done.returncode}, errors {done.stderr!r}"
        if not text.startswith(done.stdout.decode()):
            return f"the output is {done.stdout!r}"
        if self.out.exists():
            return "something was saved"
        return ""

    def whole_lines(self, script: str, text: str, given: int) -> str | None:
        """The transcript of the lines that were given whole; None where these are not known."""
        lines = script[:given].count("\n")
        answers = text.splitlines(keepends=True)
        return "".join(answers[:lines]) if len(answers) == script.count("\n") else None

    def break_reads(self, words: list[str], script: str, text: str, most: int, is_script: bool) -> str:
        whole, reads, _, again = self.run(words, script, READ_MOST=most)
        if whole.stdout.decode() != text or again:
            return f"with reads of {most} bytes the output is {whole.stdout!r}"
        size = self.file.stat().st_size
        for number in range(1, reads + 1):
            done, _, _, again = self.run(words, script, READ_MOST=most, READ_FAIL=number)
            self.broken += 1
            why = self.fault_of(done, "cannot read", text)
            of_file = -(-size // most) + 1
            if not why and number > of_file and is_script:
                wanted = self.whole_lines(script, text, (number - of_file - 1) * most)
                if wanted is not None and done.stdout.decode() != wanted:
                    why = f"the output is {done.stdout!r} and not {wanted!r}"
            if not why and again:
                why = "a device is read again after its failure"
            if why:
                return f"with read {number} of {most} bytes failing: {why}"
        return ""

    def break_writes(self, words: list[str], script: str, text: str, most: int, saved: bool) -> str:
        whole, _, writes, again = self.run(words, script, WRITE_MOST=most)
        if whole.stdout.decode() != text or again:
            return f"with writes of {most} bytes the output is {whole.stdout!r}"
        if saved and self.out.read_bytes() != self.file.read_bytes():
            return f"with writes of {most} bytes other bytes are saved"
        for number in range(1, writes + 1):
            done, _, _, again = self.run(words, script, WRITE_MOST=most, WRITE_FAIL=number)
            self.broken += 1
            is_saving = saved and done.stdout.decode() == text
            if is_saving:
                why = "" if done.stderr == b"picklestep: cannot write\n" else f"errors {done.stderr!r}"
                if self.out.exists() or any(self.folder.glob("picklestep-save-*")):
                    why = "something was saved"
            else:
                why = self.fault_of(done, "cannot write", text)
            if not why and again:
                why = "a device is written again after its failure"
            if why:
                return f"with write {number} of {most} bytes failing: {why}"
        return ""

    def interrupt(self, words: list[str], script: str, text: str, most: int, saved: bool, *, is_reading: bool) -> str:
        """A signal interrupts each read, or each write, in turn: it is made again, and nothing is lost, read or written twice."""
        kind = "READ" if is_reading else "WRITE"
        _, reads, writes, _ = self.run(words, script, **{f"{kind}_MOST": most})
        calls = reads if is_reading else writes
        for number in range(1, calls + 1):
            done, reads, writes, _ = self.run(words, script, **{f"{kind}_MOST": most, f"{kind}_SIGNAL": number})
            self.broken += 1
            more = reads if is_reading else writes
            if (done.stdout.decode(), done.stderr) != (text, b"") or more != calls + 1:
                return f"with {kind.lower()} {number} of {calls} interrupted there are {more}, and the output is {done.stdout!r}"
            if saved and self.out.read_bytes() != self.file.read_bytes():
                return f"with {kind.lower()} {number} interrupted other bytes are saved"
        return "" if calls else f"there was no {kind.lower()}"

    def interrupt_all(self, is_reading: bool) -> str:
        """A task, and a conversation that is saved."""
        why = self.interrupt(["list", str(self.file)], "", LISTING, 7, False, is_reading=is_reading)
        words = ["debug", str(self.file), "--save", str(self.out)]
        return why or self.interrupt(words, BY_MEMO[1], BY_MEMO[2], 2, True, is_reading=is_reading)

    def shrink(self) -> str:
        """The file is emptied while it is read: what was read until then is listed, or reading fails."""
        for number in range(1, 8):
            self.file.write_bytes(BY_MEMO[0])
            done, _, _, _ = self.run(["list", str(self.file)], "", READ_MOST=2, SHRINK=self.file, SHRINK_AT=number)
            self.broken += 1
            cut = self.folder / "cut.pickle"
            cut.write_bytes(BY_MEMO[0][: 2 * (number - 1)])
            wanted = subprocess.run([self.program, "list", str(cut)], capture_output=True, timeout=600)
            if (done.stdout, done.returncode, done.stderr) != (wanted.stdout, wanted.returncode, b""):
                return f"emptied before read {number}, the output is {done.stdout!r}, status {done.returncode}"
        return ""

    def fault_of_script(self, words: list[str], script: str, text: str, most: int, is_reading: bool) -> str:
        """Breaks each read, or each write, of a conversation that is saved."""
        words = ["debug", *words, str(self.file), "--save", str(self.out)]
        if not is_reading:
            return self.break_writes(words, script, text, most, True)
        is_answered_by_lines = len(text.splitlines()) == len(script.splitlines())
        return self.break_reads(words, script, text, most, is_answered_by_lines)

    def fault_of_task(self, words: list[str], text: str, most: int, is_reading: bool) -> str:
        words = [*words, str(self.file)]
        if is_reading:
            return self.break_reads(words, "", text, most, False)
        return self.break_writes(words, "", text, most, False)

    def with_file(self, pickled: bytes, attempt: Callable[..., str], *given: object) -> str:
        """Tries something with these bytes in the file."""
        self.folder.mkdir(exist_ok=True)
        self.file.write_bytes(pickled)
        return attempt(*given)

    def closing(self) -> str:
        return f"{self.broken} reads and writes failed, by devices.py"


def trials(devices: Devices) -> list[Trial]:
    """Each script and each task, with each read and each write of this many bytes failing."""
    attempts: list[tuple[str, bytes, Callable[..., str], tuple[object, ...]]]
    attempts = [(name, pickled, devices.fault_of_script, (words, script, text)) for name, words, (pickled, script, text, _) in SCRIPTS]
    attempts += [(" ".join(words), pickled, devices.fault_of_task, (words, text)) for words, pickled, text in TASKS]
    found = [
        Trial(
            f"{name}, each {'read' if is_reading else 'write'} of {most} bytes failing",
            functools.partial(devices.with_file, pickled, attempt, *given, most, is_reading),
        )
        for name, pickled, attempt, given in attempts
        for most in (1, 2, 7)
        for is_reading in (True, False)
    ]
    shrink = functools.partial(devices.with_file, BY_MEMO[0], devices.shrink)
    return [
        *found,
        Trial("a file that is emptied while it is read", shrink),
        *(
            Trial(f"{name} that a signal interrupts", functools.partial(devices.with_file, BY_MEMO[0], devices.interrupt_all, is_reading))
            for name, is_reading in (("reads", True), ("writes", False))
        ),
    ]
