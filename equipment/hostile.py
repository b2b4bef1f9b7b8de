"""Gives the program inputs that are deep or long, with a stack of 256 KiB, and some to the library, which answers in this process.

(Inputs that are cut short have a law of fuzz.py.)
"""

from __future__ import annotations

import dataclasses
import functools
import pathlib
import pickletools
import re
import resource
import subprocess
from collections.abc import Callable

from fuzz import Library
from trials.trial import Trial

STACK = 256 * 1024
OPCODES = {opcode.name: opcode for opcode in pickletools.opcodes}
ITEM = re.compile(r" *(\d+): \S+ +(\S+)(?: +(\d+))?")


@functools.cache
def library(file: str) -> Library:
    return Library(pathlib.Path(file))


def is_library(program: str) -> bool:
    return program.endswith(".so")


def answer(program: str, words: list[str], script: str = "") -> tuple[str, int]:
    """The text and the status, of the program or in this process of the library."""
    if is_library(program):
        text, status = library(program).answers(words, script.encode())
        return text.decode(), status
    done = subprocess.run([program, *words], input=script.encode(), capture_output=True, timeout=600, close_fds=False)
    if done.stderr:
        raise ValueError(f"errors {done.stderr[:100]!r}")
    return done.stdout.decode(), done.returncode


def debug(program: str, file: pathlib.Path, script: str) -> tuple[str, int, bool]:
    """The transcript, and whether the bytes are saved as they were. (The library saves nothing.)"""
    if is_library(program):
        return (*answer(program, ["debug", str(file)], script), True)
    saved = file.with_name("saved.pickle")
    text, status = answer(program, ["debug", str(file), "--save", str(saved)], script)
    return text, status, saved.read_bytes() == file.read_bytes()


def many_marks(program: str, file: pathlib.Path) -> bool:
    file.write_bytes(b"(" * 100_000 + b"N.")
    found = debug(program, file, "goto 100002\nwhere\ngoto 0\nwhere\nstack\n")
    end = "buffers 0, result {}, end stopped\n"
    text = "at 100002\nat 100002 of 100002, offset 100002, " + end.format("#0") + "at 0\nat 0 of 100002, offset 0, " + end.format("none") + "stack\n"
    return found == (text, 0, True)


def deep_listing(program: str, file: pathlib.Path) -> bool:
    file.write_bytes(b"(" * 1000 + b"N.")
    text, status = answer(program, ["list", str(file)])
    lines = text.splitlines()
    wanted = [f"{k:5d}: (    {'    ' * k}MARK" for k in range(1000)] + [f" 1000: N    {' ' * 4000}NONE", f" 1001: .    {' ' * 4000}STOP", "left: 0 objects, 1000 marks"]
    return lines[:-1] == wanted and lines[-1] == "highest protocol among opcodes = 0" and status == 0


def deep_tuples(program: str, file: pathlib.Path) -> bool:
    file.write_bytes(b")" + b"\x85" * 100_000 + b".")
    text, status, is_same = debug(program, file, "run\nshow 100000\n")
    wanted = ["at 100002: end, stopped"] + [f"{k} #{100_000 - k} tuple (#{99_999 - k})" for k in range(100_000)] + ["100000 #0 tuple"]
    return text.splitlines() == wanted and (status, is_same) == (0, True)


def doublings(program: str, file: pathlib.Path) -> bool:
    file.write_bytes(b")" + b"2\x86" * 40 + b".")
    text, status, is_same = debug(program, file, "run\nshow 40\n")
    wanted = ["at 82: end, stopped"] + [f"{k} #{40 - k} tuple (#{39 - k} #{39 - k})" for k in range(40)] + ["40 #0 tuple"]
    wanted += [f"{40 - k} #{k}" for k in range(40)]
    return text.splitlines() == wanted and (status, is_same) == (0, True)


def deep_lists(program: str, file: pathlib.Path) -> bool:
    file.write_bytes(b"]" * 100_001 + b"a" * 100_000 + b".")
    text, status, is_same = debug(program, file, "run\nshow 0\n")
    wanted = ["at 200002: end, stopped"] + [f"{k} #{k} list +#{k + 1}" for k in range(100_000)] + ["100000 #100000 list"]
    return text.splitlines() == wanted and (status, is_same) == (0, True)


def many_parts(program: str, file: pathlib.Path) -> bool:
    file.write_bytes(b"(" + b"N" * 100_000 + b"t.")
    text, status = answer(program, ["objects", str(file)])
    parts = " ".join(f"#{k}" for k in range(100_000))
    wanted = [f"#{k} none" for k in range(100_000)] + [f"#100000 tuple ({parts})", "result #100000"]
    return text.splitlines() == wanted and status == 0


def deep_arguments(program: str, file: pathlib.Path) -> bool:
    file.write_bytes(b"cm\nn\n)" + b"\x85" * 100_000 + b"R(cm\nn\n" + b"N" * 100_000 + b"o.")
    wanted = ["    0: import 'm' 'n' as #0", "100006: call 'm' 'n' (#100000) as #100002", "100008: import 'm' 'n' as #100003"]
    wanted += [f"200013: call 'm' 'n' ({'none, ' * 16}+99984) as #200004", "2 imports, 2 calls", "warning: #101 is a tuple nested deeper than 100"]
    text, status = answer(program, ["calls", str(file)])
    return text.splitlines() == wanted and status == 1


def deep_readings(program: str, file: pathlib.Path) -> bool:
    """An argument that is nested deeply and is not gone into, and many open marks, in each reading with whole arguments."""
    file.write_bytes(b"cm\nn\nN" + b"\x85" * 20_000 + b"R" + b"(" * 20_000 + b"N.")
    lines = "    0: import 'm' 'n' as #0\n20006: call 'm' 'n' (#20000) as #20002\n1 imports, 1 calls\n"
    warned = (f"{lines}warning: #102 is a tuple nested deeper than 100\n", 1)
    wanted = [([], warned), (["--first"], warned), (["--memo", "kept"], (lines, 0))]
    return all(answer(program, ["calls", "--full", *words, str(file)]) == said for words, said in wanted)


def many_entries(program: str, file: pathlib.Path) -> bool:
    file.write_bytes(b"N" + b"\x94" * 100_000 + b".")
    text, status, is_same = debug(program, file, "run\nmemo\ngoto 0\nmemo\n")
    entries = "".join(f" {k}=#0" for k in range(100_000))
    return text.splitlines() == ["at 100002: end, stopped", "memo" + entries, "at 0", "memo"] and (status, is_same) == (0, True)


LARGEST = ["55ff", "58ffffffff", "54ffffff7f", "8e" + "ff" * 8, "96" + "ff" * 8, "95" + "ff" * 8]


def largest_lengths(program: str, file: pathlib.Path) -> bool:
    for spelled in LARGEST:
        file.write_bytes(bytes.fromhex(spelled))
        fault = "F7 frame past the end" if spelled.startswith("95") else "F3 truncated"
        if answer(program, ["list", str(file)]) != (f"fault: {fault} at 0\n", 1) or debug(program, file, "") != ("", 0, True):
            return False
    return True


def single_bytes(program: str, file: pathlib.Path) -> bool:
    names = {ord(opcode.code): opcode.name for opcode in pickletools.opcodes}
    for byte in range(256):
        file.write_bytes(bytes([byte]))
        text, _ = answer(program, ["list", str(file)])
        if debug(program, file, "") != ("", 0, True):
            return False
        if byte not in names:
            is_so = text == f"fault: F2 unknown opcode 0x{byte:02x} at 0\n"
        elif OPCODES[names[byte]].arg is not None:
            is_so = text == "fault: F3 truncated at 0\n"
        else:
            found = ITEM.match(text)
            is_so = found is not None and found.groups() == ("0", names[byte], None)
        if not is_so:
            return False
    return True


ROWS = [
    ("100,000 marks, there and back", many_marks, 1),
    ("a thousand marks, listed", deep_listing, 1),
    ("100,000 tuples in one another", deep_tuples, 1),
    ("forty doublings", doublings, 1),
    ("100,000 lists in one another", deep_lists, 1),
    ("a tuple of 100,000 parts", many_parts, 1),
    ("100,000 memo entries", many_entries, 1),
    ("a deep argument, and 100,000 arguments", deep_arguments, 1),
    ("a deep argument and open marks, in each reading", deep_readings, 3),
    ("lengths at their largest", largest_lengths, len(LARGEST)),
    ("each byte alone", single_bytes, 256),
]
# Those of the library, which is made of the same code: objects in one another, a long line, and lines of calls.
OF_LIBRARY = (deep_tuples, many_parts, deep_arguments)


def limit_stack() -> None:
    """For this process, in which the library is, and so for each program that it starts."""
    resource.setrlimit(resource.RLIMIT_STACK, (STACK, resource.getrlimit(resource.RLIMIT_STACK)[1]))


@dataclasses.dataclass
class Hostile:
    program: str
    library: str
    folder: pathlib.Path
    inputs: int = 0

    def row_fault(self, program: str, row: Callable[[str, pathlib.Path], bool], count: int) -> str:
        self.folder.mkdir(exist_ok=True)
        self.inputs += count
        return "" if row(program, self.folder / "hostile.pickle") else "something else is answered"

    def closing(self) -> str:
        return f"{self.inputs} inputs, by hostile.py"


def trials(hostile: Hostile) -> list[Trial]:
    made = [Trial(name, functools.partial(hostile.row_fault, hostile.program, row, count)) for name, row, count in ROWS]
    of_library = [each for each in ROWS if each[1] in OF_LIBRARY]
    return [*made, *(Trial(f"{name}, by the library", functools.partial(hostile.row_fault, hostile.library, row, count)) for name, row, count in of_library)]
