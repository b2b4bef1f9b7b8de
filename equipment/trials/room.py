"""Where trials run: the repository, the program that is tried, and a folder for files."""

from __future__ import annotations

import dataclasses
import functools
import itertools
import os
import shlex
import subprocess
from collections.abc import Iterable, Sequence
from dataclasses import dataclass
from pathlib import Path
from typing import Optional, Union

from . import samples

Word = Union[str, bytes, Path]
SECONDS = 600
BEGINNING = 200


def beginning(text: bytes) -> str:
    """The first line, or as much of it as fits into a message."""
    return text[:BEGINNING].partition(b"\n")[0].decode("utf-8", "backslashreplace")


def lines_of(text: bytes) -> list[bytes]:
    lines = text.split(b"\n")
    return lines if lines[-1] else lines[:-1]


def first_difference(found: Iterable[bytes], wanted: Iterable[bytes]) -> str:
    """The first line in which two texts differ, or an empty text."""
    end = b"the end"
    for number, (line, other) in enumerate(itertools.zip_longest(found, wanted), 1):
        if line != other:
            shown, meant = (beginning(end if text is None else text) for text in (line, other))
            return f'line {number} is "{shown}" and not "{meant}"'
    return ""


def text_difference(found: bytes, wanted: bytes) -> str:
    """What is wrong with a text that has to be another one."""
    if found == wanted:
        return ""
    return first_difference(lines_of(found), lines_of(wanted)) or "the last line has no end, or has one"


@dataclass(frozen=True)
class Run:
    """What a command did. A signal n that ended it is the status 128 + n, as in a shell."""

    status: int
    output: bytes
    errors: bytes

    def fault_of_status(self, wanted: int) -> str:
        if self.status == wanted:
            return ""
        return f"status {self.status} and not {wanted}, with errors that begin: {beginning(self.errors)}"

    def difference(self, status: int, output: str, errors: str) -> str:
        """Where the run differs from this status, this output and these errors."""
        if self.status != status:
            return self.fault_of_status(status)
        why = text_difference(self.output, output.encode())
        if why:
            return f"of the output {why}"
        why = text_difference(self.errors, errors.encode())
        return f"of the errors {why}" if why else ""


def run(words: Sequence[Word], at: Path, given: Optional[bytes] = None, seconds: int = SECONDS) -> Run:
    """Runs a command in a folder. One that hangs is ended with all that it started, with status 124."""
    done = subprocess.run(
        ["timeout", str(seconds), *words],
        cwd=at,
        stdin=subprocess.DEVNULL if given is None else None,
        input=given,
        capture_output=True,
        check=False,
    )
    code = done.returncode
    return Run(code if code >= 0 else 128 - code, done.stdout, done.stderr)


@dataclass
class Room:
    """`program` is the binary that users start, and `proved` the one that the proofs built, which loads a library before it. `start` is the script
    that users start, except that it does not choose a program but starts this one. `folder` is for files, and is made when it is first needed."""

    root: Path
    program: Path
    proved: Path
    folder: Path

    def of(self, group: str) -> Room:
        """The same with a folder of its own, for a group that runs beside others."""
        return dataclasses.replace(self, folder=self.folder / group)

    @functools.cached_property
    def start(self) -> Path:
        made = self.folder / "start" / "picklestep"
        made.parent.mkdir(parents=True)
        text = (self.root / "picklestep").read_text("utf-8")
        for place, words in (
            ("root=$(CDPATH='' cd -- \"${here%/*}/\" && pwd -P)", f"root={shlex.quote(str(self.root))}"),
            ('. "$root/equipment/program.sh"', f"choose_program() {{ chosen={shlex.quote(str(self.program))}; }}\nname_program() {{ :; }}"),
        ):
            if text.count(place) != 1:
                raise ValueError(f"./picklestep has no line {place}, or two")
            text = text.replace(place, words)
        made.write_text(text, "utf-8")
        made.chmod(0o755)
        return made

    @property
    def equipment(self) -> Path:
        return self.root / "equipment"

    @property
    def pickles(self) -> Path:
        return self.root / "crates" / "real_pickles" / "data"

    @functools.cached_property
    def files(self) -> Path:
        """The folder of the sample files, which are made when they are first needed."""
        folder = self.folder / "files"
        samples.make(folder, self.start)
        return folder

    def observe(self, *words: Word, given: Optional[bytes] = None) -> Run:
        """Runs a command in the folder of the sample files."""
        return run(words, self.files, given)

    def library(self, name: str) -> Path:
        """equipment/NAME.c, compiled for LD_PRELOAD."""
        made = self.folder / f"{name}.so"
        if made.exists():
            return made
        self.folder.mkdir(parents=True, exist_ok=True)
        words: list[Word] = ["cc", "-shared", "-fPIC", "-o", made, self.equipment / f"{name}.c"]
        done = run(words, self.folder)
        if done.status != 0:
            raise OSError(f"equipment/{name}.c does not compile: {beginning(done.errors)}")
        return made

    def built(self, crate: str, program: str) -> Path:
        """A program of a crate that `rt ci` leaves there."""
        path = self.root / "crates" / crate / "out" / program
        if not os.access(path, os.X_OK):
            raise FileNotFoundError(f"{path.relative_to(self.root)} is not built: ./test without a name builds it")
        return path
