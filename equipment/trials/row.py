"""Rows of tables: a run of the program, and what it has to do."""

from __future__ import annotations

import functools
import shlex
from collections.abc import Iterable
from dataclasses import dataclass
from typing import Optional

from saves import unprivileged

from .room import Room, Run, Word
from .trial import Trial

# Lines of bash for `through`: "$@" is the program with its words.
FULL = 'exec "$@" >/dev/full'
CLOSED = 'exec "$@" >&-'
SMALL_STACK = 'ulimit -s 256; exec "$@"'
# (in KiB: a tenth of the most bytes that a file may have)
LITTLE_MEMORY = 'ulimit -v 100000; exec "$@"'
CUT = 'head -c 3 pair.pickle | "$@"'
UNPRIVILEGED = shlex.join(unprivileged()) + ' "$@"'


@dataclass(frozen=True)
class Row:
    """A run of the program with these words, in the folder of the sample files.

    `through` is a line of bash that starts it, where it is not started directly. `saved` is a file that
    has the bytes of another one afterwards, and `unmade` a file that must not be there. With `is_bare`
    the program is started without the entrance, which has words and a help of its own.
    """

    name: str
    words: tuple[Word, ...]
    given: str = ""
    status: int = 0
    output: str = ""
    errors: str = ""
    through: str = ""
    saved: Optional[tuple[str, str]] = None
    unmade: str = ""
    is_bare: bool = False

    def run(self, room: Room) -> Run:
        words: list[Word] = [room.program if self.is_bare else room.start, *self.words]
        if self.through:
            words = ["bash", "-c", self.through, "bash", *words]
        return room.observe(*words, given=self.given.encode() if self.given else None)

    def fault(self, room: Room) -> str:
        """What is wrong with a run, or an empty text."""
        found = self.run(room)
        return found.difference(self.status, self.output, self.errors) or self.fault_of_files(room)

    def fault_of_files(self, room: Room) -> str:
        if self.saved is not None:
            file, wanted = self.saved
            if (room.files / file).read_bytes() != (room.files / wanted).read_bytes():
                return f"{file} is not {wanted}"
        if self.unmade and (room.files / self.unmade).exists():
            return f"{self.unmade} was made"
        return ""


def trials_of(rows: Iterable[Row], room: Room) -> list[Trial]:
    return [Trial(row.name, functools.partial(row.fault, room)) for row in rows]


MISSING = "No such file or directory"


def fails(name: str, why: str, *words: Word, given: str = "", through: str = "", unmade: str = "", unread: str = "", is_bare: bool = False) -> Row:
    """The program has no answer, and says why in the one line of its errors. `unread` is what the entrance says behind it of a file that
    cannot be read."""
    errors = f"picklestep: {why}\n" + (f"picklestep: cannot read {unread}\n" if unread else "")
    return Row(name, words, given, status=2, errors=errors, through=through, unmade=unmade, is_bare=is_bare)


def misused(name: str, *words: Word, why: str, usage: str = "", through: str = "", is_bare: bool = False) -> Row:
    """The program takes the words as no task. Its errors are what clap 4 writes: why, which words it takes
    (but where only a value is wrong), and where more is said."""
    called = f"\n\nUsage: picklestep {usage}" if usage else ""
    errors = f"error: {why}{called}\n\nFor more information, try '--help'.\n"
    return Row(name, words, status=2, errors=errors, through=through, is_bare=is_bare)


def unexpected(name: str, option: str, usage: str, *words: Word, is_bare: bool = False) -> Row:
    """A task is given an option that it does not have. The usage names what stands before it."""
    why = f"unexpected argument '{option}' found\n\n  tip: to pass '{option}' as a value, use '-- {option}'"
    return misused(name, *words, why=why, usage=usage, is_bare=is_bare)


def repeated(name: str, option: str, task: str, *words: Word) -> Row:
    """An option is given twice that may be given once."""
    why = f"the argument '{option}' cannot be used multiple times"
    return misused(name, task, *words, why=why, usage=f"{task} [OPTIONS] <FILE>")


def valueless(name: str, option: str, *words: Word) -> Row:
    """The value of an option is missing."""
    return misused(name, *words, why=f"a value is required for '{option}' but none was supplied")
