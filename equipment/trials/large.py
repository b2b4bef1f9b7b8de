"""Inputs of 256 MiB, and of the most bytes that a file may have."""

from __future__ import annotations

import functools
import shutil
import subprocess
from collections.abc import Callable, Iterator

from .room import Room, Word, beginning
from .row import Row, fails, trials_of
from .samples import LARGE
from .trial import Skip, Trial

WHERE = "at 0 of {}, offset 0, buffers 0, result none, end {}\n"
READ = f"large.pickle\n0 BINBYTES\n{LARGE - 1} STOP\nstopped\nsame\nedits: same\ncuts: same\n"
# An edit is not too large yet at 256 MiB, and a byte more is opened, alone or as a pickle of its own.
EDITS = (
    Row("an edit of a large input", ("debug", "large.pickle"), "insert 0 NONE\n", output="edited 0\n"),
    Row("a large input and a byte", ("debug", "larger.pickle"), "where\n", output=WHERE.format(2, "stopped")),
    Row(
        "a large input and a byte, as several pickles",
        ("debug", "--many", "larger.pickle"),
        "where\n",
        output=WHERE.format(3, f"F1 ended at {LARGE + 1}"),
    ),
)
FORM = Row("the form of a large input", ("form", "large_dump.pickle"), output="in form\n")
LONGER = Row("an edit of the largest input", ("debug", "largest.pickle"), "insert 0 NONE\n", status=1, output="refused: C9 E8 too large\n")
# Through a pipe, of which the system says no size: the most bytes are read, and one more is too many.
PIPES = (
    Row("the largest input through a pipe", ("calls", "/dev/stdin"), output="0 imports, 0 calls\n", through='cat largest.pickle | "$@"'),
    fails("an input past the size limit through a pipe", "too large", "calls", "/dev/stdin", through='{ cat largest.pickle; printf N; } | "$@"'),
)
GIGABYTES = 6
MOST_SECONDS = 1800
CHUNK = 1 << 20


def reads_large(room: Room) -> str:
    """A large input is read by the crates, and written back."""
    return room.observe(room.built("real_pickles", "real_pickles"), "large.pickle").difference(0, READ, "")


def need_gigabytes(room: Room, count: int) -> None:
    """Raises Skip where less memory or disk is free."""
    with open("/proc/meminfo", encoding="ascii") as file:
        kilobytes = next(int(line.split()[1]) for line in file if line.startswith("MemAvailable:"))
    if min(kilobytes * 1000, shutil.disk_usage(room.files).free) < count * 10**9:
        raise Skip(f"it wants {count} GB of memory and of disk")


def with_gigabytes(room: Room, attempt: Callable[[Room], str]) -> str:
    need_gigabytes(room, GIGABYTES)
    return attempt(room)


def zeros_between(before: str, count: int, behind: str) -> Iterator[bytes]:
    """A text in pieces, with so many zeros in quotes: four characters for each of them, so it is not kept."""
    yield f"{before}'".encode()
    chunk = rb"\x00" * (CHUNK // 4)
    for _ in range(4 * count // CHUNK):
        yield chunk
    yield rb"\x00" * (count % (CHUNK // 4))
    yield f"'{behind}".encode()


def shows_large(room: Room) -> str:
    """The objects of a large input are the bytes, which are the result. It ends well."""
    words: list[Word] = ["timeout", str(MOST_SECONDS), room.start, "objects", "large.pickle"]
    pieces = zeros_between("#0 bytes ", LARGE - 6, "\nresult #0\n")
    with subprocess.Popen(words, cwd=room.files, stdin=subprocess.DEVNULL, stdout=subprocess.PIPE, stderr=subprocess.PIPE) as writer:
        assert writer.stdout and writer.stderr
        is_same = all(writer.stdout.read(len(piece)) == piece for piece in pieces)
        is_same = is_same and not writer.stdout.read(1)
        if not is_same:
            writer.terminate()
        errors = writer.stderr.read()
        status = writer.wait()
    if not is_same:
        return f"another output, and errors that begin: {beginning(errors)}"
    return "" if status == 0 else f"status {status}, with errors that begin: {beginning(errors)}"


def trials(room: Room) -> list[Trial]:
    return [
        Trial("a large input", functools.partial(reads_large, room)),
        *trials_of((*EDITS, FORM), room),
        Trial("the objects of a large input", functools.partial(shows_large, room)),
        *(Trial(row.name, functools.partial(with_gigabytes, room, row.fault)) for row in (LONGER, *PIPES)),
    ]
