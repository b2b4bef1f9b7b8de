"""What the program says of how bytes begin, and what `picklestep scan` makes of them: the two have a list each.

Where the program says that scan looks into a file, scan opens it, or notes why it does not.
"""

from __future__ import annotations

import ast
import bz2
import functools
import gzip
import io
import json
import lzma
import re
import sqlite3
import struct
import sys
import tarfile
import zipfile
import zlib
from collections.abc import Callable
from dataclasses import dataclass, field
from pathlib import Path
from typing import Any

from .room import Room, Word, run
from .samples import HOSTILE
from .trial import Trial

ROWS = re.compile(r'^ *\((\d+), (b"(?:[^"\\]|\\.)*"), "([^"]*)"\),$', re.MULTILINE)
COUNT = re.compile(r"CONTAINERS: \[.*; (\d+)\]")
# What comes behind the bytes of a row, which makes a whole container of none of them.
ENDINGS = (bytes(600), b"\x08" + bytes(600), b"\xff" * 600)
# Files of other forms begin so too: scan takes for such a file what can be unpacked.
UNPACKED = ("an lzma file", "a zlib file", "a zlib file of joblib")
# The levels at which zlib begins so.
LEVELS = {b"\x78\x01": 1, b"\x78\x5e": 5, b"\x78\x9c": 6, b"\x78\xda": 9}


def zip_archive() -> bytes:
    made = io.BytesIO()
    with zipfile.ZipFile(made, "w") as archive:
        archive.writestr("a.pkl", HOSTILE)
    return made.getvalue()


def tar_archive() -> bytes:
    made = io.BytesIO()
    with tarfile.open(fileobj=made, mode="w") as archive:
        member = tarfile.TarInfo("a.pkl")
        member.size = len(HOSTILE)
        archive.addfile(member, io.BytesIO(HOSTILE))
    return made.getvalue()


def array_of_objects() -> bytes:
    header = b"{'descr': '|O', 'fortran_order': False, 'shape': (1,), }".ljust(117) + b"\n"
    return b"\x93NUMPY\x01\x00" + struct.pack("<H", len(header)) + header + HOSTILE


def database(path: Path) -> bytes:
    connection = sqlite3.connect(path)
    connection.execute("CREATE TABLE jobs (state BLOB)")
    connection.execute("INSERT INTO jobs VALUES (?)", (HOSTILE,))
    connection.commit()
    connection.close()
    content = path.read_bytes()
    path.unlink()
    return content


# A whole container of each kind that Python's own library makes, with a pickle in it, by what it begins with.
WHOLE: dict[str, Callable[[bytes], bytes]] = {
    "a zip archive": lambda magic: zip_archive(),
    "a gzip file": lambda magic: gzip.compress(HOSTILE),
    "a .npy file": lambda magic: array_of_objects(),
    "a bzip2 file": lambda magic: bz2.compress(HOSTILE),
    "an xz file": lambda magic: lzma.compress(HOSTILE),
    "a tar archive": lambda magic: tar_archive(),
    "an lzma file": lambda magic: lzma.compress(HOSTILE, lzma.FORMAT_ALONE),
    "a zlib file": lambda magic: zlib.compress(HOSTILE, LEVELS[magic]),
    "a zlib file of joblib": lambda magic: b"ZF" + hex(len(HOSTILE)).ljust(19).encode() + zlib.compress(HOSTILE),
}


@dataclass(frozen=True)
class Kind:
    """A row of the program's list: where the bytes are, which, and what it calls such a file."""

    offset: int
    magic: bytes
    name: str


def kinds_of(source: str) -> list[Kind]:
    """The rows of the program's list, as its source has them."""
    rows = [Kind(int(offset), ast.literal_eval(magic), name) for offset, magic, name in ROWS.findall(source)]
    count = COUNT.search(source)
    if count is None or len(rows) != int(count[1]):
        raise ValueError(f"{len(rows)} rows are read of the list of containers, and it has others")
    return rows


@dataclass
class Begins:
    """Files that begin so, made once, and what scan says of them."""

    room: Room
    kinds: list[Kind] = field(init=False)

    def __post_init__(self) -> None:
        source = self.room.root / "crates" / "pickle_calls" / "src" / "begins.rt"
        self.kinds = kinds_of(source.read_text("utf-8"))

    @functools.cached_property
    def folder(self) -> Path:
        """Files that are named by the number of their row and of what is in them."""
        folder = self.room.folder / "begins"
        folder.mkdir(parents=True)
        for number, kind in enumerate(self.kinds):
            for which, ending in enumerate(() if kind.name in UNPACKED else ENDINGS):
                (folder / f"{number}-{which}").write_bytes(bytes(kind.offset) + kind.magic + ending)
            if kind.name in WHOLE:
                (folder / f"{number}-whole").write_bytes(WHOLE[kind.name](kind.magic))
            elif kind.name == "an SQLite file":
                (folder / f"{number}-whole").write_bytes(database(folder / "database"))
        return folder

    @functools.cached_property
    def lines(self) -> dict[str, Any]:
        """The lines of `scan --json`, by the names of the files."""
        settings = [f"PYTHONPATH={self.room.root / 'python'}", f"PICKLESTEP_PROGRAM={self.room.program}", "PYTHONDONTWRITEBYTECODE=1"]
        words: list[Word] = ["env", *settings, sys.executable, "-m", "picklestep", "scan", "--json", "."]
        lines = run(words, self.folder).output.decode().splitlines()
        return {Path(line["path"]).name: line for line in map(json.loads, lines)}

    def fault(self, number: int) -> str:
        """What is wrong with a row."""
        kind = self.kinds[number]
        for path in sorted(self.folder.glob(f"{number}-*")):
            said = run([self.room.program, "calls", path], self.folder).output.decode()
            if f"begins like {kind.name}: picklestep scan looks into it\n" not in said:
                return f"the program does not name {kind.magic!r}: {said[:200]}"
            line = self.lines.get(path.name)
            if line is None or not line["looks"]:
                return f"scan passes {path.read_bytes()[:20]!r} without a word"
            inner = [each for each in line["pickles"] if each["where"] and each["imports"]]
            if path.name.endswith("whole") and not inner:
                return f"scan does not find what is in it: {line}"[:300]
        return ""


def trials(room: Room) -> list[Trial]:
    begins = Begins(room)
    return [
        Trial(f"what begins like {kind.name} is opened or noted", functools.partial(begins.fault, number))
        for number, kind in enumerate(begins.kinds)
    ]
