"""The members of a zip archive: bytes and the lines for them, or the one line for bytes that no usual writer writes.

What is wanted follows from what Python's zipfile finds in the archives that it and others write. Where the form is broken on purpose, the places are
those at which it was broken.
"""

from __future__ import annotations

import functools
import io
import json
import re
import struct
import warnings
import zipfile
from dataclasses import dataclass
from pathlib import Path

import json_of_texts

from .room import Room, Run, lines_of, run
from .row import CLOSED, FULL, LITTLE_MEMORY, MISSING, Row, fails, trials_of
from .trial import Trial

MODELS = Path(__file__).resolve().parents[2] / "python/tests/data/models"
# What numpy, pandas and torch wrote.
REAL = (
    "numpy_arrays.npz", "numpy_compressed.npz", "pandas_frame.pkl.zip", "torch_checkpoint.pth", "torch_module.pt", "torch_script.pt", "torch_state.pt",
    "torch_tensors.pt",
)
# How long a header is before its name, and how long the end is.
HEADER, END = 30, 22
# Where a header has these, and where a row has them. Of the others only where a header has them.
FLAGS, METHOD = (6, 8), (8, 10)
TIME, CHECKSUM, SIZE = 10, 14, 22
MAIN, OTHER = b"N.", b"I1\n." * 40
NO_END = "no end record without a comment at the very end"


class Stream(io.RawIOBase):
    """What is written to it cannot be written again: so zipfile puts a record behind the data of each member."""

    def __init__(self) -> None:
        self.written = bytearray()

    def writable(self) -> bool:
        return True

    def write(self, data: "bytes") -> int:  # type: ignore[override]
        self.written += data
        return len(data)


def zipped(*members: "tuple[str | zipfile.ZipInfo, bytes]", method: int = zipfile.ZIP_STORED, wide: bool = False, comment: bytes = b"") -> bytes:
    """An archive that zipfile writes. With `wide` it leaves room for long sizes, as numpy has it do."""
    out = io.BytesIO()
    with warnings.catch_warnings(), zipfile.ZipFile(out, "w", method) as archive:
        warnings.simplefilter("ignore")  # (two members have one name on purpose)
        for name, content in members:
            if wide:
                with archive.open(name, "w", force_zip64=True) as member:
                    member.write(content)
            else:
                archive.writestr(name, content)
        archive.comment = comment
    return out.getvalue()


def streamed(*members: "tuple[str, bytes]", method: int = zipfile.ZIP_STORED) -> bytes:
    out = Stream()
    with zipfile.ZipFile(out, "w", method) as archive:  # type: ignore[call-overload]
        for name, content in members:
            archive.writestr(name, content)
    return bytes(out.written)


def infos(archive: bytes) -> list[zipfile.ZipInfo]:
    with zipfile.ZipFile(io.BytesIO(archive)) as opened:
        return opened.infolist()


def data_of(archive: bytes, info: zipfile.ZipInfo) -> int:
    """Where the data of a member begin: behind its header, name and extra field."""
    name, extra = struct.unpack_from("<HH", archive, info.header_offset + 26)
    return int(info.header_offset + HEADER + name + extra)


def line(archive: bytes, info: zipfile.ZipInfo) -> str:
    packed = f"deflated to {info.compress_size}" if info.compress_type == zipfile.ZIP_DEFLATED else "stored"
    name = "".join(chr(byte) if 32 <= byte < 127 else f"\\x{byte:02x}" for byte in info.filename.encode())
    return f"{data_of(archive, info)}: {info.file_size} {packed} '{name}'\n"


def listed(archive: bytes) -> str:
    return "".join(line(archive, info) for info in infos(archive))


def other(offset: int, why: str) -> str:
    return f"not in form: {offset}: {why}\n"


@dataclass(frozen=True)
class Case:
    """Bytes and what is said of them. The status is 0 where they are an archive in form, and else 1."""

    name: str
    given: bytes
    output: str

    @property
    def status(self) -> int:
        return 1 if self.output.startswith("not in form: ") else 0

    def fault(self, room: Room) -> str:
        folder = room.folder / "members"
        folder.mkdir(parents=True, exist_ok=True)
        (folder / "given").write_bytes(self.given)
        words = [room.program, "members", "given"]
        return run(words, folder).difference(self.status, self.output, "") or self.fault_of_json(run([*words, "--json"], folder))

    def fault_of_json(self, found: Run) -> str:
        objects = [list(json.loads(line).items()) for line in lines_of(found.output)]
        wanted = [list(fields.items()) for fields in json_of_texts.of_members(self.output)]
        return "" if (objects, found.status, found.errors) == (wanted, self.status, b"") else f"with --json: {found.output!r}"


def in_form(name: str, archive: bytes) -> Case:
    return Case(name, archive, listed(archive))


ONE = zipped(("a.pkl", MAIN))
TWO = zipped(("a.pkl", MAIN), ("b/data.pkl", OTHER))
DIRECTORY = ONE.index(b"PK\1\2")


def changed(archive: bytes, at: int, new: bytes) -> bytes:
    return archive[:at] + new + archive[at + len(new):]


def in_both(archive: bytes, at: "tuple[int, int]", new: bytes, number: int = 0) -> bytes:
    """Another field of a member, in its header and in its row of the directory."""
    row = [match.start() for match in re.finditer(b"PK\1\2", archive)][number]
    return changed(changed(archive, infos(archive)[number].header_offset + at[0], new), row + at[1], new)


def named(name: str, **fields: "int | bytes") -> zipfile.ZipInfo:
    info = zipfile.ZipInfo(name)
    for field, value in fields.items():
        setattr(info, field, value)
    return info


def hiding() -> bytes:
    """A member in the data of another one, which a reader finds that goes by the header: there the data are shorter than in the directory."""
    inner = zipped(("evil.pkl", OTHER))
    made = zipped(("a.bin", b"0123456789" + inner[: inner.index(b"PK\1\2")] + b"tail"), wide=True)
    extra = HEADER + len("a.bin") + 4
    return changed(made, extra, struct.pack("<QQ", 10, 10))


def with_other_record() -> bytes:
    """The record behind the data of a stream ends with the size, and the directory stands behind it."""
    made = streamed(("a.pkl", MAIN))
    return changed(made, made.index(b"PK\1\2") - 4, b"?")


def with_gap() -> bytes:
    """A byte that belongs to no member, before the directory. The end tells where that begins."""
    moved = ONE[:DIRECTORY] + b"?" + ONE[DIRECTORY:]
    return changed(moved, len(moved) - 6, struct.pack("<I", DIRECTORY + 1))


IN_FORM = (
    in_form("no members", zipped()),
    in_form("a member", ONE),
    in_form("two members", TWO),
    in_form("a member without bytes", zipped(("a", b""))),
    in_form("a deflated member", zipped(("a.pkl", OTHER), method=zipfile.ZIP_DEFLATED)),
    in_form("stored and deflated members", zipped(("a.pkl", MAIN), (named("b.pkl", compress_type=zipfile.ZIP_DEFLATED), OTHER))),
    in_form("a folder", zipped(("a/", b""), ("a/b.pkl", MAIN))),
    in_form("a name beyond ASCII", zipped(("\xe9.pkl", MAIN))),
    in_form("names that differ in case alone", zipped(("a.pkl", MAIN), ("A.pkl", OTHER))),
    in_form("room for long sizes", zipped(("a.npy", OTHER), ("b.npy", MAIN), wide=True)),
    in_form("a stream", streamed(("a.pkl", MAIN), ("b.pkl", OTHER))),
    in_form("a deflated stream", streamed(("a.pkl", OTHER), ("b.pkl", MAIN), method=zipfile.ZIP_DEFLATED)),
    *(in_form(f"the real {name}", (MODELS / name).read_bytes()) for name in REAL),
    Case("data that have another checksum", changed(ONE, data_of(ONE, infos(ONE)[0]), b"K"), listed(ONE)),
)

# Each breaks a rule, and the place is that of what breaks it.
BROKEN = (
    Case("no bytes", b"", other(0, NO_END)),
    Case("a pickle", b"N" * 60 + b".", other(61 - END, NO_END)),
    Case("a byte behind", ONE + b"\n", other(len(ONE) + 1 - END, NO_END)),
    Case("an archive that is cut", ONE[:-1], other(len(ONE) - 1 - END, NO_END)),
    Case("a comment", zipped(("a.pkl", MAIN), comment=b"?"), other(len(ONE) + 1 - END, NO_END)),
    Case("a byte in front", b"\n" + ONE, other(len(ONE) + 1 - END, "the end records tell another size")),
    Case("a byte before the directory", with_gap(), other(DIRECTORY, "bytes that belong to no member")),
    Case("two members of one name", zipped(("a.pkl", MAIN), ("a.pkl", OTHER)), other(DIRECTORY, "a name that a member before has")),
    Case("an encrypted member", in_both(ONE, FLAGS, b"\1"), other(0, "flags that no usual writer sets")),
    Case("an encrypted member behind another", in_both(TWO, FLAGS, b"\1", 1), other(DIRECTORY, "flags that no usual writer sets")),
    Case("a member packed otherwise", in_both(ONE, METHOD, b"\14"), other(0, "packed neither by none nor by deflate")),
    Case("the comment of a member", zipped((named("a.pkl", comment=b"?"), MAIN)), other(0, "a comment, or another disk")),
    Case("an unknown extra field", zipped((named("a.pkl", extra=b"\xfe\xca\0\0"), MAIN)), other(0, "an extra field that no usual writer writes")),
    Case("another place in the directory", changed(ONE, DIRECTORY + 42, b"\1"), other(0, "the directory tells another place")),
    Case("a member without a header", changed(ONE, 0, b"?"), other(0, "no member begins here")),
    Case("a directory without a row", changed(ONE, DIRECTORY, b"?"), other(0, "a member without a row of the directory")),
    Case("another time in the header", changed(ONE, TIME, b"\1\2"), other(0, "the header differs from the directory")),
    Case("another name in the header", changed(ONE, HEADER, b"b"), other(0, "the header has another name than the directory")),
    Case("another checksum in the header", changed(ONE, CHECKSUM, b"\1\2\3\4"), other(0, "the header has another checksum than the directory")),
    Case("another size in the header", changed(ONE, SIZE, b"\1"), other(0, "sizes that differ")),
    Case("another size behind the data", with_other_record(), other(0, "the record behind the data tells something else")),
    Case("more members in the end than in the directory", changed(ONE, len(ONE) - 14, b"\2\0\2\0"), other(DIRECTORY, "a member that is cut")),
    Case("a member that hides in another", hiding(), other(0, "sizes that differ")),
    Case("a name that leads elsewhere", zipped(("../a", MAIN)), other(0, "a name that is not plain")),
    Case("a name with a backslash", zipped(("a\\b", MAIN)), other(0, "a name that is not plain")),
    Case("a file that is called a folder", zipped((named("a", external_attr=16), MAIN)), other(0, "a folder with content, or a file that is called a folder")),
)
CASES = (*IN_FORM, *BROKEN)

ROWS = (
    Row("no archive, through a pipe", ("members", "/dev/stdin"), status=1, output=other(0, NO_END), through='printf N. | "$@"'),
    fails("the members of a file that is missing", "cannot read", "members", "missing.zip", unread=f"missing.zip: {MISSING}"),
    fails("members past the size limit, with little memory", "too large", "members", "too_large.pickle", through=LITTLE_MEMORY),
    fails("members, on a full device", "cannot write", "members", "pair.pickle", through=FULL),
    fails("JSON of members, on a full device", "cannot write", "members", "--json", "pair.pickle", through=FULL),
    fails("members, with closed standard output", "cannot write", "members", "pair.pickle", through=CLOSED),
)


def trials(room: Room) -> list[Trial]:
    return [*(Trial(case.name, functools.partial(case.fault, room)) for case in CASES), *trials_of(ROWS, room)]
