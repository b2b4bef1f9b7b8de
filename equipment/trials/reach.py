"""Whether a loader of some bytes reaches something: bytes, what a loader was given besides, and the line for both.

What is wanted follows from what CPython's unpicklers read of the bytes: from bytes, and from files that show nothing ahead, all, or a part.
"""

from __future__ import annotations

import functools
import json
from dataclasses import dataclass

import json_of_texts

from .room import Room, Run, beginning, run
from .row import CLOSED, FULL, LITTLE_MEMORY, MISSING, Row, fails, trials_of
from .trial import Trial

SYSTEM = b"cposix\nsystem\n"
CALLED = SYSTEM + b"(S'x'\ntR."
LINE = "GLOBAL 'posix' 'system'"
# What a loader does with frames.
LOADERS = ("ignored", "buffered", "held")
PNG = b"\x89PNG\r\n\x1a\n"


def nothing(offset: int, follows: str = ", whatever follows") -> str:
    return f"nothing reached: every loader ends by {offset}{follows}\n"


def so_far(offset: int) -> str:
    """Some loader takes all of the bytes, or has to know where they end."""
    return nothing(offset, "")


def reached(offset: int, line: str = LINE) -> str:
    return f"reached at {offset}: {line}\n"


def framed(size: int, rest: bytes = b"") -> bytes:
    return b"\x95" + size.to_bytes(8, "little") + rest


@dataclass(frozen=True)
class Case:
    """Bytes, what a loader was given besides, and what is said. The status is 0 where nothing is reached, and else 1."""

    name: str
    given: bytes
    output: str
    options: tuple[str, ...] = ()

    @property
    def status(self) -> int:
        return 0 if self.output.startswith("nothing reached: ") else 1

    def fault(self, room: Room) -> str:
        folder = room.folder / "reach"
        folder.mkdir(parents=True, exist_ok=True)
        (folder / "given").write_bytes(self.given)
        asked = [room.program, "reach", "given", *self.options]
        return run(asked, folder).difference(self.status, self.output, "") or self.fault_of_json(run([*asked, "--json"], folder))

    def fault_of_json(self, found: Run) -> str:
        """The line of JSON says what the text says, and which loader reaches something."""
        fields = json.loads(found.output) if found.output.isascii() and found.output.count(b"\n") == 1 else {}
        loader = (fields.pop("frames", None) in LOADERS, isinstance(fields.pop("in_buffer", None), int))
        if list(fields.items()) != list(json_of_texts.of_reach(self.output).items()) or loader != (("reach" in fields),) * 2 or found.errors:
            return f"with --json: {beginning(found.output or found.errors)}"
        return found.fault_of_status(self.status)


# The first frame ends in a text, behind which a reader may show nothing, a part or all of the second one. Of that the last text is read by what is
# shown: its length is in the frame or behind it.
SHOWN = framed(3, b"NX\x01\0\0\0a" + framed(64, b"N0" * 30 + b"X\xff\xff\xff\x01\0\0\0a0" + CALLED))
DROPPED = framed(3, b"X\x01\0\0\0a0" + framed(300, b"B#\x01" + bytes(293) + b"0X\xff\xff\x01\0\0\0a0" + CALLED))

CASES = (
    Case("no bytes", b"", so_far(0)),
    Case("a pickle of nothing: a loader may load again behind its STOP", b"N.", so_far(2)),
    Case("an import", SYSTEM + b".", reached(0)),
    Case("an import of an instance", b"iposix\nsystem\n", reached(0, "INST 'posix' 'system'")),
    Case("an import behind a pickle", b"N." + SYSTEM, reached(2)),
    Case("a module that can be none", b"cos system\nx\n.", nothing(0)),
    Case("a module before the point of a name that can be none", b"cthis.a b\nx\n", reached(0, "GLOBAL 'this.a b' 'x'")),
    Case("a text that begins so", b"\x8c\x08this.a b\x8c\x01x\x93", reached(13, "STACK_GLOBAL")),
    Case("a name that can be none, and a point", b"ca b.this\nx\n.", nothing(0)),
    Case("the same with a name that torch answers", b"ca b\nFloatStorage\n", reached(0, "GLOBAL 'a b' 'FloatStorage'")),
    Case("an instance of nothing by such a name", b"i\nLongStorage\n", reached(0, "INST '' 'LongStorage'")),
    Case("a text with such a name", b"\x8c\x03a b\x8c\x0ba Storage=1\x93", reached(18, "STACK_GLOBAL")),
    Case("a module with such a name", b"ca Storage\nx\n", nothing(0)),
    Case("a module of an archive", b"ca/b\nx\n.", reached(0, "GLOBAL 'a/b' 'x'")),
    Case("a line that the end cuts", b"cos", reached(0, "GLOBAL 'o' ''")),
    Case("an integer, and an import", b"I1\n" + SYSTEM, reached(3)),
    Case("a line that is no integer, and an import", b"ImA\n" + SYSTEM, nothing(0)),
    Case("an integer to CPython, with its L and a blank, and an import", b"L1 L\n" + SYSTEM, reached(5)),
    Case("names on the stack", b"\x8c\x02os\x8c\x06system\x93.", reached(12, "STACK_GLOBAL")),
    Case("no names on the stack", b"NN\x93.", nothing(2)),
    Case("numbers on the stack", b"K\x01K\x02\x93.", nothing(4)),
    Case("a call of nothing", b")R.", nothing(1)),
    Case("a persistent id that no loader knows", b"P1\n.", nothing(0)),
    Case("a persistent id", b"P1\n.", reached(0, "PERSID '1'"), ("--persistent-ids",)),
    Case("a code that no loader knows", b"\x82\x01.", nothing(0)),
    Case("an extension code", b"\x82\x01.", reached(0, "EXT1 1"), ("--extensions",)),
    Case("no buffers", b"\x97.", nothing(0)),
    Case("a buffer", b"\x97.", reached(0, "NEXT_BUFFER"), ("--buffers",)),
    Case("all of it given, and none of it used", b"N.", so_far(2), ("--persistent-ids", "--extensions", "--buffers")),
    Case("an image", PNG, nothing(1)),
    Case("an image, for a loader with persistent ids", PNG, reached(1, "PERSID 'NG\\x0d'"), ("--persistent-ids",)),
    Case("a pickle in a frame", b"\x80\x04" + framed(28, b"}\x94\x8c\x01a\x94]\x94(K\x01K\x02}\x94\x8c\x01b\x94\x8c\x02os\x94ses."), so_far(39)),
    Case("a STOP that loses the rest of its frame", framed(4, b"N.N0") + CALLED, reached(13)),
    Case("a frame that is shown, and one that is dropped", SHOWN, reached(95)),
    Case("a frame that is dropped, and one that is shown", DROPPED, reached(331)),
    Case("a STOP that loses the rest of its frame, behind which no line begins", framed(9, b"N.N0N0N0X\0") + CALLED, so_far(9 + 9)),
    Case("frames in frames", b"".join(framed(1000 - n, b"N") for n in range(200)) + b"N" * 500, so_far(2500)),
    Case("frames past the end", b"".join(framed(1_000_000 + n) for n in range(300)) + b"N0" * 100, so_far(2900)),
    Case("more ways than are gone", b"".join(framed(3390 - 11 * n, b"N") for n in range(300)) + b"N" * 400 + b".", "too many ways to read the bytes\n"),
)

ROWS = (
    Row("bytes through a pipe", ("reach", "/dev/stdin"), output=so_far(2), through='printf N. | "$@"'),
    fails("nothing to reach in a file that is missing", "cannot read", "reach", "missing.pickle", unread=f"missing.pickle: {MISSING}"),
    fails("what is reached past the size limit, with little memory", "too large", "reach", "too_large.pickle", through=LITTLE_MEMORY),
    fails("what is reached, on a full device", "cannot write", "reach", "pair.pickle", through=FULL),
    fails("what is reached, with closed standard output", "cannot write", "reach", "pair.pickle", through=CLOSED),
    fails("JSON of what is reached, past the size limit", "too large", "reach", "--json", "too_large.pickle"),
    fails("JSON of what is reached, on a full device", "cannot write", "reach", "--json", "pair.pickle", through=FULL),
)


def trials(room: Room) -> list[Trial]:
    return [*(Trial(case.name, functools.partial(case.fault, room)) for case in CASES), *trials_of(ROWS, room)]
