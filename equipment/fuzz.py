#!/usr/bin/python3
"""Makes random pickles and scripts, and asks the program for laws that need no reference.

    fuzz.py PROGRAM FOLDER [--seed S] [--first K] [--cases N] [--seconds T] [--pickles FOLDER] [--library FILE]

The first FOLDER is for the files of the cases. Each case has a generator of its own, made of the seed and the case's number, so
that a case that breaks a law can be made again (--first K --cases 1, with the same --pickles); its files stay in FOLDER. Without
--cases and --seconds there are 1000 cases; with both, it ends with what comes first. With --pickles some cases are mutations of
the pickles in that folder. With --library this shared library answers in this process; what is saved is the program's, which then
has to answer alike. The last line says how many cases there were, or which law was broken.

The laws:
- the bytes that are saved after no line are those that were opened;
- the listing of a beginning of the bytes begins the listing of the bytes, as far as opcodes are listed, and its fault is
  where the beginning ends or where the whole has one;
- the whole listing is assembled to the bytes of the opcodes that are listed;
- the report of the objects is what a conversation shows at the end, or before the opcode that is refused;
- what `calls` says is made are the objects of the report that come from elsewhere or from a call, and it counts its lines;
- what is shown at a place (items, stack, memo, objects and where it is) is the same on the way forwards, on the way back, and
  wherever one comes from;
- a line that is refused changes nothing that is shown; an edit that is undone or made again shows the items that were there;
- the cursor is where the reply says, and a line that is no command writes what it always does;
- a script is answered alike with all records kept and with a few, and alike where more lines come after `quit`;
- after a script, what is shown is what a new conversation over the saved bytes shows at that place, and the saved bytes are
  listed as these items;
- after a script, going to the start and undoing every edit gives the bytes that were opened, and making them again the bytes
  that the script saved;
- the status says whether something was refused.

A third of the cases are several pickles in one input, and every command has the option --many. In a quarter every command has --unframed,
and `calls`, which has no such option, is not asked.
"""

from __future__ import annotations

import argparse
import ctypes
import datetime
import json
import pathlib
import pickle
import pickletools
import random
import re
import subprocess
import sys
import time
from collections.abc import Callable, Mapping, Sequence
from random import Random
from typing import Any, Optional

import json_of_texts

sys.path.insert(0, str(pathlib.Path(__file__).resolve().parents[1] / "python"))

from picklestep.session import SHIFTS  # noqa: E402

OPCODES = {opcode.name: opcode for opcode in pickletools.opcodes}
WINDOWS = (1, 2, 3, 7, 1000)
OPAQUE_LINE = re.compile(r"^#(\d+) (?:global|stack-global|ext|inst|call|new|new-ex|obj|persistent|buffer)(?: |$)", re.M)
MADE_LINE = re.compile(r"^ *\d+: (?!readonly ).* as #(\d+)$", re.M)
IMPORT_LINE = re.compile(r"^ *\d+: (?:import|inst) ", re.M)
# (behind a heading of `calls` is what only loaders reach)
HEADING = re.compile(r"^a loader .*may go on:$", re.M)
# (a STOP inside a frame, where the strict lines end and `objects` goes on)
UNSURE_LINE = re.compile(r"^unsure: U[12] .*\n", re.M)
MIXED_LINE = re.compile(r"^unsure: U3 (?s:.*)\Z", re.M)
WARNING_LINE = re.compile(r"^warning: #\d+ .*\n", re.M)
# (what a listing says where it does not show all bytes)
GAP = re.compile(rb"^(?:kept|fault|refused): .*\n", re.M)
CALL_LINE = re.compile(r"^ *\d+: (?:inst|call|new|state|append|set|add) ", re.M)
WHERE = re.compile(r"at (\d+) of (\d+), offset (\d+), buffers (\d+), result (none|#\d+(?: #\d+)*), end (.*)")
VIEW = "where\nitems\nstack\nmemo\nobjects\n"


def numbered(width: int, rng: Random, most: int) -> bytes:
    return rng.choice([0, 1, 2, rng.randrange(most)]).to_bytes(width, "little")


def counted(width: int, rng: Random) -> bytes:
    text = bytes(rng.choice(b"ab'\\\n\x00\xff") for _ in range(rng.choice([0, 1, 3, 13, 14, 20])))
    return len(text).to_bytes(width, "little") + text


def line(rng: Random) -> bytes:
    return bytes(rng.choice(b"0123az'\\ ") for _ in range(rng.choice([0, 1, 2, 3, 3, 16]))) + b"\n"


def key_line(rng: Random) -> bytes:
    return b"0" * rng.randrange(3) + b"%d\n" % rng.choice([0, 1, 2, 7, 2**64 - 1, 2**64])


# How an argument is made, by the name that pickletools gives its form.
ARGUMENTS: Mapping[str, Callable[[Random], bytes]] = {
    "uint1": lambda rng: numbered(1, rng, 6),
    "uint2": lambda rng: numbered(2, rng, 2**16),
    "uint4": lambda rng: numbered(4, rng, 9),
    "uint8": lambda rng: numbered(8, rng, 30),
    "int4": lambda rng: rng.randrange(-(2**31), 2**31).to_bytes(4, "little", signed=True),
    "float8": lambda rng: rng.randbytes(8),
    "long1": lambda rng: counted(1, rng),
    "long4": lambda rng: counted(4, rng),
    "string1": lambda rng: counted(1, rng),
    "string4": lambda rng: counted(4, rng),
    "bytes1": lambda rng: counted(1, rng),
    "bytes4": lambda rng: counted(4, rng),
    "bytes8": lambda rng: counted(8, rng),
    "bytearray8": lambda rng: counted(8, rng),
    "unicodestring1": lambda rng: counted(1, rng),
    "unicodestring4": lambda rng: counted(4, rng),
    "unicodestring8": lambda rng: counted(8, rng),
    "stringnl": lambda rng: b"'" + line(rng)[:-1].replace(b"'", b"") + b"'\n",
    "stringnl_noescape": line,
    "stringnl_noescape_pair": lambda rng: line(rng) + line(rng),
    "unicodestringnl": line,
    "decimalnl_short": line,
    "decimalnl_long": line,
    "floatnl": line,
}
KEYED = {"GET", "PUT"}


def argument(name: str, rng: Random) -> bytes:
    opcode = OPCODES[name]
    if opcode.arg is None:
        return b""
    if name in KEYED:
        return key_line(rng)
    return ARGUMENTS[opcode.arg.name](rng)


def spelled(name: str, rng: Random) -> bytes:
    return OPCODES[name].code.encode("latin-1") + argument(name, rng)


# What is put together: opcodes by what they ask of the stack, so that most of them are taken.
PUSHES = [o.name for o in pickletools.opcodes if o.stack_before == [] and len(o.stack_after) == 1 and o.name not in ("MARK", "GET", "BINGET", "LONG_BINGET")]
CALLS = ["GLOBAL EMPTY_TUPLE REDUCE", "GLOBAL EMPTY_TUPLE NEWOBJ", "GLOBAL EMPTY_TUPLE EMPTY_DICT NEWOBJ_EX", "MARK GLOBAL NONE OBJ"]
# What makes that which an opcode takes.
MAKERS = {"any": "NONE", "list": "EMPTY_LIST", "dict": "EMPTY_DICT", "set": "EMPTY_SET", "str": "SHORT_BINUNICODE", "buffer": "NEXT_BUFFER", "mark": "MARK",
          "stackslice": "NONE BININT1"}
TAKERS = [" ".join([*(MAKERS[taken.name] for taken in o.stack_before), o.name]) for o in pickletools.opcodes
          if o.stack_before and o.name not in ("STOP", *(group.split()[-1] for group in CALLS))]
GROUPS = [*TAKERS, "EMPTY_LIST MEMOIZE DUP APPEND", "MARK TUPLE", "MARK POP", "EMPTY_DICT DUP BUILD", "NONE BINPUT BINGET", "MARK INST", "PROTO", *CALLS]


def framed(body: bytes) -> bytes:
    return b"\x95" + len(body).to_bytes(8, "little") + body


def make_body(rng: Random, most: int) -> bytes:
    pieces = []
    for _ in range(rng.randrange(most)):
        draw = rng.random()
        if draw < 0.45:
            pieces.append(b"".join(spelled(name, rng) for name in rng.choice(GROUPS).split()))
        elif draw < 0.9:
            pieces.append(spelled(rng.choice(PUSHES), rng))
        else:
            name = rng.choice(list(OPCODES))
            if name not in ("STOP", "FRAME"):
                pieces.append(spelled(name, rng))
    return b"".join(pieces)


def put_together(rng: Random) -> bytes:
    parts = []
    for _ in range(rng.randrange(1, 4)):
        body = make_body(rng, 8)
        parts.append(framed(body) if rng.random() < 0.4 else body)
    return b"".join(parts) + b"N."


def any_object(rng: Random, depth: int) -> Any:
    leaves: Sequence[Any] = [None, True, 0, 255, 256, 65536, -1, 2**31, -(2**40), 2**200, 1.5, "", "ab'\\\n\u20ac", b"\x00\xff", "x" * 20, bytearray(b"y"),
              datetime.date(2001, 2, 3), complex(1, 2), range(3), datetime.timedelta, Exception("e")]
    if depth == 0 or rng.random() < 0.3:
        return rng.choice(leaves)
    inner = [any_object(rng, depth - 1) for _ in range(rng.randrange(4))]
    kind = rng.randrange(6)
    if kind == 0:
        return tuple(inner)
    if kind == 1:
        return {str(k): v for k, v in enumerate(inner)}
    if kind == 2:
        return {1, "two", (3, 4)} if rng.random() < 0.5 else frozenset([1, "two"])
    if kind == 3 and inner:
        inner.append(inner)
    if kind == 4 and inner:
        return [inner[0], inner[0], inner]
    return inner


def mutated(pickled: bytes, rng: Random) -> bytes:
    for _ in range(rng.choice([1, 1, 2, 5])):
        place = rng.randrange(len(pickled) + 1)
        kind = rng.randrange(5)
        if kind == 0:
            pickled = pickled[:place] + rng.randbytes(rng.randrange(3)) + pickled[place + 1 :]
        elif kind == 1:
            pickled = pickled[:place]
        elif kind == 2:
            pickled = pickled[:place] + spelled(rng.choice(list(OPCODES)), rng) + pickled[place:]
        elif kind == 3:
            other = rng.randrange(len(pickled) + 1)
            pickled = pickled[:place] + pickled[min(place, other) : max(place, other)][:100] + pickled[place:]
        else:
            pickled = pickled[:place] + framed(pickled[place : place + rng.randrange(30)]) + pickled[place + rng.randrange(30) :]
    return pickled


def make_pickle(rng: Random, pickles: Sequence[bytes]) -> bytes:
    draw = rng.random()
    if draw < 0.5:
        pickled = put_together(rng)
    elif draw < 0.85 or not pickles:
        pickled = pickle.dumps(any_object(rng, 4), protocol=rng.randrange(6))
    else:
        pickled = rng.choice(pickles)
    if rng.random() < 0.2:
        pickled += rng.randbytes(rng.randrange(4))
    return mutated(pickled, rng) if rng.random() < 0.4 else pickled


def make_several(rng: Random, pickles: Sequence[bytes]) -> bytes:
    """Some pickles one after another, most of them cut after their STOP."""
    parts = []
    for _ in range(rng.randrange(1, 5)):
        pickled = make_pickle(rng, pickles)
        end = pickled.rfind(b".") + 1
        parts.append(pickled[:end] if rng.random() < 0.9 else pickled)
    return b"".join(parts)


# The edits that name a place alone.
TAKE_OUT = [word for word, shift in SHIFTS.items() if shift < 0]
PLACED = ("goto", "goto", "break", "clear", *TAKE_OUT)
MALFORMED = ("fly", "goto", "goto x", "step 1", "insert 0 NOPE", "insert 0 BININT1 0", "insert 0 BININT1", "insert 0 NONE 00", "frame 0", "STEP", "show",
             "goto 18446744073709551616", "goto @", "goto @18446744073709551615", "delete @18446744073709551616", "frame 0 @0", "show @0",
             "replace 0 STOP", "insert 0 FRAME 0000000000000000", "insert 0 GET 780A", "show 4294967296")


def edit_line(rng: Random, place: int, items: int) -> str:
    word = rng.choice([*SHIFTS, "insert"])
    if word == "frame":
        return f"frame {place} {rng.choice([0, 1, 2, 3, items])}"
    if word in TAKE_OUT:
        return f"{word} {place}"
    name = rng.choice(list(OPCODES)) if rng.random() < 0.5 else rng.choice(PUSHES)
    return f"{word} {place} {name} {argument(name, rng).hex()}"


def make_lines(rng: Random, items: int) -> list[str]:
    """Lines with every word; the queries and `quit` are not among them."""
    lines: list[str] = []
    ahead = 0
    for _ in range(rng.randrange(1, 25)):
        place = rng.choice([ahead, min(items, ahead + rng.randrange(4)), rng.randrange(min(ahead, items), items + 1), rng.randrange(items + 3)])
        draw = rng.random()
        if draw < 0.4:
            lines.append(edit_line(rng, place, items))
        elif draw < 0.53:
            lines.append(rng.choice(["undo", "undo", "redo"]))
        elif draw < 0.65:
            lines.append(rng.choice(["step", "step", "back"]))
            ahead = min(items, ahead + 1)
        elif draw < 0.7:
            lines += ["run", rng.choice(["back", "goto 0", "goto 1", "step"])]
            ahead = 0
        elif draw < 0.95:
            lines.append(f"{rng.choice(PLACED)} {place}")
        else:
            lines.append(rng.choice(MALFORMED))
        if lines[-1].startswith("goto ") and lines[-1][5:].isdigit():
            ahead = min(int(lines[-1][5:]), items)
    return lines


def with_queries(rng: Random, lines: Sequence[str], items: int) -> list[str]:
    mixed = []
    for text in lines:
        mixed.append(text)
        if rng.random() < 0.4:
            mixed.append(rng.choice([*VIEW.split(), "", " \t\r", f"show {rng.randrange(items + 2)}"]))
    return mixed


class Broken(Exception):
    """A law is broken."""


def position(text: str) -> re.Match[str]:
    """What a line of `where` says."""
    found = WHERE.fullmatch(text)
    if found is None:
        raise Broken(f"{text!r} says no position")
    return found


class Shown:
    """What is shown at a place."""

    def __init__(self, lines: Sequence[str]) -> None:
        self.where = position(lines[0])
        rest = lines[1:]
        count = next(k for k, text in enumerate(rest) if text.startswith("stack"))
        self.items = rest[:count]
        self.state = rest[count:]

    def place(self) -> int:
        return int(self.where[1])

    def offset(self) -> int:
        return int(self.where[3])

    def document(self) -> list[str]:
        return [text[2:] for text in self.items]

    def all(self) -> tuple[str, Sequence[str], Sequence[str]]:
        return self.where[0], self.items, self.state


def split_views(lines: Sequence[str]) -> list[tuple[Sequence[str], Shown]]:
    """Each reply of an observed script, with what is shown after it."""
    found: list[tuple[Sequence[str], Shown]] = []
    starts = [k for k, text in enumerate(lines) if WHERE.fullmatch(text)]
    if not starts or len(lines) - starts[-1] < 3:
        raise Broken("a script is not answered to its end")
    before = 0
    for k, start in enumerate(starts):
        end = next(j for j in range(start, len(lines)) if lines[j].startswith("memo")) + 1
        while end < len(lines) and lines[end].startswith("#"):
            end += 1
        found.append((lines[before:start], Shown(lines[start:end])))
        before = end
    return found


class Written(ctypes.Structure):
    _fields_ = [("size", ctypes.c_size_t), ("status", ctypes.c_uint8)]


class Library:
    """The library in this process, for words of the program. How many steps are remembered (--window) changes no answer."""

    ROOM = 1 << 16
    OPTIONS = {"--many": 1, "--unframed": 2, "--first": 4, "--memo": 8, "--full": 16}

    def __init__(self, file: pathlib.Path) -> None:
        self.library = ctypes.CDLL(str(file))
        self.room = ctypes.create_string_buffer(self.ROOM)

    def answers(self, words: Sequence[str], script: bytes) -> tuple[bytes, int]:
        """The text and the status."""
        content = pathlib.Path(next(word for word in words if word.endswith(".pickle"))).read_bytes()
        given: list[Any] = [ctypes.c_uint32(sum(option for word, option in self.OPTIONS.items() if word in words))]
        for part in {"calls": (b"", content), "debug": (content, script)}.get(words[0], (content,)):  # (no holes come before what calls reads)
            given += [part, ctypes.c_size_t(len(part))]
        function = getattr(self.library, f"picklestep_{words[0]}_{'json' if '--json' in words else 'with'}")
        answered = self.text(function, function, *given)
        if words[0] == "debug" and self.session(given[0], content, script) != answered:
            raise Broken(f"a session and a script are answered otherwise: {words}, {script!r}")
        return answered

    def text(self, function: Any, again: Any, *given: Any) -> tuple[bytes, int]:
        """What a function answers, which is asked again with more room if it needs that."""
        written = Written()
        for ask, arguments in ((function, given), (again, given if again is function else given[:1])):
            answer = ask(*arguments, self.room, ctypes.c_size_t(len(self.room)), ctypes.byref(written)) & 0xFF
            if answer == 0:
                return ctypes.string_at(self.room, written.size), written.status
            if answer == 3:
                self.room = ctypes.create_string_buffer(written.size)
        raise Broken(f"the library answers {answer}")

    def session(self, options: Any, content: bytes, script: bytes) -> tuple[bytes, int]:
        """The answers to the lines of a script, asked one after another."""
        library, handle = self.library, ctypes.byref((ctypes.c_size_t * 2)())
        if library.picklestep_open(options, ctypes.c_size_t(0), content, ctypes.c_size_t(len(content)), handle) & 0xFF:
            raise Broken("no session is opened")
        texts, refused = [], 0
        for line in script.removesuffix(b"\n").split(b"\n"):
            if line.split() == [b"quit"]:
                break
            text, status = self.text(library.picklestep_ask, library.picklestep_again, handle, line, ctypes.c_size_t(len(line)))
            texts.append(text)
            refused |= status
        if library.picklestep_close(handle) & 0xFF:
            raise Broken("a session is not closed")
        return b"".join(texts), refused


class Case:
    def __init__(self, program: str, library: Optional[Library], folder: pathlib.Path, rng: Random, pickles: Sequence[bytes]) -> None:
        self.program = program
        self.library = library
        self.folder = folder
        self.file = folder / "case.pickle"
        self.saved = folder / "saved.pickle"
        self.rng = rng
        self.runs = 0
        draw = rng.random()
        self.is_many, self.is_unframed = draw < 1 / 3, draw % (1 / 3) > 1 / 4
        self.options = ["--many"] * self.is_many + ["--unframed"] * self.is_unframed
        self.pickled = make_several(rng, pickles) if self.is_many else make_pickle(rng, pickles)
        self.file.write_bytes(self.pickled)

    def answers(self, words: Sequence[str], script: str = "") -> tuple[str, int]:
        self.runs += 1
        answered = None
        if self.library:
            answered = self.library.answers([*words, *self.options], script.encode())
            if "--save" not in words:
                return answered[0].decode(), answered[1]
        done = subprocess.run([self.program, *words, *self.options], input=script.encode(), capture_output=True, timeout=600)
        if done.returncode not in (0, 1) or done.stderr:
            raise Broken(f"status {done.returncode}, errors {done.stderr[:200]!r}, words {words}, script {script!r}")
        if answered not in (None, (done.stdout, done.returncode)):
            raise Broken(f"the library and the program differ, words {words}, script {script!r}")
        return done.stdout.decode(), done.returncode

    def items_of(self, listing: str) -> list[str]:
        return [text for text in listing.splitlines() if text.lstrip()[:1].isdigit()]

    def debug(self, script: str, *options: str, file: Optional[pathlib.Path] = None) -> str:
        answer, status = self.answers(["debug", str(file or self.file), *options], script)
        if status != any(text.startswith("refused: ") for text in answer.splitlines()):
            raise Broken(f"status {status} of {script!r}")
        return answer

    def debug_and_save(self, script: str, *options: str) -> tuple[str, bytes]:
        answer = self.debug(script, "--save", str(self.saved), *options)
        return answer, self.saved.read_bytes()

    def listing(self, file: pathlib.Path) -> str:
        text, status = self.answers(["list", str(file)])
        if status != bool(re.search(r"^(refused|fault): ", text, re.M)):
            raise Broken(f"status {status} of a listing")
        return text

    def check_listing(self) -> str:
        text = self.listing(self.file)
        whole = self.items_of(text)
        size = self.rng.randrange(len(self.pickled) + 1)
        cut = self.folder / "cut.pickle"
        cut.write_bytes(self.pickled[:size])
        part = self.listing(cut)
        items = self.items_of(part)
        if whole[: len(items)] != items:
            raise Broken(f"a beginning of {size} bytes is listed otherwise")
        fault = re.search(r"^fault: (F\d).* at (\d+)$", part, re.M)
        if fault and f"{fault[0]}\n" not in text and not (fault[1] in ("F1", "F3", "F7") and int(fault[2]) <= size):
            raise Broken(f"a beginning of {size} bytes ends in {fault[0]}")
        self.check_json(text)
        self.check_whole(text)
        return text

    def check_whole(self, listing: str) -> None:
        whole = subprocess.run([self.program, "list", "--whole", str(self.file), *self.options], capture_output=True, timeout=600)
        made = subprocess.run([self.program, "assemble", "/dev/stdin"], input=GAP.sub(b"", whole.stdout), capture_output=True, timeout=600)
        kept, fault = re.search(r"^kept: (\d+)", listing, re.M), re.search(r"^fault: .* at (\d+)$", listing, re.M)
        most = len(self.pickled) - int(kept[1]) if kept else int(fault[1]) if fault else len(self.pickled)
        if made.returncode or not (self.pickled[:most].startswith(made.stdout) if "\nrefused: " in f"\n{listing}" else made.stdout == self.pickled[:most]):
            raise Broken("the whole listing is assembled to other bytes")

    def check_json(self, listing: str) -> None:
        lines, status = self.answers(["list", "--json", str(self.file)])
        found = [list(json.loads(line).items()) for line in lines.splitlines()]
        if found != [list(fields.items()) for fields in json_of_texts.of_listing(listing)] or not lines.isascii():
            raise Broken("the lines of JSON say something else than the listing")
        if status != bool(re.search(r"^(refused|fault): ", listing, re.M)):
            raise Broken(f"status {status} of lines of JSON")

    def check_objects(self, listing: str) -> int:
        report, status = self.answers(["objects", str(self.file)])
        shown = self.debug("run\nobjects\nwhere\n").splitlines()
        where = position(shown[-1])
        refused = re.search(r"^refused: (.*)$", listing, re.M)
        closing = [f"result {result}" for result in where[5].split() if result != "none"]
        if refused:
            closing.append(f"refused: item {where[1]}: {refused[1]}")
        elif where[6] != "stopped":
            closing.append(f"fault: {where[6]}")
        if report.splitlines() != shown[1:-1] + closing or status != (not closing[-1].startswith("result")):
            raise Broken("another report of the objects")
        lines, ended = self.answers(["objects", "--json", str(self.file)])
        if [*map(json.loads, lines.splitlines())] != [*json_of_texts.of_objects(report)] or not lines.isascii() or ended != status:
            raise Broken("the lines of JSON say something else than the report")
        if listing and self.items_of(listing)[: int(where[1])] != self.items_of(listing)[: len(self.items_of(listing)) - bool(refused)]:
            raise Broken("the listing and the conversation end at other places")
        if not self.is_unframed:
            self.check_calls(report, status)
        return int(where[1])

    def check_calls(self, report: str, wanted: int) -> None:
        # (`calls` reads all pickles by itself, and `objects` only with --many)
        first = [] if self.is_many else ["--first"]
        calls, status = self.answers(["calls", *first, str(self.file)])
        text = HEADING.split(MIXED_LINE.sub("", calls), maxsplit=1)[0]
        unsure = UNSURE_LINE.search(text)
        made, opaque = MADE_LINE.findall(text), OPAQUE_LINE.findall(report)
        is_open = bool(wanted or unsure or WARNING_LINE.search(text) or "\nkept: " in f"\n{text}")
        if made != (opaque[: len(made)] if unsure else opaque) or status != is_open:
            raise Broken("calls and objects are not of the same objects")
        counts = f"{len(IMPORT_LINE.findall(text))} imports, {len(CALL_LINE.findall(text))} calls\n"
        closing = unsure[0] if unsure else report.splitlines(keepends=True)[-1] if wanted else ""
        if not re.search(re.escape(counts + closing) + r"(?:kept: \d+ bytes after STOP\n)?$", WARNING_LINE.sub("", text)):
            raise Broken(f"calls does not end in {counts + closing!r}")
        full, ended = self.answers(["calls", "--full", *first, str(self.file)])
        lines, whole = calls.splitlines(), full.splitlines()
        if ended != status or len(lines) != len(whole) or any(line != other for line, other in zip(lines, whole) if "+" not in line):
            raise Broken("calls --full has other lines where nothing is cut")

    def check_ways(self, far: int) -> None:
        """What is shown at the places that can be reached, going there, coming back, and from elsewhere."""
        far = min(far, 40)
        there = split_views(self.debug(VIEW + f"step\n{VIEW}" * far + f"back\n{VIEW}" * far).splitlines())
        shown = [view.all() for _, view in there]
        if shown[: far + 1] != shown[far:][::-1]:
            raise Broken("what is shown on the way back is not what was shown on the way there")
        places = [self.rng.randrange(far + 1) for _ in range(5)]
        window: list[str] = self.rng.choice([[], ["--window", str(self.rng.choice(WINDOWS))]])
        asked = [f"goto @{there[place][1].offset()}" if self.rng.random() < 0.5 else f"goto {place}" for place in places]
        again = split_views(self.debug("".join(f"{text}\n{VIEW}" for text in asked), *window).splitlines())
        if [(reply, view.all()) for reply, view in again] != [([f"at {place}"], shown[place]) for place in places]:
            raise Broken(f"something else is shown after {asked}")

    def follow(self, lines: Sequence[str], views: Sequence[tuple[Sequence[str], Shown]]) -> tuple[int, int]:
        """What each reply says of the views before it and after it."""
        documents, known = [views[0][1].document()], 0
        for text, (reply, view), (_, before) in zip(lines, views[1:], views):
            answer = reply[0] if len(reply) == 1 else ""
            if not answer:
                raise Broken(f"{text!r} is answered {reply}")
            if answer.startswith("refused: "):
                if view.all() != before.all():
                    raise Broken(f"{text!r} is refused and changes what is shown")
            elif answer.startswith("at "):
                if view.place() != int(answer.split()[1].rstrip(":")) or view.document() != before.document():
                    raise Broken(f"{text!r} is answered {answer!r} and is elsewhere")
            elif answer.startswith(("edited ", "undone ", "redone ")):
                if view.state != before.state or view.place() != before.place():
                    raise Broken(f"{text!r} moves")
                known += -1 if answer.startswith("undone") else 1
                if answer.startswith("edited"):
                    documents[known:] = [view.document()]
                if view.document() != documents[known]:
                    raise Broken(f"{text!r} shows other items than before")
            elif view.document() != before.document() or view.state != before.state:
                raise Broken(f"{text!r} changes more than a breakpoint")
        return known, len(documents) - 1

    def check_script(self, items: int) -> tuple[int, int]:
        lines = make_lines(self.rng, items)
        (self.folder / "script").write_text("\n".join(lines) + "\n")
        answer, saved = self.debug_and_save(VIEW + "".join(f"{text}\n{VIEW}" for text in lines))
        views = split_views(answer.splitlines())
        if len(views) != len(lines) + 1:
            raise Broken("a script is not answered line by line")
        known, most = self.follow(lines, views)
        self.check_saved(saved, views[-1][1])
        script = "".join(f"{text}\n" for text in lines)
        _, home = self.debug_and_save(script + "goto 0\n" + "undo\n" * known)
        if home != self.pickled:
            raise Broken("undoing all edits does not give the opened bytes")
        _, again = self.debug_and_save(script + "goto 0\n" + "undo\n" * known + "redo\n" * known)
        if again != saved:
            raise Broken("making all edits again does not give the saved bytes")
        self.check_windows(with_queries(self.rng, lines, items))
        return len(lines), most

    def check_saved(self, saved: bytes, view: Shown) -> None:
        """What is shown after a script is what the saved bytes show at that place."""
        fresh = self.folder / "fresh.pickle"
        fresh.write_bytes(saved)
        other = split_views(self.debug(f"goto {view.place()}\n{VIEW}", file=fresh).splitlines())[0][1]
        if (other.where[0], other.document(), other.state) != (view.where[0], view.document(), view.state):
            raise Broken("the saved bytes show something else")
        listed = [self.listed(text) for text in self.items_of(self.listing(fresh))]
        if [text[6:].split(None, 2)[:2] for text in view.document()][: len(listed)] != listed:
            raise Broken("the saved bytes are listed otherwise")

    def listed(self, text: str) -> list[str]:
        offset, rest = text.split(":", 1)
        return [f"{offset.strip()}:", rest[6:].split(None, 1)[0]]

    def check_windows(self, lines: Sequence[str]) -> None:
        script = "".join(f"{text}\n" for text in lines)
        plain = self.debug_and_save(script)
        for window in self.rng.sample(WINDOWS, 2):
            behind = self.rng.choice(["", "quit\nstep\nundo\n", "quit"])
            if self.debug_and_save(script + behind, "--window", str(window)) != plain:
                raise Broken(f"another answer with a window of {window} to {script + behind!r}")

    def check(self) -> tuple[int, int]:
        answer, saved = self.debug_and_save("")
        if answer or saved != self.pickled:
            raise Broken("other bytes are saved than were opened")
        listing = self.check_listing()
        far = self.check_objects(listing)
        self.check_ways(far)
        return self.check_script(min(len(self.items_of(listing)), 60))


def main() -> int:
    parser = argparse.ArgumentParser(description="asks laws of the program with random pickles and scripts")
    parser.add_argument("program")
    parser.add_argument("folder", type=pathlib.Path)
    parser.add_argument("--seed", type=int, default=1)
    parser.add_argument("--first", type=int, default=1)
    parser.add_argument("--cases", type=int)
    parser.add_argument("--seconds", type=float)
    parser.add_argument("--pickles", type=pathlib.Path)
    parser.add_argument("--library", type=pathlib.Path)
    words = parser.parse_args()
    library = Library(words.library) if words.library else None
    words.folder.mkdir(parents=True, exist_ok=True)
    pickles = [file.read_bytes() for file in sorted(words.pickles.glob("*.pickle"))] if words.pickles else []
    pickles = [pickled for pickled in pickles if len(pickled) < 3000]
    cases = words.cases or (1000 if not words.seconds else sys.maxsize)
    end = time.monotonic() + words.seconds if words.seconds else None
    number, lines, runs, edits = 0, 0, 0, 0
    while number < cases and not (end and time.monotonic() > end):
        number += 1
        name = f"case {words.first + number - 1} of seed {words.seed}"
        case = Case(words.program, library, words.folder, random.Random(f"{words.seed}:{words.first + number - 1}"), pickles)
        try:
            tried, made = case.check()
        except Broken as broken:
            print(f"{name}: {broken}")
            return 1
        except (ValueError, IndexError, StopIteration, TypeError, subprocess.TimeoutExpired) as fault:
            print(f"{name}: the answer cannot be read: {fault!r}")
            return 1
        lines, runs, edits = lines + tried, runs + case.runs, edits + made
    print(f"seed {words.seed}: {number} cases, no law broken ({runs} runs, {lines} lines of scripts, {edits} edits)")
    return 0


if __name__ == "__main__":
    sys.exit(main())
