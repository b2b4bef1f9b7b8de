"""What the program lists of the real pickles, against what Python's pickletools makes of them."""

from __future__ import annotations

import functools
import re
from collections.abc import Sequence
from pathlib import Path
from pickle import decode_long, encode_long
from struct import pack

from python_listing import Read, outline, refusal_of
from real_pickles.answers import expected, lenient

from .room import Room, beginning, first_difference, lines_of
from .row import MISSING, Row, fails, trials_of
from .trial import Trial

# What a rule of real_pickles/README.md lets a listing end before, where Python goes on and refuses the pickle later.
EARLIER = {"frame_in_a_frame", "lines_with_carriage_returns", "objects_under_a_mark", "double_of_a_mark"}
# What begins like a zip archive, in which the entrance would look for a pickle. It lists all others here; elsewhere the program itself is asked.
OPENED = {"archive"}


def listing_difference(listing: bytes, answer: bytes) -> str:
    """The first line in which a listing is not what is expected of it, or an empty text."""
    return first_difference(map(outline, lines_of(listing)), lines_of(answer))


def is_broken(answer: bytes) -> bool:
    """Whether a listing ends in a refusal or a fault, which is status 1 of the program."""
    return re.search(rb"^(refused|fault): ", answer, re.MULTILINE) is not None


def reach_of(listing: bytes) -> int:
    """How far a listing goes: after the code of its last opcode, or to the offset of its fault."""
    items = [int(offset) + 1 for offset in re.findall(rb"^ *(\d+): ", listing, re.MULTILINE)]
    faults = [int(offset) for offset in re.findall(rb"^fault: .* at (\d+)$", listing, re.MULTILINE)]
    return max(items[-1:] + faults, default=0)


def refusal_fault(pickle: Path, listing: bytes) -> str:
    """A listing goes as far as Python does, or to where Python refuses."""
    refusal = refusal_of(pickle.read_bytes())
    if refusal is None or reach_of(listing) >= refusal[0] or pickle.stem in EARLIER:
        return ""
    return f"it goes to {reach_of(listing)}, and Python to {refusal[0]}"


def fault_of(room: Room, pickle: Path) -> str:
    answer = expected(pickle)
    found = room.observe(room.program if pickle.stem in OPENED else room.start, "list", pickle)
    why = found.fault_of_status(int(is_broken(answer)))
    if not why and found.errors:
        why = f"errors, which begin: {beginning(found.errors)}"
    return why or listing_difference(found.output, answer) or refusal_fault(pickle, found.output)


def trials(room: Room) -> list[Trial]:
    return [
        *(Trial(f"the listing of {pickle.stem}", functools.partial(fault_of, room, pickle)) for pickle in sorted(room.pickles.glob("*.pickle"))),
    ]


# --- There and back ---

WINDOWS: Sequence[Sequence[str]] = ((), ("--window=100",))
THERE_AND_BACK = "run\nstack\ngoto 0\nstack\nrun\nstack\n"


def reply_to_run(place: int, broken: str) -> str:
    """What `run` from the start is answered that ends at a place. `broken` is the refusal or fault of the listing, if it has one."""
    if broken.startswith("refused: "):
        why = broken[len("refused: ") :]
        return f"at {place}: refused, {why}" if place > 0 else f"refused: C3 item 0: {why}"
    end = broken[len("fault: ") :] if broken else "stopped"
    return f"at {place}: end, {end}" if place > 0 else f"refused: C2 at the end, {end}"


def reply_of(answer: bytes) -> str:
    broken = [line.decode() for line in re.findall(rb"^(?:refused|fault): .*", answer, re.MULTILINE)]
    items = len(re.findall(rb"^ *\d+: ", answer, re.MULTILINE))
    # (the refused opcode is listed, and not stepped over)
    refused = sum(line.startswith("refused: ") for line in broken)
    return reply_to_run(items - refused, "".join(broken))


def fault_there_and_back(room: Room, pickle: Path, window: Sequence[str]) -> str:
    """Runs a pickle to its end, goes back and runs it again. The stack is the same both times, and empty at the start."""
    reply = reply_of(expected(pickle))
    found = room.observe(room.program, "debug", pickle, *window, given=THERE_AND_BACK.encode())
    second = found.output.split(b"\n")[1:2]
    stack = second[0].decode() if second and second[0].startswith(b"stack") else ""
    wanted = f"{reply}\n{stack}\nat 0\nstack\n{reply}\n{stack}\n"
    return found.difference(int(reply.startswith("refused: ")), wanted, "")


def there_and_back(room: Room) -> list[Trial]:
    """Each pickle with all records, and with the latest few."""
    return [
        Trial(" ".join([f"{pickle.stem}, debugged there and back", *window]), functools.partial(fault_there_and_back, room, pickle, window))
        for pickle in sorted(room.pickles.glob("*.pickle"))
        for window in WINDOWS
    ]


# --- Assembled again ---

# What a listing says where it does not show all bytes.
GAP = re.compile(rb"^(?:kept|fault|refused): .*\n", re.MULTILINE)
LEFT_OUT = "the listing does not show all bytes of its pickle"
MOST_DECIMAL = 16  # bytes of a number that a listing shows in decimal digits
COUNTS = {"LONG1": 1, "LONG4": 4}


def spelled(data: bytes, read: Read) -> bytes:
    """The bytes of an opcode, a number in as few digits and bytes as Python needs for it: a listing shows no others."""
    code, argument = data[read.start : read.start + 1], data[read.start + 1 : read.end]
    if read.name in ("GET", "PUT"):
        return code + b"%d\n" % int(argument)
    width = COUNTS.get(read.name, 0)
    if width and len(argument) - width <= MOST_DECIMAL:
        number = encode_long(decode_long(argument[width:]))
        return code + len(number).to_bytes(width, "little") + number
    return data[read.start : read.end]


def fault_assembled(room: Room, file: Path) -> str:
    """The listing of a pickle, assembled, is the bytes of the opcodes that are listed: the whole one as they are, and the other as it spells them. With a line that bytes are not shown it is refused."""
    listing, data = room.observe(room.program, "list", file).output, file.read_bytes()
    whole = room.observe(room.program, "list", "--whole", file).output
    listed = lenient(data)[0][: len(re.findall(rb"^ *\d+: ", listing, re.MULTILINE))]
    for text, wanted in (listing, b"".join(spelled(data, read) for read in listed)), (whole, b"".join(data[read.start : read.end] for read in listed)):
        found = room.observe(room.program, "assemble", "/dev/stdin", given=GAP.sub(b"", text))
        if found.output != wanted or found.status or found.errors:
            return f"status {found.status}, {len(found.output)} bytes: {beginning(found.output)}"
    gap = GAP.search(listing)
    if gap is None:
        return ""
    line = listing.count(b"\n", 0, gap.start()) + 1
    return room.observe(room.program, "assemble", "/dev/stdin", given=listing).difference(1, f"refused: line {line}: {LEFT_OUT}\n", "")


REFUSED = (
    ("BINIT1 1", "no opcode has this name"),
    ("BININT1 one", "the opcode wants a whole number"),
    ("BININT1 256", "the number does not fit into the opcode's bytes"),
    ("BINUNICODE 'a", "the opcode wants a text in quotes"),
    (f"SHORT_BINBYTES '{'a' * 256}'", "the text is too long for the opcode"),
    ("BINFLOAT 1,5", "the opcode wants a number, or f8: and hexadecimal digits"),
    ("raw: 7g", "these are no pairs of hexadecimal digits"),
    ("BININT1 hex: 0102", "the bytes are no argument of the opcode"),
    ("NONE (a note", "the line goes on behind the argument"),
)
GIVEN = "4: K BININT1 7 (a note) # a comment\n5: # another\nraw: 7F00\nGET 007\nPUT key_1\nBINGET key_1 # 8\nLONG1 255\nLONG1 -128\nBINUNICODE '\xe9\\x0a'\nSHORT_BINBYTES hex: 0107\nSHORT_BINBYTES b\"'\\n\"\nINT -7\nFLOAT 1e3\nBINFLOAT 0.1\nSTOP"
MADE = b"K\x07\x7f\0g007\np8\nh\x08\x8a\2\xff\0\x8a\1\x80X\3\0\0\0\xc3\xa9\nC\1\7C\2'\nI-7\nF1e3\nG" + pack(">d", 0.1) + b"."
ROWS = (
    *(Row(f"no line: {line[:20]}", ("assemble", "/dev/stdin"), f"STOP\n{line}\n", 1, f"refused: line 2: {why}\n") for line, why in REFUSED),
    Row("lines of each kind", ("assemble", "/dev/stdin"), GIVEN, output=MADE.hex(), through='"$@" | od -An -v -tx1 | tr -d " \\n"'),
    Row("a pickle saved", ("assemble", "/dev/stdin", "--save", "again.pickle"), through='"$1" list pair.pickle | "$@"', saved=("again.pickle", "pair.pickle")),
    Row("none saved", ("assemble", "/dev/stdin", "--save=no.pickle"), "NON", 1, "refused: line 1: no opcode has this name\n", unmade="no.pickle"),
    fails("a text that is missing", "cannot read", "assemble", "missing.txt", unread=f"missing.txt: {MISSING}"),
)


def assembled(room: Room) -> list[Trial]:
    tried = [Trial(f"{file.stem}, assembled again", functools.partial(fault_assembled, room, file)) for file in sorted(room.pickles.glob("*.pickle"))]
    return [*tried, *trials_of(ROWS, room)]
