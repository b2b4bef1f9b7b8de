"""What the program does with files and devices, a row for each."""

from __future__ import annotations

import os
import pty
import select
import subprocess
import tty
from collections.abc import Sequence

from .room import SECONDS, Room, Run, Word, beginning
from .row import MISSING, CLOSED, CUT, FULL, LITTLE_MEMORY, SMALL_STACK, UNPRIVILEGED, Row, fails, trials_of
from .samples import PAIR_LISTING, PAIR_OBJECTS
from .trial import Trial

NO_CALLS = "0 imports, 0 calls\n"
UNKNOWN = "refused: X1 unknown word\n"
STEPS = "step\nstep\nstep\nback\nstack\nstep\nstep\nstep\nfly\n"
STEPS_ANSWERED = "at 1\nat 2\nat 3\nat 2\nstack #0 #0\nat 3\nat 4\nrefused: C2 at the end, stopped\n" + UNKNOWN
CUT_LISTING = "    0: K    BININT1    1\nfault: F3 truncated at 2\nhighest protocol among opcodes = 1\n"
SOURCE = "# What loading the pickle would do. Running this does the same.\nfrom picklestep.running import *\nresult = (1, 2)\n"
CUT_SOURCE = """\
# What loading the file would do first: the last lines say why this is not all.
from picklestep.running import *
# fault: F3 truncated at 2
stack = [1, ]
"""
MANY = 50_000
# Lines of 65,536 bytes at most are run; of a longer one no word is.
BLANKS = " " * 65_532
LONG_LINES = f"    {BLANKS}\n     {BLANKS}\n{BLANKS}step\nstep{BLANKS} \nfly{BLANKS}  \nstep{BLANKS}\nback {BLANKS}"
TOO_LONG = "refused: X7 line too long\n"
LONG_LINES_ANSWERED = f"{TOO_LONG}at 1\n{TOO_LONG}{TOO_LONG}at 2\n{TOO_LONG}"

# A FIFO that is written, read, or left in the middle of a line, at the other end.
FIFO_GIVES = 'rm -f fifo && mkfifo fifo && { cat pair.pickle >fifo & } && "$@" fifo'
FIFO_TAKES = 'rm -f fifo && mkfifo fifo && { cat fifo >from_fifo & } && "$@" fifo && wait'
FIFO_ENDS = 'rm -f fifo && mkfifo fifo && { printf "step\\nste" >fifo & } && "$@" <fifo'

LISTINGS = (
    Row("a pair", ("list", "pair.pickle"), output=PAIR_LISTING),
    Row("an empty file", ("list", "empty.pickle"), status=1, output="fault: F1 ended at 0\n"),
    Row("a path with blanks into another folder", ("list", "another folder/a pair.pickle"), output=PAIR_LISTING),
    Row("a name with a leading dash", ("list", "--", "-pair"), output=PAIR_LISTING),
    Row("a file named -", ("list", "-"), output=PAIR_LISTING),
    Row("a file named - after --", ("list", "--", "-"), output=PAIR_LISTING),
    Row("a start through a link", ("list", "pair.pickle"), output=PAIR_LISTING, through='shift; ./linked "$@"'),
    Row("a start by its name alone", ("list", "pair.pickle"), output=PAIR_LISTING, through='PATH=${1%/*}:$PATH; shift; picklestep "$@"'),
    Row("standard input as a file", ("list", "/dev/stdin"), output=PAIR_LISTING, through='exec "$@" <pair.pickle'),
    Row("a pipe as a file", ("list", "/dev/stdin"), output=PAIR_LISTING, through='cat pair.pickle | "$@"'),
    Row("a FIFO as a file", ("list",), output=PAIR_LISTING, through=FIFO_GIVES),
    Row("a pickle saved into a FIFO", ("debug", "doubled.pickle", "--save"), through=FIFO_TAKES, saved=("from_fifo", "doubled.pickle")),
    Row("lines from a FIFO that is closed in the middle of one", ("debug", "doubled.pickle"), status=1, output="at 1\n" + UNKNOWN, through=FIFO_ENDS),
    Row("a file in the middle of which its writer stops", ("list", "/dev/stdin"), status=1, output=CUT_LISTING, through=CUT),
    Row("a conversation that ends in the middle of a line", ("debug", "doubled.pickle"), "step\nba", status=1, output="at 1\n" + UNKNOWN),
    Row("a listing with a small stack", ("list", "pair.pickle"), output=PAIR_LISTING, through=SMALL_STACK),
    Row("a conversation with a small stack", ("debug", "doubled.pickle"), "step\n", output="at 1\n", through=SMALL_STACK),
    Row("closed standard input", ("list", "pair.pickle"), output=PAIR_LISTING, through='exec "$@" <&-'),
)

OBJECTS = (
    Row("the objects of a pair", ("objects", "pair.pickle"), output=PAIR_OBJECTS),
    Row("the objects of an empty file", ("objects", "empty.pickle"), status=1, output="fault: F1 ended at 0\n"),
    Row(
        "the objects of a file that ends too early",
        ("objects", "/dev/stdin"),
        status=1,
        output="#0 int 1\nfault: F3 truncated at 2\n",
        through=CUT,
    ),
    fails("the objects of no such file", "cannot read", "objects", "missing.pickle", unread=f"missing.pickle: {MISSING}"),
    fails("the objects of a file past the size limit", "too large", "objects", "too_large.pickle"),
    fails("the objects, on a full device", "cannot write", "objects", "pair.pickle", through=FULL),
)

# A thousand opcodes NONE with three bytes behind each, between an import and its call; and where these bytes are.
HOLED = '''printf 'NN\\377\\377\\377cm\\nn\\n' >holed.pickle; echo 2:3 >holes.txt
for ((i = 0; i < 999; i++)); do printf 'N0\\377\\377\\377' >>holed.pickle; echo "$((i * 5 + 12)):3" >>holes.txt; done
printf ')R.' >>holed.pickle; "$@"'''
# Two holes between white space, that of other scripts too (U+00A0, U+3000), and lines that have nothing else.
SPACED = '''printf 'cm\\nn\\n\\377)\\377R.' >spaced.pickle
printf '\\n \\t\\v5:1 \\f\\r\\n\\302\\240\\n\\t\\r\\n\\343\\200\\2007:1\\302\\240' >spaced.txt; "$@"'''


def holes_fail(name: str, why: str, file: str, *holes: str, through: str = "") -> Row:
    """The calls of a file without the bytes that files of holes name. Those that are not there are called missing."""
    words = [word for path in holes for word in ("--skip", f"@{path}")]
    missing = [path for path in (file, *holes) if path.startswith("missing")]
    return fails(name, why, "calls", file, *words, through=through, unread="".join(f"{path}: {MISSING}" for path in missing))


CALLS = (
    Row("the calls of a pair", ("calls", "pair.pickle"), output=NO_CALLS),
    Row("the calls of several pickles", ("calls", "--many", "pair.pickle"), output=NO_CALLS),
    Row("the calls of an empty file", ("calls", "empty.pickle"), status=1, output=NO_CALLS + "fault: F1 ended at 0\n"),
    Row("the calls of a file that ends too early", ("calls", "/dev/stdin"), status=1, output=NO_CALLS + "fault: F3 truncated at 2\n", through=CUT),
    Row("the calls of a long file", ("calls", "long.pickle"), output=NO_CALLS),
    fails("the calls of no such file", "cannot read", "calls", "missing.pickle", unread=f"missing.pickle: {MISSING}"),
    fails("the calls of a file past the size limit", "too large", "calls", "too_large.pickle"),
    fails("the calls, on a full device", "cannot write", "calls", "pair.pickle", through=FULL),
    Row(
        "the calls of what a thousand holes leave",
        ("calls", "holed.pickle", "--skip", "@holes.txt"),
        output="    5: import 'm' 'n' as #2\n 5006: call 'm' 'n' () as #1003\n1 imports, 1 calls\n",
        through=HOLED,
    ),
    Row(
        "holes from a file, between white space",
        ("calls", "spaced.pickle", "--skip", "@spaced.txt"),
        output="    0: import 'm' 'n' as #0\n    8: call 'm' 'n' () as #2\n1 imports, 1 calls\n",
        through=SPACED,
    ),
    Row("holes from a file without a line", ("calls", "pair.pickle", "--skip", "@/dev/null"), output=NO_CALLS),
    holes_fail("holes from no such file", "cannot read", "pair.pickle", "missing.txt"),
    holes_fail("holes from a file that is no text", "cannot read", "pair.pickle", "pair.pickle"),
    holes_fail("holes from a file past the size limit", "too large", "pair.pickle", "too_large.pickle"),
    # Of files that fail the first in the order of the words is named, and files of holes come before FILE.
    holes_fail("holes from a file past the size limit, and from no such file", "too large", "pair.pickle", "too_large.pickle", "missing.txt"),
    holes_fail("holes from no such file, and from one past the size limit", "cannot read", "pair.pickle", "missing.txt", "too_large.pickle"),
    holes_fail("holes from a file past the size limit, of no such file", "too large", "missing.pickle", "too_large.pickle"),
    holes_fail("holes from no such file, of one past the size limit", "cannot read", "too_large.pickle", "missing.txt"),
)

CONVERSATIONS = (
    Row("a conversation", ("debug", "doubled.pickle"), STEPS, status=1, output=STEPS_ANSWERED),
    Row("a conversation without a line", ("debug", "doubled.pickle")),
    Row("lines with returns and tabs, the last without its end", ("debug", "popped.pickle"), "step\r\n\tstep\t\nstep", output="at 1\nat 2\nat 3\n"),
    Row("lines of blanks", ("debug", "none.pickle"), "\n \t\r\n\nstack\n \r\t", output="stack\n"),
    Row("a number between blanks", ("debug", "none.pickle"), f"\tgoto  {1:040} \n", output="at 1\n"),
    Row("a refused line without its end", ("debug", "none.pickle"), "back", status=1, output="refused: C1 at the start\n"),
    Row("lines of 65,536 bytes and of one more", ("debug", "popped.pickle"), LONG_LINES, status=1, output=LONG_LINES_ANSWERED),
    Row("a quit without its end", ("debug", "none.pickle"), "step\nquit", output="at 1\n"),
    Row(
        "signs that are no blanks",
        ("debug", "none.pickle"),
        "goto\x0b1\ngoto 1\x0c\nSTEP\n\x0bstep\nstep\x0c\nst\x00ep\nfly 1\ngoto1\n",
        status=1,
        output=UNKNOWN + "refused: X3 bad number\n" + UNKNOWN * 6,
    ),
    Row("a conversation of 100,000 lines", ("debug", "long.pickle"), "step\nback\n" * MANY, output="at 1\nat 0\n" * MANY),
    fails("a conversation about no such file", "cannot read", "debug", "missing.pickle", unread=f"missing.pickle: {MISSING}"),
    fails("a conversation about a file past the size limit", "too large", "debug", "too_large.pickle"),
    fails("a conversation with a full device", "cannot write", "debug", "doubled.pickle", given="step\n", through=FULL),
    fails("a full device, and a line that quits", "cannot write", "debug", "doubled.pickle", given="step\nquit\n", through=FULL),
    fails("a full device, and a line without its end", "cannot write", "debug", "doubled.pickle", given="step", through=FULL),
    fails("a conversation with closed standard output", "cannot write", "debug", "doubled.pickle", given="step\n", through=CLOSED),
    fails("a conversation whose input cannot be read", "cannot read", "debug", "doubled.pickle", through='exec "$@" </'),
)

FAULTS = (
    fails("no such file", "cannot read", "list", "missing.pickle", unread=f"missing.pickle: {MISSING}"),
    fails("an empty path", "cannot read", "list", "", unread=f"'': {MISSING}"),
    fails("a folder", "cannot read", "list", "another folder", unread="another folder: Is a directory"),
    fails("a file that may not be read", "cannot read", "list", "unreadable.pickle", through=UNPRIVILEGED, unread="unreadable.pickle: Permission denied"),
    fails("a file whose reading fails", "cannot read", "list", "/proc/self/mem"),
    fails("a file past the size limit", "too large", "list", "too_large.pickle"),
    fails("a full device", "cannot write", "list", "pair.pickle", through=FULL),
    fails("a full device, with a long listing", "cannot write", "list", "long.pickle", through=FULL),
    fails("closed standard output", "cannot write", "list", "pair.pickle", through=CLOSED),
    fails("what is the same, on a full device", "cannot write", "same", "pair.pickle", "pair.pickle", through=FULL),
    fails("a missing file that is compared", "cannot read", "same", "missing.pickle", "none.pickle", unread=f"missing.pickle: {MISSING}"),
    fails("a file that is compared with a missing one", "cannot read", "same", "none.pickle", "missing.pickle", unread=f"missing.pickle: {MISSING}"),
    fails("a file that is compared with one past the size limit", "too large", "same", "none.pickle", "too_large.pickle", through=LITTLE_MEMORY),
    Row("the source of a pair", ("source", "pair.pickle"), output=SOURCE, is_bare=True),
    Row("the source of a file that ends too early", ("source", "/dev/stdin"), status=1, output=CUT_SOURCE, through=CUT, is_bare=True),
    fails("the source of no such file", "cannot read", "source", "missing.pickle", is_bare=True),
    fails("the source of a file past the size limit", "too large", "source", "too_large.pickle", is_bare=True),
    fails("the source, on a full device", "cannot write", "source", "pair.pickle", through=FULL, is_bare=True),
    fails("the table of opcodes, on a full device", "cannot write", "opcodes", through=FULL),
    fails("the table of opcodes for programs, on a full device", "cannot write", "opcodes", "--json", through=FULL),
    fails("the table of opcodes, with closed standard output", "cannot write", "opcodes", through=CLOSED),
    fails("no such file, with closed standard output", "cannot read", "list", "missing.pickle", through=CLOSED, unread=f"missing.pickle: {MISSING}"),
)

# Nothing is read of a file that is too large: there is no room for a tenth of it, as the last two rows show.
TOO_LARGE = (
    *(
        fails(f"{task} of a file past the size limit, with little memory", "too large", task, "too_large.pickle", through=LITTLE_MEMORY)
        for task in ("list", "objects", "calls", "form", "debug")
    ),
    holes_fail("holes from a file past the size limit, with little memory", "too large", "pair.pickle", "too_large.pickle", through=LITTLE_MEMORY),
    fails("a conversation about the largest file, with little memory", "out of memory", "debug", "largest.pickle", through=LITTLE_MEMORY),
    holes_fail("holes from the largest file, with little memory", "out of memory", "pair.pickle", "largest.pickle", through=LITTLE_MEMORY),
)


def leaves_early(room: Room) -> str:
    """A reader that leaves after three lines: the signal of the closed pipe ends the program, or it says so."""
    row = Row("", ("list", "long.pickle"), through='"$@" | head -n 3; exit "${PIPESTATUS[0]}"')
    run = row.run(room)
    if run.output != b"".join(b"    %d: N    NONE\n" % number for number in range(3)):
        return f"another output, which begins: {beginning(run.output)}"
    if run.status != 128 + 13 and (run.status, run.errors) != (2, b"picklestep: cannot write\n"):
        return f"status {run.status}, with errors that begin: {beginning(run.errors)}"
    return ""


# Lines that are typed, and the answer to each.
TALK = (("step", "at 1"), ("stack", "stack #0"), ("fly", UNKNOWN.rstrip("\n")), ("back", "at 0"))
TEN = (("step", "at 1"), ("back", "at 0")) * 4 + (("fly", UNKNOWN.rstrip("\n")), ("step", "at 1"))

Exchange = Sequence[tuple[str, str]]


def debugger(room: Room) -> list[Word]:
    return ["timeout", str(SECONDS), room.start, "debug", "doubled.pickle"]


def heard(device: int, lines: int) -> bytes:
    """What a device gives until there are this many lines, or nothing comes for a while."""
    text = b""
    while text.count(b"\n") < lines and select.select([device], [], [], SECONDS / 2)[0]:
        part = os.read(device, 65_536)
        if not part:
            break
        text += part
    return text


def difference_in(exchanges: Sequence[Exchange], typed: int, shown: int) -> str:
    """Types the lines of each exchange at once, and waits for their answers before the next."""
    for exchange in exchanges:
        os.write(typed, "".join(f"{line}\n" for line, _ in exchange).encode())
        answer = heard(shown, len(exchange))
        if answer != "".join(f"{wanted}\n" for _, wanted in exchange).encode():
            return f"the answer to {exchange[0][0]} is: {beginning(answer)}"
    return ""


def talks(exchanges: Sequence[Exchange], room: Room) -> str:
    """Over pipes, which stay open until all answers have come."""
    pipe = subprocess.PIPE
    with subprocess.Popen(debugger(room), cwd=room.files, stdin=pipe, stdout=pipe, stderr=pipe, bufsize=0) as talker:
        assert talker.stdin and talker.stdout
        why = difference_in(exchanges, talker.stdin.fileno(), talker.stdout.fileno())
        if why:
            talker.terminate()
            return why
        output, errors = talker.communicate()
        return Run(talker.returncode, output, errors).difference(1, "", "")


def talks_at_a_terminal(room: Room) -> str:
    """A person at a terminal types a line, and the next when the answer has come."""
    person, terminal = pty.openpty()
    try:
        # (a raw terminal neither shows what is typed nor changes the ends of lines)
        tty.setraw(terminal)
        with subprocess.Popen(debugger(room), cwd=room.files, stdin=terminal, stdout=terminal, stderr=subprocess.PIPE) as talker:
            assert talker.stderr
            why = difference_in([[exchange] for exchange in TALK], person, person)
            os.write(person, b"quit\n")
            errors = talker.stderr.read()
            status = talker.wait()
            more = os.read(person, 65_536) if select.select([person], [], [], 0)[0] else b""
            return why or Run(status, more, errors).difference(1, "", "")
    finally:
        os.close(person)
        os.close(terminal)


def trials(room: Room) -> list[Trial]:
    return [
        *trials_of((*LISTINGS, *OBJECTS, *CALLS, *CONVERSATIONS), room),
        Trial("a conversation line by line", lambda: talks([[exchange] for exchange in TALK], room)),
        Trial("ten lines at once, and ten answers", lambda: talks([TEN], room)),
        Trial("a conversation at a terminal", lambda: talks_at_a_terminal(room)),
        *trials_of((*FAULTS, *TOO_LARGE), room),
        Trial("a reader that leaves early", lambda: leaves_early(room)),
    ]
