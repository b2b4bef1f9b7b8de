"""The options --window and --save of a conversation, a row for each run."""

from __future__ import annotations

from devices import BREAKPOINTS

from .room import Room
from .row import MISSING, Row, fails, misused, repeated, trials_of, unexpected, valueless
from .trial import Trial

_, BREAK_LINES, BREAK_ANSWERS, BREAK_STATUS = BREAKPOINTS
# What is no number of step records, each with what is said of it. A minus begins an option.
NO_WINDOWS = (
    ("0", "0 is not in 1..=1000000"),
    ("1000001", "1000001 is not in 1..=1000000"),
    ("x", "invalid digit found in string"),
    ("", "cannot parse integer from empty string"),
    ("1.5", "invalid digit found in string"),
    ("18446744073709551617", "number too large to fit in target type"),
)

WINDOWS = (
    *(
        Row(f"breakpoints in a window of {count}", ("debug", "dump.pickle", "--window", str(count)), BREAK_LINES, BREAK_STATUS, BREAK_ANSWERS)
        for count in (1, 2, 3, 1_000_000)
    ),
    Row(
        "back past a window, unframed",
        ("debug", "--unframed", "--window", "1", "doubled.pickle"),
        "goto 3\nback\nback\nstack\n",
        output="at 3\nat 2\nat 1\nstack #0\n",
    ),
    Row(
        "back past a window",
        ("debug", "--window", "1", "doubled.pickle"),
        "goto 3\nback\nback\nstack\n",
        output="at 3\nat 2\nat 1\nstack #0\n",
    ),
    *(
        misused(f"a window of '{count}'", "debug", "doubled.pickle", "--window", count, why=f"invalid value '{count}' for '--window <N>': {why}")
        for count, why in NO_WINDOWS
    ),
    unexpected("a window of '-1'", "-1", "debug [OPTIONS] <FILE>", "debug", "doubled.pickle", "--window", "-1"),
    valueless("a window without a number", "--window <N>", "debug", "doubled.pickle", "--window"),
    repeated("two windows", "--window <N>", "debug", "doubled.pickle", "--window", "2", "--window", "2"),
    unexpected("a window of list", "--window", "list <FILE>", "list", "doubled.pickle", "--window", "2"),
)


def saves(name: str, wanted: str, out: str, *options: str) -> Row:
    """A conversation without a line saves the bytes of `wanted` to `out`."""
    return Row(name, ("debug", *options), saved=(out, wanted))


SAVES = (
    saves("an argument cut short, saved", "cut_short.pickle", "saved.pickle", "cut_short.pickle", "--save", "saved.pickle"),
    Row(
        "a pickle saved after its lines",
        ("debug", "--save", "shorter.pickle", "doubled.pickle"),
        "step\nfly\nquit\nstep\n",
        status=1,
        output="at 1\nrefused: X1 unknown word\n",
        through='cp long.pickle shorter.pickle && "$@"',
        saved=("shorter.pickle", "doubled.pickle"),
    ),
    saves("a pickle saved over itself", "doubled.pickle", "itself.pickle", "itself.pickle", "--save", "itself.pickle"),
    Row(
        "a pickle saved from a window",
        ("debug", "doubled.pickle", "--save", "window.pickle", "--window", "2"),
        "run\n",
        output="at 4: end, stopped\n",
        saved=("window.pickle", "doubled.pickle"),
    ),
    saves(
        "an unframed pickle saved from a window",
        "dump.pickle",
        "unframed.pickle",
        "--unframed",
        "--window",
        "1",
        "dump.pickle",
        "--save",
        "unframed.pickle",
    ),
    saves("options before the file", "doubled.pickle", "first.pickle", "--window", "7", "--save=first.pickle", "doubled.pickle"),
    saves("a long pickle saved", "long.pickle", "again.pickle", "long.pickle", "--save", "again.pickle"),
    fails("a pickle saved to a full device", "cannot write", "debug", "kept.pickle", "--save", "/dev/full"),
    Row(
        "the pickle after a full device",
        ("debug", "kept.pickle", "--save", "/dev/full"),
        status=2,
        errors="picklestep: cannot write\n",
        saved=("kept.pickle", "doubled.pickle"),
    ),
    fails("a pickle saved to a folder", "cannot write", "debug", "doubled.pickle", "--save", "another folder"),
    fails("a pickle saved to no name", "cannot write", "debug", "doubled.pickle", "--save", ""),
    fails("a pickle saved into no folder", "cannot write", "debug", "doubled.pickle", "--save", "none/saved.pickle", unmade="none"),
    fails(
        "no pickle saved after a failed write",
        "cannot write",
        "debug",
        "doubled.pickle",
        "--save",
        "unsaved.pickle",
        given="step\n",
        through='"$@" >/dev/full',
        unmade="unsaved.pickle",
    ),
    fails("no such file to save", "cannot read", "debug", "missing.pickle", "--save", "unsaved.pickle", unread=f"missing.pickle: {MISSING}"),
    fails(
        "no file saved from no file",
        "cannot read",
        "debug",
        "missing.pickle",
        "--save",
        "unsaved.pickle",
        unmade="unsaved.pickle",
        unread=f"missing.pickle: {MISSING}",
    ),
    valueless("a name to save missing", "--save <OUT>", "debug", "doubled.pickle", "--save"),
    repeated("two names to save", "--save <OUT>", "debug", "doubled.pickle", "--save", "one.pickle", "--save", "two.pickle"),
    unexpected("the option --save of list", "--save", "list <FILE>", "list", "doubled.pickle", "--save", "saved.pickle"),
)


def trials(room: Room) -> list[Trial]:
    return trials_of((*WINDOWS, *SAVES), room)
