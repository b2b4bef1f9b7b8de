"""Has the unpicklers of each Python that is there load from all that programs load from: bytes, files, gzip, zip, sockets, and reads that come short.

Each act has to have its line, but for two kinds that docs/why/loaders.md names, which are counted: from a file that shows some bytes ahead, where
`calls` says by U3 that frames may be mixed, and behind the place that U3 tells; and from reads that come short, in Python's unpickler. Where there
is U3, the opcode that does an act has to be among those that a loader may take which mixes frames, whatever is loaded from, but for short reads:
the one at the offset where the unpickler stands, where its file tells that, and else one of its kind, in the order of the acts. The Pythons are
the one that runs this and, where the environment variable PYTHONS names a folder, all in it from 3.8 on (as pyenv has them:
FOLDER/VERSION/bin/python3). How many lines are noticed when they are taken away is tried too: of a check that sees nothing no one would hear.

What a loader does first has to be reached, as `reach` says it: of a loader that was given no more than what this needs. The cases are pickles that
do nothing for long, in frames of any lengths.

    python3 -B try_readers.py PROGRAM SEED COUNT          other cases than the gate has, in all these Pythons
    python3 -B try_readers.py PROGRAM SEED COUNT reach    other cases for `reach` alone
"""

from __future__ import annotations

import collections
import functools
import json
import os
import pathlib
import random
import re
import subprocess
import sys
import tempfile
from collections.abc import Callable, Iterator, Sequence
from dataclasses import dataclass, field
from typing import Any, Optional

import load_cases
from load_readers import CUT_SHORT, SHOW_SOME
from loads import MOST_SHOWN, ROOT, SEED, Loads, all_before, matched, old_names, without_line
from picklestep.answers import Calls
from picklestep.records import Reach
from trials.trial import Noted, Trial

COUNT = 600
REACHES = 5000
# So many are loaded by one process.
AT_ONCE = 5000
FIRST = (3, 8)
# Of 100 lines that are taken away so many are noticed. (The rest are those of what has no effect that an unpickler notes: nothing is filled in.)
NOTICED = 98
LINES = 400
# The kinds of acts without a line that the pages name.
MIXES, SHORT = "mixes of frames", "short reads"
Acts = Sequence[Sequence[Any]]
# Up to where an unpickler has read at each of its acts, where that is known.
Ends = Sequence[Optional[int]]
# Which opcodes do acts of each kind.
CALLING = frozenset(["REDUCE", "NEWOBJ", "NEWOBJ_EX", "OBJ", "INST"])
DOING: dict[str, frozenset[str]] = {
    "import": frozenset(["GLOBAL", "INST", "STACK_GLOBAL", "EXT1", "EXT2", "EXT4"]), "call": CALLING, "new": CALLING,
    "persistent": frozenset(["PERSID", "BINPERSID"]), "buffer": frozenset(["NEXT_BUFFER"]), "state": frozenset(["BUILD"]),
    "append": frozenset(["APPEND", "APPENDS"]), "set": frozenset(["SETITEM", "SETITEMS"]), "add": frozenset(["ADDITEMS"]),
}
# How many lines an argument of these has, and how many bytes one of the others.
LINES_OF, BYTES_OF = {"GLOBAL": 2, "INST": 2, "PERSID": 1}, {"EXT1": 1, "EXT2": 2, "EXT4": 4}
TOO_MANY = "too many ways"
# What a loader has to be given for an act to be its first one.
GIVEN = {"persistent": ("--persistent-ids",), "buffer": ("--buffers",), "extension": ("--extensions",)}
# No module has such a sign in its name. (A loader that imports from one raises, if no point stands before that.)
NO_MODULE = re.compile(r"""[^.]*[\0-\x20\x7f"&'()*,:-?\[\]{|}]""")
# A name with this in it torch's loader answers before it imports, whatever the module is called.
ANSWERED = "Storage"
# So many cases in a hundred begin with an act, at least, and so many reach nothing.
BEGUN, QUIET = 30, 15


@dataclass(frozen=True)
class Kind:
    """Some of the cases: which share they are, and the options of load_worker.py and of `calls`."""

    share: float
    make: Callable[[int, int, Sequence[bytes]], Iterator[bytes]]
    options: tuple[str, ...] = ()

    def words(self) -> list[str]:
        return ["--memo", "kept"] if "--one" in self.options else []


KINDS = {
    "singles": Kind(0.25, load_cases.singles),
    "strings as bytes": Kind(0.1, lambda seed, count, real: load_cases.singles(seed + 1, count, real), ("--bytes",)),
    "rows": Kind(0.15, lambda seed, count, real: load_cases.rows(seed, count)),
    "one unpickler": Kind(0.15, lambda seed, count, real: load_cases.rows(seed + 1, count), ("--one",)),
    "wide": Kind(0.1, lambda seed, count, real: load_cases.wide(seed, count)),
    "mixed": Kind(0.15, lambda seed, count, real: load_cases.mixed(seed, count)),
    "mixed, one unpickler": Kind(0.1, lambda seed, count, real: load_cases.mixed(seed + 1, count, 3), ("--one",)),
}


def version_of(python: str) -> tuple[int, ...]:
    """The version of a Python, or nothing where it is none."""
    words = [python, "-c", "import sys; print(*sys.version_info[:3])"]
    try:
        done = subprocess.run(words, capture_output=True, text=True, check=False, timeout=600)
    except OSError:
        return ()
    return tuple(map(int, done.stdout.split())) if done.returncode == 0 else ()


def pythons() -> dict[str, str]:
    """The Pythons that are there, by their versions."""
    folder = os.environ.get("PYTHONS")
    others = sorted(pathlib.Path(folder).glob("*/bin/python3")) if folder else []
    versions = {sys.executable: tuple(sys.version_info[:3]), **{str(path): version_of(str(path)) for path in others}}
    ordered = sorted((version, path) for path, version in versions.items() if version >= FIRST)
    return {".".join(map(str, version)): path for version, path in ordered}


def mixed_at(calls: bytes) -> Optional[int]:
    """Where U3 says that frames may be mixed, or None where the lines have no U3."""
    said = Calls(calls).mixed
    return int(said.rpartition(" ")[2]) if said is not None else None


@dataclass(frozen=True)
class Mixed:
    """The lines of what a loader may take that mixes frames, beside what the unpicklers do."""

    case: bytes
    lines: Sequence[str]

    @property
    def is_untold(self) -> bool:
        """Whether there are too many ways, so that no opcode has a line."""
        return bool(self.lines) and self.lines[0].startswith(TOO_MANY)

    def lacks(self, acts: Acts, ends: Ends) -> str:
        """The first act whose opcode is not among the lines, behind that of the act before; an empty text where there is none."""
        at = 0
        for act, end in zip(acts, ends):
            while at < len(self.lines) and not self._does(self.lines[at], act[0], end):
                at += 1
            if at == len(self.lines):
                return f"{act} is of no opcode{f' that ends at {end}' if end is not None else ''} among {len(self.lines)} that may be taken"
        return ""

    def _does(self, line: str, what: str, end: Optional[int]) -> bool:
        offset, _, said = line.partition(": ")
        opcode = said.partition(" ")[0]
        return opcode in DOING[what] and (end is None or end in self._ends(int(offset), opcode))

    def _ends(self, offset: int, opcode: str) -> range:
        """Where an opcode may end with its argument. (Of a number that crosses the end of a frame some bytes may be lost.)"""
        end = offset + 1
        for _ in range(LINES_OF.get(opcode, 0)):
            end = self.case.find(b"\n", end) + 1
        width = BYTES_OF.get(opcode, 0)
        return range(end + width, end + max(1, 2 * width))


@dataclass
class Tally:
    """What was tried. Of `known` the kinds are those that the pages name; `told` counts the cases with U3, `untold` those of them with too many ways, and
    `mixes` those in which a mix is seen. `taken` counts the acts that are among what mixes may take, and `placed` those of which the offset is known."""

    loads: int = 0
    acts: int = 0
    told: int = 0
    untold: int = 0
    mixes: int = 0
    taken: int = 0
    placed: int = 0
    known: collections.Counter[str] = field(default_factory=collections.Counter)
    found: list[str] = field(default_factory=list)

    def add(self, calls: bytes, loads: Sequence[tuple[str, Acts, Ends]], case: bytes) -> None:
        """Judges what the readers do with one case. Most do the same."""
        judged: dict[str, str] = {}
        place = mixed_at(calls) if calls else None
        mixed = Mixed(case, Calls(calls).mixes) if place is not None else None
        before = self.known[MIXES]
        for reader, acts, ends in loads:
            self.loads, self.acts = self.loads + 1, self.acts + len(acts)
            key = json.dumps(acts)
            if key not in judged:
                judged[key] = without_line(calls, acts) if calls else "the program gives no answer"
            if mixed is not None and not mixed.is_untold and reader != CUT_SHORT:
                self.taken, self.placed = self.taken + len(acts), self.placed + len(ends) - ends.count(None)
                lacks = mixed.lacks(acts, ends)
                self.found += [f"{reader}: {lacks}: {case.hex()[:6000]}"] if lacks else []
            why = self._unknown(reader, calls, acts, place) if judged[key] and calls else ""
            if judged[key] and (why or not calls):
                self.found.append(f"{reader}: {judged[key]}{why}: {case.hex()[:6000]}")
        self.told += place is not None
        self.untold += mixed is not None and mixed.is_untold
        self.mixes += self.known[MIXES] > before

    def _unknown(self, reader: str, calls: bytes, acts: Acts, place: Optional[int]) -> str:
        """Why an act without a line is none that the pages name. If they name it, it is counted, and nothing is answered."""
        if reader in SHOW_SOME and place is None:
            return ", and there is no U3"
        if reader in SHOW_SOME and not all_before(calls, acts, place or 0):
            return f", and it comes before U3 at {place}"
        if reader not in SHOW_SOME and reader != CUT_SHORT:
            return " (no known kind)"
        self.known[MIXES if reader in SHOW_SOME else SHORT] += 1
        return ""

    def note(self) -> str:
        told = f"{self.told} cases have one, {self.untold} of them with too many ways"
        mixes = f"{self.known[MIXES]} loads of {self.mixes} cases with mixes, behind a U3 each ({told})"
        taken = f"of cases with U3 {self.taken} acts are among what mixes may take, {self.placed} by their offset"
        return f"{self.loads} loads, {self.acts} acts; without a line, as the pages say: {mixes}, {self.known[SHORT]} loads with short reads; {taken}"


def try_python(loads: Loads, version: str, python: str, seed: int, count: int, real: Sequence[bytes]) -> Noted:
    """All readers of one Python."""
    loads.folder.mkdir(parents=True, exist_ok=True)
    tally = Tally()
    cases = 0
    for name, kind in KINDS.items():
        given = list(kind.make(seed, round(count * kind.share), real))
        cases += len(given)
        for case, done in zip(given, loads.done(f"readers {version} {name}", given, ["--all", *kind.options], python)):
            tally.add(loads.calls(case, kind.words()), done, case)
    shown = "; ".join(sorted(tally.found, key=len)[:MOST_SHOWN])
    why = f"{len(tally.found)} differences, first {shown}" if tally.found else ""
    # (A trial that never meets a mix would not see one that is new.)
    why = why or "; ".join(f"no case has {what}" for what in (MIXES, SHORT) if count >= COUNT and not tally.known[what])
    why = why or ("no act of a mix has its offset" if count >= COUNT and not tally.placed else "")
    return Noted(why, f": {cases} cases, {tally.note()}")


@dataclass
class Reached:
    """Compares what loaders do first with what `reach` says."""

    loads: Loads
    begun: int = 0
    nothing: int = 0
    loaded: int = 0
    found: list[str] = field(default_factory=list)

    def add(self, case: bytes, done: Sequence[tuple[str, Acts, Ends]]) -> None:
        """Judges what the readers do first with one case."""
        first = {given for reader, acts, _ in done if reader != CUT_SHORT for given in _given(acts)}
        self.loaded += len(done)
        self.begun += bool(first)
        # (where no loader does anything `reach` may say so, and is to be asked to see that it does)
        for given in first or {()}:
            said = self.loads.said(case, ["reach", *given])
            self.nothing += said.startswith("nothing reached: ")
            if not said.startswith(("reached at ", "too many ways")) and (first or not said.startswith("nothing reached: ")):
                readers = ", ".join(reader for reader, acts, _ in done if given in _given(acts))
                self.found.append(f"{readers}: {said.strip() or 'no answer'}: {case.hex()[:6000]}")


def _given(acts: Acts) -> list[tuple[str, ...]]:
    """What a loader was given that does these; nothing where it does nothing, or imports first from what can be no module. (The loaders here have an
    answer for all names, as torch's has for some.)"""
    if not acts:
        return []
    what, _, *rest = acts[0]
    if what == "import" and rest[0] != "extension":
        return [()] if ANSWERED in rest[1] or rest[0] and not NO_MODULE.match(rest[0]) else []
    return [GIVEN.get("extension" if what == "import" else what, ())]


def try_reach(loads: Loads, python: str, seed: int, count: int) -> Noted:
    """Whether each loader that does something is said to reach it."""
    loads.folder.mkdir(parents=True, exist_ok=True)
    reached = Reached(loads)
    for begin in range(0, count, AT_ONCE):
        cases = list(load_cases.quiet(seed + begin, min(AT_ONCE, count - begin)))
        for case, done in zip(cases, loads.done("reach", cases, ["--all"], python)):
            reached.add(case, done)
    shown = "; ".join(sorted(reached.found, key=len)[:MOST_SHOWN])
    why = f"{len(reached.found)} differences, first {shown}" if reached.found else ""
    why = why or ("" if reached.begun * 100 >= count * BEGUN and reached.nothing * 100 >= count * QUIET else "too few of one kind")
    return Noted(why, f": {count} cases, {reached.loaded} loads, in {reached.begun} something is reached, {reached.nothing} answers that nothing is")


def _without(calls: bytes, gone: Reach) -> bytes:
    """The lines but those of this opcode that say this."""
    return b"".join(line for line in calls.splitlines(keepends=True) if json.loads(line).get("text", "") != f"{gone.offset:5}: {gone.text}")


def try_noticed(loads: Loads, real: Sequence[bytes]) -> Noted:
    """How many lines are noticed when they are taken away."""
    loads.folder.mkdir(parents=True, exist_ok=True)
    chance = random.Random(f"lines {SEED}")
    cases = [*load_cases.singles(SEED, LINES, real)]
    tried = 0
    missed: list[str] = []
    for case, done in zip(cases, loads.done("noticed", cases, [])):
        calls = loads.calls(case, [])
        acts: Acts = chance.choice(done)[1]
        why, lines = matched(calls, acts) if calls else ("no answer", [])
        if why or not acts:
            continue
        gone = chance.choice(lines).reach
        tried += 1
        if not without_line(_without(calls, gone), acts):
            missed.append(f"{gone.text}: {case.hex()[:400]}")
    noticed = tried - len(missed)
    why = "" if noticed * 100 >= tried * NOTICED > 0 else f"too few: {'; '.join(sorted(missed, key=len)[:MOST_SHOWN])}"
    return Noted(why, f": {noticed} of {tried}")


def trials(loads: Loads, pickles: pathlib.Path) -> list[Trial]:
    real = [path.read_bytes() for path in sorted(pickles.glob("*.pickle"))]
    made = [
        Trial("a line that is taken away is noticed", functools.partial(try_noticed, loads, real)),
        Trial("what loaders do first is reached", functools.partial(try_reach, loads, sys.executable, SEED, REACHES)),
    ]
    for version, python in pythons().items():
        made.append(Trial(f"all readers of Python {version}", functools.partial(try_python, loads, version, python, SEED, COUNT, real)))
        if python != sys.executable:  # (of that one loads.py tries the names)
            made.append(Trial(f"names of Python 2 in Python {version}", functools.partial(old_names, python)))
    return made


def main(program: str, seed: int, count: int, is_reach: bool = False) -> int:
    """Tries other cases: the status is 1 where an act has no line, or is not reached."""
    real = [path.read_bytes() for path in sorted((ROOT / "crates/real_pickles/data").glob("*.pickle"))]
    is_right = True
    with tempfile.TemporaryDirectory() as folder:
        for version, python in pythons().items():
            loads = Loads(program, pathlib.Path(folder))
            noted = try_reach(loads, python, seed, count) if is_reach else try_python(loads, version, python, seed, count, real)
            print(f"{version}{noted.note} {noted.why}", flush=True)
            is_right = is_right and not noted.why
    return 0 if is_right else 1


if __name__ == "__main__":
    sys.exit(main(sys.argv[1], int(sys.argv[2]), int(sys.argv[3]), sys.argv[4:] == ["reach"]))
