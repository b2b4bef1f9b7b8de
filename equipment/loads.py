"""Compares what real unpicklers do with the lines of `calls`.

The unpicklers run in load_worker.py: in C from bytes, from BytesIO and from a buffered file, and the one in Python, each in a loop of loads.
Each act of theirs has to have its line, in its order: among those of the strict reading and of the part behind its end, or among these and
then those of the part for loaders that buffer frames. Lines that no unpickler gets to are no difference: loaders end at values that the
program does not look into. The cases come from load_cases.py, and the seed is printed.

    python3 -B loads.py PROGRAM SEED COUNT    other cases than the gate has: so many pickles, and as many rows for each way of loading
"""

from __future__ import annotations

import functools
import json
import math
import pathlib
import re
import struct
import subprocess
import sys
import tempfile
from collections.abc import Iterable, Iterator, Sequence
from dataclasses import dataclass, field
from typing import Any, Optional

ROOT = pathlib.Path(__file__).resolve().parent.parent
sys.path.append(str(ROOT / "python"))

import load_cases  # noqa: E402
from picklestep.answers import Calls  # noqa: E402
from picklestep.records import Briefs, Extension, Global, Reach, Ref  # noqa: E402
from trials.trial import Noted, Trial  # noqa: E402

SEED = 1
EACH = 2500
MOST_SHOWN = 3
CALLS = ("call", "new", "inst")
FILLS = ("append", "set", "add")
ODDITY = re.compile(r"(stopped|[FSU][0-9]+) +(.*?) {2,}([0-9a-f*]+(?: [0-9a-f*]+)*)")
BUFFERED = "a loader that buffers frames may go on"
HELD = "a loader that keeps its buffer may go on"
LOST = re.compile(r"^unsure: U2 rest of a frame is lost at ([0-9]+)$", re.MULTILINE)


@dataclass
class Line:
    """A line, as one act: an `inst` is two. `target` is the line that brought what is called, filled or given a state."""

    what: str
    reach: Reach
    target: Optional["Line"] = None
    count: Optional[int] = None
    may_be_missed: bool = False


@dataclass
class Reader:
    """Reads lines in their order: `brought` has the line that brought an object, by its number, and `extensions` the first of each code."""

    brought: dict[int, Line] = field(default_factory=dict)
    extensions: dict[int, Line] = field(default_factory=dict)

    def copy(self) -> "Reader":
        return Reader(dict(self.brought), dict(self.extensions))

    def up_to(self, end: float) -> "Reader":
        """What was brought by objects of lower numbers than this."""
        extensions = {code: line for code, line in self.extensions.items() if (line.reach.number or 0) < end}
        return Reader({number: line for number, line in self.brought.items() if number < end}, extensions)

    def lines(self, reaches: Iterable[Reach]) -> list[Line]:
        return [line for reach in reaches for line in self._lines(reach)]

    def _lines(self, reach: Reach) -> list[Line]:
        if reach.what == "readonly":
            # (A thing that can only be read already stays itself.)
            if reach.target in self.brought and reach.number is not None:
                self.brought[reach.number] = self.brought[reach.target]
            return []
        if reach.what in ("state", *FILLS):
            target = self.brought.get(-1 if reach.target is None else reach.target)
            count = reach.count if reach.what in FILLS else 1
            return [Line(reach.what, reach, target, count, may_be_missed=target is None or not count)]
        lines = self._named(reach)
        if reach.number is not None:
            self.brought[reach.number] = self._kept(lines[-1])
        return lines

    def _kept(self, line: Line) -> Line:
        """The line that brought the same thing first, where it is one that the cache of extensions keeps."""
        name = line.reach.name
        return self.extensions.get(name.code, line) if line.what == "import" and isinstance(name, Extension) else line

    def _named(self, reach: Reach) -> list[Line]:
        if reach.what == "inst":
            first = Line("import", reach)
            return [first, Line("call", reach, first, _count(reach))]
        if reach.what in CALLS:
            target = self.brought.get(reach.name.number) if isinstance(reach.name, Ref) else None
            return [Line("call", reach, target, _count(reach))]
        line = Line(reach.what, reach)
        if isinstance(reach.name, Extension):
            line.may_be_missed = self.extensions.setdefault(reach.name.code, line) is not line  # (it is kept in a cache)
        return [line]


def _count(reach: Reach) -> Optional[int]:
    return len(reach.value.items) + reach.value.more if isinstance(reach.value, Briefs) else None


def is_text(part: object, text: str) -> bool:
    return isinstance(part, Ref) or part == text.encode("utf-8", "surrogatepass")


def is_import(reach: Reach, module: str, name: str, imported: Optional[Sequence[str]]) -> bool:
    """Whether a line is of this import: what stands in the pickle, and what Python 3 imports for it."""
    if isinstance(reach.name, Extension):
        return (module, name) == ("extension", str(reach.name.code))
    said = reach.said or reach.name
    if not isinstance(said, Global) or not isinstance(reach.name, Global):
        return False
    if imported is not None and not (is_text(reach.name.module, imported[0]) and is_text(reach.name.name, imported[1])):
        return False
    return is_text(said.module, module) and is_text(said.name, name)


class Match:
    """How far the acts of an unpickler have lines. `pairs` has for each act its line; `is_over` says that no line was left that must have an act."""

    def __init__(self, acts: Sequence[Sequence[Any]]) -> None:
        self.acts = acts
        self.pairs: list[Line] = []
        self.is_over = False
        self._texts: set[int] = set()  # (lines that brought a text, of which nothing is written down)

    def go_on(self, lines: Sequence[Line]) -> bool:
        """Goes over lines, and says whether all acts have one. Of a line that fills, several acts may put in its items."""
        left: Optional[int] = None
        at = 0
        while len(self.pairs) < len(self.acts):
            act = self.acts[len(self.pairs)]
            while at < len(lines) and not self._is(act, lines[at], left) and self._may_be_missed(lines[at]):
                at, left = at + 1, None
            self.is_over = at == len(lines)
            if self.is_over or not self._is(act, lines[at], left):
                return False
            self.pairs.append(lines[at])
            if act[2:] == ["text"]:
                self._texts.add(id(lines[at]))
            if act[0] in FILLS:
                left = (lines[at].count or 0 if left is None else left) - act[2]
            if act[0] not in FILLS or not left:
                at, left = at + 1, None
        return True

    def _may_be_missed(self, line: Line) -> bool:
        return line.may_be_missed or id(line.target) in self._texts

    def _is(self, act: Sequence[Any], line: Line, left: Optional[int]) -> bool:
        what, target, *rest = act
        if ("call" if what == "new" else what) != line.what:
            return False
        if what == "import":
            return is_import(line.reach, *rest)
        if what in ("persistent", "buffer"):
            return True
        brought = self.pairs[target]
        if line.target is not brought and not self._is_named(line, brought):
            return False
        if what in FILLS:
            return rest[0] <= (line.count or 0 if left is None else left)
        return what == "state" or line.count in (None, rest[0])

    @staticmethod
    def _is_named(line: Line, brought: Line) -> bool:
        """Whether a line without a target names it. Of a buffer that is made read-only no line says which number it has then."""
        if line.target is not None:
            return False
        if line.reach.name is None or isinstance(line.reach.name, Ref):
            return brought.what == "buffer"
        return brought.what == "import" and line.reach.name == brought.reach.name


def matched(calls: bytes, acts: Sequence[Sequence[Any]]) -> tuple[str, list[Line]]:
    """What of an unpickler's acts has no line, or an empty text where all have one; and the line of each act as far as there are some."""
    answer = Calls(calls)
    reader = Reader()
    strict = reader.lines(answer)
    before = reader.copy()
    parts = {part.heading: part for part in answer.parts}
    behind = reader.lines(reach for heading, part in parts.items() if heading not in (BUFFERED, HELD) for reach in part)
    match = Match(acts)
    if match.go_on([*strict, *behind]):
        return "", match.pairs
    pairs = match.pairs
    # (Behind a loss the numbers of a part are its own.)
    places = [answer.end.offset, *map(int, LOST.findall(answer.text))]
    readers = (reader, before, *(before.up_to(_first_number(answer, place)) for place in places if place is not None))
    if any(heading in parts and _is_buffered(parts[heading], readers, match, pairs) for heading in (BUFFERED, HELD)):
        return "", match.pairs
    return f"{acts[len(pairs)]} has no line", pairs


def all_before(calls: bytes, acts: Sequence[Sequence[Any]], offset: int) -> bool:
    """Whether the acts are those of the lines up to an offset, in their order: all of these, or a beginning, and more only behind them all."""
    answer = Calls(calls)
    behind = [reach for part in answer.parts if part.heading not in (BUFFERED, HELD) for reach in part]
    match = Match(acts)
    return match.go_on(Reader().lines(reach for reach in [*answer, *behind] if reach.offset < offset)) or match.is_over


def _first_number(answer: Calls, place: int) -> float:
    """The lowest number of an object that was brought from some offset on."""
    return min((reach.number for reach in answer if reach.number is not None and reach.offset >= place), default=math.inf)


def without_line(calls: bytes, acts: Sequence[Sequence[Any]]) -> str:
    """What of an unpickler's acts has no line; an empty text where all have one."""
    return matched(calls, acts)[0]


def _is_buffered(part: Iterable[Reach], readers: Iterable[Reader], match: Match, pairs: Sequence[Line]) -> bool:
    """Whether acts go on in a part for loaders that buffer frames: from some act on of those that have lines before it."""
    for reader in readers:
        behind = reader.copy().lines(part)
        for count in range(len(pairs), -1, -1):
            match.pairs = list(pairs[:count])
            if match.go_on(behind):
                return True
    return False


@dataclass
class Loads:
    """Runs the program and the unpicklers, and keeps how much was tried."""

    program: str
    folder: pathlib.Path
    cases: int = 0
    acts: int = 0

    def calls(self, case: bytes, options: Sequence[str]) -> bytes:
        """What the program says that a case calls, as lines of JSON."""
        return self.said(case, ["calls", "--json", *options]).encode("ascii")

    def said(self, case: bytes, words: Sequence[str]) -> str:
        """What the program says of a case."""
        path = self.folder / "case"
        path.write_bytes(case)
        done = subprocess.run([self.program, *words, str(path)], capture_output=True, close_fds=False, timeout=600, check=False)
        if done.returncode not in (0, 1) or done.stderr:
            return ""
        return done.stdout.decode("ascii")

    def done(self, name: str, cases: Sequence[bytes], options: Sequence[str], python: str = sys.executable) -> Iterator[list[Any]]:
        """What the unpicklers of a Python do with each case, as load_worker.py writes it, whose options these are."""
        given, out = self.folder / f"{name}.cases", self.folder / f"{name}.acts"
        given.write_bytes(b"".join(struct.pack("<I", len(case)) + case for case in cases))
        words = [python, "-X", "utf8", "-W", "ignore", "-B", str(ROOT / "equipment" / "load_worker.py"), str(given), str(out)]
        subprocess.run([*words, *options], check=True, timeout=600)
        with out.open() as lines:
            for line in lines:
                yield json.loads(line)

    def fault(self, name: str, cases: Sequence[bytes], options: Sequence[str] = ()) -> Noted:
        """Which acts of some cases have no line. The options are those of load_worker.py."""
        self.folder.mkdir(parents=True, exist_ok=True)
        found: list[str] = []
        count = 0
        for case, loads in zip(cases, self.done(name, cases, options)):
            calls = self.calls(case, ["--memo", "kept"] if "--one" in options else [])
            for loader, acts in loads:
                count += len(acts)
                why = without_line(calls, acts) if calls else "the program gives no answer"
                if why:
                    found.append(f"{loader}: {why}: {case.hex()}")
        self.cases, self.acts = self.cases + len(cases), self.acts + count
        shown = "; ".join(sorted(found, key=len)[:MOST_SHOWN])
        return Noted(f"{len(found)} differences, first {shown}" if found else "", f": {len(cases)} cases, {count} acts")

    def closing(self) -> str:
        return f"{self.acts} acts of unpicklers with {self.cases} cases, seed {SEED}"


@dataclass(frozen=True)
class Oddity:
    """A row of equipment/oddities.txt. `end` is the code at which the strict reading ends, or `stopped`."""

    end: str
    name: str
    data: bytes


def oddities() -> Iterator[Oddity]:
    """All rows of the page."""
    for line in (ROOT / "equipment" / "oddities.txt").read_text().splitlines():
        row = ODDITY.fullmatch(line)
        if row is not None:
            yield Oddity(row[1], row[2], b"".join(map(_bytes_of, row[3].split())))


def _bytes_of(word: str) -> bytes:
    """Bytes in hexadecimal; with a number behind a star they come so many times."""
    digits, _, count = word.partition("*")
    return bytes.fromhex(digits) * int(count or 1)


def _odd(loads: Loads, rows: Sequence[Oddity]) -> Noted:
    """Whether each row ends as it says, and what loaders do with it has its line."""
    noted = loads.fault("odd", [row.data for row in rows])
    ends = [(row, Calls(loads.calls(row.data, ())).end.code or "stopped") for row in rows]
    wrong = [f"{row.name} ends with {end} and not {row.end}" for row, end in ends if end != row.end]
    return Noted("; ".join([noted.why, *wrong]) if noted.why else "; ".join(wrong), noted.note)


def trials(loads: Loads, pickles: pathlib.Path) -> list[Trial]:
    real = [path.read_bytes() for path in sorted(pickles.glob("*.pickle"))]
    made = [Trial("real pickles in loaders", functools.partial(loads.fault, "real", real))]
    rows = list(oddities())
    made.append(Trial("oddities in loaders", functools.partial(_odd, loads, rows)))
    as_bytes = functools.partial(loads.fault, "odd_bytes", [row.data for row in rows], ["--bytes"])
    made.append(Trial("oddities in loaders for which STRING is bytes", as_bytes))
    for number in (0, 1, 3):  # (by the last one STRING is read as bytes)
        made.append(Trial(f"pickles {number} of seed {SEED} in loaders", functools.partial(_tried, loads, "singles", number, real)))
    made.append(Trial(f"rows of seed {SEED} in loaders", functools.partial(_tried, loads, "rows", 0, real)))
    made.append(Trial(f"rows of seed {SEED} in loaders that keep their memo", functools.partial(_tried, loads, "kept", 0, real)))
    return [*made, Trial("names of Python 2", old_names)]


def _tried(loads: Loads, kind: str, number: int, real: Sequence[bytes], base: int = SEED) -> Noted:
    seed = base * 1000 + number
    if kind == "singles":
        return loads.fault(f"{kind}{number}", list(load_cases.singles(seed, EACH, real)), ["--bytes"] if number % 4 == 3 else [])
    return loads.fault(f"{kind}{number}", list(load_cases.rows(seed, EACH)), ["--one"] if kind == "kept" else [])


def old_names(python: str = sys.executable) -> Noted:
    """Whether the names of Python 2 are those that a Python has."""
    words = [python, "-B", str(ROOT / "equipment" / "old_names.py")]
    done = subprocess.run(words, capture_output=True, text=True, check=False)
    said = (done.stdout or done.stderr).strip()
    return Noted("" if done.returncode == 0 else said or "it says nothing", f": {said}" if done.returncode == 0 else "")


def main(program: str, seed: int, count: int) -> int:
    """Tries other cases: the status is 1 where an act has no line."""
    pickles = [path.read_bytes() for path in sorted((ROOT / "crates/real_pickles/data").glob("*.pickle"))]
    have_lines = True
    with tempfile.TemporaryDirectory() as folder:
        loads = Loads(program, pathlib.Path(folder))
        for number in range(-(-count // EACH)):
            for kind in ("singles", "rows", "kept"):
                noted = _tried(loads, kind, number, pickles, seed)
                print(f"{kind} {number}{noted.note} {noted.why}", flush=True)
                have_lines = have_lines and not noted.why
    return 0 if have_lines else 1


if __name__ == "__main__":
    sys.exit(main(sys.argv[1], int(sys.argv[2]), int(sys.argv[3])))
