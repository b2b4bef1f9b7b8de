#!/usr/bin/env python3
"""Runs the definition of the unpickler and CPython's own on the same pickles in the same environment, and compares each act with its operands.

    try_definition.py [--crates FOLDER] [--odd] SEED COUNT [PICKLE..]

The unpickler in Python is compared with `load_bytes` of crates/pickle_loader/specs, one load of it with `load_way`, frames ignored, and one
that loads again and again with `load_framed`; those in C with `c_load_way`, frames ignored, and buffered or, where one loads
again, held. The one in C from a file that shows some bytes is compared with `c_load_file`, and the one in Python from a pipe with
`load_pipe`. COUNT pickles are made by load_cases.py from the seed and from the real pickles. The pickles that are given come before them, and
with --odd the rows of oddities.txt. With --crates the definition is that of another folder of crates. What is printed is JSON: what was
tried, and what differs.
"""

from __future__ import annotations

import argparse
import collections
import functools
import json
import pathlib
import resource
import subprocess
import sys
from collections.abc import Iterator, Sequence
from dataclasses import dataclass, field

import load_cases
import loads
from definition import ROOT, Definition, Run, with_deep_stack
from likeness import verdict
from load_readers import PIPE, SHOWS_SOME, come, shown
from load_worker import MOST_MEMORY
from recorded import Plan, Record, load, register_extensions
from trials.trial import Noted, Trial

SEED = 1
EACH = 500
MOST_SHOWN = 3
ENCODINGS = ("latin-1", "latin-1", "ASCII", "bytes")
# The unpicklers in C, and how they read frames.
READERS = {"C from bytes": "Ignored", "C from BytesIO": "Buffered", "C from a buffered file": "Ignored"}


@dataclass
class Tally:
    """How much was tried: `same` loads did all that the definition does, and the others raised before it, as `early` says."""

    cases: int = 0
    loads: int = 0
    acts: int = 0
    stops: int = 0
    same: int = 0
    early: collections.Counter[str] = field(default_factory=collections.Counter)
    different: list[str] = field(default_factory=list)

    def add(self, what: str, case: bytes, run: Run, record: Record, encoding: str) -> None:
        self.loads += 1
        self.acts += len(record.acts)
        self.stops += len(record.stops)
        found = verdict(run, record, encoding, what.startswith("Python"))
        if found.why:
            self.different.append(f"{what}, {encoding}, {record.plan}: {found.why}: {case.hex()}")
        elif found.is_all:
            self.same += 1
        else:
            self.early[record.end] += 1


def cases(seed: int, count: int, real: Sequence[bytes]) -> Iterator[tuple[bytes, str]]:
    """Pickles, each with what it is for: several in a row, and several for one unpickler that keeps its memo."""
    singles, rows = load_cases.singles(seed, count, real), load_cases.rows(seed, count)
    kept = load_cases.rows(seed + 1000, count)
    for number in range(count):
        yield (next(rows), "rows") if number % 5 == 3 else (next(kept), "kept") if number % 5 == 4 else (next(singles), "singles")


def try_case(definition: Definition, tally: Tally, case: bytes, kind: str, plan: Plan, encoding: str) -> None:
    tally.cases += 1
    pickles = "OneMemo" if kind == "kept" else "All"
    if kind != "kept":
        tally.add("Python", case, definition.python(case, plan, encoding), load("Python", case, plan, encoding), encoding)
        first = definition.way(case, plan, encoding, "First", "Ignored")
        tally.add("Python, one load", case, first, load("Python", case, plan, encoding, "First"), encoding)
    else:
        read = definition.by_frames(case, plan, encoding, pickles)
        tally.add("Python, one unpickler", case, read, load("Python", case, plan, encoding, pickles), encoding)
    readers = {name: "Held" if kind == "kept" and frames == "Buffered" else frames for name, frames in READERS.items()}
    runs = {frames: definition.in_c(case, plan, encoding, pickles, frames) for frames in set(readers.values())}
    for name, frames in readers.items():
        tally.add(name, case, runs[frames], load(name, case, plan, encoding, pickles), encoding)
    for name, run in ((SHOWS_SOME, definition.in_file(case, plan, encoding, pickles, shown(case))), (PIPE, definition.in_pipe(case, plan, encoding, pickles, come(case)))):
        tally.add(name, case, run, load(name, case, plan, encoding, pickles), encoding)


def try_all(definition: Definition, seed: int, count: int, given: Sequence[bytes]) -> Tally:
    tally = Tally()
    for number, (case, kind) in enumerate([*((case, "singles") for case in given), *cases(seed, count, given)]):
        try_case(definition, tally, case, kind, Plan(f"{seed}.{number}", number % 3 > 0), ENCODINGS[number % len(ENCODINGS)])
    return tally


def _trial(number: int, pickles: Sequence[pathlib.Path]) -> Noted:
    """Runs this script in a process of its own, whose memory is limited."""
    words = [sys.executable, "-W", "ignore", "-B", __file__, *(["--odd"] if number == 0 else []), str(SEED + number), str(EACH)]
    words += map(str, pickles if number == 0 else [])
    done = subprocess.run(words, capture_output=True, text=True, check=False, timeout=1800)
    if done.returncode != 0:
        return Noted(f"it ended with status {done.returncode}: {done.stderr.strip()[-300:]}", "")
    found = json.loads(done.stdout)
    different = found["different"]
    why = f"{len(different)} differences, first {'; '.join(different[:MOST_SHOWN])}" if different else ""
    return Noted(why, f": {found['cases']} pickles, {found['loads']} loads, {found['same']} the same to the end, {found['acts']} acts")


def trials(pickles: pathlib.Path) -> list[Trial]:
    real = sorted(pickles.glob("*.pickle"))
    return [Trial(f"the definition of the unpickler beside CPython's {number}", functools.partial(_trial, number, real)) for number in range(2)]


def main() -> None:
    parser = argparse.ArgumentParser()
    parser.add_argument("--crates", type=pathlib.Path, default=ROOT / "crates")
    parser.add_argument("--odd", action="store_true")
    parser.add_argument("seed", type=int)
    parser.add_argument("count", type=int)
    parser.add_argument("pickles", type=pathlib.Path, nargs="*")
    words = parser.parse_args()
    given = [path.read_bytes() for path in words.pickles]
    if words.odd:
        given += [row.data for row in loads.oddities()]
    resource.setrlimit(resource.RLIMIT_AS, (MOST_MEMORY, MOST_MEMORY))
    register_extensions()
    found = with_deep_stack(lambda: try_all(Definition(words.crates), words.seed, words.count, given))
    print(json.dumps({**vars(found), "different": sorted(found.different, key=len)}))


if __name__ == "__main__":
    main()
