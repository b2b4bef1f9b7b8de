"""Attacks the gate: where it says that a pickle passes, real unpicklers do nothing with it that the list does not grant.

The pickles come from gate_cases.py. The unpicklers of each Python that is there (load_worker.py, with things in the place of imports that note
what is done with them) load them, and lists are made of what was done: all of it, all but something, names with stars, or anything. Each act has
to be granted by each list with which the pickle passes, also where the load raises, and nothing is put into an object behind its state. The lists
are read here once more, in another way than the program reads them. How many pass with acts is counted, and that an act is noticed once its grant
is taken away.

    python3 -B try_gate.py PROGRAM SEED COUNT    other cases than the gate of the repository has; PYTHONS is as for try_readers.py
"""

from __future__ import annotations

import _compat_pickle
import functools
import pathlib
import random
import re
import subprocess
import sys
import tempfile
from collections import Counter
from collections.abc import Iterator, Sequence
from dataclasses import dataclass, field
from typing import Any, Optional

import gate_cases
from loads import FILLS, MOST_SHOWN, ROOT, SEED, Loads
from trials.trial import Noted, Trial
from try_readers import pythons

COUNT = 5000
USES = ("call", "new", "state", "fill")
# What a list can name.
PLAIN = re.compile(r"[^\W\d]\w*(\.[^\W\d]\w*)+|ext [0-9]+|persistent|buffer")
# Of 100 cases so many at least pass and have acts: a gate that lets nothing pass would have no fault.
LEAST = 25
Acts = Sequence[Sequence[Any]]
# A name, whether it is of what a call of it made, and what is done; of an import alone nothing is done.
Grant = tuple[str, bool, Optional[str]]
# For each name or pattern what a list grants to it: (False, "call"), and (True, "call") to what calls made.
Granted = dict[str, set[tuple[bool, str]]]


# --- What unpicklers do ---

def name_of(act: Sequence[Any], protocol: int) -> str:
    """What a list calls something that was brought: an import by the name that Python 3 has for it."""
    what, _, *rest = act
    if what != "import":
        return str(what)
    module, name = rest[:2]
    if module == "extension":
        return f"ext {name}"
    if protocol < gate_cases.OLD:
        other = _compat_pickle.IMPORT_MAPPING.get(module, module)
        module, name = _compat_pickle.NAME_MAPPING.get((module, name), (other, name))
    return f"{module}.{name}"


def grants_of(acts: Acts, protocol: int) -> Iterator[Grant]:
    """What each act needs. What is called, filled or given a state comes of what an act before it brought."""
    sources: list[tuple[str, bool]] = []
    for act in acts:
        what, target = act[:2]
        if target is None:
            sources.append((name_of(act, protocol), False))
            yield (*sources[-1], None)
            continue
        name, is_made = sources[target]
        sources.append((name, True))
        if what in FILLS:
            if act[2]:
                yield name, is_made, "fill"
        else:
            yield name, is_made, what


def behind_a_state(acts: Acts) -> str:
    """The first act that fills what has its state, gives it another one, or makes a new instance of it."""
    ready: set[int] = set()
    for what, target, *_ in acts:
        if target in ready and (what in FILLS or what in ("state", "new")):
            return f"{what} of {target} behind its state"
        if what == "state":
            ready.add(target)
    return ""


# --- Lists ---

def text_of(granted: Granted) -> str:
    """A list as the program reads it."""
    return "".join(f"{name}: {' '.join(words_of(uses))}\n" for name, uses in granted.items())


def words_of(uses: set[tuple[bool, str]]) -> list[str]:
    made = [f"made-{use}" for is_made, use in sorted(uses) if is_made]
    return [*(use for is_made, use in sorted(uses) if not is_made), *(made or ["made"])]


def is_granted(granted: Granted, grant: Grant) -> bool:
    """Whether some line has the name and grants the use. Whoever may call a class may have it made."""
    name, is_made, use = grant
    found = [uses for pattern, uses in granted.items() if _pattern(pattern).fullmatch(name)]
    if use is None:
        return bool(found)
    return any((is_made, use) in uses or use == "new" and (is_made, "call") in uses for uses in found)


@functools.lru_cache(maxsize=None)
def _pattern(text: str) -> re.Pattern[str]:
    pieces = ("[^.]*" if piece == "*" else ".*" if piece.startswith("*") else re.escape(piece) for piece in re.split(r"(\*+)", text))
    return re.compile("".join(pieces), re.DOTALL)


def needed(grants: Sequence[Grant]) -> Granted:
    """All that some acts need, as far as a list can say it."""
    granted: Granted = {}
    for name, is_made, use in grants:
        if PLAIN.fullmatch(name):
            granted.setdefault(name, set()).update([] if use is None else [(is_made, use)])
    return granted


def without_one(chance: random.Random, granted: Granted) -> Granted:
    """A list that lacks one name or one use."""
    left = {name: set(uses) for name, uses in granted.items()}
    if left:
        name = chance.choice(sorted(left))
        if left[name] and chance.random() < 0.7:
            left[name].remove(chance.choice(sorted(left[name])))
        else:
            del left[name]
    return left


def with_stars(chance: random.Random, granted: Granted) -> Granted:
    """A list in which stars stand for parts of names."""
    made: Granted = {}
    for name, uses in granted.items():
        if "." in name and chance.random() < 0.6:
            begin, _, end = name.rpartition(".")
            name = chance.choice([f"{begin}.*", f"*.{end}", f"{begin[:1]}**", f"{begin}.{end[:1]}*", f"**.{end}", "*.*", "**"])
        made.setdefault(name, set()).update(uses)
    return made


def by_chance(chance: random.Random, granted: Granted) -> Granted:
    """Any names of those that occur, with any uses."""
    names = [*granted, *(f"{module}.{name}" for module in gate_cases.MODULES for name in chance.sample(gate_cases.MEMBERS, 2)), "persistent", "ext 1"]
    uses = [(is_made, use) for is_made in (False, True) for use in USES]
    return {name: set(chance.sample(uses, chance.randrange(len(uses) + 1))) for name in chance.sample(names, chance.randrange(len(names) + 1))}


def lists(chance: random.Random, granted: Granted) -> Iterator[Granted]:
    """Lists for a pickle: all that it needs, and one of the others."""
    yield granted
    yield chance.choice((without_one, without_one, with_stars, by_chance, lambda *_: {}))(chance, granted)


# --- Tries ---

@dataclass
class Tally:
    """What was tried."""

    counts: Counter[str] = field(default_factory=Counter)
    found: list[str] = field(default_factory=list)

    def note(self) -> str:
        told = ("cases", "lists", "passed", "passed with acts", "acts in these", "taken away", "noticed")
        return ": " + ", ".join(f"{self.counts[what]} {what}" for what in told)

    def why(self) -> str:
        if self.found:
            return f"{len(self.found)} differences, first {'; '.join(sorted(self.found, key=len)[:MOST_SHOWN])}"
        if self.counts["noticed"] < self.counts["taken away"]:
            return "an act is not noticed whose grant is taken away"
        return "" if self.counts["passed with acts"] * 100 >= self.counts["cases"] * LEAST else "too few pass"


@dataclass
class Tries:
    """Runs the program. `folder` is for its files."""

    program: str
    folder: pathlib.Path
    chance: random.Random
    tally: Tally = field(default_factory=Tally)

    def passes(self, granted: Granted) -> bool:
        """Whether the case that lies there passes by a list."""
        (self.folder / "list").write_text(text_of(granted), encoding="utf-8")
        words = [self.program, "gate", str(self.folder / "list"), str(self.folder / "case")]
        # (two pipes would take longer than the program)
        done = subprocess.run(words, stdout=subprocess.PIPE, stderr=subprocess.STDOUT, close_fds=False, check=False)
        if (done.returncode, done.stdout == b"passes\n") not in ((0, True), (1, False)):
            raise ValueError(f"status {done.returncode}, {done.stdout[:200]!r}")
        return done.returncode == 0

    def add(self, case: bytes, loads: Sequence[tuple[str, Acts]]) -> None:
        """Tries one case with some lists. What each Python and each unpickler does with it is judged."""
        (self.folder / "case").write_bytes(case)
        protocol = case[1] if case[:1] == b"\x80" and len(case) > 1 else 0
        grants = {loader: list(grants_of(acts, protocol)) for loader, acts in loads}
        late = [f"{loader}: {found}" for loader, acts in loads for found in (behind_a_state(acts),) if found]
        every = list(dict.fromkeys(grant for given in grants.values() for grant in given))
        self.tally.counts["cases"] += 1
        for number, granted in enumerate(lists(self.chance, needed(every))):
            self.tally.counts["lists"] += 1
            if not self.passes(granted):
                continue
            self.tally.counts["passed"] += 1
            self._judge(case, granted, grants)
            self.tally.found.extend(f"{found}: {case.hex()[:6000]}" for found in late)
            if every and not number:
                self.tally.counts["passed with acts"] += 1
                self.tally.counts["acts in these"] += max(map(len, grants.values()))
                self._take_away(granted, every)

    def _judge(self, case: bytes, granted: Granted, grants: dict[str, list[Grant]]) -> None:
        for loader, given in grants.items():
            wrong = next((grant for grant in given if not is_granted(granted, grant)), None)
            if wrong is not None:
                self.tally.found.append(f"{loader}: {wrong} is not in {text_of(granted)!r}: {case.hex()[:6000]}")

    def _take_away(self, granted: Granted, every: Sequence[Grant]) -> None:
        """Whether it is noticed that a list lacks something. (Who may call may have made: where that alone is gone nothing lacks.)"""
        left = without_one(self.chance, granted)
        gone = [(name, is_made) for name, uses in granted.items() for is_made, use in uses - left.get(name, set()) if use == "new"]
        if not any((is_made, "call") in left.get(name, set()) for name, is_made in gone):
            self.tally.counts["taken away"] += 1
            self.tally.counts["noticed"] += not all(is_granted(left, grant) for grant in every)


def try_gate(loads: Loads, seed: int, count: int, real: Sequence[bytes]) -> Noted:
    """Tries so many cases with all Pythons that are there."""
    loads.folder.mkdir(parents=True, exist_ok=True)
    tries = Tries(loads.program, loads.folder, random.Random(f"lists {seed}"))
    for number in range(-(-count // COUNT)):
        given = list(gate_cases.cases(seed + number, min(COUNT, count - number * COUNT), real))
        done = [(version, loads.done(f"gate {version}", given, [], python)) for version, python in pythons().items()]
        for case in given:
            tries.add(case, [(f"{version} {loader}", acts) for version, rows in done for loader, acts in next(rows)])
    return Noted(tries.tally.why(), tries.tally.note())


def trials(loads: Loads, pickles: pathlib.Path) -> list[Trial]:
    real = [path.read_bytes() for path in sorted(pickles.glob("*.pickle"))]
    return [Trial("what passes the gate does what its list grants", functools.partial(try_gate, loads, SEED, COUNT, real))]


def main(program: str, seed: int, count: int) -> int:
    """Tries other cases: the status is 1 where an act is not granted."""
    real = [path.read_bytes() for path in sorted((ROOT / "crates/real_pickles/data").glob("*.pickle"))]
    with tempfile.TemporaryDirectory() as folder:
        noted = try_gate(Loads(program, pathlib.Path(folder)), seed, count, real)
    print(f"{', '.join(pythons())}{noted.note} {noted.why}", flush=True)
    return 1 if noted.why else 0


if __name__ == "__main__":
    sys.exit(main(sys.argv[1], int(sys.argv[2]), int(sys.argv[3])))
