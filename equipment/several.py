"""Gives the program real pickles one after another in one input, with --many.

Every pickle comes twice in a row, or behind a whole one if further bytes would change what is listed of it, and three at random come in a row. What
is listed follows from their listings, which come from Python's pickletools (real_pickles/answers.py): each up to its STOP with its offsets moved, up to
the first refusal or fault. (What a conversation shows on the way there and back, and what is saved, have laws of fuzz.py.)
"""

from __future__ import annotations

import dataclasses
import functools
import pathlib
import random
import re
import subprocess
from collections.abc import Sequence

from real_pickles.answers import expected
from trials.listings import listing_difference
from trials.trial import Trial

TRIPLES = 100
ITEM = re.compile(r" *(\d+)(: .*)")
MARK = re.compile(r"\(MARK at (\d+)\)$")
# Faults that further bytes cannot change.
LASTING = ("F2", "F4", "F5", "F6", "F8")


@dataclasses.dataclass(frozen=True)
class Pickle:
    """A real pickle up to its STOP, and its listing in parts."""

    name: str
    data: bytes
    items: list[str]
    left: list[str]
    broken: str | None
    protocol: int

    def ends(self) -> bool:
        """Whether further bytes change nothing of what is listed of it."""
        if self.broken is None or self.broken.startswith("refused: "):
            return True
        return self.broken.startswith(tuple(f"fault: {code} " for code in LASTING))


def first_pickle(data: bytes, items: Sequence[str]) -> bytes | None:
    """The bytes up to STOP, which is the last item; nothing where a frame goes on after it."""
    offsets = {int(found[1]): found[2] for found in map(ITEM.match, items) if found is not None}
    end = max(offsets) + 1
    frames = [offset for offset, rest in offsets.items() if " FRAME" in rest]
    if any(offset + 9 + int.from_bytes(data[offset + 1 : offset + 9], "little") > end for offset in frames):
        return None
    return data[:end]


def read_pickle(path: pathlib.Path) -> Pickle | None:
    lines = expected(path).decode().splitlines()
    items = [line for line in lines if ITEM.match(line)]
    broken = [line for line in lines if line.startswith(("refused: ", "fault: "))]
    highest = [int(line.rsplit(" ", 1)[1]) for line in lines if line.startswith("highest ")]
    data: bytes | None = path.read_bytes()
    if data is not None and not broken:
        data = first_pickle(data, items)
    if data is None:
        return None
    return Pickle(
        name=path.stem,
        data=data,
        items=items,
        left=[line for line in lines if line.startswith("left: ")],
        broken=broken[0] if broken else None,
        protocol=max(highest, default=-1),
    )


def moved_number(line: str, base: int) -> str:
    """A line that ends in the number of an offset or of an object, which counts from a base."""
    return re.sub(r"\d+$", lambda number: str(int(number[0]) + base), line)


def moved(line: str, base: int) -> str:
    """A line of an item whose bytes begin at an offset."""
    item = ITEM.match(line)
    if item is None:
        return line
    rest = MARK.sub(lambda mark: f"(MARK at {int(mark[1]) + base})", item[2])
    return f"{int(item[1]) + base:5d}{rest}"


def broken_line(broken: str, base: int, objects: int) -> str:
    """A refusal or fault of a pickle behind others."""
    if broken.startswith("fault: "):
        return moved_number(broken, base)
    return moved_number(broken, objects) if re.search(r" #\d+$", broken) else broken


def expect(pickles: Sequence[Pickle], objects: Sequence[int]) -> tuple[str, int]:
    """The listing and the status of pickles that make this many objects each."""
    lines: list[str] = []
    base = 0
    broken = None
    protocol = -1
    for number, pickle in enumerate(pickles):
        if base and not pickle.data:
            # (an input that ends after a STOP has no fault)
            continue
        lines += [moved(line, base) for line in pickle.items] + pickle.left
        protocol = max(protocol, pickle.protocol)
        if pickle.broken is not None:
            broken = broken_line(pickle.broken, base, sum(objects[:number]))
            lines.append(broken)
            break
        base += len(pickle.data)
    if protocol >= 0:
        lines.append(f"highest protocol among opcodes = {protocol}")
    return "".join(f"{line}\n" for line in lines), int(broken is not None)


@dataclasses.dataclass
class Inputs:
    """Inputs of several pickles, which are written into a folder and given to a program."""

    program: str
    folder: pathlib.Path
    count: int = 0

    def answer(self, *words: str) -> tuple[str, int]:
        done = subprocess.run([self.program, *words], capture_output=True, timeout=600, close_fds=False, check=False)
        if done.stderr:
            raise ValueError(f"errors {done.stderr[:100]!r}")
        return done.stdout.decode("utf-8", "surrogateescape"), done.returncode

    def objects_of(self, pickle: Pickle) -> int:
        """How many objects a pickle makes by itself."""
        file = self.folder / "alone.pickle"
        file.write_bytes(pickle.data)
        text, _ = self.answer("objects", str(file))
        return sum(line.startswith("#") for line in text.splitlines())

    def fault(self, pickles: Sequence[Pickle]) -> str:
        self.folder.mkdir(exist_ok=True)
        self.count += 1
        file = self.folder / "several.pickle"
        file.write_bytes(b"".join(pickle.data for pickle in pickles))
        listing, wanted = expect(pickles, [self.objects_of(pickle) for pickle in pickles])
        text, status = self.answer("list", "--many", str(file))
        why = listing_difference(text.encode("utf-8", "surrogateescape"), listing.encode("utf-8", "surrogateescape"))
        return why or ("" if status == wanted else f"the listing has status {status}")

    def closing(self) -> str:
        return f"{self.count} inputs of several pickles, by several.py"


def inputs_of(pickles: Sequence[Pickle]) -> list[tuple[str, list[Pickle]]]:
    """Each pickle twice, or behind a whole one where further bytes would change what is listed of it; and three at random."""
    whole = [pickle for pickle in pickles if pickle.broken is None]
    dice = random.Random(1)
    inputs = []
    for pickle in pickles:
        first = pickle if pickle.ends() else dice.choice(whole)
        inputs.append((f"{first.name} and {pickle.name} in a row", [first, pickle]))
    for _ in range(TRIPLES):
        three = [dice.choice(whole), dice.choice(whole), dice.choice(pickles)]
        inputs.append((", ".join(pickle.name for pickle in three) + " in a row", three))
    return inputs


def trials(inputs: Inputs, data: pathlib.Path) -> list[Trial]:
    found = [read_pickle(path) for path in sorted(data.glob("*.pickle"))]
    return [Trial(name, functools.partial(inputs.fault, pickles)) for name, pickles in inputs_of([pickle for pickle in found if pickle is not None])]
