"""Looks up each public name that the specification has (surface.txt) in the source, or its row in docs/DECISIONS.md; and each edit and name of that page in the tree.

    python3 -B equipment/surface.py    prints each name with the place where it is made, or the row that says what stands for it
"""

from __future__ import annotations

import functools
import re
import sys
from collections.abc import Iterator
from dataclasses import dataclass
from pathlib import Path
from typing import Optional

if __name__ == "__main__":
    sys.path.insert(0, str(Path(__file__).resolve().parent))

from trials.trial import Trial

WRONG = "wrong "  # (begins a line of surface.txt with the name of a wrong body)
ITEM = r"(?m)^ *pub (?:struct|enum|trait|type|fn) ({name})\b"
# (`pub use` and `use` with one name or a group, over lines)
USES = re.compile(r"(?m)^ *(pub )?use (\w+)::(?:(\w+)::)?(?:\{([^}]*)\}|(\w+));")


@dataclass(frozen=True)
class Row:
    """A row of a table of docs/DECISIONS.md: the words in backticks of what is specified, and of what stands in its place."""

    specified: frozenset[str]
    here: tuple[str, ...]

    def has(self, kind: Optional[str], name: str) -> bool:
        """Whether the row is of this name; of a type's call it names the type too."""
        return name in self.specified and (kind is None or kind in self.specified)


def words_of(cell: str) -> list[str]:
    return [word for part in re.findall(r"`([^`]+)`", cell) for word in re.findall(r"\w+", part)]


def rows_of(page: str) -> Iterator[Row]:
    for line in page.splitlines():
        cells = line.split("|")
        if len(cells) == 5 and "`" in cells[1]:
            yield Row(frozenset(words_of(cells[1])), tuple(words_of(cells[2])))


@dataclass(frozen=True, eq=False)
class Source:
    """The crates as they lie in the tree."""

    root: Path

    @functools.cached_property
    def crates(self) -> list[str]:
        return re.findall(r"(?m)^(\w+)", (self.root / "crates.txt").read_text(encoding="utf-8"))

    @functools.cache
    def files(self, crate: str) -> dict[Path, str]:
        return {path: path.read_text(encoding="utf-8") for path in sorted((self.root / "crates" / crate / "src").rglob("*.rt"))}

    def uses(self, crate: str) -> Iterator[tuple[bool, str, str]]:
        """Whether a `use` is public, the crate or module that it names, and each name of it."""
        for text in self.files(crate).values():
            for public, module, _, group, alone in USES.findall(text):
                for name in re.findall(r"\w+", group or alone):
                    yield bool(public), module, name

    def made_in(self, crate: str, name: str) -> Optional[Path]:
        return next((path for path, text in self.files(crate).items() if re.search(ITEM.format(name=name), text)), None)

    def maker(self, crate: str, name: str) -> Optional[str]:
        """The crate that makes a public name of this crate; none where the crate has no such name."""
        if self.made_in(crate, name):
            return crate
        others = {module for public, module, found in self.uses(crate) if public and found == name and module in self.crates}
        return next((maker for other in sorted(others) if (maker := self.maker(other, name))), None)

    def call(self, crate: str, kind: str, name: str) -> Optional[Path]:
        """The file with a public call, a reader or a member of a type."""
        blocks = rf"(?ms)^(?:pub )?(?:impl\b[^\n{{]*\b{kind}\b|trait {kind}\b|enum {kind}\b)[^\n]*\{{\n.*?^\}}"
        named = rf"(?m)^    (?:pub )?fn {name}\b|^    {name}\b[ ({{,]"
        found = (path for path, text in self.files(crate).items() for block in re.findall(blocks, text) if re.search(named, block))
        # (the opcodes' readers are written by one macro, in the file of the type)
        written = (path for path, text in self.files(crate).items() if re.search(rf"enum {kind}\b", text) and re.search(rf"pub fn {name}\b", text))
        return next(found, next(written, None))


@dataclass(frozen=True, eq=False)
class Surface:
    source: Source

    @functools.cached_property
    def page(self) -> str:
        return (self.source.root / "docs" / "DECISIONS.md").read_text(encoding="utf-8")

    @functools.cached_property
    def rows(self) -> list[Row]:
        return list(rows_of(self.page))

    @functools.cached_property
    def lines(self) -> list[str]:
        return (self.source.root / "equipment" / "surface.txt").read_text(encoding="utf-8").splitlines()

    def names(self) -> Iterator[tuple[str, Optional[str], str]]:
        """Each specified name: its crate, the type whose call it is, and the name."""
        for line in self.lines:
            if line and not line.startswith(("#", WRONG)):
                crate, kind, *calls = line.split()
                if kind != "-":
                    yield crate, None, kind
                for name in calls:
                    yield crate, (None if kind == "-" else kind), name

    def homes(self, crate: str) -> list[str]:
        """The crate, and those that the page names in its place."""
        named = [word for row in self.rows if crate in row.specified for word in row.here if word in self.source.crates]
        return [home for home in dict.fromkeys([crate, *named]) if home in self.source.crates]

    def found(self, crate: str, kind: Optional[str], name: str) -> Optional[str]:
        """Where a name is made, or that a row of the page says what stands for it."""
        for home in self.homes(crate):
            maker = self.source.maker(home, kind or name)
            if maker:
                path = self.source.call(maker, kind, name) if kind else self.source.made_in(maker, name)
                if path:
                    return f"{home}, {path.relative_to(self.source.root)}"
        return "docs/DECISIONS.md" if any(row.has(kind, name) for row in self.rows) else None

    def fault_of_names(self) -> str:
        lacking = [f"{crate} {kind + '::' if kind else ''}{name}" for crate, kind, name in self.names() if not self.found(crate, kind, name)]
        return f"neither in the source nor in docs/DECISIONS.md: {', '.join(lacking)}" if lacking else ""

    def fault_of_wrong_bodies(self) -> str:
        """Each wrong body has a row, which names an edit or a test."""
        here = {cells[1].strip() for line in self.page.splitlines() if len(cells := line.split("|")) == 4 and cells[2].strip()}
        lacking = [line[len(WRONG) :] for line in self.lines if line.startswith(WRONG) and line[len(WRONG) :] not in here]
        return f"no row of docs/DECISIONS.md: {', '.join(lacking)}" if lacking else ""

    def fault_of_page(self) -> str:
        """The page names no edit and no call that is not there."""
        edits = [edit for edit in re.findall(r"`(\w+/\w+)`", self.page) if not (self.source.root / "crates" / edit.replace("/", "/must-fail/")).with_suffix(".edit").exists()]
        here = [cells[2] for line in self.page.splitlines() if len(cells := line.split("|")) == 5]
        calls = {call for cell in here for call in re.findall(r"`(\w+)::(\w+)`", cell)}
        lost = [f"{kind}::{name}" for kind, name in sorted(calls) if not any(self.source.call(crate, kind, name) for crate in self.source.crates)]
        return f"docs/DECISIONS.md names what is not there: {', '.join(edits + lost)}" if edits or lost else ""


def trials(root: Path) -> list[Trial]:
    surface = Surface(Source(root))
    return [
        Trial("each name of the specification is found", surface.fault_of_names),
        Trial("each wrong body of the specification has an edit or a test", surface.fault_of_wrong_bodies),
        Trial("what docs/DECISIONS.md names is there", surface.fault_of_page),
    ]


def main() -> None:
    surface = Surface(Source(Path(__file__).resolve().parents[1]))
    for crate, kind, name in surface.names():
        print(f"{crate:15} {kind + '::' if kind else ''}{name}: {surface.found(crate, kind, name) or 'NOT FOUND'}")


if __name__ == "__main__":
    main()
