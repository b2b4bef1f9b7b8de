"""Looks for the rows of the crates of tests in the tables here.

These crates try what no text shows. What is answered is judged from outside: each of their rows is in one of the tables, with a question about it.
"""

from __future__ import annotations

import functools
import re
from collections.abc import Callable, Iterator
from dataclasses import dataclass
from pathlib import Path
from typing import Optional

from conversations import Block, blocks_of
from trials.trial import Trial

TABLES = ("conversations.txt", "texts.txt", "calls.txt")
TEXT = r'b"((?:[^"\\]|\\.)*)"'
# (of a row the names of constants are read too)
PART = re.compile(rf"{TEXT}|\b([A-Z][A-Z_]+)\b", re.DOTALL)
ESCAPE = re.compile(r"\\(x[0-9a-f]{2}|\n\s*|.)", re.DOTALL)
ESCAPED = {"n": "\n", "0": "\0", "\\": "\\", '"': '"'}


def value_of(literal: str) -> bytes:
    """The bytes between the quotes of a literal."""

    def one(match: re.Match[str]) -> str:
        name = match[1]
        return chr(int(name[1:], 16)) if len(name) == 3 and name[0] == "x" else "" if name[0] == "\n" else ESCAPED[name]

    return ESCAPE.sub(one, literal).encode("latin-1")


def constant(text: str, name: str) -> list[bytes]:
    """The literals of a constant in their order, as many as its type has; another constant that it names counts as that one's."""
    found = re.search(rf"^(?:pub )?const {name}: (.*?) =\s+(.*?);$", text, flags=re.MULTILINE | re.DOTALL)
    if found is None:
        raise LookupError(f"there is no constant {name}")
    without_comments = re.sub(r"^ *//.*$", "", found[2], flags=re.MULTILINE)
    values: list[bytes] = []
    for part in PART.finditer(without_comments):
        values += [value_of(part[1])] if part[1] is not None else constant(text, part[2])
    rows = re.search(r"; (\d+)\]$", found[1])
    wanted = (int(rows[1]) if rows else 1) * max(found[1].count("&[u8]"), 1)
    if len(values) != wanted:
        raise LookupError(f"{name} has {wanted} literals, and {len(values)} were read")
    return values


# --- The questions ---


def shows_state(block: Block) -> bool:
    return {"objects", "stack"} <= {*block.script, *block.written}


def shows_object(block: Block) -> bool:
    return any(line.startswith("show ") for line in block.script)


def writes(*commands: str) -> Callable[[Block], bool]:
    return lambda block: any(command.split()[0] in commands for command in block.written)


@dataclass(frozen=True)
class Rows:
    """Constants of a file whose bytes have a block, what that asks, and whether it reads them as several pickles (`calls` reads all in any way)."""

    file: str
    names: tuple[str, ...]
    asks: Callable[[Block], bool]
    many: Optional[bool] = False


ROWS = (
    Rows("unit_tests/src/machine/rows.rt", ("SEVERAL",), shows_state, many=True),
    Rows("document_tests/src/texts.rt", ("SHOWN",), shows_object),
    Rows("script_tests/src/texts.rt", ("ONE",), writes("list", "objects")),
    Rows("script_tests/src/texts.rt", ("SEVERAL",), writes("list", "objects"), many=True),
    Rows("script_tests/src/texts.rt", ("CALLS",), writes("calls"), many=None),
)


@dataclass
class Tables:
    """The crates, and the blocks of the tables."""

    root: Path

    @functools.cached_property
    def blocks(self) -> list[Block]:
        return [block for table in TABLES for block in blocks_of((self.root / "equipment" / table).read_text(encoding="utf-8"))]

    def text(self, file: str) -> str:
        return (self.root / "crates" / file).read_text(encoding="utf-8")

    def of_mode(self, many: Optional[bool]) -> Iterator[Block]:
        """The blocks that read their bytes so."""
        return (block for block in self.blocks if many is None or ("--many" in block.options) == many)

    def fault_of_bytes(self, rows: Rows) -> str:
        found = {block.pickle for block in self.of_mode(rows.many) if rows.asks(block)}
        values = [value for name in rows.names for value in constant(self.text(rows.file), name)]
        return ", ".join(repr(value) for value in values if value not in found)

    def fault_of_conversations(self, name: str) -> str:
        """A block has the bytes, and its lines begin with those of the row."""
        values = constant(self.text("script_tests/src/rows.rt"), name)
        given = [(block.pickle, block.script) for block in self.of_mode(name == "SEVERAL")]
        for pickled, lines in zip(values[::2], values[1::2]):
            script = lines.decode().splitlines()
            if not any(pickled == other and script == begun[: len(script)] for other, begun in given):
                return f"{pickled!r} {script}"
        return ""

    def fault_of_opcodes(self) -> str:
        """A block that has the bytes among its own, below a sentence with the name of the opcode, shows the state behind them."""
        rows = re.findall(rf'^    // ([A-Z0-9_]+)\n    {TEXT},$', self.text("unit_tests/src/machine/rows.rt"), flags=re.MULTILINE)
        shown = [(set(re.findall(r"[A-Z0-9_]+", block.name)), block.pickle) for block in self.blocks if shows_state(block)]
        lacking = [name for name, literal in rows if not any(name in names and value_of(literal) in pickled for names, pickled in shown)]
        return ", ".join(lacking) if rows else "there is none"


def trials(root: Path) -> list[Trial]:
    tables = Tables(root)
    tried: list[tuple[str, str, Callable[[], str]]] = [
        *((name, "script_tests/src/rows.rt", functools.partial(tables.fault_of_conversations, name)) for name in ("ONE", "FURTHER", "SEVERAL")),
        *((", ".join(rows.names), rows.file, functools.partial(tables.fault_of_bytes, rows)) for rows in ROWS),
        ("OPCODES", "unit_tests/src/machine/rows.rt", tables.fault_of_opcodes),
    ]
    return [Trial(f"the rows {names} of {file}", attempt) for names, file, attempt in tried]
