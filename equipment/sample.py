"""The sample of the rows: what is asked of a program that is compiled of the same build as the one that gets all rows.

A run of a row is in the sample where it meets something that no run before it met: an option, an opcode, a code or another refusal of a word of the
command line, or its status; or an option of a word of the debugger.
"""

from __future__ import annotations

import pickletools
import re
from collections.abc import Iterable, Iterator
from dataclasses import dataclass
from pathlib import Path

from conversations import REFUSALS, blocks_of, list_of, runs_of, status_of

HERE = Path(__file__).resolve().parent
TABLES = ("conversations.txt", "texts.txt", "calls.txt")
# The words of the command line that the rows ask, each with a page of help that has its options. (That of `debug` has its words, too.)
WORDS = (*REFUSALS, "debug")
CODE = re.compile(r"\b[CEFSUVX]\d+\b")
# A row of the table of docs/reference/codes.md: what is printed, and by which words. In it N is a number, 'NAME' a name, and .. any text.
PRINTED = re.compile(r"(?m)^\| (`.*?) \| (`.*?) \|")
NUMBER_OR_TEXT = re.compile(r"\bN\b|'NAME'|\.\.")
# Options that no row gives: a trial of its own saves, another one reads lines of JSON, and the package explains by itself.
ELSEWHERE = frozenset(("--save", "--json", "--explain", "--list"))
# Codes and refusals that no row meets, since what they refuse is too large for a row, or (V3) is refused in lines of JSON alone.
UNMET = frozenset(("E7", "E8", "V3", "X7", "too many ways to read the bytes"))


def refusals_of(root: Path) -> set[tuple[str, str]]:
    """Words of the command line with how a refusal without a code begins that they print, from docs/reference/codes.md."""
    found = set()
    for printed, words in PRINTED.findall((root / "docs/reference/codes.md").read_text("utf-8")):
        texts = [NUMBER_OR_TEXT.split(text.removeprefix("N: "))[0].strip() for text in re.findall("`(.*?)`", printed) if not CODE.search(text)]
        found |= {(word, text) for word in re.findall("`(.*?)`", words) for text in texts if word in WORDS and text not in ("", "refused: M")}
    return found


REFUSED = refusals_of(HERE.parent)


@dataclass(frozen=True)
class RowRun:
    """A run of a row of the tables: its words without the files, the pickle, the script of a conversation, what it answers, and the list of `gate`."""

    words: tuple[str, ...]
    pickle: bytes
    script: bytes
    answer: str
    allowed: bytes = b""

    def met(self) -> Iterator[tuple[str, str]]:
        """Each word with what it meets."""
        options = ["", *(word for word in self.words if word.startswith("--"))]
        status = f"status {status_of(self.words[0], self.answer.splitlines())}"
        for each in (*options, status, *opcodes_of(self.pickle), *CODE.findall(self.answer)):
            yield self.words[0], each
        yield from (pair for pair in REFUSED if pair[0] == self.words[0] and pair[1] in self.answer)
        for line in self.script.decode().splitlines():
            for option in options:
                yield f"debug> {line.split()[0]}", option


def opcodes_of(data: bytes) -> Iterator[str]:
    """The names of the opcodes, as far as Python reads pickles one behind another."""
    at = 0
    try:
        while at < len(data):
            for opcode, _, last in pickletools.genops(data[at:]):
                yield opcode.name
            at += (last or 0) + 1
    except Exception:  # (whatever a line of an argument is taken for)
        return


def rows() -> Iterator[RowRun]:
    """The runs of all rows, in their order."""
    for table in TABLES:
        for block in blocks_of((HERE / table).read_text("utf-8")):
            for words, script, answer in runs_of(block):
                yield RowRun(tuple(words), block.pickle, script, "\n".join(answer), list_of(block) if words[0] == "gate" else b"")


def sample_of(runs: Iterable[RowRun]) -> list[RowRun]:
    """Those of the runs that meet something for the first time."""
    known: set[tuple[str, str]] = set()
    chosen = []
    for row in runs:
        met = set(row.met())
        if not met <= known:
            known |= met
            chosen.append(row)
    return chosen


def named(root: Path) -> set[tuple[str, str]]:
    """What a sample has to meet: each opcode that Python has, each code of docs/reference/codes.md, each word of the debugger, and each option, status and refusal
    of each word."""
    codes = re.findall(r"(?m)^- \*\*([A-Z]\d+)\b", (root / "docs/reference/codes.md").read_text("utf-8"))
    met = {("", name) for name in (*(opcode.name for opcode in pickletools.opcodes), *codes) if name not in UNMET}
    met |= {(word, f"status {status}") for word in WORDS for status in (0, 1)}
    met |= {pair for pair in refusals_of(root) if pair[1] not in UNMET}
    pages = {word: (root / f"python/picklestep/help/{word}.txt").read_text("utf-8") for word in WORDS}
    for word, page in pages.items():
        met |= {(word, option) for option in re.findall(r"(?m)^  (--[a-z-]+)", page) if option not in ELSEWHERE}
    lines = re.findall(r"(?m)^  ([a-z].*?)(?:   .*)?$", pages["debug"])
    return met | {(f"debug> {name}", "") for line in lines for name in re.findall(r"\b[a-z]+\b", line)}


def fault_of_sample(root: Path) -> str:
    """What the pages name and the sample does not meet, or what a row meets and the sample does not."""
    every = list(rows())
    chosen = {pair for row in sample_of(every) for pair in row.met()}
    lacking = {pair for row in every for pair in row.met()} - chosen
    lacking |= named(root) - chosen - {("", what) for _, what in chosen}
    return f"no run of the sample meets {', '.join(' '.join(pair).strip() for pair in sorted(lacking))}" if lacking else ""
