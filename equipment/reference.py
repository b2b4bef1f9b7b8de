"""Checks docs/reference: each word, option, status, code and function of the interfaces is on exactly one page there."""

from __future__ import annotations

import functools
import os
import re
import subprocess
import sys
from collections import Counter
from pathlib import Path

from trials.trial import Trial

REFERENCE = Path("docs/reference")
# What each page of a word has.
PARTS = ("Synopsis", "Statuses", "Limits")
# Options that all words have: the page of no word has them.
OF_ALL = frozenset(("--help", "--version"))
CODE = re.compile(r"\b[CEFSUVX]\d{1,2}\b")


@functools.lru_cache(maxsize=None)
def text_of(file: Path) -> str:
    return file.read_text(encoding="utf-8", errors="replace")


def section(text: str, heading: str) -> str:
    """What stands below a heading, up to the next one of its level."""
    return text.partition(f"\n## {heading}\n")[2].partition("\n## ")[0]


def cells(table: str) -> list[str]:
    """The first cell of each row of the tables, without their heads."""
    return [cell for cell in re.findall(r"^\| (.*?) \|", table, flags=re.M)]


def other(kind: str, named: list[str], wanted: set[str]) -> str:
    """What is named twice, lacking, or not there."""
    twice = sorted(name for name, count in Counter(named).items() if count > 1)
    faults = [f"{kind} {name} twice" for name in twice]
    faults += [f"no {kind} {name}" for name in sorted(wanted - set(named))]
    return "; ".join([*faults, *(f"a {kind} {name} that is not there" for name in sorted(set(named) - wanted))])


def words_of(root: Path) -> list[str]:
    """The words of picklestep, as its help has them."""
    return re.findall(r"^  ([a-z]+) {2,}\S", text_of(root / "python/picklestep/help/picklestep.txt"), flags=re.M)


@functools.lru_cache(maxsize=None)
def help_of(root: Path, program: str, word: str) -> str:
    settings = {**os.environ, "PYTHONPATH": str(root / "python"), "PICKLESTEP_PROGRAM": program, "COLUMNS": "200"}
    done = subprocess.run([sys.executable, "-B", "-m", "picklestep", "help", word], env=settings, capture_output=True, text=True, timeout=600)
    return done.stdout


def fault_of_words(root: Path) -> str:
    """Each word has a row in the index, which leads to the one page that is named so."""
    index = section(text_of(root / REFERENCE / "README.md"), "Words")
    titles = [text_of(page).partition("\n")[0] for page in sorted((root / REFERENCE).glob("*.md"))]
    faults = []
    for word in words_of(root):
        if len(re.findall(rf"^\| `{word}` \|.*\| \[{word}\]\({word}\.md\)", index, flags=re.M)) != 1:
            faults.append(f"the index has no row for {word} that leads to {word}.md")
        if titles.count(f"# {word}") != 1:
            faults.append(f"{titles.count(f'# {word}')} pages are named {word}")
    return "; ".join(faults)


def fault_of_word(root: Path, program: str, word: str) -> str:
    """The page of a word has the options and the statuses that its help has, each in a row."""
    page, said = text_of(root / REFERENCE / f"{word}.md"), help_of(root, program, word)
    faults = [f"no part {part}" for part in PARTS if f"\n## {part}\n" not in page]
    options = [option for cell in cells(section(page, "Synopsis")) for option in re.findall(r"`(--[a-z-]+)", cell)]
    wanted = set(re.findall(r"(?<![\w-])--[a-z][a-z-]+", said)) - OF_ALL
    statuses = [cell for cell in cells(section(page, "Statuses")) if cell.isdigit()]
    ends = set(re.findall(r"\b\d+\b", said.rpartition("Status: ")[2]))
    return "; ".join(fault for fault in [*faults, other("option", options, wanted), other("status", statuses, ends)] if fault)


def fault_of_codes(root: Path) -> str:
    """Each code that the definitions have, and that the tables of conversations have, is explained once, on the page of codes."""
    explained = [code for page in sorted((root / "docs").rglob("*.md")) for code in re.findall(r"^- \*\*([A-Z]\d+)\b", text_of(page), flags=re.M)]
    here = re.findall(r"^- \*\*([A-Z]\d+)\b", text_of(root / REFERENCE / "codes.md"), flags=re.M)
    printed = {code for name in ("conversations", "calls", "texts") for code in CODE.findall(text_of(root / "equipment" / f"{name}.txt"))}
    printed |= {code for file in root.glob("crates/*/specs/**/*.antt") for code in re.findall(r'"([CEFSUVX]\d{1,2})\b', text_of(file))}
    lacking = sorted(printed - set(here))
    return other("code", explained, set(here)) or (f"no code {', '.join(lacking)}" if lacking else "")


def fault_of_reasons(root: Path) -> str:
    """Each reason that `form` prints has a row, in the order of the definitions."""
    named = cells(section(text_of(root / REFERENCE / "form.md"), "Reasons"))[1:]
    sentences = re.findall(r'= codes "(.*)"', text_of(root / "crates/pickle_form/specs/Sentence.antt"))
    wanted = [f"`{sentence}`" for sentence in sentences]
    return other("reason", named, set(wanted)) or ("" if named == wanted else "the reasons are in another order than in the definitions")


def fault_of_c(root: Path) -> str:
    """Each function of the C interface has a row of its table."""
    table = section(text_of(root / REFERENCE / "library.md"), "The functions")
    named = [name for cell in cells(table) for name in re.findall(r"`(picklestep_\w+)`", cell)]
    return other("function", named, set(re.findall(r"\b(picklestep_\w+)\(", text_of(root / "targets/library/picklestep.h"))))


def fault_of_python(root: Path) -> str:
    """Each public name of the package has a row: errors in one table, all others in another."""
    page = text_of(root / REFERENCE / "python.md")
    named = [name for heading in ("All names", "What can go wrong") for cell in cells(section(page, heading)) for name in re.findall(r"`(\w+)`", cell)]
    sources = text_of(root / "python/picklestep/__init__.py").partition("__all__ = ")[2].partition("]")[0]
    return other("name", named, set(re.findall(r"'(\w+)'", sources)))


# Prints the functions of the package with their parameters, as the page writes them.
SIGNATURES = """
import inspect, picklestep
def written(default):
    return "" if default is inspect.Parameter.empty else f"={default!r}" if default in (None, (), False, True, "ascii") else "=.."
for name in sorted(picklestep.__all__):
    if inspect.isfunction(getattr(picklestep, name)):
        words, starred = [], False
        for parameter in inspect.signature(getattr(picklestep, name)).parameters.values():
            if parameter.kind is parameter.KEYWORD_ONLY and not starred:
                words, starred = [*words, "*"], True
            words.append(parameter.name + written(parameter.default))
        print(f"{name}({', '.join(words)})")
"""


def fault_of_signatures(root: Path) -> str:
    """Each function of the package is on its page with its parameters."""
    settings = {**os.environ, "PYTHONPATH": str(root / "python")}
    done = subprocess.run([sys.executable, "-B", "-c", SIGNATURES], env=settings, capture_output=True, text=True, timeout=600)
    shown = re.findall(r"^    (\w+\(.*)$", section(text_of(root / REFERENCE / "python.md"), "The functions"), flags=re.M)
    return "" if shown and shown == done.stdout.splitlines() else f"the package has: {done.stdout or done.stderr}"


def trials(root: Path, program: str) -> list[Trial]:
    found = [Trial("each word has a page of the reference", functools.partial(fault_of_words, root))]
    for word in words_of(root):
        found.append(Trial(f"the options and statuses of {word} on its page", functools.partial(fault_of_word, root, program, word)))
    found.append(Trial("each code is explained once", functools.partial(fault_of_codes, root)))
    found.append(Trial("each reason of form is explained once", functools.partial(fault_of_reasons, root)))
    found.append(Trial("each function of the C interface is on one page", functools.partial(fault_of_c, root)))
    found.append(Trial("each function of the Python package is shown with its parameters", functools.partial(fault_of_signatures, root)))
    return [*found, Trial("each name of the Python package is on one page", functools.partial(fault_of_python, root))]
