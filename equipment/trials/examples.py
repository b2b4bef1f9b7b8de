"""The examples of the pages: commands, and conversations."""

from __future__ import annotations

import functools
import re
from collections.abc import Iterator
from dataclasses import dataclass, field
from pathlib import Path

import conversations

from .room import Room, Word, run
from .trial import Trial

COMMAND = "    $ "
MARGIN = "    "
COMMANDS = ("README.md", "docs/FAQ.md", "docs/start/*.md", "docs/howto/*.md", "docs/why/*.md", "docs/reference/*.md")
# Pages that need files or a server beside them: the package's tests run their commands.
APART = tuple(f"docs/reference/{name}.md" for name in ("common", "lists", "policy", "scan", "scan_missed", "scan_rule", "shell", "stores"))
# This page has conversations, with a.pickle and b.pickle, and commands with other files.
DEBUG = "docs/reference/debug.md"
CONVERSATIONS = ("calls", "debug", "reach")
PAGES = (*(f"docs/reference/{name}.md" for name in CONVERSATIONS), "equipment/conversations.txt", "equipment/texts.txt", "equipment/calls.txt")
BLOCK = re.compile(r"^ *(?:(?:pickles?|unframed)(?: [0-9a-f ]+)?|(?:form|list|calls|members)(?: [0-9a-f ]+)?: .+|\$ echo '[0-9a-f ]+' \| xxd -r -p >a\.pickle)$", re.MULTILINE)
PROMPT = "(pickle) "


def examples_of(page: str) -> Iterator[tuple[str, str]]:
    """Each command of a page, which comes after `$ `, with what it has to write."""
    command, wanted = "", ""
    for line in [*page.splitlines(), ""]:
        if command and (line.startswith(COMMAND) or not line.startswith(MARGIN)):
            yield command, wanted
            command = ""
        if line.startswith(COMMAND):
            command, wanted = line[len(COMMAND) :], ""
        elif command:
            wanted += line[len(MARGIN) :] + "\n"


def typed(command: str, shown: str) -> tuple[str, str]:
    """A command that reads what is typed, where lines at its prompt are shown, and what it then writes."""
    lines = [line.removeprefix(PROMPT) for line in shown.splitlines(keepends=True) if line.startswith(PROMPT)]
    wanted = "".join(line for line in shown.splitlines(keepends=True) if not line.startswith(PROMPT))
    return (f"{command} <<'END'\n{''.join(lines)}END", wanted) if lines else (command, shown)


@dataclass
class Commands:
    """The commands of a page. Later ones use the files of earlier ones, so they run in their order."""

    room: Room
    page: str
    examples: list[tuple[str, str]] = field(init=False)
    done: int = 0

    def __post_init__(self) -> None:
        self.examples = list(examples_of((self.room.root / self.page).read_text("utf-8")))
        if self.page == DEBUG:
            self.examples = [example for example in self.examples if not re.search(r"\b[ab]\.pickle", example[0])]

    @functools.cached_property
    def folder(self) -> Path:
        folder = self.room.folder / f"commands of {self.page.replace('/', ' ')}"
        folder.mkdir(parents=True)
        (folder / "picklestep").symlink_to(self.room.start)
        for name in ("crates", "python"):
            (folder / name).symlink_to(self.room.root / name)
        return folder

    def fault(self, number: int) -> str:
        """Runs an example, and before it those that were not run yet."""
        while self.done < number:
            self.fault(self.done)
        self.done = number + 1
        command, wanted = typed(*self.examples[number])
        sources, binary = self.room.root / "python", self.room.program
        settings = [f"PYTHONPATH={sources}", f"PICKLESTEP_PROGRAM={binary}", "PYTHONDONTWRITEBYTECODE=1"]
        # (an answer that has something to look at has status 1)
        words: list[Word] = ["env", *settings, "bash", "-c", f"{command}\n[ $? -le 1 ]"]
        return run(words, self.folder).difference(0, wanted, "")


def of_commands(room: Room) -> list[Trial]:
    trials = []
    pages = [str(page.relative_to(room.root)) for pattern in COMMANDS for page in sorted(room.root.glob(pattern))]
    for page in (page for page in pages if page not in APART):
        commands = Commands(room, page)
        trials += [Trial(f"the example '{command}' of {page}", functools.partial(commands.fault, number))
                   for number, (command, _) in enumerate(commands.examples)]
    return trials


def of_pages(room: Room) -> list[Trial]:
    """The conversations of all pages. None may be overlooked by the one who reads the page, and each has a name of its own."""
    trials = []
    for name in PAGES:
        page = room.root / name
        found = conversations.trials(str(room.program), page, room.folder)
        wanted = len(BLOCK.findall(page.read_text("utf-8")))
        names = [trial.name for trial in found]
        why = f"{len(found)} of {wanted} were found" if len(found) != wanted or not found else ""
        why = why or next((f"two are named '{name}'" for name in names if names.count(name) > 1), "")
        if why:
            trials.append(Trial(f"the conversations of {page.name}", functools.partial(str, why)))
        trials += found
    return trials
