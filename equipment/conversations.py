"""Runs the conversations that a page shows, and says of each what is wrong.

A conversation on the page is a block of lines, indented or not, that begins with `pickle` and the bytes of a pickle in
hexadecimal, or with the command that makes `a.pickle` of these (then each command is written as a user types it). After `pickles` they are of several pickles, and every command has the option --many; after `unframed` it has --unframed. Then comes a line of the
script after `debug> `, then the lines that answer it, and so on. `$ list`, `$ objects`, `$ calls` (with options: `$ calls --first`) or another word comes
before what that command writes; the list of `$ gate` stands above it, each line after `allow `. A last line `saved` has the bytes that the pickle is saved as. The block ends at an empty line, or at the end of the page.
A line of a word, the bytes, a colon and the answer is a block of its own.

It is named by the first sentence of the lines above it, so each has to be on its page once; further blocks below that have a number too.

Each script is run with all records and in windows of 1 and 2. The status has to be 1 just where an answer refuses (2 where the list is none). What is
shown of one pickle is also tried with --many, where no byte is after its STOP: the answers are the same then.
"""

from __future__ import annotations

import functools
import pathlib
import re
import subprocess
from collections.abc import Iterator
from dataclasses import dataclass, field

from trials.trial import Trial

Done = subprocess.CompletedProcess[bytes]
WINDOWS: list[list[str]] = [[], ["--window", "1"], ["--window", "2"]]
# the first line of a block; its first word, and the options that it gives to every command
START = re.compile(r" *(pickles?|unframed)((?: [0-9a-f]+)*)")
# the same as a user types it, and the commands after it
TYPED = re.compile(r" *(\$) echo '([0-9a-f ]+)' \| xxd -r -p >a\.pickle")
# the same in one line, where the answer is one line
ROW = re.compile(r"(form|list|calls|members)((?: [0-9a-f]+)*): (.+)")
WORD = re.compile(r"\$ (?:(?:\./)?picklestep (\w+) a\.pickle(?: --save b\.pickle)?((?: [\w-]+)*)|xxd -p b\.pickle|(.*))")
OPTIONS: dict[str, list[str]] = {"pickle": [], "pickles": ["--many"], "unframed": ["--unframed"]}
# the lines with which a command has status 1
REFUSED = ("refused: ", "fault: ")
# what stands before the words of a refusal, and what has status 2
OFFSET = re.compile(r"\d+: ")
NO_LIST = "not a list: "
# the words that take no --many
WITHOUT_MANY = ("gate", "members", "reach")
REFUSALS: dict[str, tuple[str, ...]] = {
    "list": REFUSED,
    "objects": REFUSED,
    "calls": (*REFUSED, "kept: ", "unsure: ", "warning: "),
    "form": ("not in form: ",),
    "gate": ("not in form: ", "not allowed: ", "'"),  # (what is said of a member begins with its name)
    "members": ("not in form: ",),
    "reach": ("reached at ", "too many ways "),
}


@dataclass
class Block:
    """A conversation on a page: its name there, the options of every command, and what is asked and answered."""

    name: str
    options: list[str]
    pickle: bytes
    allowed: list[str] = field(default_factory=list)
    script: list[str] = field(default_factory=list)
    answers: list[str] = field(default_factory=list)
    written: dict[str, list[str]] = field(default_factory=dict)
    saved: bytes | None = None
    dump: list[str] = field(default_factory=list)  # (stays empty: what comes after `xxd -p b.pickle` is `saved`)

    def __post_init__(self) -> None:
        self.output = self.answers

    def take(self, line: str) -> None:
        word = WORD.fullmatch(line)
        if line.startswith("debug> "):
            self.script.append(line[len("debug> "):])
            self.output = self.answers
        elif line.startswith("allow "):
            self.allowed.append(line[len("allow "):])
        elif word is not None:
            self.output = self.output_of(word)
        elif line.startswith("saved ") or self.output is self.dump:
            self.saved = bytes.fromhex(line.removeprefix("saved "))
        else:
            self.output.append(line)

    def output_of(self, word: re.Match[str]) -> list[str]:
        """Where the lines go that come after a command."""
        typed, options, short = word.groups()
        if short is None and typed is None:
            return self.dump
        if typed == "debug":
            return self.answers
        return self.written.setdefault(short or typed + options, [])


@dataclass
class Above:
    """The latest paragraph of a page, and how many blocks are below it."""

    text: str = ""
    blocks: int = 0
    is_open: bool = False

    def take(self, line: str) -> None:
        """Takes a line that is in no block."""
        if self.is_open and line.strip():
            self.text += f" {line.strip()}"
        elif line.strip() and not line.startswith("    "):  # (an indented line is code)
            self.text, self.blocks = line.lstrip("# "), 0
        self.is_open = bool(line.strip()) and not line.startswith(("    ", "#"))

    def name(self) -> str:
        """The name of the next block."""
        self.blocks += 1
        sentence = self.text.partition(". ")[0].rstrip(".:")
        return sentence if self.blocks == 1 else f"{sentence}, {self.blocks}"


def blocks_of(page: str) -> Iterator[Block]:
    block = None
    margin = 0
    above = Above()
    for line in [*page.splitlines(), ""]:
        start = START.fullmatch(line) or (TYPED.fullmatch(line) if block is None else None)
        row = ROW.fullmatch(line)
        if row is not None:
            yield Block(above.name(), [], bytes.fromhex(row[2]), written={row[1]: [row[3]]})
        elif start is not None:
            margin = start.start(1)
            block = Block(above.name(), OPTIONS.get(start[1], []), bytes.fromhex(start[2]))
        elif block is None:
            above.take(line)
        elif line.strip():
            block.take(line[margin:])
        else:
            yield block
            block = None


def runs_of(block: Block) -> Iterator[tuple[list[str], bytes, list[str]]]:
    """What is run of a conversation: words without those of the files, the script, and what is answered. Its pickle is also asked as one of several."""
    for mode in [block.options] if block.options else [[], ["--many"]]:
        for command, answer in block.written.items():
            if not mode or takes_many(command):
                yield [*command.split(), *([] if "--" in command else mode)], b"", answer
        if block.script or block.saved is not None:
            script = "".join(line + "\n" for line in block.script).encode()
            yield from ((["debug", *mode, *options], script, block.answers) for options in WINDOWS)


def takes_many(command: str) -> bool:
    return command.split()[0] not in WITHOUT_MANY


def list_of(block: Block) -> bytes:
    """The list of `gate`."""
    return "".join(f"{line}\n" for line in block.allowed).encode()


def status_of(word: str, answer: list[str]) -> int:
    """The status of a word that answers so."""
    if any(line.startswith(NO_LIST) for line in answer):
        return 2
    return int(any(OFFSET.sub("", line, count=1).startswith(REFUSALS.get(word, ("refused: ",))) for line in answer))


def run(program: str, words: list[str], script: bytes) -> tuple[Done, str]:
    done = subprocess.run([program, *words], input=script, capture_output=True, timeout=600)
    if done.stderr:
        return done, f"errors, which begin: {done.stderr[:200]!r}"
    return done, ""


def differs(words: list[str], done: Done, wanted: list[str], status: int) -> str:
    text = "".join(line + "\n" for line in wanted).encode()
    if done.stdout != text:
        return f"{' '.join(words)} writes {done.stdout!r} and not {text!r}"
    if done.returncode != status:
        return f"{' '.join(words)} ends with status {done.returncode} and not {status}"
    return ""


def fault_of_command(program: str, block: Block, mode: list[str], command: str, file: pathlib.Path) -> str:
    wanted = block.written[command]
    words = [*command.split(), *([] if "--" in command else mode)]
    if words[0] == "gate":
        listed = file.with_suffix(".list")
        listed.write_bytes(list_of(block))
        words.append(str(listed))
    done, why = run(program, [*words, str(file)], b"")
    return why or differs(words, done, wanted, status_of(words[0], wanted))


def fault_of_script(program: str, block: Block, mode: list[str], file: pathlib.Path, saved: pathlib.Path) -> str:
    script = "".join(line + "\n" for line in block.script).encode()
    status = status_of("debug", block.answers)
    for options in WINDOWS:
        saved.unlink(missing_ok=True)
        done, why = run(program, ["debug", *mode, str(file), "--save", str(saved), *options], script)
        why = why or differs(["debug", *mode, *options], done, block.answers, status)
        if why:
            return why
        if block.saved is not None and saved.read_bytes() != block.saved:
            return f"it saves {saved.read_bytes().hex(' ')}"
    return ""


def fault_in(program: str, block: Block, mode: list[str], folder: pathlib.Path) -> str:
    file = folder / "shown.pickle"
    file.write_bytes(block.pickle)
    for command in block.written:
        why = fault_of_command(program, block, mode, command, file) if not mode or takes_many(command) else ""
        if why:
            return why
    if block.script or block.saved is not None:
        return fault_of_script(program, block, mode, file, folder / "saved.pickle")
    return "" if block.written else "there is nothing to run"


def keeps_bytes(program: str, block: Block, folder: pathlib.Path) -> bool:
    """Whether there are bytes after STOP."""
    file = folder / "shown.pickle"
    file.write_bytes(block.pickle)
    done, _ = run(program, ["list", str(file)], b"")
    return b"\nkept: " in done.stdout


def fault_of(program: str, block: Block, folder: pathlib.Path) -> str:
    """What is wrong with a conversation, or an empty text. The folder gets the pickles."""
    folder.mkdir(parents=True, exist_ok=True)
    why = fault_in(program, block, block.options, folder)
    if not why and not block.options and not keeps_bytes(program, block, folder):
        why = fault_in(program, block, ["--many"], folder)
    return why


def trials(program: str, page: pathlib.Path, folder: pathlib.Path) -> list[Trial]:
    """Each conversation, by its name."""
    return [
        Trial(f"{page.name}: {block.name}", functools.partial(fault_of, program, block, folder))
        for block in blocks_of(page.read_text("utf-8"))
    ]
