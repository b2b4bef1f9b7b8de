"""Measures what each task of the gate costs: processor seconds of each proof, each crate's tests and each must-fail edit, and of all else below a command.

    python3 -B equipment/costs.py COMMAND..        runs the command, say ./test, and prints the table when it has ended
    python3 -B equipment/costs.py --of PID         the same of a command that runs already, from now on
    python3 -B equipment/costs.py --functions NAME checks a crate anew, with its tests, and prints its ten dearest functions and what a check without a change takes
    python3 -B equipment/costs.py --page LOG       prints the tables of docs/why/measured.md. LOG has what the first of these commands printed, and below it what
                                                   --functions printed of some crates

`rt ci` prints no times, so this looks twice a second at what the system says of each process. What a process used after the last look at it,
and a process that began and ended between two looks, stand in the line `between two looks`: the system adds them to the parent of the process.

The edits of a crate begin with a check of the crate as it stands, whose work each edit starts from: the table calls it the base of the edits.
"""

from __future__ import annotations

import collections
import os
import re
import resource
import shutil
import subprocess
import sys
import textwrap
import time
from collections.abc import Iterable, Iterator, Sequence
from dataclasses import dataclass, field
from pathlib import Path

ROOT = Path(__file__).resolve().parent.parent
SECOND = os.sysconf("SC_CLK_TCK")
# Where the work is that a check of an edit starts from: in kit 13f a folder for each edit, in 13b one for all edits of a crate.
ROOM_OF_EDITS = re.compile(r"/rt-edits-[^/]+(?:/(\w+))?$")
ROOM_OF_EDIT = re.compile(r"/rt-edit-")  # (the copy of the crate that an edit is made in)
CHECKED = re.compile(r"checked (.*), \d+ of \d+")  # (a line of `rattle check --progress`)
BETWEEN = "between two looks"
MOST_LETTERS = 80  # (of the words of a process that is no check)
MOST_FUNCTIONS = 10


@dataclass(frozen=True)
class Process:
    """What the system says of a process: its parent, the seconds that it used, those of its children that have ended, its folder and its words."""

    parent: int
    seconds: float
    of_children: float
    folder: str
    words: tuple[str, ...]


def process_of(pid: int) -> Process:
    room = Path("/proc") / str(pid)
    fields = (room / "stat").read_text().rpartition(")")[2].split()
    words = tuple(word for word in (room / "cmdline").read_bytes().decode(errors="replace").split("\0") if word)
    try:
        folder = os.readlink(room / "cwd")
    except OSError:
        folder = ""
    user, system, user_of_children, system_of_children = (int(each) / SECOND for each in fields[11:15])
    return Process(int(fields[1]), user + system, user_of_children + system_of_children, folder, words)


def processes() -> Iterator[tuple[int, Process]]:
    for name in os.listdir("/proc"):
        if name.isdigit():
            try:
                yield int(name), process_of(int(name))
            except (OSError, ValueError, IndexError):
                continue  # (it has ended meanwhile)


def edits_of(crate: str) -> list[str]:
    """The names of a crate's edits, in the order in which rt numbers them."""
    return sorted(path.stem for path in (ROOT / "crates" / crate / "must-fail").glob("*.edit"))


def task_of(process: Process) -> str | None:
    """The task that a process was started for: a proof, tests or an edit of a crate. None if it is no check of a crate."""
    words = process.words
    if "--crate-name" not in words[:-1]:
        return None
    crate = words[words.index("--crate-name") + 1]
    start = words[words.index("--incremental") + 1] if "--incremental" in words[:-1] else ""
    room = ROOM_OF_EDITS.search(start)
    if room and room[1] is None:
        return f"edits of {crate}, and their base"
    if room and room[1] == "seed":
        return f"base of the edits of {crate}"
    if room and room[1].isdigit():
        names = edits_of(crate)
        return f"edit of {crate}: {names[int(room[1])] if int(room[1]) < len(names) else room[1]}"
    if ROOM_OF_EDIT.search(process.folder):
        return f"edit of {crate}, from nothing"
    return f"tests of {crate}" if "--test" in words else f"proof of {crate}"


def other_task_of(process: Process) -> str:
    return " ".join(os.path.basename(word) for word in process.words[:3])[:MOST_LETTERS]


@dataclass
class Costs:
    """The greatest seconds seen of each process, by its task. What ran for a check of a crate counts for that check."""

    root: int
    names: dict[int, str] = field(default_factory=dict)
    seen: dict[int, float] = field(default_factory=dict)
    parents: dict[int, int] = field(default_factory=dict)
    of_children: dict[int, float] = field(default_factory=dict)

    def look(self) -> None:
        found = dict(processes())
        below = [self.root]
        children: dict[int, list[int]] = collections.defaultdict(list)
        for pid, process in found.items():
            children[process.parent].append(pid)
        for pid in below:  # (grows while it is read: what is below what is below)
            below += children[pid]
        for pid in below:
            if pid in found:
                self._note(pid, found[pid])

    def _note(self, pid: int, process: Process) -> None:
        if process.words:  # (a process that has ended and that its parent has not asked for yet has none: its name stays)
            above = self.names.get(process.parent, "")
            of_check = above.startswith(("proof of ", "tests of ", "edit of ", "edits of ", "base of "))
            self.names[pid] = task_of(process) or (above if of_check else other_task_of(process))
        self.seen[pid] = process.seconds
        self.parents[pid] = process.parent
        self.of_children[pid] = process.of_children

    def between(self) -> float:
        """Seconds that the children of the processes used, and that no look at a child saw."""
        used: dict[int, float] = collections.defaultdict(float)
        for pid, parent in self.parents.items():
            used[parent] += self.seen[pid] + self.of_children[pid]
        return sum(max(0.0, seconds - used[pid]) for pid, seconds in self.of_children.items())

    def table(self) -> Iterator[str]:
        sums: dict[str, float] = collections.defaultdict(float)
        counts: collections.Counter[str] = collections.Counter()
        for pid, seconds in self.seen.items():
            task = self.names.get(pid, "?")
            sums[task] += seconds
            counts[task] += 1
        sums[BETWEEN] += self.between()
        for task, seconds in sorted(sums.items(), key=lambda each: -each[1]):
            if seconds >= 1:
                yield f"{seconds:9.1f}  {task}" + (f" ({counts[task]})" if counts[task] > 1 else "")
        yield f"{sum(sums.values()):9.1f}  in all"


def watch(costs: Costs) -> None:
    while os.path.exists(f"/proc/{costs.root}") and process_of(costs.root).words:
        costs.look()
        time.sleep(0.5)


def check(crate: str) -> tuple[float, dict[str, float]]:
    """Checks a crate over what is kept of it. Returns processor seconds, and the seconds of the wall of each function that was checked."""
    folder, before = ROOT / "crates" / crate, resource.getrusage(resource.RUSAGE_CHILDREN)
    tests = ["--test"] if any("#[test]" in file.read_text() for file in (folder / "src").rglob("*.rt")) else []
    started = subprocess.Popen(["rt", "check", *tests, "--jobs", "1", "--progress"], cwd=folder, stdout=subprocess.PIPE, stderr=subprocess.STDOUT, text=True)
    last, functions = time.monotonic(), {}
    assert started.stdout is not None
    for line in started.stdout:
        now, found = time.monotonic(), CHECKED.match(line)
        if found:
            functions[found[1]] = now - last
        last = now
    started.wait()
    after = resource.getrusage(resource.RUSAGE_CHILDREN)
    return after.ru_utime + after.ru_stime - before.ru_utime - before.ru_stime, functions


def functions_of(crate: str) -> Iterator[str]:
    """The dearest functions of a crate. What is kept of the crates below stays; a first check builds these."""
    check(crate)
    shutil.rmtree(ROOT / "crates" / crate / "out" / "incremental", ignore_errors=True)
    seconds, functions = check(crate)
    for name, each in sorted(functions.items(), key=lambda pair: -pair[1])[:MOST_FUNCTIONS]:
        yield f"{each:9.1f}  {name}"
    yield f"{seconds:9.1f}  {crate}, {len(functions)} functions"
    yield f"{check(crate)[0]:9.1f}  {crate}, without a change"


# --- The tables of the page ---

ROW = re.compile(r" *(\d+\.\d)  (.+)")
TASK = re.compile(r"(proof|tests|base|edits?) of (?:the edits of )?(\w+)")
CHECK = re.compile(r"(\w+), (?:\d+ functions|(without a change))")


@dataclass
class Log:
    """What a log says in processor seconds: of each crate by the kind of the task, of each group of trials, and of all. `functions` are the dearest
    ones of the crates that were checked by --functions, in seconds of the wall, and `unchanged` is what a check of these takes without a change."""

    crates: dict[str, dict[str, float]] = field(default_factory=lambda: collections.defaultdict(lambda: collections.defaultdict(float)))
    dearest: dict[str, float] = field(default_factory=lambda: collections.defaultdict(float))  # (of each crate the dearest wrong body)
    groups: dict[str, float] = field(default_factory=dict)
    functions: list[tuple[float, str]] = field(default_factory=list)
    unchanged: dict[str, float] = field(default_factory=dict)
    took: tuple[int, int] | None = None  # (seconds of the wall: of rt ci, and of the trials)
    total: float | None = None

    @staticmethod
    def of(lines: Iterable[str]) -> Log:
        log, functions = Log(), list[tuple[float, str]]()
        for line in lines:
            row, took = ROW.fullmatch(line), re.fullmatch(r"time: rt ci (\d+) s, trials (\d+) s", line)
            if took is not None:
                log.took = int(took[1]), int(took[2])
            if line.startswith("processor seconds: "):
                log.groups = {name: float(seconds) for name, seconds in re.findall(r"([\w-]+) (\d+)", line.partition(": ")[2])}
            if row is not None and log._take(float(row[1]), row[2], functions):
                functions = []
            elif row is not None:
                functions.append((float(row[1]), row[2]))
        if log.total is None:
            raise ValueError("it has no table that `costs.py COMMAND` printed")
        return log

    def _take(self, seconds: float, words: str, functions: Sequence[tuple[float, str]]) -> bool:
        """Takes a row, and returns whether it is of a task or closes a table. The others may be functions, which stand above the row of their crate."""
        task, check = TASK.match(words), CHECK.fullmatch(words)
        if words == "in all":
            if self.total is not None:
                raise ValueError("it has two tables that `costs.py COMMAND` printed")
            self.total = seconds
        elif task is not None:
            self.crates[task[2]][task[1]] += seconds
            self.dearest[task[2]] = max(self.dearest[task[2]], seconds if task[1] == "edit" else 0)
        elif check is not None and check[2]:
            self.unchanged[check[1]] = seconds
        elif check is not None:
            self.functions += functions
        return words == "in all" or task is not None or check is not None

    def spent(self, *kinds: str) -> float:
        return sum(of_crate[kind] for of_crate in self.crates.values() for kind in kinds)


def markdown(heads: Sequence[str], rows: Iterable[Sequence[object]]) -> str:
    """A table, of numbers but for the first column."""
    first, *others = (f"| {' | '.join(map(str, row))} |" for row in (heads, *rows))
    return "\n".join([first, f"|---{'|---:' * (len(heads) - 1)}|", *others])


def seconds_of(value: float) -> str:
    return f"{value:.0f}" if value >= 0.5 else ""


def parts_of(log: Log) -> str:
    """What the parts of ./test took."""
    proofs, tests, bodies = log.spent("proof"), log.spent("tests"), log.spent("base", "edit", "edits")
    trials, total = sum(log.groups.values()), log.total or 0
    rows = [
        ("the proofs of the crates", proofs),
        ("the proofs of their tests", tests),
        ("the wrong bodies, with the proofs before them", bodies),
        ("the trials", trials),
        ("all else: installers, builds, and what was too short to be seen", max(0, total - proofs - tests - bodies - trials)),
        ("**all together**", total),
    ]
    return markdown(["Part of `./test`", "Minutes of processors"], [(name, f"{seconds / 60:.0f}") for name, seconds in rows])


def crates_of(log: Log) -> str:
    """What each crate took, the dearest first."""
    rows = []
    for name, of in sorted(log.crates.items(), key=lambda each: -sum(each[1].values())):
        bodies = of["edit"] + of["edits"]  # (in kit 13b the proof before them is in this sum)
        rows.append((f"`{name}`", *map(seconds_of, (of["proof"], of["tests"], of["base"], bodies, log.dearest[name])), len(edits_of(name)) or ""))
    return markdown(["Crate", "Proof", "Tests", "Proof before the wrong bodies", "Wrong bodies", "The dearest of them", "Their number"], rows)


def page_of(log: Log, date: str) -> Iterator[str]:
    """The paragraphs and tables that stand in the page."""
    took = f" `rt ci` took {log.took[0] / 60:.0f} minutes of the wall, and the trials after it {log.took[1] / 60:.0f}." if log.took else ""
    yield textwrap.fill(f"Measured on {date}, with {os.cpu_count()} processors.{took}", 100)
    yield parts_of(log)
    yield "Seconds of processors for each crate:"
    yield crates_of(log)
    yield "And for each group of trials:"
    yield markdown(["Group", "Seconds"], [(f"`{name}`", f"{seconds:.0f}") for name, seconds in sorted(log.groups.items(), key=lambda each: -each[1])])
    if log.functions:
        crates = ", ".join(f"`{name}` {seconds:.1f}" for name, seconds in log.unchanged.items())
        yield textwrap.fill(f"A check without a change takes, in seconds of processors: {crates}. The dearest functions of these crates are:", 100)
        yield markdown(["Function", "Seconds of the wall"], [(f"`{name}`", f"{seconds:.0f}") for seconds, name in sorted(log.functions, reverse=True)[:MOST_FUNCTIONS]])


def main(words: list[str]) -> int:
    if words[:1] == ["--functions"] and len(words) == 2:
        print("\n".join(functions_of(words[1])))
        return 0
    if words[:1] == ["--page"] and len(words) == 2:
        try:
            log, written = Log.of(Path(words[1]).read_text("utf-8", "replace").splitlines()), os.path.getmtime(words[1])
        except (OSError, ValueError) as error:
            print(f"costs.py: {words[1]}: {error}", file=sys.stderr)
            return 2
        print("\n\n".join(page_of(log, time.strftime("%Y-%m-%d", time.gmtime(written)))))
        return 0
    if words[:1] == ["--of"] and len(words) == 2 and words[1].isdigit():
        costs, status = Costs(int(words[1])), 0
        watch(costs)
    elif words and not words[0].startswith("-"):
        started = subprocess.Popen(words)
        costs = Costs(started.pid)
        while started.poll() is None:
            costs.look()
            time.sleep(0.5)
        status = started.returncode
    else:
        print("usage: costs.py COMMAND.., costs.py --of PID, costs.py --functions NAME, or costs.py --page LOG", file=sys.stderr)
        return 2
    print("\n".join(costs.table()))
    return status


if __name__ == "__main__":
    sys.exit(main(sys.argv[1:]))
