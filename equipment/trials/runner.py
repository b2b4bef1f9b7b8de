"""Which groups run, and when: all of them after the proofs, or those that are named."""

from __future__ import annotations

import multiprocessing
import os
import re
import time
from collections.abc import Iterable, Sequence, Set
from multiprocessing.connection import wait
from pathlib import Path
from typing import Optional, Union

from .groups import DEAREST, AnyGroup, in_order, processors
from .room import Room
from .trial import Report, Verdict

CLOSING = re.compile(r"(\d+) passed, (\d+) failed")
FAILED = re.compile(r"\S+(?: \((?:tests|run)\))?")
UNPROVED = re.compile(r"rt: (\w+)(: its tests are)? NOT PROVED")
MEMORY = "memory"
Chosen = list[tuple[AnyGroup, Optional[Set[str]]]]
Costs = dict[str, float]  # processor seconds of each group


class Unknown(Exception):
    """A name that is neither a trial's nor a group's."""


def processor_seconds() -> float:
    """What this process used, and what the processes that it started and waited for used."""
    return sum(os.times()[:4])


def broken(group: AnyGroup, fault: Exception) -> Verdict:
    """What lists the trials of a group has failed."""
    return Verdict(group.name, group.name, f"{type(fault).__name__}: {fault}"[:600])


class Running:
    """A group that runs in a process of its own, beside others. `verdicts` has those that were not taken from it yet."""

    def __init__(self, group: AnyGroup, wanted: Optional[Set[str]]) -> None:
        context = multiprocessing.get_context("fork")
        self.group, self.wanted = group, wanted
        self.verdicts: list[Verdict] = []
        self.seconds: Optional[float] = None
        self.receiver, self.sender = context.Pipe(duplex=False)
        self.process = context.Process(target=self._run)
        self.process.start()
        self.sender.close()

    def _run(self) -> None:
        self.receiver.close()
        try:
            for verdict in self.group.verdicts(self.wanted):
                self.sender.send(verdict)
        except Exception as fault:
            self.sender.send(broken(self.group, fault))
        self.sender.send(processor_seconds())

    def receive(self) -> None:
        """Takes what the process sent next: a verdict, or at the end what it used. Waits for it."""
        try:
            sent: Union[Verdict, float] = self.receiver.recv()
        except EOFError:
            self.process.join()
            sent, self.seconds = Verdict(self.group.name, self.group.name, f"its process ended with status {self.process.exitcode}"), 0.0
        if isinstance(sent, Verdict):
            self.verdicts.append(sent)
        else:
            self.seconds = sent
            self.process.join()

    def report(self, report: Report) -> None:
        for verdict in self.verdicts:
            report.take(verdict)
        self.verdicts = []


def choose(room: Room, names: Sequence[str]) -> Chosen:
    """The groups with these names, and the trials with these names in the others. No name is every group."""
    groups = in_order(room)
    if not names:
        return [(group, None) for group in groups]
    chosen: dict[str, Optional[Set[str]]] = {group.name: None for group in groups if group.name in names}
    rest = set(names) - set(chosen)
    known: set[str] = set()
    # A name may be in two groups, and means both trials then.
    for group in groups if rest else []:
        wanted = rest.intersection(group.names())
        if wanted:
            chosen.setdefault(group.name, wanted)
            known |= wanted
    if rest - known:
        raise Unknown(", ".join(f"'{name}'" for name in sorted(rest - known)))
    return [(group, chosen[group.name]) for group in groups if group.name in chosen]


def run_groups(chosen: Chosen, report: Report) -> Costs:
    """Runs groups, and returns what each took of the processors."""
    costs = run_beside([pair for pair in chosen if pair[0].name != MEMORY], report)
    # Nothing else runs during these trials, so that none of them runs out of memory by chance.
    return costs | run_beside([pair for pair in chosen if pair[0].name == MEMORY], report)


def run_beside(chosen: Chosen, report: Report) -> Costs:
    """Runs groups, each in a process of its own, as many at once as there are processors, and the dearest first. What they say is printed in the
    order in which they were chosen."""
    waiting, running = sorted(chosen, key=place_among_dearest), dict[str, Running]()
    for group, _ in chosen:
        while group.name not in running or running[group.name].seconds is None:
            while waiting and sum(each.group.lanes for each in running.values() if each.seconds is None) < processors():
                begun = Running(*waiting.pop(0))
                running[begun.group.name] = begun
            receive(running.values())
            if group.name in running:
                running[group.name].report(report)
        running[group.name].report(report)
    return {name: each.seconds or 0 for name, each in running.items()}


def receive(running: Iterable[Running]) -> None:
    """Takes what the groups that have not ended sent. Waits for it."""
    left = [each for each in running if each.seconds is None]
    ready = wait([each.receiver for each in left])
    for each in left:
        if each.receiver in ready:
            each.receive()


def place_among_dearest(pair: tuple[AnyGroup, Optional[Set[str]]]) -> int:
    name = pair[0].name
    return DEAREST.index(name) if name in DEAREST else len(DEAREST)


def print_costs(costs: Costs) -> None:
    """Prints what each group took of the processors, the dearest first."""
    dearest = sorted(costs.items(), key=lambda each: -each[1])
    print("processor seconds: " + ", ".join(f"{name} {seconds:.0f}" for name, seconds in dearest if seconds >= 0.5))


def alone(name: str) -> str:
    """How to try again what `rt ci` names as failed: a crate, its tests, its program, or an edit of it."""
    crate, is_edit, _ = name.partition("/")
    if is_edit:
        return f"rt must-fail {crate}"
    crate, _, part = name.partition(" ")
    return f"cd crates/{crate} && {({'(tests)': 'rt test', '(run)': 'rt run'}).get(part, 'rt check')}"


def count_proofs(report: Report, log: Path, status: int) -> None:
    """Adds what `rt ci` counted in its closing line. `./test` ends it without one at the first proof that fails."""
    lines = log.read_text("utf-8", "replace").splitlines()
    closing = CLOSING.fullmatch(lines[-1]) if lines else None
    if closing is not None:
        report.passed += int(closing[1])
        named = [line.partition("FAILED: ")[2] for line in lines if "FAILED: " in line][-1:] if int(closing[2]) else []
        failed = [name for names in named for name in FAILED.findall(names)]
    else:
        failed = [found[1] + (" (tests)" if found[2] else "") for found in map(UNPROVED.fullmatch, lines) if found]
    for name in failed:
        report.fail(f"FAIL rt ci: {name}\n    alone: {alone(name)}", 1)
    if not failed and (closing is None or int(closing[2]) or status != 0):
        ending = f"'{closing[0]}'" if closing else "no closing line"
        report.take(Verdict("", "rt ci", f"it ended with status {status} and {ending}, and names nothing that failed"))


def run_all(room: Room, log: Path, status: int, seconds: int, lacks: Path) -> int:
    """Runs all groups, if the proofs passed, and prints what the whole took. `lacks` says what could not be installed. Returns the status."""
    report = Report(is_whole=True)
    begin = time.monotonic()
    count_proofs(report, log, status)
    if report.failed:
        report.take(Verdict("", "the program", "it is not tried, since rt ci failed"))
    elif not os.access(room.proved, os.X_OK):
        report.take(Verdict("", "the program", "rt ci built none"))
    else:
        report.take(Verdict("", "what the trials need is installed", "; ".join(lacks.read_text("utf-8", "replace").splitlines())))
        print_costs(run_groups(choose(room, []), report))
    print(f"time: rt ci {seconds} s, trials {time.monotonic() - begin:.0f} s")
    return report.close()


def run_named(room: Room, names: Sequence[str]) -> int:
    report = Report()
    print_costs(run_groups(choose(room, names), report))
    return report.close()


def list_names(room: Room, names: Sequence[str]) -> None:
    """Writes each group, and below it its trials."""
    for group, wanted in choose(room, names):
        print(group.name)
        for name in group.names():
            if wanted is None or name in wanted:
                print(f"    {name}")
