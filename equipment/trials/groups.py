"""All groups of trials, in the order in which they are printed."""

from __future__ import annotations

import functools
import os
import subprocess
import sys
from collections.abc import Callable, Iterator, Sequence, Set
from typing import Optional, Protocol

import crate_rows
import devices
import hostile
import libraries
import loads
import machines
import opcodes
import packages
import pages
import releases
import saves
import several
import surface
import try_calls
import try_definition
import try_gate
import try_lines
import try_others
import try_readers
import wheels

from . import begins, examples, forms, gate, json_lines, large, listings, members, memory, options, program, reach, usage
from .room import Room, Word
from .trial import Group, Noted, Trial, Verdict

# The groups that take longest, in the order in which they begin: python first, and the others when a processor is free.
DEAREST = ("python", "made", "wheels", "loaders", "machines", "release", "library", "hostile", "lines", "large", "random", "forms", "usage", "readme")
# Random cases end with what comes first.
CASES = 1000
SECONDS = 110


class AnyGroup(Protocol):
    """What the runner asks of a group: Group, or one that has its own way to run."""

    @property
    def name(self) -> str: ...

    @property
    def lanes(self) -> int: ...

    def names(self) -> list[str]: ...

    def verdicts(self, wanted: Optional[Set[str]]) -> Iterator[Verdict]: ...


def random_cases(room: Room) -> Noted:
    """Laws of the program that need no reference, over what a generator makes. The seed is always the same."""
    words: list[Word] = [sys.executable, "-B", room.equipment / "fuzz.py", room.program, room.folder / "fuzz"]
    limits: list[Word] = ["--seed", "1", "--cases", str(CASES), "--seconds", str(SECONDS), "--pickles", room.pickles]
    done = subprocess.run([*words, *limits], stdout=subprocess.PIPE, stderr=subprocess.STDOUT, text=True, check=False)
    said = done.stdout.splitlines()[-1:] or ["it says nothing"]
    why = "" if done.returncode == 0 else done.stdout.strip() or f"it ended with status {done.returncode}"
    return Noted(why, f": {said[0]}")


def random_trials(room: Room) -> list[Trial]:
    return [Trial("random pickles and scripts", functools.partial(random_cases, room))]


def loader_trials(loaded: loads.Loads, room: Room) -> list[Trial]:
    tried = [*loads.trials(loaded, room.pickles), *try_readers.trials(loaded, room.pickles), *try_gate.trials(loaded, room.pickles)]
    return [*tried, *try_others.trials(loaded), *try_definition.trials(room.pickles)]


def line_trials(room: Room) -> list[Trial]:
    tried = ((try_lines, "lines"), (try_calls, "lines_of_calls"))
    return [trial for module, name in tried for trial in module.trials(room.program, room.folder / name, room.pickles)]


def processors() -> int:
    """How many of them this process may use."""
    return len(os.sched_getaffinity(0))


def group(name: str, make: Callable[[Room], Sequence[Trial]], room: Room) -> Group:
    """A group of trials that need nothing but a room, of which each group has its own."""
    return Group(name, functools.partial(make, room.of(name)))


def of_program(room: Room) -> list[AnyGroup]:
    """What the program does by itself."""
    return [
        group("program", program.trials, room),
        group("usage", usage.trials, room),
        group("options", options.trials, room),
        group("readme", examples.of_commands, room),
        group("conversations", examples.of_pages, room),
        Group("rows", functools.partial(crate_rows.trials, room.root)),
        group("begins", begins.trials, room),
        group("forms", forms.trials, room),
        group("gate", gate.trials, room),
        group("reach", reach.trials, room),
        group("members", members.trials, room),
        Group("opcodes", functools.partial(opcodes.trials, room.root, str(room.program), room.folder / "opcodes")),
        Group("surface", functools.partial(surface.trials, room.root)),
        Group("pages", functools.partial(pages.trials, room.root, str(room.program), room.folder / "pages")),
    ]


def of_pickles(room: Room) -> list[AnyGroup]:
    """What it does with the real pickles, and with large inputs."""
    inputs = several.Inputs(str(room.program), room.folder / "several")
    return [
        group("listings", listings.trials, room),
        group("json", json_lines.trials, room),
        group("lines", line_trials, room),
        group("there-and-back", listings.there_and_back, room),
        group("assembled", listings.assembled, room),
        Group("several", functools.partial(several.trials, inputs, room.pickles), inputs.closing),
        group("large", large.trials, room),
    ]


def of_surroundings(room: Room) -> list[AnyGroup]:
    """Inputs that lie, devices that break, files in the way, and how the program is released."""
    breaking = {name: functools.partial(room.of(name).library, "break_devices") for name in ("devices", "saves", "machines")}
    shared = room.root / "dist" / libraries.X86 / "lib/libpicklestep.so"
    cut = hostile.Hostile(str(room.program), str(shared), room.folder / "hostile")
    broken = devices.Devices(str(room.proved), breaking["devices"], room.folder / "devices")
    saved = saves.Saves(str(room.proved), breaking["saves"], room.folder / "saves")
    released = releases.Releases(room.root, room.program, room.folder / "releases")
    others = machines.Machines(room.root, room.proved, room.folder / "machines", room.pickles, breaking["machines"])
    linked = libraries.Libraries(room.root, room.proved, room.folder / "libraries", room.pickles)
    loaded = loads.Loads(str(room.program), room.folder / "loads")
    return [
        Group("loaders", functools.partial(loader_trials, loaded, room), loaded.closing),
        Group("hostile", functools.partial(hostile.trials, cut), cut.closing, begin=hostile.limit_stack),
        packages.Package(str(room.program), room.folder / "python"),
        Group("devices", functools.partial(devices.trials, broken), broken.closing),
        Group("saves", functools.partial(saves.trials, saved), saved.closing),
        Group("release", functools.partial(releases.trials, released), released.closing),
        Group("machines", functools.partial(machines.trials, others), others.closing),
        Group("made", functools.partial(machines.making, others)),
        Group("library", functools.partial(libraries.trials, linked), linked.closing),
        Group("wheels", functools.partial(wheels.trials, wheels.Wheels(room.root, room.program, room.folder / "wheels"))),
        group("random", random_trials, room),
    ]


def in_order(room: Room) -> list[AnyGroup]:
    """Memory comes last, when nothing else runs."""
    own = room.of("memory")
    of_memory = Group("memory", functools.partial(memory.trials, own), begin=functools.partial(memory.prepare, own), lanes=processors())
    return [*of_program(room), *of_pickles(room), *of_surroundings(room), of_memory]
