"""Tries the wheels of each machine and the source distribution: each is built, installed into a fresh environment without a network, and
asked. Another program that is tried takes the place of the one that the wheel for its machine carries. A sample of the tests of the package
runs over the module in Node, with all hidden that other systems have not."""

from __future__ import annotations

import filecmp
import functools
import shutil
import subprocess
import zipfile
from dataclasses import dataclass
from pathlib import Path
from typing import Callable

from over_node import in_parts, prepare, run_groups, sample
from packages import LICENCES, NO_BUILDER, builder, own_environment
from trials.room import beginning
from trials.trial import Lack, Noted, Trial

MACHINES = ("linux-x86_64", "linux-aarch64", "any")
ASK = """\
import sys, picklestep
from picklestep import library, place
hostile = b'cposix\\nsystem\\n(X\\x02\\0\\0\\0idtR.'
print([reach.text for reach in picklestep.calls(hostile)], picklestep.listing(hostile)[0].name, picklestep.objects(b'0.').end.offset)
with picklestep.Session(hostile) as session:
    session.insert(0, 'NONE')
    print(session.bytes() == b'N' + hostile, picklestep.calls(hostile, timeout=600).calls, picklestep.calls(hostile, memory=64 << 20).imports)
print(library.answer(['calls'], hostile) is not None, place.find_program().rpartition('/')[2])
"""
SAID = "[\"import 'posix' 'system' as #0\", \"call 'posix' 'system' ('id') as #3\"] GLOBAL 0\nTrue 1 1\n"
SECONDS = 3600
RELEASED = "dist/linux-x86_64-static/picklestep"


@dataclass
class Wheels:
    root: Path
    program: Path
    folder: Path

    @functools.cached_property
    def python(self) -> str:
        """An interpreter that can build a wheel."""
        found = builder()
        if found is None:
            raise Lack(NO_BUILDER)
        return found

    def call(self, *words: "str | Path", at: Path | None = None, **environment: str) -> str:
        """What a command prints. One that fails is a fault of the trial."""
        done = subprocess.run(
            [str(word) for word in words],
            cwd=at or self.folder,
            env={**own_environment(), "PYTHONDONTWRITEBYTECODE": "1", **environment},
            stdin=subprocess.DEVNULL,
            capture_output=True,
            text=True,
            timeout=SECONDS,
            check=False,
        )
        if done.returncode != 0:
            raise OSError(f"{Path(str(words[0])).name}: status {done.returncode}: {' | '.join(done.stderr.splitlines()[-4:])}")
        return done.stdout

    @functools.cached_property
    def sources(self) -> Path:
        """A copy of the package's sources and of what is released."""
        copy = self.folder / "repository"
        ignored = shutil.ignore_patterns("__pycache__", "tests", "build", "*.egg-info", "bin")
        shutil.copytree(self.root / "python", copy / "python", ignore=ignored)
        shutil.copytree(self.root / "dist", copy / "dist")
        for name in LICENCES:
            shutil.copy(self.root / name, copy)
        if not filecmp.cmp(self.program, self.root / RELEASED, shallow=False):
            shutil.copy(self.program, copy / RELEASED)
        return copy / "python"

    @functools.cached_property
    def source_distribution(self) -> Path:
        self.call(self.python, "setup.py", "-q", "sdist", "-d", self.folder, at=self.sources)
        (found,) = self.folder.glob("picklestep-*.tar.gz")
        return found

    @functools.cached_property
    def unpacked(self) -> Path:
        """The sources of the source distribution."""
        shutil.unpack_archive(self.source_distribution, self.folder / "unpacked")
        (found,) = (self.folder / "unpacked").iterdir()
        return found

    @functools.cache
    def wheel(self, machine: str) -> Path:
        """The wheel for a kind of machine, built in the repository (pip would start the build several times)."""
        to = self.folder / f"wheel-{machine}"
        self.call(self.python, "setup.py", "-q", "bdist_wheel", "-d", to, at=self.sources, PICKLESTEP_MACHINE=machine)
        (found,) = to.glob("*.whl")
        return found

    @functools.cached_property
    def wheel_of_distribution(self) -> Path:
        """The wheel for this machine that pip builds of the source distribution."""
        to = self.folder / "wheel-of-distribution"
        self.pip("wheel", "--no-build-isolation", "-w", to, self.source_distribution)
        (found,) = to.glob("*.whl")
        return found

    def environment(self, name: str) -> str:
        """The interpreter of a fresh environment."""
        self.call(self.python, "-m", "venv", "--without-pip", self.folder / name)
        return str(self.folder / name / "bin/python")

    def pip(self, word: str, *words: "str | Path", options: tuple[str, ...] = ()) -> None:
        self.call(self.python, "-m", "pip", "--disable-pip-version-check", "-q", *options, word, "--no-index", "--no-deps", *words)

    def install(self, interpreter: str, wheel: Path) -> None:
        self.pip("install", wheel, options=("--python", interpreter))

    def lesser(self) -> str:
        """The interpreter of an environment with the wheel for any machine, which hides what another system has not."""
        interpreter = self.environment("env-node")
        self.install(interpreter, self.wheel("any"))
        prepare(Path(interpreter))
        return interpreter

    __hash__ = object.__hash__


def same_wheels(wheels: Wheels) -> str:
    """The wheel that pip builds of the source distribution has the files of ours for this machine. What the others carry is in it too."""
    held = {file.read_bytes() for file in wheels.unpacked.rglob("*") if file.is_file()}
    for machine in MACHINES:
        ours = contents(wheels.wheel(machine))
        lacking = [name for name in LICENCES if (wheels.root / name).read_bytes() not in [ours[file] for file in ours if file.endswith(f"/{name}")]]
        if lacking:
            return f"{machine}: it has no {', '.join(lacking)}"
        lost = [name for name, content in ours.items() if ".dist-info/" not in name and content not in held]
        if lost:
            return f"{machine}: the source distribution has no {lost[0]}"
    ours, others = (contents(wheel) for wheel in (wheels.wheel(MACHINES[0]), wheels.wheel_of_distribution))
    return f"{sorted(ours.items() ^ others.items())[0][0]} differs" if ours != others else ""


def contents(wheel: Path) -> dict[str, bytes]:
    with zipfile.ZipFile(wheel) as opened:
        return {info.filename: opened.read(info) for info in opened.infolist() if not info.filename.endswith("/RECORD")}


def installed(wheels: Wheels, machine: str, in_process: bool, program: str) -> str:
    """The wheel is installed and asked, by the package and by its command."""
    if program == "picklestep.mjs" and shutil.which("node") is None:
        raise Lack("there is no Node (equipment/install_servers)")
    interpreter = wheels.environment(f"env-{machine}")
    wheels.install(interpreter, wheels.wheel(machine))
    found = wheels.call(interpreter, "-c", ASK)
    if found != f"{SAID}{in_process} {program}\n":
        return f"it says {found!r}"
    file = wheels.folder / "none.pickle"
    file.write_bytes(b"N.")
    said = wheels.call(Path(interpreter).with_name("picklestep"), "objects", file)
    return "" if said == "#0 none\nresult #0\n" else f"the command says {said!r}"


def by_tags(wheels: Wheels, machine: str) -> str:
    """pip takes the wheel by the tags of both C libraries, and its program runs."""
    runs = [] if machine == "x86_64" else [emulator_of(machine)]
    wheel = wheels.wheel(f"linux-{machine}")
    for platform in (f"manylinux_2_17_{machine}", f"musllinux_1_1_{machine}"):
        to = wheels.folder / platform
        wheels.pip("install", "--target", to, "--platform", platform, "--only-binary=:all:", "--python-version", "3.8", wheel)
        file = wheels.folder / "none.pickle"
        file.write_bytes(b"N.")
        if wheels.call(*runs, to / "picklestep/bin/picklestep", "objects", file) != "#0 none\nresult #0\n":
            return f"{platform}: its program says something else"
        if not (to / "picklestep/bin/libpicklestep.so").is_file():
            return f"{platform}: it has no library"
    return ""


def emulator_of(machine: str) -> str:
    found = shutil.which(f"qemu-{machine}")
    if found is None:
        raise Lack(f"there is no qemu-{machine} (Debian's qemu-user: equipment/install_targets)")
    return found


def from_sources(wheels: Wheels) -> str:
    """pip builds a wheel for this machine of the source distribution, and installs it."""
    interpreter = wheels.environment("env-sources")
    wheels.install(interpreter, wheels.wheel_of_distribution)
    found = wheels.call(interpreter, "-c", ASK)
    return "" if found.startswith(SAID) else f"it says {found!r}"


def over_node(wheels: Wheels) -> Noted:
    """A sample of the tests of the package, with the wheel for any machine, and without what other systems have not."""
    if shutil.which("node") is None:
        raise Lack("there is no Node (equipment/install_servers)")
    interpreter = Path(wheels.lesser())
    tried = list(run_groups(interpreter, "windows", wheels.folder, in_parts(sample())))
    faults = [fault for one in tried for fault in one.faults]
    return Noted(beginning("; ".join(faults).encode()), f": {sum(one.passed for one in tried)} tests")


ROWS: list[tuple[str, Callable[[Wheels], "str | Noted"]]] = [
    ("wheels: from the repository and from the source distribution", same_wheels),
    ("wheels: for x86-64, installed", functools.partial(installed, machine="linux-x86_64", in_process=True, program="picklestep")),
    ("wheels: for x86-64, by its tags", functools.partial(by_tags, machine="x86_64")),
    ("wheels: for ARM, by its tags, under an emulator", functools.partial(by_tags, machine="aarch64")),
    ("wheels: for any machine, installed", functools.partial(installed, machine="any", in_process=True, program="picklestep.mjs")),
    ("wheels: the source distribution, installed", from_sources),
    ("wheels: a sample of the tests of the package over the module in Node", over_node),
]


def made(wheels: Wheels, row: Callable[[Wheels], "str | Noted"]) -> "str | Noted":
    wheels.folder.mkdir(parents=True, exist_ok=True)
    return row(wheels)


def trials(wheels: Wheels) -> list[Trial]:
    return [Trial(name, functools.partial(made, wheels, row)) for name, row in ROWS]
