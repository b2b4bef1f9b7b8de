"""Builds the wheels: the package with the released program and the library in it, for one kind of machine.

PICKLESTEP_MACHINE names the kind: linux-x86_64, linux-aarch64, or any, which carries the module for Node. Without it, it is that of the
machine that builds. PICKLESTEP_PROGRAM names another program to carry, which was built here. Each has the page of `view`. The source
distribution carries all of them.

Each carries the licences, with the notices of what is linked into the programs, and the name of the commit that it is made of, where git
knows it.
"""

import contextlib
import os
import platform
import shutil
import subprocess
import sys
from dataclasses import dataclass
from pathlib import Path
from typing import Dict, Iterator, List, Optional, Tuple

from setuptools import Distribution, setup
from setuptools.command.build_py import build_py
from setuptools.command.sdist import sdist
from wheel.bdist_wheel import bdist_wheel

HERE = Path(__file__).resolve().parent
# In a source distribution they are beside this file, in the repository a folder above.
RELEASED = next((folder for folder in (HERE / 'dist', HERE.parent / 'dist') if folder.is_dir()), HERE / 'dist')
TOOLCHAIN = 'linux-x86_64/TOOLCHAIN'
PAGE = 'picklestep.html'
# They too are beside this file in a source distribution, and in the repository a folder above.
LICENCES = ('LICENSE-MIT', 'LICENSE-APACHE', 'THIRD-PARTY')
COMMIT = 'COMMIT'


@dataclass(frozen=True)
class Machine:
    """A kind of machine: its tag, and the released files that a wheel for it carries, by their names there."""

    tag: str
    files: Dict[str, str]


def linux(machine: str, program: str) -> Machine:
    """The program is static and the library names no C library, so both C libraries of Linux will do, whatever their version."""
    return Machine(f'manylinux_2_17_{machine}.musllinux_1_1_{machine}',
                   {'picklestep': program, 'libpicklestep.so': f'linux-{machine}-library/lib/libpicklestep.so', 'TOOLCHAIN': TOOLCHAIN, PAGE: PAGE})


MACHINES = {
    'linux-x86_64': linux('x86_64', 'linux-x86_64-static/picklestep'),
    'linux-aarch64': linux('aarch64', 'linux-aarch64/picklestep'),
    'any': Machine('any', {**{name: name for name in ('picklestep.mjs', 'picklestep.wasm', 'libpicklestep.wasm', PAGE)}, 'TOOLCHAIN': TOOLCHAIN}),
}


def machine_name() -> str:
    """The kind of machine that the wheel is for."""
    own = f'{platform.system().lower()}-{platform.machine()}'
    name = os.environ.get('PICKLESTEP_MACHINE') or (own if own in MACHINES else 'any')
    if name not in MACHINES:
        sys.exit(f'PICKLESTEP_MACHINE is one of {", ".join(MACHINES)}')
    return name


def own_program() -> Optional[Path]:
    """The program that is carried in place of a released one."""
    path = os.environ.get('PICKLESTEP_PROGRAM')
    return Path(path) if path else None


def carried() -> Dict[str, Path]:
    """The files that the wheel carries, by their names there."""
    program = own_program()
    if program is not None:
        files = {'picklestep': program, PAGE: RELEASED / PAGE}
        beside = program.with_name('TOOLCHAIN')
        if beside.is_file():
            files['TOOLCHAIN'] = beside
    else:
        files = {name: RELEASED / file for name, file in MACHINES[machine_name()].files.items()}
    for path in files.values():
        if not path.is_file():
            sys.exit(f'the wheel carries a released file, and {path} is not there')
    return files


def commit() -> str:
    """The commit of the sources: a source distribution has its name, a clone has git. Empty where neither says it."""
    if (RELEASED / COMMIT).is_file():
        return (RELEASED / COMMIT).read_text()
    if not (HERE.parent / '.git').exists() or shutil.which('git') is None:
        return ''
    asked = subprocess.run(['git', '-C', str(HERE.parent), 'rev-parse', '--short', 'HEAD'], capture_output=True, text=True, check=False)
    return asked.stdout if asked.returncode == 0 else ''


@contextlib.contextmanager
def licences() -> Iterator[None]:
    """Within it the licences lie beside this file, where setuptools looks for them."""
    brought = [name for name in LICENCES if not (HERE / name).is_file()]
    try:
        for name in brought:
            shutil.copyfile(HERE.parent / name, HERE / name)
        yield
    finally:
        for name in brought:
            with contextlib.suppress(FileNotFoundError):
                (HERE / name).unlink()


def platform_tag() -> str:
    """The platform of the wheel. (A program that was built here is for machines like this one.)"""
    return 'linux_x86_64' if own_program() is not None else MACHINES[machine_name()].tag


class BuildWithProgram(build_py):
    """Puts the program next to the modules."""

    def run(self) -> None:
        super().run()
        folder = Path(self.build_lib) / 'picklestep' / 'bin'
        shutil.rmtree(folder, ignore_errors=True)
        folder.mkdir(parents=True)
        for name, path in carried().items():
            shutil.copyfile(path, folder / name)
            (folder / name).chmod(0o755 if name in ('picklestep', 'picklestep.mjs') else 0o644)
        if commit():
            (folder / COMMIT).write_text(commit())


class DistributionWithProgram(Distribution):
    """A distribution that belongs to a platform, if its program does."""

    def has_ext_modules(self) -> bool:
        return platform_tag() != 'any'


class WheelForPlatform(bdist_wheel):
    """A wheel for any Python 3, on one platform."""

    def get_tag(self) -> Tuple[str, str, str]:
        return 'py3', 'none', platform_tag()


class SourcesWithPrograms(sdist):
    """The source distribution, from which each wheel can be built."""

    def make_release_tree(self, base_dir: str, files: List[str]) -> None:
        super().make_release_tree(base_dir, files)
        for file in sorted({file for machine in MACHINES.values() for file in machine.files.values()}):
            to = Path(base_dir, 'dist', file)
            to.parent.mkdir(parents=True, exist_ok=True)
            shutil.copyfile(RELEASED / file, to)
        if commit():
            Path(base_dir, 'dist', COMMIT).write_text(commit())


with licences():
    setup(distclass=DistributionWithProgram,
          cmdclass={'build_py': BuildWithProgram, 'bdist_wheel': WheelForPlatform, 'sdist': SourcesWithPrograms})
