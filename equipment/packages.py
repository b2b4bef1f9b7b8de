"""Tries the Python package: builds its wheel, installs it into a fresh environment without a network, and runs its tests there.

The wheel carries the released program and the library, or the program that is tried where that is not the released one. Where
setuptools and wheel are not there, the tests run from the source tree. They run in another interpreter, which starts this file:

    packages.py --names                  writes the names of the tests
    packages.py --run LINES NAME..       runs these tests (a name may be that of a class); LINES gets for each its name, a tab, a note, a tab,
                                         and what is wrong or nothing. Before the names, --skip FILE has the beginnings of names of tests that
                                         are skipped, each with a tab and the reason
    packages.py --share LINES FOLDER     runs all tests together with other interpreters that are given the same folder, which is empty at
                                         first: each takes the next module that no other took
"""

from __future__ import annotations

import contextlib
import filecmp
import os
import shutil
import subprocess
import sys
import unittest
from collections.abc import Iterable, Iterator, Set
from concurrent.futures import ThreadPoolExecutor
from dataclasses import dataclass
from pathlib import Path
from typing import Any, Dict, List, Optional, TextIO, Tuple

from trials.trial import Verdict

ROOT = Path(__file__).resolve().parent.parent
SOURCES = ROOT / 'python'
RELEASED = ROOT / 'dist' / 'linux-x86_64-static' / 'picklestep'
LICENCES = ('LICENSE-MIT', 'LICENSE-APACHE', 'THIRD-PARTY')
# The modules of tests that take longest.
LONGEST = ('test_entrance', 'test_stores_servers', 'test_stores_files', 'test_scan_reach', 'test_mending', 'test_opener', 'test_policy',
           'test_shell', 'test_gating', 'test_gate', 'test_scan_hostile', 'test_scan_runs')
MOST_SECONDS = 600
# All tests of the package together, on a machine that has much else to do.
MOST_SECONDS_OF_TESTS = 3 * 3600
WHEEL = 'python: the wheel is built and installed'
TYPES = 'python: mypy --strict'
NO_BUILDER = 'there is no setuptools, wheel and pip (equipment/install_targets)'


class Lines(unittest.TestResult):
    """Writes a line for each test."""

    def __init__(self, out: TextIO) -> None:
        super().__init__()
        self.out = out
        self.faults: Dict[str, str] = {}
        self.notes: Dict[str, str] = {}

    def addSubTest(self, test: unittest.TestCase, subtest: unittest.TestCase, err: Any) -> None:
        super().addSubTest(test, subtest, err)
        if err is not None:
            self.faults.setdefault(test.id(), f'{subtest.id()}: {_words(err)}')

    def addError(self, test: unittest.TestCase, err: Any) -> None:
        super().addError(test, err)
        self.faults.setdefault(test.id(), _words(err))
        if not isinstance(test, unittest.TestCase):  # (a class or a module that could not be set up has no stop of its own)
            self.stopTest(test)

    def addFailure(self, test: unittest.TestCase, err: Any) -> None:
        super().addFailure(test, err)
        self.faults.setdefault(test.id(), _words(err))

    def addSkip(self, test: unittest.TestCase, reason: str) -> None:
        super().addSkip(test, reason)
        self.notes[test.id()] = f' (skipped: {reason})'.replace('\t', ' ')

    def stopTest(self, test: unittest.TestCase) -> None:
        super().stopTest(test)
        name = test.id()
        fields = (f'python {name}', self.notes.get(name, ''), self.faults.get(name, ''))
        print('\t'.join(fields).replace('\n', ' '), file=self.out, flush=True)


def _words(err: Any) -> str:
    """What went wrong, in a line."""
    return f'{err[0].__name__}: {err[1]}'.replace('\n', ' ').replace('\t', ' ')[:300]


def tests_in(suite: Iterable[Any]) -> Iterator[unittest.TestCase]:
    for test in suite:
        if isinstance(test, unittest.TestSuite):
            yield from tests_in(test)
        else:
            yield test


def run_tests(lines: str, names: List[str], skipped: Optional[Dict[str, str]] = None) -> None:
    """Runs tests of the package in this interpreter, without those whose names begin as the skipped ones."""
    suite = _loaded({name.split()[1].split('.')[0] for name in names})
    wanted = tuple(f'{name}.' for name in names)
    suite = unittest.TestSuite(test for test in tests_in(suite) if f'python {test.id()}.'.startswith(wanted))
    with open(lines, 'w', encoding='utf-8', errors='backslashreplace') as out, contextlib.redirect_stdout(sys.stderr):
        result = Lines(out)
        if skipped:
            suite = unittest.TestSuite(test for test in tests_in(suite) if not _is_skipped(test, skipped, result))
        suite.run(result)


def share_tests(lines: str, taken: str) -> None:
    """Runs the tests of each module that no other interpreter took. Those that take longest come first."""
    sys.path.insert(0, str(SOURCES / 'tests'))
    modules = sorted(path.stem for path in (SOURCES / 'tests').glob('test_*.py'))
    with open(lines, 'w', encoding='utf-8', errors='backslashreplace') as out, contextlib.redirect_stdout(sys.stderr):
        result = Lines(out)
        for module in sorted(modules, key=lambda module: LONGEST.index(module) if module in LONGEST else len(LONGEST)):
            with contextlib.suppress(FileExistsError):
                (Path(taken) / module).mkdir()
                unittest.defaultTestLoader.loadTestsFromName(module).run(result)


def _loaded(modules: Set[str]) -> unittest.TestSuite:
    """The tests of these modules (to read all files takes longer than most tests). All where one is no file of tests: examples have the names
    of modules of the package, and what cannot be read has that of one of Python."""
    tests = SOURCES / 'tests'
    if not all((tests / f'{module}.py').is_file() for module in modules):
        return unittest.defaultTestLoader.discover(str(tests))
    sys.path.insert(0, str(tests))
    return unittest.defaultTestLoader.loadTestsFromNames(sorted(modules))


def _is_skipped(test: unittest.TestCase, skipped: Dict[str, str], result: Lines) -> bool:
    """Whether a test is skipped, which is written then."""
    reason = next((reason for name, reason in skipped.items() if f'{test.id()}.'.startswith(f'{name}.')), None)
    if reason is not None:
        result.addSkip(test, reason)
        result.stopTest(test)
    return reason is not None


def print_names() -> None:
    for test in tests_in(unittest.defaultTestLoader.discover(str(SOURCES / 'tests'))):
        print(f'python {test.id()}')


def builder() -> Optional[str]:
    """An interpreter that can build and install a wheel."""
    for python in (sys.executable, '/usr/bin/python3'):
        if subprocess.run([python, '-c', 'import setuptools, wheel, venv, pip'], stdout=subprocess.DEVNULL, stderr=subprocess.DEVNULL,
                          env=own_environment(), check=False).returncode == 0:
            return python
    return None


def own_environment() -> Dict[str, str]:
    """The environment without what would lead a test to another package or program."""
    return {name: value for name, value in os.environ.items() if name not in ('PYTHONPATH', 'PICKLESTEP_PROGRAM')}


def from_sources(program: str) -> Dict[str, str]:
    """What an interpreter is given that reads the package from the source tree."""
    return {'PYTHONPATH': str(SOURCES), 'PICKLESTEP_PROGRAM': program, 'PYTHONDONTWRITEBYTECODE': '1'}


def call(words: List[str], folder: Path, seconds: int = MOST_SECONDS, **environment: str) -> str:
    """Runs a command, and says what was wrong with it."""
    with open(folder / 'log', 'ab') as log:
        try:
            status = subprocess.run(words, cwd=folder, env={**own_environment(), **environment}, stdin=subprocess.DEVNULL, stdout=log, stderr=log,
                                    timeout=seconds, check=False).returncode
        except (OSError, subprocess.TimeoutExpired) as error:
            return str(error).replace('\n', ' ')
    return '' if status == 0 else f'status {status}: ' + ' | '.join((folder / 'log').read_text(errors='replace').splitlines()[-5:])


def is_released(program: str) -> bool:
    """Whether the program that is tried is the released one."""
    return RELEASED.is_file() and filecmp.cmp(program, RELEASED, shallow=False)


def install(python: str, program: str, folder: Path) -> Tuple[str, str]:
    """Builds the wheel and installs it. Answers the interpreter that has it, and what was wrong."""
    shutil.copytree(SOURCES, folder / 'sources', ignore=shutil.ignore_patterns('__pycache__', 'tests', 'build', '*.egg-info'))
    for name in LICENCES:
        shutil.copy(ROOT / name, folder)
    environment = {} if is_released(program) else {'PICKLESTEP_PROGRAM': program}
    # The wheel looks for the released files next to its sources.
    shutil.copytree(ROOT / 'dist', folder / 'dist')
    installed = str(folder / 'environment' / 'bin' / 'python')
    wheels = folder / 'wheels'
    pip = [python, '-m', 'pip', '--disable-pip-version-check', '-q']
    why = call([*pip, 'wheel', '--no-index', '--no-deps', '--no-build-isolation', '-w', str(wheels), str(folder / 'sources')], folder, **environment)
    # (Dask, rich and the like are looked for where the system has them; the tests of what needs them are skipped elsewhere)
    why = why or call([python, '-m', 'venv', '--without-pip', '--system-site-packages', str(folder / 'environment')], folder)
    why = why or call([*pip, '--python', installed, 'install', '--no-index', '--no-deps', *map(str, wheels.glob('*.whl'))], folder)
    return installed, why


def check_types(folder: Path) -> str:
    """What mypy says of the package, where there is one."""
    words = ['--strict', '--config-file', str(SOURCES / 'pyproject.toml'), '--cache-dir', str(folder / 'types')]
    return call(['mypy', *words, str(SOURCES / 'picklestep')], folder)


@dataclass
class Package:
    """The group of trials of the package. The tests run in interpreters of an environment, which the wheel is installed into."""

    program: str
    folder: Path
    name: str = 'python'
    lanes: int = 2  # how many interpreters share the tests

    def names(self) -> List[str]:
        words = [sys.executable, str(Path(__file__).resolve()), '--names']
        done = subprocess.run(words, env={**own_environment(), **from_sources(self.program)}, stdin=subprocess.DEVNULL,
                              stdout=subprocess.PIPE, text=True, timeout=MOST_SECONDS, check=True)
        return [WHEEL, *done.stdout.splitlines(), TYPES]

    def verdicts(self, wanted: Optional[Set[str]]) -> Iterator[Verdict]:
        self.folder.mkdir()
        python, interpreter, why = builder(), '', NO_BUILDER
        if python is not None:
            interpreter, why = install(python, self.program, self.folder)
        if wanted is None or WHEEL in wanted:
            yield Verdict(WHEEL, WHEEL, why, is_skipped=python is None, is_lacking=python is None)
        tests = sorted(name for name in wanted or () if name.startswith('python '))
        if wanted is None or tests:
            yield from self.tests('' if why else interpreter, tests, why or 'it is installed')
        if wanted is None or TYPES in wanted:
            found = check_types(self.folder) if shutil.which('mypy') else 'there is no mypy'
            yield Verdict(TYPES, TYPES, found, is_skipped=not shutil.which('mypy'))

    def tests(self, interpreter: str, names: List[str], place: str) -> Iterator[Verdict]:
        """Runs tests where the wheel is installed, or from the source tree; without names all, and counts them."""
        environment = {'PYTHONDONTWRITEBYTECODE': '1'} if interpreter else from_sources(self.program)
        files = [self.folder / f'lines{number}' for number in range(1 if names else self.lanes)]
        start = [interpreter or sys.executable, str(Path(__file__).resolve())]
        (self.folder / 'taken').mkdir()
        tasks = [['--run', str(file), *names] if names else ['--share', str(file), str(self.folder / 'taken')] for file in files]
        with ThreadPoolExecutor(len(tasks)) as pool:
            faults = pool.map(lambda task: call([*start, *task], self.folder, MOST_SECONDS_OF_TESTS, **environment), tasks)
        why = next(filter(None, faults), '')
        tested = [line for file in files if file.exists() for line in file.read_text(encoding='utf-8').splitlines()]
        for line in sorted(tested, key=_module_of):
            name, note, fault = line.split('\t', 2)
            yield Verdict(name, name + note, fault)
        if why or not tested:
            yield Verdict(self.name, f'{self.name}: the tests end', why or 'nothing was tried')
        elif not names:
            where = 'the installed wheel' if interpreter else f'the source tree, since {place}'
            yield Verdict(self.name, f'{len(tested)} tests of the Python package in {where}, by packages.py', '')


def _module_of(line: str) -> str:
    return line.split()[1].split('.')[0]


if __name__ == '__main__':
    if sys.argv[1] == '--names':
        print_names()
    elif sys.argv[1] == '--share':
        share_tests(*sys.argv[2:])
    elif sys.argv[3:4] == ['--skip']:
        rows = Path(sys.argv[4]).read_text(encoding='utf-8').splitlines()
        run_tests(sys.argv[2], sys.argv[5:], dict((name, reason) for name, _, reason in (row.partition('\t') for row in rows)))
    else:
        run_tests(sys.argv[2], sys.argv[3:])
