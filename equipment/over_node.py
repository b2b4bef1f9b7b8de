"""Runs the tests of the package over the module in Node, in interpreters that hide what another system has not (python/tests/lesser).

    python3 -B equipment/over_node.py [--system windows | macos] [--alone] [--gate] [CLASS..]

Without classes all of them. Each module (or each class `--alone`, or that is named) is an interpreter of its own, at most four at once; each
prints how many of its tests passed, were skipped and failed, and its processor time. What cannot run there is in `NOT_THERE`, with its reason. The
gate runs a sample of the others, in as few interpreters as run at once, and so does this with `--gate`. A test is in the sample where it names what
no test before it named: a word, an option or a code. Status 1 where a test failed.
"""

from __future__ import annotations

import argparse
import ast
import os
import re
import shutil
import subprocess
import sys
import tempfile
import threading
from collections.abc import Iterator
from concurrent.futures import ThreadPoolExecutor
from dataclasses import dataclass
from pathlib import Path

from packages import ROOT, own_environment

# Beginnings of names of tests.
NOT_THERE = {
    "test_entrance.Streams": "they are opened and closed by a shell of POSIX",
    "test_gate.Files": "a clone starts the program of Linux",
    "test_library.InProcess.test_a_small_pickle_takes_microseconds": "the speed is that of the native library",
    "test_other_systems": "it starts such interpreters itself",
    "test_runs.Errors.test_the_newer_program_of_a_source_tree": "the program is that of Linux",
    "test_runs.Errors.test_a_program_that_ends_by_a_signal": "Windows ends no program by a signal",
    "test_runs.NothingLeft.test_after_a_kill_of_the_interpreter": "only Linux ends what neither reads nor writes",
    "test_runs.Opened": "Windows has no /dev/fd",
    "test_runs.Sources.test_without_files_in_memory": "no file is in memory there",
    "test_scan_hostile.HostileFolders.test_a_fifo_that_is_named": "Windows has no FIFOs",
    "test_scan_hostile.HostileFolders.test_each_ends_in_a_line_of_its_own": "Windows has no FIFOs",
    "test_scan_runs.Opened.test_each_is_looked_at": "Windows has no /dev/fd",
    "test_scan_runs.Runs.test_ctrl_c": "only Linux ends what neither reads nor writes",
    "test_sessions.Edits.test_saving_into_what_is_open": "Windows has no /dev/fd",
    "test_source_alone": "the page is a browser's; what it is compared with is tried by test_source",
    "test_stores_forms.Hdf5.test_memory_is_bounded": "Windows has no such limit",
    "test_stores_changes": "servers of Linux are started and stopped by signals",
    "test_stores_columns": "servers of Linux are started",
    "test_stores_docs.Examples.test_memcached": "servers of Linux are started",
    "test_stores_docs.Examples.test_mysql": "servers of Linux are started",
    "test_stores_docs.Examples.test_postgresql": "servers of Linux are started",
    "test_stores_docs.Examples.test_redis": "servers of Linux are started",
    "test_stores_files.SqliteFiles.test_copies_have_no_names": "Windows keeps the name of an open file",
    "test_stores_servers": "servers of Linux are started",
    "test_stores_tls": "servers of Linux are started",
    "test_stores_vanish": "servers of Linux are started",
    "test_view.Running.test_nothing_is_left_after_a_signal": "Windows has no SIGHUP",
    "test_view_alone": "the page is a browser's, and asks no program",
    "test_view_browser": "the page is a browser's; its server is tried by test_view",
    "test_view_worker": "the worker is a browser's, and asks no program",
}
# Beginnings of what is in no sample, with the processor seconds that it takes: rules of Python alone, which are the same on each machine
# where the answers are (others try that), and terminals and clusters, which Windows has not.
DEAR = {
    "test_answers.CallLines.test_the_offset_of_a_refused_opcode": 5,
    "test_answers.Parts": 7,
    "test_answers.RealPickles": 7,
    "test_closing.ClosingLines.test_real_pickles": 13,
    "test_compare": 16,
    "test_document.Objects.test_real_pickles": 20,
    "test_entrance.Words.test_names_that_look_like_options": 8,
    "test_library.Scan.test_what_takes_more_memory_is_asked_of_the_program": 8,
    "test_mending.Crooked.test_many_open_marks": 4,
    "test_mending.Crooked.test_several_pickles": 17,
    "test_mending.Cuts": 20,
    "test_renames": 41,
    "test_runs.Answers": 4,
    "test_runs.Errors.test_many_open_marks": 6,
    "test_scan.Containers.test_long_lines": 27,
    "test_scan_arrays": 12,
    "test_scan_gate.Evasions": 9,
    "test_scan_gate.Whole": 10,
    "test_scan_honest": 19,
    "test_scan_hostile.Bombs.test_a_long_name_that_is_called_again_and_again": 3,
    "test_scan_hostile.Bombs.test_honest_files_are_read_once": 7,
    "test_scan_hostile.HostileZip": 6,
    "test_scan_runs.Cluster": 38,
    "test_scan_runs.Runs.test_a_worker_that_dies_at_one_of_many_small_files": 9,
    "test_sets": 12,
    "test_shell.AtATerminal": 38,
    "test_shell.Words.test_a_cut_pickle_with_a_frame": 2,
    "test_shell.Words.test_breaks_come_back_with_their_opcodes": 11,
    "test_shell.Words.test_edits_behind_a_refused_opcode": 5,
    "test_shell.Words.test_explained_where_it_is_refused": 5,
    "test_shell.Words.test_frames_that_do_not_fit": 4,
    "test_shell.Words.test_refused_opcodes_and_cut_files": 2,
    "test_shell.Words.test_the_cursor_stays_at_its_opcode": 2,
    "test_shell.Words.test_what_is_known_after_edits": 20,
    "test_shell.Words.test_who": 4,
    "test_shell_unread": 35,
    "test_source.Equality": 28,
    "test_source.Large": 5,
    "test_source.Real": 7,
    "test_stores_behind": 26,
    "test_stores_files.Bytes": 110,
    "test_stores_files.Libraries": 33,
}
HELP, TESTS = ROOT / "python/picklestep/help", ROOT / "python/tests"
NAMED = re.compile(r"--[a-z][a-z-]+|\b[CEFSUVX]\d+\b")
# (the clock counts as processor time there: with more of them than processors, files would be noted for their time)
AT_ONCE = min(4, os.cpu_count() or 1)
SECONDS = 7200


@dataclass(frozen=True)
class Tried:
    """What became of the tests of a module or a class, and the processor time that they took."""

    name: str
    passed: int
    skipped: int
    faults: tuple[str, ...]
    seconds: float

    def __str__(self) -> str:
        return f"{self.name}: {self.passed} passed, {self.skipped} skipped, {len(self.faults)} failed, {self.seconds:.0f} s"


def prepare(interpreter: Path) -> None:
    """Lets the interpreter of an environment hide what another system has not, and has Node there by the name that Windows gives it."""
    (packages,) = interpreter.parent.parent.glob("lib/python*/site-packages")
    shutil.copy(ROOT / "python/tests/lesser/lesser_system.py", packages)
    (packages / "lesser_system.pth").write_text("import lesser_system\n")
    subprocess.run([str(interpreter), "-m", "compileall", "-q", str(packages / "lesser_system.py")], stdout=subprocess.DEVNULL, check=True)
    (interpreter.parent / "node.exe").symlink_to(str(shutil.which("node")))


# --- The sample ---


def words_of_help() -> set[str]:
    """The words of the package, and their options."""
    pages = list(HELP.glob("*.txt"))
    return {page.stem for page in pages} | {option for page in pages for option in re.findall(r"(?m)^  (--[a-z][a-z-]+)", page.read_text("utf-8"))}


def named_by(test: ast.AST, words: set[str]) -> set[str]:
    """What the texts in the code of a test name."""
    found: set[str] = set()
    for node in ast.walk(test):
        if isinstance(node, ast.Constant) and isinstance(node.value, (str, bytes)):
            text = node.value if isinstance(node.value, str) else node.value.decode("latin-1")
            found.update(NAMED.findall(text), words & {text})
    return found


def tests_with_names() -> Iterator[tuple[str, set[str]]]:
    """Each test that can be in the sample, with what it names."""
    words = words_of_help()
    for file in sorted(TESTS.glob("test_*.py")):
        for case in ast.parse(file.read_text("utf-8")).body:
            if isinstance(case, ast.ClassDef):
                for test in (node for node in case.body if isinstance(node, ast.FunctionDef) and node.name.startswith("test")):
                    name = f"{file.stem}.{case.name}.{test.name}"
                    if not any(f"{name}.".startswith(f"{beginning}.") for beginning in (*NOT_THERE, *DEAR)):
                        yield name, named_by(test, words)


def sample() -> list[str]:
    """The tests that name something for the first time. Each word and each option of the help has to be named by one."""
    known: set[str] = set()
    chosen = []
    for name, found in tests_with_names():
        if not found <= known:
            known |= found
            chosen.append(name)
    lacking = words_of_help() - known
    if lacking:
        raise LookupError(f"no test of the sample names {', '.join(sorted(lacking))}")
    return chosen


# --- The runs ---


def classes(interpreter: Path, without: dict[str, str]) -> list[str]:
    """All classes of tests of which something is left without what has these beginnings."""
    words = [str(interpreter), "-B", str(ROOT / "equipment/packages.py"), "--names"]
    done = subprocess.run(words, env=environment(interpreter, "windows"), stdin=subprocess.DEVNULL, capture_output=True, text=True, check=True)
    found = {".".join(line.split()[1].split(".")[:2]) for line in done.stdout.splitlines()}
    return sorted(name for name in found if not any(f"{name}.".startswith(f"{beginning}.") for beginning in without))


def environment(interpreter: Path, system: str) -> dict[str, str]:
    path = f"{interpreter.parent}{os.pathsep}{os.environ.get('PATH', os.defpath)}"
    return {**own_environment(), "PYTHONDONTWRITEBYTECODE": "1", "PYTHONPATH": str(ROOT / "python/tests"), "PATH": path, "PICKLESTEP_LESSER": system}


def run_group(interpreter: Path, system: str, folder: Path, name: str, names: list[str]) -> Tried:
    """Runs classes or tests in one interpreter."""
    lines, log, skipped = (folder / f"{name}.{kind}" for kind in ("lines", "log", "skipped"))
    skipped.write_text("".join(f"{test}\t{reason}\n" for test, reason in NOT_THERE.items()))
    words = [str(interpreter), str(ROOT / "equipment/packages.py"), "--run", str(lines), "--skip", str(skipped), *(f"python {one}" for one in names)]
    with open(log, "wb") as out:
        process = subprocess.Popen(words, env=environment(interpreter, system), cwd=folder, stdin=subprocess.DEVNULL, stdout=out, stderr=out)
    status, seconds = ended(process)
    tests = [line.split("\t", 2) for line in lines.read_text("utf-8").splitlines()] if lines.exists() else []
    faults = [f"{test}: {fault}" for test, _, fault in tests if fault]
    if status != 0 or not tests:
        faults.append(f"{name}: its run ended: {status}")
    skips = sum(note.startswith(" (skipped") for _, note, _ in tests)
    return Tried(name, len(tests) - skips - sum(bool(fault) for *_, fault in tests), skips, tuple(faults), seconds)


def ended(process: subprocess.Popen[bytes]) -> tuple[int, float]:
    """The status of a process, which is killed after a while, and the processor time that it and all that it waited for took."""
    timer = threading.Timer(SECONDS, process.kill)
    timer.start()
    _, status, used = os.wait4(process.pid, 0)
    timer.cancel()
    process.returncode = os.waitstatus_to_exitcode(status)
    return process.returncode, used.ru_utime + used.ru_stime


def run_groups(interpreter: Path, system: str, folder: Path, groups: dict[str, list[str]]) -> Iterator[Tried]:
    """What became of classes or tests, each group in an interpreter of its own, as they end."""
    with ThreadPoolExecutor(AT_ONCE) as pool:
        yield from pool.map(lambda group: run_group(interpreter, system, folder, *group), groups.items())


def by_module(names: list[str]) -> dict[str, list[str]]:
    groups: dict[str, list[str]] = {}
    for name in names:
        groups.setdefault(name.split(".")[0], []).append(name)
    return groups


def in_parts(names: list[str]) -> dict[str, list[str]]:
    """As many groups as run at once, each with whole modules."""
    modules = list(by_module(names).values())
    return {f"part {number}": [name for module in modules[number::AT_ONCE] for name in module] for number in range(AT_ONCE)}


def main() -> int:
    import wheels
    parser = argparse.ArgumentParser(description="runs the tests of the package over the module in Node")
    parser.add_argument("--system", choices=("windows", "macos"), default="windows")
    parser.add_argument("names", nargs="*", metavar="CLASS")
    parser.add_argument("--alone", action="store_true", help="each class in an interpreter of its own")
    parser.add_argument("--gate", action="store_true", help="the sample that the gate runs")
    words = parser.parse_args()
    with tempfile.TemporaryDirectory() as name:
        folder = Path(name)
        interpreter = Path(wheels.Wheels(ROOT, ROOT / wheels.RELEASED, folder).lesser())
        failed = 0
        names = words.names or (sample() if words.gate else classes(interpreter, NOT_THERE))
        groups = {name: [name] for name in names} if words.names or words.alone else in_parts(names) if words.gate else by_module(names)
        for tried in run_groups(interpreter, words.system, folder, groups):
            print(tried, *tried.faults, sep="\n    ", flush=True)
            failed += len(tried.faults)
    return 1 if failed else 0


if __name__ == "__main__":
    sys.exit(main())
