"""Has the loaders of other libraries load pickles, and looks for the lines of what they import and call: what docs/why/loaders.md says of each.

other_loaders.py runs the library, in the first Python that has it. What is known to have no line is said here, act by act, and how each loader
reads frames.
"""

from __future__ import annotations

import functools
import json
import os
import pathlib
import subprocess
import sys
from collections.abc import Sequence
from typing import Any, Optional

from loads import CALLS, ROOT, Loads, is_import, is_text
from picklestep.answers import Calls
from picklestep.records import Global, Reach
from trials.trial import Lack, Noted, Skip, Trial

# Those that equipment/install_servers installs, and those that a machine may have.
INSTALLED = ("celery", "cloudpickle", "dill", "django", "joblib", "numpy", "pandas")
OTHERS = ("torch", "zarr")
# Which shapes of other_loaders.py a loader goes on in, by how it reads frames.
BYTES = ("plain", "crossed as from bytes")
BUFFER = ("plain", "crossed as a buffer")
SHOWS_SOME = ("plain", "crossed as from bytes", "crossed as a buffer")
EACH_BY_ITSELF = ("plain",)
FRAMES: dict[str, dict[str, tuple[str, ...]]] = {
    "celery": {"": BUFFER}, "dill": {"loads, ": BUFFER, "load of a file, ": SHOWS_SOME},
    "django": {"file, time, ": SHOWS_SOME, "file, value, ": BYTES, "session, ": BYTES}, "joblib": {"": EACH_BY_ITSELF},
    "numpy": {"": SHOWS_SOME}, "pandas": {"": SHOWS_SOME}, "torch": {"": BUFFER, "old form, ": SHOWS_SOME}, "zarr": {"": BYTES},
}
ACT = [["import", "noted", "act"], ["call", "noted", "act"]]
OFFSET = [["import", "builtins", "int"], ["import", "noted", "Offset"]]
CHANGED = ["changed", "", ""]
# What has no line. (pandas loads again, and joblib reads on behind an array that `calls` takes for opcodes.)
WITHOUT = {
    ("dill", "the class of what comes of it"): [CHANGED], ("dill", "the dictionary of __main__"): [CHANGED],
    ("joblib", "a table that is changed"): ACT, ("joblib", "an act behind an array"): ACT,
    ("pandas", "a call that raises TypeError"): [*OFFSET, ["new", "noted", "Offset"]],
    ("pandas", "a module that is not there"): [*ACT, ["import", "no_such_module", "x"]], ("pandas", "a text of Python 2"): ACT,
}
REFUSED = {("celery", "not accepted"), ("numpy", "not allowed"), ("torch", "weights_only")}
Act = Sequence[str]


def python_with(library: str) -> Optional[str]:
    """The first Python that has a library: the one that runs this, or the system's."""
    for python in (sys.executable, "/usr/bin/python3"):
        words = [python, "-c", f"import {library}; {library}.__file__.strip()"]  # (a folder of this name alone has no file)
        if os.path.exists(python) and subprocess.run(words, capture_output=True, check=False).returncode == 0:
            return python
    return None


def _is_line(reach: Reach, act: Act) -> bool:
    what, module, name = act
    if what == "import":
        return reach.what == "import" and is_import(reach, module, name, None)
    named = reach.name
    return reach.what in CALLS and isinstance(named, Global) and is_text(named.module, module) and is_text(named.name, name)


def without_lines(calls: bytes, acts: Sequence[Act]) -> list[Act]:
    """The acts that have no line, in an order in which as many as possible have one before."""
    answer = Calls(calls)
    lines = [*answer, *(reach for part in answer.parts for reach in part)]
    left: list[Act] = []
    at = 0
    for act in acts:
        found = next((place for place in range(at, len(lines)) if _is_line(lines[place], act)), None)
        if found is None:
            left.append(act)
        else:
            at = found + 1
    return left


def faults(loads: Loads, library: str, rows: Sequence[dict[str, Any]]) -> list[str]:
    """What of the loads of a library is not as the page says."""
    found = []
    has_acted = set()
    for row in rows:
        calls = loads.calls(bytes.fromhex(row["data"]), [])
        wanted = WITHOUT.get((library, row["name"]), [])
        left = without_lines(calls, row["done"])
        if left != wanted:
            found.append(f"{row['name']}: without a line are {left} and not {wanted}")
        is_shape = row["name"].split(", ")[-1] in SHOWS_SOME  # (of these it is tried below in which something is done)
        if not is_shape and ((library, row["name"]) in REFUSED) == bool(row["done"]):
            found.append(f"{row['name']}: done is {row['done']}")
        if row["done"]:
            has_acted.add(row["name"])
    for begin, shapes in FRAMES.get(library, {}).items():
        tried = [row["name"] for row in rows if row["name"].startswith(begin) and row["name"][len(begin):] in SHOWS_SOME]
        acted = [name[len(begin):] for name in tried if name in has_acted]
        if tried and acted != list(shapes):
            found.append(f"{begin or 'it'} goes on in {acted} and not in {list(shapes)}")
    return found


def try_library(loads: Loads, library: str) -> Noted:
    python = python_with(library)
    if python is None:
        raise (Lack if library in INSTALLED else Skip)(f"no Python here has {library}")
    loads.folder.mkdir(parents=True, exist_ok=True)
    words = [python, "-B", str(ROOT / "equipment" / "other_loaders.py"), library, str(loads.folder / library)]
    done = subprocess.run(words, capture_output=True, text=True, check=False, timeout=600)
    if done.returncode != 0:
        return Noted(f"it ended with status {done.returncode}: {done.stderr.strip()[-300:]}", "")
    told = json.loads(done.stdout)
    return Noted("; ".join(faults(loads, library, told["rows"])), f": {len(told['rows'])} loads, {library} {told['version']}, Python {told['python']}")


def trials(loads: Loads) -> list[Trial]:
    return [Trial(f"the loader of {library}", functools.partial(try_library, loads, library)) for library in (*INSTALLED, *OTHERS)]


def main(program: str, folder: pathlib.Path) -> int:
    """Tries all libraries."""
    loads = Loads(program, folder)
    is_right = True
    for trial in trials(loads):
        try:
            noted = trial.run()
        except Skip as lack:
            noted = Noted("", f": {lack}")
        assert isinstance(noted, Noted)
        print(f"{trial.name}{noted.note} {noted.why}", flush=True)
        is_right = is_right and not noted.why
    return 0 if is_right else 1


if __name__ == "__main__":
    sys.exit(main(sys.argv[1], pathlib.Path(sys.argv[2])))
