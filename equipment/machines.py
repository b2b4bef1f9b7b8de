"""Tries the released programs: of the sample (sample.py) each gives, byte for byte, what the program gives that the proofs built.

The static program for x86-64 gets all that the other groups try. All released programs are compiled of the same build as it.
"""

from __future__ import annotations

import filecmp
import functools
import hashlib
import json
import os
import shutil
import subprocess
import sys
import threading
from collections.abc import Iterable, Iterator, Sequence
from concurrent.futures import ThreadPoolExecutor
from dataclasses import dataclass, field
from pathlib import Path
from random import Random
from typing import Callable, NamedTuple

import c_files
import fuzz
import saves
from roots import Root, like_alpine, put
from sample import RowRun, fault_of_sample, rows, sample_of
from trials.room import beginning, text_difference
from trials.samples import HOSTILE
from trials.trial import Lack, Noted, Trial

STATIC, ARM, MODULE, SCRIPTED = "linux-x86_64-static/picklestep", "linux-aarch64/picklestep", "picklestep.wasm", "picklestep.mjs"
BUILT = "linux-x86_64/picklestep"
LIBRARY = "linux-x86_64-library"
# What is asked of a real pickle in a conversation. (`nonsense` is refused.)
SCRIPT = b"run\nstack\nmemo\nobjects\nback\nwhere\nnonsense\ninsert 0 NONE\nitems\nundo\nquit\n"
TASKS = (
    ("list",),
    ("list", "--many"),
    ("list", "--unframed"),
    ("list", "--json"),
    ("objects",),
    ("objects", "--many"),
    ("objects", "--unframed"),
    ("calls",),
    ("calls", "--full"),
    ("calls", "--first"),
    ("calls", "--memo", "kept"),
    ("calls", "--skip", "3:2"),
    ("calls", "--json"),
    ("form",),
    ("form", "--json"),
    ("reach", "--json"),
    ("debug",),
    ("debug", "--window", "3"),
)
RANDOM = 72  # (each task four times)
AT_ONCE = 4
# (a static program of Debian's glibc or musl needs no other file: it names neither a loader nor a library)
NEEDS_OTHERS = ("INTERP", "NEEDED")
LIMITS = (8, 16, 32, 64)  # MiB
LIMITS_OF_ARM = (48, 64, 96)  # MiB of addresses in the emulator, which puts a stack and the like into the first 40
MOST_BYTES = 13_750_000


class Answer(NamedTuple):
    status: int
    output: bytes
    errors: bytes
    saved: bytes = b""


@dataclass(frozen=True)
class Asked:
    """A run that is compared: the words before the file, the file, the script of a conversation, which may save, and the list of `gate`."""

    words: tuple[str, ...]
    file: Path
    script: bytes = SCRIPT
    saves: bool = False
    listed: Path | None = None

    @property
    def given(self) -> bytes:
        return self.script if self.words[0] == "debug" else b""

    def command(self, saved: Path) -> list[str]:
        """All words, with the file that is saved to."""
        return [*self.words, *map(str, self.files), *(["--save", str(saved)] if self.saves else [])]

    @property
    def files(self) -> list[Path]:
        """What it reads."""
        return [self.file] if self.listed is None else [self.listed, self.file]


def taken(file: Path) -> bytes:
    """The content of a file that is there no more, or nothing."""
    content = file.read_bytes() if file.exists() else b""
    file.unlink(missing_ok=True)
    return content


def ask(program: list[str], asked: Asked, memory: str | None = None, root: Root | None = None) -> Answer:
    """What a program answers, which is started in a root where there is one."""
    saved = Path(f"{asked.file}.{threading.get_ident()}.saved")
    limited = [] if memory is None else ["sh", "-c", 'ulimit -v "$1"; shift; exec "$@"', "sh", memory]
    done = subprocess.run([*limited, *program, *asked.command(saved)], input=asked.given, capture_output=True, timeout=300, check=False)
    return Answer(done.returncode, done.stdout, done.stderr, taken(root.path(saved) if root else saved) if asked.saves else b"")


def put_inputs(runs: list[Asked], folder: Path, there: Path) -> Iterator[tuple[str, list[str]]]:
    """Puts what runs read into a folder, which is `there` from outside. Gives the beginning of the names of a run's files, and its words."""
    there.mkdir(parents=True, exist_ok=True)
    for number, asked in enumerate(runs):
        (there / f"{number}.in").write_bytes(asked.given)
        yield str(folder / str(number)), ["picklestep", *asked.command(folder / f"{number}.saved")]


def answers_in(there: Path, statuses: Iterable[int]) -> Iterator[Answer]:
    """The answers of such runs."""
    for number, status in enumerate(statuses):
        yield Answer(status, *(taken(there / f"{number}.{kind}") for kind in ("out", "err", "saved")))


def output_of(words: list[str], root: Root | None = None) -> bytes:
    """What a command prints, in a root if there is one. One that fails is a fault of the trial."""
    done = subprocess.run(root.start(*words) if root else words, stdin=subprocess.DEVNULL, capture_output=True, timeout=3600, check=False)
    if done.returncode != 0:
        raise OSError(f"{Path(words[0]).name}: status {done.returncode}, {beginning(done.stderr)}")
    return done.stdout


@dataclass
class Machines:
    root: Path
    program: Path
    folder: Path
    pickles: Path
    library: Callable[[], Path] = Path  # what breaks and notes calls of the system
    tasks: tuple[tuple[str, ...], ...] = TASKS
    runs: int = 0
    answers: dict[Asked, Answer] = field(default_factory=dict)

    @property
    def dist(self) -> Path:
        return self.root / "dist"

    def closing(self) -> str:
        return f"{self.runs} runs for further machines were compared, by machines.py"

    @functools.cached_property
    def some(self) -> list[Asked]:
        """Each task over another real pickle."""
        files = sorted(self.pickles.glob("*.pickle"))
        return [Asked(words, file) for words, file in zip(self.tasks, files[:: len(files) // len(self.tasks)])]

    @functools.cached_property
    def sample(self) -> list[Asked]:
        """The sample of the rows, pickles made by chance, and a few of the real pickles, which are larger."""
        return [*self.asked_of([*sample_of(rows()), *self.by_chance()]), *self.some]

    def by_chance(self) -> Iterator[RowRun]:
        """Each task with pickles that the fuzzer makes. They are the same in each run."""
        for number in range(RANDOM):
            made = fuzz.make_pickle(Random(f"1 {number}"), [])
            yield RowRun(TASKS[number % len(TASKS)], made, SCRIPT, "")

    def asked_of(self, rows: Iterable[RowRun]) -> list[Asked]:
        """These rows, with their pickles as files."""
        folder = self.folder / "rows"
        folder.mkdir(parents=True, exist_ok=True)
        made = []
        for row in rows:
            file, listed = (folder / f"{hashlib.sha256(content).hexdigest()[:16]}.{kind}" for content, kind in ((row.pickle, "pickle"), (row.allowed, "list")))
            file.write_bytes(row.pickle)
            if row.words[0] == "gate":
                listed.write_bytes(row.allowed)
            made.append(Asked(row.words, file, row.script, row.words[0] == "debug", listed if row.words[0] == "gate" else None))
        return made

    def compare(self, asked: Asked, found: Answer) -> str:
        """What is wrong with an answer."""
        self.runs += 1
        wanted = self.answers[asked]
        if found == wanted:
            return ""
        pairs = zip(found[1:], wanted[1:])
        why = next(filter(None, (text_difference(*pair) for pair in pairs)), f"status {found.status}")
        return f"{' '.join(asked.words)} {asked.file.name}: {why}, with errors that begin: {beginning(found.errors)}"

    def compare_all(self, program: list[str], runs: list[Asked], root: Root | None = None) -> Noted:
        """Each run is a process of its own, and some are there at once."""
        with ThreadPoolExecutor(AT_ONCE) as pool:
            return self.compare_answers(runs, pool.map(functools.partial(ask, program, root=root), runs))

    def compare_in(self, root: Root, program: list["str | Path"], runs: list[Asked]) -> Noted:
        """The same of a program that is started in a root."""
        return self.compare_all(root.start(*program), runs, root)

    def compare_answers(self, runs: list[Asked], answers: Iterable[Answer]) -> Noted:
        new = [asked for asked in runs if asked not in self.answers]
        with ThreadPoolExecutor(AT_ONCE) as pool:
            self.answers.update(zip(new, pool.map(functools.partial(ask, [str(self.program)]), new)))
        for asked, found in zip(runs, answers, strict=True):
            why = self.compare(asked, found)
            if why:
                return Noted(why, "")
        return Noted("", f": {len(runs)} runs")

    def in_node(self, runs: list[Asked], pages: int = 0, root: Root | None = None) -> Iterator[Answer]:
        """What the module answers, with at most so many pages of memory, and in a root where one is given."""
        node = self.tool("node", "Node 20 or later")
        folder = self.folder / "node"
        there = root.path(folder) if root else folder
        lines = [{"words": words, "at": at} for at, words in put_inputs(runs, folder, there)]
        (there / "runs.json").write_text(json.dumps({"module": str(self.dist / MODULE), "pages": pages, "runs": lines}))
        words = [node, str(self.root / "equipment/run_module.mjs"), str(folder / "runs.json")]
        return answers_in(there, json.loads(output_of(words, root)))

    def in_emulator(self, runs: list[Asked], root: Root | None = None) -> Iterator[Answer]:
        """What the program for ARM answers. Its starts are children of one process, in which the emulator has translated most of it before: else
        that is most of the time of a start."""
        folder = self.folder / "arm"
        there = root.path(folder) if root else folder
        lines = ["\t".join(["", at, *words]) for at, words in put_inputs(self.some, folder / "before", there / "before")]
        lines += ["\t".join([at, *words]) for at, words in put_inputs(runs, folder, there)]
        (there / "runs").write_text("".join(f"{line}\n" for line in lines))
        emulator, program = self.arm()
        words = [emulator, self.starter, program, str(folder / "runs")]
        return answers_in(there, map(int, output_of(words, root).split()))

    @functools.cached_property
    def starter(self) -> str:
        """start_again.c, compiled. It lies where the program does not."""
        made = self.folder / "start_again"
        made.parent.mkdir(parents=True, exist_ok=True)
        compiler = self.tool("aarch64-linux-gnu-gcc-12", "Debian's gcc-12-aarch64-linux-gnu")
        words = ("-static", "-O1", "-Wall", "-Wextra", "-Werror", "-Wl,-Ttext-segment=0x10000000")
        output_of([compiler, *words, "-o", str(made), str(self.root / "equipment/start_again.c")])
        return str(made)

    def tool(self, name: str, what: str) -> str:
        found = shutil.which(name)
        if found is None:
            raise Lack(f"there is no {name} ({what}: equipment/{'install_servers' if name == 'node' else 'install_targets'})")
        return found

    def arm(self) -> list[str]:
        return [self.tool("qemu-aarch64", "Debian's qemu-user"), str(self.dist / ARM)]

    # --- Roots with nothing else in them ---

    def new_root(self, name: str) -> Root:
        """A root with what is asked about."""
        root = Root(self.folder / "roots" / name)
        root.add(sorted({file for asked in self.sample for file in asked.files}))
        return root

    @functools.cached_property
    def empty_root(self) -> Root:
        """With the static program alone."""
        root = self.new_root("empty")
        put(self.dist / STATIC, root.at / "picklestep")
        return root

    @functools.cached_property
    def arm_root(self) -> Root:
        """With the program for ARM, what starts it again, and the emulator, which needs libraries of this machine."""
        root = self.new_root("arm")
        root.add_program(Path(self.arm()[0]))
        root.add([self.dist / ARM, Path(self.starter)])
        return root

    @functools.cached_property
    def node_root(self) -> Root:
        """With Node, which needs libraries of this machine, and the module."""
        root = self.new_root("node")
        root.add_program(Path(self.tool("node", "Node 20 or later")))
        root.add([self.dist / MODULE, self.dist / SCRIPTED, self.root / "equipment/run_module.mjs"])
        return root

    @functools.cached_property
    def alpine_root(self) -> Root:
        """With a clone that has the files as they lie here, out of which it is installed."""
        root = like_alpine(self.folder / "roots" / "alpine")
        root.add(asked.file for asked in self.some)
        clone = ["git", "-c", "safe.directory=*", "clone", "-q", str(self.root), str(root.at / "clone")]
        for words in (clone, root.start("/clone/install", "/usr/local")):
            if words is not clone:
                self.copy_files(root.at / "clone")
            done = subprocess.run(words, stdin=subprocess.DEVNULL, capture_output=True, check=False)
            if done.returncode != 0 or done.stderr:  # (there is no /dev/fd)
                raise OSError(f"{words[-2:]}: status {done.returncode}, {beginning(done.stderr)}")
        return root

    def copy_files(self, to: Path) -> None:
        """Puts the files of the working tree, which may not be committed yet, where a clone has those of its commit."""
        listed = ["git", "-c", "safe.directory=*", "-C", str(self.root), "ls-files", "-z", "--cached", "--others", "--exclude-standard"]
        for name in subprocess.run(listed, capture_output=True, text=True, check=True).stdout.split("\0")[:-1]:
            file = self.root / name
            if file.exists():
                (to / name).parent.mkdir(parents=True, exist_ok=True)
                shutil.copy2(file, to / name)
            else:
                (to / name).unlink(missing_ok=True)


def made_again(machines: Machines) -> str:
    """A program and a library, from what the proofs built, byte for byte: one of each LLVM module. (./release makes all of both, and dist/SOURCES says of
    what.) Tools of another version make others, so that nobody knows what is released: that fails."""
    sys.path.insert(0, str(machines.root / "targets"))
    import make
    folder, to = machines.folder / "modules", machines.folder / "made"
    try:
        make.check_tools()
        make.build_beside()
        with ThreadPoolExecutor() as pool:
            modules = pool.map(lambda crate: make.plain_text(make.keep_module(crate, folder), folder, crate), make.CRATES)
        maker = make.Maker(folder, *modules)
        (to / STATIC).parent.mkdir(parents=True)
        maker.make_static(to / STATIC)
        maker.make_library(make.X86, to / LIBRARY)
    except make.Fault as fault:
        if "is not installed" in str(fault):
            raise Lack(str(fault)) from fault
        return str(fault)
    files = (STATIC, *(f"{LIBRARY}/{part}" for part in make.PARTS))
    return next((f"{file} differs from that in dist" for file in files if not filecmp.cmp(to / file, machines.dist / file, shallow=False)), "")


def other_tools(machines: Machines) -> str:
    """Tools of another version are noted, also where others are missing; and so is the first that is missing."""
    stand_in = machines.folder / "tools/dpkg-query"
    stand_in.parent.mkdir(parents=True)
    for said, wanted in (("", "is not installed"), ("[ $4 != binaryen ] || echo -n 109-1", "Debian's binaryen is 109-1, and the released sums are of")):
        stand_in.write_text(f"#!/bin/sh\n{said}\n")
        stand_in.chmod(0o755)
        words = [sys.executable, "-B", machines.root / "targets/make.py", machines.folder / "tools/made"]
        done = subprocess.run(words, env={**os.environ, "PATH": f"{stand_in.parent}:/usr/bin:/bin"}, capture_output=True, check=False)
        if done.returncode != 2 or wanted not in done.stderr.decode() or done.stderr.count(b"\n") != 1:
            return f"status {done.returncode}: {beginning(done.stderr)}"
    return ""


def alone(machines: Machines, file: str) -> str:
    """Nothing else is needed to start it."""
    said = subprocess.run(["readelf", "--program-headers", "--dynamic", "--wide", machines.dist / file], capture_output=True, text=True, check=True)
    return next((f"it has {word}" for word in NEEDS_OTHERS if word in said.stdout), "")


def in_empty_root(machines: Machines) -> Noted:
    return machines.compare_in(machines.empty_root, ["/picklestep"], machines.some)


def on_alpine(machines: Machines) -> Noted:
    """As it is installed there, by its entrance and, sooner, without it; that of the clone is the same, and the program that needs glibc does
    not start."""
    root = machines.alpine_root
    refused = subprocess.run(root.start(f"/clone/dist/{BUILT}", "list"), capture_output=True, check=False)
    if refused.returncode != 127:
        return Noted(f"the root has a glibc: status {refused.returncode}, errors {beginning(refused.stderr)}", "")
    for start in ("/clone/picklestep", "/usr/local/bin/picklestep", "/usr/local/lib/picklestep/picklestep/bin/picklestep"):
        found = machines.compare_in(root, [start], machines.some)
        if found.why:
            break
    return found


def on_plain(machines: Machines) -> Noted:
    """On a processor that has only what each of x86-64 has, under an emulator; the program of the proofs, which asks for more, does not start."""
    plain = [machines.tool("qemu-x86_64", "Debian's qemu-user"), "-cpu", "qemu64"]
    refused = subprocess.run([*plain, str(machines.dist / BUILT), "list"], capture_output=True, check=False)
    if refused.returncode != 127:
        return Noted(f"the processor has more: status {refused.returncode}, errors {beginning(refused.stderr)}", "")
    return machines.compare_all([*plain, str(machines.dist / STATIC)], machines.some)


def in_arm_root(machines: Machines) -> Noted:
    """A few in a process of their own, and all in children of one."""
    root = machines.arm_root
    found = machines.compare_in(root, [*machines.arm()], machines.some)
    return found if found.why else machines.compare_answers(machines.sample, machines.in_emulator(machines.sample, root))


def in_node_root(machines: Machines) -> Noted:
    """The module, and some of them as a user starts it."""
    root = machines.node_root
    found = machines.compare_in(root, [machines.tool("node", "Node 20 or later"), machines.dist / SCRIPTED], machines.some)
    return found if found.why else machines.compare_answers(machines.sample, machines.in_node(machines.sample, root=root))


def large(machines: Machines, count: int = 1_000_000) -> Asked:
    file = machines.folder / f"large_{count}.pickle"
    if not file.exists():
        file.parent.mkdir(parents=True, exist_ok=True)
        file.write_bytes(b"\x80\x04](" + b"\x8c\x03abc\x94" * count + b"e.")
    return Asked(("objects",), file)


def is_out_of_memory(found: Answer) -> str:
    if (found.status, found.errors) == (2, b"picklestep: out of memory\n"):
        return ""
    return f"status {found.status}, errors {beginning(found.errors)}"


def memory_of_static(machines: Machines) -> str:
    for limit in LIMITS:
        why = is_out_of_memory(ask([str(machines.dist / STATIC)], large(machines), memory=str(limit << 10)))
        if why:
            return f"{limit} MiB: {why}"
    return ""


def memory_of_arm(machines: Machines) -> str:
    emulator, program = machines.arm()
    for limit in LIMITS_OF_ARM:
        why = is_out_of_memory(ask([emulator, "-R", f"{limit}M", program], large(machines)))
        if why:
            return f"{limit} MiB: {why}"
    return ""


def memory_of_module(machines: Machines) -> str:
    for limit in LIMITS:
        (found,) = machines.in_node([large(machines)], pages=limit << 4)
        why = is_out_of_memory(found)
        if why:
            return f"{limit} MiB: {why}"
    return ""


def start_differs(machines: Machines, folder: Path, words: list[str], before: Sequence[str] = (), given: bytes = b"") -> str:
    """What is wrong with picklestep.mjs as a user starts it in a folder, behind further words."""
    node = machines.tool("node", "Node 20 or later")
    found, wanted = (
        subprocess.run([*before, *program, *words], cwd=folder, input=given, capture_output=True, timeout=600, check=False)
        for program in ([node, str(machines.dist / SCRIPTED)], [str(machines.program)])
    )
    if (found.returncode, found.stdout, found.stderr) == (wanted.returncode, wanted.stdout, wanted.stderr):
        return ""
    return f"{words}: status {found.returncode}, output {beginning(found.stdout)}, errors {beginning(found.stderr)}"


def started_in_node(machines: Machines) -> str:
    """With a file that is named from the current folder."""
    machines.folder.mkdir(parents=True, exist_ok=True)
    (machines.folder / "named.pickle").write_bytes(HOSTILE)
    words = (["calls", "named.pickle"], ["list", "missing"], ["list"], ["calls", str(machines.folder / "named.pickle")], ["list", "a", "../b"])
    return next(filter(None, (start_differs(machines, machines.folder, some) for some in words)), "")


def found_in_node(machines: Machines) -> str:
    """What a path leads to through links and `..`: each file has a number of its own. No file is where a path goes up from what is no folder."""
    folder = (machines.folder / "paths").absolute()
    for number, name in enumerate(("x", "here/x", "far/x", "far/below/x", "far/\udcff/x")):
        (folder / name).parent.mkdir(parents=True, exist_ok=True)
        (folder / name).write_bytes(b"K%c." % number)
    (folder / "here/holes").write_text("0:1\n")
    (folder / "far/holes").write_text("1:1\n")
    links: dict[str, str | Path] = {
        "here/link": folder / "far/below", "here/near": "../far/below", "far/up": "../x", "far/below/up": "../x", "here/on": "near/up",
        "here/through": "link/../up", "here/round": "round", "here/bytes": "../far/\udcff", "here/none": "link/../none",
    }
    for name, target in links.items():
        (folder / name).symlink_to(target)
    names = ("x", "../x", "link/x", "link/../x", "near/../x", "near/../../x", "link/up", "link/../up", "on", "through", "round", "bytes/x",
             "bytes/../x", f"{folder}/here/link/../x", "//here/../x", "missing/../x", "x/../x", "x/.", "x/", "none", "", ".", "link/..", "/")
    words = [["list", name] for name in names]
    words += [["calls", "--skip", f"@{name}", "x"] for name in ("holes", "link/../holes", "x/../holes")]
    return next(filter(None, (start_differs(machines, folder / "here", some) for some in words)), "")


def opened_in_node(machines: Machines) -> str:
    """A file that nobody may write, a FIFO, and a pipe that has a name."""
    folder = machines.folder / "opened"
    folder.mkdir(parents=True)
    (folder / "read_only").write_bytes(HOSTILE)
    (folder / "read_only").chmod(0o444)
    os.mkfifo(folder / "fifo")
    filled = ["bash", "-c", 'cat read_only >fifo & "$@"; status=$?; wait; exit $status', "bash"]
    return (start_differs(machines, folder, ["calls", "read_only"], saves.unprivileged())
            or start_differs(machines, folder, ["calls", "fifo"], filled)
            or start_differs(machines, folder, ["calls", "/dev/stdin"], given=HOSTILE))


def is_private_meanwhile(tried: saves.Saves) -> str:
    """What a killed save leaves has the mode of the old file, so that nobody may read it who could not read that one."""
    tried.begin()
    (tried.room / "large").write_bytes(saves.payload(50_000_000))
    (tried.room / "out").write_bytes(saves.OLD)
    (tried.room / "out").chmod(0o640)
    killed = [saves.kill_in_the_middle(tried, 1) for _ in range(3)]
    modes = {f"{tried.mode_of(name):o}" for name in tried.left()}
    return "" if any(killed) and modes == {"640"} else f"{sum(killed)} were killed in the middle, and the modes are {sorted(modes)}"


def settles_before_it_renames(tried: saves.Saves) -> str:
    """What is saved has its owner and mode before its bytes, is stored before it has its name, and its folder is stored after that."""
    for mode in (None, 0o600, 0o644):
        tried.begin()
        tried.room.chmod(0o755)
        if mode is not None:
            (tried.room / "out").write_bytes(saves.OLD)
            (tried.room / "out").chmod(mode)
        run, order = saves.order_of(tried, "out")
        settled = [] if mode is None else ["fchown file 600", "fchmod file 600"]
        found = tried.mode_of("out")
        wanted = [*settled, f"write file {found:o}", f"fsync file {found:o}", "rename", "fsync folder 755"]
        why = tried.stored(run, "out") or ("" if order == wanted else f"the order is {order}")
        if why:
            return f"mode {mode}: {why}"
    return ""


# What is tried of saves over the module too. (The others cut what Node writes for itself, or break what it calls by another name.)
SAVED = (saves.keeps_modes, saves.obeys_the_mask, saves.keeps_the_owner, saves.keeps_the_group, saves.follows_links,
         saves.follows_many_links, saves.goes_up_from_links, saves.goes_round, saves.keeps_other_names, saves.takes_the_longest_name,
         saves.takes_other_folders, saves.refuses_names, saves.refuses_links_that_are_no_text, saves.writes_devices,
         saves.writes_standard_output, saves.writes_a_fifo, saves.fills_up, saves.may_not_write, saves.breaks_calls,
         saves.bears_an_unstored_folder, saves.fails_without_owner, saves.run_side_by_side, is_private_meanwhile, settles_before_it_renames)


def saved_in_node(machines: Machines) -> Noted:
    """Saves by picklestep.mjs as a user starts it."""
    machines.tool("node", "Node 20 or later")
    tried = saves.Saves(str(machines.dist / SCRIPTED), machines.library, machines.folder / "saves")
    for attempt in SAVED:
        why = attempt(tried)
        if why:
            return Noted(f"{attempt.__name__}: {why}", "")
    return Noted("", f": {tried.count} saves")


def size_of_all(machines: Machines) -> str:
    size = sum(file.stat().st_size for file in machines.dist.rglob("*") if file.is_file())
    return "" if size < MOST_BYTES else f"dist has {size} bytes"


Row = tuple[str, Callable[[Machines], "str | Noted"]]
ROWS: list[Row] = [
    ("the sample meets each word, option, opcode and code", lambda machines: fault_of_sample(machines.root)),
    ("further machines: tools of another version are noted", other_tools),
    ("further machines: dist is under 13.75 MB", size_of_all),
    ("x86-64, static: needs no other file", lambda machines: alone(machines, STATIC)),
    ("x86-64, static: each task in an empty root", in_empty_root),
    ("x86-64, static: a few real pickles on what is like an Alpine", on_alpine),
    ("x86-64, static: each task on the plainest processor, under an emulator", on_plain),
    ("x86-64, static: out of memory is an answer", memory_of_static),
    ("ARM: needs no other file", lambda machines: alone(machines, ARM)),
    ("ARM, under an emulator: the sample in a root with nothing else", in_arm_root),
    ("ARM, under an emulator: out of memory is an answer", memory_of_arm),
    ("the module in Node: as it is started", started_in_node),
    ("the module in Node: the files that paths lead to", found_in_node),
    ("the module in Node: files that may only be read, and pipes", opened_in_node),
    ("the module in Node: saves", saved_in_node),
    ("the module in Node: the sample in a root with nothing else", in_node_root),
    ("the module in Node: out of memory is an answer", memory_of_module),
]


def making(machines: Machines) -> list[Trial]:
    """This takes as long as a group: two programs are proved for it."""
    return [Trial("further machines: made again, a program and a library are the released ones", functools.partial(made_again, machines))]


def trials(machines: Machines) -> list[Trial]:
    files = c_files.trials(machines.root, machines.folder / "c_files")
    return [*(Trial(name, functools.partial(row, machines)) for name, row in ROWS), *files]
