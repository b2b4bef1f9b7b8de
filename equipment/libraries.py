"""Tries the library in each of its forms: each answer is, byte for byte, what the program prints. The examples of docs/reference/library.md run.

One form gets all rows and real pickles: the shared library for x86-64, which the package asks. The others get a sample (sample.py). Options are
asked for in all rows, and of some real pickles.
"""

from __future__ import annotations

import functools
import re
import shutil
import subprocess
import sys
from collections.abc import Iterable, Iterator
from dataclasses import dataclass, replace
from pathlib import Path
from typing import Callable

from machines import Answer, Asked, Machines, large
from sample import rows, sample_of
from trials.gate import CASES
from trials.members import CASES as MEMBERS
from trials.reach import CASES as REACHES
from trials.room import beginning
from trials.trial import Lack, Noted, Trial

TASKS = (
    ("list",),
    ("list", "--many"),
    ("objects",),
    ("objects", "--many"),
    ("calls",),
    ("calls", "--first"),
    ("calls", "--memo", "kept"),
    ("form",),
    ("form", "--json"),
    ("debug",),
    ("debug", "--many"),
    # (these are asked of the functions with options)
    ("list", "--unframed"),
    ("list", "--json"),
    ("list", "--many", "--json"),
    ("list", "--many", "--unframed", "--json"),
    ("objects", "--many", "--unframed"),
    ("objects", "--many", "--json"),
    ("calls", "--full"),
    ("calls", "--skip", "3:2"),
    ("calls", "--memo", "kept", "--skip", "3:2", "--skip", "9:40"),
    ("calls", "--json"),
    ("calls", "--first", "--json"),
    ("calls", "--full", "--json", "--skip", "3:2"),
    ("calls", "--memo", "kept", "--json", "--skip", "3:2", "--skip", "9:40"),
    ("debug", "--unframed"),
)
# What no function takes: options of another one, or that do not go together; holes that overlap, or end where no file does.
NO_TASKS = (
    ("list", "--full"),
    ("objects", "--first"),
    ("debug", "--memo", "kept"),
    ("session", "--full"),
    ("session", "--window", "1000001"),
    ("calls", "--first", "--memo", "kept", "--full"),
    ("calls", "--unframed"),
    ("calls", "--unframed", "--json"),
    ("calls", "--json", "--first", "--memo", "kept"),
    ("calls", "--json", "--skip", "5:2", "--skip", "6:1"),
    ("calls", "--skip", "5:2", "--skip", "6:1"),
    ("calls", "--skip", "5:2", "--skip", "3:1"),
    ("calls", "--skip", "1:4611686018427387904"),
    ("calls", "--skip", "18446744073709551615:1"),
)
X86, ARM, MODULE = "linux-x86_64-library", "linux-aarch64-library", "libpicklestep.wasm"
MUSL, MUSL_HEADERS, MUSL_LOADER = Path("/usr/lib/x86_64-linux-musl"), Path("/usr/include/x86_64-linux-musl"), Path("/lib/ld-musl-x86_64.so.1")
# Where Debian has the shared C library of ARM.
ARM_ROOT = Path("/usr/aarch64-linux-gnu")
# (of these lines some edit each pickle, and some are refused)
EDITS = b"insert 0 GLOBAL 6f730a6765746377640a\ngoto 1\nstep\ninsert 2 NONE\nundo\nnonsense\ndelete 3\nframe 2 2\nrun\n"
MODES = ((), ("--window", "3"), ("--many",), ("--unframed",))
# One real pickle in so many is asked about with options, and one in so many where most is known of another way.
WITH_OPTIONS, SOME = 5, 10
WAYS_OF_PAIRS = 4
WARNINGS = ("-Wall", "-Wextra", "-Werror")
OF_STOPS = {1: b"picklestep: out of memory\n", 2: b"picklestep: too large\n", 4: b"no task\n"}
SEED_OF_LAWS, CASES_OF_LAWS = 2, 400
LIMITS = (1, 1 << 16, 1 << 20, 4 << 20, 8 << 20)
LARGE = 300_000  # strings, with which no task has enough
STEPS, LIMIT_OF_STEPS = 100_000, 7 << 20  # (so much memory has a session that keeps few records of its steps enough of, and one that keeps all not)
EXAMPLE_OF_SESSION = b"edited 2\nat 4\nstack #0 #2\n0 #2 tuple (#1)\n1 #1 text 'safe'\n"
EXAMPLE = b"    0: import 'posix' 'system' as #0\n   23: call 'posix' 'system' ('id') as #3\n1 imports, 1 calls\n"


@dataclass
class Libraries(Machines):
    """The forms of the library. `asker` is made once for each way to link it."""

    tasks: tuple[tuple[str, ...], ...] = TASKS

    def closing(self) -> str:
        return f"{self.runs} answers of the library were compared, by libraries.py"

    def call(self, *words: "str | Path", given: bytes = b"", **environment: str) -> bytes:
        """What a command prints. One that fails is a fault of the trial."""
        self.folder.mkdir(parents=True, exist_ok=True)
        done = subprocess.run([str(word) for word in words], cwd=self.folder, input=given, capture_output=True, timeout=3600, env=environment or None)
        if done.returncode != 0:
            raise OSError(f"{Path(str(words[0])).name}: status {done.returncode}, {beginning(done.stderr)}")
        return done.stdout

    def compiled(self, name: str, compiler: str, *words: "str | Path") -> Path:
        """ask_library.c, compiled and linked by these words."""
        made = self.folder / name
        if not made.exists():
            self.call(self.tool(compiler, "a compiler"), "-O1", *WARNINGS, "-o", made, self.root / "equipment/ask_library.c", *words)
        return made

    def asked(self, command: list["str | Path"], runs: list[Asked], most: int = 0) -> Iterator[Answer]:
        """What the library answers, in one process that holds at most so many bytes for each of them."""
        folder = self.folder / "answers"
        folder.mkdir(parents=True, exist_ok=True)
        lines = []
        for number, run in enumerate(runs):
            (folder / f"{number}.script").write_bytes(run.script)
            lines.append(f"{' '.join(run.words)}\t{most}\t{run.file}\t{folder / str(number)}\t{folder / str(number)}.script\n")
        said = self.call(*command, given="".join(lines).encode()).decode().splitlines()
        for number, line in enumerate(said):
            answer, status = map(int, line.split())
            yield Answer(2, b"", OF_STOPS[answer]) if answer else Answer(status, (folder / str(number)).read_bytes(), b"")

    @functools.cached_property
    def real(self) -> list[Asked]:
        """Each function over each real pickle, and with options over some."""
        files = sorted(self.pickles.glob("*.pickle"))
        return [Asked(words, file) for number, file in enumerate(files) for words in self.tasks if len(words) == 1 or number % WITH_OPTIONS == 0]

    @functools.cached_property
    def rows(self) -> list[Asked]:
        """The rows that the library has a function for."""
        return [replace(asked, saves=False) for asked in self.asked_of(row for row in rows() if row.words in TASKS)]

    @functools.cached_property
    def sample(self) -> list[Asked]:
        """A sample of these rows, and a few of the real pickles, which are larger."""
        chosen = self.asked_of(sample_of(row for row in rows() if row.words in TASKS))
        return [*(replace(asked, saves=False) for asked in chosen), *self.some]

    def sessions(self, is_whole: bool) -> tuple[list[Asked], list[Answer], list[Asked]]:
        """Conversations about some real pickles in each mode, and where all are asked about the others in two: what the program is asked, what it saves
        after each, and what the library is asked for both."""
        out = self.folder / "saved.pickle"
        talks: list[Asked] = []
        saved: list[Answer] = []
        runs: list[Asked] = []
        for number, file in enumerate(sorted(self.pickles.glob("*.pickle"))):
            for modes in MODES if number % SOME == 0 else MODES[:2] if is_whole else ():
                done = subprocess.run([self.program, "debug", *modes, file, "--save", out], input=EDITS, capture_output=True, timeout=300, check=False)
                talks.append(Asked(("debug", *modes), file, EDITS))
                self.answers[talks[-1]] = Answer(done.returncode, done.stdout, done.stderr)
                saved.append(Answer(0, out.read_bytes(), b""))
                runs.append(Asked(("session", *modes), file, EDITS))
        return talks, saved, runs

    def in_files(self, name: str, given: Iterable[tuple[tuple[str, ...], bytes]]) -> list[Asked]:
        """What is asked of bytes, each in a file of its own."""
        folder = self.folder / name
        folder.mkdir(parents=True, exist_ok=True)
        made = []
        for number, (words, content) in enumerate(given):
            made.append(Asked(words, folder / f"{number}.bytes"))
            made[-1].file.write_bytes(content)
        return made

    @functools.cached_property
    def at_gate(self) -> list[Asked]:
        """The lists and pickles of the trial of the gate."""
        lists = self.in_files("lists", (((), case.listed) for case in CASES))
        return self.in_files("gate", ((("gate", *json, str(listed.file)), case.pickle) for listed, case in zip(lists, CASES) for json in ((), ("--json",))))

    @functools.cached_property
    def of_reach(self) -> list[Asked]:
        """The bytes of the trial of what is reached."""
        return self.in_files("reach", ((("reach", *case.options, *json), case.given) for case in REACHES for json in ((), ("--json",))))

    @functools.cached_property
    def of_members(self) -> list[Asked]:
        """The bytes of the trial of the members of archives."""
        return self.in_files("members", ((("members", *json), case.given) for case in MEMBERS for json in ((), ("--json",))))

    @functools.cached_property
    def of_pairs(self) -> list[Asked]:
        """Real pickles that are compared with themselves, and with others."""
        files = sorted(self.pickles.glob("*.pickle"))
        pairs = [(one, other) for one, next_one in zip(files, files[1:]) for other in (one, next_one)]
        return [Asked(("same", *json, *many, str(one)), other) for one, other in pairs for many in ((), ("--many",)) for json in ((), ("--json",))]

    @functools.cached_property
    def of_some_pairs(self) -> list[Asked]:
        """Some of them, in each of these ways."""
        return [asked for number, asked in enumerate(self.of_pairs) if number // WAYS_OF_PAIRS % SOME == 0]

    # --- The ways to link it ---

    def static(self) -> list["str | Path"]:
        at = self.dist / X86
        return [self.compiled("static", "cc", f"-I{at / 'include'}", at / "lib/libpicklestep.a")]

    def shared(self) -> list["str | Path"]:
        """By pkg-config, from where it stands."""
        at = self.dist / X86 / "lib"
        flags = self.call(self.tool("pkg-config", "Debian's pkg-config"), "--cflags", "--libs", "picklestep", PKG_CONFIG_PATH=str(at / "pkgconfig"))
        return [self.compiled("shared", "cc", *flags.decode().split(), f"-Wl,-rpath,{at}")]

    def musl(self) -> list["str | Path"]:
        return [self.with_musl("musl", "-static", self.dist / X86 / "lib/libpicklestep.a", MUSL / "libc.a")]

    def musl_shared(self) -> list["str | Path"]:
        if not MUSL_LOADER.exists():
            raise Lack("there is no loader of musl (equipment/install_targets)")
        at = self.dist / X86 / "lib"
        words = (f"-Wl,-dynamic-linker,{MUSL_LOADER}", f"-Wl,-rpath,{at}", f"-L{at}", "-lpicklestep", MUSL / "libc.so")
        return [self.loads(self.with_musl("musl_shared", *words))]

    def with_musl(self, name: str, *words: "str | Path") -> Path:
        """ask_library.c, linked by these words, and with no C library but those that they name."""
        if not MUSL.is_dir():
            raise Lack("there is no musl (equipment/install_targets)")
        own = self.call("cc", "-print-file-name=include").decode().strip()
        plain = ("-nostdinc", "-isystem", MUSL_HEADERS, "-isystem", own, "-fno-stack-protector", "-nostdlib", "-no-pie", "-fno-pie")
        at = f"-I{self.dist / X86 / 'include'}"
        return self.compiled(name, "cc", *plain, at, MUSL / "crt1.o", MUSL / "crti.o", *words, MUSL / "crtn.o")

    def arm(self) -> list["str | Path"]:
        return self.with_arm("arm", "-static", self.dist / ARM / "lib/libpicklestep.a")

    def arm_shared(self) -> list["str | Path"]:
        at = self.dist / ARM / "lib"
        emulator, made = self.with_arm("arm_shared", f"-L{at}", "-lpicklestep")
        return [emulator, "-L", ARM_ROOT, "-E", f"LD_LIBRARY_PATH={at}", self.loads(Path(made))]

    def with_arm(self, name: str, *words: "str | Path") -> list["str | Path"]:
        emulator = self.tool("qemu-aarch64", "Debian's qemu-user")
        return [emulator, self.compiled(name, "aarch64-linux-gnu-gcc-12", f"-I{self.dist / ARM / 'include'}", *words)]

    def loads(self, made: Path) -> Path:
        """A program that loads the shared library. Another one is a fault of the trial."""
        if b"[libpicklestep.so]" not in self.call("readelf", "--dynamic", "--wide", made):
            raise OSError(f"{made.name} loads no libpicklestep.so")
        return made

    def module(self) -> list["str | Path"]:
        return [self.tool("node", "Node 20 or later"), self.root / "equipment/ask_library.mjs", self.dist / MODULE]

    # --- The page ---

    def example(self, language: str) -> str:
        """The code of a section of docs/reference/library.md."""
        page = (self.root / "docs/reference/library.md").read_text(encoding="utf-8")
        section = page.partition(f"\n## {language}\n")[2].partition("\n## ")[0]
        code = max(re.findall(r"(?:^(?:    .*)?\n)+", section, re.M), key=len)
        return re.sub("^    ", "", code, flags=re.M)


def functions_of(libraries: Libraries) -> str:
    """It names no other library, and has the functions of the header."""
    header = (libraries.dist / X86 / "include/picklestep.h").read_text()
    wanted = sorted(re.findall(r"^(?:uint8_t|void) (picklestep_\w+)\(", header, re.M))
    for folder in (X86, ARM):
        shared = libraries.dist / folder / "lib/libpicklestep.so"
        if b"NEEDED" in libraries.call("readelf", "--dynamic", "--wide", shared):
            return f"{folder}: it names another library"
        lines = libraries.call("readelf", "--dyn-syms", "--wide", shared).decode().splitlines()
        found = sorted(line.split()[7] for line in lines if " GLOBAL " in line and " UND " not in line)
        if found != wanted:
            return f"{folder}: it has {found}"
        if (libraries.dist / folder / "include/picklestep.h").read_text() != header:
            return f"{folder}: it has another header"
    return ""


def in_cxx(libraries: Libraries) -> str:
    """The header is one of C++ too."""
    libraries.folder.mkdir(parents=True, exist_ok=True)
    file = libraries.folder / "header.cc"
    file.write_text("#include <picklestep.h>\nint main() { picklestep_limit_memory(1); return PICKLESTEP_DONE; }\n")
    at = libraries.dist / X86
    words = (*WARNINGS, f"-I{at / 'include'}", "-o", libraries.folder / "header", file, at / "lib/libpicklestep.a")
    libraries.call(libraries.tool("c++", "a compiler of C++"), *words)
    return ""


def compared(libraries: Libraries, way: str, kind: str) -> Noted:
    """All answers of one way to link it."""
    runs: list[Asked] = getattr(libraries, kind)
    return libraries.compare_answers(runs, libraries.asked(getattr(libraries, way)(), runs))


def of_sessions(libraries: Libraries, way: str) -> "str | Noted":
    """The lines that are asked one after another of a session that stays open are answered as the program answers a script of them, and its bytes are
    then those that the program saves."""
    talks, saved, runs = libraries.sessions(way == WHOLE)
    command = getattr(libraries, way)()
    for run, wanted, found in zip(runs, saved, libraries.asked(command, [replace(run, words=("saved", *run.words[1:])) for run in runs]), strict=True):
        if found != wanted:
            return f"the bytes of {run.file.name} {' '.join(run.words)}"
    lines = [replace(talk, words=("debug", "--json", *talk.words[1:])) for talk in talks]
    asked = [replace(run, words=("session", "--json", *run.words[1:])) for run in runs]
    return libraries.compare_answers([*talks, *lines], libraries.asked(command, [*runs, *asked]))


def no_tasks(libraries: Libraries, way: str) -> str:
    """Options and holes that are none of a function are refused."""
    runs = [Asked(words, next(iter(sorted(libraries.pickles.glob("*.pickle")))), EDITS) for words in NO_TASKS]
    for run, found in zip(runs, libraries.asked(getattr(libraries, way)(), runs), strict=True):
        if found.errors != OF_STOPS[4]:
            return f"{' '.join(run.words)}: status {found.status}"
    return ""


def limits(libraries: Libraries, way: str) -> str:
    """Out of memory is an answer, and the next call is as any other (`form` takes little memory, and says that this one is in no form). All
    tasks are asked in one way, and some in the others."""
    command = getattr(libraries, way)()
    tasks = [words for words in TASKS if words[0] not in ("debug", "form") and "--skip" not in words]
    runs = [Asked(words, large(libraries, LARGE).file) for words in (tasks if way == WHOLE else tasks[::3])]
    for limit in LIMITS:
        for run, found in zip(runs, libraries.asked(command, runs, limit), strict=True):
            if found != Answer(2, b"", OF_STOPS[1]):
                return f"{limit} bytes, {' '.join(run.words)}: status {found.status}"
    return libraries.compare_answers(runs, libraries.asked(command, runs)).why


def keeps_a_window(libraries: Libraries) -> str:
    """A session keeps as many records as its window has, and all where it has none."""
    libraries.folder.mkdir(parents=True, exist_ok=True)
    file = libraries.folder / "steps.pickle"
    file.write_bytes(b"N0" * (STEPS // 2) + b"N.")
    runs = [Asked(words, file, b"step\n" * STEPS) for words in (("session", "--window", "1"), ("session",))]
    lacking = [b"refused: M" in found.output for found in libraries.asked(libraries.static(), runs, LIMIT_OF_STEPS)]
    return "" if lacking == [False, True] else f"memory runs out with a window, and without: {lacking}"


def fuzzed(libraries: Libraries) -> Noted:
    """The laws of fuzz.py, of the library in its process. The seed is always the same, and another than that of the program's."""
    fuzz = (sys.executable, "-B", libraries.root / "equipment/fuzz.py", libraries.program, libraries.folder / "fuzz")
    library = ("--library", libraries.dist / X86 / "lib/libpicklestep.so")
    limits = ("--seed", str(SEED_OF_LAWS), "--cases", str(CASES_OF_LAWS), "--pickles", libraries.pickles)
    done = subprocess.run([*fuzz, *library, *limits], capture_output=True, text=True, check=False)
    said = done.stdout.splitlines()[-1:] or ["it says nothing"]
    return Noted("" if done.returncode == 0 else said[0], f": {said[0]}")


def too_large(libraries: Libraries) -> str:
    libraries.folder.mkdir(parents=True, exist_ok=True)
    file = libraries.folder / "too_large.pickle"
    with file.open("wb") as opened:
        opened.truncate((1 << 30) + 1)
    found = list(libraries.asked(libraries.static(), [Asked(words, file) for words in (("calls",), ("list", "--json"))]))
    file.unlink()
    return "" if found == [Answer(2, b"", OF_STOPS[2])] * 2 else str(found)


def example(libraries: Libraries, language: str, name: str, build: Callable[[Libraries, Path, Path], None], wanted: bytes = EXAMPLE) -> str:
    """An example is compiled, and prints what the page says."""
    folder = libraries.folder / f"example-{name}"
    folder.mkdir(parents=True, exist_ok=True)
    source, made = folder / name, folder / "made"
    source.write_text(libraries.example(language))
    build(libraries, source, made)
    command = [libraries.tool("node", "Node 20 or later"), source, libraries.dist / MODULE] if name.endswith(".mjs") else [made]
    found = libraries.call(*command)
    return "" if found == wanted else f"it prints {beginning(found)}"


def build_c(libraries: Libraries, source: Path, made: Path) -> None:
    at = libraries.dist / X86
    libraries.call(libraries.tool("cc", "a compiler of C"), *WARNINGS, f"-I{at / 'include'}", "-o", made, source, at / "lib/libpicklestep.a")


def build_rust(libraries: Libraries, source: Path, made: Path) -> None:
    libraries.call(libraries.tool("rustc", "a compiler of Rust"), "-D", "warnings", "-L", f"native={libraries.dist / X86 / 'lib'}", "-o", made, source)


def build_go(libraries: Libraries, source: Path, made: Path) -> None:
    """(Its cache of what it built is in the folder of the trial. The Go that GCC has is named so.)"""
    go = libraries.tool("go" if shutil.which("go") else "go-12", "a compiler of Go")
    at = libraries.dist / X86 / "lib"
    environment = {"PKG_CONFIG_PATH": str(at / "pkgconfig"), "CGO_LDFLAGS": f"-Wl,-rpath,{at}", "HOME": str(libraries.folder), "PATH": "/usr/bin:/bin",
                   "GOPROXY": "off", "GOFLAGS": "-mod=mod", "GO111MODULE": "off"}
    libraries.call(go, "build", "-o", made, source, **environment)


def build_nothing(libraries: Libraries, source: Path, made: Path) -> None:
    """A script is not compiled."""


WHOLE = "shared"
WAYS = {
    "shared": "x86-64, shared",
    "static": "x86-64, static",
    "musl": "x86-64, static, with musl",
    "musl_shared": "x86-64, shared, with musl",
    "arm": "ARM, under an emulator",
    "arm_shared": "ARM, shared, under an emulator",
    "module": "the module in Node",
}
ROWS: list[tuple[str, Callable[[Libraries], "str | Noted"]]] = [
    ("the library: its functions", functions_of),
    ("the library: the header in C++", in_cxx),
    *((f"the library, {WAYS[WHOLE]}: all {text}", functools.partial(compared, way=WHOLE, kind=kind)) for kind, text in (("real", "real pickles"), ("rows", "rows"))),
    *((f"the library, {name}: the sample", functools.partial(compared, way=way, kind="sample")) for way, name in WAYS.items() if way != WHOLE),
    *((f"the library, {WAYS[way]}: sessions", functools.partial(of_sessions, way=way)) for way in (WHOLE, "musl", "arm", "module")),
    *((f"the library, {WAYS[way]}: lists of the gate", functools.partial(compared, way=way, kind="at_gate")) for way in (WHOLE, "arm", "module")),
    *((f"the library, {WAYS[way]}: what is reached", functools.partial(compared, way=way, kind="of_reach")) for way in (WHOLE, "arm", "module")),
    *((f"the library, {WAYS[way]}: members of archives", functools.partial(compared, way=way, kind="of_members")) for way in (WHOLE, "arm", "module")),
    *(
        (f"the library, {WAYS[way]}: pickles that are compared", functools.partial(compared, way=way, kind="of_pairs" if way == WHOLE else "of_some_pairs"))
        for way in (WHOLE, "arm", "module")
    ),
    *((f"the library, {WAYS[way]}: options of no task", functools.partial(no_tasks, way=way)) for way in (WHOLE, "module")),
    ("the library: a window keeps few records", keeps_a_window),
    ("the library: random pickles and scripts", fuzzed),
    *((f"the library, {WAYS[way]}: out of memory is an answer", functools.partial(limits, way=way)) for way in ("static", "shared", "musl", "arm")),
    ("the library: too large is an answer", too_large),
    ("the library: the example of a session", functools.partial(example, language="Sessions", name="session.c", build=build_c, wanted=EXAMPLE_OF_SESSION)),
    *(
        (f"the library: the example in {language}", functools.partial(example, language=language, name=name, build=build))
        for language, name, build in (
            ("C", "example.c", build_c),
            ("Rust", "example.rs", build_rust),
            ("Go", "example.go", build_go),
            ("JavaScript", "example.mjs", build_nothing),
        )
    ),
]


def trials(libraries: Libraries) -> list[Trial]:
    return [Trial(name, functools.partial(row, libraries)) for name, row in ROWS]
