"""Tries the released programs, from outside: in a fresh clone, where something was changed, and installed.

Another program that is tried takes the place of the released one for this machine, as a commit of the clone."""

from __future__ import annotations

import filecmp
import functools
import hashlib
import os
import pathlib
import re
import shutil
import subprocess
from collections.abc import Callable
from dataclasses import dataclass, field

from packages import LICENCES
from saves import unprivileged
from trials.samples import HOSTILE
from trials.trial import Lack, Trial

LISTING = """\
    0: c    GLOBAL     'posix' 'system'
   14: (    MARK
   15: X        BINUNICODE 'id'
   22: t        TUPLE      (MARK at 14)
   23: R    REDUCE
   24: .    STOP
highest protocol among opcodes = 1
"""
# The program that users start on this machine, and the folder of the one that the proofs built.
RELEASED, BUILT = "dist/linux-x86_64-static/picklestep", "dist/linux-x86_64"
# What is on the path instead of the toolchain: it writes down that it was called, and builds what it is asked to.
STAND_IN = """\
#!/bin/bash
echo "$*" >>"$CALLED"
if [ "$1" = version ]; then
    echo "$VERSION"
elif [ -n "$BUILT" ] && [ "$1" = run ]; then
    cp -- "$BUILT" out/picklestep && chmod 755 out/picklestep
else
    echo 'rt is not here' >&2
    exit 1
fi
"""
# What a Mac has in the place of sha256sum and says of itself, and the options that commands of an older one refuse.
SHASUM = """\
#!/bin/sh
[ "$1 $2" = '-a 256' ] && shift 2 && exec {sha256sum} "$@"
"""
UNAME = """\
#!/bin/sh
[ "$*" = -sm ] && echo Darwin arm64
"""
LESSER = """\
#!/bin/sh
for word; do
    case $word in
    {options}) echo "{name}: illegal option $word" >&2 && exit 1 ;;
    esac
done
exec {real} "$@"
"""
REFUSED = {"chmod": "--", "find": "-quit | -printf", "readlink": "-f", "sort": "-V", "stat": "-c*", "xargs": "-r"}
# Words of bash that a Mac's, which is 3.2, does not know, and the scripts that it runs.
NEWER_BASH = r"\b(local|declare|typeset) -\w*[Ang]|\b(mapfile|readarray|coproc|globstar)\b|\$\{[^}]*(\^|,,?\}|@\w\})|&>>|\|&|\[\[ -v|;;?&|\$EPOCH"
OF_ENTRANCE = ("picklestep", "install", "equipment/program.sh", "python/picklestep/help/start.sh", "share/picklestep.sh")
SECONDS = 5.0
COMMITTER = ("-c", "user.name=trials", "-c", "user.email=trials@localhost")


def seconds_of_children() -> float:
    """What the commands took of the processors that were run so far. (By the clock they take longer beside others.)"""
    return sum(os.times()[2:4])


@dataclass
class Run:
    status: int
    output: str
    errors: str
    seconds: float


@dataclass
class Releases:
    root: pathlib.Path
    program: pathlib.Path
    folder: pathlib.Path
    starts: int = 0
    called: pathlib.Path = field(init=False)
    environment: dict[str, str] = field(init=False)

    def begin(self) -> None:
        """Makes the folder, and a stand-in for the toolchain in it."""
        self.folder.mkdir(parents=True)
        self.called = self.folder / "called"
        (self.folder / "hostile.pickle").write_bytes(HOSTILE)
        (self.folder / "gitconfig").write_text("[safe]\n\tdirectory = *\n")
        (self.folder / "bin").mkdir()
        (self.folder / "bin" / "rt").write_text(STAND_IN)
        (self.folder / "bin" / "rt").chmod(0o755)
        path = [at for at in os.environ["PATH"].split(":") if not os.path.exists(f"{at}/rt")]
        self.environment = {
            "PATH": ":".join(path),
            "HOME": str(self.folder),
            "LC_ALL": "C.UTF-8",
            "CALLED": str(self.called),
            "GIT_CONFIG_GLOBAL": str(self.folder / "gitconfig"),
        }

    @functools.cached_property
    def clone(self) -> pathlib.Path:
        """A fresh clone of the last commit."""
        at = self.folder / "a clone"
        done = self.run("git", "clone", "-q", str(self.root), str(at), at=self.folder)
        if done.status != 0:
            raise OSError(f"git clone: {done.errors[:200]}")
        self.put_in(at)
        return at

    def put_in(self, at: pathlib.Path) -> None:
        """Lets the program that is tried be the released one of a clone."""
        there, sums, content = at / RELEASED, at / "dist/SHA256SUMS", self.program.read_bytes()
        if content == there.read_bytes():
            return
        there.write_bytes(content)
        name = RELEASED.partition("/")[2]
        sums.write_text(re.sub(f"(?m)^.*  {name}$", f"{hashlib.sha256(content).hexdigest()}  {name}", sums.read_text()))
        done = self.run("git", *COMMITTER, "commit", "-q", "-a", "-m", "Another program", at=at)
        if done.status != 0:
            raise OSError(f"git commit: {done.errors[:200]}")

    def tried(self, attempt: Callable[[Releases], str]) -> str:
        if not self.folder.exists():
            self.begin()
        return attempt(self)

    def closing(self) -> str:
        return f"{self.starts} starts were tried, by releases.py"

    def run(self, *words: str, at: pathlib.Path | None = None, **environment: str) -> Run:
        """Runs a command with no toolchain on the path."""
        self.starts += 1
        begin = seconds_of_children()
        done = subprocess.run(
            words,
            cwd=at or self.clone,
            stdin=subprocess.DEVNULL,
            capture_output=True,
            timeout=600,
            env={**self.environment, **environment},
        )
        return Run(done.returncode, done.stdout.decode(), done.stderr.decode(), seconds_of_children() - begin)

    def run_stand_in(self, *words: str, at: pathlib.Path | None = None, **environment: str) -> Run:
        """Runs a command with the stand-in for the toolchain first on the path."""
        self.called.unlink(missing_ok=True)
        return self.run(*words, at=at, **{**environment, "PATH": f"{self.folder}/bin:{self.environment['PATH']}"})

    def run_elsewhere(self, *words: str, at: pathlib.Path, PATH: str | None = None) -> Run:
        """Runs a command with the stand-in, where uname names a machine that there is no program for."""
        self.called.unlink(missing_ok=True)
        folder = self.folder / "elsewhere"
        folder.mkdir(exist_ok=True)
        (folder / "uname").write_text("#!/bin/sh\necho Plan9 mips\n")
        (folder / "uname").chmod(0o755)
        return self.run(*words, at=at, PATH=f"{folder}:{self.folder}/bin:{PATH or self.environment['PATH']}")

    @functools.cached_property
    def node(self) -> str:
        """A folder with Node alone."""
        found = shutil.which("node")
        if found is None:
            raise Lack("there is no Node (equipment/install_servers)")
        (self.folder / "node").mkdir()
        (self.folder / "node/node").symlink_to(found)
        return str(self.folder / "node")

    @functools.cached_property
    def mac(self) -> str:
        """A folder with the commands of this machine, but without Node and with no more than a Mac's can."""
        folder = self.commands("mac", "node", "getconf", "sha256sum")
        scripts = {"shasum": SHASUM.format(sha256sum=shutil.which("sha256sum")), "uname": UNAME}
        for name, options in REFUSED.items():
            scripts[name] = LESSER.format(options=options, name=name, real=shutil.which(name))
        for name, text in scripts.items():
            (folder / name).unlink(missing_ok=True)
            (folder / name).write_text(text)
            (folder / name).chmod(0o755)
        return str(folder)

    def commands(self, name: str, *without: str) -> pathlib.Path:
        """A folder with the commands of this machine, but for some."""
        made = self.folder / name
        made.mkdir()
        for folder in ("/bin", "/usr/bin"):
            for command in os.listdir(folder):
                if not command.startswith(without) and not (made / command).is_symlink():
                    (made / command).symlink_to(f"{folder}/{command}")
        return made

    def copy(self, name: str) -> pathlib.Path:
        """A copy of the clone that may be changed."""
        at = self.folder / name
        shutil.copytree(self.clone, at, symlinks=True)
        return at

    def lists(self, *words: str, at: pathlib.Path | None = None) -> str:
        """What is wrong with a listing by the program that is started so, with no toolchain on the path."""
        run = self.run(*words, "list", str(self.folder / "hostile.pickle"), at=at)
        if (run.status, run.output, run.errors) != (0, LISTING, ""):
            return f"status {run.status}, output {run.output[:60]!r}, errors {run.errors[:200]!r}"
        return "" if run.seconds < SECONDS else f"it took {run.seconds:.1f} seconds of a processor"


def change_byte(file: pathlib.Path) -> None:
    content = bytearray(file.read_bytes())
    content[len(content) // 2] ^= 1
    file.write_bytes(content)


# --- Starts ---


def clone_starts(releases: Releases) -> str:
    for number in ("first", "second"):
        why = releases.lists("./picklestep")
        if why:
            return f"the {number} start: {why}"
    if (releases.clone / "crates/picklestep/out").exists():
        return "it was built"
    said = releases.run("./picklestep", "--version", PYTHONDONTWRITEBYTECODE="1").output
    if not said.endswith(f"/{RELEASED}\n") or (releases.clone / BUILT / "TOOLCHAIN").read_text() not in said:
        return f"its version is {said[-200:]!r}"
    why = says_commit(releases, str(releases.clone / "picklestep"))
    if why:
        return why
    remembered = (releases.clone / "out/released").read_text()
    if not remembered.endswith(f"/{RELEASED}\n"):
        return f"it starts {remembered[-100:]!r}"
    status = releases.run("git", "status", "--porcelain")
    return f"git status: {status.output[:200]}" if status.output else ""


def starts_read_only(releases: Releases) -> str:
    at = releases.copy("read only")
    shutil.rmtree(at / "out", ignore_errors=True)
    subprocess.run(["chmod", "-R", "a-w", str(at)], check=True)
    why = releases.lists(*unprivileged(), "./picklestep", at=at)
    subprocess.run(["chmod", "-R", "u+w", str(at)], check=True)
    return why


def is_refused(releases: Releases, at: pathlib.Path, says: str) -> str:
    """What is wrong where neither the check nor a start may take the released program for that of the sources, nor an installation, nor ./test."""
    words = ([], ["scan"], ["source"], ["shell"])
    why = is_seen(releases, at, says) or next(filter(None, (starts_nothing(releases, at, says, "./picklestep", *each) for each in words)), "")
    why = why or starts_nothing(releases, at, says, "./install", str(releases.folder / "nowhere"))
    if why:
        return why
    gate = releases.run_stand_in("./test", at=at)
    if gate.status != 1 or not gate.output.endswith("\n0 passed, 1 failed\n") or "run ./release" not in gate.output:
        return f"./test: status {gate.status}, output {gate.output[-200:]!r}"
    return "./test went on to the proofs" if releases.called.exists() else ""


def is_seen(releases: Releases, at: pathlib.Path, says: str) -> str:
    """What is wrong where the check and a start have to see a change."""
    check = releases.run("./release", "--check", at=at)
    if check.status != 1 or says not in check.errors or "run ./release" not in check.errors:
        return f"the check: status {check.status}, errors {check.errors[:200]!r}"
    return starts_nothing(releases, at, says, "./picklestep", "list")


def starts_nothing(releases: Releases, at: pathlib.Path, says: str, entrance: str, *words: str) -> str:
    """What is wrong where a start has to say in a sentence why there is no program."""
    asked = [entrance, *words, *([str(releases.folder / "hostile.pickle")] if entrance == "./picklestep" else [])]
    start = releases.run_stand_in(*asked, at=at)
    is_sentence = start.errors.count("\n") == 1 and says in start.errors and "./build" in start.errors
    if start.status == 2 and not start.output and is_sentence and not releases.called.exists():
        return ""
    return f"{' '.join(asked)}: status {start.status}, output {start.output[:60]!r}, errors {start.errors[:200]!r}"


def builds_to_test(releases: Releases, at: pathlib.Path) -> str:
    """What is wrong where a test by its name has no program: it is built, but not for a name that is none."""
    named = releases.run_stand_in("./test", "program", at=at)
    if named.status != 2 or named.output or "picklestep: the build failed: rt is not here" not in named.errors:
        return f"./test program: status {named.status}, output {named.output[:60]!r}, errors {named.errors[:200]!r}"
    unknown = releases.run_stand_in("./test", "no such name", at=at)
    return f"an unknown name: status {unknown.status}" if unknown.status != 2 or releases.called.exists() else ""


def source_changed(releases: Releases) -> str:
    """One change is tried with each start, and the others with one, since the same sum sees them."""
    at = releases.copy("source")
    for file in ("crates/picklestep/src/main.rt", "crates/pickle_io/src/lib.rt", "crates/pickle_ops/specs/Table.antt"):
        was = (at / file).read_bytes()
        change_byte(at / file)
        is_first = file.endswith("main.rt")
        why = is_refused(releases, at, "SOURCES") or builds_to_test(releases, at) if is_first else is_seen(releases, at, "SOURCES")
        if why:
            return f"a byte of {file}: {why}"
        (at / file).write_bytes(was)
        why = releases.lists("./picklestep", at=at)
        if why:
            return f"{file} as it was: {why}"
    (at / "crates/pickle_io/src/more.rt").write_bytes(b"")
    why = is_seen(releases, at, "SOURCES")
    if why:
        return f"a further file: {why}"
    (at / "crates/pickle_io/src/more.rt").unlink()
    (at / "crates/pickle_io/src/lib.rt").rename(at / "crates/pickle_io/src/other.rt")
    return is_seen(releases, at, "SOURCES")


def program_changed(releases: Releases) -> str:
    at = releases.copy("program")
    releases.lists("./picklestep", at=at)
    was = (at / RELEASED).read_bytes()
    change_byte(at / RELEASED)
    why = is_refused(releases, at, "SHA256SUMS")
    if why:
        return why
    (at / RELEASED).unlink()
    why = is_seen(releases, at, "SHA256SUMS")
    if why:
        return why
    (at / RELEASED).write_bytes(was)
    (at / RELEASED).chmod(0o755)
    for name in ("picklestep", "TOOLCHAIN"):
        kept = (at / BUILT / name).read_bytes()
        change_byte(at / BUILT / name)
        check = releases.run("./release", "--check", at=at)
        if check.status != 1 or "SHA256SUMS" not in check.errors:
            return f"{name} of the proofs: status {check.status}, errors {check.errors[:200]!r}"
        why = releases.lists("./picklestep", at=at)
        if why:
            return f"{name} of the proofs: {why}"
        (at / BUILT / name).write_bytes(kept)
    return ""


def crates_changed(releases: Releases) -> str:
    """A crate of tests does not count, and one that the program uses does."""
    at = releases.copy("crates")
    text = (at / "crates.txt").read_text()
    for part in ("src", "specs"):
        (at / "crates/another" / part).mkdir(parents=True)
    (at / "crates/another/src/lib.rt").write_text("// another crate\n")
    (at / "crates.txt").write_text(text + "another: pickle_ops\n")
    check = releases.run("./release", "--check", at=at)
    if check.status != 0:
        return f"a crate of tests: status {check.status}, errors {check.errors[:200]!r}"
    why = releases.lists("./picklestep", at=at)
    if why:
        return f"a crate of tests: {why}"
    lines = re.sub(r"^(picklestep|pickle_script): ", r"\1: another ", text + "another: pickle_ops\n", flags=re.M)
    (at / "crates.txt").write_text(lines)
    return is_seen(releases, at, "SOURCES")


def other_machine(releases: Releases) -> str:
    """The module where Node is, else a sentence; nothing is built."""
    at = releases.copy("machine")
    if shutil.which("node"):
        start = releases.run_elsewhere("./picklestep", "list", str(releases.folder / "hostile.pickle"), at=at)
        if (start.status, start.output, start.errors) != (0, LISTING, ""):
            return f"with Node: status {start.status}, errors {start.errors[:200]!r}"
    start = releases.run_elsewhere("./picklestep", "list", "x", at=at, PATH=str(releases.commands("without node", "node")))
    is_said = start.errors.count("\n") == 1 and "no program for this machine (Plan9 mips)" in start.errors
    if start.status != 2 or start.output or releases.called.exists() or not is_said:
        return f"without Node: status {start.status}, errors {start.errors[:200]!r}"
    return ""


def on_mac(releases: Releases) -> str:
    """A clone has the module, and is installed; its entrance is found through a link, and from its own folder."""
    at, prefix = releases.copy("on a mac"), releases.folder / "of a mac"
    path = f"{releases.node}:{releases.mac}"
    install = releases.run("./install", str(prefix), at=at, PATH=path)
    if install.status != 0 or install.errors:
        return f"installed: status {install.status}, errors {install.errors[:200]!r}"
    entrance = prefix / "bin/picklestep"
    for folder, name, to in ((at, "linked", "picklestep"), (prefix, "linked", "bin/picklestep"), (prefix, "further", str(prefix / "linked"))):
        (folder / name).symlink_to(to)
    hostile = str(releases.folder / "hostile.pickle")
    ways = ((at, "./picklestep"), (at, "bash", "picklestep"), (at, "./linked"), (at.parent, str(at / "linked")), (prefix, "bin/picklestep"),
            (prefix / "bin", "sh", "picklestep"), (prefix / "bin", "../linked"), (at, str(prefix / "further")), (at, str(entrance)))
    for folder, *words in ways:
        start = releases.run(*words, "list", hostile, at=folder, PATH=path, NODE_OPTIONS="--require ./gone.js")
        if (start.status, start.output, start.errors) != (0, LISTING, ""):
            return f"{words}: status {start.status}, output {start.output[:60]!r}, errors {start.errors[:200]!r}"
    for entrance in (str(at / "picklestep"), str(prefix / "bin/picklestep")):
        for words in (["list", hostile], ["calls", hostile]):
            start = releases.run(entrance, *words, PATH=releases.mac, PYTHONDONTWRITEBYTECODE="1")
            is_said = start.errors.count("\n") == 1 and "Node 20 or later on the path" in start.errors
            if (start.status, start.output) != (2, "") or not is_said:
                return f"{entrance} {words[0]} without Node: status {start.status}, errors {start.errors[:200]!r}"
    change_byte(at / "dist/picklestep.wasm")
    start = releases.run("./picklestep", "list", hostile, at=at, PATH=path)
    if start.status != 2 or start.errors.count("\n") != 1 or "./release" not in start.errors:
        return f"a module that was changed: status {start.status}, errors {start.errors[:200]!r}"
    return ""


def older_bash(releases: Releases) -> str:
    """What a Mac's bash does not know stands in no script that the entrance and the installation run."""
    for name in OF_ENTRANCE:
        for number, line in enumerate((releases.clone / name).read_text().splitlines(), 1):
            found = re.search(NEWER_BASH, line)
            if found and not line.lstrip().startswith("#"):
                return f"{name}, line {number}: {found[0]}"
    return ""


# --- The release ---


def release_again(releases: Releases) -> str:
    """From the program that the proofs built: where it is the released one nothing changes, else all that depends on it does."""
    at = releases.copy("again")
    version = (at / BUILT / "TOOLCHAIN").read_text().strip()
    same = {"BUILT": str(releases.clone / BUILT / "picklestep"), "VERSION": version}
    for _ in range(2):
        run = releases.run_stand_in("./release", at=at, **same)
        if run.status != 0 or len(run.output.splitlines()) != 1:
            return f"status {run.status}, output {run.output!r}, errors {run.errors[:200]!r}"
        status = releases.run("git", "status", "--porcelain", at=at)
        if status.output:
            return f"the same program: {status.output[:200]}"
    change_byte(at / "crates/picklestep/src/main.rt")
    other = releases.folder / "other"
    other.write_bytes((releases.clone / BUILT / "picklestep").read_bytes() + b"\n")
    run = releases.run_stand_in("./release", "--program", at=at, BUILT=str(other), VERSION=version)
    if run.status != 0 or (at / BUILT / "picklestep").read_bytes() != other.read_bytes():
        return f"another program: status {run.status}, errors {run.errors[:200]!r}"
    check = releases.run("./release", "--check", at=at)
    if check.status != 1 or "dist/SOURCES" not in check.errors:
        return f"another program, and the others are older: status {check.status}, errors {check.errors[:200]}"
    was = [(file, file.read_bytes()) for file in sorted((at / "dist").rglob("*")) if file.is_file()]
    run = releases.run_stand_in("./release", at=at)
    same_files = all(file.read_bytes() == content for file, content in was)
    return "" if run.status != 0 and same_files else "a build that fails: it is released"


def further_changed(releases: Releases) -> str:
    """A further program, or what makes it, that was changed: the check says it, and such a machine does not start it."""
    at = releases.copy("further")
    changed = (("dist/picklestep.wasm", "dist/SHA256SUMS"), ("dist/TOOLS", "dist/SHA256SUMS"), ("targets/c/heap.c", "dist/SOURCES"),
               ("crates/picklestep_library/src/lib.rt", "dist/SOURCES"), ("crates/library_answers/src/fill.rt", "dist/SOURCES"))
    for file, says in changed:
        was = (at / file).read_bytes()
        change_byte(at / file)
        check = releases.run("./release", "--check", at=at)
        if check.status != 1 or says not in check.errors:
            return f"{file}: status {check.status}, errors {check.errors[:200]!r}"
        start = releases.run_elsewhere("./picklestep", "list", "x", at=at)
        if start.status != 2 or len(start.errors.splitlines()) != 1 or "./release" not in start.errors:
            return f"a start, {file}: status {start.status}, errors {start.errors[:200]!r}"
        (at / file).write_bytes(was)
    return ""


def page_changed(releases: Releases) -> str:
    """A source of the page for browsers that was changed: the check says it, and the page alone is made again, twice the same."""
    at = releases.copy("page")
    page, source = at / "dist/picklestep.html", at / "python/picklestep/view/script.js"
    made = page.read_bytes()
    source.write_bytes(source.read_bytes() + b"\n")
    check = releases.run("./release", "--check", at=at)
    if check.status != 1 or "dist/picklestep.html" not in check.errors:
        return f"status {check.status}, errors {check.errors[:200]!r}"
    run = releases.run("./release", "--page", at=at)
    check = releases.run("./release", "--check", at=at)
    if (run.status, check.status, check.errors) != (0, 0, "") or len(page.read_bytes()) != len(made) + 1:
        return f"made again: status {run.status} and {check.status}, errors {run.errors[:200]!r} {check.errors[:200]!r}"
    source.write_bytes(source.read_bytes()[:-1])
    run = releases.run("./release", "--page", at=at)
    return "" if run.status == 0 and page.read_bytes() == made else "the same sources make another page"


def builds(releases: Releases) -> str:
    """From nothing what earlier runs kept of the program's crates is taken away; else it stays."""
    at = releases.copy("built")
    of_product, of_tests = at / "crates/pickle_io/out/kept", at / "crates/unit_tests/out/kept"
    same = {"BUILT": str(releases.clone / BUILT / "picklestep")}
    ways: list[tuple[list[str], bool]] = [(["--kept"], True), ([], False)]
    for words, stays in ways:
        for file in (of_product, of_tests):
            file.parent.mkdir(exist_ok=True)
            file.write_text("")
        run = releases.run_stand_in("./build", *words, at=at, **same)
        sums = [line.split()[0] for line in run.output.splitlines()]
        if run.status != 0 or len(sums) != 2 or sums[0] != sums[1]:
            return f"{words}: status {run.status}, output {run.output!r}, errors {run.errors[:200]!r}"
        if of_product.exists() != stays or not of_tests.exists():
            return f"{words}: what was kept"
    run = releases.run_stand_in("./build", at=at)
    if run.status != 2 or run.output or "picklestep: the build failed: rt is not here" not in run.errors:
        return f"a build that fails: status {run.status}, output {run.output!r}, errors {run.errors[:200]!r}"
    run = releases.run("./build", "--fly", at=at)
    return "" if run.status == 2 and run.errors.startswith("usage: ") else f"--fly: status {run.status}"


def stands_beside_it(releases: Releases) -> str:
    dist = releases.clone / BUILT
    names = sorted(os.listdir(dist))
    if names != ["SHA256SUMS", "SOURCES", "TOOLCHAIN", "picklestep"]:
        return f"there is {names}"
    return "" if releases.run("sha256sum", "--check", "--status", "SHA256SUMS", at=dist).status == 0 else "the sum"


# --- Installed ---

PAGES = ("share/man/man1/picklestep.1", "share/man/man1/picklestep-scan.1", "share/man/man1/picklestep-view.1")
BASH = "share/bash-completion/completions/picklestep"
ZSH = "share/zsh/site-functions/_picklestep"
WORDS = ("scan", "view", "list", "objects", "calls", "form", "gate", "reach", "members", "assemble", "same", "opcodes", "debug", "shell", "dap", "source", "diff", "size", "mend", "rename", "convert", "optimize")
PAGES_OF = {"scan": PAGES[1], "view": PAGES[2]}
PROGRAM = ("picklestep", "TOOLCHAIN", "libpicklestep.so", "picklestep.html")
MODULE = ("picklestep.mjs", "picklestep.wasm", "libpicklestep.wasm", "TOOLCHAIN", "picklestep.html")
ASK_LIBRARY = "from picklestep import library, place; print(library.answer(['list'], b'N.') is not None, place.find_program().rpartition('/')[2])"


def installed_files(releases: Releases, program: tuple[str, ...] = PROGRAM) -> list[str]:
    """What an installation has: the entrance, the package with the program, the name of the commit, the licences, the pages and completions."""
    package = releases.clone / "python"
    modules = [str(path.relative_to(package)) for path in (package / "picklestep").rglob("*") if path.is_file() and path.suffix != ".pyc"]
    beside = [*(f"picklestep/bin/{name}" for name in (*program, "COMMIT")), *LICENCES]
    return sorted(["bin/picklestep", *(f"lib/picklestep/{name}" for name in [*modules, *beside]), *PAGES, BASH, ZSH])


def files_below(folder: pathlib.Path) -> list[str]:
    return sorted(str(path.relative_to(folder)) for path in folder.rglob("*") if not path.is_dir())


def installs(releases: Releases) -> str:
    prefix = releases.folder / "a prefix"
    (prefix / "bin").mkdir(parents=True)
    (prefix / "bin" / "other").write_text("")
    for _ in range(2):
        run = releases.run("./install", str(prefix))
        if run.status != 0 or run.errors:
            return f"status {run.status}, errors {run.errors[:200]!r}"
    if files_below(prefix) != sorted([*installed_files(releases), "bin/other"]):
        return f"there is {files_below(prefix)}"
    if not filecmp.cmp(prefix / "lib/picklestep/picklestep/bin/picklestep", releases.clone / RELEASED, shallow=False):
        return "it is not the released program"
    entrance = str(prefix / "bin" / "picklestep")
    why = releases.lists(entrance)
    if why:
        return why
    for words in (["scan", "hostile.pickle"], ["hostile.pickle"]):
        run = releases.run(entrance, *words, at=releases.folder, PYTHONDONTWRITEBYTECODE="1")
        if run.status != 1 or "!     import posix.system once" not in run.output or run.errors:
            return f"{words}: status {run.status}, output {run.output[:60]!r}, errors {run.errors[:200]!r}"
    why = says_commit(releases, entrance)
    if why:
        return why
    run = releases.run("./install", "--remove", str(prefix))
    if run.status != 0 or sorted(os.listdir(prefix)) != ["bin"] or files_below(prefix) != ["bin/other"]:
        return f"taken away: status {run.status}, and there is {files_below(prefix)}"
    return ""


def says_commit(releases: Releases, entrance: str) -> str:
    """What is wrong with the version that an entrance says, in a folder of another project. It has the commit of the clone."""
    other = releases.folder / "another project"
    other.mkdir(exist_ok=True)
    releases.run("git", "init", "-q", at=other)
    releases.run("git", *COMMITTER, "commit", "-q", "--allow-empty", "-m", "Another project", at=other)
    commit = releases.run("git", "rev-parse", "--short", "HEAD").output.strip()
    run = releases.run(entrance, "--version", at=other, PYTHONDONTWRITEBYTECODE="1")
    first = run.output.partition("\n")[0]
    is_said = re.fullmatch(rf"picklestep \d+\.\d+\.\d+ \(commit {commit}\)", first) is not None and commit
    return "" if is_said else f"the version in {entrance}: {first!r}, and not of {commit!r}"


def installs_for_all(releases: Releases) -> str:
    """Others can start it, whatever the umask is. What an interrupted run left goes with the next one."""
    prefix = releases.folder / "for all"
    run = releases.run("sh", "-c", 'umask 077 && exec ./install "$1"', "sh", str(prefix))
    modes = {path: path.stat().st_mode & 0o077 for path in prefix.rglob("*")}
    closed = [str(path) for path, mode in modes.items() if mode != (0o055 if path.is_dir() or path.stat().st_mode & 0o100 else 0o044)]
    if run.status != 0 or run.errors or not modes or closed:
        return f"status {run.status}, errors {run.errors[:200]!r}, closed to others {closed}"
    package = prefix / "lib/picklestep"
    for words, wanted in (([], installed_files(releases)), (["--remove"], [])):
        for ending in ("new", "old"):
            shutil.copytree(package, package.with_name(f"picklestep.{ending}"))
        (prefix / f"{PAGES[0]}.new").touch()
        run = releases.run("./install", *words, str(prefix))
        if run.status != 0 or run.errors or files_below(prefix) != wanted:
            return f"{words}: status {run.status}, errors {run.errors[:200]!r}, and there is {files_below(prefix)}"
    return ""


# A find that names no file of the package's parts, and fails.
BROKEN = """\
#!/bin/sh
case $1 in
picklestep) {real} "$@" -maxdepth 1 && exit 1 ;;
esac
exec {real} "$@"
"""


def installs_no_part(releases: Releases) -> str:
    """Where the files cannot all be listed, nothing is installed, and what was there stays."""
    prefix = releases.folder / "no part"
    folder = releases.folder / "broken"
    folder.mkdir()
    (folder / "find").write_text(BROKEN.format(real=shutil.which("find")))
    (folder / "find").chmod(0o755)
    path = f"{folder}:{releases.environment['PATH']}"
    for wanted in ([], installed_files(releases)):
        run = releases.run("./install", str(prefix), PATH=path)
        there = [file for file in files_below(prefix) if not file.startswith("lib/picklestep.new/")]
        if run.status != 2 or "installed" in run.output or there != wanted:
            return f"status {run.status}, output {run.output[:60]!r}, and there is {there}"
        releases.run("./install", str(prefix))
    return ""


def installs_at_home(releases: Releases) -> str:
    home = releases.folder / "home"
    home.mkdir()
    run = releases.run("./install", HOME=str(home))
    if run.status != 0 or files_below(home / ".local") != installed_files(releases):
        return f"status {run.status}, errors {run.errors[:200]!r}"
    run = releases.run("./install", "--remove", HOME=str(home))
    if run.status != 0 or files_below(home):
        return f"taken away: status {run.status}, and there is {files_below(home)}"
    for words in (["--fly"], ["a", "b"], ["--remove", "a", "b"]):
        run = releases.run("./install", *words, HOME=str(home))
        if run.status != 2 or not run.errors.startswith("usage: ") or files_below(home):
            return f"{words}: status {run.status}"
    (home / "file").write_text("")
    run = releases.run("./install", str(home / "file"))
    return "" if run.status == 2 else f"into a file: status {run.status}"


def installs_module(releases: Releases) -> str:
    """Where there is no program the module is installed with its library, and a sentence says it where Node has gone."""
    prefix = releases.folder / "of the module"
    path = f"{releases.node}:{releases.mac}"
    run = releases.run("./install", str(prefix), PATH=path)
    if run.status != 0 or run.errors or files_below(prefix) != installed_files(releases, MODULE):
        return f"status {run.status}, errors {run.errors[:200]!r}, and there is {files_below(prefix)}"
    for name in MODULE:
        released = f"{BUILT}/{name}" if name == "TOOLCHAIN" else f"dist/{name}"
        if not filecmp.cmp(prefix / "lib/picklestep/picklestep/bin" / name, releases.clone / released, shallow=False):
            return f"{name} is not the released one"
    settings = {"PYTHONPATH": str(prefix / "lib/picklestep"), "PYTHONDONTWRITEBYTECODE": "1"}
    asked = releases.run("python3", "-c", ASK_LIBRARY, at=prefix, PATH=path, **settings)
    if asked.output != "True picklestep.mjs\n":
        return f"a small question: {asked.output!r}, errors {asked.errors[:200]!r}"
    for words in (["list", "x"], ["scan", "x"]):
        run = releases.run(str(prefix / "bin/picklestep"), *words, PATH=releases.mac, PYTHONDONTWRITEBYTECODE="1")
        if run.status != 2 or run.output or run.errors.count("\n") != 1 or "Node 20 or later on the path" not in run.errors:
            return f"{words} without Node: status {run.status}, errors {run.errors[:200]!r}"
    return ""


def manual(releases: Releases) -> str:
    for name in PAGES:
        page = str(releases.clone / name)
        if shutil.which("mandoc"):
            run = releases.run("mandoc", "-T", "lint", "-W", "warning", page)
            if run.output or run.errors:
                return f"{name}: {(run.output + run.errors)[:300]}"
        if shutil.which("man"):
            run = releases.run("man", "--warnings", "-E", "UTF-8", "-Tutf8", "-Z", "-l", page)
            if run.status != 0 or run.errors:
                return f"{name}: {run.errors[:300]}"
    return options_of_words(releases)


def options_of_words(releases: Releases) -> str:
    """The options of each word in its help, its manual page and both completions."""
    shells = {name: completed((releases.clone / name).read_text()) for name in (BASH, ZSH)}
    for word in WORDS:
        run = releases.run("./picklestep", word, "--help", PYTHONDONTWRITEBYTECODE="1")
        # (an option of which its line says that it changes nothing need not be offered)
        lines = re.findall(r"^  (--[a-z].*)", run.output, flags=re.M)
        options = {line.split()[0] for line in lines if "changes nothing" not in line}
        if run.status != 0 or run.errors or not lines:
            return f"{word} --help: status {run.status}, errors {run.errors[:200]!r}"
        name = PAGES_OF.get(word, PAGES[0])
        for place, found in ((name, in_manual((releases.clone / name).read_text(), word)), *((name, words[word]) for name, words in shells.items())):
            if found != options:
                return f"{place}, {word}: {' '.join(sorted(found ^ options))} is there or in its help alone"
    return ""


def in_manual(page: str, word: str) -> set[str]:
    """The options that the synopsis of a manual page has for a word, each of which the page explains; of all where it says `options`."""
    block = page.partition(f"\n.Cm {word}\n")[2].partition("\n.Nm")[0].partition("\n.Sh")[0]
    explained = set(re.findall(r"^\.It Fl (-[a-z0-9-]+)", page, flags=re.M))
    named = explained if ".Op Ar options" in block else set(re.findall(r"Fl (-[a-z0-9-]+)", block))
    return {f"-{option}" for option in named & explained}


def completed(text: str) -> dict[str, set[str]]:
    """The options that a completion has for each word: those behind a word or words and `)`, where `*` stands for scan."""
    found: dict[str, set[str]] = {}
    for names, options in re.findall(r"^ +([a-z| ]+|\*)\)\s+options(?:='|\+=\()(.*?);;", text, flags=re.M | re.S):
        offered = set(re.findall(r"--[a-z0-9-]+(?=\[)", options) or re.findall(r"--[a-z0-9-]+", options)) - {"--help"}
        found.update((name, offered) for name in (["scan"] if names == "*" else names.split(" | ")))
    return {word: found.get(word, set()) for word in WORDS}


COMPLETE = """\
. "$1"
shift
COMP_WORDS=("$@")
COMP_CWORD=$(($# - 1))
_picklestep
printf '%s\\n' "${COMPREPLY[@]}"
"""


def completions(releases: Releases) -> str:
    at = releases.folder / "files"
    at.mkdir()
    (at / "one.pickle").write_text("")
    (at / "two words").write_text("")
    page = str(releases.clone / BASH)
    for words, wanted in (
        ([""], ["--help", "--version", "assemble", "calls", "convert", "dap", "debug", "diff", "form", "gate", "help", "list", "members", "mend", "objects", "opcodes", "optimize", "policy", "reach", "rename", "same", "scan",
               "shell", "size", "source", "view"]),
        (["help", "sc"], ["scan"]),
        (["ob"], ["objects"]),
        (["one"], ["one.pickle"]),
        (["list", "--"], ["--help", "--json", "--many", "--unframed", "--whole"]),
        (["calls", "--m"], ["--memo"]),
        (["calls", "--f"], ["--first", "--full"]),
        (["debug", "--"], ["--help", "--json", "--many", "--save", "--unframed", "--window"]),
        (["scan", "--sar"], ["--sarif"]),
        (["one.pickle", "--j"], ["--jobs", "--json", "--junit"]),
        (["scan", "--allow", "torch"], ["torch", "torch-modules"]),
        (["debug", "one.pickle", "--w"], ["--window"]),
        (["debug", "--window", ""], [""]),
        (["debug", "--save", ""], ["one.pickle", "two words"]),
        (["list", ""], ["one.pickle", "two words"]),
        (["list", "--many", "tw"], ["two words"]),
    ):
        run = releases.run("bash", "-c", COMPLETE, "bash", page, "picklestep", *words, at=at)
        if run.status != 0 or run.errors or sorted(run.output.splitlines()) != wanted:
            return f"{words}: {run.output.split()}, errors {run.errors[:100]!r}"
    if shutil.which("zsh"):
        run = releases.run("zsh", "-n", str(releases.clone / ZSH))
        if run.status != 0:
            return f"zsh: {run.errors[:200]}"
    return ""


TRIED: list[tuple[str, Callable[[Releases], str]]] = [
    ("the first start in a fresh clone", clone_starts),
    ("a start in a clone that may not be written", starts_read_only),
    ("what stands beside the program of the proofs", stands_beside_it),
    ("a source that was changed", source_changed),
    ("a released program that was changed", program_changed),
    ("crates that come to it", crates_changed),
    ("another machine", other_machine),
    ("a machine with the commands of a Mac", on_mac),
    ("no script of the entrance needs a bash that a Mac has not", older_bash),
    ("a program for a further machine that was changed", further_changed),
    ("a page for browsers that was changed", page_changed),
    ("a build", builds),
    ("a release from a built program", release_again),
    ("installed and taken away", installs),
    ("installed in part is not installed", installs_no_part),
    ("installed at home", installs_at_home),
    ("installed for all users", installs_for_all),
    ("the module, installed", installs_module),
    ("the manual pages", manual),
    ("the completions", completions),
]


def is_the_built(root: pathlib.Path) -> str:
    """Proofs from nothing build the program again, byte for byte."""
    built, kept = root / "crates/picklestep/out/picklestep", root / BUILT / "picklestep"
    return "" if filecmp.cmp(built, kept, shallow=False) else f"{built} and {kept} differ"


def trials(releases: Releases) -> list[Trial]:
    built = Trial("the program of the proofs is the one in dist", functools.partial(is_the_built, releases.root))
    return [built, *(Trial(name, functools.partial(releases.tried, attempt)) for name, attempt in TRIED)]
