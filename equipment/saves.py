"""Saves documents where something is in the way, from outside: no file may be lost."""

from __future__ import annotations

import functools
import itertools
import os
import pathlib
import resource
import shutil
import signal
import stat
import subprocess
from collections.abc import Callable
from dataclasses import dataclass, field

from trials.trial import Noted, Skip, Trial

OLD = b"K\x01."
NEW = b"K\x02."
LONGER = b"K\x01" * 100 + b"."
CANNOT = b"picklestep: cannot write\n"
UNFINISHED = "picklestep-save-*.unfinished"


def payload(size: int) -> bytes:
    """One BINBYTES of this size, and STOP."""
    return b"B" + size.to_bytes(4, "little") + bytes(size) + b"."


@dataclass
class Run:
    status: int
    output: bytes
    errors: bytes


def unprivileged() -> list[str]:
    """Words before a command that take the superuser's privileges away, so that the modes of files hold."""
    if os.geteuid() != 0:
        return []
    return ["setpriv", "--inh-caps=-all", "--ambient-caps=-all", "--bounding-set=-all"]


@dataclass
class Saves:
    program: str
    library: Callable[[], pathlib.Path]
    folder: pathlib.Path
    count: int = 0
    room: pathlib.Path = field(init=False)

    def begin(self) -> None:
        """Makes a folder of its own for the next save, with the pickle that is to be saved."""
        self.room = self.folder / f"room{self.count}"
        self.room.mkdir(parents=True)
        (self.room / "new").write_bytes(NEW)

    def words(self, source: str, out: str) -> list[str]:
        return [self.program, "debug", source, "--save", out]

    def save(self, out: str, source: str = "new", before: list[str] | None = None, limit: int | None = None, **environment: str) -> Run:
        """Saves `source` to `out`. With a limit no file may grow past this many bytes, and the signal of that is ignored."""

        def hold() -> None:
            if limit is not None:
                signal.signal(signal.SIGXFSZ, signal.SIG_IGN)
                resource.setrlimit(resource.RLIMIT_FSIZE, (limit, limit))

        self.count += 1
        done = subprocess.run(
            (before or []) + self.words(source, out),
            cwd=self.room,
            stdin=subprocess.DEVNULL,
            capture_output=True,
            timeout=600,
            env=dict(os.environ, **environment),
            preexec_fn=hold,
            restore_signals=limit is None,
        )
        return Run(done.returncode, done.stdout, done.stderr)

    def closing(self) -> str:
        return f"{self.count} saves were tried, by saves.py"

    def left(self) -> list[str]:
        return sorted(str(path.relative_to(self.room)) for path in self.room.rglob(UNFINISHED))

    def fault_of(self, run: Run, name: str, wanted: bytes | None) -> str:
        """What is wrong with a save that came to its end, after which the file has these bytes, or is not there."""
        path = self.room / name
        failed = (2, b"", CANNOT)
        if (run.status, run.output, run.errors) not in ((0, b"", b""), failed):
            return f"status {run.status}, output {run.output[:50]!r}, errors {run.errors[:100]!r}"
        if self.left():
            return f"left behind: {self.left()}"
        if wanted is None:
            return f"{name} was made" if path.exists() else ""
        if not path.exists() or path.read_bytes() != wanted:
            return f"{name} has other bytes"
        return ""

    def stored(self, run: Run, name: str, wanted: bytes = NEW) -> str:
        return self.fault_of(run, name, wanted) or ("" if run.status == 0 else f"status {run.status}, errors {run.errors[:100]!r}")

    def refused(self, run: Run, name: str, wanted: bytes | None = OLD) -> str:
        return self.fault_of(run, name, wanted) or ("" if run.status == 2 else f"status {run.status}")

    def mode_of(self, name: str) -> int:
        return stat.S_IMODE((self.room / name).stat().st_mode)


# --- What stays of a file that was there ---


def keeps_modes(saves: Saves) -> str:
    for mode in (0o600, 0o640, 0o644, 0o755, 0o777):
        saves.begin()
        (saves.room / "out").write_bytes(OLD)
        (saves.room / "out").chmod(mode)
        why = saves.stored(saves.save("out"), "out")
        if not why and saves.mode_of("out") != mode:
            why = f"the mode is {saves.mode_of('out'):o}"
        if why:
            return f"mode {mode:o}: {why}"
    return ""


def obeys_the_mask(saves: Saves) -> str:
    for mask in (0o022, 0o077, 0o002):
        saves.begin()
        run = saves.save("out", before=["sh", "-c", f'umask {mask:o}; exec "$@"', "sh"])
        why = saves.stored(run, "out")
        if not why and saves.mode_of("out") != 0o666 & ~mask:
            why = f"the mode is {saves.mode_of('out'):o}"
        if why:
            return f"mask {mask:o}: {why}"
    return ""


def begin_with_anothers(saves: Saves) -> pathlib.Path:
    """`out` is there, of another owner and another group."""
    saves.begin()
    out = saves.room / "out"
    out.write_bytes(OLD)
    os.chown(out, 65534, 65533)
    return out


def keeps_the_owner(saves: Saves) -> str:
    if os.geteuid() != 0:
        return ""
    out = begin_with_anothers(saves)
    why = saves.stored(saves.save("out"), "out")
    about = out.stat()
    return why or ("" if (about.st_uid, about.st_gid) == (65534, 65533) else f"it belongs to {about.st_uid}, {about.st_gid}")


def keeps_the_group(saves: Saves) -> str:
    """The owner cannot be given, and the group can, since the run is in it."""
    if os.geteuid() != 0:
        return ""
    out = begin_with_anothers(saves)
    out.chmod(0o664)
    why = saves.stored(saves.save("out", before=[*unprivileged(), "--groups=65533"]), "out")
    about = out.stat()
    found = (about.st_uid, about.st_gid, saves.mode_of("out"))
    return why or ("" if found == (0, 65533, 0o664) else f"it belongs to {found[0]}, {found[1]}, and the mode is {found[2]:o}")


def follows_links(saves: Saves) -> str:
    for is_there in (True, False):
        for absolute in (False, True):
            saves.begin()
            (saves.room / "below").mkdir()
            target = saves.room / "below" / "out"
            if is_there:
                target.write_bytes(OLD)
            (saves.room / "below" / "second").symlink_to("../below/out")
            first = saves.room / "below" / "second"
            (saves.room / "link").symlink_to(first if absolute else "below/second")
            why = saves.stored(saves.save("link"), "below/out")
            if not why and not ((saves.room / "link").is_symlink() and first.is_symlink() and not target.is_symlink()):
                why = "a link was replaced"
            if why:
                return f"{'a file' if is_there else 'no file'}, {'absolute' if absolute else 'relative'}: {why}"
    return ""


def goes_up_from_links(saves: Saves) -> str:
    """`..` behind a link to a folder is where that folder lies, also in the text of another link."""
    for name in ("link/../out", "second"):
        for is_there in (True, False):
            saves.begin()
            (saves.room / "far/below").mkdir(parents=True)
            (saves.room / "link").symlink_to(saves.room / "far/below")
            (saves.room / "second").symlink_to("link/../out")
            if is_there:
                (saves.room / "far/out").write_bytes(OLD)
            why = saves.stored(saves.save(name), "far/out")
            if not why and sorted(os.listdir(saves.room)) != ["far", "link", "new", "second"]:
                why = f"there is {sorted(os.listdir(saves.room))}"
            if why:
                return f"{name}, {'a file' if is_there else 'no file'}: {why}"
    return ""


def goes_round(saves: Saves) -> str:
    saves.begin()
    (saves.room / "link").symlink_to("link")
    return saves.refused(saves.save("link"), "link", None)


def refuses_links_that_are_no_text(saves: Saves) -> str:
    """The text of a link is not UTF-8. What it leads to is neither written nor made, and the link stays."""
    for is_there in (True, False):
        saves.begin()
        (saves.room / "link").symlink_to("\udcff")
        if is_there:
            (saves.room / "\udcff").write_bytes(OLD)
        before = sorted(os.listdir(saves.room))
        why = saves.refused(saves.save("link"), "link", OLD if is_there else None)
        if not why and not ((saves.room / "link").is_symlink() and sorted(os.listdir(saves.room)) == before):
            why = f"the link was replaced, or there is {sorted(os.listdir(saves.room))}"
        if why:
            return f"{'a file' if is_there else 'no file'}: {why}"
    return ""


def link_many(saves: Saves, count: int) -> str:
    """Makes so many symbolic links, one after another, of which the last leads to `out`, and gives the name of the first."""
    for number in range(count):
        (saves.room / f"link{number}").symlink_to(f"link{number - 1}" if number else "out")
    return f"link{count - 1}"


def follows_many_links(saves: Saves) -> str:
    """Linux follows 40 links, one after another, and no more."""
    for count, is_followed in ((40, True), (41, False)):
        for is_there in (True, False):
            saves.begin()
            if is_there:
                (saves.room / "out").write_bytes(OLD)
            run = saves.save(link_many(saves, count))
            why = saves.stored(run, "out") if is_followed else saves.refused(run, "out", OLD if is_there else None)
            if not why and not all((saves.room / f"link{number}").is_symlink() for number in range(count)):
                why = "a link was replaced"
            if why:
                return f"{count} links, {'a file' if is_there else 'no file'}: {why}"
    return ""


def keeps_other_names(saves: Saves) -> str:
    saves.begin()
    (saves.room / "out").write_bytes(OLD)
    os.link(saves.room / "out", saves.room / "other")
    why = saves.stored(saves.save("out"), "out")
    return why or ("" if (saves.room / "other").read_bytes() == OLD else "the other name lost the old bytes")


def takes_the_longest_name(saves: Saves) -> str:
    saves.begin()
    name = "o" * 255
    return saves.stored(saves.save(name), name) or saves.stored(saves.save(name), name)


def takes_other_folders(saves: Saves) -> str:
    saves.begin()
    (saves.room / "a folder").mkdir()
    names = ["a folder/out", "./out", "a folder/../out2", str(saves.room / "out3")]
    for name in names:
        why = saves.stored(saves.save(name), name)
        if why:
            return f"{name}: {why}"
    return ""


def refuses_names(saves: Saves) -> str:
    saves.begin()
    (saves.room / "a folder").mkdir()
    (saves.room / "file").write_bytes(OLD)
    for name in ("", "none/out", "a folder", "a folder/", "out/", "file/", "file/out", ".", "..", "/", "o" * 256):
        run = saves.save(name)
        why = saves.refused(run, "file")
        if not why and sorted(os.listdir(saves.room)) != ["a folder", "file", "new"]:
            why = f"there is {sorted(os.listdir(saves.room))}"
        if why:
            return f"'{name[:20]}': {why}"
    return ""


# --- What is no regular file ---


def writes_devices(saves: Saves) -> str:
    saves.begin()
    run = saves.save("/dev/stdout")
    if (run.status, run.output, run.errors) != (0, NEW, b""):
        return f"/dev/stdout: {run}"
    run = saves.save("/dev/full")
    if (run.status, run.output, run.errors) != (2, b"", CANNOT):
        return f"/dev/full: {run}"
    run = saves.save("/dev/null")
    if (run.status, run.output, run.errors) != (0, b"", b"") or not stat.S_ISCHR(os.stat("/dev/null").st_mode):
        return f"/dev/null: {run}"
    (saves.room / "full").symlink_to("/dev/full")
    return saves.refused(saves.save("full"), "new", NEW)


def writes_standard_output(saves: Saves) -> str:
    """Standard output is a file, or one that was removed while it is open and had more bytes. Linux names that one `out (deleted)`, and
    a file that has this name stays as it is."""
    saves.begin()
    why = saves.stored(saves.save("/dev/stdout", before=["bash", "-c", 'exec "$@" >out', "bash"]), "out")
    if why:
        return why
    shell = ["bash", "-c", 'exec 1<>out; rm out; "$@"; status=$?; cat /proc/$$/fd/1 >&2; exit $status', "bash"]
    for others in ([], ["out (deleted)"]):
        saves.begin()
        (saves.room / "out").write_bytes(LONGER)
        for name in others:
            (saves.room / name).write_bytes(OLD)
        run = saves.save("/dev/stdout", before=shell)
        if (run.status, run.errors) != (0, NEW) or sorted(os.listdir(saves.room)) != ["new", *others]:
            return f"removed: {run}, and there are {os.listdir(saves.room)}"
        for name in others:
            if (saves.room / name).read_bytes() != OLD:
                return f"removed: {name} has other bytes"
    return ""


def writes_a_fifo(saves: Saves) -> str:
    saves.begin()
    os.mkfifo(saves.room / "fifo")
    shell = ["bash", "-c", '{ cat fifo >out & } && "$@" && wait', "bash"]
    why = saves.stored(saves.save("fifo", before=shell), "out")
    return why or ("" if stat.S_ISFIFO((saves.room / "fifo").stat().st_mode) else "the FIFO was replaced")


# --- What fails ---


def fills_up(saves: Saves) -> str:
    """No file may grow past a limit: on another file, on FILE itself, and on none."""
    large = payload(200_000)
    for out, source, wanted in (("out", "large", OLD), ("large", "large", large), ("none", "large", None)):
        saves.begin()
        (saves.room / "large").write_bytes(large)
        (saves.room / "out").write_bytes(OLD)
        for limit in (0, 1, 65_536, 100_000, 200_005):
            before = (saves.room / out).stat() if wanted is not None else None
            why = saves.refused(saves.save(out, source, limit=limit), out, wanted)
            if not why and before is not None and (saves.room / out).stat().st_ino != before.st_ino:
                why = "it is another file"
            if why:
                return f"{out}, limit {limit}: {why}"
        why = saves.stored(saves.save(out, source, limit=len(large)), out, large)
        if why:
            return f"{out}, with room enough: {why}"
    return ""


def is_killed_by_the_limit(saves: Saves) -> str:
    saves.begin()
    (saves.room / "large").write_bytes(payload(200_000))
    run = saves.save("large", "large", before=["bash", "-c", 'ulimit -c 0 -f 100; exec "$@"', "bash"])
    if run.status != -signal.SIGXFSZ:
        return f"status {run.status}"
    return "" if (saves.room / "large").read_bytes() == payload(200_000) else "the file has other bytes"


def may_mount() -> list[str] | None:
    """Words before a command that may mount a file system, if this is allowed here."""
    for words in (["unshare", "--mount"], ["unshare", "--map-root-user", "--mount"]):
        try:
            ran = subprocess.run([*words, "mount", "-t", "tmpfs", "none", "/mnt"], capture_output=True, timeout=20)
        except OSError:
            return None
        if ran.returncode == 0:
            return words
    return None


def fills_a_device(saves: Saves, words: list[str]) -> str:
    """A file system of 64 KiB holds the old file, and no second one of its size."""
    script = (
        'mount -t tmpfs -o size=64k none disk || exit 9; cp "$1" disk/out; shift; "$@"; status=$?; '
        "cmp new disk/out >&2; ls disk | grep -vx out >&2; exit $status"
    )
    saves.begin()
    (saves.room / "disk").mkdir()
    (saves.room / "new").write_bytes(payload(40_000))
    run = saves.save("disk/out", "disk/out", before=[*words, "bash", "-c", script, "bash", "new"])
    return "" if (run.status, run.errors) == (2, CANNOT) else f"status {run.status}, errors {run.errors!r}"


def covers_a_file(saves: Saves, words: list[str]) -> str:
    """Standard output is a file under a folder where another file system was mounted since. There the file of its name, which has its number
    too, stays as it is."""
    script = (
        "for count in 1 2; do mount -t tmpfs none disk && cp old disk/out || exit 9; [ $count = 2 ] || exec 3<>disk/out; done; "
        '[ "$(stat -L -c %i /proc/$$/fd/3)" = "$(stat -c %i disk/out)" ] || exit 8; '
        '"$@" >&3; status=$?; cmp old disk/out >&2; cmp new /proc/$$/fd/3 >&2; ls disk | grep -vx out >&2; exit $status'
    )
    saves.begin()
    (saves.room / "disk").mkdir()
    (saves.room / "old").write_bytes(OLD)
    run = saves.save("/dev/stdout", before=[*words, "bash", "-c", script, "bash"])
    if run.status == 8:
        raise Skip("it wants file systems that number their files alike")
    return "" if (run.status, run.errors) == (0, b"") else f"status {run.status}, errors {run.errors!r}"


def may_not_write(saves: Saves) -> str:
    """The folder takes no new file; then the file itself may not be written, though its folder takes new ones."""
    for folder_mode, mode in ((0o555, 0o644), (0o755, 0o444)):
        saves.begin()
        (saves.room / "below").mkdir()
        (saves.room / "below" / "out").write_bytes(OLD)
        (saves.room / "below" / "out").chmod(mode)
        (saves.room / "below").chmod(folder_mode)
        why = saves.refused(saves.save("below/out", before=unprivileged()), "below/out")
        (saves.room / "below").chmod(0o755)
        if why:
            return f"modes {folder_mode:o} and {mode:o}: {why}"
    return ""


def breaks_calls(saves: Saves) -> str:
    """A call of the system fails that saving needs."""
    for call in ("fchmod", "fsync", "rename"):
        saves.begin()
        (saves.room / "out").write_bytes(OLD)
        why = saves.refused(saves.save("out", LD_PRELOAD=str(saves.library()), FAIL=call), "out")
        if why:
            return f"{call}: {why}"
    saves.begin()
    return saves.refused(saves.save("none", LD_PRELOAD=str(saves.library()), FAIL="rename"), "none", None)


def cannot_be_emptied(saves: Saves) -> str:
    """Standard output is a file that was removed while it is open: it is emptied first, and that fails."""
    saves.begin()
    (saves.room / "out").write_bytes(LONGER)
    shell = ["bash", "-c", 'exec 1<>out; rm out; FAIL=ftruncate LD_PRELOAD=$1 "${@:2}"; status=$?; cat /proc/$$/fd/1 >&2; exit $status', "bash"]
    run = saves.save("/dev/stdout", before=[*shell, str(saves.library())])
    if (run.status, run.errors) != (2, CANNOT + LONGER) or os.listdir(saves.room) != ["new"]:
        return f"{run}, and there are {os.listdir(saves.room)}"
    return ""


def save_below(saves: Saves, mode: int, is_there: bool, **environment: str) -> str:
    """Saves in a folder of this mode, where there is a file or none, and says what is wrong."""
    saves.begin()
    folder = saves.room / "below"
    folder.mkdir()
    if is_there:
        (folder / "out").write_bytes(OLD)
    folder.chmod(mode)
    run = saves.save("below/out", "new", unprivileged(), None, **environment)
    folder.chmod(0o755)
    return saves.stored(run, "below/out")


def bears_an_unstored_folder(saves: Saves) -> str:
    """The folder cannot be stored, which is done after the file has its name: the second fsync fails, or the folder may not be opened."""
    library = str(saves.library())
    for is_there in (True, False):
        why = save_below(saves, 0o755, is_there, LD_PRELOAD=library, FAIL="fsync", FAIL_FROM="2") or save_below(saves, 0o333, is_there)
        if why:
            return f"{'a file' if is_there else 'no file'}: {why}"
    return ""


def fails_without_owner(saves: Saves) -> str:
    saves.begin()
    (saves.room / "out").write_bytes(OLD)
    return saves.stored(saves.save("out", LD_PRELOAD=str(saves.library()), FAIL="fchown"), "out")


# --- In which order it is done ---


def order_of(saves: Saves, out: str, **environment: str) -> tuple[Run, list[str]]:
    """A save, and what it asks of the system in its order, where several writes in a row are one."""
    noted = saves.room / "order"
    run = saves.save(out, "new", None, None, LD_PRELOAD=str(saves.library()), ORDER=str(noted), **environment)
    lines = noted.read_text().splitlines()
    noted.unlink()
    return run, [line for number, line in enumerate(lines) if number == 0 or lines[number - 1] != line]


# Where a file is saved, and the mode of its folder, which is the current one or another.
PLACES = (("out", 0o755), ("below/out", 0o711))


def begin_places(saves: Saves) -> None:
    """The same with these folders, of these modes."""
    saves.begin()
    (saves.room / "below").mkdir()
    for name, mode in PLACES:
        (saves.room / name).parent.chmod(mode)


def stores_before_it_renames(saves: Saves) -> str:
    """A new file is private until it has the mode of the old one, which is before its first byte; it is stored before it gets the name of
    the old one, which is closed then, as Windows wants it, and the folder after that."""
    for mode, (out, folder) in itertools.product((0o600, 0o640, 0o644), PLACES):
        begin_places(saves)
        (saves.room / out).write_bytes(OLD)
        (saves.room / out).chmod(mode)
        run, order = order_of(saves, out, WRITE_MOST="1")
        wanted = ["fchown file 600", "fchmod file 600", f"write file {mode:o}", f"fsync file {mode:o}", "rename", f"fsync folder {folder:o}"]
        why = saves.stored(run, out) or ("" if order == wanted else f"the order is {order}")
        if why:
            return f"{out}, mode {mode:o}: {why}"
    return ""


def stores_a_new_file(saves: Saves) -> str:
    for out, folder in PLACES:
        begin_places(saves)
        run, order = order_of(saves, out, WRITE_MOST="1")
        mode = saves.mode_of(out)
        wanted = [f"write file {mode:o}", f"fsync file {mode:o}", "rename", f"fsync folder {folder:o}"]
        why = saves.stored(run, out) or ("" if order == wanted else f"the order is {order}")
        if why:
            return f"{out}: {why}"
    return ""


# --- Runs that are killed, and runs side by side ---


def kill_in_the_middle(saves: Saves, size: int) -> bool:
    """Kills a save as soon as its new file has bytes, and says whether there was one then."""
    saves.count += 1
    run = subprocess.Popen(saves.words("large", "out"), cwd=saves.room, stdin=subprocess.DEVNULL)
    before = set(saves.left())
    while run.poll() is None:
        for name in set(saves.left()) - before:
            try:
                if (saves.room / name).stat().st_size >= size:
                    run.kill()
            except FileNotFoundError:
                pass
    run.wait()
    return bool(set(saves.left()) - before)


def is_killed(saves: Saves) -> str:
    saves.begin()
    large = payload(50_000_000)
    (saves.room / "large").write_bytes(large)
    killed = 0
    for number in range(10):
        (saves.room / "out").write_bytes(OLD)
        was_killed = kill_in_the_middle(saves, 1 + number * 5_000_000)
        killed += was_killed
        if (saves.room / "out").read_bytes() != (OLD if was_killed else large):
            return f"run {number}: out has other bytes"
    left = saves.left()
    if killed == 0 or len(left) != killed:
        return f"{killed} runs were killed in the middle, and there are {left}"
    run = saves.save("out")
    if run.status != 0 or (saves.room / "out").read_bytes() != NEW or saves.left() != left:
        return f"the save after them: status {run.status}, and there are {saves.left()}"
    shutil.rmtree(saves.room)
    return ""


def run_side_by_side(saves: Saves) -> str:
    saves.begin()
    documents = [payload(300_000 + number) for number in range(8)]
    for number, document in enumerate(documents):
        (saves.room / f"new{number}").write_bytes(document)
    saves.count += len(documents)
    runs = [subprocess.Popen(saves.words(f"new{number}", "out"), cwd=saves.room, stdin=subprocess.DEVNULL) for number in range(len(documents))]
    statuses = [run.wait(timeout=600) for run in runs]
    if any(statuses) or saves.left():
        return f"statuses {statuses}, and there are {saves.left()}"
    return "" if (saves.room / "out").read_bytes() in documents else "the file is none of those that were saved"


TRIED: list[tuple[str, Callable[[Saves], str]]] = [
    ("a file saved over keeps its mode", keeps_modes),
    ("a new file has the mode that the mask leaves", obeys_the_mask),
    ("a file saved over keeps its owner", keeps_the_owner),
    ("a file saved over keeps its group where its owner cannot be given", keeps_the_group),
    ("owners that cannot be given are no fault", fails_without_owner),
    ("symbolic links are followed, and stay", follows_links),
    ("as many symbolic links as there may be", follows_many_links),
    ("the folder above what a symbolic link leads to", goes_up_from_links),
    ("a link to itself", goes_round),
    ("a link whose text is not UTF-8", refuses_links_that_are_no_text),
    ("a file with two names", keeps_other_names),
    ("the longest name", takes_the_longest_name),
    ("names in other folders", takes_other_folders),
    ("names that no file can have", refuses_names),
    ("devices are written as they are", writes_devices),
    ("standard output is a file", writes_standard_output),
    ("a FIFO is written as it is", writes_a_fifo),
    ("no room for the new file", fills_up),
    ("a run that the limit ends", is_killed_by_the_limit),
    ("a folder and a file that may not be written", may_not_write),
    ("a call of the system that fails", breaks_calls),
    ("a removed file that cannot be emptied", cannot_be_emptied),
    ("a folder that cannot be stored", bears_an_unstored_folder),
    ("a saved file is private, and stored before it is renamed", stores_before_it_renames),
    ("a new file is stored before it is renamed", stores_a_new_file),
    ("runs that are killed while they save", is_killed),
    ("runs that save one file side by side", run_side_by_side),
]


MOUNTED: list[tuple[str, Callable[[Saves, list[str]], str]]] = [
    ("a full file system", fills_a_device),
    ("a file of one number on another file system", covers_a_file),
]


def mounted(saves: Saves, attempt: Callable[[Saves, list[str]], str]) -> Noted:
    words = may_mount()
    if words is None:
        return Noted("", " (not tried: nothing may be mounted here)")
    return Noted(attempt(saves, words), "")


def trials(saves: Saves) -> list[Trial]:
    found = [Trial(name, functools.partial(attempt, saves)) for name, attempt in TRIED]
    return [*found, *(Trial(name, functools.partial(mounted, saves, attempt)) for name, attempt in MOUNTED)]
