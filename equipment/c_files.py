"""Tries each file of targets/c by itself, compiled for this machine: what no proof says of the programs for further machines."""

from __future__ import annotations

import errno
import functools
import os
import random
import socket
import subprocess
from collections.abc import Callable, Iterator
from dataclasses import dataclass
from pathlib import Path

from trials.room import beginning, text_difference
from trials.trial import Lack, Trial

MUSL, MUSL_HEADERS = Path("/usr/lib/x86_64-linux-musl"), Path("/usr/include/x86_64-linux-musl")
SEED = 1
RANDOM = 20000
ALL = (1 << 128) - 1
EDGES = sorted({0, 1, 2, ALL} | {(1 << bits) + more & ALL for bits in (31, 32, 33, 63, 64, 65, 95, 96, 127) for more in (-1, 0, 1)})
# The numbers of errors in WASI's preview 1, from 1 on. (What Linux has no such number for is the last, and is EPERM there.)
OF_WASI = (
    "2BIG ACCES ADDRINUSE ADDRNOTAVAIL AFNOSUPPORT AGAIN ALREADY BADF BADMSG BUSY CANCELED CHILD CONNABORTED CONNREFUSED CONNRESET DEADLK "
    "DESTADDRREQ DOM DQUOT EXIST FAULT FBIG HOSTUNREACH IDRM ILSEQ INPROGRESS INTR INVAL IO ISCONN ISDIR LOOP MFILE MLINK MSGSIZE MULTIHOP "
    "NAMETOOLONG NETDOWN NETRESET NETUNREACH NFILE NOBUFS NODEV NOENT NOEXEC NOLCK NOLINK NOMEM NOMSG NOPROTOOPT NOSPC NOSYS NOTCONN NOTDIR "
    "NOTEMPTY NOTRECOVERABLE NOTSOCK NOTSUP NOTTY NXIO OVERFLOW OWNERDEAD PERM PIPE PROTO PROTONOSUPPORT PROTOTYPE RANGE ROFS SPIPE SRCH "
    "STALE TIMEDOUT TXTBSY XDEV PERM"
).split()
OPENED = "follow 1 how 0 rights 204036 0 flags 0; 9"
TIMES = "times 1.1 2.2 3.3"
# What is asked of wasi.c and what it answers, where it answers something: see try_wasi.c.
WASI = [
    ("start", " 0 -1 0"),
    ("words picklestep list a/b '' x", ""),
    ("environment HOME=/x PWD=b PWD= PWDX=/c A", ""),
    ("start", " 5 picklestep 10 10 -2 list 4 4 -2 a/b 3 3 -2  0 0 -2 x 1 1 -2 -1 0"),
    ("open 0 a", " -1 error 2"),
    ("folders /", ""),
    ("open 0 a", " -1 error 2"),
    ("open 0 /", f"open 3 . {OPENED}"),
    ("open 0 //a//b", f"open 3 a//b {OPENED}"),
    ("folders .", ""),
    ("open 0 a/b", f"open 3 a/b {OPENED}"),
    ("open 0 /a", " -1 error 2"),
    ("folders a a/b/ ''", ""),
    ("open 0 a", f"open 3 . {OPENED}"),
    ("open 0 a/b", f"open 3 b {OPENED}"),
    ("open 0 a/b/c", f"open 4 c {OPENED}"),
    ("open 0 ab", f"open 5 ab {OPENED}"),
    ("folders /home / /home/user", ""),
    ("environment PWD=/home/user/in PWDX=/c", ""),
    ("start", " 5 picklestep 10 10 -2 list 4 4 -2 a/b 3 3 -2  0 0 -2 x 1 1 -2 -1 0"),
    ("open 0 a", f"open 5 in/a {OPENED}"),
    ("open 0 ../a", f"open 5 in/../a {OPENED}"),
    ("open 0 /home", f"open 3 . {OPENED}"),
    ("open 0 /homes", f"open 4 homes {OPENED}"),
    ("open 0 /home/users", f"open 3 users {OPENED}"),
    ("open 1101 /x", "open 4 x follow 1 how 9 rights 600075 0 flags 0; 9"),
    ("open 2302 /x", "open 4 x follow 1 how 5 rights 604077 0 flags 1; 9"),
    ("open 200000 /x", "open 4 x follow 1 how 2 rights 204036 0 flags 0; 9"),
    (f"open 0 {'a' * 8191}", " -1 error 36"),
    ("rename a /home/b", "rename 5 in/a to 3 b 0"),
    ("unlink a", "unlink 5 in/a 0"),
    ("readlink /a 10", "readlink 4 a 3"),
    ("readlink /a 2", "readlink 4 a 2"),
    ("stat 0 a", f"stat 5 in/a follow 1; mask 7e7 mode 40644 links 2 size 1025 blocks 3 inode 11 device 5 7 {TIMES} 0"),
    ("stat 400 a", f"stat 5 in/a follow 0; mask 7e7 mode 40644 links 2 size 1025 blocks 3 inode 11 device 5 7 {TIMES} 0"),
    ("fstat", f" mask 7e7 mode 100644 links 2 size 1025 blocks 3 inode 11 device 5 7 {TIMES} 0"),
    ("read 4", " 0123 4"),
    ("pieces 1", ""),
    ("read 4", " 4 1"),
    ("pieces 3", ""),
    ("write abcdef", "abc; 3"),
    ("read 90", " 567 3"),
    ("pieces 90", ""),
    ("read 90", " 89 2"),
    ("read 90", "  0"),
    ("others", " close 0 sync 0 0 size 0 seek 42 mode 0 signal 0 owner -1; -1 error 95"),
    ("error 29", ""),
    ("open 0 /a", f"open 4 a {OPENED[:-1]}-1 error 5"),
    ("stat 0 /a", "stat 4 a follow 1; -1 error 5"),
    ("rename /a /b", "rename 4 a to 4 b -1 error 5"),
    ("unlink /a", "unlink 4 a -1 error 5"),
    ("readlink /a 9", "readlink 4 a -1 error 5"),
    ("fstat", " -1 error 5"),
    ("others", " close -1 sync -1 -1 size -1 seek -1 mode 0 signal 0 owner -1; -1 error 95"),
    ("unable 1", ""),
    ("start", " 0 -1 0"),
    ("unable 2", ""),
    ("start", " 0 -1 0"),
]


@dataclass
class Files:
    root: Path
    folder: Path

    @property
    def c(self) -> Path:
        return self.root / "targets/c"

    def compiled(self, name: str, *words: "str | Path", compiler: str = "cc") -> Path:
        """equipment/c_files/try_NAME.c, compiled together with what these words name. A fault of it is one of the trial."""
        self.folder.mkdir(parents=True, exist_ok=True)
        made = self.folder / f"{name}-{len(list(self.folder.iterdir()))}"
        source = self.root / "equipment/c_files" / f"try_{name}.c"
        done = subprocess.run([compiler, "-O2", "-fno-builtin", f"-I{self.c}", "-o", made, source, *words], capture_output=True, check=False)
        if done.returncode != 0:
            raise OSError(f"it does not compile: {beginning(done.stderr)}")
        return made

    def with_musl(self, name: str, *words: str) -> Path:
        """The same, statically linked with musl."""
        if not MUSL.is_dir():
            raise Lack("there is no musl (equipment/install_targets)")
        own = subprocess.run(["cc", "-print-file-name=include"], capture_output=True, text=True, check=True).stdout.strip()
        headers = ("-nostdinc", "-isystem", MUSL_HEADERS, "-isystem", own)
        start = ("-fno-stack-protector", "-nostdlib", "-static", "-no-pie", "-fno-pie", MUSL / "crt1.o", MUSL / "crti.o")
        return self.compiled(name, *headers, *start, *words, MUSL / "libc.a", MUSL / "crtn.o")

    def run(self, program: Path, *words: "str | Path", given: str = "") -> "tuple[int, str]":
        done = subprocess.run([program, *words], input=given.encode(), capture_output=True, timeout=300, check=False)
        return done.returncode, done.stdout.decode()


def fault_of(done: "tuple[int, str]") -> str:
    status, said = done
    return "" if status == 0 else f"status {status}: {beginning(said.encode())}"


def heap(files: Files) -> str:
    """Under a load of random sizes, also where memory is refused, on Linux and as in a module; and the moves of blocks."""
    ways = ((files.c / "heap.c", files.c / "blocks.c", "-Wl,--wrap=syscall,--wrap=mmap,--wrap=mremap"), ("-DMODULE",))
    return next(filter(None, (fault_of(files.run(files.compiled("heap", *way))) for way in ways)), "")


def exports(files: Files) -> str:
    return fault_of(files.run(files.compiled("exports", "-Wno-attributes")))


def products(files: Files) -> str:
    """Against Python's integers, for values at the edges and random ones."""
    chance = random.Random(SEED)
    pairs = [(a, b) for a in EDGES for b in EDGES] + [(value(chance), value(chance)) for _ in range(RANDOM)]
    asked = [("*", a, b) for a, b in pairs] + [(how, a, n) for a in (*EDGES, *(value(chance) for _ in range(100))) for n in range(128) for how in "<>"]
    wanted = [(a * b if how == "*" else a << b if how == "<" else a >> b) & ALL for how, a, b in asked]
    given = "".join(f"{how} {a:x} {b:x}\n" for how, a, b in asked)
    status, said = files.run(files.compiled("products"), given=given)
    if status != 0:
        return f"status {status}"
    found = [int(line, 16) for line in said.splitlines()]
    wrong = next((f"{how} {a:x} {b:x}: {is_:x}" for (how, a, b), is_, has in zip(asked, found, wanted) if is_ != has), "")
    return wrong or ("" if len(found) == len(asked) else f"{len(found)} answers")


def value(chance: random.Random) -> int:
    return chance.getrandbits(chance.randrange(129))


def start(files: Files) -> str:
    """The words of the command line, with glibc, with it statically, and with musl."""
    words = ["one", "", "a longer word", "\u00e9", "last"]
    for made in (files.compiled("start"), files.compiled("start", "-static"), files.with_musl("start", "-Wl,--wrap=main")):
        status, said = files.run(made, *words)
        if (status, said.splitlines()) != (0, words):
            return f"{made.name}: status {status}, {said!r}"
    return ""


def musl(files: Files) -> str:
    """Files of each kind; `statx` is answered the same without the call of the kernel."""
    made = files.with_musl("musl", "-Wl,--wrap=syscall")
    at = files.folder / "kinds"
    at.mkdir()
    (at / "file").write_bytes(b"x" * 5000)
    (at / "file").chmod(0o4751)
    os.utime(at / "file", ns=(1_000_000_002, 3_000_000_004))
    (at / "folder").mkdir()
    os.symlink("file", at / "link")
    os.symlink("nowhere", at / "broken")
    os.link(at / "file", at / "second")
    os.mkfifo(at / "fifo")
    with socket.socket(socket.AF_UNIX) as opened:
        opened.bind(os.path.relpath(at / "socket"))
    kinds = [*sorted(at.iterdir()), at / "missing", at / "file/below", "/dev/null", "/dev/zero"]
    return fault_of(files.run(made, *kinds))


def limited(files: Files) -> str:
    """With both C libraries."""
    for made in (files.compiled("limited", "-pthread"), files.with_musl("limited")):
        why = fault_of(files.run(made))
        if why:
            return f"{made.name}: {why}"
    return ""


def wasi(files: Files) -> str:
    """Words, paths, short reads and writes, errors: what is asked of the host, and what is answered."""
    made = files.compiled("wasi", "-w")
    rows = list(errors())
    given = "".join(f"{line}\n" for line, _ in (*WASI, *rows))
    wanted = "".join(f"{answer}\n" for _, answer in (*WASI, *rows) if answer)
    status, said = files.run(made, given=given)
    return f"status {status}" if status else text_difference(said.encode(), wanted.encode())


def errors() -> Iterator["tuple[str, str]"]:
    """Each number that a host may answer."""
    numbers = {number: getattr(errno, f"E{name}") for number, name in enumerate(OF_WASI, 1)}
    for number in (*numbers, len(OF_WASI) + 1, 65535, -1):
        yield f"error {number}", ""
        yield "read 9", f"  -1 error {numbers.get(number, errno.EIO)}"


ROWS: "list[tuple[str, Callable[[Files], str]]]" = [
    ("C of further machines: the heap and blocks", heap),
    ("C of further machines: memory for a host", exports),
    ("C of further machines: products and shifts", products),
    ("C of further machines: the start", start),
    ("C of further machines: what musl lacks", musl),
    ("C of further machines: the library's memory", limited),
    ("C of further machines: POSIX over WASI", wasi),
]


def trials(root: Path, folder: Path) -> list[Trial]:
    files = Files(root, folder)
    return [Trial(name, functools.partial(row, files)) for name, row in ROWS]
