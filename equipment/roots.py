"""Roots with nothing in them but what a program for a further machine needs there, each in the way in which it is tried.

Files have in a root the paths that they have outside, so that the words of a run are the same and its answers can be compared.
"""

from __future__ import annotations

import functools
import os
import re
import shutil
import subprocess
from collections.abc import Iterable
from pathlib import Path

from trials.trial import Lack

# What an Alpine has before anything is installed, as Debian brings it: busybox for all commands, and musl's loader. The entrance in a
# clone needs bash besides.
BUSYBOX, BASH, MUSL = Path("/bin/busybox"), Path("/bin/bash-static"), Path("/lib/ld-musl-x86_64.so.1")


@functools.cache
def entering() -> tuple[str, ...]:
    """The words that start a command in a root, which follows them: as the superuser, or where the kernel lets a user be one."""
    for words in (("chroot",), ("unshare", "--map-root-user", "chroot")):
        if shutil.which(words[0]) and subprocess.run([*words, "/", "true"], capture_output=True, check=False).returncode == 0:
            return words
    raise Lack("the root may not be changed here")


def libraries(program: Path) -> list[Path]:
    """The loader and the shared libraries that a program of this machine is started with."""
    said = subprocess.run(["ldd", str(program)], capture_output=True, text=True, check=False).stdout
    return [Path(name) for name in re.findall(r"(/\S+) \(0x", said)]


def put(file: Path, at: Path) -> None:
    """A file of that name, which may be a further name of the same file where both are on one device."""
    at.parent.mkdir(parents=True, exist_ok=True)
    source = file.resolve()
    try:
        os.link(source, at)
    except OSError:
        shutil.copy(source, at)


class Root:
    """A folder that becomes the root."""

    def __init__(self, at: Path) -> None:
        self.at = at
        at.mkdir(parents=True)

    def path(self, file: Path) -> Path:
        """Where a file is from outside."""
        return self.at / file.relative_to("/")

    def add(self, files: Iterable[Path]) -> None:
        """Puts files where they are outside."""
        for file in files:
            if not self.path(file).exists():
                put(file, self.path(file))

    def add_program(self, program: Path) -> None:
        """A program of this machine, with what it is started with."""
        self.add([program, *libraries(program)])

    def start(self, *words: "str | Path") -> list[str]:
        """The words that start a command there, with none of the variables that are set here."""
        return ["env", "-i", "PATH=/usr/local/bin:/usr/bin:/bin:/usr/sbin:/sbin", *entering(), str(self.at), *map(str, words)]


def like_alpine(at: Path) -> Root:
    """A root with busybox's commands, musl's loader and bash, and no glibc."""
    for file, package in ((BUSYBOX, "busybox-static"), (BASH, "bash-static"), (MUSL, "musl")):
        if not file.exists():
            raise Lack(f"there is no {file} (Debian's {package}: equipment/install_targets)")
        if file != MUSL and libraries(file):
            raise Lack(f"{file} is not static (Debian's {package}: equipment/install_targets)")
    root = Root(at)
    for folder in ("bin", "usr/bin", "lib", "tmp", "dev"):
        (at / folder).mkdir(parents=True)
    put(BUSYBOX, at / "bin/busybox")
    put(BASH, at / "bin/bash")
    put(MUSL, at / "lib/ld-musl-x86_64.so.1")
    (at / "dev/null").write_bytes(b"")
    for name in subprocess.run([BUSYBOX, "--list"], capture_output=True, text=True, check=True).stdout.split():
        if name not in ("busybox", "bash"):
            (at / "bin" / name).symlink_to("busybox")
    return root
