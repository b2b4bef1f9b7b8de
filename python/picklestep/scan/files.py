"""The files that paths stand for."""

from __future__ import annotations

import os
import stat
import sys
from importlib import import_module
from typing import BinaryIO, Iterable, Iterator, List

from ..errors import PicklestepError
from ..sources import is_opened
from .looking import is_url, left_out
from .results import Note, Result

__all__ = ['Found', 'NoNames', 'find_files', 'read_names']


class NoNames(PicklestepError):
    """Standard input has no names of files, each up to a newline; or it cannot be read, or is not among the paths."""


class Found:
    """The files to look at, and a result for each path at which there is nothing to look at. What is `opened` only this process can read."""

    def __init__(self) -> None:
        self.paths: List[str] = []
        self.opened: List[str] = []
        self.results: List[Result] = []

    def add(self, path: str) -> None:
        """Adds a path: a file, a folder, a URL."""
        if is_url(path):
            self.paths.extend(_urls(path))
        elif os.path.isdir(path):
            self._walk(path)
        elif is_opened(path):
            self.opened.append(path)
        else:
            self._add_file(path, is_named=True)

    def _add_file(self, path: str, is_named: bool = False) -> None:
        """Adds a file, also through a symbolic link (caches of models consist of these)."""
        try:
            state = os.stat(path)
        except OSError as error:
            self.results.append(Result(path, error=error.strerror or str(error)))
            return
        if stat.S_ISREG(state.st_mode):
            self.paths.append(path)
        elif stat.S_ISDIR(state.st_mode):
            self.results.append(Result(path, left='a symbolic link to a folder'))
        else:
            self.results.append(left_out(path, state.st_mode, is_named))

    def _walk(self, top: str) -> None:
        """Adds what a folder holds. A symbolic link to a folder is not followed: it may lead back."""
        def failed(error: OSError) -> None:
            self.results.append(Result(str(error.filename), error=error.strerror))

        before = len(self.paths)
        for folder, folders, names in os.walk(top, onerror=failed):
            folders.sort()
            links = [name for name in folders if os.path.islink(os.path.join(folder, name))]
            for name in sorted(names) + links:
                self._add_file(os.path.join(folder, name))
        if len(self.paths) == before:
            self.results.append(Result(top, left='a folder without files', notes=(Note((), 'no file in it is looked at', missed=True),)))


def _urls(url: str) -> List[str]:
    """The files below a URL, or the URL itself."""
    try:
        fsspec = import_module('fsspec')
        system, path = fsspec.core.url_to_fs(url)
        if system.isdir(path):
            return [system.unstrip_protocol(name) for name in sorted(system.find(path))]
    except Exception:  # whatever is wrong is reported when it is opened
        pass
    return [url]


def read_names(source: BinaryIO, separator: bytes) -> Iterator[str]:
    """The paths that an input names, each up to a newline or a NUL byte. Raises NoNames where one has a NUL byte in it, and where the input cannot
    be read."""
    try:
        text = source.read()
    except OSError as error:
        raise NoNames(f'cannot read standard input: {error.strerror}') from error
    if separator != b'\0' and b'\0' in text:
        raise NoNames('standard input has a NUL byte, which is in no name: --null is for names that end in one')
    return (os.fsdecode(name) for name in text.split(separator) if name)


def find_files(paths: Iterable[str], separator: bytes = b'\n') -> Found:
    """The files that the paths stand for; `-` stands for the names on standard input."""
    found = Found()
    for path in paths:
        for name in read_names(sys.stdin.buffer, separator) if path == '-' else (path,):
            found.add(name)
    return found
